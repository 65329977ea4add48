"""What the scripts that time programs share: a program's path, the time and the memory that it takes for a case, the printed table, and
programs over copies of the crates that they stand on."""
import pathlib, resource, shutil, struct, subprocess, sys, tempfile

TOP = pathlib.Path(__file__).resolve().parent.parent
BUILDING = """
Without PROGRAM it is crates/NAME/out/NAME, which this proves and builds (some minutes at first):

    cd crates/NAME && rt run <stdin >/dev/null
"""


def u2(n):
    """Two bytes of a class file."""
    return struct.pack('>H', n)


def program(usage, name):
    """The path of the program that the words of the command name; ends with the usage text where there is none."""
    path = pathlib.Path(sys.argv[1]) if len(sys.argv) == 2 else TOP / 'crates' / name / 'out' / name
    if len(sys.argv) > 2 or not path.is_file():
        sys.exit(usage.strip() + '\n' + BUILDING.rstrip().replace('NAME', name))
    return path.resolve()


def processor_seconds():
    """The processor time of the programs that were run so far, in them and in the system for them."""
    used = resource.getrusage(resource.RUSAGE_CHILDREN)
    return used.ru_utime + used.ru_stime


def answer_and_seconds(path, line):
    """The program's answer to a line of input, and the least processor time of five runs, or of one that takes above a second."""
    best = None
    for _ in range(5):
        before = processor_seconds()
        answer = subprocess.run([path], input=line, capture_output=True, check=True).stdout
        took = processor_seconds() - before
        best = took if best is None else min(best, took)
        if best > 1:
            break
    return answer, best


# Runs a program and prints the most KiB that it had at once. A process of its own does this: a program starts with the mark that
# its parent reached, and this script's is high. Statuses 1 and 2 are answers too: MAYBE, and a refused certificate.
PEAK = 'import os,sys; p=os.posix_spawn(sys.argv[1],sys.argv[1:],{}); _,s,u=os.wait4(p,0); sys.exit(os.waitstatus_to_exitcode(s) not in (0,1,2) or str(u.ru_maxrss))'


def peak_memory(path, line):
    """The most memory in MiB that the program had at once, for a line of input."""
    done = subprocess.run([sys.executable, '-c', PEAK, path], input=line, stdout=subprocess.DEVNULL, stderr=subprocess.PIPE)
    if not done.stderr.strip().isdigit():
        sys.exit('the program failed: %r' % done.stderr[:80])
    return int(done.stderr) / 1024


def print_row(words):
    print(''.join('%-11s' % word for word in words).rstrip(), flush=True)


def print_times(usage, heading, cases, name, memory=False):
    """A line for each case: its words, and the milliseconds of processor time that it takes beyond an empty input; with `memory`
    the most memory too that the program had at once, the input included.

    A case is a list of words to print, the fields of the program's input, and a test that its answer passes.
    """
    path = program(usage, name)
    _, empty = answer_and_seconds(path, b'')
    print_row(heading + ['ms'] + ['MiB'] * memory)
    for words, fields, is_right in cases:
        line = '\t'.join(fields).encode() + b'\n'
        answer, took = answer_and_seconds(path, line)
        if not is_right(answer):
            sys.exit('another answer than wanted: %r' % answer[:80])
        print_row(words + ['%.1f' % (1000 * (took - empty))] + ['%.1f' % peak_memory(path, line)] * memory)


def crate_rows():
    """What each crate stands on, in the order of crates.txt."""
    lines = (line.split('#')[0] for line in (TOP / 'crates.txt').read_text().splitlines())
    return {name.strip(): below.split() for name, _, below in (line.partition(':') for line in lines if ':' in line)}


def crates_below(rows, names):
    """The crates among the names and all that these stand on, each once, lower ones first."""
    found = []
    for name in names:
        if name in rows:
            found += [one for one in [*crates_below(rows, rows[name]), name] if one not in found]
    return found


def program_over_copies(folder, name, below, text):
    """The folder of a program of this text, below the folder, beside copies of the crates that it stands on."""
    rows = crate_rows()
    crates, wanted = pathlib.Path(folder) / 'crates', crates_below(rows, below.split())
    for crate in wanted:
        shutil.copytree(TOP / 'crates' / crate, crates / crate, ignore=shutil.ignore_patterns('out'))
    lines = ['%s: %s\n' % (crate, ' '.join(rows[crate])) for crate in wanted]
    (crates.parent / 'crates.txt').write_text(''.join(lines) + '%s: %s\n' % (name, below))
    (crates / name / 'src').mkdir(parents=True)
    (crates / name / 'src/main.rt').write_text(text)
    return crates / name


def run_over_copies(folder, name, below, text):
    """The path of a program of this text, over copies of the crates that it stands on, that is proved, built with LLVM and run."""
    program = program_over_copies(folder, name, below, text)
    if subprocess.run(['rt', 'run'], cwd=program, stdin=subprocess.DEVNULL).returncode != 0:
        sys.exit('the program is not proved')
    return program / 'out' / name


def print_over_copies(columns, name, below, text):
    """Prints the table of these columns whose lines a program of this text prints, which is proved, built and run over copies of crates."""
    print('| %s |\n|%s' % (' | '.join(columns), '---|' * len(columns)), flush=True)
    with tempfile.TemporaryDirectory() as folder:
        run_over_copies(folder, name, below, text)
