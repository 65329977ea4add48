"""What the merge gate costs, crate by crate, from nothing: processor seconds for each crate's proof (and for the proof of
its tests, where it has some) and for its must-fail edits.

usage: python3 bench/gate.py [CRATE..]
       python3 bench/gate.py --page TIMES LOG
       python3 bench/gate.py --ways

Works in a fresh copy of this checkout's crates/, crates.txt and HANDLES below a new folder, which it removes at its end.
Without names it takes every crate of crates.txt, lowest first. Libraries below a crate are built before its clock starts.
Some hours of one core for all crates; other jobs on the machine hardly change processor time.

With --page it runs nothing, and writes what a run of the gate took into bench/gate.md, between its two marks, and what the first use of
each program takes into bench/first_use.txt, which ./jterm says. TIMES is what gate_watch.py noted beside that run, and LOG what stamp.py
wrote of it. Crates and layers are those of crates.txt, and lines those of this checkout, so it has to be as the gate saw it. A time that
TIMES lacks is a dash.

With --ways it says in how many ways crates.txt leads down from each crate, and from all together: rt goes through each of them before it
proves anything.
"""
import collections, datetime, pathlib, re, resource, shutil, subprocess, sys, tempfile, textwrap

from common import TOP, crate_rows, crates_below

BUDGET = 240  # processor seconds for 1,000 lines
PAGE, FIRST_USE = TOP / 'bench/gate.md', TOP / 'bench/first_use.txt'
# Between these lines of gate.md stands what --page writes.
MARKS = '<!-- begin: written by gate.py --page -->\n', '<!-- end: written by gate.py --page -->\n'


def seconds(command, folder):
    """The processor seconds that the command takes, with those of what it runs; ends where it fails."""
    before = resource.getrusage(resource.RUSAGE_CHILDREN)
    done = subprocess.run(command, cwd=folder, stdout=subprocess.PIPE, stderr=subprocess.STDOUT)
    after = resource.getrusage(resource.RUSAGE_CHILDREN)
    if done.returncode:
        sys.exit('%s in %s:\n%s' % (' '.join(command), folder, done.stdout.decode()[-2000:]))
    return after.ru_utime + after.ru_stime - before.ru_utime - before.ru_stime


def lines(folder):
    """The lines of code, definitions and proofs of a crate."""
    files = [f for f in folder.rglob('*') if f.suffix in ('.rt', '.antt') and 'out' not in f.parts]
    return sum(len(f.read_text().splitlines()) for f in files)


def measure(copy, name, below):
    folder = copy / 'crates' / name
    for low in below:
        if (copy / 'crates' / low).is_dir():
            seconds(['rt', 'lib'], copy / 'crates' / low)
    proof = seconds(['rt', 'check', '--jobs', '1'], folder)
    has_tests = any('#[test]' in f.read_text() for f in (folder / 'src').rglob('*.rt'))
    tests = seconds(['rt', 'check', '--test', '--jobs', '1'], folder) if has_tests else 0
    edits = list((folder / 'must-fail').glob('*.edit'))
    refused = seconds(['rt', 'must-fail', '--anew', name], copy) if edits else 0
    return lines(folder), proof, tests, refused, len(edits)


def layers():
    """The layer of each crate, by the lines of crates.txt that begin one: '# Base: lists, texts'."""
    layer, found = '', {}
    for line in (TOP / 'crates.txt').read_text().splitlines():
        begins = re.match(r'# ([A-Z][a-z ]*):', line)
        if begins:
            layer = begins[1]
        elif ':' in line.split('#')[0]:
            found[line.split(':')[0].strip()] = layer
    return found


def noted(file):
    """The processor seconds of each crate's proof (of a program with its builds), tests and edits that gate_watch.py noted."""
    times = collections.defaultdict(dict)
    for line in pathlib.Path(file).read_text().splitlines():
        name, kind, spent, *_ = line.split('\t')
        kind = 'proof' if kind == 'builds' else kind
        times[name][kind] = times[name].get(kind, 0) + float(spent)
    return times


class Log:
    """A log that stamp.py wrote: what it notes of the run by its words, and the lines, each with its second."""

    def __init__(self, file):
        self.notes, self.lines = {}, []
        for line in pathlib.Path(file).read_text(errors='replace').splitlines():
            word, _, text = line.partition(' ')
            if word == '#':
                self.notes.update([text.split(': ', 1)])
            elif re.fullmatch(r'[0-9.]+', word):
                self.lines.append((float(word), text))
        if 'status' not in self.notes:
            sys.exit('gate.py: the run that %s tells of has not ended' % file)

    def proved(self, name):
        """The second at which a crate's proof, and its program, were done, or None."""
        return next((second for second, text in self.lines if text == 'rt: %s proved' % name), None)

    def is_from_nothing(self):
        return not any(re.match(r'rt: \w+ is kept:', text) or 'by an earlier run on this machine' in text for _, text in self.lines)

    def last(self, begin):
        """The last line that so begins, or nothing."""
        return next((text for _, text in reversed(self.lines) if re.match(begin, text)), '')

    def date(self):
        day = datetime.date.fromisoformat(self.notes['date'].split()[0])
        return '%d %s' % (day.day, day.strftime('%B %Y'))

    def minutes(self, word):
        return number(float(self.notes[word]) / 60)


def number(value):
    return '-' if value is None else format(round(value), ',')


def wrapped(*sentences):
    """A paragraph of these sentences."""
    return textwrap.fill(' '.join(sentences), 138, break_long_words=False, break_on_hyphens=False) + '\n\n'


def row(title, size, parts, texts=None):
    """A row of a table: lines, the seconds of its parts (or texts in their place), their sum and the budget."""
    cells = [number(size), *(texts or map(number, parts)), number(sum(part or 0 for part in parts)), number(size * BUDGET / 1000)]
    return '| %s | %s |\n' % (title, ' | '.join(cells))


class Page:
    """What --page writes of a run."""

    def __init__(self, times, log):
        self.times, self.log, self.rows, self.layers = times, log, crate_rows(), layers()
        self.size = {name: lines(TOP / 'crates' / name) for name in self.rows}
        self.edits = {name: len(list((TOP / 'crates' / name / 'must-fail').glob('*.edit'))) for name in self.rows}

    def parts(self, name):
        return [self.times[name].get(kind) for kind in ('proof', 'tests', 'edits')]

    def first_uses(self):
        """Of each program: its crates, the processor seconds of their proofs and builds, and the second at which the gate had it."""
        for name in self.rows:
            if name.endswith('_cli'):
                below = crates_below(self.rows, [name])
                # (a first use proves what tests these crates have, and tries no edits)
                yield name, below, sum(part or 0 for one in below for part in self.parts(one)[:2]), self.log.proved(name)

    def longest(self):
        """The processor seconds of the proofs of a chain of crates, each above the one before, where they are most, and the chain."""
        best = {}
        for name, below in self.rows.items():
            before = max((best[low] for low in below if low in best), key=lambda of: of[0], default=(0, []))
            best[name] = before[0] + (self.times[name].get('proof') or 0), [*before[1], name]
        return max(best.values(), key=lambda of: of[0])

    def run(self):
        """What the run was, in words."""
        notes, log = self.log.notes, self.log
        nothing = 'from nothing' if log.is_from_nothing() else 'over what earlier runs had kept'
        yield wrapped(
            '%s, commit %s, `rt version` says %s, %s cores,' % (log.date(), notes['commit'], notes['kit'], notes['cores']),
            '`%s` %s:' % (notes['command'], nothing),
            '**%s minutes by the clock, %s processor minutes**.' % (log.minutes('wall'), log.minutes('processor')),
            'All other processes of the machine took %s processor minutes meanwhile. Its last lines:' % log.minutes('others'))
        said = [log.last('rt: (ok|FAILED)'), log.last(r'\d+ passed, \d+ failed')]
        yield ''.join('    %s\n' % line for line in said if line) + '\n'
        proofs = sum(parts[0] or 0 for parts in map(self.parts, self.rows))
        spent, chain = self.longest()
        sums = len(self.rows), number(sum(self.size.values())), number(sum(ways(self.rows).values()))
        yield wrapped(
            '`crates.txt` has %d crates of %s lines, and leads down from them in %s ways (`--ways`).' % sums,
            'All proofs and builds of programs took %s processor minutes.' % number(proofs / 60),
            'The longest chain of them, one after the other, took %s:' % number(spent / 60),
            ', '.join('`%s`' % name for name in chain) + '.')

    def tables(self):
        yield '| Program | Crates | Processor minutes of their proofs and builds | Minutes after which the gate had it |\n'
        yield '|---|---|---|---|\n'
        for name, below, spent, second in self.first_uses():
            yield '| `%s` | %d | %s | %s |\n' % (name, len(below), number(spent / 60), number(second and second / 60))
        head = '\n| %s | Lines | Proof | Tests | Edits | All | Budget |\n|---|---|---|---|---|---|---|\n'
        yield head % 'Layer'
        sums, over = {}, []
        for name in self.rows:
            sums.setdefault(self.layers[name], []).append(name)
        for layer, names in [*sums.items(), ('all', self.rows)]:
            parts = [sum(part or 0 for part in column) for column in zip(*map(self.parts, names))]
            yield row(layer, sum(self.size[name] for name in names), parts)
        yield head % 'Crate'
        for name in self.rows:
            parts, count = self.parts(name), self.edits[name]
            texts = [number(part) for part in parts]
            texts[2] += ' (%d)' % count if count else ''
            over += [name] if sum(part or 0 for part in parts) > self.size[name] * BUDGET / 1000 else []
            yield row('`%s`' % name, self.size[name], parts, texts)
        missing = [name for name in self.rows if self.parts(name)[0] is None or self.edits[name] and self.parts(name)[2] is None]
        for title, names in (('Over their budget', over), ('Not all timed', missing)):
            yield '\n' + wrapped('%s: %s.' % (title, ', '.join('`%s`' % name for name in names) or 'none'))[:-1]

    def write(self):
        before, begin, rest = PAGE.read_text().partition(MARKS[0])
        _, end, after = rest.partition(MARKS[1])
        if not begin or not end:
            sys.exit('gate.py: bench/gate.md lacks the lines %s' % ' and '.join(map(repr, MARKS)))
        PAGE.write_text(before + begin + ''.join([*self.run(), *self.tables()]) + end + after)
        known = [(name, spent, second) for name, _, spent, second in self.first_uses() if second is not None]
        if not self.log.is_from_nothing() or not known:
            sys.exit('gate.py: the run was not from nothing, or proved no program: bench/first_use.txt stays as it was')
        comments = [line for line in FIRST_USE.read_text().splitlines(True) if line.startswith('#')]
        for name, spent, second in known:
            comments.append('%s %d %d %s %s\n' % (name, round(spent / 60), round(second / 60), self.log.notes['cores'], self.log.date()))
        FIRST_USE.write_text(''.join(comments))


def ways(rows):
    """The ways that lead down from each crate, itself as one."""
    found = {}
    for name, below in rows.items():
        found[name] = 1 + sum(found[low] for low in below if low in rows)
    return found


def print_ways(rows):
    """The ways that lead down from each crate, the most first, and their sum."""
    found = ways(rows)
    for name in sorted(found, key=found.get, reverse=True):
        print('%-16s %12s' % (name, format(found[name], ',')))
    print('%-16s %12s' % ('all', format(sum(found.values()), ',')))


def main():
    if sys.argv[1:] == ['--ways']:
        print_ways(crate_rows())
        return
    if sys.argv[1:2] == ['--page'] and len(sys.argv) == 4:
        Page(noted(sys.argv[2]), Log(sys.argv[3])).write()
        return
    if sys.argv[1:2] == ['--page']:
        sys.exit(__doc__.split('\n\n')[1])
    rows = crate_rows()
    names = sys.argv[1:] or list(rows)
    print('%-16s %7s %7s %7s %7s %6s %7s %7s' % ('crate', 'lines', 'proof', 'tests', 'edits', '', 'all', 'budget'))
    total = [0] * 6
    with tempfile.TemporaryDirectory(prefix='gate') as place:
        copy = pathlib.Path(place)
        shutil.copytree(TOP / 'crates', copy / 'crates', ignore=shutil.ignore_patterns('out'))
        for file in ('crates.txt', 'HANDLES'):
            shutil.copy(TOP / file, copy / file)
        subprocess.run(['git', 'init', '-q'], cwd=copy, check=True)
        for name in names:
            size, proof, tests, refused, edits = measure(copy, name, rows[name])
            row = [size, proof, tests, refused, edits, proof + tests + refused]
            total = [a + b for a, b in zip(total, row)]
            print('%-16s %7d %7.0f %7.0f %7.0f (%2d)  %7.0f %7.0f' % (name, *row, size * BUDGET / 1000), flush=True)
    print('%-16s %7d %7.0f %7.0f %7.0f (%2d)  %7.0f %7.0f' % ('all', *total, total[0] * BUDGET / 1000))


main()
