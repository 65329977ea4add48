#!/usr/bin/env python3
"""Tries the wrong bodies that the merge gate does not try, or all of some crates, and looks whether all fit.

usage: python3 tools/wrong_bodies.py [CRATE..]
       python3 tools/wrong_bodies.py --over CHECKOUT CRATE..
       python3 tools/wrong_bodies.py --fit
       python3 tools/wrong_bodies.py --list

Wrong bodies (edits) that the gate tries stand in crates/CRATE/must-fail, the others in wrong-bodies/CRATE: an edit takes the gate a check
of its crate, or a large part of one, so it tries those that tell most. With no word it tries the others, of all crates or of those
that are named, by `rt ci CRATE..` in a copy of this checkout where they stand in the place of the gate's own: that proves the crates and those
below them, but for what the gate has passed on this machine, and tries each edit, which must be refused. It ends with status 1 where one is not, or one
of the crates isn't proved.

With `--over` it tries all edits of the named crates, the gate's and the others, over libraries that are built: whoever changes a crate tries
its own so. CHECKOUT is the checkout (`.` for the one in the current folder) in which `rt ci`, or `rt check` of such a crate, left the libraries
below those crates, as crates/LIBRARY/out/rlib/LIBRARY.rlib. It ends at once, and names them, where some are missing, or where their crates'
files there are others than here. Each crate is checked once as it stands, and each edit then over what that check kept, so that what the edit
leaves as it was isn't checked again; one check after the other, with one job. Each edit has a line:

  refused      the prover refuses it, and so it must: the functions that aren't proved with it, and how many call such a one;
               or what was refused first, where no function is named
  NOT REFUSED  the crate is still proved with it
  BAD EDIT     it can't be applied, or its crate with it isn't read: no contract was tried
  NOT TRIED    the check said something else, as where it was killed or a crate isn't proved as it stands

It ends with status 1 where one isn't refused. This is no verdict of the gate's: it trusts the libraries and what the first check kept.

With `--fit` it proves nothing, and takes a second: each edit can be applied (each old text stands exactly once in its file, and the new
one is another), has words that say what it shows, and docs/EDITS.md is what `--list` writes. Where all fit it says nothing. The gate ends with this.

With `--list` it writes the tables of docs/EDITS.md, crate by crate as in crates.txt. An edit's words are its first line, behind `# `. One without
such a line keeps the words that the tables have: to change an edit that the gate tries makes the gate try it again.
"""
import os
import pathlib
import re
import shutil
import subprocess
import sys
import tempfile

TOP = pathlib.Path(__file__).resolve().parent.parent
OTHERS = TOP / 'wrong-bodies'
LIST = TOP / 'docs/EDITS.md'
PARTS = ('src', 'specs', 'proofs')
# Rattle's words for a limit that is its own, and for a library that doesn't fit those below it; and what it says of a proof file that names what an edit took away.
LIMIT = re.compile(r'antt ran out of (stack|the (steps|memory) that)|(outgrew the memory limit|stopped at the step limit) \(')
STALE = re.compile(r'module .Rattle-(\w+)-.*Run the lower steps again')
NAMES = re.compile(r'(note: )?(\./)?proofs/.*(has no field|is not in scope|has no `|was not admitted)')


def edits():
    """All edits, each with its crate and who tries it."""
    tried = [(f.parent.parent.name, f, 'gate') for f in sorted(TOP.glob('crates/*/must-fail/*.edit'))]
    return tried + [(f.parent.name, f, 'asked') for f in sorted(OTHERS.glob('*/*.edit'))]


def applied(crate, edit):
    """The texts of the files that an edit changes, by their place in the crate, and why it can't be applied to its crate, or None."""
    texts, place, old, pairs = {}, '', None, 0
    for line in edit.read_text().split('\n'):
        if line.startswith('file: '):
            place = line[len('file: '):].strip()
        elif line.startswith('old: '):
            old = line[len('old: '):]
        elif line.startswith('new:'):
            file = TOP / 'crates' / crate / place
            if not old or not place.startswith(('src/', 'specs/', 'proofs/')) or not file.is_file():
                return texts, 'a new text has no old one, or no file below src/, specs/ or proofs/'
            text = texts.get(place, file.read_text())
            if text.count(old) != 1:
                return texts, 'its old text stands %d times: %s' % (text.count(old), old)
            texts[place], old, pairs = text.replace(old, line[len('new:'):].removeprefix(' ')), None, pairs + 1
    if not pairs or all(text == (TOP / 'crates' / crate / place).read_text() for place, text in texts.items()):
        return texts, 'it changes nothing'
    return texts, None


def misfit(crate, edit):
    """Why an edit can't be applied to its crate, or None."""
    return applied(crate, edit)[1]


def words_listed():
    """The words that docs/EDITS.md has, by crate and edit."""
    crate, words = None, {}
    for line in LIST.read_text().splitlines():
        head, row = re.match(r'## `(\w+)`', line), re.match(r'\| `(\w+)` \| (.*) \| (gate|asked) \|$', line)
        if head:
            crate = head[1]
        elif row:
            words[crate, row[1]] = row[2]
    return words


def uses():
    """The libraries that each crate of crates.txt uses, in its order: those of the kit too."""
    lines = [line.partition('#')[0].partition(':') for line in (TOP / 'crates.txt').read_text().splitlines() if re.match(r'\w', line)]
    return {head.split()[0]: re.findall(r'[\w-]+', used) for head, _, used in lines}


def tables():
    """The text of docs/EDITS.md, its tables made anew, and the edits that have no words."""
    head, old, rows, lacking = LIST.read_text().partition('\n## `')[0].rstrip('\n'), words_listed(), {}, []
    for crate, edit, kind in edits():
        first = edit.read_text().split('\n')[0]
        words = first[2:].strip() if first.startswith('# ') else old.get((crate, edit.stem))
        if words:
            rows.setdefault(crate, []).append('| `%s` | %s | %s |\n' % (edit.stem, words, kind))
        else:
            lacking.append('%s/%s: no first line says what it shows' % (crate, edit.stem))
    order = uses()
    top = '## `%s`\n\n| Edit | What it shows | Tried |\n|---|---|---|\n'
    parts = [top % crate + ''.join(sorted(rows[crate])) for crate in order if crate in rows]
    return '\n\n'.join([head, *(part.rstrip('\n') for part in parts)]) + '\n', lacking


def fit():
    """Says each edit that doesn't fit, or has no words, or is there twice, and whether the list is another one; whether there is none."""
    found = edits()
    names = ['%s/%s' % (crate, edit.stem) for crate, edit, _ in found]
    wrong = ['%s/%s: %s' % (crate, edit.stem, why) for crate, edit, _ in found for why in [misfit(crate, edit)] if why]
    text, lacking = tables()
    wrong += lacking + ['%s: it is there twice' % name for name in sorted(set(names)) if names.count(name) > 1]
    wrong += ['docs/EDITS.md is not what `python3 tools/wrong_bodies.py --list` writes'] * (text != LIST.read_text())
    print('\n'.join(wrong), end='\n' if wrong else '')
    return not wrong


def attempt(crates):
    """Tries the other edits of these crates, by the gate itself in a copy where they stand in the place of its own; whether each was refused."""
    with tempfile.TemporaryDirectory(prefix='wrong-bodies') as place:
        copy = pathlib.Path(place)
        shutil.copytree(TOP / 'crates', copy / 'crates', ignore=shutil.ignore_patterns('out', 'must-fail'))
        for name in ('crates.txt', 'HANDLES'):
            shutil.copy(TOP / name, copy / name)
        for crate in crates:
            shutil.copytree(OTHERS / crate, copy / 'crates' / crate / 'must-fail')
        subprocess.run(['git', 'init', '-q'], cwd=copy, check=True)
        return not subprocess.run(['rt', 'ci', *crates], cwd=copy).returncode


def below(crate, used):
    """The repository's libraries below a crate, in the order of crates.txt."""
    found, left = set(), [crate]
    while left:
        names = [name for name in used[left.pop()] if name in used and name not in found]
        found.update(names)
        left += names
    return [name for name in used if name in found]


def source(top, crate):
    """The bytes of a crate's files, by their place in it."""
    folder = top / 'crates' / crate
    return {str(file.relative_to(folder)): file.read_bytes() for part in PARTS for file in (folder / part).rglob('*') if file.is_file()}


def library(checkout, crate):
    return checkout / 'crates' / crate / 'out/rlib' / (crate + '.rlib')


def unbuilt(checkout, crates, used):
    """What is wrong with the checkout's libraries below these crates: which aren't there, and which are of another text than here."""
    names = [name for name in used if any(name in below(crate, used) for crate in crates)]
    missing = [name for name in names if not (library(checkout, name) / 'format').is_file()]
    others = [name for name in names if name not in missing and source(checkout, name) != source(TOP, name)]
    said = ['%s has no library of: %s. `rt ci` there leaves them as crates/NAME/out/rlib/NAME.rlib, and so does `rt check` of a crate above them' % (checkout, ' '.join(missing))] if missing else []
    return said + (['other files than here, in %s: %s' % (checkout, ' '.join(others))] if others else [])


def warn_of_older(checkout, crates, used):
    """Says of which libraries below these crates a file is newer than the library: such a library may be of an older text."""
    for name in dict.fromkeys(name for crate in crates for name in below(crate, used)):
        built = (library(checkout, name) / 'format').stat().st_ctime
        if any((checkout / 'crates' / name / file).stat().st_mtime > built for file in source(checkout, name)):
            print('wrong_bodies.py: %s: a file is newer than its library: `rt check` of a crate above it builds it anew where it has to' % name, file=sys.stderr)


def words_of_check(checkout, crate, used):
    """The command that checks a crate over the checkout's libraries, but for the folder of what it keeps."""
    kit = pathlib.Path(shutil.which('rt') or sys.exit('wrong_bodies.py: there is no rt on the path')).resolve().parent.parent
    own, root = [name for name in used[crate] if name in used], 'main.rt' if (TOP / 'crates' / crate / 'src/main.rt').is_file() else 'lib.rt'
    words = [kit / 'bin/rattle', 'check', '--crate-name', crate, 'src/' + root, '--jobs', '1', '--links', crate + '=']
    for name in ['std', *(name for name in used[crate] if name not in used)]:
        words += ['--extern', '%s=%s/rlibs/%s.rlib' % (name, kit, name)]
    for name in own:
        words += ['--extern', '%s=%s' % (name, library(checkout, name))]
    for folder in [kit / 'rlibs', *(library(checkout, name).parent for name in below(crate, used))]:
        words += ['-L', 'dependency=%s' % folder]
    return [*words, '--antt-project', kit / 'rattle/logic/antt-project.json', '--logic-built', kit / 'logic_built']


def checked(words, crate, texts, kept):
    """What a check says of a copy of the crate with these texts in the place of its own, over what `kept` holds: its status, and its lines."""
    with tempfile.TemporaryDirectory(prefix='wrong-bodies') as place:
        for name, content in source(TOP, crate).items():
            file = pathlib.Path(place, name)
            file.parent.mkdir(parents=True, exist_ok=True)
            file.write_bytes(texts[name].encode() if name in texts else content)
        done = subprocess.run([*words, '--incremental', kept], cwd=place, stdin=subprocess.DEVNULL, stdout=subprocess.PIPE, stderr=subprocess.STDOUT, errors='replace')
        return done.returncode, done.stdout.rstrip('\n').split('\n')


def twin(one, other):
    """Copies a file that a check kept; what it proved is given a second name where it can be: a check replaces such a file, and changes none."""
    try:
        return os.link(one, other) if one.endswith('.oantt') else shutil.copy2(one, other)
    except OSError:
        return shutil.copy2(one, other)


def unread(lines, texts):
    """The first line by which a text of src/, specs/ or an edited file couldn't be read, or None."""
    for line in lines:
        at = re.match(r'(?:\./)?(\S+?):\d+:\d+: error: (?:(`[^`]*`): )?(.*)', line)
        said = at and re.sub(r'`[^`]*`', '', at[3])
        if at and (at[1] in texts or at[1].startswith(('src/', 'specs/'))) and (
                not at[2] or re.search(r'is not in scope|has no field|is no name|operand is missing|expected the end|cannot continue', said)):
            return line
    return None


def refusal(lines):
    """What was refused: the functions that aren't proved, but for those that only call one of these, else the first place with an error; with a word where this says little."""
    told = [line for line in lines if re.match(r'(note: )?\S+:\d+:\d+:', line) and (': error' in line or line.startswith('note: '))]
    found = [it for it in (re.match(r'fn (\S+): (?:not proved|no proof|could not tell)(: it calls)?', line) for line in lines) if it]
    own, callers = ['fn ' + it[1] for it in found if not it[2]], sum(bool(it[2]) for it in found)
    said = ', '.join(own) + (" (and %d that call what isn't proved)" % callers if callers else '') if own else told[0][:160] if told else 'no place named'
    return said + (' (only because a proof file names what the edit took away)' if told and all(NAMES.match(line) for line in told) else '')


def judged(status, lines, texts):
    """What a check with an edit comes to, as `rt ci` takes it, and what to say of it."""
    bad = unread(lines, texts) if status == 1 else None
    if bad:
        return 'BAD EDIT', 'the prover cannot read the edited text: ' + bad[:160]
    if any(STALE.search(line) for line in lines):
        return 'NOT TRIED', 'a library was built over another one than is there: ' + next(line for line in lines if STALE.search(line))[:160]
    if status == 1 and lines[-1].startswith('logic=not-proved'):
        return 'refused', refusal(lines)
    if status == 0:
        return 'NOT REFUSED', 'the crate is still proved with it'
    if status == 3 and any(LIMIT.search(line) for line in lines):
        return 'refused', refusal(lines) + ' (only by a limit of the prover: choose a change that it refuses sooner)'
    compiled = next((line for line in lines if re.search(r'\berror\[[\w-]+\]', line)), None)
    if status == 1 and compiled:
        return 'BAD EDIT', 'it does not compile: ' + compiled[:160]
    return 'NOT TRIED', 'the check ended with status %d: %s' % (status, lines[-1][:160])


def attempt_over(checkout, crate, used):
    """Tries all edits of a crate over the checkout's libraries, a line each; whether each was refused."""
    words, found = words_of_check(checkout, crate, used), [edit for name, edit, _ in edits() if name == crate]
    with tempfile.TemporaryDirectory(prefix='wrong-bodies') as place:
        kept, over, refused = pathlib.Path(place, 'kept'), pathlib.Path(place, 'over'), []
        kept.mkdir()
        status, lines = checked(words, crate, {}, kept)
        for edit in found:
            texts, why = applied(crate, edit)
            if why or status:
                kind, said = ('BAD EDIT', why) if why else ('NOT TRIED', 'the crate is not proved as it stands: ' + refusal(lines))
            else:
                shutil.copytree(kept, over, copy_function=twin)
                kind, said = judged(*checked(words, crate, texts, over), texts)
                shutil.rmtree(over)
            refused.append(kind == 'refused')
            print('%-11s  %s/%s: %s' % (kind, crate, edit.stem, said), flush=True)
    return all(refused)


def over(words):
    """Tries all edits of the named crates over the libraries of a checkout; whether each was refused."""
    if len(words) < 2 or any(word.startswith('-') for word in words):
        sys.exit(__doc__)
    checkout, crates, used = pathlib.Path(words[0]).resolve(), list(dict.fromkeys(words[1:])), uses()
    having = {crate for crate, _, _ in edits()}
    wrong = ['%s: crates.txt has no such crate' % crate if crate not in used else '%s: it has no edit' % crate for crate in crates if crate not in used or crate not in having]
    wrong = wrong or unbuilt(checkout, crates, used)
    if wrong:
        sys.exit('\n'.join('wrong_bodies.py: ' + line for line in wrong))
    warn_of_older(checkout, crates, used)
    return all([attempt_over(checkout, crate, used) for crate in crates])


def main():
    if sys.argv[1:2] == ['--over']:
        sys.exit(not over(sys.argv[2:]))
    if sys.argv[1:] == ['--fit']:
        sys.exit(not fit())
    if sys.argv[1:] == ['--list']:
        text, lacking = tables()
        LIST.write_text(text)
        sys.exit('\n'.join(lacking) or None)
    if any(word.startswith('-') for word in sys.argv[1:]):
        sys.exit(__doc__)
    crates = sorted(set(sys.argv[1:]) or {crate for crate, _, kind in edits() if kind == 'asked'})
    lacking = [crate for crate in crates if not list((OTHERS / crate).glob('*.edit'))]
    if lacking or not crates:
        sys.exit('wrong_bodies.py: no edit in %s' % (', '.join('wrong-bodies/' + crate for crate in lacking) or 'wrong-bodies'))
    sys.exit(not attempt(crates))


main()
