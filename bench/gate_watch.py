"""Notes what the merge gate takes, process by process, while it runs.

usage: python3 bench/gate_watch.py FOLDER TIMES

FOLDER is the checkout in which `rt ci` runs, or will soon. Each time that one of its checks ends, TIMES gets a line, divided by tabs: the
crate, what was done, the processor seconds that the check took with the processes that it began, the seconds since the gate began at which
it began and ended, and for edits the edit that it tried ('as it stands' for the check that a crate's edits begin with). What was done is
'proof' (of a library its proof and what is written of it, of a program its proof), 'tests' (the proof of a crate with its tests, and their
build), 'builds' (of a program, once it is proved) or 'edits'. `bench/gate.py --page` makes the tables of gate.md of them.

It looks once a second: the last second of a check is lost, and so is a check that is shorter. Of processes it reads the words, the folder
and the times, and never what they have open. It ends half a minute after the gate. It needs Linux.
"""
import os, pathlib, sys, time

TICKS = os.sysconf('SC_CLK_TCK')


def texts(folder):
    """The texts of a crate that a check reads, by their places."""
    files = [f for part in ('src', 'specs', 'proofs') for f in (folder / part).rglob('*') if f.is_file()]
    return {str(f.relative_to(folder)): f.read_text() for f in files}


def changed_by(edit, own):
    """The texts that an edit changes, as they are with it."""
    place, old, changed = None, '', {}
    for line in edit.read_text().splitlines():
        if line.startswith('file: '):
            place = line[len('file: '):].strip()
        elif line.startswith('old: '):
            old = line[len('old: '):]
        elif line.startswith('new:') and place in own:
            text = changed.get(place, own[place])
            changed[place] = text.replace(old, line[len('new:'):].removeprefix(' '))
    return changed


def edit_of(copy, crate):
    """The name of the edit that a copy of the crate was made with."""
    own, tried = texts(crate), texts(copy)
    changed = {place: text for place, text in tried.items() if own.get(place) != text}
    if not changed:
        return 'as it stands'
    return next((edit.stem for edit in sorted((crate / 'must-fail').glob('*.edit')) if changed_by(edit, own) == changed), 'another')


class Check:
    """A check of the gate: its crate, what it does, and the processor seconds that it and its own processes took so far."""

    def __init__(self, top, folder, words, began):
        self.crate = words[words.index('--crate-name') + 1]
        self.edit = ''
        self.began, self.ended, self.spent = began, began, 0
        if folder.is_relative_to(top):
            self.kind = 'builds' if '--crate-checked' in words else 'tests' if '--test' in words else 'proof'
        else:
            self.kind = 'edits'
            self.edit = edit_of(folder, top / 'crates' / self.crate)

    def line(self):
        numbers = ['%.1f' % of for of in (self.spent, self.began, self.ended)]
        return '\t'.join([self.crate, self.kind, *numbers, *[self.edit] * bool(self.edit)]) + '\n'


def processes():
    """The processes that there are, by number: the parent, when it began, and the processor seconds of it and of its ended children."""
    found = {}
    for number in filter(str.isdigit, os.listdir('/proc')):
        try:
            with open('/proc/%s/stat' % number) as stat:
                fields = stat.read().rpartition(')')[2].split()
            found[number] = fields[1], int(fields[19]) / TICKS, sum(map(int, fields[11:15])) / TICKS
        except (OSError, ValueError, IndexError):
            continue
    return found


def words_of(number):
    return pathlib.Path('/proc/%s/cmdline' % number).read_text(errors='replace').split('\0')


def folder_of(number):
    return pathlib.Path(os.readlink('/proc/%s/cwd' % number))


class Watch:
    """The gate that runs in a checkout, if one does, and its checks, each under its number and when it began: numbers come again."""

    def __init__(self, top):
        self.top, self.gate, self.checks = top, None, {}

    def is_gate(self, number):
        try:
            words = words_of(number)
            runs_rt = any(pathlib.Path(word).name == 'rt' and then == 'ci' for word, then in zip(words[:2], words[1:3]))
            return runs_rt and folder_of(number) == self.top
        except OSError:
            return False

    def check_of(self, number, began):
        """The check that a process is, or None where it's none."""
        name = number, began
        if name not in self.checks:
            words = words_of(number)
            if '--crate-name' not in words:
                return None
            self.checks[name] = Check(self.top, folder_of(number), words, began - self.gate[1])
        return self.checks[name]

    def look(self):
        """Brings what is known up to date with the processes that there are, and gives the checks that have ended."""
        there, children, runs = processes(), {}, set()
        for number, (parent, _, _) in there.items():
            children.setdefault(parent, []).append(number)
        if not self.gate or there.get(self.gate[0], (None, None))[1] != self.gate[1]:
            # (a child of it has its words until it runs its own command: the gate began first)
            self.gate = min(((number, there[number][1]) for number in there if self.is_gate(number)), key=lambda of: of[1], default=None)

        def whole(number):
            return there[number][2] + sum(map(whole, children.get(number, [])))

        left = [*children.get(self.gate[0], [])] if self.gate else []
        while left:
            number = left.pop()
            try:
                check = self.check_of(number, there[number][1])
            except (OSError, ValueError, IndexError):
                continue
            if check:
                check.spent, check.ended = max(check.spent, whole(number)), time.clock_gettime(time.CLOCK_BOOTTIME) - self.gate[1]
                runs.add((number, there[number][1]))
            else:
                left += children.get(number, [])
        return [self.checks.pop(name) for name in [*self.checks] if name not in runs]


def main():
    if len(sys.argv) != 3:
        sys.exit(__doc__.split('\n\n')[1])
    watch, last = Watch(pathlib.Path(sys.argv[1]).resolve()), None
    with open(sys.argv[2], 'a', buffering=1) as times:
        while last is None or time.monotonic() - last < 30:
            for check in watch.look():
                times.write(check.line())
            if watch.gate:
                last = time.monotonic()
            time.sleep(1)


if __name__ == '__main__':
    main()
