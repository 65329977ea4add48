#!/usr/bin/env python3
"""Asks `jterm` of each method of a folder of Java sources whether it ends, checks each certificate, and compares with what is known of the methods.

usage: corpus.py FOLDER [PROGRAM [GROUP[/PROGRAM[/METHOD]]]]

FOLDER has `src/GROUP/PROGRAM/*.java`. PROGRAM is the built `jterm`; without it, or as `-`, it is `.built/jterm`, which `./jterm` makes. The third word
asks only the methods whose path begins with it. A method that is asked has a line before it:

    //@ TRUTH [Class.]method [param ..] [share=0-1,..] [same=0-1,..] [statics=..] | note

TRUTH is T (it ends on all described inputs), N (it doesn't on some) or X (it is meant to end, but no description says so). A param is `F` (each int),
`P` (0 and more), `K` (its kind's range), `LO..HI`, or `tree`, `dag` or `any` with `?` (may be null) or `!`, and `:TYPE` where it isn't the declared one.
Without params ints have `F`, numbers of other kinds `K`, receivers and arrays `tree!`, other references `tree?`.

It compiles with `javac --release 8`, and writes classes, descriptions and certificates into a new folder, which is gone at the end. Each method has one line: group,
method, truth, answer, seconds of processor time of `prove`; at the end stands how many of those that end have a YES, with the median of their seconds and the most. The status is 1 where a method
that doesn't end has a YES, `check` refuses a certificate, or fewer than CORPUS_LEAST (0) methods have a YES. CORPUS_SECONDS (20) bounds the processor time of each
command, CORPUS_NODES is handed to `--nodes`.
"""
import itertools
import json
import os
import pathlib
import re
import resource
import signal
import struct
import subprocess
import sys
import tempfile

TOP = pathlib.Path(__file__).resolve().parent.parent
SECONDS = int(os.environ.get('CORPUS_SECONDS', '20'))
NODES = os.environ.get('CORPUS_NODES')
WANTED = int(os.environ.get('CORPUS_LEAST', '0'))
LEAST, MOST = -2**31, 2**31 - 1
KINDS = {'I': (LEAST, MOST), 'Z': (0, 1), 'B': (-128, 127), 'S': (-32768, 32767), 'C': (0, 65535)}
PARAMETER = re.compile(r'\[*(?:L[^;]*;|[BCDFIJSZ])')
WIDTHS = {3: 4, 4: 4, 5: 8, 6: 8, 7: 2, 8: 2, 9: 4, 10: 4, 11: 4, 12: 4, 15: 3, 16: 2, 18: 4}


class ClassFile:
    """A class file's name, its methods (flags, name, descriptor) and its static fields (descriptor)."""

    def __init__(self, path):
        self.bytes = path.read_bytes()
        self.at = 10
        pool = self.pool()
        self.at += 2
        self.name = pool[pool[self.number()]]
        self.at += 2
        interfaces = self.number()
        self.at += 2 * interfaces
        self.statics = [descriptor for flags, _, descriptor in self.members(pool) if flags & 8]
        self.methods = self.members(pool)

    def number(self):
        self.at += 2
        return struct.unpack_from('>H', self.bytes, self.at - 2)[0]

    def pool(self):
        """What texts say, and which text a class names."""
        entries, number, count = {}, 1, struct.unpack_from('>H', self.bytes, 8)[0]
        while number < count:
            tag = self.bytes[self.at]
            self.at += 1
            if tag == 1:
                length = self.number()
                entries[number] = self.bytes[self.at:self.at + length].decode('utf-8', 'replace')
                self.at += length
            else:
                if tag == 7:
                    entries[number] = struct.unpack_from('>H', self.bytes, self.at)[0]
                self.at += WIDTHS[tag]
            number += 2 if tag in (5, 6) else 1
        return entries

    def members(self, pool):
        found = []
        for _ in range(self.number()):
            flags, name, descriptor, attributes = (self.number() for _ in range(4))
            for _ in range(attributes):
                self.at += 2
                self.at += 4 + struct.unpack_from('>I', self.bytes, self.at)[0]
            found.append((flags, pool[name], pool[descriptor]))
        return found


def bound(word):
    return {'MIN': LEAST, 'MAX': MOST}.get(word) if word in ('MIN', 'MAX') else int(word)


def described(word, kind, is_receiver=False):
    """What a description says of an input, by its word, if any, and the descriptor of its type, where that is known."""
    if word is None:
        if kind in KINDS:
            word = 'F' if kind == 'I' else 'K'
        else:
            word = 'tree!' if is_receiver or kind[0] == '[' else 'tree?'
    if word == 'F':
        return {'lo': LEAST, 'hi': MOST}
    if word == 'P':
        return {'lo': 0, 'hi': MOST}
    if word == 'K':
        return {'lo': KINDS[kind][0], 'hi': KINDS[kind][1]}
    if '..' in word:
        low, high = word.split('..')
        return {'lo': bound(low), 'hi': bound(high)}
    shape, null, named = re.fullmatch(r'(tree|dag|any)([?!])(?::(.*))?', word).groups()
    return {'type': named or (kind[1:-1] if kind[0] == 'L' else kind), 'null': null == '?', 'shape': shape}


def words_of_inputs(words, kinds, has_receiver):
    """A word, or none, for each input. Fewer words than inputs are handed out in order: words of shapes to references, others to numbers."""
    if not words:
        return [None] * len(kinds)
    if len(words) == len(kinds):
        return words
    left, found = list(words), []
    references = sum(kind[0] in 'L[' for kind in kinds)
    for number, kind in enumerate(kinds):
        skipped = number == 0 and has_receiver and sum(word[0] in 'tda' for word in left) < references
        fits = left and (left[0][0] in 'tda') == (kind[0] in 'L[')
        found.append(left.pop(0) if fits and not skipped else None)
    assert not left, (words, kinds)
    return found


def cases(source):
    """Each method that is asked: group, program, class, method, truth and the other words of its line."""
    for folder in sorted(source.glob('*/*')):
        for file in sorted(folder.glob('*.java')):
            for line in file.read_text().split('\n'):
                found = re.match(r'\s*//@ ([TNX]) (\S+)(.*)', line)
                if found:
                    truth, name, rest = found.groups()
                    owner, _, method = name.rpartition('.')
                    yield folder.parent.name, folder.name, owner or file.stem, method, truth, rest.partition('|')[0].split()


def compile_programs(source, classes):
    for folder in sorted(source.glob('*/*')):
        out = classes / folder.relative_to(source)
        out.mkdir(parents=True)
        words = ['javac', '--release', '8', '-g', '-Xlint:-options', '-nowarn', '-d', out, *sorted(folder.glob('*.java'))]
        subprocess.run(words, check=True, stderr=subprocess.DEVNULL)


def pairs(options, name):
    return [[int(number) for number in pair.split('-')] for pair in options[name].split(',')] if name in options else []


def descriptions(files, owner, method, words):
    """The descriptions to try, in order. Where a reference static field has no type in its word, each type that a static field of the
    program is declared with is tried."""
    parsed = [ClassFile(file) for file in files]
    (flags, descriptor, name) = next((flags, descriptor, file.name) for file in parsed if file.name in (owner, owner.replace('.', '$'))
                                     for flags, found, descriptor in file.methods if found == method)
    has_receiver = not flags & 8
    kinds = ([f'L{name};'] if has_receiver else []) + PARAMETER.findall(descriptor[:descriptor.index(')')])
    options = dict(word.split('=', 1) for word in words if '=' in word)
    inputs = words_of_inputs([word for word in words if '=' not in word], kinds, has_receiver)
    statics = options['statics'].split(',') if 'statics' in options else []
    types = list(dict.fromkeys(kind[1:-1] if kind[0] == 'L' else kind for file in parsed for kind in file.statics if kind[0] in 'L['))
    untyped = [word for word in statics if word[0] in 'tda' and ':' not in word]
    for choice in itertools.product(types, repeat=len(untyped)):
        left = list(choice)
        yield {'form': 2, 'class': name, 'method': method, 'desc': descriptor,
               'params': [described(word, kind, number == 0 and has_receiver) for number, (word, kind) in enumerate(zip(inputs, kinds))],
               'same': pairs(options, 'same'), 'share': pairs(options, 'share'),
               'statics': [described(f'{word}:{left.pop(0)}' if word in untyped else word, 'I') for word in statics]}


def used():
    """Seconds of processor time of the commands that were run so far."""
    spent = resource.getrusage(resource.RUSAGE_CHILDREN)
    return spent.ru_utime + spent.ru_stime


def run(words):
    """Status, output, faults; None where the processor time is up."""
    done = subprocess.run([str(word) for word in words], capture_output=True, text=True,
                          preexec_fn=lambda: resource.setrlimit(resource.RLIMIT_CPU, (SECONDS, SECONDS + 1)))
    return None if done.returncode in (-signal.SIGXCPU, -signal.SIGKILL) else (done.returncode, done.stdout, done.stderr)


def answered(program, room, files, tried):
    """What `prove` and, where there is a certificate, `check` answer, in one line, and the seconds of `prove`."""
    text, cert = room / 'description.json', room / 'certificate.json'
    began = used()
    for description in tried:
        text.write_text(json.dumps(description, separators=(',', ':')))
        began = used()
        found = run([program, 'prove', *(['--nodes', NODES] if NODES else []), text, *files])
        if found is None:
            return f'TIME over {SECONDS} s', SECONDS
        status, out, err = found
        if status != 3 or not ('UnknownType' in err or 'ParamKind' in err):
            break
    seconds = used() - began
    if status == 0:
        cert.write_text(out.split('\n', 1)[1])
        checked = run([program, 'check', cert, text, *files])
        if checked is None:
            return f'TIME over {SECONDS} s', SECONDS
        return 'YES' if checked[1] == 'ACCEPTED\n' else f'YES but check: {checked}', seconds
    if status == 1:
        rules = [line.split() for line in out.split('\n') if line.startswith('rule')]
        places = sorted({re.sub(r'.*\.(\w+|<init>)\(.*@', r'\1@', word) for rule in rules for word in rule[2:]})
        return out.split('\n')[0] + (f' {len(rules)} rules at {" ".join(places)}' if rules else ''), seconds
    return f'STATUS {status} {err.strip()}', seconds


def main():
    if not 2 <= len(sys.argv) <= 4:
        sys.exit(__doc__)
    source = pathlib.Path(sys.argv[1]).resolve() / 'src'
    named = sys.argv[2] if len(sys.argv) > 2 else '-'
    program = TOP / '.built' / 'jterm' if named == '-' else pathlib.Path(named).resolve()
    only = sys.argv[3] if len(sys.argv) > 3 else ''
    ending, wrong, proved = 0, 0, []
    with tempfile.TemporaryDirectory() as name:
        room = pathlib.Path(name)
        compile_programs(source, room / 'classes')
        for group, folder, owner, method, truth, words in cases(source):
            if not f'{group}/{folder}/{method}'.startswith(only):
                continue
            files = sorted((room / 'classes' / group / folder).iterdir())
            answer, seconds = answered(program, room, files, descriptions(files, owner, method, words))
            shown = f'{owner}.{method}' if owner.lower() == folder.lower() else f'{folder}/{owner}.{method}'
            print(group, shown, truth, answer, f'{seconds:.2f}', sep='\t', flush=True)
            ending += truth == 'T'
            if truth == 'T' and answer == 'YES':
                proved.append(seconds)
            wrong += answer.startswith('YES') and (truth != 'T' or answer != 'YES')
    proved.sort()
    times = f', {proved[len(proved) // 2]:.2f} s at the median, {proved[-1]:.2f} s at most' if proved else ''
    print(f'YES {len(proved)} of {ending} that end{times}; wrong YES {wrong}')
    return 1 if wrong or len(proved) < WANTED else 0


if __name__ == '__main__':
    sys.exit(main())
