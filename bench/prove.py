#!/usr/bin/env python3
"""Times `jterm prove` on generated methods, of ints and of objects. Those of objects are compiled by `javac`.

usage: prove.py [PROGRAM]

PROGRAM is the built `jterm`; without it, it is `.built/jterm`, which `./jterm` makes. The shapes:

ints       255 int parameters and 1,900 `nop`s
ids        512 locals, all set
paths      two switches of 62 labels in a loop: 4,096 paths, which no form ranks
loops N    N loops, each in the one before, up to a parameter of its own
locals     65,535 locals, of which one is set, and a loop over 43 places to each of which could be jumped back: the certificate has more
           than 16 MiB
kinds N    a list is walked, and a method of each item called: its class is one of N below an abstract one
walks N    N loops, each in the one before; every other one walks a list, the others count up to a parameter
calls N    N calls, one after another, each of a method of its own
"""
import json
import pathlib
import struct
import subprocess
import sys
import tempfile

from check import LEAST, MOST, class_file, description, told
from common import TOP, u2


class Code:
    """A code whose jumps are filled in where their labels are known."""

    def __init__(self):
        self.bytes, self.labels, self.jumps = bytearray(), {}, []

    def put(self, *codes):
        self.bytes += bytes(codes)

    def label(self, name):
        self.labels[name] = len(self.bytes)

    def distance(self, name, start, width):
        self.jumps.append((len(self.bytes), name, start, width))
        self.bytes += bytes(width)

    def jump(self, opcode, name):
        start = len(self.bytes)
        self.put(opcode)
        self.distance(name, start, 2)

    def switch(self, default, names):
        """A `tableswitch` with a place for each key from 0 on, and one for all other keys."""
        start = len(self.bytes)
        self.put(0xaa)
        self.put(*bytes(-len(self.bytes) % 4))
        self.distance(default, start, 4)
        self.bytes += struct.pack('>ii', 0, len(names) - 1)
        for name in names:
            self.distance(name, start, 4)

    def done(self):
        for at, name, start, width in self.jumps:
            self.bytes[at:at + width] = struct.pack('>h' if width == 2 else '>i', self.labels[name] - start)
        return bytes(self.bytes)


def wide(opcode, local):
    """A load or a store of an int, in the form that its local needs."""
    return (0xc4, opcode, *u2(local)) if local > 255 else (opcode, local)


def ints():
    return 255, bytes(1900) + b'\xb1'


def ids():
    code = Code()
    for local in range(512):
        code.put(3, *wide(0x36, local))
    code.put(0xb1)
    return 0, code.done()


def paths():
    code = Code()
    code.label('head')
    code.put(0x15, 0)
    code.switch('second', ['second'] * 62)
    code.label('second')
    code.put(0x15, 1)
    code.switch('last', ['last'] * 62)
    code.label('last')
    code.jump(0xa7, 'head')
    return 2, code.done()


def loops(depth):
    code = Code()

    def loop(n):
        """Loop n, with what is in it; its counter stands behind the parameters."""
        if n == depth:
            return
        code.put(3, 0x36, depth + n)
        code.label('head %d' % n)
        code.put(0x15, depth + n, 0x15, n)
        code.jump(0xa2, 'end %d' % n)
        loop(n + 1)
        code.put(0x84, depth + n, 1)
        code.jump(0xa7, 'head %d' % n)
        code.label('end %d' % n)
    loop(0)
    code.put(0xb1)
    return depth, code.done()


def many_locals():
    code = Code()
    code.put(3, 0x36, 0)
    for n in range(43):
        code.label('head %d' % n)
        code.put(0)
    code.put(0x84, 0, 1, 0x15, 0)
    code.jump(0x9c, 'head 0')
    code.put(0x15, 0)
    code.switch('end', ['head %d' % n for n in range(43)])
    code.label('end')
    code.put(0xb1)
    return 0, code.done()


SHAPES = [
    ('ints', ints(), 255, []),
    ('ids', ids(), 512, []),
    ('paths', paths(), 2, ['--nodes', '20000']),
] + [('loops %d' % depth, loops(depth), 2 * depth, ['--nodes', '20000']) for depth in (2, 4, 6)] + [
    ('locals', many_locals(), 65535, []),
]


def java_kinds(count):
    """The source of `kinds`, and what its method is given: a list that may be null and doesn't lead back into itself."""
    below = ''.join('class Item%d extends Item { int weight() { return %d; } }\n' % (n, n) for n in range(count))
    source = '''abstract class Item { Item next; abstract int weight(); }
%sclass A {
    static int f(Item first) {
        int sum = 0;
        for (Item item = first; item != null; item = item.next) sum += item.weight();
        return sum;
    }
}''' % below
    return source, '(LItem;)I', [{'type': 'Item', 'null': True, 'shape': 'dag'}]


def java_walks(depth):
    """The source of `walks`, and what its method is given: such a list, and a number."""
    heads = ['for (Item p%d = first; p%d != null; p%d = p%d.next) ' % (n, n, n, n) if n % 2 == 0
             else 'for (int i%d = 0; i%d < last; i%d++) ' % (n, n, n) for n in range(depth)]
    source = '''class Item { Item next; }
class A {
    static void f(Item first, int last) {
        %s;
    }
}''' % ''.join(heads)
    return source, '(LItem;I)V', [{'type': 'Item', 'null': True, 'shape': 'dag'}, {'lo': LEAST, 'hi': MOST}]


def java_calls(count):
    """The source of `calls`, and what its method is given: a number."""
    called = ''.join('    static int g%d(int x) { return x ^ %d; }\n' % (n, n) for n in range(count))
    source = 'class A {\n%s    static int f(int x) {\n%s        return x;\n    }\n}' % (
        called, ''.join('        x = g%d(x);\n' % n for n in range(count)))
    return source, '(I)I', [{'lo': LEAST, 'hi': MOST}]


OBJECTS = [('kinds %d' % count, java_kinds(count)) for count in (25, 50, 100)] + [
    ('walks %d' % depth, java_walks(depth)) for depth in (10, 20, 30)] + [
    ('calls %d' % count, java_calls(count)) for count in (125, 250, 500)]


def compiled(place, shape):
    """The files of a shape of objects: its description, and its classes, of which there may be many."""
    source, descriptor, given = shape
    place.mkdir()
    (place / 'A.java').write_text(source)
    subprocess.run(['javac', '--release', '8', '-Xlint:-options', '-nowarn', '-d', place, place / 'A.java'], check=True, stderr=subprocess.DEVNULL)
    said = {'form': 1, 'class': 'A', 'method': 'f', 'desc': descriptor, 'params': given, 'same': [], 'share': []}
    (place / 'desc.json').write_text(json.dumps(said, separators=(',', ':')))
    return [str(file) for file in [place / 'desc.json'] + sorted(place.glob('*.class'))]


def nodes_of(out):
    """The number of a certificate's nodes; a dash where there is none."""
    lines = out.decode().split('\n')
    return str(len(json.loads(lines[1])['nodes'])) if lines[0] == 'YES' else '-'


def print_shape(program, name, words):
    out, took, peak = told(program, ['prove'] + words)
    print('%-10s %10s %10d %10.0f %10.1f  %s' % (name, nodes_of(out), len(out), 1000 * took, peak, out.decode().split('\n')[0]), flush=True)


def main():
    program = sys.argv[1] if len(sys.argv) > 1 else str(TOP / '.built' / 'jterm')
    if not pathlib.Path(program).is_file():
        sys.exit(__doc__.strip())
    print('%-10s %10s %10s %10s %10s  %s' % ('shape', 'nodes', 'bytes', 'ms', 'MiB', 'answer'))
    with tempfile.TemporaryDirectory() as place:
        place = pathlib.Path(place)
        for name, (params, code), local_count, words in SHAPES:
            (place / 'A.class').write_bytes(class_file(params, code, locals_=local_count))
            (place / 'desc.json').write_text(json.dumps(description(params), separators=(',', ':')))
            print_shape(program, name, words + [str(place / 'desc.json'), str(place / 'A.class')])
        for name, shape in OBJECTS:
            print_shape(program, name, ['--nodes', '20000'] + compiled(place / name, shape))


if __name__ == '__main__':
    main()
