#!/usr/bin/env python3
"""Times linking and closing of generated programs of a quarter, a half and the whole of a size.

usage: class_world.py [PROGRAM]

PROGRAM is the built `class_tables`: it reads the classes, links them, closes the entry and prints how many methods are reached.
The time of an empty input is taken off. The shapes:

chain     so many classes in one chain, each of which overrides the method that the entry calls
calls     one class with so many methods that call each other in order
sites     so many calls in one method, of a method that 255 classes in one chain inherit from the first
repeats   a class that names one interface so many times, and calls the 100 methods that it has from it
arguments so many calls of one method with 255 parameters
"""
import struct

from common import print_times, u2


class Pool:
    def __init__(self):
        self.entries, self.places = [], {}

    def put(self, entry):
        if entry not in self.places:
            self.entries.append(entry)
            self.places[entry] = len(self.entries)
        return self.places[entry]

    def utf8(self, text):
        return self.put(b'\x01' + u2(len(text)) + text.encode())

    def named(self, name):
        return self.put(b'\x07' + u2(self.utf8(name)))

    def method(self, name, method, desc='()V'):
        pair = self.put(b'\x0c' + u2(self.utf8(method)) + u2(self.utf8(desc)))
        return self.put(b'\x0a' + u2(self.named(name)) + u2(pair))


def class_file(name, super_name, methods, flags=0x21, interfaces=()):
    """methods: lists of (flags, name, code as a function of the pool), with the descriptor behind it where that isn't ()V."""
    pool = Pool()
    this, over, attribute = pool.named(name), pool.named(super_name), pool.utf8('Code')
    implements = b''.join(u2(pool.named(interface)) for interface in interfaces)
    out = b''
    for method_flags, method, code, *desc in methods:
        out += u2(method_flags) + u2(pool.utf8(method)) + u2(pool.utf8(*desc or ['()V']))
        if code is None:
            out += u2(0)
            continue
        text = code(pool)
        content = u2(1) + u2(255) + struct.pack('>I', len(text)) + text + u2(0) + u2(0)
        out += u2(1) + u2(attribute) + struct.pack('>I', len(content)) + content
    head = bytes.fromhex('cafebabe00000032') + u2(len(pool.entries) + 1) + b''.join(pool.entries)
    head += u2(flags) + u2(this) + u2(over) + u2(len(interfaces)) + implements + u2(0)
    return head + u2(len(methods)) + out + u2(0)


def ends(pool):
    return b'\xb1'


def under(count, methods):
    """Classes in one chain under C0, with C0 so many."""
    return [class_file('C%d' % n, 'C%d' % (n - 1), methods) for n in range(1, count)]


def chain(count):
    """`f` of the first class calls `m` on null."""
    calls = lambda pool: b'\x01\xb6' + u2(pool.method('C0', 'm')) + b'\xb1'
    first = class_file('C0', 'java/lang/Object', [(9, 'f', calls), (1, 'm', ends)])
    return 'C0', [first] + under(count, [(1, 'm', ends)]), count + 1


def calls(count):
    """One class; `f` calls `m0`, and each method the next one."""
    def to(n):
        return lambda pool: b'\xb8' + u2(pool.method('A', 'm%d' % n)) + b'\xb1'

    methods = [(9, 'm%d' % n, to(n + 1)) for n in range(count - 1)] + [(9, 'm%d' % (count - 1), ends)]
    return 'A', [class_file('A', 'java/lang/Object', [(9, 'f', to(0))] + methods)], count + 1


def sites(count):
    """`f` of the first class calls its `m` on null, over and over."""
    calls = lambda pool: (b'\x01\xb6' + u2(pool.method('C0', 'm'))) * count + b'\xb1'
    first = class_file('C0', 'java/lang/Object', [(9, 'f', calls), (1, 'm', ends)])
    return 'C0', [first] + under(256, []), 2


def repeats(count):
    """`f` of an abstract class calls on null each of the 100 methods of the interface that the class names so many times."""
    names = ['m%d' % n for n in range(100)]
    calls = lambda pool: b''.join(b'\x01\xb6' + u2(pool.method('A', name)) for name in names) + b'\xb1'
    first = class_file('A', 'java/lang/Object', [(9, 'f', calls)], 0x421, ['I'] * count)
    second = class_file('I', 'java/lang/Object', [(0x401, name, None) for name in names], 0x601)
    return 'A', [first, second], 1


def arguments(count):
    """`f` calls 16 methods, each of which calls `m` a sixteenth of so many times."""
    desc = '(%s)V' % ('I' * 255)
    parts = ['p%d' % n for n in range(16)]
    to_parts = lambda pool: b''.join(b'\xb8' + u2(pool.method('A', name)) for name in parts) + b'\xb1'
    to_last = lambda pool: (b'\xb8' + u2(pool.method('A', 'm', desc))) * (count // 16) + b'\xb1'
    methods = [(9, 'f', to_parts), (9, 'm', ends, desc)] + [(9, name, to_last) for name in parts]
    return 'A', [class_file('A', 'java/lang/Object', methods)], 18


def link_case(shape, count):
    """A shape of that size, with the answer's number of reached methods."""
    name, files, reached = shape(count)
    words = [shape.__name__, count, sum(len(data) for data in files)]
    fields = ['link', name, 'f', '()V'] + [data.hex() for data in files]
    return words, fields, lambda answer: answer == b'OK %d\n' % reached


def cases():
    shapes = ((chain, 256), (calls, 10000), (sites, 4000), (repeats, 65535), (arguments, 349000))
    for shape, whole in shapes:
        for part in (4, 2, 1):
            yield link_case(shape, whole // part)


if __name__ == '__main__':
    print_times(__doc__, ['shape', 'size', 'bytes'], cases(), 'class_tables', memory=True)
