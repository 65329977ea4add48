#!/usr/bin/env python3
"""Times the assembling of generated listings of a quarter, a half and the whole of 1 MiB.

usage: class_asm.py [PROGRAM]

PROGRAM is the built `class_tables`: it assembles each listing and prints the class file. It takes the listing, and gives
the class file, as hexadecimal digits. The time of an empty input is taken off. The shapes:

methods   short methods with names of their own
nops      methods of 65,535 bytes of code, the most that there may be, of one byte a line
numbers   loads of numbers that each have an entry of the pool
members   loads of fields that each have three entries of the pool, for the whole nearly all that a pool can have
labels    a label and a jump to the next line's label on each line
switches  switches of 2,000 keys
attribute one attribute, the rest of the listing on one line
"""
from common import print_times

# The most bytes that a code has.
MOST_CODE = 65535


def listing(methods):
    """methods: the lines of the code of each."""
    text = 'class A\n'
    for n, lines in enumerate(methods):
        text += 'method m%d ()V static stack 1 locals 0\n' % n + '\n'.join(lines) + '\nend\n'
    return text


def divided(lines, size):
    """The lines as methods, where each line is an instruction of so many bytes."""
    most = MOST_CODE // size
    return [lines[at:at + most] for at in range(0, len(lines), most)]


def methods(size):
    return listing([['return']] * (size // 53))


def nops(size):
    return listing(divided(['nop'] * (size // 4), 1))


def numbers(size):
    return listing(divided(['ldc_w int %d' % n for n in range(100000, 100000 + size // 17)], 3))


def members(size):
    return listing(divided(['getstatic A f%033d I' % n for n in range(size // 49)], 3))


def labels(size):
    count = size // 20
    lines = ['l%05d: goto l%05d' % (n, n + 1) for n in range(count)]
    return listing([part + ['l%05d:' % (int(part[-1][1:6]) + 1)] for part in divided(lines, 3)])


def switches(size):
    line = 'lookupswitch to' + ''.join(' %d to' % key for key in range(1000, 3000))
    return listing([['to:'] + [line] * 4] * (size // (4 * len(line))))


def attribute(size):
    return 'class A\nattribute A ' + '5a' * (size // 2) + '\n'


def cases():
    for shape in (methods, nops, numbers, members, labels, switches, attribute):
        for part in (4, 2, 1):
            text = shape((1 << 20) // part)
            words = [shape.__name__, len(text), text.count('\n')]
            fields = ['listings', text.encode().hex()]
            yield words, fields, lambda answer: answer.startswith(b'OK ')


if __name__ == '__main__':
    print_times(__doc__, ['shape', 'bytes', 'lines'], cases(), 'class_tables')
