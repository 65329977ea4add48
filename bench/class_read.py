#!/usr/bin/env python3
"""Times the reading of generated class files of a quarter, a half and the whole of 1 MiB.

usage: class_read.py [PROGRAM]

PROGRAM is the built `class_tables`: it reads each class. Six shapes are tried: many methods without code (one name, descriptors
of their own), many fields with names of their own, a large constant pool; and three that name one text of nearly 64 KiB as often
as they can: interfaces, exception entries, and the name of fields with descriptors of their own. The time of an empty input is
taken off.
"""
import struct, sys
from common import print_times, u2

LONG = 60000


def u4(n):
    return struct.pack('>I', n)


def utf8(text):
    return b'\x01' + u2(len(text)) + text


def class_file(entries, fields, methods, interfaces=b''):
    """entries: the pool from 5 on; members: the bytes of each."""
    pool = [utf8(b'A'), b'\x07' + u2(1), utf8(b'java/lang/Object'), b'\x07' + u2(3)] + entries
    out = bytes.fromhex('cafebabe00000032') + u2(len(pool) + 1) + b''.join(pool) + u2(0x421) + u2(2) + u2(4)
    out += u2(len(interfaces) // 2) + interfaces
    for members in (fields, methods):
        out += u2(len(members)) + b''.join(members)
    return out + u2(0)


def member(flags, name, desc, attributes=b'\0\0'):
    return u2(flags) + u2(name) + u2(desc) + attributes


def methods(size):
    count = size // 24
    entries = [utf8(b'f')] + [utf8(b'(La%06d;)V' % n) for n in range(count)]
    return class_file(entries, [], [member(0x401, 5, 6 + n) for n in range(count)])


def fields(size):
    count = size // 17
    entries = [utf8(b'I')] + [utf8(b'f%05d' % n) for n in range(count)]
    return class_file(entries, [member(1, 6 + n, 5) for n in range(count)], [])


def pool(size):
    count = size // 16
    return class_file([utf8(b'entry%08d' % n) for n in range(count - 4)][:65000], [], [])


def interfaces(size):
    count = 65535 * size >> 20
    return class_file([utf8(b'x' * LONG), b'\x07' + u2(5)], [], [], u2(6) * count)


def handlers(size):
    """Methods with as many exception entries as a table may have."""
    entries = [utf8(b'x' * LONG), b'\x07' + u2(5), utf8(b'Code'), utf8(b'()V')] + [utf8(b'm%d' % n) for n in range(4)]
    left, made = (size - LONG) // 8, []
    while left > 0:
        count = min(left, 65535)
        content = u2(0) + u2(1) + u4(1) + b'\xb1' + u2(count) + (u2(0) + u2(1) + u2(0) + u2(6)) * count + u2(0)
        made.append(member(1, 9 + len(made), 8, u2(1) + u2(7) + u4(len(content)) + content))
        left -= count
    return class_file(entries, [], made)


def names(size):
    """Fields with one long name and descriptors of their own."""
    count = min(60000, (size - LONG) // 20)
    entries = [utf8(b'x' * LONG)] + [utf8(b'La%06d;' % n) for n in range(count)]
    return class_file(entries, [member(1, 5, 6 + n) for n in range(count)], [])


def cases():
    for shape in (methods, fields, pool, interfaces, handlers, names):
        for part in (4, 2, 1):
            data = shape((1 << 20) // part)
            yield [shape.__name__, len(data)], ['read', data.hex()], lambda answer: answer == b'OK\n'


if __name__ == '__main__':
    print_times(__doc__, ['shape', 'bytes'], cases(), 'class_tables')
