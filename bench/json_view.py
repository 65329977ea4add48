#!/usr/bin/env python3
"""Times the reading of JSON texts, and going through a list of numbers with their places.

usage: json_view.py [PROGRAM]

PROGRAM is the built `class_tables`. A list of numbers of seven digits is read (`parse`), and read and gone through (`numbers`): a
quarter, a half and the whole of 1,000,000 numbers; and lists of 4, 8 and 16 MiB are read. The time of an empty input is taken off;
the program also decodes the hexadecimal digits of the input. The memory is the most that the program had at once: the line of input,
the text and the value, and what reading and going through take beside them.
"""
from common import print_times


def numbers(count):
    return b'[' + b','.join(b'%07d' % (1000000 + n) for n in range(count)) + b']'


def cases():
    for table, ends in (('parse', b'OK\n'), ('numbers', None)):
        for count in (250000, 500000, 1000000):
            right = ends or b'OK %d\n' % (1000000 + count - 1)
            text = numbers(count)
            yield [table, count, len(text)], [table, text.hex()], lambda answer, right=right: answer == right
    for mebibytes in (4, 8, 16):
        text = numbers((mebibytes << 20) // 8)
        yield ['parse', '-', len(text)], ['parse', text.hex()], lambda answer: answer == b'OK\n'


if __name__ == '__main__':
    print_times(__doc__, ['table', 'numbers', 'bytes'], cases(), 'class_tables', memory=True)
