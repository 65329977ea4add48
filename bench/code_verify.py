#!/usr/bin/env python3
"""Times the least typing of generated methods of a quarter, a half and the whole of a size.

usage: code_verify.py [PROGRAM]

PROGRAM is the built `command_tables`: it reads the classes, links them, closes the entry, tests its calls, types its methods and
prints the reached ones. The time of an empty input is taken off; linking and closing are in it. The shapes:

straight  a method of so many bytes of straight code
jumps     a method of so many bytes with a jump every four bytes into the place in the middle
handlers  a method of 65,535 bytes with so many handlers over all of it
joins     a method with a switch in a loop, whose arms put objects of so many classes in one chain into one local, the lowest first:
          its type grows with each arm, and each growth comes to all arms again
"""
import struct

from class_world import Pool, class_file, under
from common import print_times, u2


def typed_class(code, table=b'', stack=1, local_count=1):
    """`A` with a static method `f` of this code, a function of the pool, and this exception table."""
    pool = Pool()
    this, over, attribute = pool.named('A'), pool.named('java/lang/Object'), pool.utf8('Code')
    text = code(pool)
    content = u2(stack) + u2(local_count) + struct.pack('>I', len(text)) + text + u2(len(table) // 8) + table + u2(0)
    method = u2(9) + u2(pool.utf8('f')) + u2(pool.utf8('()V')) + u2(1) + u2(attribute)
    method += struct.pack('>I', len(content)) + content
    head = bytes.fromhex('cafebabe00000032') + u2(len(pool.entries) + 1) + b''.join(pool.entries)
    return head + u2(0x21) + u2(this) + u2(over) + u2(0) + u2(0) + u2(1) + method + u2(0)


def straight(size):
    """`nop`s and `return`."""
    return [typed_class(lambda pool: bytes(size - 1) + b'\xb1')]


def jumps(size):
    """`iconst_0` and `ifeq` to the middle, over and over, and `return`."""
    count = size // 4
    middle = count // 2 * 4
    code = b''.join(b'\x03\x99' + struct.pack('>h', middle - (4 * n + 1)) for n in range(count)) + b'\xb1'
    return [typed_class(lambda pool: code)]


def handlers(count):
    """`nop`s, then a handler that throws on, for so many ranges over all before it."""
    code = bytes(65533) + b'\xb1\xbf'
    return [typed_class(lambda pool: code, (u2(0) + u2(65534) + u2(65534) + u2(0)) * count)]


def joins(count):
    """A loop over a switch with so many arms; the arm of each class of a chain makes an object of it, the lowest class first."""
    def code(pool):
        # at 0: aconst_null, astore_0; at 2, where the loop begins: aload_0, pop, iconst_0, tableswitch
        text = b'\x01\x4b\x2a\x57\x03'
        at = len(text)
        text += b'\xaa' + bytes(-(at + 1) % 4)
        first = len(text) + 12 + 4 * count
        arms = [first + 7 * n for n in range(count + 1)]
        text += struct.pack('>iii', arms[count] - at, 0, count - 1)
        text += b''.join(struct.pack('>i', arm - at) for arm in arms[:count])
        for n in reversed(range(count)):
            # new, astore_0, goto
            text += b'\xbb' + u2(pool.named('C%d' % n)) + b'\x4b\xa7' + struct.pack('>h', 2 - (len(text) + 4))
        return text + b'\xb1'

    return [typed_class(code), class_file('C0', 'java/lang/Object', [])] + under(count, [])


def typing_case(shape, count):
    """A shape of that size; its answer names the one reached method."""
    files = shape(count)
    words = [shape.__name__, count, sum(len(data) for data in files)]
    fields = ['link-52', 'A', 'f', '()V'] + [data.hex() for data in files]
    return words, fields, lambda answer: answer == b'OK A.f()V\n'


def cases():
    shapes = ((straight, 65535), (jumps, 65533), (handlers, 1000), (joins, 256))
    for shape, whole in shapes:
        for part in (4, 2, 1):
            yield typing_case(shape, whole // part)


if __name__ == '__main__':
    print_times(__doc__, ['shape', 'size', 'bytes'], cases(), 'command_tables', memory=True)
