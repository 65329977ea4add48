#!/usr/bin/env python3
"""Times regions and shapes of lists of objects: python3 bench/jvm_heaps.py [PROGRAM], where PROGRAM is class_tables as it is built for use.

The heap is made in the same time, and looked through once for references past its end.
"""
import common


def line(count):
    return ('list\t%d\n' % count).encode()


def main():
    path = common.program(__doc__, 'class_tables')
    none = common.answer_and_seconds(path, line(1))[1]
    for count in (250_000, 500_000, 1_000_000):
        took = common.answer_and_seconds(path, line(count))[1]
        memory = common.peak_memory(path, line(count))
        common.print_row(['%9d objects' % count, '%7.1f ms' % ((took - none) * 1e3), '%6.1f MiB' % memory])


if __name__ == '__main__':
    main()
