#!/usr/bin/env python3
"""Times `jterm generate` for growing numbers of loops.

usage: generate.py [PROGRAM]

PROGRAM is the built `jterm`; without it, it is `.built/jterm`, which `./jterm` makes. The goals: at most 0.25 s of processor time for 100
loops, and no more time for each loop at 100 than at 25, but for a fifth. It ends with status 1 where one is missed, or where two runs
for one number say different lines.
"""
import pathlib
import subprocess
import sys

from check import told
from common import TOP

NUMBERS = (4, 25, 50, 100)
MOST_SECONDS = 0.25


def main():
    program = sys.argv[1] if len(sys.argv) > 1 else str(TOP / '.built' / 'jterm')
    if not pathlib.Path(program).is_file():
        sys.exit(__doc__.strip())
    print('%6s %8s %12s %8s  %s' % ('loops', 'ms', 'ms a loop', 'MiB', 'line'))
    took, same = {}, True
    for number in NUMBERS:
        words = ['generate', str(number)]
        out, took[number], peak = told(program, words)
        same = same and out == subprocess.run([program] + words, capture_output=True).stdout
        print('%6d %8.0f %12.2f %8.1f  %s' % (number, 1000 * took[number], 1000 * took[number] / number, peak, out.decode().strip()), flush=True)
    if not same or took[100] > MOST_SECONDS or took[100] / 100 > 1.2 * took[25] / 25:
        sys.exit('generate.py: a goal is missed')


if __name__ == '__main__':
    main()
