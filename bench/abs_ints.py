#!/usr/bin/env python3
"""Times a million calls of each operator and condition on intervals of ints.

usage: abs_ints.py [PROGRAM]

PROGRAM is the program `class_tables`, which reads the calls and prints the cases: its processor time is what is measured.
Without PROGRAM it is crates/class_tables/out/class_tables, which this proves and builds:

    cd crates/class_tables && rt run <stdin >/dev/null
"""
import pathlib
import random
import resource
import subprocess
import sys

TOP = pathlib.Path(__file__).resolve().parent.parent
CALLS = 1_000_000
OPERATORS = ['iadd', 'isub', 'imul', 'idiv', 'irem', 'ishl', 'ishr', 'iushr', 'iand', 'ior', 'ixor', 'narrow_byte']
CONDITIONS = ['eq', 'ne', 'lt', 'ge', 'gt', 'le']
ENDS = [-2**31, -2**31 + 1, -65536, -2, -1, 0, 1, 2, 31, 127, 65535, 2**31 - 2, 2**31 - 1]


def interval(choice):
    """Two ends, the lower one first."""
    a, b = (choice.choice(ENDS) if choice.random() < 0.5 else choice.randint(-2**31, 2**31 - 1) for _ in range(2))
    return [min(a, b), max(a, b)]


def seconds(program, text):
    """The processor time of the program on an input."""
    before = resource.getrusage(resource.RUSAGE_CHILDREN)
    subprocess.run([program], input=text, stdout=subprocess.DEVNULL, check=True)
    after = resource.getrusage(resource.RUSAGE_CHILDREN)
    return after.ru_utime + after.ru_stime - before.ru_utime - before.ru_stime


def main():
    program = pathlib.Path(sys.argv[1]) if len(sys.argv) == 2 else TOP / 'crates' / 'class_tables' / 'out' / 'class_tables'
    if len(sys.argv) > 2 or not program.is_file():
        sys.exit(__doc__.strip())
    choice = random.Random(1)
    pairs = [interval(choice) + interval(choice) for _ in range(1000)]
    print('| call | seconds for a million |')
    print('|---|---|')
    for word in OPERATORS + CONDITIONS:
        head = [word] if word in OPERATORS else [word, '0']
        lines = ['\t'.join(map(str, head + pair)) + '\n' for pair in pairs]
        text = ''.join(lines * (CALLS // len(lines))).encode()
        print(f'| `{word}` | {seconds(program.resolve(), text):.2f} |', flush=True)


main()
