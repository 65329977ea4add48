#!/usr/bin/env python3
"""Times the check of proofs and the classes of rules.

usage: descent.py [PROGRAM]

PROGRAM is the built `state_tables`. Rules and a proof are read (`read`), and read and checked (`proof`); the difference is what the
check takes. The rules have 200 rows each and go from one cut to itself, or from each cut to the next:

- `ranks`: 48 rank steps, each of which lists all rules that are left and takes 10 of them away, one that takes all others away, and
  an empty one;
- `split`: a split of rules into as many parts, which no step takes;
- `steps`: rank steps without rules, and an empty one;
- `ring`: the classes of rules without rows (`components`), each of which leads to the next cut and the last to the first;
- `chain`: the same without the last rule's way back, so that each rule is a class of its own.
"""
import json
from common import print_times

ROWS = 200


def rule(start, end):
    rows = [['>=', [[0, 1], [1, -1]], -1, []]] + [['>=', [[n, 1]], 0, []] for n in range(ROWS - 1)]
    slot = lambda variable: [[0, 'int', [[0, 'local', 0]], [[variable, 1]], 0, []]]
    return [start, end, ROWS, rows, slot(0), slot(1)]


def rank(strict, weak, rest):
    listed = [[n, 'strict', [[0, 1]], [[1, 1]]] for n in strict] + [[n, 'weak', [[0, 1]]] for n in weak]
    return ['rank', 'linear', [], [[0, 0, [[0, 1]], []]], listed, rest]


def ranks(count):
    steps = [rank(range(10 * k, 10 * k + 10), range(10 * k + 10, count), k + 1) for k in range(48)]
    return [rule(0, 0) for _ in range(count)], steps + [rank(range(480, count), [], 49), ['empty']]


def split(count):
    return [rule(n, n + 1) for n in range(count)], [['split', [[n] for n in range(count)], [-1] * count]]


def steps(count):
    return [], [rank([], [], n + 1) for n in range(count)] + [['empty']]


def classes(name, count):
    ends = [[n, n + 1] for n in range(count - 1)] + [[count - 1, 0 if name == 'ring' else count]]
    wanted = [list(range(count))] if name == 'ring' else [[n] for n in range(count)]
    ends, wanted = (json.dumps(part, separators=(',', ':')) for part in (ends, wanted))
    return ['components', ends], lambda answer: answer.decode() == wanted + '\n'


def cases():
    for name, make, counts in (('ranks', ranks, (1024, 2048, 4096)), ('split', split, (1024, 2048, 4096)), ('steps', steps, (2500, 5000, 10000))):
        for count in counts:
            fields = [json.dumps(part, separators=(',', ':')) for part in make(count)]
            for table in ('read', 'proof'):
                yield [name, count, table], [table] + fields, lambda answer: answer == b'OK\n'
    for name in ('ring', 'chain'):
        for count in (1024, 2048, 4096):
            fields, is_right = classes(name, count)
            yield [name, count, 'components'], fields, is_right


if __name__ == '__main__':
    print_times(__doc__, ['proof', 'count', 'table'], cases(), 'state_tables')
