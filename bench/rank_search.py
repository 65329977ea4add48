#!/usr/bin/env python3
"""Times the search for forms that rank rules.

usage: rank_search.py [PROGRAM]

PROGRAM is the built `state_tables`. Rules are read (`read-rules`), and read and searched (`plain`, `stepwise`, `linear`); the difference is
what the search takes. No form ranks the rules, so that all are tried, but for `several`, whose form is one over two places:

- `wide`: 50 rules with so many places of ints, each of which rises on some rule by a number of its own;
- `long`: so many rules with four places of ints;
- `several`: 20 rules with so many rows, on which six times one int plus another one falls.
"""
import json
from common import print_times

LOW, HIGH = 2147483648, 2147483647


def rule(changes, rows):
    """A rule from a cut to itself on which the ints at local 0, 1 and so on change by these numbers, with so many rows at least."""
    count = len(changes)
    bounds = [row for n in range(2 * count) for row in (['>=', [[n, 1]], LOW, []], ['>=', [[n, -1]], HIGH, []])]
    links = [['=', [[n, 1], [count + n, -1]], change, []] for n, change in enumerate(changes)]
    more = [['>=', [[0, 1]], LOW, []]] * max(0, rows - len(bounds) - len(links))
    slots = lambda first: [[n, 'int', [[0, 'local', n]], [[first + n, 1]], 0, []] for n in range(count)]
    return [0, 0, 2 * count, bounds + links + more, slots(0), slots(count)]


def wide(count):
    """Each int falls by 1 on each rule, and rises on one by more than four times as much as any other one falls there."""
    return [rule([5 if n % 50 == k else -1 for n in range(count)], 0) for k in range(50)]


def long(count):
    return [rule([5 if n == k % 4 else -1 for n in range(4)], 0) for k in range(count)]


def several(count):
    return [rule([-1, 5] if k % 2 else [1, -7], count) for k in range(20)]


def cases():
    for name, make, counts, tables in (('wide', wide, (64, 128, 255), ('plain', 'stepwise')), ('long', long, (1024, 2048, 4096), ('plain', 'stepwise')), ('several', several, (50, 100, 200), ('linear',))):
        for count in counts:
            rules = json.dumps(make(count), separators=(',', ':'))
            for table in ('read-rules',) + tables:
                wanted = {'read-rules': b'OK\n', 'linear': b'Some\n'}.get(table, b'None\n')
                yield [name, count, table], [table, rules], lambda answer, wanted=wanted: answer == wanted


if __name__ == '__main__':
    print_times(__doc__, ['shape', 'count', 'table'], cases(), 'state_tables')
