"""Forms that may differ from cut to cut, shown by all rows of the rules; and their rank steps.

Reads again: crates/cut_search with its module simplex. By the affine form of Farkas' lemma: Feautrier 1992, Podelski and Rybalchenko 2004.
A sum is a mapping: ('v', variable), ('k',) for the number 1 and ('r', row) for a row that was added, each with how often it counts.
"""
import math
from fractions import Fraction

ONE = ('k',)


def plus(one, other, times):
    both = dict(one)
    for key, count in other.items():
        both[key] = both.get(key, 0) + times * count
    return {key: count for key, count in both.items() if count}


def variables(s):
    return {key[1]: count for key, count in s.items() if key[0] == 'v'}


def sum_of(terms, constant, weights):
    """Terms, a number and weights, where every class weighs 1."""
    return plus({('v', v): c for v, c in terms}, {ONE: constant + sum(w for _, w in weights)}, 1)


class Left:
    """What is left of a rule once its equations are solved."""

    def __init__(self, rule):
        self.start, self.end, solved, kept = rule[0], rule[1], {}, {}

        def without(s):
            while True:
                v = next((key for key in s if key in solved), None)
                if v is None:
                    return s
                s = plus(s, solved[v], -s[v] * solved[v][v])
        rows = []
        for n, (kind, terms, constant, weights) in enumerate(rule[3]):
            row = plus(sum_of(terms, constant, weights), {('r', n): 1}, 1)
            if kind != '=':
                rows.append(row)
                continue
            row = without(row)
            once = [v for v, c in variables(row).items() if abs(c) == 1]
            if once:
                solved['v', max(once)] = row
            else:
                rows += [row, plus({}, row, -1)]
        for row in map(without, rows):
            key = tuple(sorted(variables(row).items()))
            if (key or row.get(ONE, 0) < 0) and (key not in kept or row.get(ONE, 0) < kept[key].get(ONE, 0)):
                kept[key] = row
        self.bounds = {key[0]: row for key, row in kept.items() if len(key) == 1 and abs(key[0][1]) == 1}
        self.rows = [row for key, row in kept.items() if not (len(key) == 1 and key[0] in self.bounds) and not self.is_implied(row)]
        self.first, self.last = ({(s[1], s[0]): without(sum_of(s[3], s[4], s[5])) for s in slots} for slots in rule[4:6])

    def bound(self, v, count):
        return self.bounds.get((v, 1 if count > 0 else -1))

    def is_implied(self, row):
        bounds = [(self.bound(v, c), abs(c)) for v, c in variables(row).items()]
        return all(b for b, _ in bounds) and row.get(ONE, 0) >= sum(c * b.get(ONE, 0) for b, c in bounds)

    def used(self):
        return sorted({v for s in list(self.first.values()) + list(self.last.values()) + self.rows for v in variables(s)})

    def reason(self, s):
        """What a sum is at least, and how often each row counts; nothing where a variable has no bound."""
        left = s
        for v, count in variables(s).items():
            if self.bound(v, count) is None:
                return None
            left = plus(left, self.bound(v, count), -abs(count))
        return left.get(ONE, 0), [[key[1], -left[key]] for key in sorted(left) if key[0] == 'r']


def share(left, n, unknown):
    """What an unknown adds to the fall of a rule, bounds aside."""
    kind, at, what, times = unknown
    if kind == 'slot':
        start = left.first[what] if left.start == at else {}
        return plus(plus({}, start, times), left.last[what] if left.end == at else {}, -times)
    if kind == 'constant':
        return plus({ONE: times} if left.start == at else {}, {ONE: times} if left.end == at else {}, -1)
    return plus({}, left.rows[what], -1) if kind == 'row' and at == n else {}


def unknowns_of(lefts):
    cuts = sorted({cut for left in lefts for cut in (left.start, left.end)})
    out = []
    for cut in cuts:
        slots = next(left.first if left.start == cut else left.last for left in lefts if cut in (left.start, left.end))
        out += [('slot', cut, key, times) for key in slots for times in ((1, -1) if key[0] == 'int' else (1,))]
        out += [('constant', cut, None, times) for times in (1, -1)] if len(cuts) > 1 else []
    for n, left in enumerate(lefts):
        out += [('row', n, row, 1) for row in range(len(left.rows))]
        out += [('low', n, v, 1) for v in left.used() if left.bound(v, 1) and left.bound(v, -1)]
    return cuts, out


def table_of(lefts, unknowns):
    """Rows that are at least 0, and what each rule falls by; each a mapping from places of unknowns."""
    rows, falls = [], []
    for n, left in enumerate(lefts):
        shares = [share(left, n, unknown) for unknown in unknowns]
        fall = {k: s[ONE] for k, s in enumerate(shares) if ONE in s}
        for v in left.used():
            counts = {k: s['v', v] for k, s in enumerate(shares) if ('v', v) in s}
            low, high = left.bound(v, 1), left.bound(v, -1)
            own = {unknowns.index(('low', n, v, 1)): 1} if low and high else {}
            if not counts:
                continue
            above = plus(own, counts, -1)
            if low:
                fall = plus(fall, own if high else counts, -low.get(ONE, 0))
            if high:
                fall = plus(fall, above, -high.get(ONE, 0))
            rows += ([] if high else [counts]) + ([] if low and not high else [above])
        falls.append(fall)
    return rows, falls


def solution(count, rows, falls):
    """How often each unknown counts, so that no row is below 0 and the sum of the falls above it; or nothing."""
    number = -1
    table = [{k: Fraction(c) for k, c in row.items()} for row in rows + falls]
    table.append({**{k: Fraction(-1) for k in range(count)}, number: Fraction(1)})
    aim = {}
    for fall in falls:
        aim = plus(aim, fall, 1)
    basic = list(range(count, count + len(table)))
    for _ in range(1000):
        if aim.get(number, 0) > 0:
            return {name: table[n].get(number, 0) for n, name in enumerate(basic) if name < count}
        column = min((k for k, c in aim.items() if k != number and c > 0), default=None)
        limits = [(row.get(number, 0) / -row[column], basic[n], n) for n, row in enumerate(table) if row.get(column, 0) < 0]
        if column is None or not limits:
            return None
        _, out, n = min(limits)
        turned = {k: -c / table[n][column] for k, c in table[n].items() if k != column}
        turned[out] = 1 / table[n][column]
        put = lambda row: plus({k: c for k, c in row.items() if k != column}, turned, row[column]) if column in row else row
        table = [turned if k == n else put(row) for k, row in enumerate(table)]
        aim, basic[n] = put(aim), column
    return None


def step(rules):
    """The rank step of such a form, or nothing."""
    lefts = [Left(rule) for rule in rules]
    cuts, unknowns = unknowns_of(lefts)
    rows, falls = table_of(lefts, unknowns)
    found = solution(len(unknowns), rows, falls) if (len(rows) + len(falls)) * len(unknowns) <= 65536 else None
    if found is None:
        return None
    common = math.lcm(*(f.denominator for f in found.values()))
    counts = [(unknown, int(found.get(k, 0) * common)) for k, unknown in enumerate(unknowns)]
    constants = {cut: sum(u[3] * c for u, c in counts if u[:2] == ('constant', cut)) for cut in cuts}
    entries, needs = [], []
    for n, left in enumerate(lefts):
        fall, start = {}, {}
        for unknown, count in counts:
            fall = plus(fall, share(left, n, unknown), count)
            if unknown[:2] == ('slot', left.start):
                start = plus(start, left.first[unknown[2]], unknown[3] * count)
        reason, bound = left.reason(fall), left.reason(start)
        if reason[0] > 0 and bound is not None:
            needs.append(-(constants[left.start] + bound[0]))
            entries.append([n, 'strict', reason[1], bound[1]])
        else:
            entries.append([n, 'weak', reason[1]])
    if not needs:
        return None
    forms = []
    for cut in cuts:
        parts = {'int': {}, 'size': {}}
        for unknown, count in counts:
            if unknown[:2] == ('slot', cut):
                parts[unknown[2][0]] = plus(parts[unknown[2][0]], {unknown[2][1]: unknown[3]}, count)
        forms.append([cut, constants[cut] + max(needs)] + [[list(e) for e in sorted(parts[kind].items())] for kind in ('int', 'size')])
    classes = sorted({c for rule in rules for part in (rule[3], rule[4], rule[5]) for p in part for c, _ in p[-1]})
    sized = classes or any(s[1] == 'size' for rule in rules for s in rule[4] + rule[5])
    return ['rank', 'size' if sized else 'linear', [[c, 1] for c in classes], forms, entries, 1]
