"""The check of a proof of termination: its first fault.

Reads again: crates/descent/specs (Rankings, Shown, Splits, Steps). Fuhs et al. 2009.
"""
from collections import defaultdict


class Fault(Exception):
    """A fault, in words."""


LIMIT = 2 ** 31


def combine(rows, multipliers, weights):
    """The sum of rows by multipliers."""
    s = defaultdict(int)
    const = 0
    for n, (r, m) in enumerate(multipliers):
        if r >= len(rows):
            raise Fault('BadIndex n=%d' % n)
        if abs(m) > LIMIT:
            raise Fault('Limit n=%d' % n)
        kind, terms, c, ws = rows[r]
        if kind == '>=' and m < 0:
            raise Fault('NegativeMultiplier n=%d' % n)
        for v, a in terms:
            s[v] += m * a
        const += m * (c + sum((k * weights.get(cl, 0) for cl, k in ws)))
    return ({v: a for v, a in s.items() if a}, const)


def form_value(forms, cut, slots, weights):
    """A form of a cut in the variables of a rule."""
    for f in forms:
        if f[0] == cut:
            d = defaultdict(int)
            c = f[1]
            for lst, kind in ((f[2], 'int'), (f[3], 'size')):
                for i, k in lst:
                    sl = [s for s in slots if s[0] == i and s[1] == kind]
                    if not sl:
                        return None
                    for v, a in sl[0][3]:
                        d[v] += k * a
                    c += k * (sl[0][4] + sum((q * weights.get(cl, 0) for cl, q in sl[0][5])))
            return (dict(d), c)
    return ({}, 0)


def shows(sum_, target):
    """The sum shows the target."""
    t = {v: a for v, a in target[0].items() if a}
    return sum_[0] == t and target[1] >= sum_[1]


def minus(a, b, k):
    d = defaultdict(int)
    for v, x in a[0].items():
        d[v] += x
    for v, x in b[0].items():
        d[v] -= x
    return (dict(d), a[1] - b[1] - k)


def shown(rule, forms, weights, what, multipliers):
    s = form_value(forms, rule[0], rule[4], weights)
    e = form_value(forms, rule[1], rule[5], weights) if what != 'NotBounded' else ({}, 0)
    if s is None or e is None:
        raise Fault('%s')
    t = minus(s, e, 1 if what == 'NotStrict' else 0)
    x = combine(rule[3], multipliers, weights)
    if not shows(x, t):
        raise Fault('%s')


def check(rules, proof):
    """OK, or the first fault and its step."""
    sets = {0: list(range(len(rules)))}
    taken = set()
    if not proof:
        return 'BadStep step=0'
    for j, st in enumerate(proof):
        try:
            named = [st[-1]] if st[0] in ('rank', 'dead') else [x for x in st[2]
                    if x != -1] if st[0] == 'split' else []
            bad = j != 0 and j not in sets
            for x in named:
                if x <= j or x >= len(proof) or x in taken:
                    bad = True
                taken.add(x)
            if bad:
                raise Fault('BadStep')
            set_ = sets[j]
            if st[0] == 'empty':
                if set_:
                    raise Fault('NotCovered rule=%d' % min(set_))
            elif st[0] == 'split':
                parts = st[1]
                cnt = defaultdict(int)
                where = {}
                for k, pt in enumerate(parts):
                    for r in pt:
                        cnt[r] += 1
                        where[r] = k
                for r in sorted(set(set_) | set(cnt)):
                    if (r in set_) != (cnt[r] > 0) or (r in set_ and cnt[r] != 1):
                        raise Fault('NotCovered rule=%d' % r)
                for r in sorted(set_):
                    lower = [q for q in sorted(set_) if rules[r][1] == rules[q][0] and where[q] < where[r]]
                    if lower:
                        raise Fault('BackEdge from=%d to=%d' % (r, lower[0]))
                for r in sorted(set_):
                    if st[2][where[r]] == -1 and (len(parts[where[r]]) != 1 or rules[r][0] == rules[r][1]):
                        raise Fault('Loops rule=%d' % r)
                for pt, x in zip(parts, st[2]):
                    if x != -1:
                        sets[x] = sorted(pt)
            elif st[0] == 'rank':
                _, order, ws, forms, lst, rest = st
                weights = dict(map(tuple, ws))
                listed = {e[0]: e for e in lst}
                strict = set()
                for r in sorted(set(set_) | set(listed)):
                    if r not in set_ or r not in listed:
                        raise Fault('NotCovered rule=%d' % r)
                    e = listed[r]

                    def nd(what, multipliers):
                        try:
                            shown(rules[r], forms, weights, what, multipliers)
                        except Fault as x:
                            raise Fault('%s rule=%d' % (what, r) if x.args[0] == '%s' else x.args[0])
                    if e[1] == 'weak':
                        nd('NotWeak', e[2])
                    else:
                        nd('NotStrict', e[2])
                        nd('NotBounded', e[3])
                        strict.add(r)
                sets[rest] = [r for r in set_ if r not in strict]
            else:
                _, r, multipliers, rest = st
                if r not in set_:
                    raise Fault('NotCovered rule=%d' % r)
                x = combine(rules[r][3], multipliers, {})
                if not shows(x, ({}, -1)):
                    raise Fault('NotStrict rule=%d' % r)
                sets[rest] = [q for q in set_ if q != r]
        except Fault as e:
            return '%s step=%d' % (e.args[0], j)
    return 'OK'
