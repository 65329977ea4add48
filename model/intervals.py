"""The operators and conditions over ints, on intervals.

Reads again: crates/abs_ints/specs. Otto et al. 2010.

A case is its way, the two operands' intervals, the result's interval or None, and its rows: a kind, the multiples of the
operands and of the result, and a constant.
"""
from machine import arith

MIN = -2 ** 31
MAX = 2 ** 31 - 1
B32 = 2 ** 32
FULL = (MIN, MAX)


def meet(a, b):
    """What two intervals have in common."""
    lo = max(a[0], b[0])
    hi = min(a[1], b[1])
    return (lo, hi) if lo <= hi else None


def quotient(a, b):
    q = abs(a) // abs(b)
    return -q if (a < 0) != (b < 0) else q


def at_least(L, Reader, T, C):
    return ('ge', L, Reader, T, C)


def is_zero(L, Reader, T, C):
    return ('eq', L, Reader, T, C)


def single(x):
    return x[0] == x[1]


def operate(op, a, b):
    """The cases of an operator on two intervals."""
    la, ha = a
    lb, hb = b if b else (0, 0)
    if op.startswith('narrow_'):
        rng = {'boolean': (0, 1), 'char': (0, 65535), 'byte': (-128, 127), 'short': (-32768, 32767),
                'int': FULL}[op[7:]]
        if rng[0] <= la and ha <= rng[1]:
            return [('inside', a, b, None, [])]
        return [('inside', a, b, rng, [])]
    if op in ('iadd', 'isub'):
        x = (la + lb, ha + hb) if op == 'iadd' else (la - hb, ha - lb)
        out = []
        for way, cut, mv in (('inside', FULL, 0), ('over', (MAX + 1, 10 ** 12), -B32),
                ('under', (-10 ** 12, MIN - 1), B32)):
            m = meet(x, cut)
            if m is None:
                continue
            e, f = m
            if op == 'iadd':
                l = meet(a, (e - hb, f - lb))
                r = meet(b, (e - ha, f - la))
                row = is_zero(-1, -1, 1, -mv)
            else:
                l = meet(a, (e + lb, f + hb))
                r = meet(b, (la - f, ha - e))
                row = is_zero(-1, 1, 1, -mv)
            out.append((way, l, r, (e + mv, f + mv), [row]))
        return out
    if op in ('idiv', 'irem'):
        zero = [('zero', a, (0, 0), None, [])] if lb <= 0 <= hb else []
        l2, h2 = (lb, hb)
        if l2 == 0:
            l2 = 1
        elif h2 == 0:
            h2 = -1
        if lb == hb == 0:
            return zero
        b2 = (l2, h2)
        if single(a) and single(b):
            return [('inside', a, b2, (arith(op, la, lb),) * 2, [])] + zero
        rows = []
        if op == 'idiv':
            if l2 >= 1:
                res = (quotient(la, l2) if la < 0 else quotient(la, h2), quotient(ha, l2) if ha >= 0
                        else quotient(ha, h2))
                if la >= 0:
                    rows.append(at_least(1, 0, -l2, 0))
                    if single(b):
                        rows.append(at_least(-1, 0, lb, lb - 1))
            elif la == MIN and l2 <= -1 <= h2:
                res = FULL
            else:
                m = max(abs(la), abs(ha))
                res = meet((-m, m), FULL)
        else:
            m = max(abs(l2), abs(h2)) - 1
            res = (0 if la >= 0 else max(la, -m), 0 if ha <= 0 else min(ha, m))
            if l2 >= 1:
                rows.append(at_least(0, 1, -1, -1))
                if la >= 0:
                    rows.append(at_least(1, 0, -1, 0))
        return [('inside', a, b2, res, rows)] + zero
    if single(a) and single(b):
        return [('inside', a, b, (arith(op, la, lb),) * 2, [])]

    def mul(x, y, sh=False):
        ps = [p * q for p in x for q in y]
        h = (min(ps), max(ps))
        if not (MIN <= h[0] and h[1] <= MAX):
            return (FULL, [])
        if single(y) and (not single(x)):
            return (h, [is_zero(-y[0], 0, 1, 0)])
        if single(x) and (not single(y)):
            return (h, [is_zero(0, -x[0], 1, 0)])
        return (h, [])
    if op == 'imul':
        res, rows = mul(a, b)
    elif op == 'ishl':
        if single(b):
            s = lb & 31
            res, rows = mul(a, (2 ** s, 2 ** s))
        else:
            res, rows = (FULL, [])
    elif op == 'ishr' or (op == 'iushr' and la >= 0):
        if single(b):
            s = lb & 31
            res = (la >> s, ha >> s)
            rows = [at_least(1, 0, -2 ** s, 0), at_least(-1, 0, 2 ** s, 2 ** s - 1)]
        else:
            res = (min(la, 0), ha if ha >= 0 else -1)
            rows = [at_least(1, 0, -1, 0)] if la >= 0 else []
    elif op == 'iushr':
        if single(b):
            s = lb & 31
            if s == 0:
                res, rows = (a, [is_zero(-1, 0, 1, 0)])
            else:
                res, rows = ((0, 2 ** (32 - s) - 1), [])
        else:
            res, rows = (FULL, [])
    elif op == 'iand':
        if la >= 0 and lb >= 0:
            res, rows = ((0, min(ha, hb)), [at_least(1, 0, -1, 0), at_least(0, 1, -1, 0)])
        elif la >= 0:
            res, rows = ((0, ha), [at_least(1, 0, -1, 0)])
        elif lb >= 0:
            res, rows = ((0, hb), [at_least(0, 1, -1, 0)])
        else:
            res, rows = (FULL, [])
    elif op in ('ior', 'ixor'):
        if la >= 0 and lb >= 0:
            k = 0
            while 2 ** k - 1 < max(ha, hb):
                k += 1
            if op == 'ior':
                res, rows = ((max(la, lb), 2 ** k - 1), [at_least(-1, 0, 1, 0), at_least(0, -1, 1, 0)])
            else:
                res, rows = ((0, 2 ** k - 1), [])
        else:
            res, rows = (FULL, [])
    return [('inside', a, b, res, rows)]


def relation(rel, a, b):
    """Two intervals as far as a relation can hold, and its row."""
    la, ha = a
    lb, hb = b
    if rel == '<':
        l = (la, min(ha, hb - 1))
        r = (max(lb, la + 1), hb)
        row = at_least(-1, 1, 0, -1)
    elif rel == '<=':
        l = (la, min(ha, hb))
        r = (max(lb, la), hb)
        row = at_least(-1, 1, 0, 0)
    elif rel == '>':
        l = (max(la, lb + 1), ha)
        r = (lb, min(hb, ha - 1))
        row = at_least(1, -1, 0, -1)
    elif rel == '>=':
        l = (max(la, lb), ha)
        r = (lb, min(hb, ha))
        row = at_least(1, -1, 0, 0)
    else:
        m = meet(a, b)
        if m is None:
            return None
        l = r = m
        row = is_zero(1, -1, 0, 0)
    if l[0] > l[1] or r[0] > r[1]:
        return None
    return (l, r, row)


CONDITIONS = {'eq': [('taken', '='), ('next', '<'), ('next', '>')],
        'ne': [('taken', '<'), ('taken', '>'), ('next', '=')], 'lt': [('taken', '<'), ('next', '>=')], 'ge':
        [('taken', '>='), ('next', '<')], 'gt': [('taken', '>'), ('next', '<=')], 'le':
        [('taken', '<='), ('next', '>')]}


def compare(condition_holds, same, a, b):
    """The cases of a condition; `same` where both operands are one id."""
    out = []
    for way, rel in CONDITIONS[condition_holds]:
        if same:
            if rel in ('=', '<=', '>='):
                out.append((way, a, b, None, []))
            continue
        x = relation(rel, a, b)
        if x:
            out.append((way, x[0], x[1], None, [x[2]]))
    return out


def show(cs, right=True):
    iv = lambda x: '-' if x is None else '[%d,%d]' % x
    return ' | '.join((' '.join([w, iv(l), iv(r) if right else '-', iv(t)] + ['%s:%d,%d,%d,%d' % x for x in rows])
            for w, l, r, t, rows in cs))
