"""Widening: a state of which two states are instances. And the patterns of ids.

Reads again: crates/abs_cells/specs/Patterns, crates/jvm_values/specs/Joins, crates/abs_widen/specs. Otto et al. 2010.
"""
import sys

from expand import *

sys.setrecursionlimit(100000)


def best(s, x):
    """The best shape that an id tells."""
    c = s.cells[x]
    if c[0] == 'null':
        return 'tree'
    return 'tree' if is_tree(s, x) else 'dag' if is_finite(s, x) else 'any'


def grid(v, up):
    """The next of five numbers outward."""
    g = [MIN, MIN + 1, 0, MAX - 1, MAX]
    return min((x for x in g if x >= v)) if up else max((x for x in g if x <= v))


def widen(world, p, q):
    """The widening of p by q."""
    ids = {}
    out = State()
    out.cells = {}

    def visit(pair):
        if pair in ids:
            return ids[pair]
        n = len(ids)
        ids[pair] = n
        if n > 512 + 600:
            raise TooManyIds()
        a, b = pair
        ca, cb = (p.cells[a], q.cells[b])
        if ca[0] == 'int':
            out.cells[n] = ('int', ca[1] if cb[1] >= ca[1] else grid(cb[1], False), ca[2] if cb[2] <= ca[2]
                    else grid(cb[2], True))
            return n

        def worse():
            return max(best(p, a), best(q, b), key=SHAPES.index)
        if ca[0] == 'null' and cb[0] == 'null':
            out.cells[n] = ('null',)
        elif ca[0] == 'obj' and cb[0] == 'obj' and (ca[1] == cb[1]):
            out.cells[n] = None
            out.cells[n] = ('obj', ca[1], [visit((x, y)) for x, y in zip(ca[2], cb[2])])
        elif ca[0] == 'nums' and cb[0] == 'nums' and (ca[1] == cb[1]):
            out.cells[n] = None
            out.cells[n] = ('nums', ca[1], visit((ca[2], cb[2])))
        elif ca[0] == 'refs' and cb[0] == 'refs':
            out.cells[n] = None
            out.cells[n] = ('refs', world.join(ca[1], cb[1]), visit((ca[2], cb[2])), worse())
        else:
            nl = lambda c: c[0] == 'null' or (c[0] == 'unk' and c[2])
            ts = [type_of_cell(c) for c in (ca, cb) if c[0] != 'null']
            t = ts[0] if len(ts) == 1 else world.join(*ts)
            out.cells[n] = ('unk', world.erase(t) if len(ts) == 1 else t, nl(ca) or nl(cb), worse())
        return n

    def pos(x, y):
        if x is None or y is None:
            return None
        if (p.cells[x][0] == 'int') != (q.cells[y][0] == 'int'):
            return None
        return visit((x, y))
    out.frames = []
    for fp, fq in zip(p.frames, q.frames):
        out.frames.append((fp[0], fp[1], [pos(a, b) for a, b in zip(fp[2], fq[2])],
                [pos(a, b) for a, b in zip(fp[3], fq[3])]))
    out.thrown = None if p.thrown is None else pos(p.thrown, q.thrown)
    if len(ids) > 512:
        raise TooManyIds()
    inv = {n: pr_ for pr_, n in ids.items()}
    kn = [n for n in out.cells if is_known(out.cells[n])]
    bad = [n for n in kn if any((m != n and (inv[m][0] == inv[n][0] or inv[m][1] == inv[n][1]) for m in kn))]
    new = {}
    for n in bad:
        a, b = inv[n]
        ca, cb = (p.cells[a], q.cells[b])
        new[n] = ('unk', world.join(type_of_cell(ca), type_of_cell(cb)), False,
                max(best(p, a), best(q, b), key=SHAPES.index))
    out.cells.update(new)
    out.eq = set()
    out.share = set()
    drop(out)
    refs = [n for n in sorted(out.cells) if is_reference(out.cells[n])]
    for i, x in enumerate(refs):
        for y in refs[i + 1:]:
            cx, cy = (out.cells[x], out.cells[y])
            if is_known(cx) and is_known(cy):
                continue
            sides = ((p, inv[x][0], inv[y][0]), (q, inv[x][1], inv[y][1]))
            e = any((a == b and s.cells[a][0] != 'null' or (a != b and pair(a, b) in s.eq) for s, a, b in sides))
            if e:
                out.eq.add((x, y))
                out.share.add((x, y))
            if is_hazy(cx) and is_hazy(cy):
                sh = any((may_meet(s, a, b) for s, a, b in sides))
            elif is_known(cx):
                sh = any((may_be_in(s, a, b) for s, a, b in sides))
            else:
                sh = any((may_be_in(s, b, a) for s, a, b in sides))
            if sh:
                out.share.add((x, y))
    return out


def count_pattern(s, x):
    """How many parts a pattern has."""
    memo = {}

    def go(i):
        if i in memo:
            return memo[i]
        c = s.cells[i]
        if c[0] == 'int':
            r = 0
        elif c[0] == 'obj':
            r = 1 + sum((go(j) for j in c[2]))
        else:
            r = 1
        memo[i] = r
        return r
    return go(x)


def is_sized(s, x):
    """An id has a size."""
    return s.cells[x][0] != 'int' and is_finite(s, x) and (count_pattern(s, x) <= 4096)


def pattern(s, x):
    """The pattern of an id in words."""
    c = s.cells[x]
    if c[0] == 'null':
        return 'null'
    if c[0] in ('nums', 'refs'):
        return 'leaf'
    if c[0] == 'unk':
        return 'x%d' % x
    return '%d(%s)' % (c[1], ','.join((pattern(s, j) for j in c[2] if s.cells[j][0] != 'int')))
