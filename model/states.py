"""Abstract states, what their ids can reach, and when one state is an instance of another.

Reads again: crates/abs_cells/specs (Cells, Closures), crates/abs_reach/specs/Instances. Otto et al. 2010.
"""
import json

from classes import *


class State:
    """Frames from the bottom up, the thrown id, cells by id, and the pairs with one object and those that share."""


def type_of_word(world, t):
    return world.slot(t) if t.startswith('[') else (0, 'c', world.numbers[t])


def type_word(world, t):
    return world.show(t) if t[0] else world.classes[t[2]]['name']


def read_state(world, j):
    """A state from its JSON form."""
    if isinstance(j, str):
        j = json.loads(j)
    s = State()
    s.frames = [(m, pc, [None if x == -1 else x for x in locals_], list(stack)) for m, pc, locals_,
            stack in j['frames']]
    s.thrown = None if j['throw'] == -1 else j['throw']
    s.cells = {}
    for c in j['cells']:
        k = c[1]
        if k == 'int':
            v = ('int', c[2], c[3])
        elif k == 'null':
            v = ('null',)
        elif k == 'obj':
            v = ('obj', c[2], list(c[3]))
        elif k == 'nums':
            v = ('nums', KIND_OF_CODE[c[2]], c[3])
        elif k == 'refs':
            v = ('refs', type_of_word(world, c[2]), c[3], c[4])
        else:
            v = ('unk', type_of_word(world, c[2]), c[3], c[4])
        s.cells[c[0]] = v
    s.eq = {tuple(sorted(p)) for p in j['eq']}
    s.share = {tuple(sorted(p)) for p in j['share']}
    return s


def written(world, s):
    """A state in its JSON form."""
    cells = []
    for i in sorted(s.cells):
        c = s.cells[i]
        if c[0] == 'int':
            cells.append([i, 'int', c[1], c[2]])
        elif c[0] == 'null':
            cells.append([i, 'null'])
        elif c[0] == 'obj':
            cells.append([i, 'obj', c[1], c[2]])
        elif c[0] == 'nums':
            cells.append([i, 'nums', CODE_OF_KIND[c[1]], c[2]])
        elif c[0] == 'refs':
            cells.append([i, 'refs', type_word(world, c[1]), c[2], c[3]])
        else:
            cells.append([i, 'unk', type_word(world, c[1]), c[2], c[3]])
    d = dict(cells=cells, eq=[list(p) for p in sorted(s.eq)],
            frames=[[m, pc, [-1 if x is None else x for x in locals_], stack] for m, pc, locals_, stack in s.frames],
            share=[list(p) for p in sorted(s.share)], throw=-1 if s.thrown is None else s.thrown)
    return json.dumps(d, separators=(',', ':'))


def copied(s):
    t = State()
    t.frames = [(m, pc, list(locals_), list(stack)) for m, pc, locals_, stack in s.frames]
    t.thrown = s.thrown
    t.cells = {k: (v[0], v[1], list(v[2])) if v[0] == 'obj' else v for k, v in s.cells.items()}
    t.eq = set(s.eq)
    t.share = set(s.share)
    return t


def is_known(c):
    return c is not None and c[0] in ('obj', 'nums')


def is_hazy(c):
    return c is not None and c[0] in ('refs', 'unk')


def is_reference(c):
    return is_known(c) or is_hazy(c)


def ids_of(c):
    if c is None:
        return []
    return c[2] if c[0] == 'obj' else [c[2]] if c[0] == 'nums' else []


def ids_in(c):
    return ids_of(c) + ([c[2]] if c is not None and c[0] == 'refs' else [])


def type_of_cell(c):
    if c[0] == 'obj':
        return (0, 'c', c[1])
    if c[0] == 'nums':
        return (1, 'n', c[1])
    if c[0] == 'refs':
        return (c[1][0] + 1, c[1][1], c[1][2])
    if c[0] == 'unk':
        return c[1]


def shape(c):
    return c[-1] if is_hazy(c) else None


def pair(a, b):
    return (a, b) if a < b else (b, a)


def known_from(s, x):
    """An id and all that known cells lead to from it."""
    out = {x}
    todo = [x]
    while todo:
        for y in ids_of(s.cells.get(todo.pop())):
            if y not in out:
                out.add(y)
                todo.append(y)
    return out


def counted(s, ids):
    return {i for i in ids if is_reference(s.cells.get(i))}


def may_meet(s, x, y):
    """Closures have an id in common, or ids that share."""
    P = counted(s, known_from(s, x))
    Q = counted(s, known_from(s, y))
    return any((p == q or pair(p, q) in s.share for p in P for q in Q))


def may_be_in(s, k, x):
    """An id is in a closure, or shares with a hazy id there."""
    if not is_reference(s.cells.get(k)):
        return False
    K = known_from(s, x)
    return k in K or any((is_hazy(s.cells.get(q)) and q != k and (pair(k, q) in s.share) for q in K))


def acyclic(s, x):
    """No cycle of ids of objects."""
    state = {}

    def go(y):
        if state.get(y) == 1:
            return False
        if state.get(y) == 2:
            return True
        state[y] = 1
        for z in ids_of(s.cells.get(y)):
            if is_reference(s.cells.get(z)) and (not go(z)):
                return False
        state[y] = 2
        return True
    return go(x)


def is_finite(s, x):
    """No cycle of ids, and no hazy id that may have one in its region."""
    return acyclic(s, x) and (not any((shape(s.cells.get(q)) == 'any' for q in known_from(s, x))))


def is_tree(s, x):
    """One path to each id, trees alone, and no ids that share."""
    if not acyclic(s, x):
        return False
    seen = set()

    def go(y):
        for z in ids_of(s.cells.get(y)):
            if is_reference(s.cells.get(z)):
                if z in seen or z == x:
                    return False
                seen.add(z)
                if not go(z):
                    return False
        return True
    if not go(x):
        return False
    K = known_from(s, x)
    if any((is_hazy(s.cells.get(q)) and shape(s.cells[q]) != 'tree' for q in K)):
        return False
    return not any((a != b and pair(a, b) in s.share for a in K for b in K))


def comparable(world, a, b):
    """One of two types is below the other."""
    return world.sub(a, b) or world.sub(b, a)


def instance(world, A, B, m):
    """None where the map makes A an instance of B, else the first clause that fails and the least id."""
    bids = sorted(B.cells)
    if [k for k, _ in m] != bids:
        return (0, 0)
    mp = dict(((k, v) for k, v in m))
    for k in bids:
        if mp[k] not in A.cells:
            return (0, k)
    if len(A.frames) != len(B.frames):
        return (1, 0)
    for fa, fb in zip(A.frames, B.frames):
        if fa[0] != fb[0] or fa[1] != fb[1] or len(fa[3]) != len(fb[3]):
            return (1, 0)
    bad = []
    for fa, fb in zip(A.frames, B.frames):
        for i, b in enumerate(fb[2]):
            if b is not None:
                a = fa[2][i] if i < len(fa[2]) else None
                if a is None or mp.get(b) != a:
                    bad.append(b)
        for a, b in zip(fa[3], fb[3]):
            if mp.get(b) != a:
                bad.append(b)
    if bad:
        return (1, min(bad))
    if (A.thrown is None) != (B.thrown is None):
        return (2, 0)
    if B.thrown is not None and mp.get(B.thrown) != A.thrown:
        return (2, B.thrown)

    def c3(b):
        cb = B.cells[b]
        ca = A.cells[mp[b]]
        if cb[0] == 'int':
            return ca[0] == 'int' and cb[1] <= ca[1] and (ca[2] <= cb[2])
        if cb[0] == 'null':
            return ca[0] == 'null'
        if cb[0] == 'obj':
            return ca[0] == 'obj' and ca[1] == cb[1] and (len(ca[2]) ==
                    len(cb[2])) and all((mp.get(x) == y for x, y in zip(cb[2], ca[2])))
        if cb[0] == 'nums':
            return ca[0] == 'nums' and ca[1] == cb[1] and (mp.get(cb[2]) == ca[2])
        if cb[0] == 'refs':
            return ca[0] == 'refs' and world.sub(ca[1], cb[1]) and (mp.get(cb[2]) == ca[2])
        if ca[0] == 'int':
            return False
        if ca[0] == 'null':
            return cb[2]
        if ca[0] == 'unk' and ca[2] and (not cb[2]):
            return False
        return world.sub(type_of_cell(ca), cb[1])
    for b in bids:
        if not c3(b):
            return (3, b)
    refs = [b for b in bids if B.cells[b][0] != 'int']
    bad = []
    for i, x in enumerate(refs):
        for y in refs[i + 1:]:
            a, b = (mp[x], mp[y])
            if a == b and A.cells[a][0] != 'null' or (a != b and pair(a, b) in A.eq):
                if pair(x, y) not in B.eq:
                    bad += [x, y]
    if bad:
        return (4, min(bad))
    for i, x in enumerate(refs):
        for y in refs[i + 1:]:
            cx, cy = (B.cells[x], B.cells[y])
            need = False
            if is_hazy(cx) and is_hazy(cy):
                need = may_meet(A, mp[x], mp[y])
            elif is_known(cx) and is_hazy(cy):
                need = may_be_in(A, mp[x], mp[y])
            elif is_hazy(cx) and is_known(cy):
                need = may_be_in(A, mp[y], mp[x])
            if need and pair(x, y) not in B.share:
                bad += [x, y]
    if bad:
        return (5, min(bad))
    for b in bids:
        sh = shape(B.cells[b])
        if sh == 'tree' and (not is_tree(A, mp[b])):
            return (6, b)
        if sh == 'dag' and (not is_finite(A, mp[b])):
            return (6, b)
    return None


def find_map(world, A, B):
    """The map that makes A an instance of B, or None."""
    mp = {}
    todo = []

    def put(b, a):
        if b in mp:
            return mp[b] == a
        mp[b] = a
        todo.append(b)
        return True
    if len(A.frames) != len(B.frames):
        return None
    for fa, fb in zip(A.frames, B.frames):
        if len(fa[3]) != len(fb[3]):
            return None
        for i, b in enumerate(fb[2]):
            if b is not None:
                a = fa[2][i] if i < len(fa[2]) else None
                if a is None or not put(b, a):
                    return None
        for a, b in zip(fa[3], fb[3]):
            if not put(b, a):
                return None
    if B.thrown is not None:
        if A.thrown is None or not put(B.thrown, A.thrown):
            return None
    while todo:
        b = todo.pop()
        cb = B.cells.get(b)
        ca = A.cells.get(mp[b])
        if cb is None:
            return None
        if cb[0] in ('obj', 'nums', 'refs'):
            if ca[0] != cb[0]:
                return None
            x, y = (ids_in(cb), ids_in(ca))
            if len(x) != len(y):
                return None
            for p, q in zip(x, y):
                if not put(p, q):
                    return None
    m = sorted(mp.items())
    return m if instance(world, A, B, m) is None else None
