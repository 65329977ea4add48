"""Expansion: the children of an abstract state, by one step or by a split into cases.

Reads again: crates/abs_cells/specs (Sound, Cells: fresh ids), crates/abs_ints/specs, crates/abs_reach/specs/Reached,
crates/abs_heap/specs, crates/abs_expand/specs. Otto et al. 2010.
"""
from intervals import compare, meet, operate, relation
from shuffles import shuffled, taken
from states import *

SHAPES = ['tree', 'dag', 'any']


class TooManyIds(Exception):
    """A child has more than 512 ids."""


class Link:
    """What an edge says beside its states."""

    def __init__(self, step, rows=(), merged=None):
        self.step = step
        self.rows = list(rows)
        self.merged = merged


def fresh_ids(s, c, n):
    """The least numbers that neither the parent nor the child has."""
    used = set(s.cells) | set(c.cells)
    out = []
    i = 0
    while len(out) < n:
        if i not in used:
            out.append(i)
        i += 1
    return out


def clean(c):
    """Without pairs that can not stand."""

    def ok(ids):
        a, b = ids
        if a == b:
            return False
        ca, cb = (c.cells.get(a), c.cells.get(b))
        return is_reference(ca) and is_reference(cb) and (not (is_known(ca) and is_known(cb)))
    c.share = {q for q in c.share if ok(q)}
    c.eq = {q for q in c.eq if ok(q)}


def compatible(world, a, b):
    """Two cells may describe one object."""
    if not (is_reference(a) and is_reference(b)):
        return False
    ta, tb = (type_of_cell(a), type_of_cell(b))
    if not comparable(world, ta, tb):
        return False
    if a[0] == 'obj' and b[0] in ('nums', 'refs') or (b[0] == 'obj' and a[0] in ('nums', 'refs')):
        return False
    return (not is_known(a) or world.sub(ta, tb)) and (not is_known(b) or world.sub(tb, ta))


def join(world, c, a, b):
    """Two ids share, and may be one object where their cells allow it."""
    if a == b:
        return
    ca, cb = (c.cells[a], c.cells[b])
    if not (is_reference(ca) and is_reference(cb)) or (is_known(ca) and is_known(cb)):
        return
    c.share.add(pair(a, b))
    if compatible(world, ca, cb):
        c.eq.add(pair(a, b))


def rename(c, ren):
    """Ids under other numbers."""
    g = lambda i: ren.get(i, i)
    c.frames = [(m, pc, [None if x is None else g(x) for x in locals_], [g(x) for x in stack]) for m, pc, locals_,
            stack in c.frames]
    if c.thrown is not None:
        c.thrown = g(c.thrown)
    nc = {}
    for i, v in c.cells.items():
        if v[0] == 'obj':
            v = ('obj', v[1], [g(x) for x in v[2]])
        elif v[0] == 'nums':
            v = ('nums', v[1], g(v[2]))
        elif v[0] == 'refs':
            v = ('refs', v[1], g(v[2]), v[3])
        nc[g(i)] = v
    c.cells = nc
    c.eq = {pair(g(a), g(b)) for a, b in c.eq if g(a) != g(b)}
    c.share = {pair(g(a), g(b)) for a, b in c.share if g(a) != g(b)}


def count(c):
    if len(c.cells) > 512:
        raise TooManyIds()


def refine_null(world, s, x):
    """Null, or not null."""
    a = copied(s)
    a.cells[x] = ('null',)
    clean(a)
    b = copied(s)
    c = b.cells[x]
    b.cells[x] = ('unk', c[1], False, c[3])
    return [(Link(False), a), (Link(False), b)]


def refine_equal(world, s, x, y):
    """Two ids that are one object, or not."""
    out = []
    cx, cy = (s.cells[x], s.cells[y])
    if compatible(world, cx, cy):
        rank = lambda i: (0 if is_known(s.cells[i]) else 1 if s.cells[i][0] == 'refs' else 2, i)
        st, go = sorted((x, y), key=rank)
        c = copied(s)
        cs, cg = (s.cells[st], s.cells[go])
        if cs[0] == 'unk':
            t = cs[1] if world.sub(cs[1], cg[1]) else cg[1]
            cs = ('unk', t, False, min(cs[3], cg[3], key=SHAPES.index))
        elif cs[0] == 'refs':
            if cg[0] == 'refs':
                e = cg[1]
            else:
                t = cg[1]
                e = None if t[0] == 0 else (t[0] - 1, t[1], t[2])
            t = cs[1]
            if e is not None and world.sub(e, t):
                t = e
            cs = ('refs', t, cs[2], min(cs[3], cg[3], key=SHAPES.index))
        c.cells[st] = cs
        del c.cells[go]
        rename(c, {go: st})
        clean(c)
        out.append((Link(False, merged=(go, st)), c))
    c = copied(s)
    c.eq.discard(pair(x, y))
    out.append((Link(False), c))
    return out


def refine_class(world, s, x, wanted):
    """The classes and arrays that an object may be of."""
    _, typing, _, sh = s.cells[x]
    if not comparable(world, typing, wanted):
        return []
    Reader = typing if world.sub(typing, wanted) else wanted
    out = []
    partners = [a if b == x else b for a, b in sorted(s.share) if x in (a, b)]
    for k in range(len(world.classes)):
        if world.can_be_made(k) and world.sub((0, 'c', k), Reader):
            c = copied(s)
            slots = [q for _, _, q in world.fields_of(k)]
            ids = fresh_ids(s, c, len(slots))
            c.cells[x] = ('obj', k, ids)
            for i, q in zip(ids, slots):
                c.cells[i] = ('int',) + RANGES[q] if isinstance(q, str) else ('unk', world.erase(q), True, sh)
            fs = [i for i, q in zip(ids, slots) if not isinstance(q, str)]
            clean(c)
            for f in fs:
                for y in partners:
                    join(world, c, f, y)
                if sh in ('dag', 'any'):
                    for g in fs:
                        join(world, c, f, g)
                if sh == 'any':
                    join(world, c, f, x)
            out.append((Link(False), c))
    for k in 'ZCBSI':
        if Reader == OBJECT or Reader == (1, 'n', k):
            c = copied(s)
            i, = fresh_ids(s, c, 1)
            c.cells[x] = ('nums', k, i)
            c.cells[i] = ('int', 0, MAX)
            clean(c)
            out.append((Link(False), c))
    E = None
    if Reader == OBJECT:
        E = OBJECT
    elif Reader[0] >= 2 or (Reader[0] == 1 and Reader[1] == 'c'):
        E = (Reader[0] - 1, Reader[1], Reader[2])
    if E is not None:
        c = copied(s)
        i, = fresh_ids(s, c, 1)
        c.cells[x] = ('refs', E, i, sh)
        c.cells[i] = ('int', 0, MAX)
        clean(c)
        out.append((Link(False), c))
    return out


def load_ref(world, s, k, base=None):
    """An item of an array of references."""
    c = copied(base or s)
    _, E, n, sh = s.cells[k]
    v, = fresh_ids(s, c, 1)
    c.cells[v] = ('unk', E, True, sh)
    for a, b in sorted(s.share):
        if k in (a, b):
            join(world, c, v, a if b == k else b)
    c.share.add(pair(v, k))
    if sh == 'any':
        join(world, c, v, k)
    return (c, v)


def write(world, s, k, wid, base=None):
    """What a write of a reference into an object does to the ids that may reach it."""
    c = copied(base or s)
    aff = sorted({a if b == k else b for a, b in s.share if k in (a, b) and is_hazy(s.cells[a if b == k else b])} |
            ({k} if s.cells[k][0] == 'refs' else set()))
    M = set()
    null = s.cells[wid][0] == 'null'
    if not null:
        K = known_from(s, wid)
        M = set(K)
        for a, b in s.share:
            if a in K:
                M.add(b)
            if b in K:
                M.add(a)
    ids = fresh_ids(s, c, len(aff))
    ren = dict(zip(aff, ids))
    dag = False
    if not null:
        K = known_from(s, wid)
        dag = is_finite(s, wid) and k not in K and (not
                any((is_hazy(s.cells[q]) and pair(q, k) in s.share for q in K if q != k)))
    rename(c, ren)
    for x in aff:
        x2 = ren[x]
        v = c.cells[x2]
        if v[-1] != 'any' and (not null):
            v = v[:-1] + ('dag' if dag else 'any',)
        c.cells[x2] = v
    for x in aff:
        for z in M:
            z2 = ren.get(z, z)
            if z2 != ren[x]:
                c.share.add(pair(ren[x], z2))
    clean(c)
    return (c, ren)


def put_field(world, s, k, n, wid, base=None):
    """A write into a field."""
    c, ren = write(world, s, k, wid, base)
    v = c.cells[k]
    f = list(v[2])
    f[n] = ren.get(wid, wid)
    c.cells[k] = ('obj', v[1], f)
    return c


def new_object(world, s, k, base=None):
    """A new object of a class."""
    c = copied(base or s)
    slots = [q for _, _, q in world.fields_of(k)]
    ids = fresh_ids(s, c, 1 + len(slots))
    c.cells[ids[0]] = ('obj', k, ids[1:])
    for i, q in zip(ids[1:], slots):
        c.cells[i] = ('int', 0, 0) if isinstance(q, str) else ('null',)
    return (c, ids[0])


def new_array(world, s, el, ln, base=None):
    """A new array."""
    c = copied(base or s)
    i, = fresh_ids(s, c, 1)
    c.cells[i] = ('nums', el, ln) if isinstance(el, str) else ('refs', world.erase(el), ln, 'tree')
    return (c, i)


def well_formed(s):
    """Cells, pairs and used ids go together."""
    for i in s.cells:
        if i >= 2048:
            return False
    used = [x for _, _, locals_, stack in s.frames for x in locals_ + stack if x is not None] + ([]
            if s.thrown is None else [s.thrown]) + [x for c in s.cells.values() for x in ids_in(c)]
    if any((x not in s.cells for x in used)):
        return False
    if not s.eq <= s.share:
        return False
    for a, b in s.share:
        ca, cb = (s.cells.get(a), s.cells.get(b))
        if a == b or not is_reference(ca) or (not is_reference(cb)) or (is_known(ca) and is_known(cb)):
            return False
    return True


def sound(world, s):
    """Well-formed, and of the world."""
    if not well_formed(s) or not s.frames:
        return False
    isint = lambda i: s.cells[i][0] == 'int'
    for c in s.cells.values():
        if c[0] == 'obj':
            if c[1] >= len(world.classes) or not world.can_be_made(c[1]):
                return False
            fs = world.fields_of(c[1])
            if len(fs) != len(c[2]) or any((isint(i) != isinstance(q[2], str) for i, q in zip(c[2], fs))):
                return False
        elif c[0] == 'nums':
            if not isint(c[2]):
                return False
        elif c[0] == 'refs':
            if not isint(c[2]) or c[1][0] > 254 or world.erase(c[1]) != c[1]:
                return False
        elif c[0] == 'unk':
            if c[1][0] > 255 or world.erase(c[1]) != c[1]:
                return False
    if s.thrown is not None:
        c = s.cells[s.thrown]
        if not (is_known(c) or c[0] == 'refs' or (c[0] == 'unk' and (not c[2]))):
            return False
    return True


class BadState(Exception):
    """The state is refused, with the clause."""


def expand(program, typing, s):
    """Either that the run ends, or the children with their links."""
    world = program.world
    if not sound(world, s):
        raise BadState(1)
    n = len(s.frames)

    def kind(i):
        return 'int' if s.cells[i][0] == 'int' else 'ref'

    def isinv(f):
        return program.methods[f[0]]['insns'][f[1]][0].startswith('invoke')
    for j, f in enumerate(s.frames):
        if f[0] >= len(program.methods) or f[1] not in typing[f[0]]:
            raise BadState(2)
        m = program.methods[f[0]]
        tl, ts = typing[f[0]][f[1]]
        extra = program.static_slots if j == 0 else []
        if len(f[2]) != m['max_locals'] + len(extra):
            raise BadState(2)
        top = j == n - 1
        if top:
            want = ts if s.thrown is None else []
        elif isinv(f):
            x = m['insns'][f[1]]
            c = x[1]
            k = len(c['params']) + (x[0] != 'invokestatic')
            want = ts[:len(ts) - k]
        else:
            want = None
        if want is not None and len(f[3]) != len(want):
            raise BadState(2)

        def fit(i, t):
            if t == '-':
                return True
            if i is None:
                return False
            return kind(i) == ('int' if t == 'I' else 'ref')
        if not all((fit(i, t) for i, t in zip(f[2], tl))):
            raise BadState(2)
        if want is not None and (not all((fit(i, t) for i, t in zip(f[3], want)))):
            raise BadState(2)
        for i, sl in zip(f[2][m['max_locals']:], extra):
            if i is None or kind(i) != ('int' if isinstance(sl, str) else 'ref'):
                raise BadState(2)
    for f in s.frames[:-1]:
        if not isinv(f):
            raise BadState(3)
    r = children(program, typing, s)
    if r == 'End':
        return r
    out = []
    for i, (l, c) in enumerate(r):
        if len(c.cells) > 512:
            raise TooManyIds(i)
        out.append((l, drop(c)))
    return out


def drop(c):
    """Without the ids that positions do not reach."""
    reach = set()
    todo = [x for _, _, locals_, stack in c.frames for x in locals_ + stack if x is not None] + ([]
            if c.thrown is None else [c.thrown])
    while todo:
        x = todo.pop()
        if x in reach:
            continue
        reach.add(x)
        todo += ids_in(c.cells.get(x))
    c.cells = {i: v for i, v in c.cells.items() if i in reach}
    c.eq = {q for q in c.eq if q[0] in reach and q[1] in reach}
    c.share = {q for q in c.share if q[0] in reach and q[1] in reach}
    return c


THROWABLE = (0, 'c', 1)


def passes(world, c, wanted):
    """Whether an operand can be of the type that is asked for."""
    if c[0] == 'null':
        return True
    if c[0] == 'int':
        raise Exception('int')
    if wanted == 'null':
        return 'null' if c[0] == 'unk' and c[2] else False
    if is_known(c):
        return world.sub(type_of_cell(c), wanted)
    ok = comparable(world, type_of_cell(c), wanted)
    if ok:
        return True
    return 'null' if c[0] == 'unk' and c[2] else False


def need2(world, s, x, wanted):
    """The cases of an object whose class is not known."""
    for y in sorted({a if b == x else b for a, b in s.eq if x in (a, b)}):
        if is_known(s.cells[y]):
            return refine_equal(world, s, x, y)
    return refine_class(world, s, x, wanted)


def link_row(kind, terms, const):
    d = {}
    for side, i, k in terms:
        d[side, i] = d.get((side, i), 0) + k
    return (kind, const, sorted(((sd, i, k) for (sd, i), k in d.items() if k)))


def children(program, typing, s):
    """The children, before ids are dropped."""
    world = program.world
    f = s.frames[-1]
    m = program.methods[f[0]]
    if s.thrown is not None:
        x = s.thrown
        c = s.cells[x]
        if passes(world, c, THROWABLE) is not True:
            return []
        takes = lambda h: h is None or world.sub(type_of_cell(c), (0, 'c', h))
        may = lambda h: c[0] == 'unk' and h is not None and (not takes(h)) and world.sub((0, 'c', h), type_of_cell(c))
        cov = [e for e in m['table'] if e[0] <= f[1] < e[1]]
        first = next((i for i, e in enumerate(cov) if takes(e[3])), None)
        maybe = any((may(e[3]) for e in (cov if first is None else cov[:first])))
        if (maybe or first is None) and c[0] == 'unk':
            return need2(world, s, x, THROWABLE)
        if first is not None:
            a = copied(s)
            fr = a.frames[-1]
            a.frames[-1] = (fr[0], cov[first][2], fr[2], [x])
            a.thrown = None
            return [(Link(True), a)]
        if len(s.frames) == 1:
            return 'End'
        a = copied(s)
        a.frames.pop()
        fr = a.frames[-1]
        a.frames[-1] = (fr[0], fr[1], fr[2], [])
        return [(Link(True), a)]
    x = m['insns'][f[1]]
    o = x[0]
    nxt = m['next'][f[1]]
    stack = f[3]
    locals_ = f[2]
    ts = typing[f[0]][f[1]][1]

    def cell(i):
        return s.cells[i]
    if o in ('nop', 'aconst_null', 'const', 'iload', 'aload', 'iinc', 'goto', 'getstatic', 'new', 'return',
            'invokestatic0'):
        k = 0
    elif o in ('istore', 'astore', 'ineg', 'narrow', 'if', 'ifnull', 'tableswitch', 'lookupswitch', 'ireturn',
            'areturn', 'putstatic', 'getfield', 'newarray', 'anewarray', 'arraylength', 'athrow', 'checkcast',
            'instanceof'):
        k = 1
    elif o in ('arith', 'if_icmp', 'if_acmp', 'putfield', 'nload', 'aaload'):
        k = 2
    elif o in ('nstore', 'aastore'):
        k = 3
    elif o == 'shuffle':
        k = taken(x[1])
    elif o.startswith('invoke'):
        k = len(x[1]['params']) + (o != 'invokestatic')
    else:
        raise Exception(o)
    base = len(stack) - k
    for j in range(base, len(stack)):
        if ts[j] != 'I':
            r = passes(world, cell(stack[j]), ts[j])
            if r == 'null':
                return refine_null(world, s, stack[j])
            if r is False:
                return []
    args = stack[base:]
    below = stack[:base]
    wanted = ts[base:]

    def go(c, stack, pc=nxt, locals_=None):
        fr = c.frames[-1]
        c.frames[-1] = (fr[0], pc, fr[2] if locals_ is None else locals_, list(stack))
        return c

    def step(c, rows=()):
        return (Link(True, rows), c)

    def throw(c, cls, rows=()):
        i, = fresh_ids(s, c, 1)
        c.cells[i] = ('obj', cls, [])
        fr = c.frames[-1]
        c.frames[-1] = (fr[0], fr[1], fr[2], [])
        c.thrown = i
        return (Link(True, rows), c)

    def need1(i):
        return refine_null(world, s, i) if cell(i)[0] == 'unk' and cell(i)[2] else None

    def needs12(i, wanted):
        r = need1(i)
        if r is not None:
            return r
        if cell(i)[0] == 'unk':
            return need2(world, s, i, wanted)
        return None

    def narrow(c, pairs):
        """pairs of (id or None, interval); False where a meet is empty"""
        d = {}
        for i, iv in pairs:
            if i is None:
                continue
            d[i] = iv if i not in d else None if d[i] is None else meet(d[i], iv)
            if d[i] is None:
                return False
        for i, iv in d.items():
            c.cells[i] = ('int',) + iv
        return True
    iv = lambda i: cell(i)[1:]

    def rowsof(case_rows, a, b, r, ca=0, cb=0):
        out = []
        for kind, l, rr, t, c in case_rows:
            terms = []
            const = c
            if a is None:
                const += l * ca
            else:
                terms.append(('b', a, l))
            if b is None:
                const += rr * cb
            else:
                terms.append(('b', b, rr))
            if t:
                terms.append(('a', r, t))
            out.append(link_row(kind, terms, const))
        return out

    def intop(op, a, b, place, ca=0, cb=0):
        ia = (ca, ca) if a is None else iv(a)
        ib = (cb, cb) if b is None else iv(b)
        out = []
        for way, l, r, res, rows in operate(op, ia, ib):
            c = copied(s)
            if not narrow(c, [(a, l), (b, r)]):
                continue
            if way == 'zero':
                out.append(throw(c, ARITHMETIC, rowsof(rows, a, b, None, ca, cb)))
            else:
                i, = fresh_ids(s, c, 1)
                c.cells[i] = ('int',) + res
                place(c, i)
                out.append(step(c, rowsof(rows, a, b, i, ca, cb)))
        return out

    def branch(condition_holds, a, b, to, with_rows):
        ib = (0, 0) if b is None else iv(b)
        out = []
        for way, l, r, _, rows in compare(condition_holds, a == b, iv(a), ib):
            c = copied(s)
            if not narrow(c, [(a, l), (b, r)]):
                continue
            go(c, below, to if way == 'taken' else nxt)
            out.append(step(c, rowsof(rows, a, b, None) if with_rows else []))
        return out
    if o == 'nop':
        return [step(go(copied(s), stack))]
    if o == 'aconst_null':
        c = copied(s)
        i, = fresh_ids(s, c, 1)
        c.cells[i] = ('null',)
        return [step(go(c, stack + [i]))]
    if o == 'const':
        c = copied(s)
        i, = fresh_ids(s, c, 1)
        c.cells[i] = ('int', x[1], x[1])
        return [step(go(c, stack + [i]))]
    if o in ('iload', 'aload'):
        return [step(go(copied(s), stack + [locals_[x[1]]]))]
    if o in ('istore', 'astore'):
        L2 = list(locals_)
        L2[x[1]] = args[0]
        return [step(go(copied(s), below, nxt, L2))]
    if o == 'iinc':

        def place(c, i):
            L2 = list(locals_)
            L2[x[1]] = i
            go(c, stack, nxt, L2)
        return intop('iadd', locals_[x[1]], None, place, 0, x[2])
    if o == 'shuffle':
        return [step(go(copied(s), below + shuffled(x[1], list(args).pop)))]
    if o == 'arith':
        return intop(x[1], args[0], args[1], lambda c, i: go(c, below + [i]))
    if o == 'ineg':
        return intop('isub', None, args[0], lambda c, i: go(c, below + [i]), 0, 0)

    def kindnarrow(kindc, i, put):
        lo, hi = RANGES[kindc]
        a = iv(i)
        c = copied(s)
        if lo <= a[0] and a[1] <= hi:
            put(c, i)
        else:
            j, = fresh_ids(s, c, 1)
            c.cells[j] = ('int', lo, hi)
            put(c, j)
        return [step(c)]
    if o == 'narrow':
        return kindnarrow(x[1], args[0], lambda c, i: go(c, below + [i]))
    if o == 'if':
        return branch(x[1], args[0], None, x[2], False)
    if o == 'if_icmp':
        return branch(x[1], args[0], args[1], x[2], True)
    if o in ('tableswitch', 'lookupswitch'):
        cases = [(x[2] + j, t) for j, t in enumerate(x[3])] if o == 'tableswitch' else sorted(x[2])
        a = iv(args[0])
        parts = []
        lo = MIN
        for key, t in cases:
            parts.append((lo, key - 1, x[1]))
            parts.append((key, key, t))
            lo = key + 1
        parts.append((lo, MAX, x[1]))
        out = []
        for l, h, t in parts:
            mm = meet(a, (l, h)) if l <= h else None
            if mm is None:
                continue
            c = copied(s)
            narrow(c, [(args[0], mm)])
            out.append(step(go(c, below, t)))
        return out
    if o == 'goto':
        return [step(go(copied(s), stack, x[1]))]
    if o == 'ifnull':
        r = need1(args[0])
        if r is not None:
            return r
        isn = cell(args[0])[0] == 'null'
        return [step(go(copied(s), below, x[2] if isn == x[1] else nxt))]
    if o == 'if_acmp':
        a, b = args

        def res(eq):
            return [step(go(copied(s), below, x[2] if eq == x[1] else nxt))]
        if a == b:
            return res(True)
        for i in (a, b):
            r = need1(i)
            if r is not None:
                return r
        na, nb = (cell(a)[0] == 'null', cell(b)[0] == 'null')
        if na and nb:
            return res(True)
        if na or nb:
            return res(False)
        if pair(a, b) in s.eq:
            return refine_equal(world, s, a, b)
        return res(False)
    if o == 'getstatic':
        fr = s.frames[0]
        i = fr[2][program.methods[fr[0]]['max_locals'] + program.statics.index(x[1])]
        return [step(go(copied(s), stack + [i]))]
    if o == 'putstatic':

        def put(c, i):
            go(c, below)
            fr = c.frames[0]
            L2 = list(fr[2])
            L2[program.methods[fr[0]]['max_locals'] + program.statics.index(x[1])] = i
            c.frames[0] = (fr[0], fr[1], L2, fr[3])
        if isinstance(x[2], str):
            return kindnarrow(x[2], args[0], put)
        c = copied(s)
        put(c, args[0])
        return [step(c)]
    if o == 'getfield':
        r = needs12(args[0], wanted[0])
        if r is not None:
            return r
        if cell(args[0])[0] == 'null':
            return [throw(copied(s), NULL_POINTER)]
        return [step(go(copied(s), below + [cell(args[0])[2][x[2]]]))]
    if o == 'putfield':
        r = needs12(args[0], wanted[0])
        if r is not None:
            return r
        if cell(args[0])[0] == 'null':
            return [throw(copied(s), NULL_POINTER)]
        k_ = args[0]
        if isinstance(x[3], str):

            def put(c, i):
                v = c.cells[k_]
                fl = list(v[2])
                fl[x[2]] = i
                c.cells[k_] = ('obj', v[1], fl)
                go(c, below)
            return kindnarrow(x[3], args[1], put)
        c = copied(s)
        go(c, below)
        return [step(put_field(world, s, k_, x[2], args[1], c))]
    if o == 'new':
        c, i = new_object(world, s, x[1])
        return [step(go(c, stack + [i]))]
    if o in ('newarray', 'anewarray'):
        a = args[0]
        out = []
        mm = meet(iv(a), (0, MAX))
        if mm:
            c = copied(s)
            narrow(c, [(a, mm)])
            c, i = new_array(world, s, x[1], a, c)
            out.append(step(go(c, below + [i])))
        mm = meet(iv(a), (MIN, -1))
        if mm:
            c = copied(s)
            narrow(c, [(a, mm)])
            out.append(throw(c, NEGATIVE_SIZE))
        return out
    if o == 'arraylength':
        r = needs12(args[0], wanted[0])
        if r is not None:
            return r
        c = cell(args[0])
        if c[0] == 'null':
            return [throw(copied(s), NULL_POINTER)]
        return [step(go(copied(s), below + [c[2]]))]
    if o in ('nload', 'nstore', 'aaload', 'aastore'):
        arr, ix = (args[0], args[1])
        r = needs12(arr, wanted[0])
        if r is not None:
            return r
        ca = cell(arr)
        if ca[0] == 'null':
            return [throw(copied(s), NULL_POINTER)]
        if o == 'aaload' and (ca[0] != 'refs' or ix == arr):
            return []
        ln = ca[2]
        ii, nn = (iv(ix), iv(ln))
        out = []
        pos = meet(ii, (0, MAX))
        if pos:
            rel = relation('<', pos, nn)
            if rel:
                rows = rowsof([rel[2]], ix, ln, None)
                c = copied(s)
                if narrow(c, [(ix, rel[0]), (ln, rel[1])]):
                    if o == 'nload':
                        i, = fresh_ids(s, c, 1)
                        c.cells[i] = ('int',) + RANGES[ca[1]]
                        out.append(step(go(c, below + [i]), rows))
                    elif o == 'nstore':
                        out.append(step(go(c, below), rows))
                    elif o == 'aaload':
                        c2, v = load_ref(world, s, arr, c)
                        out.append(step(go(c2, below + [v]), rows))
                    else:
                        c2 = copied(c)
                        go(c2, below)
                        c3, ren = write(world, s, arr, args[2], c2)
                        out.append(step(c3, rows))
                        if cell(args[2])[0] != 'null':
                            out.append(throw(copied(c), ARRAY_STORE, rows))
        neg = meet(ii, (MIN, -1))
        if neg:
            c = copied(s)
            narrow(c, [(ix, neg)])
            out.append(throw(c, INDEX_OUT_OF_BOUNDS))
        rel = relation('>=', ii, nn)
        if rel:
            c = copied(s)
            if narrow(c, [(ix, rel[0]), (ln, rel[1])]):
                out.append(throw(c, INDEX_OUT_OF_BOUNDS, rowsof([rel[2]], ix, ln, None)))
        return out
    if o in ('checkcast', 'instanceof'):
        Ty = x[1]
        i = args[0]
        c = cell(i)

        def okc(c2, one=True):
            if o == 'checkcast':
                return step(go(c2, below + [i]))
            j, = fresh_ids(s, c2, 1)
            c2.cells[j] = ('int', 1, 1) if one else ('int', 0, 0)
            return step(go(c2, below + [j]))

        def fail(c2):
            if o == 'checkcast':
                return throw(c2, CLASS_CAST)
            return okc(c2, False)
        if c[0] == 'null':
            return [okc(copied(s), False)] if o == 'instanceof' else [okc(copied(s))]
        if world.sub(type_of_cell(c), Ty):
            if o == 'instanceof':
                r = need1(i)
                if r is not None:
                    return r
            return [okc(copied(s))]
        r = need1(i)
        if r is not None:
            return r
        if is_known(c):
            return [fail(copied(s))]
        out = []
        eT = world.erase(Ty)
        if comparable(world, type_of_cell(c), eT):
            c2 = copied(s)
            if c[0] == 'unk' and eT != c[1] and world.sub(eT, c[1]):
                c2.cells[i] = ('unk', eT, c[2], c[3])
            out.append(okc(c2))
        out.append(fail(copied(s)))
        return out
    if o.startswith('invoke'):
        call = x[1]

        def enter(num, cargs):
            c = copied(s)
            fr = c.frames[-1]
            c.frames[-1] = (fr[0], fr[1], fr[2], below)
            mm = program.methods[num]
            c.frames.append((num, 0, list(cargs) + [None] * (mm['max_locals'] - len(cargs)), []))
            return [step(c)]
        if o == 'invokestatic':
            return enter(program.numbers[call['ref']], args)
        rc = args[0]
        if o == 'invokespecial':
            r = need1(rc)
            if r is not None:
                return r
            if cell(rc)[0] == 'null':
                return [throw(copied(s), NULL_POINTER)]
            if world.method(call['ref'])['flags'] & 1024:
                return [throw(copied(s), ABSTRACT_METHOD)]
            return enter(program.numbers[call['ref']], args)
        r = needs12(rc, wanted[0])
        if r is not None:
            return r
        c = cell(rc)
        if c[0] == 'null':
            return [throw(copied(s), NULL_POINTER)]
        kc = c[1] if c[0] == 'obj' else 0
        if o == 'invokeinterface' and call['of_class'] not in world.above[kc]:
            return [throw(copied(s), INCOMPATIBLE_CLASS)]
        t = world.select(kc, call['name'], call['desc'])
        if t is None or world.method(t)['flags'] & 1024:
            return [throw(copied(s), ABSTRACT_METHOD)]
        return enter(program.numbers[t], args)
    if o in ('ireturn', 'areturn', 'return'):
        if len(s.frames) == 1:
            return 'End'
        c = copied(s)
        c.frames.pop()
        fr = c.frames[-1]
        mm = program.methods[fr[0]]
        c.frames[-1] = (fr[0], mm['next'][fr[1]], fr[2], fr[3] + args)
        return [step(c)]
    if o == 'athrow':
        r = need1(args[0])
        if r is not None:
            return r
        if cell(args[0])[0] == 'null':
            return [throw(copied(s), NULL_POINTER)]
        c = copied(s)
        fr = c.frames[-1]
        c.frames[-1] = (fr[0], fr[1], fr[2], [])
        c.thrown = args[0]
        return [step(c)]
    raise Exception(o)


def show_link(l):
    """A link in words."""
    t = 'step' if l.step else 'stay'
    if l.merged:
        t += ' merged=%d,%d' % l.merged
    for kind, const, terms in l.rows:
        bs = sorted((x for x in terms if x[0] == 'b'), key=lambda x: x[1])
        as_ = sorted((x for x in terms if x[0] == 'a'), key=lambda x: x[1])
        t += ' %s:%d:%s' % (kind, const, ','.join(('%s%d*%d' % x for x in bs + as_)))
    return t


def show_children(world, r):
    """Children in words."""
    return 'Children %d' % len(r) + ''.join((' | %s %s' % (show_link(l), written(world, c)) for l, c in r))


def expansion_line(program, typing, s):
    """The answer in words."""
    try:
        r = expand(program, typing, s)
    except BadState as e:
        return 'BadState clause=%d' % e.args[0]
    except TooManyIds as e:
        return 'TooManyIds child=%d' % e.args[0]
    return r if r == 'End' else show_children(program.world, r)
