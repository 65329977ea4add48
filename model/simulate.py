#!/usr/bin/env python3
"""Concrete runs beside the abstract states that describe them.

usage: simulate.py CASES_DIR [SEED [STEPS]]

Each run of the tables `run` and `run-52` begins with an abstract state made at random that describes its first state. At
each step some child must describe the machine's next state, by the definition of fitting, and what the edge says of the
two must be true of ints and of sizes. Now and then a state is widened with an earlier one at the same positions: both
must be instances of the result, and the machine's state must fit it.

Reads again: crates/abs_cells/specs/Fits, crates/term_graph/specs/Edges, crates/jvm_values/specs (Paths, Heaps, Terms).
Otto et al. 2010.
"""
import json
import os
import random
import sys

sys.dont_write_bytecode = True

from machine import *
from paths import *


def named_objects(o):
    """The objects that an object names."""
    return [] if o[0] == 'n' else [v[1] for v in o[2] if isinstance(v, tuple)]


def region(heap, v):
    """The objects that paths from a value lead to."""
    if not isinstance(v, tuple):
        return set()
    out = {v[1]}
    todo = [v[1]]
    while todo:
        for y in named_objects(heap[todo.pop()]):
            if y not in out:
                out.add(y)
                todo.append(y)
    return out


def shape_of_val(heap, v):
    """The best shape of a value's region."""
    if not isinstance(v, tuple):
        return 'tree'
    col = {}

    def dag(u):
        st = [(u, iter(named_objects(heap[u])))]
        col[u] = 1
        while st:
            x, it = st[-1]
            for y in it:
                if col.get(y) == 1:
                    return False
                if y not in col:
                    col[y] = 1
                    st.append((y, iter(named_objects(heap[y]))))
                    break
            else:
                col[x] = 2
                st.pop()
        return True
    if not dag(v[1]):
        return 'any'
    indeg = {}
    for x in region(heap, v):
        for y in named_objects(heap[x]):
            indeg[y] = indeg.get(y, 0) + 1
    return 'tree' if all((k <= 1 for k in indeg.values())) and indeg.get(v[1], 0) == 0 else 'dag'


def fits(world, A, s, m):
    """None where the state fits by the map, else what does not."""
    if len(A.frames) != len(s.frames):
        return 'positions: frames'
    for j, (fa, f) in enumerate(zip(A.frames, s.frames)):
        if fa[0] != f['method'] or fa[1] != f['pc'] or len(fa[3]) != len(f['stack']):
            return 'positions: places'
        L = f['locals'] + (s.statics if j == 0 else [])
        for i, x in enumerate(fa[2]):
            if x is not None and (i >= len(L) or L[i] == '-' or (not same(m[x], L[i]))):
                return 'positions: a local'
        for x, v in zip(fa[3], f['stack']):
            if not same(m[x], v):
                return 'positions: a stack'
    if (A.thrown is None) != (s.mode is None):
        return 'mode'
    if A.thrown is not None and m[A.thrown] != ('r', s.mode):
        return 'mode: the thrown id'
    heap = s.heap
    for i, c in A.cells.items():
        v = m[i]
        if c[0] == 'int':
            if not isinstance(v, int) or not c[1] <= v <= c[2]:
                return 'cells: an int'
        elif c[0] == 'null':
            if v is not None:
                return 'cells: null'
        elif c[0] == 'unk' and v is None:
            if not c[2]:
                return 'cells: null where it may not be'
        else:
            if not isinstance(v, tuple):
                return 'cells: a reference'
            o = heap[v[1]]
            if c[0] == 'obj':
                if o[0] != 'o' or o[1] != c[1] or len(o[2]) != len(c[2]) or (not
                        all((same(m[x], y) for x, y in zip(c[2], o[2])))):
                    return 'cells: an instance'
            elif c[0] == 'nums':
                if o[0] != 'n' or o[1] != c[1] or m[c[2]] != len(o[2]):
                    return 'cells: an array of numbers'
            elif c[0] == 'refs':
                if o[0] != 'a' or not world.sub(o[1], c[1]) or m[c[2]] != len(o[2]):
                    return 'cells: an array of references'
            elif not world.sub(type_of_object(o), c[1]):
                return 'cells: a type'
    refs = [i for i in A.cells if isinstance(m[i], tuple)]
    regs = {i: region(heap, m[i]) for i in refs}
    for a in refs:
        for b in refs:
            if a < b:
                if m[a] == m[b] and pair(a, b) not in A.eq:
                    return 'aliases %d %d' % (a, b)
                ca, cb = (A.cells[a], A.cells[b])
                if is_hazy(ca) and is_hazy(cb) and regs[a] & regs[b] and (pair(a, b) not in A.share):
                    return 'meeting %d %d' % (a, b)
                for k, x in ((a, b), (b, a)):
                    if is_known(A.cells[k]) and is_hazy(A.cells[x]) and (m[k][1] in regs[x]) and (pair(k, x) not in
                            A.share):
                        return 'inside %d %d' % (k, x)
    for i, c in A.cells.items():
        if is_hazy(c) and SHAPES.index(shape_of_val(heap, m[i])) > SHAPES.index(c[-1]):
            return 'shapes %d' % i
    return None


def same(a, b):
    """Two values are one."""
    return type(a) == type(b) and a == b


def meaning(c, s, old):
    """The map from ids to values that positions and known cells force."""
    m = {}
    todo = []

    def put(i, v):
        if i in m:
            return same(m[i], v)
        m[i] = v
        todo.append(i)
        return True
    ok = len(c.frames) == len(s.frames)
    if not ok:
        return None
    for j, (fa, f) in enumerate(zip(c.frames, s.frames)):
        L = f['locals'] + (s.statics if j == 0 else [])
        for i, x in enumerate(fa[2]):
            if x is not None and i < len(L) and (L[i] != '-'):
                put(x, L[i])
        for x, v in zip(fa[3], f['stack']):
            put(x, v)
    if c.thrown is not None and s.mode is not None:
        put(c.thrown, ('r', s.mode))
    while todo:
        i = todo.pop()
        cell = c.cells[i]
        v = m[i]
        if cell[0] == 'obj' and isinstance(v, tuple) and (s.heap[v[1]][0] == 'o'):
            for x, y in zip(cell[2], s.heap[v[1]][2]):
                put(x, y)
        elif cell[0] in ('nums', 'refs') and isinstance(v, tuple) and (s.heap[v[1]][0] != 'o'):
            put(cell[2], len(s.heap[v[1]][2]))
    return m if all((i in m for i in c.cells)) else None


def term_size(heap, v, weights):
    """The size of a value's term by weights of classes."""
    memo = {}

    def go(v):
        if v is None:
            return 0
        n = v[1]
        if n in memo:
            return memo[n]
        o = heap[n]
        r = 0 if o[0] != 'o' else weights.get(o[1], 0) + sum((go(x) for x in o[2] if not isinstance(x, int)))
        memo[n] = r
        return r
    return go(v)


def edge(A, s, m, l, B, s2, m2, weightings):
    """None where all holds that the edge says, else what does not."""
    for i, c in A.cells.items():
        if c[0] == 'int' and i in B.cells and (B.cells[i][0] == 'int') and (m[i] != m2[i]):
            return 'int %d' % i
    for kind, const, terms in l.rows:
        t = const
        for sd, i, k in terms:
            v = (m if sd == 'b' else m2)[i]
            t += k * v
        if kind == 'ge' and t < 0 or (kind == 'eq' and t != 0):
            return 'row'
    for i, c in A.cells.items():
        if is_size_variable(c):
            y = l.merged[1] if l.merged and l.merged[0] == i else i
            if y in B.cells and is_sized(B, y):
                for weights in weightings:
                    if term_size(s.heap, m[i], weights) != term_size(s2.heap, m2[y], weights):
                        return 'size %d' % i
    return None


def clone(s):
    """The state once more."""
    t = MachineState()
    t.frames = [dict(method=f['method'], pc=f['pc'], locals=list(f['locals']), stack=list(f['stack']))
            for f in s.frames]
    t.heap = [(o[0], o[1], list(o[2])) for o in s.heap]
    t.mode = s.mode
    t.statics = list(s.statics)
    return t


def initial(program, s, random_numbers):
    """An abstract state that the first state fits, and the map."""
    world = program.world
    A = State()
    A.cells = {}
    A.eq = set()
    A.share = set()
    A.thrown = None
    m0 = program.methods[0]
    vals = s.frames[0]['locals'][:len(m0['params'])] + s.statics
    slots = m0['params'] + program.static_slots
    m = {}
    for i, (v, sl) in enumerate(zip(vals, slots)):
        m[i] = v
        if isinstance(sl, str):
            lo, hi = random_numbers.choice([(v, v), (MIN, MAX),
                    (max(MIN, v - random_numbers.randrange(9)), min(MAX, v + random_numbers.randrange(9)))])
            if i >= len(m0['params']):
                lo, hi = (max(lo, RANGES[sl][0]), min(hi, RANGES[sl][1]))
            A.cells[i] = ('int', lo, hi)
        else:
            t = world.erase(sl)
            if isinstance(v, tuple) and random_numbers.random() < 0.5:
                t = world.erase(type_of_object(s.heap[v[1]]))
            A.cells[i] = ('unk', t, v is None or random_numbers.random() < 0.5, shape_of_val(s.heap, v)
                    if random_numbers.random() < 0.8 else 'any')
    ids = [i for i in A.cells if A.cells[i][0] == 'unk']
    for a in ids:
        for b in ids:
            if a < b:
                meets = bool(region(s.heap, m[a]) & region(s.heap, m[b]))
                eq = isinstance(m[a], tuple) and m[a] == m[b]
                extra = random_numbers.random() < 0.15
                if meets or extra:
                    A.share.add((a, b))
                if eq or (extra and compatible(world, A.cells[a], A.cells[b])):
                    A.eq.add((a, b))
    A.frames = [(0, 0, list(range(len(m0['params']))) + [None] * (m0['max_locals'] - len(m0['params'])) +
            list(range(len(m0['params']), len(vals))), [])]
    return (A, m)


def load_run(f):
    """The program, its typing and the first state of a run."""
    j = json.loads(bytes.fromhex(f[2]) if not f[2].startswith('{') else f[2])
    world = World([bytes.fromhex(x) for x in f[3:]])
    c = world.numbers[j['class']]
    k = world.find_method(c, j['method'], j['desc'])
    program = Program(world, (c, k))
    typing = least_typings(program)
    if isinstance(typing, tuple):
        return None
    val = lambda v: v if v is None or isinstance(v, int) else ('r', v['ref'])
    ty = lambda t: world.slot(t) if t.startswith('[') else (0, 'c', world.numbers[t])
    heap = [('o', world.numbers[o['class']], [val(v) for v in o['fields']]) if 'class' in o
            else ('n', KIND_OF_CODE[o['nums']], [val(v) for v in o['items']]) if 'nums' in o else
            ('a', ty(o['refs']), [val(v) for v in o['items']]) for o in j['heap']]
    s = MachineState()
    s.heap = heap
    s.mode = None
    args = [val(v) for v in j['args']]
    s.statics = [val(v) for v in j['statics']] if 'statics' in j else [default(q) for q in program.static_slots]
    s.frames = [dict(method=0, pc=0, locals=args + ['-'] * (program.methods[0]['max_locals'] - len(args)), stack=[])]
    return (program, typing, s)


def follow(program, typing, state, random_numbers, most, counts):
    """One run beside its abstract states; what goes wrong, or None."""
    world = program.world
    abstract, values = initial(program, state, random_numbers)
    wrong = fits(world, abstract, state, values)
    if wrong:
        return 'first state: ' + wrong
    weightings = [{k: random_numbers.randrange(4) for k in range(len(world.classes))} for _ in range(2)]
    earlier = {}
    for _ in range(most):
        try:
            children = expand(program, typing, abstract)
        except BadState as refused:
            return 'BadState %d' % refused.args[0]
        except TooManyIds:
            return None
        if children == 'End':
            return 'an end that goes on' if step(program, state) is None else None
        found, stepped = None, None
        for link, child in children:
            after = state
            if link.step:
                if stepped is None:
                    stepped = clone(state)
                    if step(program, stepped) is not None:
                        return 'a run that ends where children are'
                after = stepped
            values_after = meaning(child, after, values)
            if values_after is None or fits(world, child, after, values_after):
                continue
            if edge(abstract, state, values, link, child, after, values_after, weightings):
                continue
            found = (child, after, values_after)
            break
        if found is None:
            return 'no child fits: ' + written(world, abstract)
        counts['steps'] += 1
        abstract, state, values = found
        if abstract.thrown is None:
            place = tuple((f[0], f[1], len(f[3])) for f in abstract.frames)
            before = earlier.get(place)
            if before and random_numbers.random() < 0.3 and stack_kinds(before) == stack_kinds(abstract):
                try:
                    wider = widen(world, before, abstract)
                except TooManyIds:
                    wider = None
                if wider:
                    map_now, map_before = find_map(world, abstract, wider), find_map(world, before, wider)
                    if not sound(world, wider) or map_now is None or map_before is None:
                        return 'a widening that is none'
                    values = {b: values[a] for b, a in map_now}
                    wrong = fits(world, wider, state, values)
                    if wrong:
                        return 'an instance that does not fit: ' + wrong
                    counts['widenings'] += 1
                    abstract = wider
            earlier[place] = abstract
    return None


def stack_kinds(state):
    return [[state.cells[x][0] == 'int' for x in f[3]] for f in state.frames]


def simulate(folder, seed, most):
    """How many steps and widenings were compared, and what went wrong."""
    random_numbers = random.Random(seed)
    counts = {'steps': 0, 'widenings': 0, 'wrong': 0}
    for table in ('run', 'run-52'):
        for n, line in enumerate(open(os.path.join(folder, table + '.tsv'))):
            fields = line.rstrip('\n').split('\t')
            if fields[0].startswith('jterm:'):
                continue
            loaded = load_run(fields)
            if loaded is None:
                continue
            wrong = follow(*loaded, random_numbers, most, counts)
            if wrong:
                counts['wrong'] += 1
                print('%s %d: %s' % (table, n + 1, wrong))
    return counts


if __name__ == '__main__':
    if len(sys.argv) < 2:
        sys.exit(__doc__)
    seed, most = (int(sys.argv[n]) if len(sys.argv) > n else usual for n, usual in ((2, 1), (3, 150)))
    done = simulate(sys.argv[1], seed, most)
    print('%(steps)d steps, %(widenings)d widenings, %(wrong)d wrong' % done)
