"""Further tries of the search: other graphs, and rules that nothing can take.

Reads again: crates/search_tries, and its callers. A try only adds answers: what it gives is a certificate that is checked like every other. So nothing
here is asked of a graph but that it ends: a try makes so many growths at most. Two ways are here that the crate has not: ends that are
moved to numbers of the program (`thresholds`), and states that differ in a local of one of two constants and aren't merged (`flags`).
"""
from dataclasses import dataclass

import search
from search import Stopped, is_head, positions_of, expand, find_map
from widen import grid, widen
from paths import *


@dataclass
class Way:
    """How a graph is grown."""
    peeled: int = 2
    ahead: int = 0
    thresholds: bool = False
    flags: bool = False
    others: str = 'aside'
    fuel: int = 4000


def constants_of(program, root):
    """The ends to which a widening moves."""
    found = {MIN, MIN + 1, 0, MAX - 1, MAX}
    plain = set()
    for method in program.methods:
        for op in method['insns'].values():
            if op[0] == 'const':
                plain.add(op[1])
            elif op[0] == 'iinc':
                plain.add(op[2])
            elif op[0] == 'tableswitch':
                plain.add(op[2])
                plain.add(op[2] + len(op[3]) - 1)
            elif op[0] == 'lookupswitch':
                plain |= {key for key, _ in op[2]}
    for cell in root.cells.values():
        if cell[0] == 'int':
            plain |= {cell[1], cell[2]}
    return sorted(found | {n for c in plain for n in (c - 1, c, c + 1) if MIN <= n <= MAX})


def tightened(world, marks, above, state, wide):
    """The widening with ends moved no further than to the next of the marks."""
    a, b = find_map(world, above, wide), find_map(world, state, wide)
    if a is None or b is None:
        return wide
    a, b = dict(a), dict(b)
    out = copied(wide)
    for i, c in wide.cells.items():
        if c[0] != 'int':
            continue
        x, y = above.cells[a[i]], state.cells[b[i]]
        lo, hi = c[1], c[2]
        if y[1] < x[1]:
            lo = max(m for m in marks if m <= y[1])
        if y[2] > x[2]:
            hi = min(m for m in marks if m >= y[2])
        out.cells[i] = ('int', lo, hi)
    return out if find_map(world, state, out) is not None else wide


def flags_of(program):
    """The locals of each method that hold one of two constants."""
    out = []
    for method in program.methods:
        stored, bad = {}, set()
        order = method['order']
        before = dict(zip(order[1:], order))
        for pc in order:
            op = method['insns'][pc]
            if op[0] == 'istore':
                prev = method['insns'].get(before.get(pc))
                if prev is not None and prev[0] == 'const':
                    stored.setdefault(op[1], set()).add(prev[1])
                else:
                    bad.add(op[1])
            elif op[0] in ('iinc', 'astore'):
                bad.add(op[1])
        out.append({n for n, s in stored.items() if len(s) <= 2 and n not in bad and n >= len(method['params'])})
    return out


def flag_values(flags, state):
    out = []
    for f in state.frames:
        for n in sorted(flags[f[0]]):
            i = f[2][n] if n < len(f[2]) else None
            c = None if i is None else state.cells[i]
            out.append(c[1] if c and c[0] == 'int' and c[1] == c[2] else None)
    return tuple(out)


def has_reference(root):
    return any(cell[0] != 'int' for cell in root.cells.values())


def tests_order(program):
    """Whether a jump compares two ints by their order."""
    return any(op[0] in ('if', 'if_icmp') and op[1] in ('lt', 'ge', 'gt', 'le')
               for method in program.methods for op in method['insns'].values())


def is_tried(program, root):
    return has_reference(root) or tests_order(program)


def ways_of(root, count):
    """The ways of further graphs, after a first one of so many nodes."""
    ways = [('peeled', Way(fuel=3 * count + 450))]
    return ways + [('ahead', Way(ahead=300, fuel=count + 350))] if has_reference(root) else ways


class Count:
    """How many growths were made."""
    growths = 0


def grown(program, typing, root, limit, way):
    """The nodes of a graph that is grown in this way."""
    world = program.world
    states, ways, parents, todo = [root], [None], [None], [0]
    marks = constants_of(program, root) if way.thresholds else None
    flags = flags_of(program) if way.flags else None
    ahead, fuel = None, way.fuel
    alike_nodes = {}

    def add(state, parent):
        states.append(state)
        ways.append(None)
        parents.append(parent)
        return len(states) - 1

    def key(state):
        return positions_of(state), flag_values(flags, state) if flags else None

    def expanded(n):
        return ways[n] is not None and ways[n][0] != 'instance'

    def ancestors(n):
        while parents[n] is not None:
            n = parents[n]
            yield n

    def due(q):
        k = key(states[q])
        above = [n for n in ancestors(q) if expanded(n) and keys.get(n) == k]
        if len(above) < way.peeled:
            return 'expand', None, None
        asked = list(alike_nodes.get(k, []))
        if above:
            if way.others == 'none':
                asked = []
            elif way.others == 'aside':
                asked = [n for n in asked if n not in above]
            asked = [above[0]] + [n for n in asked if n != above[0]]
        for n in asked:
            found = find_map(world, states[q], states[n])
            if found is not None:
                return 'join', n, found
        if not above:
            return 'expand', None, None
        return 'widen', above[0], None
    keys = {}

    def widened(u, q):
        wider = widen(world, states[u], states[q])
        if marks:
            wider = tightened(world, marks, states[u], states[q], wider)
        if len(states) + 1 > limit:
            raise Stopped('nodes')
        n = add(wider, q)
        ways[q] = ('instance', n, find_map(world, states[q], wider))
        todo.append(n)
    try:
        while todo:
            if ahead is not None and len(todo) <= ahead[1]:
                ahead = None
            if ahead is not None and ahead[3] == 0:
                q, deep, count, _, u = ahead
                for n in range(count, len(states)):
                    if n in keys:
                        alike_nodes[keys.pop(n)].remove(n)
                if q in keys:
                    alike_nodes[keys.pop(q)].remove(q)
                del states[count:], ways[count:], parents[count:], todo[deep:]
                ways[q] = None
                ahead = None
                widened(u, q)
                continue
            if fuel == 0:
                raise Stopped('fuel')
            fuel -= 1
            Count.growths += 1
            if ahead is not None:
                ahead[3] -= 1
            q = todo.pop()
            seeking = is_head(program, states[q]) and not (parents[q] is not None and ways[parents[q]][0] == 'instance')
            what = 'expand'
            if seeking:
                what, n, found = due(q)
                if what == 'join':
                    ways[q] = ('instance', n, found)
                    continue
                if what == 'widen' and ahead is None:
                    if way.ahead:
                        ahead = [q, len(todo), len(states), way.ahead, n]
                    else:
                        widened(n, q)
                        continue
            children = expand(program, typing, states[q])
            if is_head(program, states[q]):
                keys[q] = key(states[q])
                alike_nodes.setdefault(keys[q], []).append(q)
            if children == 'End':
                ways[q] = ('end',)
                continue
            if len(states) + len(children) > limit:
                raise Stopped('nodes')
            ways[q] = ('expand', [add(child, q) for _, child in children])
            todo += ways[q][1]
    except TooManyIds:
        raise Stopped('ids')
    return list(zip(states, ways))


def edges_of(rows):
    """Edges (from, to, length, multipliers): the greater one minus the smaller one plus the length is at least 0. -1 stands for 0."""
    lo, hi = {}, {}
    for n, (kind, terms, c, _) in enumerate(rows):
        if len(terms) == 1 and kind == '>=':
            v, a = terms[0]
            if a == 1 and (v not in lo or -c > lo[v][0]):
                lo[v] = (-c, n)
            if a == -1 and (v not in hi or c < hi[v][0]):
                hi[v] = (c, n)
    out = []
    for n, (kind, terms, c, _) in enumerate(rows):
        if len(terms) > 4:
            continue
        for sign in (1, -1) if kind == '=' else (1,):
            ts = [(v, a * sign) for v, a in terms]
            ups = [v for v, a in ts if a == 1] + [-1]
            downs = [v for v, a in ts if a == -1] + [-1]
            for p in ups:
                for q in downs:
                    length, multipliers = c * sign, [(n, sign)]
                    for v, a in ts:
                        if v in (p, q):
                            continue
                        bound = hi.get(v) if a > 0 else lo.get(v)
                        if bound is None:
                            length = None
                            break
                        length += a * bound[0]
                        multipliers.append((bound[1], abs(a)))
                    if length is not None:
                        out.append((q, p, length, multipliers))
    return out


def contradiction(rule, rounds=40):
    """Multipliers by which the rows sum up to a number below 0, or None."""
    edges = edges_of(rule[3])
    best, by = {}, {}
    for e in edges:
        if e[0] == e[1] and e[2] < 0:
            return gathered([e])
    for k in range(rounds):
        changed = False
        for e in edges if k % 2 == 0 else reversed(edges):
            a, b = best.get(e[0], 0), best.get(e[1], 0)
            if e[0] != e[1] and a + e[2] < b:
                best[e[1]] = a + e[2]
                by[e[1]] = e
                changed = True
        if not changed:
            return None
        seen = {}
        for start in list(by):
            v = start
            while v in by and v not in seen:
                seen[v] = start
                v = by[v][0]
            if v in by and seen.get(v) == start:
                around, u = [], v
                while True:
                    around.append(by[u])
                    u = by[u][0]
                    if u == v:
                        break
                return gathered(around)
    return None


def gathered(edges):
    out = Counter()
    for e in edges:
        for n, m in e[3]:
            out[n] += m
    return [[n, out[n]] for n in sorted(out) if out[n]]


def proof_with_dead(rules):
    """As proof_of, after rules that contradict themselves have left."""
    dead = [(n, contradiction(rule)) for n, rule in enumerate(rules)]
    dead = [(n, m) for n, m in dead if m is not None]
    gone = {n for n, _ in dead}
    live = [n for n in range(len(rules)) if n not in gone]
    steps, left = search.proof_of([rules[n] for n in live])
    if steps is None:
        return None, [live[n] for n in left], len(dead)
    k = len(dead)
    out = [['dead', n, m, i + 1] for i, (n, m) in enumerate(dead)]
    for step in steps:
        if step[0] == 'split':
            out.append(['split', [[live[n] for n in part] for part in step[1]], [x if x == -1 else x + k for x in step[2]]])
        elif step[0] == 'rank':
            out.append(step[:4] + [[[live[e[0]]] + e[1:] for e in step[4]], step[5] + k])
        else:
            out.append(step)
    return out, None, k


def try_graph(program, typing, root, nodes):
    """A certificate's parts, or None and why."""
    cuts = sorted({0} | {by[1] for _, by in nodes if by[0] == 'instance'})
    try:
        rules = paths(nodes, links_of(program, typing, nodes), cuts)
    except TooManyPaths:
        return None, 'paths'
    steps, left, k = proof_with_dead(rules)
    if steps is None:
        return None, 'left %d of %d (dead %d)' % (len(left), len(rules), k)
    return (cuts, steps), 'proof %d nodes, %d rules, %d dead' % (len(nodes), len(rules), k)
