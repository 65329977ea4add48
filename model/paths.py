"""The path rules of a graph: from cut to cut, with the rows that each node and each edge gives.

Reads again: crates/term_graph/specs/Edges (as rows), crates/abs_cells/specs/Patterns (sizes),
crates/path_rules/specs (Paths, Stops, Rules, Answers). Otto et al. 2010, Fuhs et al. 2009.
"""
import json
from collections import Counter

from widen import *


def is_size_variable(c):
    """The size of the cell's id is a variable."""
    return c[0] == 'unk' and c[3] in ('tree', 'dag')


def size_of(s, x):
    """The variables and the classes of an id's pattern."""
    memo = {}

    def go(i):
        if i in memo:
            return memo[i]
        c = s.cells[i]
        v, k = (Counter(), Counter())
        if c[0] == 'obj':
            k[c[1]] += 1
            for j in c[2]:
                if s.cells[j][0] != 'int':
                    a, b = go(j)
                    v += a
                    k += b
        elif c[0] == 'unk':
            v[i] += 1
        memo[i] = (v, k)
        return (v, k)
    return go(x)


class Uncut(Exception):
    """A cycle without a cut."""


class TooManyPaths(Exception):
    """More than 4,096 paths."""


def succ(by):
    """The nodes that a node leads to."""
    return by[1] if by[0] == 'expand' else [by[1]] if by[0] == 'instance' else []


def paths(nodes, links, cuts):
    """The rules of all paths from cut to cut."""
    cs = set(cuts)
    n = len(nodes)
    g = {i: [t for t in succ(nodes[i][1]) if t not in cs] if i not in cs else [] for i in range(n)}

    def on_cycle(i):
        seen = set()
        todo = list(g[i])
        while todo:
            x = todo.pop()
            if x == i:
                return True
            if x in seen:
                continue
            seen.add(x)
            todo += g[x]
        return False
    col = {}
    cyc = False
    for r in range(n):
        if r in col:
            continue
        st = [(r, iter(g[r]))]
        col[r] = 1
        while st:
            u, it = st[-1]
            for v in it:
                if v not in col:
                    col[v] = 1
                    st.append((v, iter(g[v])))
                    break
                elif col[v] == 1:
                    cyc = True
            else:
                col[u] = 2
                st.pop()
    if cyc:
        for i in range(n):
            if i not in cs and on_cycle(i):
                raise Uncut(i)
    out = []
    for c in cuts:

        def go(path):
            u = path[-1][0]
            for k, t in enumerate(succ(nodes[u][1])):
                p2 = path[:-1] + [(u, k)] + [(t, None)]
                if t in cs:
                    out.append(p2)
                    if len(out) > 4096:
                        raise TooManyPaths()
                else:
                    go(p2)
        go([(c, None)])
    return [rule(nodes, links, path) for path in out]


def rule(nodes, links, path):
    """The rule of one path."""
    var = {}
    n = 0
    rows = []
    for pl, (u, _) in enumerate(path):
        s = nodes[u][0]
        for i in sorted(s.cells):
            if s.cells[i][0] == 'int' or is_size_variable(s.cells[i]):
                var[pl, i] = n
                n += 1

    def row(kind, terms, const, weights=()):
        d = Counter()
        for v, k in terms:
            d[v] += k
        wd = Counter()
        for c, k in weights:
            wd[c] += k
        rows.append([kind, [[v, d[v]] for v in sorted(d) if d[v]], const, [[c, wd[c]] for c in sorted(wd) if wd[c]]])

    def size_row(x, pl, s, y):
        v, k = size_of(s, y)
        row('=', [(x, 1)] + [(var[pl, i], -c) for i, c in v.items()], 0, [(c, -q) for c, q in k.items()])
    for pl, (u, k) in enumerate(path):
        s = nodes[u][0]
        ints = [i for i in sorted(s.cells) if s.cells[i][0] == 'int']
        szs = [i for i in sorted(s.cells) if is_size_variable(s.cells[i])]
        for i in ints:
            row('>=', [(var[pl, i], 1)], -s.cells[i][1])
            row('>=', [(var[pl, i], -1)], s.cells[i][2])
        for i in szs:
            row('>=', [(var[pl, i], 1)], 0)
        if k is None:
            break
        by = nodes[u][1]
        t = nodes[path[pl + 1][0]][0]
        if by[0] == 'expand':
            for i in ints:
                if i in t.cells and t.cells[i][0] == 'int':
                    row('=', [(var[pl, i], 1), (var[pl + 1, i], -1)], 0)
            l = links[u][k]
            for kind, const, terms in l.rows:
                row('>=' if kind == 'ge' else '=', [(var[pl if sd == 'b' else pl + 1, i], c) for sd, i, c in terms],
                        const)
            for x in szs:
                y = l.merged[1] if l.merged and l.merged[0] == x else x
                if y in t.cells and is_sized(t, y):
                    size_row(var[pl, x], pl + 1, t, y)
        else:
            mp = dict(by[2])
            for i in sorted(t.cells):
                if t.cells[i][0] == 'int':
                    row('=', [(var[pl + 1, i], 1), (var[pl, mp[i]], -1)], 0)
            for i in sorted(t.cells):
                if is_size_variable(t.cells[i]) and is_sized(s, mp[i]):
                    size_row(var[pl + 1, i], pl, s, mp[i])

    def slots(pl):
        s = nodes[path[pl][0]][0]
        places = {}
        for j, (_, _, locals_, stack) in enumerate(s.frames):
            for q, i in enumerate(locals_):
                if i is not None:
                    places.setdefault(i, []).append([j, 'local', q])
            for q, i in enumerate(stack):
                places.setdefault(i, []).append([j, 'stack', q])
        out = []
        for i in sorted(s.cells):
            if s.cells[i][0] == 'int':
                out.append([i, 'int', places.get(i, []), [[var[pl, i], 1]], 0, []])
        for i in sorted(s.cells):
            if s.cells[i][0] != 'int' and is_sized(s, i):
                v, k = size_of(s, i)
                out.append([i, 'size', places.get(i, []), sorted(([var[pl, j], c] for j, c in v.items())), 0,
                        sorted(([c, q] for c, q in k.items()))])
        return out
    return [path[0][0], path[-1][0], n, rows, slots(0), slots(len(path) - 1)]


def read_certificate(world, b):
    """The nodes of a certificate, and its JSON form."""
    j = json.loads(bytes.fromhex(b))
    nodes = []
    for nd in j['nodes']:
        by = nd['by']
        by = ('expand', by[1]) if by[0] == 'expand' else ('instance', by[1],
                [tuple(x) for x in by[2]]) if by[0] == 'instance' else ('end',)
        nodes.append((read_state(world, nd['state']) if 'state' in nd else None, by))
    return (nodes, j)


def links_of(program, typing, nodes):
    """The links of each node."""
    out = []
    for s, by in nodes:
        if by[0] == 'expand':
            r = expand(program, typing, s)
            out.append([l for l, _ in r] if r != 'End' else [])
        else:
            out.append([])
    return out
