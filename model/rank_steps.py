"""The rank step of a form that ranks rules, with the multipliers that show it.

It shows that a step which the check takes exists for each plain and each stepwise form. Fuhs et al. 2009.
"""
import heapq
from collections import defaultdict

from ranking import *


def add_multiple(multipliers, rule, m):
    if m:
        multipliers[rule] = multipliers.get(rule, 0) + m


def listed(multipliers):
    return [[rule, multipliers[rule]] for rule in sorted(multipliers) if multipliers[rule]]


def fixed_rows(rows):
    lo = {}
    hi = {}
    for i, (kind, terms, c, weights) in enumerate(rows):
        if kind == '>=' and len(terms) == 1 and (not weights):
            v, a = terms[0]
            if a == 1:
                lo.setdefault(v, {})[-c] = i
            if a == -1:
                hi.setdefault(v, {})[c] = i
    return (lo, hi)


def links_rows(rule):
    lo, hi = fixed_rows(rule[3])
    out = defaultdict(list)
    for i, (kind, terms, c, weights) in enumerate(rule[3]):
        if kind != '=' or weights:
            continue
        c2 = [(terms, c, None)]
        if len(terms) == 3:
            for j, (v, a) in enumerate(terms):
                for n in set(lo.get(v, {})) & set(hi.get(v, {})):
                    c2.append((terms[:j] + terms[j + 1:], c + a * n, (v, a, n)))
        for t, k, fx in c2:
            if len(t) == 2 and sorted((t[0][1], t[1][1])) == [-1, 1]:
                p = [v for v, a in t if a == 1][0]
                q = [v for v, a in t if a == -1][0]
                out[p].append((q, k, i, 1, fx))
                out[q].append((p, -k, i, -1, fx))
    return (out, lo, hi)


def int_fall(rule, s, e, m):
    """The multipliers that show how an int changes."""
    adj, lo, hi = links_rows(rule)
    prev = {s: None}
    todo = [s]
    for u in todo:
        for v, k, i, sg, fx in adj[u]:
            if v not in prev:
                prev[v] = (u, i, sg, fx)
                todo.append(v)
    multipliers = {}
    x = e
    while prev[x] is not None:
        u, i, sg, fx = prev[x]
        add_multiple(multipliers, i, m * sg)
        if fx:
            v, a, n = fx
            k = m * sg * a
            if k > 0:
                add_multiple(multipliers, hi[v][n], k)
            else:
                add_multiple(multipliers, lo[v][n], -k)
        x = u
    return multipliers


def slot_id(slots, kind, pos):
    return [s[0] for s in slots if s[1] == kind and any((tuple(p) == pos for p in s[2]))][0]


def forms_of(rules, parts, K, kind):
    out = {}
    for rule in rules:
        for cut, sl in ((rule[0], rule[4]), (rule[1], rule[5])):
            d = defaultdict(int)
            for m, pos in parts:
                d[slot_id(sl, kind, pos)] += m
            l = [[i, d[i]] for i in sorted(d) if d[i]]
            out[cut] = [cut, K, l, []] if kind == 'int' else [cut, K, [], l]
    return [out[c] for c in sorted(out)]


def step_ints(rules, parts):
    """The step of a form of ints."""
    ch = [changes(rule) for rule in rules]
    entries = []
    K = 0
    todo = []
    for n, (rule, c) in enumerate(zip(rules, ch)):
        tot = 0
        multipliers = {}
        for m, pos in parts:
            s = var_at(rule[4], 'int', pos)
            e = var_at(rule[5], 'int', pos)
            tot += m * c(s, e)
            for i, k in int_fall(rule, s, e, m).items():
                add_multiple(multipliers, i, k)
        if tot <= -1:
            lo, hi = fixed_rows(rule[3])
            B = {}
            const = 0
            d = defaultdict(int)
            for m, pos in parts:
                d[var_at(rule[4], 'int', pos)] += m
            for v, m in d.items():
                if m > 0:
                    n0 = max(lo[v])
                    add_multiple(B, lo[v][n0], m)
                    const -= m * n0
                if m < 0:
                    n0 = min(hi[v])
                    add_multiple(B, hi[v][n0], -m)
                    const += -m * n0
            K = max(K, const)
            entries.append([n, 'strict', listed(multipliers), listed(B)])
        else:
            entries.append([n, 'weak', listed(multipliers)])
    return ['rank', 'linear', [], forms_of(rules, parts, K, 'int'), entries, 1]


def size_fall(rule, s, e):
    """The greatest fall of a size, and the multipliers that show it."""
    adj = defaultdict(list)
    vrow = {}
    for i, (kind, terms, c, weights) in enumerate(rule[3]):
        if kind == '>=' and len(terms) == 1 and (terms[0][1] == 1) and (c == 0) and (not weights):
            vrow[terms[0][0]] = i
        if kind != '=':
            continue
        k = -(c + sum((a for _, a in weights)))
        pos = [(v, a) for v, a in terms if a > 0]
        neg = [(v, a) for v, a in terms if a < 0]
        if len(pos) == 1 and pos[0][1] == 1 and neg:
            x = pos[0][0]
            for y, a in neg:
                if y > x:
                    adj[x].append((y, k, i, 1, [(z, -b - (1 if z == y else 0)) for z, b in neg]))
            if len(neg) == 1 and neg[0][1] == -1 and (x > neg[0][0]):
                adj[neg[0][0]].append((x, -k, i, -1, []))
    best = {s: (0, None)}
    h = [s]
    seen = set()
    while h:
        u = heapq.heappop(h)
        if u in seen:
            continue
        seen.add(u)
        for t in adj[u]:
            if t[0] not in best or best[t[0]][0] < best[u][0] + t[1]:
                best[t[0]] = (best[u][0] + t[1], (u,) + t)
            heapq.heappush(h, t[0])
    multipliers = {}
    x = e
    while best[x][1]:
        u, y, k, i, sg, extra = best[x][1]
        add_multiple(multipliers, i, sg)
        for z, q in extra:
            add_multiple(multipliers, vrow[z], q) if q else None
        x = u
    return (best[e][0], multipliers, vrow)


def step_size(rules, pos):
    """The step of a size."""
    entries = []
    classes = set()
    for rule in rules:
        for _, _, _, weights in rule[3]:
            classes |= {c for c, _ in weights}
        for sl in rule[4] + rule[5]:
            classes |= {c for c, _ in sl[5]}
    for n, rule in enumerate(rules):
        s = var_at(rule[4], 'size', pos)
        e = var_at(rule[5], 'size', pos)
        c, multipliers, vrow = size_fall(rule, s, e)
        entries.append([n, 'strict', listed(multipliers), [[vrow[s], 1]]] if c >= 1
                else [n, 'weak', listed(multipliers)])
    return ['rank', 'size', [[c, 1] for c in sorted(classes)], forms_of(rules, [(1, pos)], 0, 'size'), entries, 1]


def fall_rows(rule, neg):
    out = defaultdict(list)
    for i, (kind, terms, c, weights) in enumerate(rule[3]):
        if weights or len(terms) != 2:
            continue
        for sg in (1, -1) if kind == '=' else (1,):
            t = [(v, a * sg) for v, a in terms]
            k = -c * sg
            if sorted((a for _, a in t)) != [-1, 1]:
                continue
            p = [v for v, a in t if a == 1][0]
            q = [v for v, a in t if a == -1][0]
            u, v = (q, p) if neg else (p, q)
            if v > u:
                out[u].append((v, k, i, sg))
    return out


def step_stepwise(rules, pos, neg):
    """The step of a stepwise form."""
    m = -1 if neg else 1
    entries = []
    K = 0
    for n, rule in enumerate(rules):
        s = var_at(rule[4], 'int', pos)
        e = var_at(rule[5], 'int', pos)
        adj = fall_rows(rule, neg)
        best = {s: (0, None)}
        h = [s]
        seen = set()
        while h:
            u = heapq.heappop(h)
            if u in seen:
                continue
            seen.add(u)
            for v, k, i, sg in adj[u]:
                if v not in best or best[v][0] < best[u][0] + k:
                    best[v] = (best[u][0] + k, (u, i, sg))
                heapq.heappush(h, v)
        multipliers = {}
        x = e
        while best[x][1]:
            u, i, sg = best[x][1]
            add_multiple(multipliers, i, sg)
            x = u
        b = [(c, i) for i, (kind, t, c, weights) in enumerate(rule[3]) if kind == '>=' and t == [[s, m]]
                and (not weights)]
        if best[e][0] >= 1 and b:
            c, i = min(b)
            K = max(K, c)
            entries.append([n, 'strict', listed(multipliers), [[i, 1]]])
        else:
            entries.append([n, 'weak', listed(multipliers)])
    return ['rank', 'linear', [], forms_of(rules, [(m, pos)], K, 'int'), entries, 1]
