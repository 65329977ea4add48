"""Whether a plain form, or a stepwise form, ranks path rules.

Reads again: crates/rank_forms/specs/rule_links (Links, Positions, Changes, SizeLinks, FallLinks) and crates/rank_search/specs (Plain, Stepwise). Fuhs et al. 2009.
"""
import heapq
from collections import defaultdict


def positions(rules, kind):
    """The places at which every cut has such a slot."""
    ps = None
    for rule in rules:
        for sl in (rule[4], rule[5]):
            here = set()
            for s in sl:
                if s[1] == kind and (kind == 'int' or (len(s[3]) == 1 and s[3][0][1] == 1 and (s[4] == 0)
                        and (not s[5]))):
                    for pl in s[2]:
                        here.add(tuple(pl))
            ps = here if ps is None else ps & here
    return ps or set()


def var_at(slots, kind, pos):
    """The variable that stands at a place."""
    for s in slots:
        if s[1] == kind and any((tuple(p) == pos for p in s[2])):
            if len(s[3]) == 1 and s[3][0][1] == 1 and (s[4] == 0) and (not s[5]):
                return s[3][0][0]
    return None


def int_links(rule):
    """The links between ints: from, to, and what is added."""
    rows = rule[3]
    lo = {}
    hi = {}
    for kind, terms, c, weights in rows:
        if kind == '>=' and len(terms) == 1 and (not weights):
            v, a = terms[0]
            if a == 1:
                lo.setdefault(v, set()).add(-c)
            if a == -1:
                hi.setdefault(v, set()).add(c)
    fixed = {v: lo[v] & hi[v] for v in lo if v in hi and lo[v] & hi[v]}
    out = []
    for kind, terms, c, weights in rows:
        if kind != '=' or weights:
            continue
        cands = [(terms, c)]
        if len(terms) == 3:
            for i, (v, a) in enumerate(terms):
                for n in fixed.get(v, ()):
                    cands.append((terms[:i] + terms[i + 1:], c + a * n))
        for t, k in cands:
            if len(t) == 2 and sorted((t[0][1], t[1][1])) == [-1, 1]:
                p = [v for v, a in t if a == 1][0]
                q = [v for v, a in t if a == -1][0]
                out.append((p, q, k))
                out.append((q, p, -k))
    return out


def changes(rule):
    """How ints change along a rule, where all lists of links agree."""
    adj = defaultdict(list)
    for u, v, k in int_links(rule):
        adj[u].append((v, k))

    def change(s, e):
        if s == e and (not adj[s]):
            return 0
        pot = {s: 0}
        todo = [s]
        bad = False
        while todo:
            u = todo.pop()
            for v, k in adj[u]:
                if v not in pot:
                    pot[v] = pot[u] + k
                    todo.append(v)
                elif pot[v] != pot[u] + k:
                    bad = True
        if e not in pot or bad:
            return None
        return pot[e]
    return change


def size_links(rule):
    """The links between sizes, classes weighing 1."""
    out = defaultdict(list)
    for kind, terms, c, weights in rule[3]:
        if kind != '=':
            continue
        k = -(c + sum((a for _, a in weights)))
        pos = [(v, a) for v, a in terms if a > 0]
        neg = [(v, a) for v, a in terms if a < 0]
        if len(pos) == 1 and pos[0][1] == 1 and neg:
            x = pos[0][0]
            for y, a in neg:
                if y > x:
                    out[x].append((y, k))
            if len(neg) == 1 and neg[0][1] == -1:
                y = neg[0][0]
                if x > y:
                    out[y].append((x, -k))
    return out


def longest_ok(adj, s, e):
    """The greatest sum of a list of links, or None."""
    best = {s: 0}
    h = [s]
    seen = set()
    while h:
        u = heapq.heappop(h)
        if u in seen:
            continue
        seen.add(u)
        for v, k in adj.get(u, ()):
            if v > u:
                if v not in best or best[v] < best[u] + k:
                    best[v] = best[u] + k
                heapq.heappush(h, v)
    return best.get(e)


def plain(rules):
    """A plain form that ranks the rules, or None."""
    if not rules:
        return None
    ch = [changes(rule) for rule in rules]
    ip = sorted(positions(rules, 'int'))
    vec = {}
    for pos in ip:
        v = []
        for rule, c in zip(rules, ch):
            s = var_at(rule[4], 'int', pos)
            e = var_at(rule[5], 'int', pos)
            v.append(None if s is None or e is None else c(s, e))
        vec[pos] = v
    good = [p for p in ip if None not in vec[p]]

    def ranks(v):
        return all((x <= 0 for x in v)) and any((x <= -1 for x in v))
    for p in good:
        for sg in (1, -1):
            if ranks([sg * x for x in vec[p]]):
                return ('int', sg, p)
    for i, p in enumerate(good):
        for q in good[i + 1:]:
            for a in range(-4, 5):
                for b in range(-4, 5):
                    if a and b and ranks([a * x + b * y for x, y in zip(vec[p], vec[q])]):
                        return ('sum', a, p, b, q)
    for pos in sorted(positions(rules, 'size')):
        v = []
        for rule in rules:
            s = var_at(rule[4], 'size', pos)
            e = var_at(rule[5], 'size', pos)
            v.append(longest_ok(size_links(rule), s, e))
        if None not in v and all((x >= 0 for x in v)) and any((x >= 1 for x in v)):
            return ('size', pos)
    return None


def fall_links(rule, neg):
    """The links by which a form falls."""
    out = defaultdict(list)
    for kind, terms, c, weights in rule[3]:
        if weights or len(terms) != 2:
            continue
        for sg in (1, -1) if kind == '=' else (1,):
            t = [(v, a * sg) for v, a in terms]
            k = -c * sg
            if sorted((a for _, a in t)) != [-1, 1]:
                continue
            p = [v for v, a in t if a == 1][0]
            q = [v for v, a in t if a == -1][0]
            u, v = (q, p) if neg else (p, q)
            if v > u:
                out[u].append((v, k))
    return out


def stepwise(rules):
    """A stepwise form that ranks the rules, or None."""
    if not rules:
        return None
    for pos in sorted(positions(rules, 'int')):
        for neg in (False, True):
            ok = True
            some = False
            for rule in rules:
                s = var_at(rule[4], 'int', pos)
                e = var_at(rule[5], 'int', pos)
                if s is None or e is None:
                    ok = False
                    break
                c = longest_ok(fall_links(rule, neg), s, e)
                if c is None or c < 0:
                    ok = False
                    break
                if c >= 1 and any((k == '>=' and t == [[s, -1 if neg else 1]] for k, t, cc, weights in rule[3])):
                    some = True
            if ok and some:
                return (pos, neg)
    return None
