"""What an accepted certificate says beside ACCEPTED: how runs end, how many instructions they take at most, and that they never end.

Reads again: crates/throw_report/specs/Reports, crates/loop_check/specs/Loops, crates/bound_check/specs.
Texts that can't be read are not understood here.
"""
import proof as proof_check
from paths import *


def reached(nodes):
    """The nodes that edges reach from node 0, itself included."""
    seen, todo = {0}, [0]
    while todo:
        for t in succ(nodes[todo.pop()][1]):
            if t not in seen:
                seen.add(t)
                todo.append(t)
    return seen


def throws(program, nodes):
    """The lines of the ways in which runs end, by the End nodes that are reached."""
    ends = [nodes[i][0] for i in sorted(reached(nodes)) if nodes[i][1][0] == 'end']
    classes = sorted({s.cells[s.thrown][1] for s in ends if s.thrown is not None})
    assert all(s.cells[s.thrown][0] == 'obj' for s in ends if s.thrown is not None)
    lines = ['RETURNS'] if any(s.thrown is None for s in ends) else []
    return '\\x0a'.join(lines + ['THROWS ' + program.world.classes[c]['name'] for c in classes])


def is_step(links, u, k):
    """The k-th edge of node u is one step of the machine."""
    return bool(links[u]) and links[u][k].step


def idle_cycle(nodes, links):
    """The least node on a cycle of edges none of which is a step."""
    idle = [[t for k, t in enumerate(succ(by)) if not is_step(links, u, k)] for u, (_, by) in enumerate(nodes)]
    for start in range(len(nodes)):
        seen, todo = set(), list(idle[start])
        while todo:
            n = todo.pop()
            if n == start:
                return start
            if n not in seen:
                seen.add(n)
                todo += idle[n]
    return None


def loop_fault(nodes, links):
    """What keeps a good graph from showing that no run ends."""
    for n, (_, by) in enumerate(nodes):
        if by[0] == 'end':
            return 'EndNode node=%d' % n
    cycle = idle_cycle(nodes, links)
    return None if cycle is None else 'IdleCycle node=%d' % cycle


def most_steps(nodes, links, cuts):
    """The most one-step edges on a path, or on a walk from a cut to an End node without a further cut."""
    cuts_ = set(cuts)
    memo = {}

    def onward(n):
        """The most from a node on to the next cut or to an End node; None where no walk leads there."""
        if n in memo:
            return memo[n]
        by = nodes[n][1]
        best = 0 if by[0] == 'end' else None
        for k, t in enumerate(succ(by)):
            rest = 0 if t in cuts_ else onward(t)
            if rest is not None:
                best = max(best if best is not None else 0, rest + (1 if is_step(links, n, k) else 0))
        memo[n] = best
        return best
    return max([onward(c) or 0 for c in cuts], default=0)


def sets_of(rules, steps):
    """The set of rules of each proof step."""
    sets = {0: set(range(len(rules)))}
    for j, st in enumerate(steps):
        if st[0] == 'split':
            for part, x in zip(st[1], st[2]):
                if x != -1:
                    sets[x] = set(part)
        elif st[0] == 'rank':
            sets[st[5]] = sets[j] - {e[0] for e in st[4] if e[1] == 'strict'}
        elif st[0] == 'dead':
            sets[st[3]] = sets[j] - {st[1]}
    return sets


def marked_below(steps):
    """How many marked parts stand in each proof step and below it."""
    counts = [0] * len(steps)
    for j in reversed(range(len(steps))):
        st = steps[j]
        if st[0] == 'split':
            counts[j] = sum(1 if x == -1 else counts[x] for x in st[2])
        elif st[0] in ('rank', 'dead'):
            counts[j] = counts[st[-1]]
    return counts


class Unread(Exception):
    """What keeps the text of a bound from being read: a fault and its place."""


def whole(value, place, low, high):
    if not isinstance(value, int) or isinstance(value, bool):
        raise Unread('WrongKind', place)
    if not low <= value <= high:
        raise Unread('OutOfRange', place)
    return value


def entries(value, place, read):
    if not isinstance(value, list):
        raise Unread('WrongKind', place)
    return [read(x, '%s/%d' % (place, n)) for n, x in enumerate(value)]


def parts(value, place, readers):
    """A list of exactly so many entries, each with its reader."""
    if not isinstance(value, list) or len(value) != len(readers):
        raise Unread('WrongKind', place)
    return [read(x, '%s/%d' % (place, n)) for n, (x, read) in enumerate(zip(value, readers))]


def number(value, place):
    return whole(value, place, 0, 2 ** 32 - 1)


def id_(value, place):
    return whole(value, place, 0, 2047)


def multiple(value, place):
    return whole(value, place, -2 ** 31, 2 ** 31)


def constant(value, place):
    return whole(value, place, -2 ** 40, 2 ** 40)


def multiples(value, place):
    return entries(value, place, lambda x, at: parts(x, at, [id_, multiple]))


def multipliers(value, place):
    if isinstance(value, list) and len(value) > 65536:
        raise Unread('OutOfRange', place)
    return entries(value, place, lambda x, at: parts(x, at, [number, multiple]))


def forms(value, place):
    return entries(value, place, lambda x, at: parts(x, at, [number, constant, multiples, multiples]))


def listed_rules(value, place):
    return entries(value, place, lambda x, at: parts(x, at, [number, multipliers]))


def read_bound(value):
    """The entries of the text of a bound."""
    if not isinstance(value, dict):
        raise Unread('WrongKind', '')
    for name in sorted(value):
        if name not in ('form', 'ranks'):
            raise Unread('UnknownField', '/' + name)
    for name in ('form', 'ranks'):
        if name not in value:
            raise Unread('MissingField', '/' + name)
    whole(value['form'], '/form', 1, 1)
    return entries(value['ranks'], '/ranks', lambda x, at: parts(x, at, [number, forms, listed_rules]))


def rises(xs):
    return all(a < b for a, b in zip(xs, xs[1:]))


def entry_fault(rules, steps, sets, n, entry, before):
    """What is wrong with an entry of a bound."""
    step, forms, given = entry
    if step >= len(steps) or steps[step][0] != 'rank' or (before is not None and step <= before):
        return 'NotRank entry=%d step=%d' % (n, step)
    own = sets[step]
    ends = {f[0] for f in steps[step][3]} | {x for r in own for x in rules[r][:2]}
    inner = [[i for i, _ in part] for f in forms for part in f[2:4]]
    if not all(rises(xs) for xs in [[f[0] for f in forms], [r for r, _ in given]] + inner) \
            or any(f[0] in ends for f in forms) or any(r in own for r, _ in given):
        return 'BadList entry=%d' % n
    whole = [f if steps[step][1] == 'size' else f[:3] + [[]] for f in steps[step][3] + forms]
    weights = dict(map(tuple, steps[step][2]))
    for r in range(len(rules)):
        if r in own:
            continue
        try:
            proof_check.shown(rules[r], whole, weights, 'NotWeak', dict((a, b) for a, b in given).get(r, []))
        except proof_check.Fault as fault:
            words = fault.args[0].split()
            if words == ['%s']:
                return 'NotWeak entry=%d rule=%d' % (n, r)
            return ' '.join([words[0], 'entry=%d' % n] + words[1:])
    return None


def bound(program, nodes, links, cuts, steps, text):
    """The bound's lines, or what is wrong with the text of a bound."""
    try:
        text = {'ranks': read_bound(text)}
    except Unread as fault:
        return 'REFUSED bound: %s place=%s' % fault.args
    rules = paths(nodes, links, cuts)
    sets, below = sets_of(rules, steps), marked_below(steps)
    before = None
    for n, entry in enumerate(text['ranks']):
        fault = entry_fault(rules, steps, sets, n, entry, before)
        if fault:
            return 'REFUSED bound: ' + fault
        before = entry[0]
    named = {e[0]: e for e in text['ranks']}
    for j, st in enumerate(steps):
        if st[0] == 'rank' and j not in named:
            return 'REFUSED bound: Missing step=%d' % j
    marked = sum(x == -1 for st in steps if st[0] == 'split' for x in st[2])
    lines = ['steps %d' % most_steps(nodes, links, cuts), 'const %d' % (1 + marked)]
    first = nodes[0][0]
    for j, st in enumerate(steps):
        if st[0] != 'rank':
            continue
        form = [f for f in st[3] + named[j][1] if f[0] == 0]
        constant, ints, sizes = form[0][1:4] if form else (0, [], [])
        words = ['term', str(1 + below[j]), str(constant)]
        words += ['int %d %d' % (i, c) for i, c in ints if i in first.cells and first.cells[i][0] == 'int']
        words += ['size %d %d' % (i, c) for i, c in sizes if i in first.cells and first.cells[i][0] != 'int' and is_sized(first, i)]
        words += ['weight %s %d' % (program.world.classes[c]['name'], w) for c, w in st[2] if c < len(program.world.classes)]
        lines.append(' '.join(words))
    return '\\x0a'.join(lines)
