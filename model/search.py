"""The search for a certificate.

Reads again: crates/graph_build/specs, crates/chain_proofs/specs, and what the search above them gives.
Linear forms over several ints that are the same at every cut aren't looked for: one that may differ from cut to cut is found where there
is one of them.
"""
import certificates
import cut_forms
import rank_steps
import ranking
from paths import *
from widen import widen


class Stopped(Exception):
    """There is no whole graph: `nodes` or `ids`."""


def targets(op):
    """The places to which an instruction may jump."""
    if op[0] in ('if', 'if_icmp', 'if_acmp', 'ifnull', 'goto'):
        return [op[-1]]
    if op[0] == 'tableswitch':
        return [op[1]] + op[3]
    if op[0] == 'lookupswitch':
        return [op[1]] + [to for _, to in op[2]]
    return []


def is_head(program, state):
    """Whether the top frame is where a loop of its method can go on, in normal mode."""
    if state.thrown is not None or not state.frames:
        return False
    method, pc = program.methods[state.frames[-1][0]], state.frames[-1][1]
    jumps = any(at >= pc and pc in targets(op) for at, op in method['insns'].items())
    return jumps or any(handler == pc < end for _, end, handler, _ in method['table'])


def positions_of(state):
    return tuple((f[0], f[1], len(f[3])) for f in state.frames), state.thrown is None


def grown(program, typing, root, limit):
    """The nodes of the program's graph."""
    world = program.world
    states, ways, parents, todo, expanded = [root], [None], [None], [0], {}

    def add(state, parent):
        states.append(state)
        ways.append(None)
        parents.append(parent)
        return len(states) - 1

    def ancestors(n):
        while parents[n] is not None:
            n = parents[n]
            yield n

    def target_of(q):
        """The node of which this one is an instance, with the map; or the ancestor to widen it by; or nothing."""
        alike = expanded.get(positions_of(states[q]), [])
        for n in sorted(alike):
            found = find_map(world, states[q], states[n])
            if found is not None:
                return n, found
        return next((n for n in ancestors(q) if n in alike), None), None

    widenings = set()
    while todo:
        q = todo.pop()
        if q not in widenings and is_head(program, states[q]):
            target, found = target_of(q)
            if found is None and target is not None:
                try:
                    wider = widen(world, states[target], states[q])
                except TooManyIds:
                    raise Stopped('ids')
                if len(states) + 1 > limit:
                    raise Stopped('nodes')
                target, found = add(wider, q), find_map(world, states[q], wider)
                widenings.add(target)
                todo.append(target)
            if found is not None:
                ways[q] = ('instance', target, found)
                continue
        try:
            children = expand(program, typing, states[q])
        except TooManyIds:
            raise Stopped('ids')
        if children == 'End':
            ways[q] = ('end',)
            expanded.setdefault(positions_of(states[q]), []).append(q)
            continue
        if len(states) + len(children) > limit:
            raise Stopped('nodes')
        ways[q] = ('expand', [add(child, q) for _, child in children])
        expanded.setdefault(positions_of(states[q]), []).append(q)
        todo += ways[q][1]
    return list(zip(states, ways))


def step_for(rules):
    """A rank step for these rules, its numbers those of the list; or None."""
    form = ranking.plain(rules)
    if form is not None and form[0] == 'size':
        return rank_steps.step_size(rules, form[1])
    if form is not None:
        return rank_steps.step_ints(rules, list(zip(form[1::2], form[2::2])))
    form = ranking.stepwise(rules)
    return cut_forms.step(rules) if form is None else rank_steps.step_stepwise(rules, *form)


def classes_of(rules, numbers):
    """Classes of rules that reach each other, in an order without an edge back."""
    after = {}
    for n in numbers:
        after.setdefault(rules[n][0], set()).add(rules[n][1])
    reached = {}
    for cut in after:
        seen, todo = set(), [cut]
        while todo:
            for other in after.get(todo.pop(), ()):
                if other not in seen:
                    seen.add(other)
                    todo.append(other)
        reached[cut] = seen

    def comes_to(n, m):
        """Rule m after rule n, over some rules or none."""
        return rules[m][0] == rules[n][1] or rules[m][0] in reached.get(rules[n][1], ())
    classes = []
    for n in numbers:
        mates = next((c for c in classes if comes_to(n, c[0]) and comes_to(c[0], n)), None)
        if mates is None:
            classes.append([n])
        else:
            mates.append(n)
    ordered = []
    while classes:
        first = next(c for c in classes if not any(comes_to(d[0], c[0]) for d in classes if d is not c))
        ordered.append(first)
        classes.remove(first)
    return ordered, lambda n: comes_to(n, n)


def proof_of(rules):
    """The steps of a proof and None, or no steps and the rules that are left."""
    steps, todo = [None], [(0, list(range(len(rules))))]

    def later(numbers):
        steps.append(None)
        todo.append((len(steps) - 1, numbers))
        return len(steps) - 1
    while todo:
        place, numbers = todo.pop()
        classes, follows_itself = classes_of(rules, numbers)
        if not numbers:
            steps[place] = ['empty']
        elif len(classes) > 1 or not follows_itself(numbers[0]) and len(numbers) == 1:
            is_done = [len(c) == 1 and not follows_itself(c[0]) for c in classes]
            steps[place] = ['split', classes, [-1 if done else later(c) for c, done in zip(classes, is_done)]]
        else:
            found = step_for([rules[n] for n in numbers])
            if found is None:
                return None, numbers
            entries = [[numbers[e[0]]] + e[1:] for e in found[4]]
            left = [e[0] for e in entries if e[1] == 'weak']
            steps[place] = found[:4] + [entries, later(left)]
    return steps, None


def place_of(program, state):
    """A cut's top frame in words."""
    method = program.methods[state.frames[-1][0]]
    return '%s.%s%s@%d' % (program.world.classes[method['of_class']]['name'], method['name'], method['desc'], state.frames[-1][1])


def certificate_text(world, nodes, cuts, steps):
    """The certificate in form 2."""
    named, parts = set(), []
    for n, (state, by) in enumerate(nodes):
        part = {'by': [by[0]] + [[list(e) if isinstance(e, tuple) else e for e in x] if isinstance(x, list) else x for x in by[1:]]}
        if n not in named:
            part['state'] = json.loads(written(world, state))
        if by[0] == 'expand':
            named.update(child for child in by[1] if child > n)
        parts.append(part)
    text = {'cuts': cuts, 'form': 2, 'nodes': parts, 'proof': steps}
    return json.dumps(text, separators=(',', ':'), sort_keys=True)


def search(program, typing, root, limit):
    """What `prove` puts on its output."""
    try:
        nodes = grown(program, typing, root, limit)
    except Stopped as stopped:
        return 'MAYBE %s\n' % stopped.args[0]
    cuts = sorted({0} | {by[1] for _, by in nodes if by[0] == 'instance'})
    try:
        rules = paths(nodes, links_of(program, typing, nodes), cuts)
    except TooManyPaths:
        return 'MAYBE paths\n'
    steps, left = proof_of(rules)
    if steps is None:
        lines = ['rule %d %s %s\n' % (n, place_of(program, nodes[rules[n][0]][0]), place_of(program, nodes[rules[n][1]][0])) for n in left]
        return 'MAYBE component\n' + ''.join(lines)
    return 'YES\n%s\n' % certificate_text(program.world, nodes, cuts, steps)
