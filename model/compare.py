#!/usr/bin/env python3
"""Compares the model with tables of outside cases.

usage: compare.py CASES_DIR

CASES_DIR has the tables as files NAME.tsv, one case a line: the answer, and then the input, with a tab between two
fields. For each table a line is printed: its name, how many cases agree, how many were compared, and how many were left
out and why. Cases that disagree are printed before it.
"""
import collections
import json
import os
import sys

sys.dont_write_bytecode = True

import certificates
import expand
import intervals
import machine
import paths
import proof
import rank_steps
import ranking
import reports
import search
import simulate
import states
import widen
from classes import Refused, World, program_of
from expand import TooManyIds
from least_typing import least_typings, method_word, place_word


def world_of(files):
    return World([bytes.fromhex(x) for x in files if x])


def typing_answer(program, types):
    if isinstance(types, tuple):
        return 'verify: NoTyping method=' + method_word(program, types[1])
    places = []
    for number, method in enumerate(types):
        for pc in sorted(method):
            held, stack = method[pc]
            words = [','.join(place_word(program.world, t) for t in part) for part in (held, stack)]
            places.append(' %d@%d[%s|%s]' % (number, pc, words[0], words[1]))
    return 'OK' + ''.join(places)


def typing(fields):
    program = program_of(fields)
    return typing_answer(program, least_typings(program))


def link(fields):
    program = program_of(fields)
    types = least_typings(program)
    if isinstance(types, tuple):
        return typing_answer(program, types)
    return ' '.join(['OK'] + [method_word(program, n) for n in range(len(program.methods))])


def link_or_refusal(fields):
    try:
        return link(fields)
    except Refused as refused:
        return str(refused)


def value_word(world, heap, ended):
    if ended[0] == 'threw':
        return 'THREW ' + world.classes[heap[ended[1]][1]]['name']
    if not ended[2]:
        return 'RETURNED'
    value = ended[1]
    if value is None:
        return 'RETURNED null'
    if isinstance(value, int):
        return 'RETURNED int %d' % value
    found = heap[value[1]]
    word = world.classes[found[1]]['name'] if found[0] == 'o' else world.show(machine.type_of_object(found))
    return 'RETURNED ref ' + word


def run(fields):
    """The run's answer; each of its first 3,000 states is tested to be typed."""
    loaded = simulate.load_run([''] + fields)
    if loaded is None:
        program = program_of_state(fields)
        return 'jterm: ' + typing_answer(program, least_typings(program))
    program, types, state = loaded
    fuel = int(fields[0])
    for n in range(fuel):
        wrong = machine.typed_state(program, types, state) if n < 3000 else None
        if wrong:
            return 'a state without the types: ' + wrong
        try:
            ended = machine.step(program, state)
        except machine.Stuck as stuck:
            return 'stuck: %s' % stuck
        if ended is not None:
            return value_word(program.world, state.heap, ended)
    return 'GOING %d' % fuel


def program_of_state(fields):
    text = json.loads(bytes.fromhex(fields[1]))
    return program_of([text['class'], text['method'], text['desc']] + fields[2:])


def ints(fields):
    numbers = [int(x) for x in fields[1:] if x]
    if fields[0] in intervals.CONDITIONS:
        same, la, ha, lb, hb = numbers
        return intervals.show(intervals.compare(fields[0], same == 1, (la, ha), (lb, hb)))
    left = tuple(numbers[:2])
    right = tuple(numbers[2:4]) or None
    return intervals.show(intervals.operate(fields[0], left, right), not fields[0].startswith('narrow'))


def reach(fields):
    state = states.read_state(world_of(fields[3:]), fields[2])
    ids = [int(x) for x in fields[1].split()]
    if fields[0] == 'known':
        return ' '.join(str(x) for x in sorted(states.known_from(state, ids[0])))
    tests = {'meet': states.may_meet, 'in': states.may_be_in, 'tree': states.is_tree, 'finite': states.is_finite}
    return 'yes' if tests[fields[0]](state, *ids) else 'no'


def match(fields):
    world = world_of(fields[4:])
    a, b = states.read_state(world, fields[1]), states.read_state(world, fields[2])
    if fields[0] == 'instance':
        fault = states.instance(world, a, b, [tuple(x) for x in json.loads(fields[3])])
        return 'OK' if fault is None else 'Match clause=%d id=%d' % fault
    found = states.find_map(world, a, b)
    return 'None' if found is None else 'Some ' + json.dumps([list(x) for x in found], separators=(',', ':'))


def heap(fields):
    world = world_of(fields[2:])
    state = states.read_state(world, fields[1])
    words = fields[0].split()
    numbers = [int(x) if x.lstrip('-').isdigit() else x for x in words[1:]]

    def children(found):
        if any(len(child.cells) > 512 for _, child in found):
            return 'TooManyIds'
        return expand.show_children(world, found)

    def with_id(child, id_):
        return 'TooManyIds' if len(child.cells) > 512 else 'Id %d | step %s' % (id_, states.written(world, child))
    call = words[0]
    if call == 'refine_class':
        return children(expand.refine_class(world, state, numbers[0], states.type_of_word(world, words[2])))
    if call in ('refine_null', 'refine_equal'):
        return children(getattr(expand, call)(world, state, *numbers))
    if call == 'put_field':
        return children([(expand.Link(True), expand.put_field(world, state, *numbers))])
    if call == 'store_ref':
        return children([(expand.Link(True), expand.write(world, state, *numbers)[0])])
    if call == 'new_array':
        return with_id(*expand.new_array(world, state, world.slot(words[1]), numbers[1]))
    return with_id(*getattr(expand, call)(world, state, *numbers))


def expansion(fields):
    program = program_of(fields[:3] + fields[4:])
    return expand.expansion_line(program, least_typings(program), states.read_state(program.world, fields[3]))


def term(fields):
    state, id_ = states.read_state(world_of(fields[2:]), fields[1]), int(fields[0])
    return widen.pattern(state, id_) if widen.is_sized(state, id_) else 'None'


def widening(fields):
    world = world_of(fields[2:])
    try:
        wider = widen.widen(world, states.read_state(world, fields[0]), states.read_state(world, fields[1]))
    except TooManyIds:
        return 'TooManyIds'
    return states.written(world, wider)


def path_rules(fields):
    program = program_of(fields[1:])
    nodes, text = paths.read_certificate(program.world, fields[0])
    try:
        rules = paths.paths(nodes, paths.links_of(program, least_typings(program), nodes), text['cuts'])
    except paths.Uncut as uncut:
        return 'Uncut node=%d' % uncut.args[0]
    except paths.TooManyPaths:
        return 'TooManyPaths'
    return 'OK ' + json.dumps(rules, separators=(',', ':'))


def proof_check(fields):
    return proof.check(json.loads(fields[0]), json.loads(fields[1]))


def ranked(step, rules):
    """The check takes the step: it finds nothing wrong, or only rules that are left."""
    said = proof.check(rules, [step, ['empty']])
    return said == 'OK' or said.endswith('step=1')


def plain(fields):
    rules = json.loads(fields[0])
    form = ranking.plain(rules)
    if form is None:
        return 'None'
    if form[0] == 'size':
        step = rank_steps.step_size(rules, form[1])
    else:
        step = rank_steps.step_ints(rules, list(zip(form[1::2], form[2::2])))
    return 'Some' if ranked(step, rules) else 'a step that is not taken'


def stepwise(fields):
    rules = json.loads(fields[0])
    form = ranking.stepwise(rules)
    if form is None:
        return 'None'
    return 'Some' if ranked(rank_steps.step_stepwise(rules, *form), rules) else 'a step that is not taken'


def given(fields):
    """The program, its typings, the root, the filled nodes and the certificate."""
    text = json.loads(bytes.fromhex(fields[1]))
    program = program_of([text['class'], text['method'], text['desc']] + fields[2:])
    types = least_typings(program)
    nodes, read = paths.read_certificate(program.world, fields[0])
    if any(state is None for state, _ in nodes):
        nodes = certificates.fill(program, types, nodes)
    return program, types, certificates.initial_of(program, text), nodes, read


def check(fields):
    program, types, root, nodes, read = given(fields)
    return certificates.check_cert(program, types, root, nodes, read['cuts'], read['proof'])


def throws(fields):
    program, types, root, nodes, read = given(fields)
    said = certificates.check_cert(program, types, root, nodes, read['cuts'], read['proof'])
    return reports.throws(program, nodes) if said == 'ACCEPTED' else said


def bound(fields):
    program, types, root, nodes, read = given(fields[1:])
    said = certificates.check_cert(program, types, root, nodes, read['cuts'], read['proof'])
    if said != 'ACCEPTED':
        return said
    text = json.loads(bytes.fromhex(fields[0]))
    return reports.bound(program, nodes, paths.links_of(program, types, nodes), read['cuts'], read['proof'], text)


def prove(fields):
    """The first line; YES only where the certificate is accepted."""
    text = json.loads(bytes.fromhex(fields[1]))
    program = program_of([text['class'], text['method'], text['desc']] + fields[2:])
    types = least_typings(program)
    if isinstance(types, tuple):
        return 'jterm: ' + typing_answer(program, types)
    said = search.search(program, types, certificates.initial_of(program, text), int(fields[0] or 4000)).split('\n')
    if said[0] == 'YES':
        found = check([said[1].encode().hex()] + fields[1:])
        return 'YES' if found == 'ACCEPTED' else 'a certificate that is not accepted: ' + found
    return said[0]


UNREAD = 'refusals of reading, linking and inputs'


def is_refused(answer):
    return UNREAD if answer.startswith('jterm:') or ' item 0:' in answer else None


def is_refused_before_verification(answer):
    return None if answer.startswith('jterm: verify') else is_refused(answer)


def is_unlinked(answer):
    return 'refusals of linking and recursion' if answer.startswith(('link:', 'recursion:')) else None


TABLES = [
    ('typing', typing, None),
    ('link-52', link, is_unlinked),
    ('jvm-52', link_or_refusal, None),
    ('run', run, is_refused_before_verification),
    ('run-52', run, is_refused),
    ('ints', ints, None),
    ('reach', reach, None),
    ('match', match, None),
    ('heap', heap, None),
    ('expand-int', expansion, None),
    ('expand', expansion, None),
    ('term', term, None),
    ('widen', widening, None),
    ('paths-int', path_rules, None),
    ('paths', path_rules, None),
    ('proof', proof_check, None),
    ('plain', plain, None),
    ('stepwise', stepwise, None),
    ('check-int', check, is_refused),
    ('check', check, is_refused),
    ('check-2-int', check, is_refused),
    ('check-2', check, is_refused),
    ('throws', throws, is_refused),
    ('bound', bound, is_refused),
    ('prove-int', prove, is_refused),
    ('prove', prove, is_refused),
]


def compare(folder, name, answer, left_out):
    """The table's line; each case that disagrees is printed before it."""
    agreed, compared, left = 0, 0, collections.Counter()
    for n, line in enumerate(open(os.path.join(folder, name + '.tsv'))):
        fields = line.rstrip('\n').split('\t')
        why = left_out(fields[0]) if left_out else None
        if why:
            left[why] += 1
            continue
        compared += 1
        said = answer(fields[1:])
        if said == fields[0]:
            agreed += 1
        else:
            print('%s, line %d: wanted %s, said %s' % (name, n + 1, fields[0][:300], said[:300]))
    words = ''.join('; left out %d (%s)' % (count, why) for why, count in left.items())
    return agreed == compared, '%s: %d of %d agree%s' % (name, agreed, compared, words)


def main():
    if len(sys.argv) != 2:
        sys.exit(__doc__)
    sys.setrecursionlimit(1000000)
    good = True
    for name, answer, left_out in TABLES:
        agrees, line = compare(sys.argv[1], name, answer, left_out)
        good = good and agrees
        print(line)
    sys.exit(0 if good else 1)


if __name__ == '__main__':
    main()
