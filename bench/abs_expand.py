#!/usr/bin/env python3
"""Times `expand` on states of 20 ids at each form, on a split by class over 100 classes, and on a write in a state of 1,000 pairs.

usage: abs_expand.py [PROGRAM]

PROGRAM is the program of the text below, built over proved libraries: only its figures count. Without it a copy of `abs_expand` and the crates
below it is made in a new folder, and the program is built over them without a proof (`rt try`), with tests at each index and sum that a
proved one doesn't make: nothing is claimed of it. No figures were taken yet.

The states of 20 ids are those of the outside cases that `state_tables` answers, of each form, in which a child is made; ids that nothing
reaches fill them up to 20, each an object whose class isn't known, which may share with none, or with every other one.
"""
import json
import pathlib
import subprocess
import sys
import tempfile

from class_world import Pool
from common import TOP, program_over_copies, u2

MAIN = '''//! Times expansions.
#![tactic(auto)]

use abs_cells::{AbsState, ListPairs, PackedPairs, Pairs};
use abs_expand::expand;
use abs_reach::Marks;
use anyhow::{Context, Result};
use class_program::Program;
use code_verify::{Typing, verify};
use table_cases::entry_cases::Entry;
use table_cases::state_cases::state_in;
use std::alloc::Global;
use std::io::{BufRead, BufReader};
use std::rt::Clock;
use std::time::Instant;
use table_cases::{Case, natural};

/// How many children so many calls give together.
fn expanded<P: Pairs>(
    alloc: Global,
    program: &Program<'_>,
    typing: &Typing,
    state: &AbsState<P>,
    rounds: u32,
    marks: &mut Marks,
) -> usize {
    let mut made = 0usize;
    for _ in 0..rounds {
        if let Ok(Some(children)) = expand(alloc, program, typing, state, marks) {
            made = made.wrapping_add(children.len());
        }
    }
    made
}

fn timed<P: Pairs>(
    rt: &HostRuntime,
    program: &Program<'_>,
    typing: &Typing,
    case: &Case<'_>,
) -> Result<()> {
    let rounds = natural(case.text(0)?)?;
    let state = state_in::<P>(rt.alloc(), &program.world, case.text(1)?)?;
    let mut marks = Marks::new(rt.alloc())?;
    let start = Instant::now(rt)?;
    let made = expanded(rt.alloc(), program, typing, &state, rounds, &mut marks);
    let taken = start.elapsed(rt)?.as_nanos();
    println!(rt; "{made} {taken}")?;
    Ok(())
}

fn answered(rt: &HostRuntime, case: &Case<'_>) -> Result<()> {
    let entry = Entry::read(rt.alloc(), case, 2)?;
    let program = entry.program(rt.alloc())?;
    let typing = verify(rt.alloc(), &program)
        .ok()
        .context("the program has no typing")?;
    if case.table() == "packed" {
        timed::<PackedPairs>(rt, &program, &typing, case)
    } else {
        timed::<ListPairs>(rt, &program, &typing, case)
    }
}

fn main(rt: HostRuntime) -> Result<()> {
    for line in BufReader::new(rt.alloc(), rt.reader())?.lines(rt.alloc()) {
        let line = line?;
        let case = Case::read(rt.alloc(), line.as_str())?;
        answered(&rt, &case)?;
    }
    Ok(())
}
'''
BELOW = 'abs_cells abs_expand abs_reach anyhow class_program code_verify table_cases'


def filled(state, count, sharing):
    """A state with objects that nothing reaches, up to so many ids, each of which may share with none, or with all that aren't known."""
    state = json.loads(json.dumps(state))
    ids = {cell[0] for cell in state['cells']}
    hazy = [cell[0] for cell in state['cells'] if cell[1] == 'unk']
    share = {tuple(pair) for pair in state['share']}
    for new in range(2047, 0, -1):
        if len(ids) >= count:
            break
        if new not in ids:
            share |= {tuple(sorted((new, other))) for other in hazy if sharing}
            state['cells'].append([new, 'unk', 'java/lang/Object', True, 'any'])
            ids.add(new)
            hazy.append(new)
    state['cells'].sort(key=lambda cell: cell[0])
    state['share'] = [list(pair) for pair in sorted(share)]
    return state


def outside_states(count, sharing):
    """The fields of the outside cases that have children, their states filled up."""
    folder = TOP / 'crates/state_tables'
    answers = (folder / 'stdout').read_text().splitlines()
    for line, answer in zip((folder / 'stdin').read_text().splitlines(), answers):
        table, *fields = line.split('\t')
        if table == 'expand' and answer.startswith('Children') and not answer.startswith('Children 0'):
            state = json.loads(fields[0])
            if len(state['cells']) <= count:
                yield [json.dumps(filled(state, count, sharing), separators=(',', ':'))] + fields[1:]


def one_class(name, over, fields, code=None, desc='()V'):
    """A class file with so many fields `f0`, .. of this descriptor each, and maybe a static method `f` of this code."""
    pool = Pool()
    this, above = pool.named(name), pool.named(over)
    listed = b''.join(u2(1) + u2(pool.utf8('f%d' % n)) + u2(pool.utf8(field)) + u2(0) for n, field in enumerate(fields))
    methods = u2(0)
    if code:
        text = code(pool)
        content = u2(2) + u2(2) + len(text).to_bytes(4, 'big') + text + u2(0) + u2(0)
        methods = u2(1) + u2(9) + u2(pool.utf8('f')) + u2(pool.utf8(desc)) + u2(1) + u2(pool.utf8('Code'))
        methods += len(content).to_bytes(4, 'big') + content
    head = bytes.fromhex('cafebabe00000032') + u2(len(pool.entries) + 1) + b''.join(pool.entries)
    return (head + u2(0x21) + u2(this) + u2(above) + u2(0) + u2(len(fields)) + listed + methods + u2(0)).hex()


def field_ref(pool, owner, name, desc):
    pair = pool.put(b'\x0c' + u2(pool.utf8(name)) + u2(pool.utf8(desc)))
    return u2(pool.put(b'\x09' + u2(pool.named(owner)) + u2(pair)))


NODE = 'LC0;'
FIRST = 15  # the number of the first class that isn't built in


def world(code, below, count):
    """`C0` with a field of its own type and this code, so many classes below it in a chain, and a class with so many fields."""
    files = [one_class('C0', 'java/lang/Object', [NODE], code, '(LC0;LH;)V')]
    files += [one_class('C%d' % n, 'C%d' % (n - 1), []) for n in range(1, below + 1)]
    return files + [one_class('H', 'java/lang/Object', [NODE] * count)]


def held(first, files, count, share, stack, pc):
    """A state of so many ids: the first one, objects of `C0`, and last one that holds these."""
    cells = [first] + [[n, 'unk', 'C0', True, 'tree'] for n in range(1, count - 1)]
    cells.append([count - 1, 'obj', FIRST + len(files) - 1, list(range(1, count - 1))])
    state = {'cells': cells, 'eq': [], 'frames': [[0, pc, [0, count - 1], stack]], 'share': share, 'throw': -1}
    return [json.dumps(state, separators=(',', ':')), 'C0', 'f', '(LC0;LH;)V'] + files


def split(classes, count):
    """The field of an object of one of so many classes is read: a split by class."""
    files = world(lambda pool: b'\x2a\xb4' + field_ref(pool, 'C0', 'f0', NODE) + b'\x57\xb1', classes - 1, count - 2)
    share = [[0, n] for n in range(1, 101)] + [[n, n + 1] for n in range(101, count - 2)]
    return held([0, 'unk', 'C0', False, 'tree'], files, count, share, [0], 1)


def write(count):
    """A write into a field of an object which shares with 100 ids; 900 pairs of others share, each with one of the next three."""
    files = world(lambda pool: b'\x2a\x2a\xb5' + field_ref(pool, 'C0', 'f0', NODE) + b'\xb1', 0, count - 2)
    share = [[0, n] for n in range(2, 102)] + [[102 + n // 3, 102 + n // 3 + n % 3 + 1] for n in range(900)]
    return held([0, 'obj', FIRST, [1]], files, count, share, [0, 300], 2)


def answers(lines):
    """The number of children and the nanoseconds for each line."""
    text = ''.join(line + '\n' for line in lines)
    if len(sys.argv) > 1:
        done = subprocess.run([pathlib.Path(sys.argv[1]).resolve()], input=text, stdout=subprocess.PIPE, text=True, check=True)
    else:
        with tempfile.TemporaryDirectory() as folder:
            program = program_over_copies(folder, 'expansions_timed', BELOW, MAIN)
            done = subprocess.run(['rt', 'try', '--seconds', '3600'], cwd=program, input=text, stdout=subprocess.PIPE, text=True, check=True)
    return [tuple(map(int, line.split())) for line in done.stdout.splitlines() if line.replace(' ', '').isdigit()]


def cases():
    """The words of a row, the calls for a state and the states."""
    yield '20 ids, each form; those that nothing reaches share with none', 100, list(outside_states(20, False))
    yield 'the same; those that nothing reaches share with all that aren\'t known', 100, list(outside_states(20, True))
    yield 'a split by class, 100 classes, 500 ids', 10, [split(100, 500)]
    yield 'a write, 512 ids, 1,000 pairs', 100, [write(512)]


def main():
    kinds = [(form, words, rounds if len(sys.argv) > 1 else 1, states) for form in ('packed', 'listed') for words, rounds, states in cases()]
    found = iter(answers(['\t'.join([form, str(rounds)] + fields) for form, _, rounds, states in kinds for fields in states]))
    print('| pairs | state | states | children | microseconds a child: the middle one | the most |\n|---|---|---|---|---|---|')
    for form, words, rounds, states in kinds:
        times = [next(found, (0, 0)) for _ in states]
        if any(children == 0 for children, _ in times):
            sys.exit('not all cases have children')
        each = sorted(nanoseconds / children / 1000 for children, nanoseconds in times)
        made = sum(children for children, _ in times) // rounds
        print('| %s | %s | %d | %d | %.1f | %.1f |' % (form, words, len(states), made, each[len(each) // 2], each[-1]))


if __name__ == '__main__':
    main()
