#!/usr/bin/env python3
"""What the search, and each further try where it finds nothing, say of the methods of a corpus.

usage: try_corpus.py CORPUS_DIR [GROUP[/PROGRAM[/METHOD]]]

CORPUS_DIR is a copy that can be written, with run.py (whose words it reads) and the sources; `javac` compiles them. A line a method that the
search finds no proof for: its truth, the nodes of its first graph, and what each try comes to, with seconds and growths. A certificate that
isn't accepted is printed as BAD. Exact sums are worked out here without the program's limits on them.
"""
import os
import sys
import time

sys.dont_write_bytecode = True
sys.setrecursionlimit(1000000)

import certificates
import classes
import search
import tries
from least_typing import least_typings


def described(run, top, group, prog, cls, meth, toks):
    """A method's program, its typing and its described state."""
    folder = os.path.join(top, 'classes', group, prog)
    files = [open(os.path.join(folder, name), 'rb').read().hex() for name in sorted(os.listdir(folder))]
    desc = run.describe(folder, cls, meth, toks)
    program = classes.program_of([desc['class'], desc['method'], desc['desc']] + files)
    if desc['statics']:
        words = [s if not isinstance(s, tuple) else program.world.show(s) for s in program.static_slots]
        desc['statics'] = [run.entry(tok, word) for tok, word in zip(desc['statics'], words)]
    return program, least_typings(program), certificates.initial_of(program, desc)


def said(program, typing, root, grow):
    """What a graph comes to, its nodes, seconds and growths."""
    tries.Count.growths, start, count = 0, time.process_time(), 0
    try:
        nodes = grow()
        count = len(nodes)
        parts, why = tries.try_graph(program, typing, root, nodes)
        if parts:
            found = certificates.check_cert(program, typing, root, nodes, *parts)
            why = 'YES ' + why if found == 'ACCEPTED' else 'BAD ' + found
    except search.Stopped as stopped:
        why = 'stopped: ' + stopped.args[0]
    return '%s [%.1f s, %d growths]' % (why, time.process_time() - start, tries.Count.growths), count


def line_of(group, key, truth, program, typing, root):
    word, count = said(program, typing, root, lambda: search.grown(program, typing, root, 4000))
    words = [group, key, truth, 'n=%d' % count, 'first graph: ' + word]
    if word.startswith('stopped') or not tries.is_tried(program, root):
        return '\t'.join(words[:-1] + ['not tried'])
    for name, way in tries.ways_of(root, count):
        if 'YES' in words[-1]:
            break
        words.append(name + ': ' + said(program, typing, root, lambda way=way: tries.grown(program, typing, root, 4000, way))[0])
    return '\t'.join(words)


def main():
    if len(sys.argv) not in (2, 3):
        sys.exit(__doc__)
    top, only = os.path.abspath(sys.argv[1]), (sys.argv[2:] or [''])[0]
    sys.path.insert(0, top)
    import run
    run.compile_all()
    for group, prog, cls, meth, truth, toks, _ in run.cases():
        if not ('%s/%s/%s' % (group, prog, meth)).startswith(only):
            continue
        try:
            case = described(run, top, group, prog, cls, meth, toks)
        except (classes.Refused, classes.Missing, KeyError) as refused:
            print('%s\t%s.%s\t%s\trefused: %s' % (group, cls, meth, truth, refused), flush=True)
            continue
        if search.search(*case, 4000).startswith('YES'):
            continue
        print(line_of(group, cls + '.' + meth, truth, *case), flush=True)


if __name__ == '__main__':
    main()
