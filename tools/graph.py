#!/usr/bin/env python3
"""Draws the graph of a certificate, or the graph in which a loop is left for which nothing falls.

usage: graph.py [--svg] CERT [DESC CLASS..]
       graph.py [--svg] --maybe DESC CLASS..

CERT is a file with a certificate, DESC one with the description of which it is, behind it the class files. With these a node is shown
with its instruction and its line of Java, and an edge with what it says; without them places and classes are numbers, and of a
certificate in form 2, which `prove` writes, most nodes lack their states. `--maybe` draws the graph of a method for which `prove`
answers `MAYBE component`, and marks the ways around that are left in red. It prints the graph in the language of Graphviz, or with
`--svg` a picture, for which nothing else is needed.

A panel is a node: its number and the instruction that comes next, where its frames are, the ints at locals and on the stack, and the
objects. A box with corners is an object of which the class is known, a round one is known by its type alone. An arrow is a field; a
dashed line joins two that may share an object, or be one. Two lines around a panel: a cut, with the forms by which the proof ranks
there. An arrow between panels leads to what the instruction leads to, with what it says; a dashed one to the panel of which this one is
a special case. Grey: the run ends there.

What it adds to the certificate comes from `model/`, which nobody has to trust: a picture proves nothing.
"""
import json
import pathlib
import sys

TOP = pathlib.Path(__file__).resolve().parent.parent
sys.path[:0] = [str(TOP / 'tools'), str(TOP / 'model')]
sys.dont_write_bytecode = True

import certificates
import expand
import least_typing
import paths
import search
from class_words import ClassWords
from classes import Refused, program_of
from graph_picture import FORM, INK, PALE, Edge, Layout, Panel
from graph_words import Program, State, edge_lines, end_line, form_lines
from states import written

NODES = 4000


class Graph:
    """Nodes with their states where they have one, cuts and proof, the words of edges by node, and the rules that are left."""

    def __init__(self, cert, program=Program(), links=None, stuck=()):
        self.cert, self.program, self.links = cert, program, links
        self.states = [State(program, node['state']) if 'state' in node else None for node in cert['nodes']]
        self.stuck_nodes = {node for way in stuck for node in way}
        self.stuck_edges = {edge for way in stuck for edge in zip(way, way[1:])}
        self.left = len(stuck)

    def title(self, number):
        words = self.states[number].instruction() if self.states[number] else ''
        return '%d%s' % (number, ':  ' + words if words else '')

    def lines(self, number, with_objects):
        """What a node says, each line with its colour."""
        state, by = self.states[number], self.cert['nodes'][number]['by']
        if state is None:
            return []
        lines = [(line, PALE) for line in state.place_lines()] + [(line, INK) for line in state.int_lines()]
        if with_objects:
            lines += [(line, INK) for line in state.object_lines() + state.pair_lines()]
        if number in self.cert['cuts']:
            lines += [(line, FORM) for line in form_lines(number, state, self.cert['proof'])]
        return lines + [(end_line(state), INK)] * (by[0] == 'end')

    def edges(self):
        for number, node in enumerate(self.cert['nodes']):
            by = node['by']
            targets = by[1] if by[0] == 'expand' else [by[1]] if by[0] == 'instance' else []
            for place, target in enumerate(targets):
                if target >= len(self.states):
                    continue
                lines = ['special case of %d' % target] if by[0] == 'instance' else []
                if by[0] == 'expand' and self.links and place < len(self.links[number]):
                    lines = edge_lines(self.states[number], self.states[target], self.links[number][place])
                yield Edge(number, target, lines, by[0] == 'instance', (number, target) in self.stuck_edges)

    def picture(self):
        panels = []
        for number, node in enumerate(self.cert['nodes']):
            shown = not self.left or number in self.stuck_nodes
            state = self.states[number] if shown else None
            panels.append(Panel(self.title(number), self.lines(number, False)[:None if shown else 1], state,
                                number in self.cert['cuts'], node['by'][0] == 'end', number in self.stuck_nodes))
        caption = 'Red: %d way%s around for which nothing falls' % (self.left, 's' * (self.left > 1)) if self.left else ''
        return Layout(panels, list(self.edges())).svg(caption)

    def text(self):
        """The graph in the language of Graphviz."""
        lines = ['digraph certificate {', '  node [shape=box style=rounded fontname="Helvetica" fontsize=10];',
                 '  edge [fontname="Helvetica" fontsize=9];']
        for number, node in enumerate(self.cert['nodes']):
            said = [self.title(number)] + [line for line, _ in self.lines(number, True)]
            words = ['label=' + quoted('\n'.join(said) + '\n')]
            words += ['peripheries=2'] * (number in self.cert['cuts']) + ['color=red'] * (number in self.stuck_nodes)
            words += ['style="rounded,filled" fillcolor="grey90"'] * (node['by'][0] == 'end')
            lines.append('  %d [%s];' % (number, ' '.join(words)))
        for edge in self.edges():
            words = ['label=' + quoted('\n'.join(edge.lines) + '\n')] * bool(edge.lines)
            words += ['style=dashed constraint=false'] * edge.is_dashed + ['color=red'] * edge.is_stuck
            lines.append('  %d -> %d%s;' % (edge.start, edge.end, ' [%s]' % ' '.join(words) if words else ''))
        return '\n'.join(lines + ['}']) + '\n'


def quoted(text):
    return '"' + text.replace('\\', '\\\\').replace('"', '\\"').replace('\n', '\\l') + '"'


def program_for(description, files):
    """The program, its typings, and its words."""
    contents = [pathlib.Path(file).read_bytes() for file in files]
    model = program_of([description['class'], description['method'], description['desc']] + [content.hex() for content in contents])
    return model, least_typing.least_typings(model), Program(model, [ClassWords(content) for content in contents])


def node_of(world, state, by):
    way = list(by[:2]) + ([[list(pair) for pair in by[2]]] if by[0] == 'instance' else [])
    return {'by': way, 'state': json.loads(written(world, state))}


def of_certificate(cert, description, files):
    """A certificate's graph with all its states."""
    model, typing, program = program_for(description, files)
    nodes, _ = paths.read_certificate(model.world, json.dumps(cert).encode().hex())
    nodes = certificates.fill(model, typing, nodes)
    filled = dict(cert, nodes=[node_of(model.world, *node) for node in nodes])
    try:
        return Graph(filled, program, paths.links_of(model, typing, nodes))
    except (expand.BadState, expand.TooManyIds):
        return Graph(filled, program)


def of_maybe(description, files):
    """The graph that is grown for a method, with the ways around that are left."""
    model, typing, program = program_for(description, files)
    nodes = search.grown(model, typing, certificates.initial_of(model, description), NODES)
    cuts = sorted({0} | {by[1] for _, by in nodes if by[0] == 'instance'})
    links = paths.links_of(model, typing, nodes)
    _, left = search.proof_of(paths.paths(nodes, links, cuts))
    if left is None:
        sys.exit('graph.py: no way around is left here: `prove` gives a certificate, which can be drawn')
    ways = ways_between(nodes, cuts)
    cert = {'nodes': [node_of(model.world, *node) for node in nodes], 'cuts': cuts, 'proof': []}
    return Graph(cert, program, links, [ways[rule] for rule in left])


def ways_between(nodes, cuts):
    """The nodes of each path from a cut to the next one, in the order of rules."""
    ways, todo = [], [[cut] for cut in reversed(cuts)]
    while todo:
        way = todo.pop()
        if len(way) > 1 and way[-1] in cuts:
            ways.append(way)
        else:
            todo += [way + [target] for target in reversed(paths.succ(nodes[way[-1]][1]))]
    return ways


def main(words):
    flags = [word for word in words if word.startswith('--')]
    files = [word for word in words if not word.startswith('--')]
    is_maybe = '--maybe' in flags
    if set(flags) - {'--svg', '--maybe'} or len(files) == 0 or len(files) == (1 if is_maybe else 2):
        sys.exit(__doc__.strip())
    count = 1 if is_maybe or len(files) == 1 else 2
    texts = [json.loads(pathlib.Path(file).read_text()) for file in files[:count]]
    try:
        graph = of_maybe(*texts, files[1:]) if is_maybe else of_certificate(*texts, files[2:]) if count == 2 else Graph(*texts)
    except Refused as refused:
        sys.exit('graph.py: %s' % refused)
    except (search.Stopped, paths.TooManyPaths):
        sys.exit('graph.py: the graph is too large: more than %d nodes, or 4096 paths' % NODES)
    print(graph.picture() if '--svg' in flags else graph.text(), end='')


if __name__ == '__main__':
    main(sys.argv[1:])
