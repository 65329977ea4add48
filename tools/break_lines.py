#!/usr/bin/env python3
"""Breaks long lines of .antt files, and long clauses and `ghost use` lines of .rt files, at spaces of least bracket depth.

usage: break_lines.py LIMIT FILE..

A line past LIMIT columns goes on on the next one; a list of imports goes on in a second `use`. Nothing else changes, and comments stay as they
are. `rattle fmt --write FILE..` afterwards gives the files the gate's layout.
"""
import re
import sys

# words that stand first on a line rather than last, and how gladly a line is broken before them
OPERATORS = {'→': 40, '|': 40, '∙': 25, '×': 25, '⊎': 25, '↦': 0, '≡': 0, '∷': 0, '++': 0, '&&': 0, '||': 0}
HEAD = re.compile(r'\s*(?:(?:pub|abbrev|record|data|module)\s+)*\S+ : ')
IMPORT = re.compile(r'(\s*(?:pub |ghost )?use Rattle[\w.]*\.)\{(.*)\}(;?)\s*$')
CLAUSE = re.compile(r'\s*(?:requires|ensures)\b')


def indent_of(line):
    """How many spaces a line begins with."""
    return len(line) - len(line.lstrip(' '))


def spaces(line):
    """Each space behind the first word and outside of texts, with its bracket depth."""
    found, depth, quoted = [], 0, False
    for place, sign in enumerate(line):
        if sign == '"' and line[place - 1:place] != '\\':
            quoted = not quoted
        elif quoted:
            continue
        elif sign in '([{':
            depth += 1
        elif sign in ')]}':
            depth -= 1
        elif sign == ' ' and place > indent_of(line):
            found.append((place, depth))
    return found


def body_of(line):
    """Where what may be broken begins: behind the name of a signature, or the `=` of an equation."""
    head = HEAD.match(line)
    if head:
        return head.end() - 1
    return next((place + 2 for place, depth in spaces(line) if depth == 0 and line[place:place + 3] == ' = '), 0)


def cost(line, place, depth, most):
    """What a break there costs: depth most, then how much room it leaves."""
    return depth * 40 + (most - place) * 0.5 - OPERATORS.get(line[place + 1:].split(' ', 1)[0], 0)


def break_at(line, start, most):
    """The place and depth of the cheapest break behind a start, if there is one."""
    found = []
    for place, depth in spaces(line):
        before, after = line[:place].rsplit(' ', 1)[-1], line[place + 1:].split(' ', 1)[0]
        if max(start, indent_of(line) + 21) <= place <= most and before not in (':', 'Type') and after not in (':', '0', 'where'):
            found.append((place, depth, before in OPERATORS))
    found = [it for it in found if not it[2]] or found
    return min(((place, depth) for place, depth, _ in found), key=lambda it: cost(line, *it, most), default=None)


def broken(line, limit):
    """The lines of a long line; one where no place is found."""
    first, depth, parts, start = indent_of(line) + 4, 0, [], body_of(line)
    while len(line) > limit:
        found = break_at(line, start, limit - 7) or break_at(line, 0, limit - 7)
        if not found:
            break
        depth += found[1]
        parts.append(line[:found[0]].rstrip())
        line = ' ' * (first + 2 * min(max(depth, 0), 6)) + line[found[0]:].strip()
        start = 0
    return [*parts, line]


def imports(line, limit):
    """The imports of a list that is too long for one line."""
    found = IMPORT.match(line)
    if not found:
        return [line]
    rows = [[]]
    for name in found.group(2).split(', '):
        if rows[-1] and len(found.group(1)) + len(', '.join([*rows[-1], name])) > limit - 9:
            rows.append([])
        rows[-1].append(name)
    return [f'{found.group(1)}{{{", ".join(row)}}}{found.group(3)}' for row in rows]


def lines_of(line, limit, is_antt):
    """What stands for a line."""
    if len(line) <= limit or line.lstrip().startswith(('--', '//')):
        return [line]
    if IMPORT.match(line):
        return imports(line, limit)
    return broken(line, limit) if is_antt or CLAUSE.match(line) else [line]


def main(words):
    if len(words) < 2 or not words[0].isdigit():
        sys.exit(__doc__)
    for name in words[1:]:
        with open(name) as file:
            text = file.read()
        new = '\n'.join(it for line in text.split('\n') for it in lines_of(line, int(words[0]), name.endswith('.antt')))
        if new != text:
            with open(name, 'w') as file:
                file.write(new)


if __name__ == '__main__':
    main(sys.argv[1:])
