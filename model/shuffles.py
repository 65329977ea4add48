"""The instructions that move entries of the operand stack about.

Reads again: crates/op_forms/specs/Forms (`shuffled`). JVM specification, SE 8, section 6.5, from `dup` to `swap`.
"""

# the entries that each takes, the top one named a, and what it puts in their place, from the top down
MOVES = {'pop': ('a', ''), 'pop2': ('ab', ''), 'dup': ('a', 'aa'), 'dup_x1': ('ab', 'aba'), 'dup_x2': ('abc', 'abca'),
         'dup2': ('ab', 'abab'), 'dup2_x1': ('abc', 'abcab'), 'dup2_x2': ('abcd', 'abcdab'), 'swap': ('ab', 'ba')}


def taken(kind):
    """How many entries are taken."""
    return len(MOVES[kind][0])


def shuffled(kind, pop):
    """What is put in the place of the entries that `pop` gives one after another, from the bottom up."""
    takes, puts = MOVES[kind]
    entries = {name: pop() for name in takes}
    return [entries[name] for name in reversed(puts)]
