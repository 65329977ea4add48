#!/usr/bin/env python3
"""Times `jterm check` on certificates of generated methods of ints.

usage: check.py [PROGRAM]

PROGRAM is the built `jterm`; without it, it is `.built/jterm`, which `./jterm` makes. The shapes:

ints 1     255 int parameters and 1,000 `nop`s, in form 1: each node says its 255 ints
ints 2     the same in form 2: node 0 alone says its ints
nodes      20 int parameters and 19,999 `nop`s, in form 2: 20,000 nodes of 20 ids
ids        255 int parameters, 245 constants on the stack and 1,000 `nop`s, in form 2: 1,001 nodes of 500 ids behind 245 of fewer
paths      a loop over 3 ints that switches twice, 64 ways each time, in form 2: 4,096 paths of 9 edges, on each of which one form falls
rows       the same over 20 ints, with `nop`s: 4,096 paths of 4,060 rows each, near the most that they may have together

Behind the peak of memory stands that of the same certificate with `"form":3`, which is refused once its JSON is read: what the JSON takes alone.
"""
import json
import pathlib
import struct
import subprocess
import sys
import tempfile

from class_world import Pool
from common import PEAK, processor_seconds, u2

TOP = pathlib.Path(__file__).resolve().parent.parent
LEAST, MOST = -2**31, 2**31 - 1


def class_file(params, code, stack=2, locals_=None):
    """`A` with a static method `f` of so many ints that returns nothing; it has so many locals, or no more than its parameters."""
    pool = Pool()
    this, over, attribute = pool.named('A'), pool.named('java/lang/Object'), pool.utf8('Code')
    content = u2(stack) + u2(params if locals_ is None else locals_) + struct.pack('>I', len(code)) + code + u2(0) + u2(0)
    method = u2(9) + u2(pool.utf8('f')) + u2(pool.utf8('(' + 'I' * params + ')V')) + u2(1) + u2(attribute)
    method += struct.pack('>I', len(content)) + content
    head = bytes.fromhex('cafebabe00000032') + u2(len(pool.entries) + 1) + b''.join(pool.entries)
    return head + u2(0x21) + u2(this) + u2(over) + u2(0) + u2(0) + u2(1) + method + u2(0)


def description(params):
    given = [{'lo': LEAST, 'hi': MOST}] * params
    return {'form': 1, 'class': 'A', 'method': 'f', 'desc': '(' + 'I' * params + ')V', 'params': given, 'same': [], 'share': []}


def state(params, place):
    cells = [[n, 'int', LEAST, MOST] for n in range(params)]
    return {'cells': cells, 'eq': [], 'frames': [[0, place, list(range(params)), []]], 'share': [], 'throw': -1}


def straight(params, nops, form, constants=0):
    """A node for each constant that is pushed, for each `nop`, and one for `return`."""
    nodes = [{'by': ['expand', [n + 1]]} for n in range(constants + nops)] + [{'by': ['end']}]
    for place, node in enumerate(nodes):
        if form == 1 or place == 0:
            node['state'] = state(params, place)
    cert = {'cuts': [0], 'form': form, 'nodes': nodes, 'proof': [['empty']]}
    return class_file(params, b'\x03' * constants + bytes(nops) + b'\xb1', max(2, constants)), description(params), cert


def switch(place, labels, to):
    """A `tableswitch` that leads to one place, whatever the number is."""
    far = struct.pack('>i', to - place)
    return bytes([0xaa]) + bytes(-(place + 1) % 4) + far + struct.pack('>ii', 0, labels - 1) + far * labels


def switched(code, local, labels):
    """The code and behind it a switch by a local of the numbers from 0 on, all of whose ways lead on to what comes next."""
    code += bytes([0x1a + local])
    place = len(code)
    return code + switch(place, labels, place + len(switch(place, labels, 0)))


def switches(params, nops):
    """While the first int is above 0: so many `nop`s, a switch by the second int, one by the third, and the first int falls by 1."""
    labels = 62
    ways = labels + 2
    code = switched(bytes([0x1a]) + bytes(3) + bytes(nops), 1, labels)
    code = switched(code, 2, labels) + bytes([0x84, 0, 0xff])
    code += b'\xa7' + struct.pack('>h', -len(code))
    code = code[:1] + b'\x9e' + struct.pack('>h', len(code) - 1) + code[4:] + b'\xb1'
    nodes = [{'by': ['expand', [1]], 'state': state(params, 0)}, {'by': ['expand', [2, 3]]}, {'by': ['end']}]

    def leading(count):
        """A node that leads to so many new nodes, and these."""
        first = len(nodes)
        nodes.extend({} for _ in range(count))
        return list(range(first, first + count))

    def led(node, count):
        below = leading(count)
        nodes[node]['by'] = ['expand', below]
        return below

    last = leading(1)[0]
    for _ in range(nops + 1):
        last = led(last, 1)[0]
    back = [[0, params]] + [[n, n] for n in range(1, params)]
    for one in led(last, ways):
        for other in led(led(one, 1)[0], ways):
            nodes[led(led(other, 1)[0], 1)[0]]['by'] = ['instance', 0, back]
    # Each stop of a path has the bounds of its ints, and then what ties each to the next stop. The first int comes first among them, but
    # the one that is 1 less last.
    rows = 3 * params
    falls = nops + 6
    fall = [[rows * stop + 2 * params, 1] for stop in range(falls)]
    fall += [[rows * falls + rows - 1, -1], [rows * (falls + 1) + rows - 1, 1], [rows * (falls + 2) + 2 * params, -1]]
    start = [[2 * params, 1], [rows + 2 * params, 1], [2 * rows, 1]]
    ranked = [[path, 'strict', fall, start] for path in range(ways * ways)]
    proof = [['rank', 'linear', [], [[0, 0, [[0, 1]], []]], ranked, 1], ['empty']]
    return class_file(params, code), description(params), {'cuts': [0], 'form': 2, 'nodes': nodes, 'proof': proof}


def written(cert):
    return json.dumps(cert, separators=(',', ':'), sort_keys=True)


def told(program, words):
    """The program's output, the least processor time of five runs, or of one that takes above a second, and the peak of memory in MiB."""
    best = None
    for _ in range(5):
        before = processor_seconds()
        out = subprocess.run([program] + words, capture_output=True).stdout
        took = processor_seconds() - before
        best = took if best is None else min(best, took)
        if best > 1:
            break
    return out, best, peak_of(program, words)


def peak_of(program, words):
    """The peak of memory of a run, in MiB."""
    told = subprocess.run([sys.executable, '-c', PEAK, program] + words, stdout=subprocess.DEVNULL, stderr=subprocess.PIPE).stderr
    return int(told.split()[-1]) / 1024


def main():
    program = sys.argv[1] if len(sys.argv) > 1 else str(TOP / '.built' / 'jterm')
    if not pathlib.Path(program).is_file():
        sys.exit(__doc__.strip())
    shapes = [
        ('ints 1', straight(255, 1000, 1)),
        ('ints 2', straight(255, 1000, 2)),
        ('nodes', straight(20, 19999, 2)),
        ('ids', straight(255, 1000, 2, 245)),
        ('paths', switches(3, 0)),
        ('rows', switches(20, 58)),
    ]
    print('%-10s %10s %10s %10s %10s  %s' % ('shape', 'bytes', 'ms', 'MiB', 'JSON MiB', 'answer'))
    with tempfile.TemporaryDirectory() as place:
        place = pathlib.Path(place)
        for name, (bytes_, desc, cert) in shapes:
            (place / 'A.class').write_bytes(bytes_)
            (place / 'desc.json').write_text(json.dumps(desc, separators=(',', ':')))
            text = written(cert)
            (place / 'cert.json').write_text(text)
            (place / 'read.json').write_text(written(dict(cert, form=3)))
            files = [str(place / 'desc.json'), str(place / 'A.class')]
            out, took, peak = told(program, ['check', str(place / 'cert.json')] + files)
            read = peak_of(program, ['check', str(place / 'read.json')] + files)
            print('%-10s %10d %10.0f %10.1f %10.1f  %s' % (name, len(text), 1000 * took, peak, read, out.decode().strip()[:60]))


if __name__ == '__main__':
    main()
