"""The machine: one step from a state to the next, and which states are typed.

Reads again: crates/jvm_step/specs (Operands, Effects, Table, Running), crates/code_verify/specs/TypedStates,
crates/jvm_values/specs (Ints, Kinds, TypedHeaps). JVM specification, SE 8, sections 2.10, 2.11 and 6.5.

A value is an int, None for null, or ('r', number). An object is ('o', class, fields), ('n', kind, items) or
('a', element type, items). Frames stand from the bottom up, as stacks do; an unset local is '-'.
"""
from classes import *
from least_typing import *
from shuffles import shuffled


class Stuck(Exception):
    """The table names no effect."""


def wrap(n):
    """A whole number as an int."""
    n &= 4294967295
    return n - (1 << 32) if n >= 1 << 31 else n


def narrowed(k, n):
    """What a kind keeps of an int."""
    if k == 'Z':
        return n & 1
    if k == 'C':
        return n & 65535
    if k == 'B':
        n &= 255
        return n - 256 if n > 127 else n
    if k == 'S':
        n &= 65535
        return n - 65536 if n > 32767 else n
    return n


def arith(op, a, b):
    """An operator over two ints; None where it divides by 0."""
    if op == 'iadd':
        return wrap(a + b)
    if op == 'isub':
        return wrap(a - b)
    if op == 'imul':
        return wrap(a * b)
    if op in ('idiv', 'irem'):
        if b == 0:
            return None
        q = abs(a) // abs(b)
        q = -q if (a < 0) != (b < 0) else q
        return wrap(q) if op == 'idiv' else a - q * b
    state = b & 31
    if op == 'ishl':
        return wrap(a << state)
    if op == 'ishr':
        return a >> state
    if op == 'iushr':
        return wrap((a & 4294967295) >> state)
    if op == 'iand':
        return wrap(a & b)
    if op == 'ior':
        return wrap(a | b)
    if op == 'ixor':
        return wrap(a ^ b)


def condition_holds(c, a, b):
    """A condition between two ints."""
    return {'eq': a == b, 'ne': a != b, 'lt': a < b, 'ge': a >= b, 'gt': a > b, 'le': a <= b}[c]


class MachineState:
    """Frames, heap, mode (the number of the thrown object, or None) and static fields."""


def is_reference_value(v):
    return v is None or isinstance(v, tuple)


def type_of_object(o):
    """The exact type of an object."""
    if o[0] == 'o':
        return (0, 'c', o[1])
    if o[0] == 'n':
        return (1, 'n', o[1])
    return (o[1][0] + 1, o[1][1], o[1][2])


def default(slot):
    return 0 if isinstance(slot, str) else None


def new_instance(world, c):
    """A new object, its fields 0 or null."""
    return ('o', c, [default(slot) for _, _, slot in world.fields_of(c)])


def step(program, state):
    """One step: None where the run goes on, else how it ended."""
    world = program.world
    frame = state.frames[-1]
    method = program.methods[frame['method']]
    heap = state.heap

    def obj(v):
        if v[1] >= len(heap):
            raise Stuck('heap')
        return heap[v[1]]
    if state.mode is not None:
        o = obj(('r', state.mode))
        for a, b, h, c in method['table']:
            if a <= frame['pc'] < b and (c is None or world.sub(type_of_object(o), (0, 'c', c))):
                frame['pc'] = h
                frame['stack'] = [('r', state.mode)]
                state.mode = None
                return None
        if len(state.frames) == 1:
            return ('threw', state.mode)
        state.frames.pop()
        state.frames[-1]['stack'] = []
        return None
    op = method['insns'].get(frame['pc'])
    if op is None:
        raise Stuck('pc')
    stack = list(frame['stack'])
    locals_ = list(frame['locals'])

    def need(c):
        if not c:
            raise Stuck(str(op))

    def pop():
        need(stack)
        return stack.pop()

    def popi():
        v = pop()
        need(isinstance(v, int))
        return v

    def popr():
        v = pop()
        need(is_reference_value(v))
        return v

    def oftype(v, t):
        return v is None or world.sub(type_of_object(obj(v)), world.erase(t))

    def pops(slot):
        v = pop()
        if isinstance(slot, str):
            need(isinstance(v, int))
        else:
            need(is_reference_value(v) and oftype(v, slot))
        return v

    def raise_(c):
        heap.append(new_instance(world, c))
        state.mode = len(heap) - 1
        frame['stack'] = []

    def next_(pc=None):
        if pc is None:
            pc = method['next'][frame['pc']]
            need(pc is not None)
        frame['pc'] = pc
        frame['stack'] = stack
        frame['locals'] = locals_

    def kept(slot, v):
        return narrowed(slot, v) if isinstance(slot, str) else v

    def call(num, n, callee_args):
        frame['stack'] = stack
        mm = program.methods[num]
        state.frames.append(dict(method=num, pc=0,
                locals=callee_args + ['-'] * (mm['max_locals'] - len(callee_args)), stack=[]))

    def ret(v, has):
        if len(state.frames) == 1:
            return ('returned', v, has)
        state.frames.pop()
        g = state.frames[-1]
        n = program.methods[g['method']]['next'].get(g['pc'])
        need(n is not None)
        g['pc'] = n
        if has:
            g['stack'] = g['stack'] + [v]
        return None
    o = op[0]
    if o == 'nop':
        next_()
    elif o == 'aconst_null':
        stack.append(None)
        next_()
    elif o == 'const':
        stack.append(op[1])
        next_()
    elif o == 'iload':
        need(op[1] < len(locals_) and isinstance(locals_[op[1]], int))
        stack.append(locals_[op[1]])
        next_()
    elif o == 'aload':
        need(op[1] < len(locals_) and locals_[op[1]] != '-' and is_reference_value(locals_[op[1]]))
        stack.append(locals_[op[1]])
        next_()
    elif o == 'istore':
        v = popi()
        need(op[1] < len(locals_))
        locals_[op[1]] = v
        next_()
    elif o == 'astore':
        v = popr()
        need(op[1] < len(locals_))
        locals_[op[1]] = v
        next_()
    elif o == 'iinc':
        need(op[1] < len(locals_) and isinstance(locals_[op[1]], int))
        locals_[op[1]] = wrap(locals_[op[1]] + op[2])
        next_()
    elif o == 'shuffle':
        stack += shuffled(op[1], pop)
        next_()
    elif o == 'arith':
        b = popi()
        a = popi()
        r = arith(op[1], a, b)
        if r is None:
            raise_(ARITHMETIC)
        else:
            stack.append(r)
            next_()
    elif o == 'ineg':
        stack.append(wrap(-popi()))
        next_()
    elif o == 'narrow':
        stack.append(narrowed(op[1], popi()))
        next_()
    elif o == 'if':
        next_(op[2] if condition_holds(op[1], popi(), 0) else None)
    elif o == 'if_icmp':
        b = popi()
        a = popi()
        next_(op[2] if condition_holds(op[1], a, b) else None)
    elif o == 'if_acmp':
        b = popr()
        a = popr()
        next_(op[2] if (a == b) == op[1] else None)
    elif o == 'ifnull':
        a = popr()
        next_(op[2] if (a is None) == op[1] else None)
    elif o == 'goto':
        next_(op[1])
    elif o == 'tableswitch':
        k = popi() - op[2]
        next_(op[3][k] if 0 <= k < len(op[3]) else op[1])
    elif o == 'lookupswitch':
        k = popi()
        next_(dict(op[2]).get(k, op[1]))
    elif o == 'ireturn':
        v = popi()
        need(isinstance(method['result'], str))
        return ret(v, True)
    elif o == 'areturn':
        v = popr()
        need(method['result'] is not None and (not isinstance(method['result'], str)) and oftype(v, method['result']))
        return ret(v, True)
    elif o == 'return':
        need(method['result'] is None)
        return ret(None, False)
    elif o == 'getstatic':
        stack.append(state.statics[program.statics.index(op[1])])
        next_()
    elif o == 'putstatic':
        v = pops(op[2])
        state.statics[program.statics.index(op[1])] = kept(op[2], v)
        next_()
    elif o == 'getfield':
        r = popr()
        if r is None:
            raise_(NULL_POINTER)
        else:
            need(oftype(r, (0, 'c', op[1])))
            stack.append(obj(r)[2][op[2]])
            next_()
    elif o == 'putfield':
        v = pops(op[3])
        r = popr()
        if r is None:
            raise_(NULL_POINTER)
        else:
            need(oftype(r, (0, 'c', op[1])))
            obj(r)[2][op[2]] = kept(op[3], v)
            next_()
    elif o == 'new':
        heap.append(new_instance(world, op[1]))
        stack.append(('r', len(heap) - 1))
        next_()
    elif o in ('newarray', 'anewarray'):
        n = popi()
        if n < 0:
            raise_(NEGATIVE_SIZE)
        else:
            heap.append(('n', op[1], [0] * n) if o == 'newarray' else ('a', op[1], [None] * n))
            stack.append(('r', len(heap) - 1))
            next_()
    elif o == 'arraylength':
        r = popr()
        if r is None:
            raise_(NULL_POINTER)
        else:
            need(obj(r)[0] != 'o')
            stack.append(len(obj(r)[2]))
            next_()
    elif o in ('nload', 'aaload'):
        i = popi()
        r = popr()
        if r is None:
            raise_(NULL_POINTER)
        else:
            a = obj(r)
            need(a[0] == 'a' if o == 'aaload' else a[0] == 'n' and a[1] in op[1])
            if not 0 <= i < len(a[2]):
                raise_(INDEX_OUT_OF_BOUNDS)
            else:
                stack.append(a[2][i])
                next_()
    elif o == 'nstore':
        v = popi()
        i = popi()
        r = popr()
        if r is None:
            raise_(NULL_POINTER)
        else:
            a = obj(r)
            need(a[0] == 'n' and a[1] in op[1])
            if not 0 <= i < len(a[2]):
                raise_(INDEX_OUT_OF_BOUNDS)
            else:
                a[2][i] = narrowed(a[1], v)
                next_()
    elif o == 'aastore':
        v = popr()
        i = popi()
        r = popr()
        if r is None:
            raise_(NULL_POINTER)
        else:
            a = obj(r)
            need(a[0] == 'a')
            if not 0 <= i < len(a[2]):
                raise_(INDEX_OUT_OF_BOUNDS)
            elif v is not None and (not world.sub(type_of_object(obj(v)), a[1])):
                raise_(ARRAY_STORE)
            else:
                a[2][i] = v
                next_()
    elif o == 'athrow':
        r = popr()
        if r is None:
            raise_(NULL_POINTER)
        else:
            need(world.sub(type_of_object(obj(r)), (0, 'c', 1)))
            state.mode = r[1]
            frame['stack'] = []
    elif o == 'checkcast':
        r = popr()
        if r is None or world.sub(type_of_object(obj(r)), op[1]):
            stack.append(r)
            next_()
        else:
            raise_(CLASS_CAST)
    elif o == 'instanceof':
        r = popr()
        stack.append(1 if r is not None and world.sub(type_of_object(obj(r)), op[1]) else 0)
        next_()
    elif o.startswith('invoke'):
        c = op[1]
        args = []
        for sl in reversed(c['params']):
            args.insert(0, pops(sl))
        if o == 'invokestatic':
            call(program.numbers[c['ref']], 0, args)
            return None
        r = popr()
        if r is None:
            raise_(NULL_POINTER)
            return None
        ob = obj(r)
        if o == 'invokespecial':
            need(world.sub(type_of_object(ob), world.erase((0, 'c', c['of_class']))))
            if c['name'] != '<init>':
                need(world.sub(type_of_object(ob), world.erase((0, 'c', method['of_class']))))
            if world.method(c['ref'])['flags'] & 1024:
                raise_(ABSTRACT_METHOD)
            else:
                call(program.numbers[c['ref']], 1, [r] + args)
            return None
        k = ob[1] if ob[0] == 'o' else 0
        if o == 'invokevirtual':
            need(c['of_class'] in world.above[k] and world.can_be_made(k))
        else:
            need(world.can_be_made(k))
            if c['of_class'] not in world.above[k]:
                raise_(INCOMPATIBLE_CLASS)
                return None
        t = world.select(k, c['name'], c['desc'])
        if t is None or world.method(t)['flags'] & 1024:
            raise_(ABSTRACT_METHOD)
        else:
            call(program.numbers[t], 1, [r] + args)
    else:
        raise Exception(o)
    return None


def typed_state(program, typing, state):
    """None where the state has the types of the typing, else what is wrong."""
    world = program.world
    heap = state.heap

    def has(v, t):
        return v is None or (isinstance(v, tuple) and v[1] < len(heap) and world.sub(type_of_object(heap[v[1]]), t))

    def holds(v, slot):
        if isinstance(slot, str):
            return isinstance(v, int) and RANGES[slot][0] <= v <= RANGES[slot][1]
        return is_reference_value(v) and has(v, world.erase(slot))
    for o in heap:
        if o[0] == 'o':
            fs = world.fields_of(o[1])
            if not world.can_be_made(o[1]) or len(fs) != len(o[2]) or (not
                    all((holds(v, q[2]) for v, q in zip(o[2], fs)))):
                return 'object'
        elif o[0] == 'n':
            if not all((holds(v, o[1]) for v in o[2])):
                return 'nums'
        elif o[1][0] > 254 or not all((is_reference_value(v) and has(v, o[1]) for v in o[2])):
            return 'refs'
    if len(state.statics) != len(program.statics) or not all((holds(v, q) for v,
            q in zip(state.statics, program.static_slots))):
        return 'statics'

    def place(v, t, local):
        if t == '-':
            return local
        if v == '-':
            return False
        if t == 'I':
            return isinstance(v, int)
        if not is_reference_value(v):
            return False
        if t == 'null':
            return v is None
        return has(v, t)
    if not state.frames:
        return 'no frame'
    for i, frame in enumerate(state.frames):
        method = program.methods[frame['method']]
        if len(frame['locals']) != method['max_locals']:
            return 'locals'
        if frame['pc'] not in typing[frame['method']]:
            return 'pc'
        tl, ts = typing[frame['method']][frame['pc']]
        if not all((place(v, t, True) for v, t in zip(frame['locals'], tl))):
            return 'local type'
        top = i == len(state.frames) - 1
        if top:
            if state.mode is None:
                if len(frame['stack']) != len(ts) or not all((place(v, t, False) for v,
                        t in zip(frame['stack'], ts))):
                    return 'stack'
            elif frame['stack'] or not world.sub(type_of_object(heap[state.mode]), (0, 'c', 1)):
                return 'throw'
        else:
            op = method['insns'][frame['pc']]
            if not op[0].startswith('invoke'):
                return 'not at invoke'
            c = op[1]
            n = len(c['params']) + (op[0] != 'invokestatic')
            ts = ts[:len(ts) - n]
            if len(frame['stack']) != len(ts) or not all((place(v, t, False) for v, t in zip(frame['stack'], ts))):
                return 'lower stack'
            if program.methods[state.frames[i + 1]['method']]['ref'] not in program.runs(op):
                return 'not run'
    return None
