"""The least typing of a method.

Reads again: crates/code_verify/specs (Operands, Rows, Flows, Typings). JVM specification, SE 8, section 4.10.

The type of a place is '-' (unset), 'I', 'null' or a reference type. Stacks are lists from the bottom up.
"""
from classes import World, Program
from shuffles import shuffled


class NoTyping(Exception):
    """The method has no typing."""


def join_place(world, a, b, stack):
    """The least type as wide as two."""
    if a == b:
        return a
    if a == 'I' or b == 'I' or a == '-' or (b == '-'):
        if stack:
            raise NoTyping('join')
        return '-'
    if a == 'null':
        return b
    if b == 'null':
        return a
    return world.join(a, b)


def erased_slot(world, s):
    """What a slot holds, as a place."""
    return 'I' if isinstance(s, str) else world.erase(s)


def below(world, t, s):
    """A place is null or a type below another one."""
    if t == 'null':
        return True
    if t in ('I', '-'):
        return False
    return world.sub(t, s)


def is_ref(t):
    """A place holds references."""
    return t not in ('I', '-')


def types_after(program, method, pc, op, locals_, stack):
    """The places that an instruction leads to, with the types that come there."""
    world = program.world
    locals_ = list(locals_)
    stack = list(stack)

    def need(c):
        if not c:
            raise NoTyping()

    def pop():
        need(stack)
        return stack.pop()

    def popi():
        need(pop() == 'I')

    def popr():
        t = pop()
        need(is_ref(t))
        return t

    def popb(s):
        t = pop()
        need(below(world, t, s))

    def pops(slot):
        if isinstance(slot, str):
            popi()
        else:
            popb(world.erase(slot))

    def nxt():
        return [(method['next'][pc], locals_, stack)]

    def local(n):
        need(n < method['max_locals'])
        return locals_[n]
    o = op[0]
    if o == 'nop':
        return nxt()
    if o == 'aconst_null':
        stack.append('null')
        return nxt()
    if o == 'const':
        stack.append('I')
        return nxt()
    if o == 'iload':
        need(local(op[1]) == 'I')
        stack.append('I')
        return nxt()
    if o == 'aload':
        need(is_ref(local(op[1])))
        stack.append(locals_[op[1]])
        return nxt()
    if o == 'istore':
        popi()
        local(op[1])
        locals_[op[1]] = 'I'
        return nxt()
    if o == 'astore':
        t = popr()
        local(op[1])
        locals_[op[1]] = t
        return nxt()
    if o == 'iinc':
        need(local(op[1]) == 'I')
        return nxt()
    if o == 'shuffle':
        stack += shuffled(op[1], pop)
        return nxt()
    if o == 'arith':
        popi()
        popi()
        stack.append('I')
        return nxt()
    if o in ('ineg', 'narrow'):
        popi()
        stack.append('I')
        return nxt()
    if o == 'if':
        popi()
        return [(op[2], locals_, stack)] + nxt()
    if o == 'if_icmp':
        popi()
        popi()
        return [(op[2], locals_, stack)] + nxt()
    if o == 'if_acmp':
        popr()
        popr()
        return [(op[2], locals_, stack)] + nxt()
    if o == 'ifnull':
        popr()
        return [(op[2], locals_, stack)] + nxt()
    if o == 'goto':
        return [(op[1], locals_, stack)]
    if o == 'tableswitch':
        popi()
        return [(t, locals_, stack) for t in [op[1]] + op[3]]
    if o == 'lookupswitch':
        popi()
        return [(t, locals_, stack) for t in [op[1]] + [y for _, y in op[2]]]
    if o == 'ireturn':
        popi()
        need(isinstance(method['result'], str))
        return []
    if o == 'areturn':
        t = popr()
        need(method['result'] is not None and (not isinstance(method['result'], str)))
        need(below(world, t, world.erase(method['result'])))
        return []
    if o == 'return':
        need(method['result'] is None)
        return []
    if o == 'getstatic':
        stack.append(erased_slot(world, op[2]))
        return nxt()
    if o == 'putstatic':
        pops(op[2])
        return nxt()
    if o == 'getfield':
        popb(world.erase((0, 'c', op[1])))
        stack.append(erased_slot(world, op[3]))
        return nxt()
    if o == 'putfield':
        pops(op[3])
        popb(world.erase((0, 'c', op[1])))
        return nxt()
    if o == 'new':
        stack.append((0, 'c', op[1]))
        return nxt()
    if o == 'newarray':
        popi()
        stack.append((1, 'n', op[1]))
        return nxt()
    if o == 'anewarray':
        popi()
        t = world.erase(op[1])
        stack.append((t[0] + 1, t[1], t[2]))
        return nxt()
    if o == 'arraylength':
        t = popr()
        need(t == 'null' or t[0] > 0)
        stack.append('I')
        return nxt()
    if o == 'nload':
        popi()
        t = popr()
        need(t == 'null' or (t[0] == 1 and t[1] == 'n' and (t[2] in op[1])))
        stack.append('I')
        return nxt()
    if o == 'nstore':
        popi()
        popi()
        t = popr()
        need(t == 'null' or (t[0] == 1 and t[1] == 'n' and (t[2] in op[1])))
        return nxt()

    def refs_array(t):
        return t == 'null' or (t[0] >= 1 and t[1] == 'c') or t[0] >= 2
    if o == 'aaload':
        popi()
        t = popr()
        need(refs_array(t))
        stack.append('null' if t == 'null' else (t[0] - 1, t[1], t[2]))
        return nxt()
    if o == 'aastore':
        popr()
        popi()
        t = popr()
        need(refs_array(t))
        return nxt()
    if o == 'athrow':
        popb((0, 'c', 1))
        return []
    if o == 'checkcast':
        popr()
        stack.append(world.erase(op[1]))
        return nxt()
    if o == 'instanceof':
        popr()
        stack.append('I')
        return nxt()
    if o.startswith('invoke'):
        call = op[1]
        for s in reversed(call['params']):
            pops(s)
        if o == 'invokespecial':
            t = popr()
            need(below(world, t, world.erase((0, 'c', call['of_class']))))
            if call['name'] != '<init>':
                need(below(world, t, world.erase((0, 'c', method['of_class']))))
        elif o == 'invokevirtual':
            popb(world.erase((0, 'c', call['of_class'])))
        elif o == 'invokeinterface':
            popr()
        if call['result'] is not None:
            stack.append(erased_slot(world, call['result']))
        return nxt()
    raise Exception(o)


def type_method(program, method):
    """The least typing of a method, by place."""
    world = program.world
    for s, e, h, c in method['table']:
        if c is not None and 1 not in world.above[c]:
            raise NoTyping('catch')
    if len(method['params']) > method['max_locals']:
        raise NoTyping('params')
    types = {}
    locals_ = [erased_slot(world, s) for s in method['params']] + ['-'] * (method['max_locals'] -
            len(method['params']))
    todo = []

    def put(pc, locals_, stack):
        if pc is None:
            raise NoTyping('end')
        if len(stack) > method['max_stack']:
            raise NoTyping('stack')
        if pc not in types:
            types[pc] = (list(locals_), list(stack))
            todo.append(pc)
            return
        old_locals, old_stack = types[pc]
        if len(old_stack) != len(stack):
            raise NoTyping('depth')
        n = ([join_place(world, a, b, False) for a, b in zip(old_locals, locals_)],
                [join_place(world, a, b, True) for a, b in zip(old_stack, stack)])
        if n != (old_locals, old_stack):
            types[pc] = n
            todo.append(pc)
    put(0, locals_, [])
    while todo:
        pc = todo.pop()
        locals_, stack = types[pc]
        for s, e, h, c in method['table']:
            if s <= pc < e:
                put(h, locals_, [(0, 'c', 1 if c is None else c)])
        for t, locals_after, stack_after in types_after(program, method, pc, method['insns'][pc], locals_, stack):
            put(t, locals_after, stack_after)
    return types


def least_typings(program):
    """The least typing of each method, or the first method that has none."""
    out = []
    for i, method in enumerate(program.methods):
        try:
            out.append(type_method(program, method))
        except NoTyping:
            return ('NoTyping', i)
    return out


def place_word(world, t):
    """A place in words."""
    return t if isinstance(t, str) else world.show(t)


def method_word(program, i):
    """A method in words."""
    method = program.methods[i]
    return '%s.%s%s' % (program.world.classes[method['of_class']]['name'], method['name'], method['desc'])
