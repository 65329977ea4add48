"""What a class file says for people: instructions in words, lines of source, names of variables.

Nothing is claimed of it: the program that is proved looks at none of this but the instructions.
"""
import struct

NAMES = (
    'nop aconst_null iconst_m1 iconst_0 iconst_1 iconst_2 iconst_3 iconst_4 iconst_5 lconst_0 lconst_1 fconst_0 fconst_1 fconst_2 '
    'dconst_0 dconst_1 bipush sipush ldc ldc_w ldc2_w iload lload fload dload aload iload_0 iload_1 iload_2 iload_3 lload_0 lload_1 '
    'lload_2 lload_3 fload_0 fload_1 fload_2 fload_3 dload_0 dload_1 dload_2 dload_3 aload_0 aload_1 aload_2 aload_3 iaload laload '
    'faload daload aaload baload caload saload istore lstore fstore dstore astore istore_0 istore_1 istore_2 istore_3 lstore_0 lstore_1 '
    'lstore_2 lstore_3 fstore_0 fstore_1 fstore_2 fstore_3 dstore_0 dstore_1 dstore_2 dstore_3 astore_0 astore_1 astore_2 astore_3 '
    'iastore lastore fastore dastore aastore bastore castore sastore pop pop2 dup dup_x1 dup_x2 dup2 dup2_x1 dup2_x2 swap iadd ladd '
    'fadd dadd isub lsub fsub dsub imul lmul fmul dmul idiv ldiv fdiv ddiv irem lrem frem drem ineg lneg fneg dneg ishl lshl ishr lshr '
    'iushr lushr iand land ior lor ixor lxor iinc i2l i2f i2d l2i l2f l2d f2i f2l f2d d2i d2l d2f i2b i2c i2s lcmp fcmpl fcmpg dcmpl '
    'dcmpg ifeq ifne iflt ifge ifgt ifle if_icmpeq if_icmpne if_icmplt if_icmpge if_icmpgt if_icmple if_acmpeq if_acmpne goto jsr ret '
    'tableswitch lookupswitch ireturn lreturn freturn dreturn areturn return getstatic putstatic getfield putfield invokevirtual '
    'invokespecial invokestatic invokeinterface invokedynamic new newarray anewarray arraylength athrow checkcast instanceof '
    'monitorenter monitorexit wide multianewarray ifnull ifnonnull goto_w jsr_w').split()
WIDTHS = {3: 4, 4: 4, 5: 8, 6: 8, 7: 2, 8: 2, 9: 4, 10: 4, 11: 4, 12: 4, 15: 3, 16: 2, 18: 4}
KINDS = {4: 'boolean', 5: 'char', 6: 'float', 7: 'double', 8: 'byte', 9: 'short', 10: 'int', 11: 'long'}


class ClassWords:
    """A class file's name, its source's name, and of its methods, by name and descriptor, the codes."""

    def __init__(self, data):
        self.data, self.at, self.pool = data, 8, {}
        number, count = 1, self.number(2)
        while number < count:
            number += self.entry(number)
        self.number(2)
        self.name = self.text(self.pool[self.number(2)][1])
        self.number(2)
        for _ in range(self.number(2)):
            self.number(2)
        self.source, self.fields, self.methods = None, [], {}
        for _ in range(self.number(2)):
            self.fields.append(self.member()[0])
        for _ in range(self.number(2)):
            name, descriptor, attributes = self.member()
            self.methods[name, descriptor] = next((Code(self, *span) for word, *span in attributes if word == 'Code'), None)
        for word, start, _ in self.attributes():
            if word == 'SourceFile':
                self.source = self.text(struct.unpack_from('>H', data, start)[0])

    def number(self, size):
        self.at += size
        return int.from_bytes(self.data[self.at - size:self.at], 'big')

    def entry(self, number):
        """Reads one entry of the pool, and says how many numbers it takes."""
        tag = self.number(1)
        if tag == 1:
            length = self.number(2)
            self.pool[number] = (1, self.data[self.at:self.at + length].decode('utf-8', 'replace'))
            self.at += length
            return 1
        start, self.at = self.at, self.at + WIDTHS[tag]
        parts = struct.unpack_from('>i' if tag == 3 else '>HH' if WIDTHS[tag] == 4 else '>H', self.data, start)
        self.pool[number] = (tag, *parts)
        return 2 if tag in (5, 6) else 1

    def text(self, number):
        return self.pool[number][1]

    def member(self):
        _, name, descriptor = self.number(2), self.number(2), self.number(2)
        return self.text(name), self.text(descriptor), list(self.attributes())

    def attributes(self):
        """Of each attribute the name, where it starts, and where it ends."""
        found = []
        for _ in range(self.number(2)):
            name, length = self.text(self.number(2)), self.number(4)
            found.append((name, self.at, self.at + length))
            self.at += length
        return found

    def named(self, number):
        """A pool entry in words."""
        tag, *parts = self.pool[number]
        if tag in (7, 8):
            return self.text(parts[0])
        if tag in (9, 10, 11):
            return '%s.%s' % (self.named(parts[0]), self.text(self.pool[parts[1]][1]))
        return str(parts[0])


class Code:
    """A method's code: its instructions in words by place, the lines of its source, the names of its variables."""

    def __init__(self, file, start, end):
        self.file, data = file, file.data
        length = struct.unpack_from('>I', data, start + 4)[0]
        self.code, at = data[start + 8:start + 8 + length], start + 8 + length
        self.lines, self.variables = [], []
        at += 2 + 8 * struct.unpack_from('>H', data, at)[0]
        file_at, file.at = file.at, at
        for name, first, _ in file.attributes():
            count = struct.unpack_from('>H', data, first)[0]
            if name == 'LineNumberTable':
                self.lines += [struct.unpack_from('>HH', data, first + 2 + 4 * n) for n in range(count)]
            if name == 'LocalVariableTable':
                self.variables += [struct.unpack_from('>HHHHH', data, first + 2 + 10 * n) for n in range(count)]
        file.at = file_at

    def line(self, pc):
        """The line of the source for a place, or None."""
        return max((entry for entry in self.lines if entry[0] <= pc), default=(0, None))[1]

    def variable(self, pc, slot, is_store=False):
        """The name of a local at a place, or None. A store names it from the next instruction on."""
        return next((self.file.text(name) for start, length, name, _, at in self.variables
                     if at == slot and start - 4 * is_store <= pc < start + length), None)

    def words(self, pc):
        """The instruction at a place."""
        code, is_wide = self.code, self.code[pc] == 196
        at = pc + is_wide
        name, size = NAMES[code[at]], 2 if is_wide else 1

        def signed(start, length):
            return int.from_bytes(code[start:start + length], 'big', signed=True)
        index = int.from_bytes(code[at + 1:at + 1 + size], 'big')
        if name == 'iinc':
            return 'iinc %s by %d' % (self.variable(pc, index) or index, signed(at + 1 + size, size))
        if name in ('bipush', 'sipush'):
            return '%s %d' % (name, signed(at + 1, 1 if name == 'bipush' else 2))
        if name in ('ldc', 'ldc_w'):
            return '%s %s' % (name, self.file.named(int.from_bytes(code[at + 1:at + (2 if name == 'ldc' else 3)], 'big')))
        if name == 'newarray':
            return 'newarray ' + KINDS.get(index, str(index))
        if name.startswith('if') or name in ('goto', 'goto_w'):
            return '%s %d' % (name, pc + signed(at + 1, 4 if name == 'goto_w' else 2))
        if 178 <= code[at] <= 185 or name in ('new', 'anewarray', 'checkcast', 'instanceof'):
            return '%s %s' % (name, self.file.named(int.from_bytes(code[at + 1:at + 3], 'big')))
        if name.rstrip('_0123') in ('iload', 'aload', 'istore', 'astore'):
            slot = int(name[-1]) if name[-1].isdigit() else index
            return '%s %s' % (name.rstrip('_0123'), self.variable(pc, slot, 'store' in name) or slot)
        return name
