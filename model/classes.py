"""Class files, worlds of classes, and programs, read a second time.

Reads again: crates/code_forms/specs, crates/code_decode/specs, crates/class_world/specs (World, Types, Fields, Resolve, Select),
crates/class_program/specs (Ops, Runs, Reached, Statics). JVM specification, SE 8, chapter 4 and section 5.4.3.

Only input that breaks no rule of reading is understood. Of the refusals of linking and closing those are known that tell of a
name that stands twice, of a class or member that isn't there, and of programs that a JVM would run otherwise. A type is a
triple of its dimensions, 'c' or 'n', and a class's number or a kind's letter. A slot is a kind's letter or a type.
"""
import struct

MIN = -2 ** 31
MAX = 2 ** 31 - 1
BUILT_INS = [('java/lang/Object', None), ('java/lang/Throwable', 0), ('java/lang/Exception', 1),
        ('java/lang/RuntimeException', 2), ('java/lang/NullPointerException', 3),
        ('java/lang/ArithmeticException', 3), ('java/lang/IndexOutOfBoundsException', 3),
        ('java/lang/ArrayIndexOutOfBoundsException', 6), ('java/lang/NegativeArraySizeException', 3),
        ('java/lang/ClassCastException', 3), ('java/lang/ArrayStoreException', 3), ('java/lang/Error', 1),
        ('java/lang/LinkageError', 11), ('java/lang/IncompatibleClassChangeError', 12),
        ('java/lang/AbstractMethodError', 13)]
NULL_POINTER, ARITHMETIC, INDEX_OUT_OF_BOUNDS, NEGATIVE_SIZE = 4, 5, 7, 8
CLASS_CAST, ARRAY_STORE, INCOMPATIBLE_CLASS, ABSTRACT_METHOD = 9, 10, 13, 14


class Reader:
    """Numbers of a class file, one after another."""

    def __init__(self, data):
        self.data = data
        self.at = 0

    def u1(self):
        v = self.data[self.at]
        self.at += 1
        return v

    def u2(self):
        v = struct.unpack_from('>H', self.data, self.at)[0]
        self.at += 2
        return v

    def u4(self):
        v = struct.unpack_from('>I', self.data, self.at)[0]
        self.at += 4
        return v

    def take(self, n):
        v = self.data[self.at:self.at + n]
        self.at += n
        return v


def read_class(b):
    """The content of a class file."""
    r = Reader(b)
    assert r.u4() == 3405691582
    r.u2()
    major = r.u2()
    n = r.u2()
    pool = [None] * max(n, 1)
    i = 1
    while i < n:
        t = r.u1()
        if t == 1:
            l = r.u2()
            pool[i] = (1, r.take(l))
        elif t == 3:
            pool[i] = (3, struct.unpack('>i', r.take(4))[0])
        elif t == 4:
            pool[i] = (4, r.take(4))
        elif t in (5, 6):
            pool[i] = (t, r.take(8))
            i += 1
        elif t in (7, 8, 16):
            pool[i] = (t, r.u2())
        elif t in (9, 10, 11, 12, 18):
            a = r.u2()
            pool[i] = (t, a, r.u2())
        elif t == 15:
            a = r.u1()
            pool[i] = (t, a, r.u2())
        else:
            raise Exception('tag')
        i += 1

    def utf(i):
        return pool[i][1].decode('latin1')

    def cn(i):
        return utf(pool[i][1])
    flags = r.u2()
    this = r.u2()
    sup = r.u2()
    ifs = [cn(r.u2()) for _ in range(r.u2())]

    def attrs(in_method):
        code = None
        for _ in range(r.u2()):
            nm = utf(r.u2())
            l = r.u4()
            c = r.take(l)
            if nm == 'Code' and in_method:
                q = Reader(c)
                ms = q.u2()
                ml = q.u2()
                cl = q.u4()
                code_b = q.take(cl)
                tab = [(q.u2(), q.u2(), q.u2(), q.u2()) for _ in range(q.u2())]
                code = (ms, ml, code_b, tab)
        return code
    fields = []
    for _ in range(r.u2()):
        f = r.u2()
        nm = utf(r.u2())
        d = utf(r.u2())
        attrs(False)
        fields.append((f, nm, d))
    methods = []
    for _ in range(r.u2()):
        f = r.u2()
        nm = utf(r.u2())
        d = utf(r.u2())
        c = attrs(True)
        methods.append(dict(flags=f, name=nm, desc=d, code=c))
    return dict(flags=flags, name=cn(this), super=cn(sup), interfaces=ifs, fields=fields, methods=methods, pool=pool,
            text=utf, class_name=cn, major=major)


def decode(code):
    """The instructions of a code: place, opcode, operands; what stands after `wide` has its own opcode."""
    out = []
    i = 0
    n = len(code)

    def s1(k):
        return struct.unpack_from('>b', code, k)[0]

    def s2(k):
        return struct.unpack_from('>h', code, k)[0]

    def u2(k):
        return struct.unpack_from('>H', code, k)[0]

    def s4(k):
        return struct.unpack_from('>i', code, k)[0]
    while i < n:
        o = code[i]
        pc = i
        a = ()
        if o == 16:
            a = (s1(i + 1),)
            i += 2
        elif o == 17:
            a = (s2(i + 1),)
            i += 3
        elif o == 18:
            a = (code[i + 1],)
            i += 2
        elif o == 19:
            a = (u2(i + 1),)
            i += 3
        elif o in (21, 25, 54, 58, 188):
            a = (code[i + 1],)
            i += 2
        elif o == 132:
            a = (code[i + 1], s1(i + 2))
            i += 3
        elif 153 <= o <= 167 or o in (198, 199):
            a = (pc + s2(i + 1),)
            i += 3
        elif o == 200:
            a = (pc + s4(i + 1),)
            i += 5
        elif o in (178, 179, 180, 181, 182, 183, 184, 187, 189, 192, 193):
            a = (u2(i + 1),)
            i += 3
        elif o == 185:
            a = (u2(i + 1), code[i + 3])
            i += 5
        elif o == 170:
            k = i + 4 & ~3
            d = s4(k)
            lo = s4(k + 4)
            hi = s4(k + 8)
            a = (pc + d, lo, [pc + s4(k + 12 + 4 * j) for j in range(hi - lo + 1)])
            i = k + 12 + 4 * (hi - lo + 1)
        elif o == 171:
            k = i + 4 & ~3
            d = s4(k)
            c = s4(k + 4)
            a = (pc + d, [(s4(k + 8 + 8 * j), pc + s4(k + 12 + 8 * j)) for j in range(c)])
            i = k + 8 + 8 * c
        elif o == 196:
            o2 = code[i + 1]
            if o2 == 132:
                a = (u2(i + 2), s2(i + 4))
                o = 132
                i += 6
            else:
                a = (u2(i + 2),)
                o = o2
                i += 4
        else:
            i += 1
        out.append((pc, o, a))
    return out


CODE_OF_KIND = {'Z': 4, 'C': 5, 'B': 8, 'S': 9, 'I': 10}
KIND_OF_CODE = {4: 'Z', 5: 'C', 8: 'B', 9: 'S', 10: 'I'}
RANGES = {'Z': (0, 1), 'C': (0, 65535), 'B': (-128, 127), 'S': (-32768, 32767), 'I': (MIN, MAX)}
OBJECT = (0, 'c', 0)
THROWABLE = 1
PRIVATE, STATIC, ACCESS = 2, 8, 7

# interfaces that arrays implement in a JVM: no class has these names
OF_ARRAYS = ('java/lang/Cloneable', 'java/io/Serializable')

# what Object and Throwable declare in a JVM (SE 8), beside constructors and what is static or private
OF_OBJECT = {('getClass', '()Ljava/lang/Class;'), ('hashCode', '()I'), ('equals', '(Ljava/lang/Object;)Z'),
        ('clone', '()Ljava/lang/Object;'), ('toString', '()Ljava/lang/String;'), ('notify', '()V'), ('notifyAll', '()V'),
        ('wait', '(J)V'), ('wait', '(JI)V'), ('wait', '()V'), ('finalize', '()V')}
OF_THROWABLE = {('getMessage', '()Ljava/lang/String;'), ('getLocalizedMessage', '()Ljava/lang/String;'),
        ('getCause', '()Ljava/lang/Throwable;'), ('initCause', '(Ljava/lang/Throwable;)Ljava/lang/Throwable;'),
        ('toString', '()Ljava/lang/String;'), ('printStackTrace', '()V'),
        ('printStackTrace', '(Ljava/io/PrintStream;)V'), ('printStackTrace', '(Ljava/io/PrintWriter;)V'),
        ('fillInStackTrace', '()Ljava/lang/Throwable;'), ('getStackTrace', '()[Ljava/lang/StackTraceElement;'),
        ('setStackTrace', '([Ljava/lang/StackTraceElement;)V'), ('addSuppressed', '(Ljava/lang/Throwable;)V'),
        ('getSuppressed', '()[Ljava/lang/Throwable;')}

# the codes of `return this;` and of `return;`
RETURN_THIS, RETURN = bytes([42, 176]), bytes([177])


class Missing(Exception):
    """A class that is not there."""


class Unsupported(Exception):
    """A type of long, float or double."""


class World:
    """The built-in classes and the given ones, by number."""

    def __init__(self, blobs):
        self.classes = []
        for nm, s in BUILT_INS:
            self.classes.append(dict(flags=33, name=nm, superclass=s, interfaces=[], fields=[],
                    methods=[dict(flags=1, name='<init>', desc='()V', code=(0, 1, bytes([177]), []))], pool=[None],
                    class_name=None, text=None))
        self.numbers = {c['name']: i for i, c in enumerate(self.classes)}
        for g in [read_class(b) for b in blobs]:
            if g['name'] in OF_ARRAYS or g['name'] in self.numbers:
                raise Refused('link: DuplicateClass name=' + g['name'])
            self.numbers[g['name']] = len(self.classes)
            self.classes.append(g)
        for c in self.classes[15:]:
            interfaces = [x for x in c['interfaces'] if x not in OF_ARRAYS]
            for x in [c['super']] + interfaces:
                if x not in self.numbers:
                    raise Refused('link: MissingClass name=' + x)
            c['superclass'] = self.numbers[c['super']]
            c['superinterfaces'] = [self.numbers[x] for x in interfaces]
        for c in self.classes[:15]:
            c['superinterfaces'] = []
        self.above = [None] * len(self.classes)
        for i in range(len(self.classes)):
            self._above(i)

    def _above(self, i):
        if self.above[i] is None:
            s = {i}
            c = self.classes[i]
            for j in ([] if c['superclass'] is None else [c['superclass']]) + c['superinterfaces']:
                s |= self._above(j)
            self.above[i] = s
        return self.above[i]

    def is_interface(self, i):
        return bool(self.classes[i]['flags'] & 512)

    def can_be_made(self, i):
        return not self.classes[i]['flags'] & 1536

    def line(self, i):
        out = []
        while i is not None:
            out.append(i)
            i = self.classes[i]['superclass']
        return out

    def sub(self, a, b):
        if a == b:
            return True
        if b == OBJECT:
            return True
        if a[1] == 'c' and a[0] == 0:
            return b[1] == 'c' and b[0] == 0 and (b[2] in self.above[a[2]])
        if b[0] == 0:
            return False

        def item(t):
            return None if t[1] == 'n' and t[0] == 1 else (t[0] - 1, t[1], t[2])
        ia, ib = (item(a), item(b))
        if ia is None or ib is None:
            return False
        if b[0] == 0:
            return False
        return self.sub(ia, ib)

    def erase(self, t):
        if t[1] == 'c' and self.is_interface(t[2]):
            return (t[0], 'c', 0)
        return t

    def join(self, a, b):
        """least erased type above both (erased)"""
        a = self.erase(a)
        b = self.erase(b)
        if self.sub(a, b):
            return b
        if self.sub(b, a):
            return a

        def item(t):
            return None if t[0] == 0 or (t[1] == 'n' and t[0] == 1) else (t[0] - 1, t[1], t[2])
        ia, ib = (item(a), item(b))
        if ia is not None and ib is not None:
            j = self.join(ia, ib)
            return (j[0] + 1, j[1], j[2])
        if a[0] > 0 or b[0] > 0:
            return OBJECT
        lb = set(self.line(b[2]))
        for c in self.line(a[2]):
            if c in lb:
                return (0, 'c', c)

    def slot(self, d):
        """slot of a field descriptor: kind letter or type; raises"""
        dims = 0
        while d[dims] == '[':
            dims += 1
        t = d[dims:]
        if t[0] == 'L':
            nm = t[1:-1]
            if nm not in self.numbers:
                raise Missing(nm)
            return (dims, 'c', self.numbers[nm])
        if t in 'JFD':
            raise Unsupported()
        if dims == 0:
            return t
        return (dims, 'n', t)

    def signature(self, d):
        i = 1
        ps = []
        while d[i] != ')':
            j = i
            while d[j] == '[':
                j += 1
            j = d.index(';', j) + 1 if d[j] == 'L' else j + 1
            ps.append(self.slot(d[i:j]))
            i = j
        r = d[i + 1:]
        return (ps, None if r == 'V' else self.slot(r))

    def fields_of(self, i):
        if not hasattr(self, '_fo'):
            self._fields = {}
        if i in self._fields:
            return self._fields[i]
        out = []
        for c in reversed(self.line(i)):
            for k, (f, nm, d) in enumerate(self.classes[c]['fields']):
                if f & 8:
                    continue
                try:
                    s = self.slot(d)
                except (Missing, Unsupported):
                    continue
                out.append((c, k, s))
        self._fields[i] = out
        return out

    def show(self, t):
        return '[' * t[0] + ('L' + self.classes[t[2]]['name'] + ';' if t[1] == 'c' else t[2])

    def find_method(self, c, nm, d):
        for k, m in enumerate(self.classes[c]['methods']):
            if m['name'] == nm and m['desc'] == d:
                return k
        return None

    def resolve_method(self, c, nm, d):
        for x in self.line(c):
            k = self.find_method(x, nm, d)
            if k is not None:
                return (x, k)

        def ifs(i, out):
            for j in self.classes[i]['superinterfaces']:
                out.append(j)
                ifs(j, out)
        out = []
        for x in self.line(c):
            ifs(x, out)
        for x in out:
            k = self.find_method(x, nm, d)
            if k is not None:
                return (x, k)
        return None

    def select(self, c, nm, d):
        for x in self.line(c):
            k = self.find_method(x, nm, d)
            if k is not None and (not self.classes[x]['methods'][k]['flags'] & 10):
                return (x, k)
        return None

    def method(self, ref):
        return self.classes[ref[0]]['methods'][ref[1]]

    def receivers(self, named):
        return [c for c in range(len(self.classes)) if self.can_be_made(c) and named in self.above[c]]

    def package(self, c):
        return self.classes[c]['name'].rpartition('/')[0]

    def asks_the_platform(self, named, nm, d):
        """Some receiver selects no declaration, and in a JVM its class has the method of Object or of Throwable."""
        return any(self.select(c, nm, d) is None
                and ((nm, d) in OF_OBJECT or THROWABLE in self.above[c] and (nm, d) in OF_THROWABLE)
                for c in self.receivers(named))

    def leaves_the_package(self, ref, named, nm, d):
        """The method is package-private, and some receiver selects one of another package."""
        found = [self.select(c, nm, d) for c in self.receivers(named)]
        return (not self.method(ref)['flags'] & ACCESS
                and any(x and self.package(x[0]) != self.package(ref[0]) for x in found))

    def superinterfaces(self, c):
        """In any number of steps, without those of superclasses."""
        return {x for i in self.classes[c]['superinterfaces'] for x in self.superinterfaces(i) | {i}}

    def declares_field(self, c, nm, d):
        return any((n, t) == (nm, d) for _, n, t in self.classes[c]['fields'])

    def hides_field(self, named, found, nm, d):
        """A class before the one that declares the field has a superinterface with such a field."""
        line = self.line(named)
        return any(self.declares_field(i, nm, d) for c in line[:line.index(found)] for i in self.superinterfaces(c))

    def declares_otherwise(self, c, nm, d, code):
        """A given class of the chain declares the method with another code, or without one."""
        return any(m['name'] == nm and m['desc'] == d and (m['code'] is None or m['code'][2] != code)
                for x in self.line(c) if x >= 15 for m in self.classes[x]['methods'])

    def runs_beside(self, c):
        """A JVM runs a method when such an object is made or is no longer needed."""
        return (self.declares_otherwise(c, 'finalize', '()V', RETURN)
                or THROWABLE in self.above[c]
                and self.declares_otherwise(c, 'fillInStackTrace', '()Ljava/lang/Throwable;', RETURN_THIS))


class Refused(Exception):
    """A refusal of linking or closing, in words."""


class Unresolved(Exception):
    """An operand that names nothing of the right kind, or something that a JVM runs otherwise."""


class Program:
    """The methods that an entry reaches, with their names resolved, and the static fields that they name."""

    def __init__(self, world, entry):
        self.world = world
        self.entry = entry
        self.methods = []
        refs = [entry]
        self.numbers = {entry: 0}
        i = 0
        statics = set()
        while i < len(refs):
            ref = refs[i]
            m = world.method(ref)
            c = world.classes[ref[0]]
            if m['code'] is None:
                raise Refused('link: Native')
            ms, ml, code, tab = m['code']
            ps, res = world.signature(m['desc'])
            static = bool(m['flags'] & 8)
            params = ps if static else [(0, 'c', ref[0])] + ps
            insns = []
            for pc, o, a in decode(code):
                x = self.said(ref, pc, o, a)
                insns.append((pc, x))
                for r2 in self.runs(x):
                    if r2 not in self.numbers:
                        self.numbers[r2] = len(refs)
                        refs.append(r2)
                if x[0] in ('getstatic', 'putstatic'):
                    statics.add(x[1])
            table = [(s, e, h, None if t == 0 else world.numbers[c['class_name'](t)]) for s, e, h, t in tab]
            nxt = {}
            for k, (pc, x) in enumerate(insns):
                nxt[pc] = insns[k + 1][0] if k + 1 < len(insns) else None
            self.methods.append(dict(ref=ref, of_class=ref[0], name=m['name'], desc=m['desc'], params=params,
                    result=res, max_stack=ms, max_locals=ml, insns=dict(insns), order=[pc for pc, _ in insns],
                    next=nxt, table=table, static=static))
            i += 1
        self.statics = sorted(statics)
        self.static_slots = [world.slot(world.classes[c]['fields'][k][2]) for c, k in self.statics]

    def runs(self, x):
        world = self.world
        if x[0] in ('invokestatic', 'invokespecial'):
            r = x[1]['ref']
            return [] if world.method(r)['flags'] & 1024 else [r]
        if x[0] in ('invokevirtual', 'invokeinterface'):
            out = []
            for c in world.receivers(x[1]['of_class']):
                s = world.select(c, x[1]['name'], x[1]['desc'])
                if s and (not world.method(s)['flags'] & 1024):
                    out.append(s)
            return out
        return []

    def type_operand(self, c, k):
        world = self.world
        nm = c['class_name'](k)
        if nm.startswith('['):
            return world.slot(nm)
        if nm not in world.numbers:
            raise Missing(nm)
        return (0, 'c', world.numbers[nm])

    def said(self, ref, pc, o, a):
        """What an instruction is, or its refusal in words."""
        c = self.world.classes[ref[0]]
        try:
            return self.resolve(ref[0], c, o, a)
        except Missing as missing:
            raise Refused('link: MissingClass name=%s' % missing)
        except Unresolved:
            m = self.world.method(ref)
            raise Refused('link: Unresolved method=%s.%s%s pc=%d' % (c['name'], m['name'], m['desc'], pc))

    def resolve(self, cur, c, o, a):
        world = self.world
        if o == 0:
            return ('nop',)
        if o == 1:
            return ('aconst_null',)
        if 2 <= o <= 8:
            return ('const', o - 3)
        if o in (16, 17):
            return ('const', a[0])
        if o in (18, 19):
            e = c['pool'][a[0]]
            if e[0] != 3:
                raise Unresolved()
            return ('const', e[1])
        if o == 21:
            return ('iload', a[0])
        if o == 25:
            return ('aload', a[0])
        if 26 <= o <= 29:
            return ('iload', o - 26)
        if 42 <= o <= 45:
            return ('aload', o - 42)
        if o == 54:
            return ('istore', a[0])
        if o == 58:
            return ('astore', a[0])
        if 59 <= o <= 62:
            return ('istore', o - 59)
        if 75 <= o <= 78:
            return ('astore', o - 75)
        if o == 132:
            return ('iinc', a[0], a[1])
        if 87 <= o <= 95:
            return ('shuffle', ['pop', 'pop2', 'dup', 'dup_x1', 'dup_x2', 'dup2', 'dup2_x1', 'dup2_x2',
                    'swap'][o - 87])
        ops = {96: 'iadd', 100: 'isub', 104: 'imul', 108: 'idiv', 112: 'irem', 120: 'ishl', 122: 'ishr',
                124: 'iushr', 126: 'iand', 128: 'ior', 130: 'ixor'}
        if o in ops:
            return ('arith', ops[o])
        if o == 116:
            return ('ineg',)
        if o in (145, 146, 147):
            return ('narrow', {145: 'B', 146: 'C', 147: 'S'}[o])
        condition_holds = ['eq', 'ne', 'lt', 'ge', 'gt', 'le']
        if 153 <= o <= 158:
            return ('if', condition_holds[o - 153], a[0])
        if 159 <= o <= 164:
            return ('if_icmp', condition_holds[o - 159], a[0])
        if o in (165, 166):
            return ('if_acmp', o == 165, a[0])
        if o in (198, 199):
            return ('ifnull', o == 198, a[0])
        if o in (167, 200):
            return ('goto', a[0])
        if o == 170:
            return ('tableswitch',) + a
        if o == 171:
            return ('lookupswitch',) + a
        if o == 172:
            return ('ireturn',)
        if o == 176:
            return ('areturn',)
        if o == 177:
            return ('return',)
        if o == 188:
            return ('newarray', KIND_OF_CODE[a[0]])
        if o == 189:
            return ('anewarray', self.type_operand(c, a[0]))
        if o == 190:
            return ('arraylength',)
        if o in (46, 51, 52, 53):
            return ('nload', {46: 'I', 51: 'ZB', 52: 'C', 53: 'S'}[o])
        if o == 50:
            return ('aaload',)
        if o in (79, 84, 85, 86):
            return ('nstore', {79: 'I', 84: 'ZB', 85: 'C', 86: 'S'}[o])
        if o == 83:
            return ('aastore',)
        if o == 191:
            return ('athrow',)
        if o == 192:
            return ('checkcast', self.type_operand(c, a[0]))
        if o == 193:
            return ('instanceof', self.type_operand(c, a[0]))
        if o == 187:
            t = self.type_operand(c, a[0])
            if t[0] or not world.can_be_made(t[2]) or world.runs_beside(t[2]):
                raise Unresolved()
            return ('new', t[2])
        if o in (178, 179, 180, 181):
            e = c['pool'][a[0]]
            nt = c['pool'][e[2]]
            cls = self.type_operand(c, e[1])[2]
            nm = c['text'](nt[1])
            d = c['text'](nt[2])
            for x in world.line(cls):
                for k, (f, n2, d2) in enumerate(world.classes[x]['fields']):
                    if n2 == nm and d2 == d:
                        s = world.slot(d)
                        if world.hides_field(cls, x, nm, d):
                            raise Unresolved()
                        if o >= 180:
                            if f & 8:
                                raise Unresolved()
                            pl = [i for i, (c2, k2, _) in enumerate(world.fields_of(x)) if (c2, k2) == (x, k)][0]
                            return ('getfield' if o == 180 else 'putfield', cls, pl, s)
                        if not f & 8:
                            raise Unresolved()
                        return ('getstatic' if o == 178 else 'putstatic', (x, k), s)
            raise Unresolved()
        if 182 <= o <= 185:
            e = c['pool'][a[0]]
            nt = c['pool'][e[2]]
            cls = self.type_operand(c, e[1])[2]
            nm = c['text'](nt[1])
            d = c['text'](nt[2])
            ps, res = world.signature(d)
            if o == 183:
                if nm == '<init>':
                    k = world.find_method(cls, nm, d)
                    ref = None if k is None else (cls, k)
                else:
                    sup = world.classes[cur]['superclass']
                    start = cls
                    if sup is not None and cls in world.line(sup):
                        start = sup
                    ref = world.resolve_method(start, nm, d)
            else:
                ref = world.resolve_method(cls, nm, d)
            if ref is None or o in (182, 185) and self.differs(o, cls, ref, nm, d):
                raise Unresolved()
            return ({182: 'invokevirtual', 183: 'invokespecial', 184: 'invokestatic', 185: 'invokeinterface'}[o],
                    dict(of_class=cls, name=nm, desc=d, ref=ref, params=ps, result=res))
        raise Refused('op %d' % o)


    def differs(self, o, named, ref, nm, d):
        """A virtual or interface call that a JVM may answer by another method."""
        world = self.world
        if world.method(ref)['flags'] & (STATIC | PRIVATE):
            return False
        return world.asks_the_platform(named, nm, d) or o == 182 and world.leaves_the_package(ref, named, nm, d)


def program_of(fields):
    """The program of an entry and class files: class, name, descriptor, files in hexadecimal digits."""
    world = World([bytes.fromhex(x) for x in fields[3:]])
    c = world.numbers[fields[0]]
    k = world.find_method(c, fields[1], fields[2])
    return Program(world, (c, k))
