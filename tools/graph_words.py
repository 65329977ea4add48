"""What nodes and edges of a certificate's graph say, in words.

A node is a dictionary as certificates have it: how it is left (`by`), and its `state`, where it has one.
"""
LEAST, MOST = -2**31, 2**31 - 1
SHAPES = {'tree': 'tree', 'dag': 'no cycle', 'any': 'any shape'}
KINDS = {4: 'boolean', 5: 'char', 8: 'byte', 9: 'short', 10: 'int'}


class Program:
    """The words of a program's methods, classes and fields. Without class files they are numbers."""

    def __init__(self, model=None, files=()):
        self.model = model
        self.files = {file.name: file for file in files}

    def method(self, number):
        if self.model is None:
            return 'method %d' % number
        return '%s.%s' % (self.class_name(self.model.methods[number]['of_class']), self.model.methods[number]['name'])

    def code(self, number):
        """The code of a method as its class file has it, or None."""
        if self.model is None:
            return None
        method = self.model.methods[number]
        file = self.files.get(self.model.world.classes[method['of_class']]['name'])
        return file and file.methods.get((method['name'], method['desc']))

    def locals(self, number, given):
        """How many locals a method has; what stands behind them in the bottom frame are static fields."""
        return given if self.model is None else self.model.methods[number]['max_locals']

    def static(self, place):
        of_class, field = self.model.statics[place]
        return '%s.%s' % (self.class_name(of_class), self.model.world.classes[of_class]['fields'][field][1])

    def class_name(self, number):
        return 'class %d' % number if self.model is None else short(self.model.world.classes[number]['name'])

    def fields(self, number, count):
        """The names of an object's fields."""
        if self.model is None:
            return ['field %d' % place for place in range(count)]
        classes = self.model.world.classes
        return [classes[declared]['fields'][place][1] for declared, place, _ in self.model.world.fields_of(number)]


def short(name):
    """A class's name without its package."""
    return name.rsplit('/', 1)[-1]


def type_words(word):
    """A type, as a certificate writes it, as in Java."""
    dims = len(word) - len(word.lstrip('['))
    base = word[dims:]
    if dims:
        base = short(base[1:-1]) if base[0] == 'L' else {'Z': 'boolean', 'C': 'char', 'B': 'byte', 'S': 'short', 'I': 'int'}.get(base, base)
    return short(base) + '[]' * dims


def end_words(number):
    return 'MIN' if number == LEAST else 'MAX' if number == MOST else str(number)


def interval_words(low, high):
    return end_words(low) if low == high else '%s to %s' % (end_words(low), end_words(high))


class State:
    """An abstract state, with a name for each id: the first place that leads to it."""

    def __init__(self, program, state):
        self.program, self.frames, self.thrown = program, state['frames'], state['throw']
        self.cells = {cell[0]: cell[1:] for cell in state['cells']}
        self.same = [tuple(pair) for pair in state['eq']]
        self.share = [tuple(pair) for pair in state['share'] if pair not in state['eq']]
        self.positions = list(self.named_positions())
        self.names = {}
        for name, i in self.positions:
            self.names.setdefault(i, name)
        todo = [i for _, i in self.positions]
        while todo:
            i = todo.pop(0)
            for name, part in self.parts(i):
                if part not in self.names:
                    self.names[part] = '%s.%s' % (self.names[i], name)
                    todo.append(part)

    def named_positions(self):
        """The locals, the stack, the thrown object and the static fields: names and ids, those of the running frame first."""
        for depth, (method, pc, locals_, stack) in reversed(list(enumerate(self.frames))):
            before = '' if depth == len(self.frames) - 1 else '%s: ' % self.program.method(method).rsplit('.', 1)[-1]
            code, count = self.program.code(method), self.program.locals(method, len(locals_))
            for slot, i in enumerate(locals_[:count]):
                if i != -1:
                    yield before + (code and code.variable(pc, slot) or 'local %d' % slot), i
            for place, i in enumerate(stack):
                yield before + 'stack %d' % place, i
            for place, i in enumerate(locals_[count:]):
                yield self.program.static(place), i
        if self.thrown != -1:
            yield 'thrown', self.thrown

    def parts(self, i):
        """Names and ids of what an id's cell names."""
        cell = self.cells.get(i, ['nothing'])
        if cell[0] == 'obj':
            return list(zip(self.program.fields(cell[1], len(cell[2])), cell[2]))
        return [('length', cell[2])] if cell[0] in ('nums', 'refs') else []

    def is_int(self, i):
        return self.cells.get(i, ['nothing'])[0] == 'int'

    def int_words(self, i):
        return interval_words(*self.cells[i][1:])

    def cell_lines(self, i):
        """What is known of a reference: a head, and lines on what it holds of ints."""
        cell = self.cells.get(i, ['nothing'])
        if cell[0] == 'obj':
            head = [self.program.class_name(cell[1])]
        elif cell[0] == 'nums':
            head = [KINDS[cell[1]] + '[]']
        elif cell[0] == 'refs':
            head = [type_words(cell[1]) + '[]', SHAPES[cell[3]]]
        elif cell[0] == 'unk':
            head = ['some %s%s' % (type_words(cell[1]), ' or null' if cell[2] else ''), SHAPES[cell[3]]]
        else:
            head = [cell[0]]
        return head, ['%s: %s' % (name, self.int_words(part)) for name, part in self.parts(i) if self.is_int(part)]

    def arrows(self, i):
        """The fields of an id that lead to other objects: names and ids."""
        return [(name, part) for name, part in self.parts(i) if not self.is_int(part)]

    def place_lines(self):
        """Where the frames stand: the running one first, with its instruction."""
        lines = []
        for method, pc, _, _ in reversed(self.frames):
            code = self.program.code(method)
            line = code and code.line(pc)
            source = ', %s:%d' % (code.file.source or 'line', line) if line else ''
            words = '%s @%d%s' % (self.program.method(method), pc, source)
            lines.append(('called from ' if lines else '') + words)
        return lines

    def instruction(self):
        method, pc = self.frames[-1][:2]
        code = self.program.code(method)
        return 'looks for a handler' if self.thrown != -1 else code.words(pc) if code else ''

    def int_lines(self):
        """The ints at positions: the places that have one, and what it may be."""
        places = {}
        for name, i in self.positions:
            if self.is_int(i):
                places.setdefault(i, []).append(name)
        return ['%s: %s' % (' = '.join(names), self.int_words(i)) for i, names in places.items()]

    def object_lines(self):
        """The references, where no picture shows them."""
        lines, todo, seen = [], [], set()
        places = {}
        for name, i in self.positions:
            if not self.is_int(i):
                places.setdefault(i, []).append(name)
        todo = list(places)
        while todo:
            i = todo.pop(0)
            if i in seen:
                continue
            seen.add(i)
            head, ints = self.cell_lines(i)
            arrows = ['%s: %s' % (name, self.names[part]) for name, part in self.arrows(i)]
            held = ' {%s}' % '; '.join(ints + arrows) if ints or arrows else ''
            lines.append('%s: %s%s' % (' = '.join(places.get(i, [self.names[i]])), ', '.join(head), held))
            todo += [part for _, part in self.arrows(i)]
        return lines

    def pair_lines(self):
        lines = ['may be one object: %s and %s' % (self.name(a), self.name(b)) for a, b in self.same]
        return lines + ['may share: %s and %s' % (self.name(a), self.name(b)) for a, b in self.share]

    def name(self, i):
        return self.names.get(i, 'id %d' % i)


def sum_words(constant, terms):
    """A sum; terms are factors and words."""
    words = ''
    for factor, word in terms:
        word = word if abs(factor) == 1 else '%d * %s' % (abs(factor), word)
        words += (' - ' if factor < 0 else ' + ') + word if words else ('-' if factor < 0 else '') + word
    if constant or not words:
        words += (' - ' if constant < 0 else ' + ') + str(abs(constant)) if words else str(constant)
    return words


def form_lines(number, state, proof):
    """The forms that the proof's steps have at a cut."""
    lines = []
    for place, step in enumerate(proof):
        for cut, constant, ints, sizes in step[3] if step[0] == 'rank' else []:
            if cut == number:
                terms = [(factor, state.name(i)) for i, factor in ints] + [(factor, 'size of ' + state.name(i)) for i, factor in sizes]
                lines.append('step %d ranks by %s' % (place, sum_words(constant, terms)))
    return lines


def row_words(kind, constant, terms, before, after):
    """A row of an edge: what holds of ints before and after. A name with a prime is what it is after."""
    named = [(factor, (before.name(i) if side == 'b' else after.name(i) + "'")) for side, i, factor in terms]
    new = [(factor, name) for factor, name in named if name.endswith("'")]
    if kind != 'ge' and len(new) == 1 and abs(new[0][0]) == 1:
        sign = -new[0][0]
        number = sign * constant + (2**32 if sign * constant < LEAST else -2**32 if sign * constant > MOST else 0)
        words = sum_words(number, [(sign * factor, name) for factor, name in named if name != new[0][1]])
        return '%s = %s%s' % (new[0][1], words, ', wrapped' * (number != sign * constant))
    left = [(factor, name) for factor, name in named if factor > 0]
    right = [(-factor, name) for factor, name in named if factor < 0]
    return '%s %s %s' % (sum_words(max(constant, 0), left), '>=' if kind == 'ge' else '=', sum_words(max(-constant, 0), right))


def jump_words(state, child):
    """Whether a jump was taken."""
    code = state.program.code(state.frames[-1][0])
    words = code.words(state.frames[-1][1]).split() if code else ['']
    if words[0].startswith('if'):
        return 'taken' if child.frames[-1][1] == int(words[1]) else 'not taken'
    return ''


def split_words(state, child, merged):
    """What a split of a state into cases, without an instruction, says of the case."""
    if merged:
        return 'one object: %s and %s' % (state.name(merged[0]), state.name(merged[1]))
    changed = [i for i in state.cells if i in child.cells and not child.is_int(i) and state.cells[i] != child.cells[i]]
    parted = [pair for pair in state.same if pair not in child.same]
    for i in changed:
        cell = child.cells[i]
        if cell[0] == 'null':
            return '%s is null' % state.name(i)
        if cell[0] == 'unk':
            return '%s is not null' % state.name(i)
        if cell[0] in ('obj', 'nums', 'refs'):
            return '%s is %s' % (state.name(i), child.cell_lines(i)[0][0])
    return 'two objects: %s and %s' % (state.name(parted[0][0]), state.name(parted[0][1])) if parted else 'a case'


def edge_lines(state, child, link):
    """What the edge to a child says. The link has whether an instruction was done, the rows, and which ids were merged."""
    if not link.step:
        return [split_words(state, child, link.merged)]
    lines = [jump_words(state, child)]
    if state.thrown == -1 and child.thrown != -1:
        lines.append('throws ' + child.cell_lines(child.thrown)[0][0])
    if state.thrown != -1:
        lines.append('caught' if child.thrown == -1 else 'not caught here')
    elif len(child.frames) > len(state.frames):
        lines.append('calls ' + child.program.method(child.frames[-1][0]))
    elif len(child.frames) < len(state.frames):
        lines.append('returns')
    lines += [row_words(*row, state, child) for row in link.rows]
    return [line for line in lines if line]


def end_line(state):
    """How a run ends."""
    return 'ends: nothing catches %s' % state.cell_lines(state.thrown)[0][0] if state.thrown != -1 else 'ends: returns'
