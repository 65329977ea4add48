"""Pictures of graphs, in SVG, with nothing but this file: panels with lines and with objects, a row of panels for each step from the first.

An edge leads from one panel's number to another one's. How wide a text is, is estimated for the widest of the usual fonts.
"""
import html

SIZE = 11
LINE = 14
PAD = 7
NARROW, SLIM, WIDE = set("ijl.,:;'|! "), set('tfrI()[]{}/-'), set('mwMWOQGD@%+=<>')
INK, PALE, FORM, STUCK, ALIAS, SHARE = '#222222', '#777777', '#0b5fa5', '#c62828', '#8a2da5', '#2e8b57'
LEGEND = [('may be one object', ALIAS), ('may share an object', SHARE)]


def width(text, bold=False):
    """About what a text takes."""
    units = sum(0.31 if c in NARROW else 0.41 if c in SLIM else 0.88 if c in WIDE else 0.69 if c.isupper() else 0.62 for c in text)
    return units * SIZE * (1.13 if bold else 1.0)


def text_at(x, y, text, colour=INK, bold=False, anchor='start'):
    weight = ' font-weight="bold"' if bold else ''
    return '<text x="%.1f" y="%.1f" fill="%s" text-anchor="%s"%s>%s</text>' % (x, y, colour, anchor, weight, html.escape(text))


def line_to(points, colour, thick=1.0, dashed=False, curved=False):
    words = 'M%.1f,%.1f ' % points[0]
    further = ['%.1f,%.1f' % point for point in points[1:]]
    words += 'C' + ' '.join(further) if curved else ' '.join('L' + point for point in further)
    dash = ' stroke-dasharray="4,3"' if dashed else ''
    return '<path d="%s" fill="none" stroke="%s" stroke-width="%.1f"%s/>' % (words, colour, thick, dash)


def arrow_head(x, y, way, colour):
    """A head whose point is at a place: `way` is where it points to."""
    dx, dy = way
    sides = [(x, y), (x - 7 * dx - 3.2 * dy, y - 7 * dy - 3.2 * dx), (x - 7 * dx + 3.2 * dy, y - 7 * dy + 3.2 * dx)]
    return '<polygon points="%s" fill="%s"/>' % (' '.join('%.1f,%.1f' % side for side in sides), colour)


class Box:
    """An object in a panel: its lines, and where it stands."""

    def __init__(self, head, lines, is_known):
        self.texts = [(word, number == 0) for number, word in enumerate(head)] + [(line, False) for line in lines]
        self.is_known = is_known
        self.width = max(width(text, bold) for text, bold in self.texts) + 2 * PAD
        self.height = len(self.texts) * LINE + PAD
        self.x = self.y = 0.0
        self.names = ''

    def outer_width(self):
        """With the names of the places above it."""
        return max(self.width, width(self.names) + 14)

    def drawn(self, x, y):
        x, y = x + self.x, y + self.y
        shape = '<rect x="%.1f" y="%.1f" width="%.1f" height="%.1f" rx="%d" fill="%s" stroke="%s"/>' % (
            x, y, self.width, self.height, 0 if self.is_known else 9, '#ffffff' if self.is_known else '#f4f1e8', INK)
        out = [shape]
        if self.names:
            out += [text_at(x + 12, y - 8, self.names), line_to([(x + 6, y - 16), (x + 6, y - 6)], INK), arrow_head(x + 6, y, (0, 1), INK)]
        return out + [text_at(x + PAD, y + LINE * (n + 1) - 1, text, INK, bold) for n, (text, bold) in enumerate(self.texts)]


class Objects:
    """The objects of a state: places at the left, boxes in columns behind them, arrows for fields, dashed lines for pairs."""

    def __init__(self, state):
        self.places, self.boxes, self.arrows, self.labels = [], {}, [], []
        starts = {}
        for name, i in state.positions:
            if not state.is_int(i):
                starts.setdefault(i, []).append(name)
        columns, rows, self.row = {}, {}, 0
        for i, names in starts.items():
            if i in rows:
                self.boxes[i].names = ' = '.join(names)
            else:
                self.put(state, i, 0, columns, rows)
                self.places.append((' = '.join(names), i))
        self.height = self.settle(columns, rows)
        self.pairs = [(pair, ALIAS) for pair in state.same if set(pair) <= set(self.boxes)]
        self.pairs += [(pair, SHARE) for pair in state.share if set(pair) <= set(self.boxes)]
        self.width = max([box.x + box.outer_width() for box in self.boxes.values()], default=0)
        self.width += 16 + 5 * len(self.pairs) if self.pairs else 0
        self.height += 12 * any(self.boxes[a].y == self.boxes[b].y for (a, b), _ in self.pairs)

    def put(self, state, i, column, columns, rows):
        """Gives an id and what it leads to columns and rows: the first arrow goes on in the same row."""
        columns[i], rows[i] = column, self.row
        self.boxes[i] = Box(*state.cell_lines(i), state.cells.get(i, ['nothing'])[0] in ('obj', 'nums'))
        has_next = False
        for name, part in state.arrows(i):
            self.arrows.append((i, name, part))
            if part not in rows:
                self.row += has_next
                has_next = True
                self.put(state, part, column + 1, columns, rows)
        if not has_next:
            self.row += 1
        elif self.row == rows[i]:
            self.row += 1

    def settle(self, columns, rows):
        """Places the boxes, and says how high they are together."""
        lefts, left = {}, max([width(words) for words, _ in self.places], default=0) + 30
        for column in range(max(columns.values(), default=-1) + 1):
            here = [i for i in columns if columns[i] == column]
            lefts[column] = left
            names = [name for i, name, _ in self.arrows if i in here]
            left += max(self.boxes[i].outer_width() for i in here) + max([width(name) for name in names], default=0) + 30
        tops, top = {}, 4.0
        for row in range(max(rows.values(), default=-1) + 1):
            here = [i for i in rows if rows[i] == row]
            top += 16 * any(self.boxes[i].names for i in here)
            tops[row] = top
            top += max([self.boxes[i].height for i in here], default=0) + (8 if here else 0)
        for i, box in self.boxes.items():
            box.x, box.y = lefts[columns[i]], tops[rows[i]]
        return top - 4 if self.boxes else 0

    def drawn(self, x, y):
        out = []
        for number, ((a, b), colour) in enumerate(self.pairs):
            out.append(line_to(self.way_between(x, y, self.boxes[a], self.boxes[b], number), colour, 1.3, True, True))
        for words, i in self.places:
            box = self.boxes[i]
            at = y + box.y + LINE / 2 + 3
            line = line_to([(x + width(words) + 4, at), (x + box.x - 6, at)], INK)
            out += [text_at(x, at + 4, words), line, arrow_head(x + box.x, at, (1, 0), INK)]
        for i, box in self.boxes.items():
            out += box.drawn(x, y)
        for number, (i, name, part) in enumerate(self.arrows):
            out += self.arrow(x, y, self.boxes[i], name, self.boxes[part], number)
        return out

    def way_between(self, x, y, box, other, number):
        """A curve from one box to another one: below them where they stand side by side, else at their right."""
        if box.y == other.y:
            low = y + box.y + max(box.height, other.height) + 14
            start, end = x + box.x + box.width / 2, x + other.x + other.width / 2
            return [(start, y + box.y + box.height), (start, low), (end, low), (end, y + other.y + other.height)]
        ends = [(x + one.x + one.width, y + one.y + one.height / 2) for one in (box, other)]
        right = max(ends[0][0], ends[1][0]) + 18 + 6 * number
        return [ends[0], (right, ends[0][1]), (right, ends[1][1]), ends[1]]

    def arrow(self, x, y, box, name, other, number):
        if other.x > box.x:
            start, end = (x + box.x + box.width, y + box.y + LINE / 2 + 3), (x + other.x - 6, y + other.y + LINE / 2 + 3)
            middle = start[0] + width(name) + 10
            return [line_to([start, (middle, start[1]), (end[0] - 12, end[1]), end], INK, 1.0, False, True),
                    arrow_head(end[0] + 6, end[1], (1, 0), INK), text_at(start[0] + 6, start[1] - 4, name, PALE)]
        low = y + max(box.y + box.height, other.y + other.height) + 6 + 3 * (number % 3)
        start, end = (x + box.x + box.width - 12, y + box.y + box.height), (x + other.x + 12, y + other.y + other.height + 6)
        return [line_to([start, (start[0], low + 8), (end[0], low + 8), end], INK, 1.0, False, True),
                arrow_head(end[0], end[1] - 6, (0, -1), INK), text_at((start[0] + end[0]) / 2, low + 8, name, PALE)]


class Panel:
    """A node: a title, lines in colours, and objects."""

    def __init__(self, title, lines, state=None, is_cut=False, is_end=False, is_stuck=False):
        self.title, self.lines = title, lines
        self.objects = Objects(state) if state else None
        self.is_cut, self.is_end, self.is_stuck = is_cut, is_end, is_stuck
        inner = [width(title, True)] + [width(text) for text, _ in lines] + ([self.objects.width] if self.objects else [])
        self.width = max(inner) + 2 * PAD + 2
        self.height = LINE * (1 + len(lines)) + 2 * PAD + (self.objects.height if self.objects else 0)

    def drawn(self, x, y):
        colour = STUCK if self.is_stuck else INK
        frame = '<rect x="%.1f" y="%.1f" width="%.1f" height="%.1f" rx="6" fill="%s" stroke="%s" stroke-width="%.1f"/>'
        out = [frame % (x, y, self.width, self.height, '#e6e6e6' if self.is_end else '#ffffff', colour, 2.0 if self.is_stuck else 1.2)]
        if self.is_cut:
            out.insert(0, frame % (x - 4, y - 4, self.width + 8, self.height + 8, '#ffffff', colour, 1.2))
        out.append(text_at(x + PAD, y + LINE + 2, self.title, colour, True))
        for number, (text, shade) in enumerate(self.lines):
            out.append(text_at(x + PAD, y + LINE * (number + 2) + 2, text, shade))
        if self.objects:
            out += self.objects.drawn(x + PAD, y + LINE * (1 + len(self.lines)) + PAD)
        return out


class Edge:
    """An edge in words; a dashed one leads to the panel of which this one is a special case."""

    def __init__(self, start, end, lines=(), is_dashed=False, is_stuck=False):
        self.start, self.end, self.lines, self.is_dashed, self.is_stuck = start, end, list(lines), is_dashed, is_stuck


def tree_of(count, edges):
    """The children of each panel in a forest that has them all: the first edge to a panel counts, dashed ones last."""
    children, has_parent, roots = [[] for _ in range(count)], {0}, []
    for edge in [edge for edge in edges if not edge.is_dashed] + [edge for edge in edges if edge.is_dashed]:
        if edge.end not in has_parent and edge.end != edge.start:
            has_parent.add(edge.end)
            children[edge.start].append(edge)
            edge.is_in_tree = True
    return children, [n for n in range(count) if n == 0 or n not in has_parent]


def beside(outlines, gap):
    """Where outlines stand side by side, as close as they may, and what they reach together in each row."""
    starts, reached = [], []
    for outline in outlines:
        both = zip(reached, outline)
        start = max([right - left + gap for (_, right), (left, _) in both], default=0.0)
        starts.append(start)
        for row, (left, right) in enumerate(outline):
            if row < len(reached):
                reached[row] = min(reached[row][0], left + start), max(reached[row][1], right + start)
            else:
                reached.append((left + start, right + start))
    return starts, reached


class Layout:
    """Where panels stand: those as many edges from the first one side by side, parents in the middle above their children."""

    GAP, DOWN = 26, 18

    def __init__(self, panels, edges):
        self.panels, self.edges = panels, edges
        for edge in edges:
            edge.is_in_tree = False
        self.children, roots = tree_of(len(panels), edges)
        self.words = {edge.end: edge.lines for edge in edges if edge.is_in_tree}
        self.depth, self.x = {}, {}
        order = self.orders(roots)
        shifts, outlines = self.packed(order)
        starts, outline = beside([outlines[root] for root in roots], self.GAP)
        for root, start in zip(roots, starts):
            self.x[root] = start - min(left for left, _ in outline)
        for n in order:
            for edge in self.children[n]:
                self.x[edge.end] = self.x[n] + shifts[edge.end]
        self.width = max(right for _, right in outline) - min(left for left, _ in outline)
        self.aims = {edge.end for edge in edges if not edge.is_in_tree}
        self.tops, self.height = self.rows()

    def label_width(self, n):
        """Words of an edge stand right of the middle, above its end."""
        return max([width(line) + 12 for line in self.words.get(n, [])], default=0)

    def orders(self, roots):
        """Parents before children."""
        order, todo = [], [(root, 0) for root in reversed(roots)]
        while todo:
            n, depth = todo.pop()
            order.append(n)
            self.depth[n] = depth
            todo += [(edge.end, depth + 1) for edge in reversed(self.children[n])]
        return order

    def packed(self, order):
        """How far each panel stands from the middle of its parent, and how far what hangs at a panel reaches in each row below it."""
        shifts, outlines = {}, {}
        for n in reversed(order):
            starts, below = beside([outlines.pop(edge.end) for edge in self.children[n]], self.GAP)
            middle = (starts[0] + starts[-1]) / 2 if starts else 0.0
            shifts.update((edge.end, start - middle) for edge, start in zip(self.children[n], starts))
            half = self.panels[n].width / 2 + 4
            outlines[n] = [(-half, max(half, self.label_width(n)))] + [(left - middle, right - middle) for left, right in below]
        return shifts, outlines

    def rows(self):
        """The top of each row. Above it stand the words of the edges that end there."""
        tops, top, self.heights, rows = [], 0.0, [], {}
        for n, depth in self.depth.items():
            rows.setdefault(depth, []).append(n)
        for depth, here in sorted(rows.items()):
            self.heights.append(max(self.panels[n].height for n in here))
            words = max(len(self.words.get(n, [])) for n in here)
            top += (LINE * words + self.DOWN + 12 + 12 * any(n in self.aims for n in here)) * (depth > 0)
            tops.append(top)
            top += self.heights[-1]
        return tops, top

    def box(self, n):
        panel = self.panels[n]
        return self.x[n] - panel.width / 2, self.tops[self.depth[n]], panel.width, panel.height

    def tree_edge(self, edge):
        x, y, _, height = self.box(edge.start)
        start = self.x[edge.start], y + height + 4 * self.panels[edge.start].is_cut
        end = self.x[edge.end], self.tops[self.depth[edge.end]] - 4 * self.panels[edge.end].is_cut
        colour, turn = STUCK if edge.is_stuck else INK, y + self.heights[self.depth[edge.start]] + self.DOWN - 8
        points = [start, (start[0], turn), (end[0], turn), (end[0], end[1] - 6)]
        out = [line_to(points, colour, 2.0 if edge.is_stuck else 1.0, edge.is_dashed),
               arrow_head(end[0], end[1], (0, 1), colour)]
        for number, line in enumerate(edge.lines):
            low = end[1] - 10 - 12 * (edge.end in self.aims)
            out.append(text_at(end[0] + 8, low - LINE * (len(edge.lines) - 1 - number), line, STUCK if edge.is_stuck else PALE))
        return out

    def free_edges(self):
        """Edges beside the tree lead around all panels of the rows between, at the side that is nearer."""
        out, left, right = [], 0.0, self.width
        for number, edge in enumerate(edge for edge in self.edges if not edge.is_in_tree):
            x, y, w, height = self.box(edge.start)
            tx, ty, tw, _ = self.box(edge.end)
            low, high = sorted((self.depth[edge.start], self.depth[edge.end]))
            between = [n for n in self.depth if low <= self.depth[n] <= high]
            leftmost = min(self.box(n)[0] for n in between)
            rightmost = max(self.x[n] + max(self.panels[n].width / 2, self.label_width(n)) for n in between)
            is_left = x + w / 2 - leftmost <= rightmost - x - w / 2
            side = leftmost - 16 - 5 * (number % 8) if is_left else rightmost + 16 + 5 * (number % 8)
            start_y, end_y = y + height + 10, ty - 12 - 4 * self.panels[edge.end].is_cut
            colour = STUCK if edge.is_stuck else INK
            aim = tx + tw / 2 + (-18 if is_left else 18)
            begin = x + w / 2 + (-18 if is_left else 18)
            points = [(begin, y + height), (begin, start_y), (side, start_y), (side, end_y), (aim, end_y), (aim, ty - 10)]
            out.append(line_to(points, colour, 2.0 if edge.is_stuck else 1.0, edge.is_dashed))
            out.append(arrow_head(aim, ty - 4 * self.panels[edge.end].is_cut, (0, 1), colour))
            left, right = min(left, side), max(right, side)
            if edge.lines:
                shade, anchor = STUCK if edge.is_stuck else PALE, 'end' if is_left else 'start'
                out.append(text_at(begin, start_y + 12, edge.lines[0], shade, False, anchor))
        return out, left, right

    def svg(self, caption=''):
        free, left, right = self.free_edges()
        out = [line for edge in self.edges if edge.is_in_tree for line in self.tree_edge(edge)] + free
        for n, panel in enumerate(self.panels):
            x, y, _, _ = self.box(n)
            out += panel.drawn(x, y)
        colours = {colour for panel in self.panels if panel.objects for _, colour in panel.objects.pairs}
        bottom, start = self.height + 36, left
        for words, colour in LEGEND:
            if colour in colours:
                out.append(line_to([(start, bottom - 4), (start + 26, bottom - 4)], colour, 1.3, True))
                out.append(text_at(start + 32, bottom, words, colour))
                start += 52 + width(words)
        out += [text_at(left, -26, caption, INK, True)] if caption else []
        right = max(right, start, left + width(caption, True))
        edges = (left - 10, -44 if caption else -24, right - left + 20, bottom + 10 + (44 if caption else 24))
        head = '<svg xmlns="http://www.w3.org/2000/svg" width="%.0f" height="%.0f" viewBox="%.1f %.1f %.1f %.1f" '
        head += 'font-family="%s" font-size="%d">'
        fonts = 'DejaVu Sans, Verdana, Helvetica, sans-serif'
        ground = '<rect x="%.1f" y="%.1f" width="%.1f" height="%.1f" fill="#ffffff"/>' % edges
        return '\n'.join([head % (edges[2], edges[3], *edges, fonts, SIZE), ground] + out + ['</svg>']) + '\n'
