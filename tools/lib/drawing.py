"""A table as a picture: a row for each mark, in order; low links dashed, high links solid; yes and no at the bottom."""
from html import escape
from math import fsum
from unicodedata import east_asian_width

from wrong import Wrong

MOST_DRAWN = 256
ROW, RADIUS, MARGIN = 84, 17, 24
NODE_REACH, STOP_REACH = 37, 17  # half of the room that each wants in its row
BOX, ENTRY = 40, 12  # the width of yes and no; where many links lead to one of them, the room for each
SWEEPS = 24


def seen(table):
    """The nodes that are drawn: all but a constant that nothing leads to."""
    count = len(table.nodes)
    linked = {link for node in table.nodes[2:] for link in node[1:]}
    return [i for i in range(count) if i >= 2 or i in linked or i == count - 1]


class Layout:
    """Where each node stands, and through which points each link goes. Long links have a stop in each row between."""

    def __init__(self, table):
        self.nodes = table.nodes
        shown = seen(table)
        self.marks = sorted({table.nodes[i][0] for i in shown if i >= 2})
        rows = {mark: row for row, mark in enumerate(self.marks)}
        self.row = {i: rows[table.nodes[i][0]] if i >= 2 else len(self.marks) for i in shown}
        self.rows = [[] for _ in range(len(self.marks) + 1)]
        self.chains, self.above, self.below = [], {}, {}
        self.enter_all(shown)
        self.order_rows()
        self.spread()
        self.settle_ends()

    def enter(self, item, row):
        self.rows[row].append(item)
        self.above[item], self.below[item] = [], []

    def enter_all(self, shown):
        for i in reversed(shown):
            self.enter(i, self.row[i])
        for i in reversed(shown):
            for high in (0, 1) if i >= 2 else ():
                self.enter_link(i, self.nodes[i][1 + high], high)

    def enter_link(self, start, end, high):
        chain = [start]
        for row in range(self.row[start] + 1, self.row[end]):
            stop = (start, high, row)
            self.enter(stop, row)
            chain.append(stop)
        chain.append(end)
        for upper, lower in zip(chain, chain[1:]):
            self.below[upper].append(lower)
            self.above[lower].append(upper)
        self.chains.append((chain, high))

    def order_rows(self):
        """Brings each row into the order of the middles of what it hangs on, from below and from above in turn; no stays left of yes."""
        self.rows[-1].sort()
        for sweep in range(SWEEPS):
            down = sweep % 2 == 1
            neighbours = self.above if down else self.below
            rows = self.rows[1:-1] if down else self.rows[-2::-1]
            place = {item: (2 * i + 1) / (2 * len(row)) for row in self.rows for i, item in enumerate(row)}
            for row in rows:
                row.sort(key=lambda item: middle([place[other] for other in neighbours[item]], place[item]))
                place.update({item: (2 * i + 1) / (2 * len(row)) for i, item in enumerate(row)})

    def spread(self):
        """Moves each item towards the middle of its neighbours, as far as the gaps of its row let it."""
        self.x = {item: i * 2 * NODE_REACH for row in self.rows for i, item in enumerate(row)}
        for sweep in range(SWEEPS):
            for row in self.rows if sweep % 2 == 0 else reversed(self.rows):
                wish = [middle([self.x[other] for other in self.above[item] + self.below[item]], self.x[item]) for item in row]
                self.x.update(zip(row, kept_apart(wish, self.gaps(row))))
        least = min(x - self.overhang(item) for item, x in self.x.items())
        self.x = {item: x - least for item, x in self.x.items()}
        self.width = max(x + self.overhang(item) for item, x in self.x.items())

    def box(self, end):
        """The width of yes or no: each link has a place of its own at its top."""
        return max(BOX, ENTRY * (len(self.above[end]) + 1))

    def overhang(self, item):
        return (self.box(item) - BOX) / 2 if item in (0, 1) else 0

    def gaps(self, row):
        """The offset of each item where all stand as close as they may: nodes need more room than stops."""
        reach = [STOP_REACH if is_stop(item) else NODE_REACH + self.overhang(item) for item in row]
        return [0] + [sum(reach[:i]) + sum(reach[1:i + 1]) for i in range(1, len(row))] if row else []

    def settle_ends(self):
        """On which side each link leaves its node, and where it enters yes or no, from the left to the right as they come."""
        self.side, self.entry = {}, {}
        for (low, _), (high, _) in zip(self.chains[::2], self.chains[1::2]):
            side = -1 if self.x[low[1]] <= self.x[high[1]] else 1
            self.side[low[0], 0], self.side[high[0], 1] = side, -side
        for end in (0, 1):
            links = [(chain[0], high, chain) for chain, high in self.chains if chain[-1] == end]
            links.sort(key=lambda link: self.x[link[2][-2]] + (8 * self.side[link[:2]] if len(link[2]) == 2 else 0))
            for i, link in enumerate(links):
                self.entry[link[:2]] = ENTRY * (i - (len(links) - 1) / 2)


def middle(places, otherwise):
    return fsum(places) / len(places) if places else otherwise


def is_stop(item):
    return isinstance(item, tuple)


def kept_apart(wish, offsets):
    """The places nearest to the wishes whose gaps are kept: neighbours that would collide stand around their common middle."""
    blocks = []
    for want, offset in zip(wish, offsets):
        blocks.append([want - offset, 1])
        while len(blocks) > 1 and blocks[-2][0] > blocks[-1][0]:
            total, count = blocks.pop()
            blocks[-1] = [(blocks[-1][0] * blocks[-1][1] + total * count) / (blocks[-1][1] + count), blocks[-1][1] + count]
    places = [place for place, count in blocks for _ in range(count)]
    return [place + offset for place, offset in zip(places, offsets)]


def mark_label(mark, names):
    return f"mark {mark}" if names is None else f"{mark} {names[mark]}"


def text_width(label):
    """About how wide a label is: no font is asked."""
    return sum(15 if east_asian_width(c) in "WF" or c in "WM@%" else 11 if c.isupper() else 8 for c in label)


def svg(table, names):
    if len(table.nodes) > MOST_DRAWN:
        raise Wrong(f"{len(table.nodes)} nodes: over {MOST_DRAWN} no picture can be read; 'dot' writes the table for graphviz")
    layout = Layout(table)
    labels = [mark_label(mark, names) for mark in layout.marks]
    left = MARGIN + 30 + max(map(text_width, labels), default=0)
    width = max(left + layout.width + 2 * MARGIN + RADIUS, 400)
    bottom = MARGIN + 20 + ROW * len(layout.marks)
    height = bottom + RADIUS + 58

    def point(item, row):
        return left + layout.x[item], MARGIN + 20 + ROW * row

    parts = [f'<svg xmlns="http://www.w3.org/2000/svg" width="{width:.0f}" height="{height:.0f}" viewBox="0 0 {width:.0f} {height:.0f}" '
             'font-family="DejaVu Sans, Arial, sans-serif" font-size="14" text-anchor="middle">',
             f'<title>Decision table of {len(table.nodes)} nodes over {table.n} marks</title>',
             '<rect width="100%" height="100%" fill="white"/>']
    for row, label in enumerate(labels):
        y = MARGIN + 20 + ROW * row
        parts.append(f'<line x1="{MARGIN}" y1="{y}" x2="{width - MARGIN:.0f}" y2="{y}" stroke="#e4e4e4"/>')
        parts.append(f'<rect x="{MARGIN - 6}" y="{y - 11}" width="{text_width(label) + 14}" height="22" fill="white"/>')
        parts.append(f'<text x="{MARGIN}" y="{y + 5}" text-anchor="start" fill="#555555">{escape(label)}</text>')
    parts += [link_path(*link, layout, point) for link in layout.chains]
    parts += [node_shape(layout, i, *point(i, row)) for i, row in sorted(layout.row.items())]
    parts += legend(height - 22)
    return "\n".join(parts) + "\n</svg>\n"


def link_path(chain, high, layout, point):
    """From a side of the node's foot down to the top of the node it leads to, on the side where it comes from."""
    row = layout.row[chain[0]]
    points = [point(item, row + i) for i, item in enumerate(chain)]
    x, y = points[0]
    points[0] = (x + layout.side[chain[0], high] * 8, y + RADIUS - 2)
    x, y = points[-1]
    points[-1] = (x + layout.entry.get((chain[0], high), 5 if points[-2][0] > x else -5), y - RADIUS + 1)
    curve = f"M{points[0][0]:.1f},{points[0][1]:.1f}"
    for (x0, y0), (x1, y1) in zip(points, points[1:]):
        half = (y0 + y1) / 2
        curve += f" C{x0:.1f},{half:.1f} {x1:.1f},{half:.1f} {x1:.1f},{y1:.1f}"
    dashes = "" if high else ' stroke-dasharray="6 4"'
    return f'<path d="{curve}" fill="none" stroke="{"#000000" if high else "#2060a0"}" stroke-width="1.6"{dashes}/>'


def node_shape(layout, i, x, y):
    if i >= 2:
        shape = f'<circle cx="{x:.1f}" cy="{y}" r="{RADIUS}" fill="#fff8e0" stroke="#000000"/>'
        return shape + f'<text x="{x:.1f}" y="{y + 5}">{i}</text>'
    word, fill = ("no", "#e0e0e0") if i == 0 else ("yes", "#c8e8c0")
    wide = layout.box(i)
    shape = f'<rect x="{x - wide / 2:.1f}" y="{y - RADIUS}" width="{wide}" height="{2 * RADIUS}" fill="{fill}" stroke="#000000"/>'
    return shape + f'<text x="{x:.1f}" y="{y + 5}">{word}</text>'


def legend(y):
    text = 'font-size="12" text-anchor="start" fill="#555555"'
    return [f'<line x1="{MARGIN}" y1="{y}" x2="{MARGIN + 34}" y2="{y}" stroke="#2060a0" stroke-width="1.6" stroke-dasharray="6 4"/>',
            f'<text x="{MARGIN + 40}" y="{y + 4}" {text}>0 (low)</text>',
            f'<line x1="{MARGIN + 104}" y1="{y}" x2="{MARGIN + 138}" y2="{y}" stroke="#000000" stroke-width="1.6"/>',
            f'<text x="{MARGIN + 144}" y="{y + 4}" {text}>1 (high)</text>',
            f'<text x="{MARGIN + 214}" y="{y + 4}" {text}>circles: node numbers</text>']


def dot(table, names):
    lines = ["digraph table {", "  node [shape=circle];"]
    shown = seen(table)
    for i in shown:
        if i < 2:
            lines.append(f'  {i} [shape=box, label="{("no", "yes")[i]}"];')
    for mark in sorted({table.nodes[i][0] for i in shown if i >= 2}):
        row = [i for i in shown if i >= 2 and table.nodes[i][0] == mark]
        label = mark_label(mark, names).replace("\\", "\\\\").replace('"', '\\"')
        lines += [f'  {i} [label="{label}", tooltip="node {i}"];' for i in row]
        lines.append(f"  {{ rank=same; {'; '.join(map(str, row))}; }}")
    for i in shown:
        if i >= 2:
            _, low, high = table.nodes[i]
            lines += [f"  {i} -> {low} [style=dashed];", f"  {i} -> {high};"]
    return "\n".join(lines + ["}"]) + "\n"
