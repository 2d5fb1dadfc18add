"""The blocking graph as SVG or DOT: a box for each place at which threads block, an arrow for the segments from one to
another, with their number, their mean cost, and as wide as there are many.

Nodes of a log that differ only in the calls above them are one box. Graphviz lays the picture out where it is
installed; else the boxes stand in rows by their distance from the start.
"""
import collections, math, re, shutil, subprocess

from runs.story import END, START, Edge

from . import escape, palette
from .columns import counted, number

RESOURCES = ("chunks", *(f"resource {it}" for it in range(1, 8)))
SCALE = 256  # of averages in a log
WIDTH, BOX, TALL, GAP, TOP = 830, 168, 38, 74, 40
WIDEST = 5  # of an arrow
ASIDE, MARGIN = 42, 110  # of arrows down and up from the middle of a box; for arrows on the right of a row


class Graph:
    """Collects the edges of a log. Boxes are `start`, `end` and (line, column) of a call."""

    def __init__(self, story):
        self.story, self.styles = story, palette.Styles(story.places)
        self.boxes, self.arrows = {}, {}  # the texts and the style of each box; by two boxes their segments

    def tell(self, it):
        if isinstance(it, Edge):
            start, end = self.box(it.start), self.box(it.end)
            arrow = self.arrows.setdefault((start, end), [0, 0, [0] * len(RESOURCES)])
            arrow[0] += it.count
            arrow[1] += it.count * it.cost
            changes = [*it.changes, *[0] * len(RESOURCES)]
            arrow[2] = [total + it.count * change for total, change in zip(arrow[2], changes)]

    def box(self, node):
        if node in (START, END):
            box = "start" if node == START else "end"
            self.boxes.setdefault(box, (["thread starts" if node == START else "thread ends"], None))
            return box
        site = self.story.places.sites[self.story.keys[node][0]]
        box = (site.line, site.column)
        if box not in self.boxes:
            texts = [f"{site.callee} {site.place()}", f"in {site.function}"]
            self.boxes[box] = (texts, self.styles.of(self.story.keys[node][0]))
        return box

    def label(self, arrow):
        """The lines at an arrow: how many segments, their mean cost, and what they change."""
        count, cost, changes = arrow
        named = [f"{change / count / SCALE:+.1f} {name}".replace(".0 ", " ") for name, change in zip(RESOURCES, changes)
                 if abs(change) >= count * SCALE / 20]
        return [f"{number(count)} × {number(round(cost / count / SCALE))} ticks", *named]

    def width(self, arrow):
        most = max((it[0] for it in self.arrows.values()), default=1)
        return 1 + (WIDEST - 1) * math.log(arrow[0]) / math.log(most) if most > 1 else 1

    def dot(self):
        """The graph for Graphviz."""
        quoted = lambda lines: '"' + "\\n".join(it.replace("\\", "\\\\").replace('"', '\\"') for it in lines) + '"'
        names = {box: f"n{at}" for at, box in enumerate(self.boxes)}
        lines = ["digraph {", '  node [shape=box style="rounded,filled" fillcolor="#ffffff" fontname="sans-serif" '
                              'fontsize=11]',
                 '  edge [fontname="sans-serif" fontsize=11 color="#777777"]']
        for box, (texts, style) in self.boxes.items():
            lines.append(f"  {names[box]} [label={quoted(texts)} fillcolor=\"{colour(style)}\"]")
        for (start, end), arrow in self.arrows.items():
            label = quoted([f"  {it}  " for it in self.label(arrow)])
            lines.append(f"  {names[start]} -> {names[end]} [label={label} penwidth={self.width(arrow):.1f} "
                         f"arrowsize=0.7]")
        return "\n".join([*lines, "}\n"])

    def svg(self, title):
        """The picture, laid out by Graphviz if it is there."""
        program = shutil.which("dot")
        if program and self.boxes:
            made = subprocess.run([program, "-Tsvg"], input=self.dot(), capture_output=True, text=True)
            if made.returncode == 0:
                return restyled(made.stdout, title)
        return Layout(self).svg(title)


def colour(style):
    """The colour of a box."""
    if style is None:
        return "#ffffff"
    return palette.ACCEPT if style == "accept" else palette.HUES[int(style[1:]) % len(palette.HUES)]


STYLE = palette.STYLE + """
.node text { fill: #222 }
.box { stroke: #555 }
.arrow { fill: none; stroke: #777 }
.count { paint-order: stroke; stroke: #fff; stroke-width: 3px; stroke-linejoin: round }
@media (prefers-color-scheme: dark) {
  .count { stroke: #16181d }
  .edge path, .arrow { stroke: #bbb }
  .edge polygon, .head { fill: #bbb; stroke: #bbb }
}
"""


def restyled(svg, title):
    """The picture of Graphviz with the colours of all views, in pixels."""
    svg = svg[svg.index("<svg"):]
    width, tall = (math.ceil(float(it) * 4 / 3) for it in re.search(r'width="([\d.]+)pt" height="([\d.]+)pt"',
                                                                    svg).groups())
    svg = re.sub(r'<title>[^<]*</title>', "", svg)
    svg = re.sub(r' (font-family|font-size|fill)="[^"]*"(?=[^>]*>[^<]*</text>)', "", svg)
    svg = svg.replace('fill="white" stroke="transparent"', 'class="paper"').replace('fill="white" stroke="none"',
                                                                                    'class="paper"')
    scale = min(1, WIDTH / width)
    head = f'width="{round(width * scale)}" height="{round(tall * scale)}"'
    svg = re.sub(r'width="[\d.]+pt" height="[\d.]+pt"', head, svg, count=1)
    return re.sub(r"(<svg[^>]*>)", lambda it: (f"{it[1]}<title>Blocking graph of {escape.text(title)}</title>"
                                               f"<style>{STYLE}text {{ font-size: 11px }}</style>"), svg, count=1)


class Layout:
    """Boxes in rows by their distance from the start, and arrows between them."""

    def __init__(self, graph):
        self.graph, self.parts = graph, []
        rows = collections.defaultdict(list)
        for box, distance in self.distances().items():
            rows[distance].append(box)
        self.at, y = {}, TOP
        for _, boxes in sorted(rows.items()):
            most = max((WIDTH - MARGIN) // (BOX + 24), 1)
            for first in range(0, len(boxes), most):
                part = boxes[first:first + most]
                step = (WIDTH - MARGIN) / len(part)
                self.at |= {box: (4 + step * (place + .5), y) for place, box in enumerate(part)}
                y += TALL + GAP
        self.tall = y - GAP + 20

    def distances(self):
        """For each box the least number of arrows from a start of threads."""
        nexts = collections.defaultdict(list)
        for start, end in self.graph.arrows:
            nexts[start].append(end)
        found, waiting = {}, collections.deque([*self.graph.boxes][:1])
        for first in ["start", *self.graph.boxes]:
            if first in self.graph.boxes and first not in found:
                found[first], waiting = max(found.values(), default=-1) + 1 if found else 0, collections.deque([first])
                while waiting:
                    box = waiting.popleft()
                    for it in nexts[box]:
                        if it not in found:
                            found[it] = found[box] + 1
                            waiting.append(it)
        if "end" in found:
            found["end"] = max(found.values()) + (max(found.values()) != found["end"])
        return found

    def svg(self, title):
        for (start, end), arrow in self.graph.arrows.items():
            self.arrow(start, end, arrow)
        for box, (texts, style) in self.graph.boxes.items():
            self.box(box, texts, style)
        head = ('<marker id="head" viewBox="0 0 8 8" refX="7" refY="4" markerWidth="9" markerHeight="9" '
                'markerUnits="userSpaceOnUse" orient="auto">'
                '<path class="head" d="M0 0L8 4L0 8z" fill="#777"/></marker>')
        return "\n".join([
            (f'<svg xmlns="http://www.w3.org/2000/svg" viewBox="0 0 {WIDTH} {self.tall}" width="{WIDTH}" '
             f'height="{self.tall}" role="img">'),
            f"<title>Blocking graph of {escape.text(title)}</title><style>{STYLE}</style><defs>{head}</defs>",
            f'<rect class="paper" width="{WIDTH}" height="{self.tall}"/>',
            (f'<text class="title" x="12" y="20">{escape.text(title)}: {counted(len(self.graph.boxes), "place")}'
             f'</text>'), *self.parts,
            "</svg>\n"
        ])

    def box(self, box, texts, style):
        x, y = self.at[box]
        lines = "".join(f'<text x="{x:.1f}" y="{y + TALL / 2 + 4 + 13 * (at - (len(texts) - 1) / 2):.1f}" '
                        f'text-anchor="middle">{escape.text(it)}</text>'
                        for at, it in enumerate(texts))
        self.parts.append(f'<g class="node"><rect class="box" x="{x - BOX / 2:.1f}" y="{y}" width="{BOX}" '
                          f'height="{TALL}" rx="5" fill="{colour(style)}"/>{lines}</g>')

    def arrow(self, start, end, arrow):
        (x, y), (to_x, to_y) = self.at[start], self.at[end]
        if to_y == y:  # on the right of the boxes
            right, to_y, y = max(x, to_x) + BOX / 2, y + TALL * .25, y + TALL * .75
            path = (f"M{x + BOX / 2:.1f} {y}C{right + 40:.1f} {y + 14} {right + 40:.1f} {to_y - 14} "
                    f"{to_x + BOX / 2:.1f} {to_y}")
            at = (right + 62, y - TALL * .25)
        else:
            side = -ASIDE if to_y > y else ASIDE
            y, to_y = (y + TALL, to_y) if to_y > y else (y, to_y + TALL)
            x, to_x, middle = x + side, to_x + side, (y + to_y) / 2
            path = f"M{x:.1f} {y}C{x:.1f} {middle:.1f} {to_x:.1f} {middle:.1f} {to_x:.1f} {to_y}"
            at = ((x + to_x) / 2, middle + (8 if side > 0 else -8))
        lines = self.graph.label(arrow)
        texts = "".join((f'<tspan x="{at[0]:.1f}" dy="{13 if place else 4 - 6.5 * (len(lines) - 1)}">{escape.text(it)}'
                         f'</tspan>') for place, it in enumerate(lines))
        self.parts.append(f'<path class="arrow" stroke-width="{self.graph.width(arrow):.1f}" marker-end="url(#head)" '
                          f'd="{path}"/>')
        self.parts.append(f'<text class="count" y="{at[1]:.1f}" text-anchor="middle">{texts}</text>')
