"""The timeline as SVG, for a width of 830 pixels: a row for each thread with its work and waits, below bands for what
came and was answered, for chunks and for resources, and a time axis.

A row is drawn in columns of one pixel. A column has the share of its time in which the thread ran, the share in which
it was ready and not chosen, and the place at which it waited for most of the rest.
"""
import array, collections

from runs.names import Names
from runs.story import END, Item, Segment

from . import escape, palette
from .columns import number

WIDTH, LEFT, RIGHT, TOP = 830, 120, 12, 46
MOST_TALL, MOST_ROWS = 48, 400  # threads with a label each; rows in all
SHADES = 6  # of a column that a thread ran for a part of
OWN = ("run", "ready", "ended")  # styles that aren't those of a place
BAND = 26  # pixels of a band with its gap


class Timeline:
    """Collects the segments and items of a story, and draws those in the window."""

    def __init__(self, story, span, chunks, ready=None):
        self.story, self.names, self.chunks, self.ready = story, Names(story.places, story.keys), chunks, ready
        self.first, self.last = span
        self.segments = [array.array("q") for _ in range(6)]  # thread, since, ready, start, end, node
        self.free, self.items, self.answers, self.drops = (array.array("q") for _ in range(4))
        self.uses = collections.defaultdict(list)  # resource: clocks and units
        self.functions, self.clock, self.waiting = {}, 0, {}

    def tell(self, it):
        if self.ready:
            self.ready.tell(it)
        if isinstance(it, Segment):
            self.segment(it)
        elif isinstance(it, Item):
            self.clock = max(self.clock, it.clock)
            if it.dropped:
                self.drops.append(it.clock)
            elif it.channel is None:
                self.items.append(it.time)

    def segment(self, it):
        self.names.learn(it)
        self.functions[it.thread] = self.names.function(it.thread)
        end = it.start + it.cost
        since = it.start if it.waited_since is None else it.waited_since
        ready = self.ready.since if self.ready and self.ready.since is not None else it.start
        for column, value in zip(self.segments, (it.thread, since, max(ready, since), it.start, end, it.node)):
            column.append(value)
        self.free.append(it.free)
        if it.outputs:
            self.answers.append(end)
        self.clock = max(self.clock, end)
        self.waiting[it.thread] = (it.end_node, end)
        for resource, units in (self.ready.uses() if self.ready else {}).items():
            changes = self.uses[resource]
            if not changes or changes[-1][1] != units:
                changes.append((end, units))

    def svg(self, document, title):
        """The picture."""
        return Drawing(self, self.last or max(self.clock, 1)).svg(title)


class Drawing:
    """A timeline over a window of clocks."""

    def __init__(self, told, last):
        self.told, self.first, self.last = told, min(told.first, last), max(last, told.first + 1)
        self.columns = WIDTH - LEFT - RIGHT
        self.scale = self.columns / (self.last - self.first)
        self.styles, self.labels, self.parts = palette.Styles(told.story.places), {}, []
        self.rows = {}  # thread: for each column the share of work and of readiness, and the waits by place
        self.ended = {}  # thread: when it ended in the window
        self.y = TOP

    def fill(self, thread, start, end, kind):
        """Adds a time of a thread to its columns: of work, of readiness, or of a wait at a place."""
        start, end = max(start, self.first), min(end, self.last)
        if start > end or start == end and kind != "run":
            return
        row = self.rows.setdefault(thread, {})
        low, high = (start - self.first) * self.scale, (end - self.first) * self.scale
        for column in range(int(low), min(int(high), self.columns - 1) + 1):
            share = min(high, column + 1) - max(low, column)
            cell = row.setdefault(column, {})
            cell[kind] = cell.get(kind, 0) + share

    def collect(self):
        told = self.told
        for thread, since, ready, start, end, node in zip(*told.segments):
            if end >= self.first and since <= self.last:
                if start > since and node > END:
                    style = self.style(node)
                    self.fill(thread, since, ready, style)
                    self.fill(thread, ready, start, "ready")
                self.fill(thread, start, end, "run")
        for thread, (node, since) in told.waiting.items():
            if node == END and self.first <= since <= self.last:
                self.ended[thread] = since
            elif node is not None and node > END:
                self.fill(thread, since, self.last, self.style(node))

    def style(self, node):
        """The style of the place at a node, which the legend has then."""
        number = self.told.story.keys[node][0]
        site, style = self.told.story.places.sites[number], self.styles.of(number)
        self.labels.setdefault(style, f"{site.callee} {site.place()} in {site.function}")
        return style

    def svg(self, title):
        self.collect()
        self.bands()
        threads = sorted(self.rows)
        self.draw_rows(threads[:MOST_ROWS])
        self.axis()
        self.legend(len(threads) - MOST_ROWS)
        head = (f'<svg xmlns="http://www.w3.org/2000/svg" viewBox="0 0 {WIDTH} {self.y}" width="{WIDTH}" '
                f'height="{self.y}" role="img">')
        span = f"clock {number(self.first)} to {number(self.last)}, {number(len(threads))} threads"
        return "\n".join([
            head, f"<title>Timeline of {escape.text(title)}</title><style>{palette.STYLE}</style>", "<defs>",
            *palette.patterns(), "</defs>",
            f'<rect class="paper" width="{WIDTH}" height="{self.y}"/>',
            f'<text class="title" x="12" y="20">{escape.text(title)}</text>',
            f'<text class="faint" x="12" y="36">{span}; times in ticks</text>', *self.parts, "</svg>\n"
        ])

    def x(self, clock):
        return LEFT + (min(max(clock, self.first), self.last) - self.first) * self.scale

    def label(self, text, y):
        self.parts.append(f'<text x="{LEFT - 8}" y="{y}" text-anchor="end">{escape.text(text)}</text>')

    def bands(self):
        told = self.told
        marks = [("arrivals", "mark", told.items), ("answers", "answer", told.answers), ("drops", "drop", told.drops)]
        for name, style, clocks in marks:
            columns = sorted({round(self.x(it)) for it in clocks if self.first <= it <= self.last})
            if columns:
                self.label(name, self.y + 12)
                path = "".join(f"M{it}.5 {self.y + 3}v10" for it in columns)
                self.parts.append(f'<path class="{style}" d="{path}"/>')
                self.y += 17
        if told.free:
            self.curve("chunks held", [(end, told.chunks - free) for end, free in zip(told.segments[4], told.free)])
        for resource, changes in sorted(told.uses.items()):
            self.curve(f"resource {resource}", changes)
        self.y += 4

    def curve(self, name, changes):
        """A band with a number over time: of each column its greatest."""
        most = max((value for _, value in changes), default=0)
        tops, before = {}, 0
        for clock, value in changes:
            if clock < self.first:
                before = value
            elif clock <= self.last:
                column = int(self.x(clock) - LEFT)
                tops[column] = max(tops.get(column, 0), value)
        if not most:
            return
        height, base = BAND - 8, self.y + BAND - 4
        path, value = [f"M{LEFT} {base}V{base - before * height / most:.1f}"], before
        for column, top in sorted(tops.items()):
            path.append(f"H{LEFT + column}V{base - top * height / most:.1f}")
        path.append(f"H{WIDTH - RIGHT}V{base}Z")
        self.label(f"{name}, max {number(most)}", base - 4)
        self.parts.append(f'<path class="band" fill-opacity=".55" d="{"".join(path)}"/>')
        self.y += BAND

    def draw_rows(self, threads):
        height = 15 if len(threads) <= MOST_TALL else 3
        if height == 3:
            self.label(f"threads {threads[0]} to", self.y + 10)
            self.label(f"{threads[-1]}, a row each", self.y + 23)
        for thread in threads:
            bar = height - 4 if height > 3 else 2
            if height > 3:
                function = self.told.functions.get(thread)
                self.label(f"{thread} {function}" if function else str(thread), self.y + 11)
            shapes = collections.defaultdict(list)
            for style, column, width, top, tall in joined(self.rows[thread], bar):
                shapes[style].append(f"M{LEFT + column} {self.y + 2 + top:g}h{width}v{tall:g}h-{width}z")
            if thread in self.ended:
                shapes["ended"].append(f"M{self.x(self.ended[thread]):.1f} {self.y}h2v{height - 1}h-2z")
            for style, paths in sorted(shapes.items(), key=lambda it: it[0] in OWN):
                kind = f'class="{style}"' if style in OWN else f'class="wait" fill="url(#{style})"'
                self.parts.append(f'<path {kind} d="{"".join(paths)}"/>')
            self.y += height

    def axis(self):
        self.y += 6
        step = nice((self.last - self.first) / 7)
        clock = -(-self.first // step) * step
        while clock <= self.last:
            x = self.x(clock)
            anchor = "middle" if x < WIDTH - 40 else "end"
            self.parts.append(f'<path class="grid" d="M{x:.1f} {TOP}V{self.y}"/><text class="faint" x="{x:.1f}" '
                              f'y="{self.y + 12}" text-anchor="{anchor}">{number(clock)}</text>')
            clock += step
        self.y += 22

    def legend(self, more):
        entries = [("run", "runs"), *[("ready", "ready, not chosen")] * bool(self.told.ready),
                   *[("ended", "ended")] * bool(self.ended), *sorted(self.labels.items(),
                                                                     key=lambda it: (it[0] != "accept", it[1]))]
        x, self.y = LEFT, self.y + 6
        for style, text in entries:
            width = 26 + 6.2 * len(text)
            if x + width > WIDTH - RIGHT:
                x, self.y = LEFT, self.y + 17
            fill = f'class="{style}"' if style in OWN else f'class="wait" fill="url(#{style})"'
            self.parts.append(f'<rect {fill} x="{x}" y="{self.y}" width="14" height="10"/><text x="{x + 19}" '
                              f'y="{self.y + 9}">{escape.text(text)}</text>')
            x += width
        self.y += 24
        if more > 0:
            self.parts.append(f'<text x="{LEFT}" y="{self.y}">and {number(more)} more threads</text>')
            self.y += 16


def joined(row, bar):
    """The rectangles of a row: style, first column, width, and top and height within the bar. A column has its wait as
    the ground, and on it readiness and work, each as high as its share; neighbours that are alike are joined."""
    layers = collections.defaultdict(list)
    for column, cell in sorted(row.items()):
        run, ready = (shade(cell.get(kind, 0) if kind in cell else None) for kind in ("run", "ready"))
        waits = [(share, kind) for kind, share in cell.items() if kind not in ("run", "ready")]
        if waits:
            layers["ground"].append((column, max(waits)[1], 1))
        if ready:
            layers["ready"].append((column, "ready", min(ready + run, 1)))
        if run:
            layers["run"].append((column, "run", run))
    for marks in layers.values():
        start, before = None, None
        for column, kind, share in [*marks, (None, None, None)]:
            if before and (column != before[0] + 1 or (kind, share) != before[1:]):
                height = bar * before[2]
                yield before[1], start, before[0] + 1 - start, bar - height, height
                start = column
            elif before is None:
                start = column
            before = (column, kind, share)


def shade(share):
    """A share of a column in steps, at least one if there is any."""
    return 0 if share is None else min(max(round(share * SHADES), 1), SHADES) / SHADES


def nice(step):
    """A step of 1, 2 or 5 times a power of ten that isn't below this one."""
    power = 1
    while power * 10 <= step:
        power *= 10
    return next((int(power * it) for it in (1, 2, 5, 10) if power * it >= step), power * 10) or 1
