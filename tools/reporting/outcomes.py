"""Requests one by one: a table of latencies by what came of them, and a row for each as CSV."""
import collections, csv

from runs import figures
from runs.names import Names
from runs.story import Item, Request, Segment

from .columns import counted, number, table

MOST_GROUPS = 12  # of a table
MOST_OUTPUTS = 100  # of a request that a row has
COLUMNS = ("request", "line", "value", "arrived", "taken", "first", "last", "thread", "function", "outputs")


class Entry:
    """A request: the line of the trace with it, its value, its clocks, its thread, and its outputs."""

    __slots__ = ("line", "value", "arrived", "taken", "thread", "function", "first", "last", "outputs")

    def __init__(self, line, value, arrived):
        self.line, self.value, self.arrived = line, value, arrived
        self.taken = self.thread = self.function = self.first = self.last = None
        self.outputs = []

    def answer(self, value, clock):
        self.first, self.last = self.first or clock, clock
        if len(self.outputs) < MOST_OUTPUTS:
            self.outputs.append(value)


class Requests:
    """Collects the requests of a story in the order in which they came. Outputs answer the request of their thread, or
    those that `answers` says (docs/REPORT.md)."""

    def __init__(self, story, answers=None):
        self.story, self.answers = story, answers
        self.names = Names(story.places, story.keys)
        self.entries, self.seen, self.outputs = [], 0, 0
        self.of_thread = collections.defaultdict(list)  # the requests of a thread whose function isn't known yet
        self.open = collections.defaultdict(collections.deque)  # by value, for --answers value
        self.tellers = {Item: self.item, Segment: self.segment, Request: lambda it: None}

    def tell(self, it):
        if tell := self.tellers.get(type(it)):
            tell(it)

    def item(self, it):
        self.seen += 1
        if it.channel is None and not it.dropped:
            entry = Entry(self.seen, it.value, it.time)
            self.entries.append(entry)
            if self.answers == "value":
                self.open[it.value].append(entry)

    def segment(self, it):
        self.names.learn(it)
        if it.request is not None:
            entry = self.entries[it.request - 1]
            entry.taken, entry.thread, entry.function = it.start, it.thread, self.names.function(it.thread)
        for value in () if it.cut else it.outputs:
            if entry := self.answered(it.thread, value):
                entry.answer(value, it.start + it.cost)

    def answered(self, thread, value):
        """The request that an output answers."""
        count, self.outputs = self.outputs, self.outputs + 1
        if self.answers == "first":
            return self.entries[count] if count < len(self.entries) else None
        if self.answers == "value":
            return self.open[value].popleft() if self.open[value] else None
        under_way = self.story.taken.get(thread)
        return self.entries[under_way[0] - 1] if under_way else None


class Rows(Requests):
    """Writes a row for each request that came, as CSV."""

    def __init__(self, file, story, answers=None):
        super().__init__(story, answers)
        self.file = file

    def finish(self):
        writer = csv.writer(self.file, lineterminator="\n")
        writer.writerow(COLUMNS)
        for count, it in enumerate(self.entries, 1):
            writer.writerow((count, it.line, it.value, it.arrived, it.taken, it.first, it.last, it.thread, it.function,
                             " ".join(map(str, it.outputs))))


class Groups(Requests):
    """A table of the latencies to the last answer, by the first output, the value or the function of the requests."""

    HEADS = {"output": "first output", "input": "value", "function": "function"}

    def __init__(self, way, story, answers=None):
        super().__init__(story, answers)
        self.way = way

    def key(self, it):
        if self.way == "output":
            return it.outputs[0] if it.outputs else None
        return it.value if self.way == "input" else it.function

    def groups(self):
        """For each key how many requests there are, and the latencies of those that were answered."""
        found = collections.defaultdict(lambda: [0, []])
        for it in self.entries:
            group = found[self.key(it)]
            group[0] += 1
            if it.last is not None:
                group[1].append(max(it.last - it.arrived, 0))
        return sorted(found.items(), key=lambda group: -group[1][0])

    def lines(self, unit, most=MOST_GROUPS):
        rows, groups = [], self.groups()
        for key, (count, latencies) in groups[:most]:
            ranks = [unit.shown(it) for it in figures.spread(latencies).values()]
            rows.append([number(count), *ranks, "none" if key is None else str(key)])
        yield from table(["requests", f"min, {unit.name}", "p50", "p90", "p99", "max", self.HEADS[self.way]], rows)
        if (more := len(groups) - most) > 0:
            yield f"{counted(more, 'more group')}, with {counted(sum(it[0] for _, it in groups[most:]), 'request')}"
