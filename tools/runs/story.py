"""What a log tells, in order and as it is read: segments with the waits before them, arrivals,
messages, requests with their answers, and the stop.

`Story(places, trace).happenings(lines)` reads one line at a time. It keeps the threads that haven't
ended, the nodes, and the arrivals that no thread has taken, so its memory doesn't grow with the
length of the log.
"""
import collections

START, END = 0, 1  # the nodes at which threads start and end

Segment = collections.namedtuple("Segment", "thread start cost node end_node free outputs waited_since request cut")
Segment.__doc__ = """A segment: its thread, the clock at its choice, its cost, the node that it was
taken from, and the one at which it ended (None if it was cut). `free` chunks were free at its end.
`waited_since` is the clock from which the thread waited, None at its first segment. `request` is
what its `accept` took."""

Item = collections.namedtuple("Item", "time clock channel value dropped request")
Item.__doc__ = """What came from outside: its time in the trace, and the clock at which it was
delivered or dropped. An arrival has no channel (None) and, if it was delivered, the number of its
request, from 1 as in a report. A message has no request."""

Request = collections.namedtuple("Request", "number arrived taken thread first last answers")
Request.__doc__ = """A request that an `accept` took, told when no more answers can come: `arrived`
by the trace, `taken` at the choice. `first` and `last` are the clocks at the ends of the segments
with its first and its last answer, None without one, and `answers` says how many there are."""

Edge = collections.namedtuple("Edge", "start end count cost changes")
Edge.__doc__ = "The segments from one node to another: how many there were, and the averages of their cost and of the change of each resource, in 256ths."

Stop = collections.namedtuple("Stop", "clock text thread")
Stop.__doc__ = "The last line of a log, with the clock at that time, and the thread whose segment was cut, if one was."


class Unfit(Exception):
    """The log, the source and the trace don't fit together, or a line is none of a log."""


class Story:
    """A log as it is read, over the places of its source and the lines of its trace."""

    def __init__(self, places, trace):
        self.places, self.trace = places, iter(trace)
        self.keys = {}  # node: its key
        self.clock = 0  # at the end of the last segment, or at the last event
        self.delivered = 0  # how many arrivals
        self.waiting = collections.deque()  # the numbers and times of arrivals that no thread has taken
        self.nodes = {}  # thread: the node at which it waits, and since when
        self.taken = {}  # thread: its request under way, as a list in the order of Request
        self.running = None  # thread, clock, node, waited_since, request
        self.outputs = []

    def happenings(self, lines):
        """Each happening that the lines tell. `lines` are texts, with or without their ends."""
        tellers = {"run": self.run, "out": self.out, "block": self.block, "end": self.end, "edge": self.edge,
                   "stop": self.stop}
        tellers |= {"event": self.event, "drop": self.event}
        for number, line in enumerate(lines, 1):
            fields = line.split()
            try:
                yield from tellers[fields[0]](fields)
            except (KeyError, IndexError, ValueError, TypeError):
                raise Unfit(f"line {number} of the log, {line.strip()!r}, doesn't fit the source and the trace, or is no line of a log") from None
        yield from self.left()

    def run(self, fields):
        self.clock, thread, node = map(int, fields[1:4])
        before = self.nodes.pop(thread, None)
        request = None
        if node > END and self.places.callee(self.keys[node]) == "accept":
            if thread in self.taken:
                yield Request(*self.taken.pop(thread))
            number, arrived = self.waiting.popleft()
            request = number
            self.taken[thread] = [number, arrived, self.clock, thread, None, None, 0]
        self.running = (thread, self.clock, node, before[1] if before else None, request)
        self.outputs = []

    def out(self, fields):
        self.outputs.append(int(fields[2]))
        return ()

    def block(self, fields):
        node = int(fields[2])
        if node not in self.keys:
            key = tuple(map(int, fields[3].split("<")))
            self.places.path(key)  # raises IndexError where the source has no such sites
            self.keys[node] = key
        yield self.segment(int(fields[4]), node, int(fields[5]))
        self.nodes[int(fields[1])] = (node, self.clock)

    def end(self, fields):
        yield self.segment(int(fields[2]), END, int(fields[3]))
        if int(fields[1]) in self.taken:
            yield Request(*self.taken.pop(int(fields[1])))

    def segment(self, cost, end_node, free):
        """The segment that ends here; notes its answers for the request of its thread."""
        thread, start, node, waited_since, request = self.running
        self.clock, self.running = start + cost, None
        if self.outputs and thread in self.taken:
            entry = self.taken[thread]
            entry[4:] = [entry[4] or self.clock, self.clock, entry[6] + len(self.outputs)]
        return Segment(thread, start, cost, node, end_node, free, self.outputs, waited_since, request, end_node is None)

    def event(self, fields):
        said = next(self.trace, "").split()
        self.clock = int(fields[1])
        is_dropped, is_arrival = fields[0] == "drop", fields[2] == "arrive"
        if said[0] != fields[2] or said[2:] != fields[3:]:
            raise ValueError
        number = None
        if is_arrival and not is_dropped:
            self.delivered += 1
            number = self.delivered
            self.waiting.append((number, int(said[1])))
        yield Item(int(said[1]), self.clock, None if is_arrival else int(fields[3]), int(fields[-1]), is_dropped,
                   number)

    def edge(self, fields):
        start, end, count, cost, *changes = map(int, fields[1:])
        yield Edge(start, end, count, cost, changes)

    def stop(self, fields):
        thread = None
        if fields[1] in ("trap", "nochunk", "fuel", "threads"):
            thread = int(fields[2])
            yield self.segment(int(fields[-2]), None, int(fields[-1]))
        yield from self.left()
        yield Stop(self.clock, " ".join(fields), thread)

    def left(self):
        """The requests that are still under way when the log is over."""
        while self.taken:
            yield Request(*self.taken.pop(next(iter(self.taken))))
