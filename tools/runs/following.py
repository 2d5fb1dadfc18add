"""What only the values of calls tell of a run: who holds units of which resource, which threads wait in a circle for one
another, and how long a thread was ready and wasn't chosen. The run is made once more beside its log (replay.py).
"""
import collections

from .replay import Replay
from .story import END, Item, Segment

Step = collections.namedtuple("Step", "thread resource node")
Step.__doc__ = "A step of a circle: the thread that waits for this resource, and the node at which it does."

Ready = collections.namedtuple("Ready", "thread node since until")
Ready.__doc__ = "A thread that was ready from one clock to another without being chosen; `node` is where it waited, or 0 if it never ran."


class Lost(Exception):
    """The source can't be followed beside this log."""


class Holders(Replay):
    """A replay that notes for each thread the units that it took less those that it gave back."""

    def __init__(self, source):
        super().__init__(source)
        self.held = collections.Counter()  # by thread and resource

    def give(self, resource, amount):
        self.held[self.running, resource] -= amount
        return super().give(resource, amount)

    def resumed(self, thread):
        name, *arguments = self.blocked[thread]
        if name == "take":
            self.held[thread, arguments[0]] += arguments[1]
        return super().resumed(thread)


def happenings(log):
    """The items and the segments of a log, without what a replay doesn't read."""
    thread, start, node, outputs = None, 0, 0, []
    for line in log.splitlines():
        word, *fields = line.split(" ")
        if word == "run":
            start, thread, node, outputs = int(fields[0]), int(fields[1]), int(fields[2]), []
        elif word == "out":
            outputs.append(int(fields[1]))
        elif word == "block" or word == "end":
            is_end = word == "end"
            cost = int(fields[1] if is_end else fields[3])
            yield Segment(thread, start, cost, node, END if is_end else int(fields[1]), None, outputs, None, None,
                          False)
        elif word == "event":
            channel = int(fields[2]) if fields[1] == "data" else None
            yield Item(None, int(fields[0]), channel, int(fields[-1]), False, None)


def followed(source, log):
    """The replay at the end of a log."""
    replay = Holders(source)
    for it in happenings(log):
        replay.tell(it)
    if replay.is_lost:
        raise Lost
    return replay


def circle(outcome, replay, caps):
    """The steps of a circle of threads that wait for one another's resources at the end of a run and can't go on
    whatever the others do; none if there is none. It begins with the least resource."""
    given = {resource for (_, resource), units in replay.held.items() if units < 0}  # by others than took them
    waits = {}  # thread: the resource for which it waits
    for thread, (name, *arguments) in replay.blocked.items():
        if name == "take" and arguments[0] not in given and replay.uses[arguments[0]] + arguments[1] > caps.get(arguments[0], 0):
            waits[thread] = arguments
    stuck = those_stuck(waits, replay, caps)
    nexts = collections.defaultdict(dict)  # resource: the resources for which its holders wait, each with the least thread
    for thread in sorted(stuck, reverse=True):
        for (holder, resource), units in replay.held.items():
            if holder == thread and units > 0 and resource not in given:
                nexts[resource][stuck[thread][0]] = thread
    for first in sorted(nexts):
        if steps := way_back(first, nexts):
            return [Step(thread, resource, outcome.waiting[thread][0]) for thread, resource in steps]
    return []


def those_stuck(waits, replay, caps):
    """The threads that can't go on even if each other thread gives back all that it holds."""
    stuck = dict(waits)
    while True:
        free = dict(caps)
        for (thread, resource), units in replay.held.items():
            if thread in stuck and units > 0:
                free[resource] -= units
        left = {thread: (resource, units) for thread, (resource, units) in stuck.items() if units > free[resource]}
        if len(left) == len(stuck):
            return left
        stuck = left


def way_back(first, nexts):
    """The shortest way from a resource to itself, as pairs of a thread and the resource for which it waits."""
    found, ways = {first}, collections.deque([(first, [])])
    while ways:
        at, way = ways.popleft()
        for resource, thread in sorted(nexts.get(at, {}).items()):
            if resource == first:
                return [*way, (thread, resource)]
            if resource not in found:
                found.add(resource)
                ways.append((resource, [*way, (thread, resource)]))
    return []


class Readiness:
    """For how long each thread was ready before it was chosen. From when on a thread is ready that sleeps, yields or
    hasn't run is known when it begins to wait; the others are looked at before each choice."""

    def __init__(self, source, caps):
        self.replay, self.caps = Holders(source), caps
        self.ready_from = {0: 0}  # thread: the clock from which it is ready; it may lie ahead
        self.nodes = {0: 0}  # thread: the node at which it waits
        self.looked_at = {}  # the threads at other calls, each with the clock at which it blocked
        self.longest = {}  # thread: its longest Ready

    def tell(self, it):
        if not isinstance(it, Segment):
            self.replay.tell(it)
            return
        self.look(it.start)
        self.note(it.thread, it.start)
        before = self.replay.started
        self.replay.tell(it)
        clock = it.start + it.cost
        for thread in range(before, self.replay.started):
            self.ready_from[thread], self.nodes[thread] = clock, 0
        if it.end_node > END and it.thread in self.replay.blocked:
            self.block(it.thread, it.end_node, clock)

    def block(self, thread, node, clock):
        self.nodes[thread] = node
        name, *arguments = self.replay.blocked[thread]
        if name in ("sleep", "yield"):
            self.ready_from[thread] = clock + max([0, *arguments])
        elif name != "accept":  # (there the request waits, whoever takes it, and the gate may hold it back on purpose)
            self.looked_at[thread] = clock

    def look(self, clock):
        """Notes which of the threads to be looked at are ready."""
        for thread, at in self.looked_at.items():
            if self.is_ready(self.replay.blocked[thread], at, clock):
                self.ready_from.setdefault(thread, clock)
            else:
                self.ready_from.pop(thread, None)

    def is_ready(self, call, at, clock):
        name, *arguments = call
        if name == "take":
            return self.replay.uses[arguments[0]] + arguments[1] <= self.caps.get(arguments[0], 0)
        return bool(self.replay.channels[arguments[0]]) or name == "waitfor" and clock >= at + max(arguments[1], 0)

    def note(self, thread, clock):
        """Notes a wait that ends."""
        self.looked_at.pop(thread, None)
        it = Ready(thread, self.nodes.pop(thread, 0), self.ready_from.pop(thread, clock), clock)
        before = self.longest.setdefault(thread, it)
        if it.until - it.since > before.until - before.since:
            self.longest[thread] = it

    def finish(self, clock):
        """Notes the waits that go on at the end. Answers the longest for each thread."""
        if self.replay.is_lost:
            raise Lost
        self.look(clock)
        for thread in list(self.nodes):
            self.note(thread, clock)
        return self.longest


def longest_ready(source, outcome, caps):
    """For each thread the longest time that it was ready and wasn't chosen."""
    readiness = Readiness(source, caps)
    for it in happenings(outcome.log):
        readiness.tell(it)
    return readiness.finish(outcome.clock)
