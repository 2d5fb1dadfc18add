"""Folded stacks, a line each: functions from the outermost to the innermost with `;` between, a
space, and a number. Flame graph tools read them.

By instructions, a segment's cost stands under the stack at which the segment ended: its call path,
and last the blocking call. So the costs are exact and their sum is the run's, but within a segment
a function is not told from those that it called or that called it. By waits, the ticks from the end
of a segment to the next one of its thread stand under the stack of the blocking call, and the part of them in which
the thread was ready below that; a wait that is under way at the stop ends there.
"""
import collections

from runs.names import Names
from runs.places import MOST_SITES_IN_A_KEY
from runs.story import END, Segment, Stop

UNKNOWN = "[thread]"  # the function that a thread started in, where the log and the source don't tell it
CUT_ABOVE = "[..]"  # calls above the eight that a key has
CUT, ENDED = "[cut]", "[end]"
READY = "[ready]"  # below a wait: the part of it in which the thread was ready and not chosen


class Folded:
    """Sums the segments or waits of a story by their stacks."""

    def __init__(self, file, story, by_waits, ready=None):
        self.file, self.by_waits, self.ready = file, by_waits, ready
        self.places, self.keys = story.places, story.keys
        self.names = Names(story.places, story.keys)
        self.sums = collections.Counter()
        self.waiting = {}  # thread: node, since

    def tell(self, it):
        if self.ready and self.by_waits:
            self.ready.tell(it)
        if isinstance(it, Segment):
            (self.wait if self.by_waits else self.spend)(it)
        elif isinstance(it, Stop) and self.by_waits:
            for node, since in self.waiting.values():
                self.sums[self.stack(node)] += it.clock - since

    def spend(self, it):
        self.names.learn(it)
        if it.end_node is not None and it.end_node > END:
            self.sums[self.stack(it.end_node)] += it.cost
        else:
            self.sums[self.root(self.names.function(it.thread)) + (CUT if it.cut else ENDED,)] += it.cost
        if it.end_node == END:
            self.names.forget(it.thread)

    def wait(self, it):
        if it.waited_since is not None:
            node, since = self.waiting.pop(it.thread)
            ready = it.start if not self.ready or self.ready.since is None else max(self.ready.since, since)
            self.sums[self.stack(node)] += ready - since
            self.sums[(*self.stack(node), READY)] += it.start - ready
        if it.end_node is not None and it.end_node > END:
            self.waiting[it.thread] = (it.end_node, it.start + it.cost)

    def stack(self, node):
        """The functions of a node's key and the blocking call, below those that started the thread
        where the source leaves one way."""
        key = self.keys[node]
        path = self.places.path(key)
        above = (CUT_ABOVE,) if len(key) >= MOST_SITES_IN_A_KEY else self.root(path[0])[:-1]
        return (*above, *path, self.places.callee(key))

    def root(self, function):
        """The function of a thread, below the one that starts such threads, and so on, as long as
        the source has one alone, which nothing calls."""
        path = [function or UNKNOWN]
        while function and len(starters := self.places.starters.get(function, ())) == 1:
            function = next(iter(starters))
            if function in path or not self.places.is_only_started(function):
                break
            path.insert(0, function)
        return tuple(path)

    def finish(self):
        for stack, number in sorted(self.sums.items()):
            if number:
                self.file.write(f"{';'.join(stack)} {number}\n")
