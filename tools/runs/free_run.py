"""A run of a source in Python in which any ready thread may be chosen, and its log.

The threads, their calls and their values are those of the source (docs/LANGUAGE.md, "Meaning"); a choice point
delivers, skips ahead and stops as docs/SCHEDULING.md says, "The lawful log". What differs from a run of the program:

- An order (orders.py) chooses the thread, and there is no gate.
- No machine runs, so each statement costs TICKS, and each live thread holds one chunk.
"""
import collections

from explained.commands import OPTIONS
from traces.lines import CHANNELS

from . import replay, tracked
from .finds import caps_of
from .story import END
from .translation import Untranslated

TICKS = 10  # of a statement: the median of the edges of the servers in examples/
MOST_THREADS = 65_535


class Cut(Exception):
    """A segment that doesn't come to its end, with the word of the stop, and of a trap its kind."""

    def __init__(self, stop, kind=""):
        super().__init__(stop)
        self.stop, self.kind = stop, kind


class Edges:
    """The edges of a run with their averages (docs/SCHEDULING.md, "Averages")."""

    def __init__(self):
        self.found = {}

    def note(self, start, end, samples):
        count, averages = self.found.get((start, end), (0, [256 * it for it in samples]))
        if count:
            averages = [it - it // 8 + 32 * sample for it, sample in zip(averages, samples)]
        self.found[start, end] = count + 1, averages

    def lines(self):
        for (start, end), (count, averages) in sorted(self.found.items()):
            yield " ".join(map(str, ["edge", start, end, count, *averages]))


class FreeRun(replay.Replay):
    """A run with options by name, as in many.py, on the events of a trace. `order.choose` gives the thread that runs
    next, of some that are ready. `run` gives the words of its stop, and `lines` has the log then."""

    def __init__(self, source, options, order, events):
        number = lambda name: int(options.get(name, OPTIONS[f"--{name}"].default))
        self.caps, self.order, self.events = caps_of(options), order, collections.deque(events)
        self.fuel, self.chunks, self.backlog = number("fuel"), number("chunks") + number("extra"), number("backlog")
        self.resources = range(1, max(self.caps, default=0) + 1)
        self.clock = self.cost = self.steps = self.most_steps = 0
        self.nodes, self.keys = collections.Counter(), {}  # the node that a thread is at; the node of each key
        self.since = {}  # thread: the clock at which it blocked
        self.lines, self.edges = [], Edges()
        super().__init__(source, tracked.tracked)
        if self.is_lost:
            raise Untranslated("this source is beyond what Python takes")

    def names(self):
        return super().names() | {"tick": self.tick, "at_": tracked.at_, "member_": self.member}

    def tick(self):
        self.steps += 1
        if self.steps > self.most_steps:
            raise Cut("fuel")

    def member(self, members, index, arguments):
        if not 0 <= index < len(members):
            raise Cut("trap", "table")
        return members[index](*arguments)

    def spawn(self, function, argument):
        if self.live == MOST_THREADS:
            raise Cut("threads")
        return super().spawn(function, argument)

    def give(self, resource, amount):
        if resource not in self.caps or not 0 <= amount <= self.uses[resource]:
            raise Cut("trap", "resource")
        return super().give(resource, amount)

    def run(self):
        """Makes the run, one choice point after another."""
        while self.threads:
            self.deliver()
            ready = [it for it in sorted(self.threads) if it not in self.blocked or self.is_ready(it)]
            if ready:
                try:
                    self.choose(self.order.choose(ready))
                except Cut as why:
                    return self.cut(why)
            elif not self.skip():
                return self.stop("idle")
        return self.stop("done")

    def deliver(self):
        """Delivers or drops the events that are due."""
        while self.events and self.events[0].time <= self.clock:
            _, channel, value, _ = self.events.popleft()
            queue = self.arrivals if channel is None else self.channels[channel]
            is_dropped = len(queue) >= self.backlog
            what = f"arrive {value}" if channel is None else f"data {channel} {value}"
            self.lines.append(f"{'drop' if is_dropped else 'event'} {self.clock} {what}")
            if not is_dropped:
                queue.append(value)

    def is_ready(self, thread):
        """Whether a thread that is blocked can run."""
        name, *arguments = self.blocked[thread]
        if name == "accept":
            return bool(self.arrivals)
        if name == "take":
            return self.uses[arguments[0]] + arguments[1] <= self.caps[arguments[0]]
        has_message = name in ("wait", "waitfor") and bool(self.channels[arguments[0]])
        return has_message or name == "yield" or name != "wait" and self.clock >= self.wakes_at(thread)

    def wakes_at(self, thread):
        """The clock at which a `sleep` or a `waitfor` is over."""
        return self.since[thread] + max(self.blocked[thread][-1], 0)

    def skip(self):
        """Advances the clock to the next event, or to where a thread wakes. Answers whether there is one."""
        ahead = [self.wakes_at(thread) for thread, call in self.blocked.items() if call[0] in ("sleep", "waitfor")]
        ahead += [self.events[0].time] if self.events else []
        self.clock = min(ahead, default=self.clock)
        return bool(ahead)

    def choose(self, thread):
        """Runs a thread to where it blocks or ends."""
        self.lines.append(f"run {self.clock} {thread} {self.nodes[thread]}")
        before, start = self.in_use(), self.nodes[thread]
        self.running, self.outputs, self.steps = thread, [], 0
        self.most_steps = (self.fuel - self.cost) // TICKS
        key = self.advance(thread)
        if (cost := self.cost_of_segment()) > self.fuel - self.cost:
            raise Cut("fuel")
        self.spend(cost)
        self.nodes[thread] = self.keys.setdefault(key, len(self.keys) + 2) if key else END
        where = f"block {thread} {self.nodes[thread]} {'<'.join(map(str, key))}" if key else f"end {thread}"
        self.lines.append(f"{where} {cost} {self.free()}")
        self.edges.note(start, self.nodes[thread], [cost, *[now - then for then, now in zip(before, self.in_use())]])

    def advance(self, thread):
        """Makes the steps of a thread. Gives the key of the call at which it blocks, or None if it ends."""
        result = self.resumed(thread) if thread in self.blocked else None
        try:
            call = self.threads[thread].send(result)
        except StopIteration:
            self.live -= 1
            del self.threads[thread]
            return None
        except (self.trap, IndexError):
            raise Cut("trap", "index") from None
        self.refuse(*call)
        self.blocked[thread] = call
        if call[0] == "yield":
            self.order.fall(thread)
        return tracked.key_of(self.threads[thread])

    def refuse(self, name, *arguments):
        """Raises the trap of a call that blocks, if it has one."""
        if name in ("wait", "waitfor") and not 0 <= arguments[0] < CHANNELS:
            raise Cut("trap", "channel")
        if name == "take" and (arguments[0] not in self.caps or not 0 <= arguments[1] <= self.caps[arguments[0]]):
            raise Cut("trap", "resource")

    def cost_of_segment(self):
        return max(self.steps, 1) * TICKS

    def free(self):
        return max(self.chunks - self.live, 0)

    def in_use(self):
        """The uses of all resources up to the last that has a cap, the chunks first."""
        return [self.chunks - self.free(), *[self.uses[it] for it in self.resources]]

    def spend(self, cost):
        """Notes the outputs and the cost of a segment."""
        self.lines += [f"out {self.running} {it}" for it in self.outputs]
        self.clock, self.cost = self.clock + cost, self.cost + cost
        self.since[self.running] = self.clock

    def cut(self, why):
        """Stops within a segment."""
        left = self.fuel - self.cost
        cost = left if why.stop == "fuel" else min(self.cost_of_segment(), left)
        self.spend(cost)
        return self.stop(*[why.stop, self.running, *([why.kind] if why.kind else []), cost, self.free()])

    def stop(self, *words):
        """Ends the log. Gives the words of the stop."""
        self.lines += [*self.edges.lines(), " ".join(map(str, ["stop", *words]))]
        return words
