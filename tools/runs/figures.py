"""The numbers of a whole run: requests, latencies, chunks, and how it stopped."""
import collections, math

from .story import Item, Request, Segment, Stop

RANKS = {"least": 0, "median": 50, "90th": 90, "99th": 99, "greatest": 100}  # in hundredths


def nearest_rank(ordered, hundredths):
    """The number at this rank of a sorted list: always one of them. None of an empty list."""
    return ordered[max(math.ceil(len(ordered) * hundredths / 100), 1) - 1] if ordered else None


def spread(numbers):
    """The ranks of some numbers, by name."""
    ordered = sorted(numbers)
    return {name: nearest_rank(ordered, hundredths) for name, hundredths in RANKS.items()}


class Pairing:
    """Pairs outputs with requests, whichever thread puts them: `first`, the N-th output with the N-th
    request that came, or `value`, an output with the first request of its value that has none."""

    def __init__(self, how):
        self.is_by_value = how == "value"
        self.arrived, self.answered = [], {}  # the time of each request, and the clock of the answer, by number from 0
        self.outputs, self.waiting = 0, collections.defaultdict(collections.deque)

    def come(self, time, value):
        self.waiting[value].append(len(self.arrived))
        self.arrived.append(time)

    def put(self, value, clock):
        number, self.outputs = self.outputs, self.outputs + 1
        if self.is_by_value:
            if not self.waiting[value]:
                return
            number = self.waiting[value].popleft()
        self.answered[number] = clock

    def latencies(self, taken):
        """How long each request took that was taken and answered."""
        return [max(self.answered[it] - time, 0) for it, time in enumerate(self.arrived[:taken]) if it in self.answered]


class Figures:
    """The numbers of a run, of all happenings of its story. Without a pairing the answers to a request
    are the outputs of the thread that took it."""

    def __init__(self, happenings, pairing=None):
        self.pairing = pairing
        self.came = self.dropped = self.taken = self.answered = self.outputs = self.cost = self.segments = 0
        self.least_free = self.stop = None
        self.first, self.last = [], []  # latencies
        tellers = {Item: self.item, Request: self.request, Segment: self.segment, Stop: self.stopped}
        for it in happenings:
            tell = tellers.get(type(it))
            if tell:
                tell(it)
        if pairing:
            self.first = self.last = pairing.latencies(self.taken)
            self.answered = len(self.first)

    def item(self, it):
        if it.channel is None:
            self.came += not it.dropped
            self.dropped += it.dropped
            if self.pairing and not it.dropped:
                self.pairing.come(it.time, it.value)

    def request(self, it):
        self.taken += 1
        if it.answers:
            self.answered += 1
            self.first.append(it.first - it.arrived)
            self.last.append(it.last - it.arrived)

    def segment(self, it):
        self.segments += 1
        self.cost += it.cost
        self.outputs += len(it.outputs)
        for output in it.outputs if self.pairing and not it.cut else ():
            self.pairing.put(output, it.start + it.cost)
        self.least_free = it.free if self.least_free is None else min(self.least_free, it.free)

    def stopped(self, it):
        self.stop = it
