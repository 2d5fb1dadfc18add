"""What came of a run, by its log alone and in one quick pass: requests, who took and answered them, who waits where at
the end, what was dropped, and the stop. story.py tells more, and takes longer.
"""
import collections

from .story import END, Unfit

CUT = ("trap", "nochunk", "fuel", "threads")  # stops that cut a segment

Wait = collections.namedtuple("Wait", "thread node since until")
Wait.__doc__ = "A thread that waited at a node from one clock to another: to its choice, or to the end of the run."


class Outcome:
    """The outcome of a log, over the places of its source (places.py). Requests are numbered from 0 in the order in
    which they were taken, which is that in which they were delivered. Waits of `long_wait` ticks and more are kept, but
    those at `accept`."""

    def __init__(self, log, places, long_wait=float("inf")):
        self.places, self.log, self.long_wait = places, log, long_wait
        self.items = []  # for each event that came, in the order of the trace, whether it was dropped
        self.delivered, self.values = [], []  # for each arrival that was delivered, the number from 0 of its line; its value
        self.dropped = []  # the numbers of the lines that were dropped
        self.takers, self.taken_at = [], []  # for each request that was taken, its thread and the clock
        self.answers = []  # for each request that was taken, the outputs of its thread up to its next request
        self.outputs = []  # all outputs in their order: the thread, the value, and the request that the thread has, or None
        self.keys, self.accepts = {}, set()  # the key of each node; the nodes at which a thread is at `accept`
        self.waiting = {}  # thread: the node at which it waits at the end, and since when
        self.under_way = {}  # thread: the request that it took last, if the thread hasn't ended
        self.threads = 1  # above the greatest number of a thread that ran
        self.long_waits = []
        self.clock = self.cost = self.start = self.thread = self.node = 0  # the last three of the last segment
        self.least_free = float("inf")  # chunks
        self.stop = ()
        try:
            self.read(log)
            self.finish()
        except (IndexError, ValueError, KeyError):
            raise Unfit("the log doesn't fit the source, or has no stop") from None

    def read(self, log):
        tellers = {"run": self.run, "out": self.out, "block": self.block, "end": self.end}
        tellers |= {"event": self.event, "drop": self.event, "stop": self.stopped}
        for line in log.splitlines():
            fields = line.split(" ")
            if fields[0] != "edge":
                tellers[fields[0]](fields)

    def run(self, fields):
        self.start, thread, node = int(fields[1]), int(fields[2]), int(fields[3])
        self.thread, self.node = thread, node
        before = self.waiting.pop(thread, None)
        if node in self.accepts:
            self.under_way[thread] = len(self.takers)
            self.takers.append(thread)
            self.taken_at.append(self.start)
            self.answers.append([])
        elif before and self.start - before[1] >= self.long_wait:
            self.long_waits.append(Wait(thread, node, before[1], self.start))

    def out(self, fields):
        value, request = int(fields[2]), self.under_way.get(self.thread)
        self.outputs.append((self.thread, value, request))
        if request is not None:
            self.answers[request].append(value)

    def block(self, fields):
        node = int(fields[2])
        if node not in self.keys:
            self.learn(node, fields[3])
        self.spend(fields[4], fields[5])
        self.waiting[self.thread] = (node, self.clock)

    def end(self, fields):
        self.spend(fields[2], fields[3])
        self.under_way.pop(self.thread, None)
        self.threads = max(self.threads, self.thread + 1)

    def spend(self, cost, free):
        cost, free = int(cost), int(free)
        self.clock = self.start + cost
        self.cost += cost
        if free < self.least_free:
            self.least_free = free

    def event(self, fields):
        self.clock = int(fields[1])
        number, is_dropped = len(self.items), fields[0] == "drop"
        self.items.append(is_dropped)
        if is_dropped:
            self.dropped.append(number)
        elif fields[2] == "arrive":
            self.delivered.append(number)
            self.values.append(int(fields[3]))

    def learn(self, node, text):
        key = tuple(map(int, text.split("<")))
        self.places.path(key)  # raises IndexError where the source has no such sites
        self.keys[node] = key
        if self.places.callee(key) == "accept":
            self.accepts.add(node)

    def stopped(self, fields):
        self.stop = tuple(fields[1:])
        if self.stop[0] in CUT:
            self.spend(*fields[-2:])

    def finish(self):
        if not self.stop:
            raise ValueError
        self.threads = max([self.threads, self.thread + 1, *(it + 1 for it in self.waiting)])
        for thread, (node, since) in self.waiting.items():
            if node not in self.accepts and self.clock - since >= self.long_wait:
                self.long_waits.append(Wait(thread, node, since, self.clock))

    def by_request(self, pairing=None):
        """The outputs of each request that was taken: of its thread; or with `first` the N-th output is that of the
        N-th request; or with `value` an output is that of the first request of its value that has none."""
        if pairing is None:
            return self.answers
        found = [[] for _ in self.takers]
        if pairing == "first":
            for outputs, (_, value, _) in zip(found, self.outputs):
                outputs.append(value)
            return found
        open_requests = collections.defaultdict(collections.deque)
        for request, value in enumerate(self.values[: len(found)]):
            open_requests[value].append(request)
        for _, value, _ in self.outputs:
            if open_requests[value]:
                found[open_requests[value].popleft()].append(value)
        return found

    def callee(self, node):
        return self.places.callee(self.keys[node]) if node > END else "start"
