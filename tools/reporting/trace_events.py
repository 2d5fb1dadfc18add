"""A run in the Trace Event format, which Perfetto and Chromium's tracing page read: JSON, written
as the log comes.

A tick is a microsecond of the format. Process 1 is the server with a row for each thread, process 2
what comes from outside: arrivals, and a row for each channel. What the log leaves out, the use of
resources, the number of threads that live and the values of calls, comes from a replay of the source
(replay.py), as far as it goes.
"""
import json

from runs.names import Names
from runs.story import END, Edge, Item, Request, Segment, Stop

SERVER, OUTSIDE = 1, 2  # processes
ARRIVALS = 0  # the row of arrivals; channel c has row c + 1
MOST_OUTPUTS = 100  # of a segment that are told


quoted = json.dumps  # a text as JSON


class TraceEvents:
    """Writes the events of a story to a text file."""

    def __init__(self, file, story, title, chunks, ready):
        self.file, self.story, self.chunks, self.ready, self.replay = file, story, chunks, ready, ready.replay
        self.names = Names(story.places, story.keys)
        self.rows, self.counts = set(), {}  # `counts` has the last number of each counter
        self.called = None  # the call from which the thread of a segment went on
        self.ends = {}  # thread: the clock at the end of its last segment, while it waits
        self.answering = {}  # request: a tick in the segment that took it, and then in the last one with an answer
        self.quoted_nodes = {}
        self.separator = "[\n"
        file.write('{"displayTimeUnit":"ns","otherData":{"unit":"1 us is a tick of the run\'s clock"},"traceEvents":')
        self.name_process(SERVER, f"{title} (1 us is a tick)")
        self.name_process(OUTSIDE, "from outside")
        self.tellers = {Segment: self.segment, Item: self.item, Request: self.request, Stop: self.stop,
                        Edge: lambda it: None}
        if not self.replay.is_lost:
            self.count("live threads", "threads", 0, self.replay.live)

    def tell(self, happening):
        if isinstance(happening, Segment):
            self.called = self.replay.blocked.get(happening.thread)
        self.ready.tell(happening)
        self.tellers[type(happening)](happening)

    def finish(self):
        self.file.write("\n]}\n")

    def put(self, kind, pid, tid, ts, rest):
        """Writes an event, of which `rest` is JSON."""
        self.file.write(f'{self.separator}{{"ph":"{kind}","pid":{pid},"tid":{tid},"ts":{ts},{rest}}}')
        self.separator = ",\n"

    def name_process(self, pid, name):
        self.put("M", pid, 0, 0, f'"name":"process_name","args":{{"name":{quoted(name)}}}')
        self.put("M", pid, 0, 0, f'"name":"process_sort_index","args":{{"sort_index":{-pid}}}')

    def name_row(self, pid, tid, name):
        self.put("M", pid, tid, 0, f'"name":"thread_name","args":{{"name":{quoted(name)}}}')
        self.put("M", pid, tid, 0, f'"name":"thread_sort_index","args":{{"sort_index":{tid}}}')

    def count(self, name, what, ts, number):
        """A counter, where its number is another than before."""
        if self.counts.get(name) != number:
            self.counts[name] = number
            self.put("C", SERVER, 0, ts, f'"name":"{name}","args":{{"{what}":{number}}}')

    def node(self, node):
        """The name of a node as JSON, made once."""
        if node not in self.quoted_nodes:
            name = self.names.wait(node) if node > END else "start"
            self.quoted_nodes[node] = quoted(self.names.node(node)), quoted(name)
        return self.quoted_nodes[node]

    def segment(self, it):
        """A segment, the wait before it, and what it changes."""
        end = it.start + it.cost
        if self.names.learn(it) or it.waited_since is None:
            self.name_row(SERVER, it.thread, self.names.thread(it.thread))
        if it.waited_since is not None:
            since = it.start if self.ready.since is None else max(self.ready.since, it.waited_since)
            self.wait(it.thread, it.node, it.waited_since, since, self.called)
            if since < it.start:
                told = f'"dur":{it.start - since},"name":"ready","cat":"ready"'
                self.put("X", SERVER, it.thread, since, f'{told},"args":{{"from":{self.node(it.node)[0]}}}')
        to = '"cut"' if it.cut else self.node(it.end_node)[0]
        told = f'"from":{self.node(it.node)[0]},"to":{to},"instructions":{it.cost},"free chunks":{it.free}'
        if it.request is not None:
            told += f',"request":{it.request}'
        if it.outputs:
            told += f',"outputs":{json.dumps(it.outputs[:MOST_OUTPUTS])}'
        self.put("X", SERVER, it.thread, it.start, f'"dur":{it.cost},"name":"run","cat":"segment","args":{{{told}}}')
        self.flow(it)
        self.count("held chunks", "chunks", end, self.chunks - it.free)
        self.count_replayed(it.start, end)
        self.ends[it.thread] = (it.end_node, end)
        if it.end_node == END:
            self.names.forget(it.thread)
            del self.ends[it.thread]

    def count_replayed(self, start, end):
        """Units in use and live threads: what `take` takes at the start of the segment, all else at its end, as the log
        has no clock for it."""
        if self.replay.is_lost:
            return
        self.count("live threads", "threads", end, self.replay.live)
        if self.called and self.called[0] == "take":
            _, resource, amount = self.called
            self.count(f"resource {resource} in use", "units", start,
                       self.counts.get(f"resource {resource} in use", 0) + amount)
        for resource, units in self.replay.uses.items():
            self.count(f"resource {resource} in use", "units", end, units)

    def wait(self, thread, node, since, until, called):
        at, name = self.node(node)
        told = f'"at":{at}'
        if called and called[1:] and not self.replay.is_lost:
            told += f',"call":"{called[0]}({", ".join(map(str, called[1:]))})"'
        self.put("X", SERVER, thread, since, f'"dur":{until - since},"name":{name},"cat":"wait","args":{{{told}}}')

    def flow(self, it):
        """The steps of a request's flow in a segment: where it is taken, and where answers are put.
        The last answer is its end, and told with the request."""
        if it.request is not None:
            self.answering[it.request] = it.start
        under_way = self.story.taken.get(it.thread)
        if it.outputs and under_way:
            if self.answering[under_way[0]] < it.start:
                self.put_flow("t", it.thread, self.answering[under_way[0]], under_way[0])
            self.answering[under_way[0]] = it.start + it.cost - 1

    def put_flow(self, kind, thread, ts, request):
        self.put(kind, SERVER, thread, ts, f'"id":{request},"name":"request","cat":"request","bp":"e"')

    def request(self, it):
        if it.number in self.answering:  # not if the log breaks off in the segment that took it
            self.put_flow("f", it.thread, self.answering.pop(it.number), it.number)

    def item(self, it):
        row = ARRIVALS if it.channel is None else it.channel + 1
        if row not in self.rows:
            self.rows.add(row)
            self.name_row(OUTSIDE, row, "arrivals" if row == ARRIVALS else f"channel {it.channel}")
        told = f'"value":{it.value},"clock":{it.clock}'
        if it.dropped:
            self.put("i", OUTSIDE, row, it.clock, f'"s":"p","name":"drop","cat":"drop","args":{{{told}}}')
        elif it.channel is None:
            self.put("X", OUTSIDE, row, it.time,
                     f'"dur":1,"name":"arrive","cat":"arrival","args":{{{told},"request":{it.request}}}')
            self.put("s", OUTSIDE, row, it.time, f'"id":{it.request},"name":"request","cat":"request"')
        else:
            self.put("X", OUTSIDE, row, it.time, f'"dur":1,"name":"data","cat":"message","args":{{{told}}}')

    def stop(self, it):
        """The waits that are still under way, drawn to the stop, and the stop."""
        for thread, (node, since) in self.ends.items():
            if node is not None:
                self.wait(thread, node, since, it.clock, self.replay.blocked.get(thread))
        self.put("i", SERVER, it.thread or 0, it.clock, f'"s":"g","name":{quoted(it.text)},"cat":"stop"')
