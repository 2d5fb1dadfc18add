"""All layouts that are worth showing for a server: those that are enough for some traces, and those that are
enough for all."""
import collections, struct, subprocess

from runs import many

from . import placements, search
from .trials import MOST_BYTES, Layout, cost, held, jobs, pool_bytes

LARGEST = 65_536  # bytes of the chunks of the first run, for calls within themselves
MOST_LINKED, FEW_MORE = 4, 8  # placements for which few chunks are tried, and numbers of chunks
MOST_LARGE = 3  # sizes of large chunks beside small ones, for each placement
BATCHES = 4  # candidates for each processor before the front is looked at again
REFINED = (16, 32)  # bytes that the sizes of what was found are made larger

ENDS_BADLY = ("trap", "trace", "threads")  # stops of which more memory makes nothing else
NOT_RUN = float("inf")  # the cost of a layout with which a run drops more, or puts less
Safe = collections.namedtuple("Safe", "layout cost")


class NotFound(Exception):
    """No layout is enough."""


def work(given, task):
    """A task of the search, by name: what it found, and how many runs it took."""
    before, (name, *words) = given.trials.runs, task
    found = getattr(given, name)(*words)
    return found, given.trials.runs - before


class Plan:
    """The search over all placements, in as many processes as there are processors."""

    def __init__(self, server, trials, progress):
        self.server, self.trials, self.progress, self.runs = server, trials, progress, 0
        self.placements = placements.placements(server, trials.source)
        self.by_path = {it.max_path: it for it in self.placements}

    def reference(self):
        """One large chunk for each thread: the fewest instructions, and as many chunks as threads that live at once."""
        last = self.placements[-1]
        size = LARGEST if last.is_linked else search.least_chunk(last)
        finder = search.Search(self.trials, 16)
        made = finder.with_plenty(lambda count: Layout(last.max_path, size, count))
        if not made:
            raise NotFound(f"no layout of at most {MOST_BYTES:,} bytes is enough")
        stops = [it.stop for it in made[1] if it.stop in ENDS_BADLY]
        if stops:
            why = "it has to end otherwise, maybe with other options (--caps)"
            raise NotFound(f"with plenty of memory a run ends with `stop {stops[0]}`: {why}")
        self.trials.wanted = made[1]
        found = search.Search(self.trials, max(1, held(made[1]))).one_size(last.max_path, size)
        self.runs += self.trials.runs
        self.trials.runs = 0
        return found

    def enough(self, reference):
        """The front of the layouts that are enough for the traces."""
        finder = search.Search(self.trials, 2 * reference.layout.chunks + 8)
        with many.Workers(jobs(), finder) as workers:
            found = self.one_size(workers, reference)
            found = search.front(found + self.few_chunks(workers, reference))
            found = search.front(found + self.two_sizes(workers, found))
            found = search.front(found + self.refined(workers, found))
            tasks = [("shrunk", it.layout) for it in found if it.layout.extra]
            return search.front(found + [it for it in self.each(workers, tasks) if it])

    def each(self, workers, tasks):
        for found, runs in workers.each(work, tasks):
            self.runs += runs
            self.progress(self.runs)
            yield found

    def one_size(self, workers, reference):
        largest = search.least_chunk(self.placements[-1])
        pairs = [(it.max_path, size) for it in self.placements for size in search.chunk_sizes(it, largest)]
        made = zip(pairs, self.each(workers, [("probe", *it) for it in pairs]))
        probed = sorted((it[1] * chunks, spent, it) for it, told in made if told for chunks, spent in [told])
        found = [reference]
        while probed:
            batch, probed = probed[: BATCHES * jobs()], probed[BATCHES * jobs() :]
            worth = [it for least_bytes, spent, it in batch if not is_beaten(found, least_bytes, spent)]
            found += [it for it in self.each(workers, [("one_size", *it) for it in worth]) if it]
        return search.front(found)

    def few_chunks(self, workers, reference):
        """One chunk for each thread, or a few more: the least size of so many, where calls may link one."""
        linked = placements.thinned([it for it in self.placements if it.is_linked], MOST_LINKED)
        counts = range(reference.layout.chunks, reference.layout.chunks + FEW_MORE)
        tasks = [("least_size", it.max_path, search.least_chunk(it), count) for it in linked for count in counts]
        return [it for it in self.each(workers, tasks) if it]

    def two_sizes(self, workers, found):
        """Large and small chunks: the large ones as small as may be, or as what was found with one size has them."""
        tasks = []
        for it in self.placements:
            known = [one.layout.chunk for one in found if one.layout.max_path == it.max_path][:MOST_LARGE]
            for chunk in dict.fromkeys([search.least_chunk(it), *known]):
                smalls = search.extra_sizes(it, chunk)
                tasks += [("two_sizes", it.max_path, chunk, small, self.most_bytes(found)) for small in smalls]
        return [it for it in self.each(workers, tasks) if it]

    def refined(self, workers, found):
        """What was found, with somewhat larger chunks of either size."""
        tasks = []
        for it in (one.layout for one in found if one.layout.extra):
            sizes = [(it.chunk, it.extra_size + more) for more in REFINED]
            sizes += [(it.chunk + more, it.extra_size) for more in REFINED]
            sizes = [(large, small) for large, small in sizes if small < large <= LARGEST]
            tasks += [("two_sizes", it.max_path, *pair, self.most_bytes(found)) for pair in sizes]
        return [it for it in self.each(workers, tasks) if it]

    def most_bytes(self, found):
        return max(pool_bytes(it.layout) for it in found)

    def safe(self, threads):
        """The front of the layouts that are enough for all traces, with at most so many threads, and the name of a
        function that is on a circle of calls, if one is: then there is none."""
        found, circle = [], None
        for it in self.placements:
            size = search.least_chunk(it)
            chunks, circle = self.budget(it.max_path, size)
            layout = Layout(it.max_path, size, threads * chunks) if chunks else None
            if layout and layout.chunks <= search.most_chunks(size):
                results = self.trials.results(layout) if self.trials.traces else []
                found.append(Safe(layout, cost(results) if results is not None else NOT_RUN))
        self.runs += self.trials.runs
        self.trials.runs = 0
        return search.front(found), circle

    def budget(self, max_path, chunk):
        """The chunks that a thread may hold, or the name of a function that calls itself."""
        pair = self.server.pair({"chunk": chunk, "max-path": max_path})
        words = [self.server.program, "budget", self.server.source, *pair]
        made = subprocess.run(words, capture_output=True, text=True)
        if made.returncode:
            return None, made.stderr.strip().removeprefix("budget: cycle at ")
        return int(made.stdout.split()[1]), None

    def image_bytes(self, layout):
        """The bytes of the code, of the globals and of the tables."""
        pair = self.server.pair({"chunk": layout.chunk, "max-path": layout.max_path})
        with open(pair[0], "rb") as image:
            _, code, globals_, tables, _ = struct.unpack("<4s4I", image.read(20))
        return 4 * code, 4 * globals_, 4 * tables


def is_beaten(found, least_bytes, spent):
    return any(pool_bytes(it.layout) <= least_bytes and it.cost <= spent for it in found)
