"""The search for the least number of chunks, by whole runs: a log tells the chunks that are held between segments
alone, and within one there may be more. So the true peak is found by bisection: with one chunk less some run isn't
enough."""
import collections

from .trials import HEADER, LARGEST_CHUNK, LEAST_CHUNK, LEAST_EXTRA, MOST_BYTES, MOST_CHUNKS
from .trials import Layout, cost, held, pool_bytes

GROWTH = 1.2  # of the sizes above those that are all tried
ALL_UP_TO = 256  # bytes above the least size
DEEPEST = 4_096  # bytes of a chunk for calls within themselves

Found = collections.namedtuple("Found", "layout cost")
Found.__doc__ = "A layout that is enough for the traces, and the instructions of its runs."


def least(is_enough, guess, most):
    """The least number from 1 to `most` that is enough, where more are enough too; from a guess on. None if `most`
    isn't."""
    low, high, step = 0, None, 1  # `low` isn't enough, `high` is
    at = max(1, min(guess, most))
    while high is None:
        if is_enough(at):
            high = at
        elif at == most:
            return None
        else:
            low, at, step = at, min(at + step, most), 2 * step
    step = high if low else 1  # down in growing steps, or by halves where a bound below is known
    while high - low > 1:
        at = high - step if low < high - step else (low + high) // 2
        step *= 2
        if is_enough(at):
            high = at
        else:
            low, step = at, high
    return high


def most_chunks(size):
    return min(MOST_CHUNKS, MOST_BYTES // size)


def rounded(size):
    return (int(size) + 15) // 16 * 16


def least_chunk(placement):
    return max(LEAST_CHUNK, placement.max_path + HEADER)


def chunk_sizes(placement, largest):
    """The sizes that are tried for one placement: from the least one to the largest of all, and further where calls
    may still link."""
    size, found = least_chunk(placement), []
    last = max(size, min(DEEPEST, largest) if not placement.is_linked else min(DEEPEST, max(largest, 4 * size)))
    while size <= min(last, LARGEST_CHUNK):
        found.append(size)
        size = size + 16 if size < least_chunk(placement) + ALL_UP_TO else rounded(size * GROWTH)
    return found if placement.is_linked else found[:1]


def extra_sizes(placement, chunk):
    """The sizes of small chunks beside large ones: those that a need just fits, and some more."""
    fitting = {max(LEAST_EXTRA, need + HEADER) for need in placement.needs}
    return sorted(it for it in fitting if it < chunk)


class Search:
    """Finds the least layouts of a given form, over trials."""

    def __init__(self, trials, plenty):
        self.trials, self.plenty = trials, plenty  # chunks that are surely enough, at first

    def tried(self, layout):
        """The results of a layout, or None if it isn't enough."""
        return self.trials.results(layout) if pool_bytes(layout) <= MOST_BYTES else None

    def with_plenty(self, form):
        """A layout with plenty of chunks of each size, and its results; None if none is enough."""
        count = self.plenty
        while True:
            layout = form(min(count, most_chunks(form(1).chunk + form(1).extra_size)))
            results = self.tried(layout)
            if results or layout.chunks < count:
                return (layout, results) if results else None
            count *= 4

    def probe(self, max_path, chunk):
        """The chunks that are held between segments with plenty of them, and the instructions."""
        made = self.with_plenty(lambda count: Layout(max_path, chunk, count))
        return made and (held(made[1]), cost(made[1]))

    def one_size(self, max_path, chunk):
        """The least number of chunks of one size."""
        made = self.with_plenty(lambda count: Layout(max_path, chunk, count))
        if not made:
            return None
        seen = {}
        count = self.least_of(lambda count: Layout(max_path, chunk, count), held(made[1]), made[0].chunks, seen)
        return Found(*seen[count]) if count else None

    def two_sizes(self, max_path, chunk, extra_size, below):
        """The least number of large chunks beside plenty of small ones, then the least number of small ones. None
        where there are `below` bytes or more."""
        made = self.with_plenty(lambda count: Layout(max_path, chunk, count, count, extra_size))
        if not made:
            return None
        peak, plenty, seen = held(made[1]), made[0].chunks, {}
        chunks = self.least_of(lambda count: Layout(max_path, chunk, count, plenty, extra_size), 1, plenty, seen)
        if not chunks or chunks * chunk >= below:
            return None
        layout, seen = Layout(max_path, chunk, chunks, 1, extra_size), {}
        extra = self.least_of(lambda count: layout._replace(extra=count), max(1, peak - chunks), plenty, seen)
        return Found(*seen[extra]) if extra else None

    def least_size(self, max_path, chunk, chunks):
        """The least size of so many chunks, from a size on."""
        most, seen = min(LARGEST_CHUNK - chunk, MOST_BYTES // chunks - chunk) // 16 + 1, {}
        steps = self.least_of(lambda count: Layout(max_path, chunk + 16 * (count - 1), chunks), 1, most, seen)
        return Found(*seen[steps]) if steps else None

    def shrunk(self, layout):
        """A layout of two sizes, with the least size of its large chunks, and then of its small ones."""
        first, seen = max(LEAST_CHUNK, layout.max_path + HEADER), {}
        most = (layout.chunk - first) // 16 + 1
        steps = self.least_of(lambda count: layout._replace(chunk=first + 16 * (count - 1)), most, most, seen)
        if not steps:
            return None
        layout, most, seen = seen[steps][0], (layout.extra_size - LEAST_EXTRA) // 16 + 1, {}
        small = lambda count: layout._replace(extra_size=LEAST_EXTRA + 16 * (count - 1))
        steps = self.least_of(small, most, most, seen)
        return Found(*seen[steps]) if steps else None

    def least_of(self, form, guess, most, seen):
        """The least count of a form that is enough; `seen` has the layout and the cost by count."""

        def is_enough(count):
            results = self.tried(form(count))
            if results:
                seen[count] = (form(count), cost(results))
            return results is not None

        return least(is_enough, guess, most)


def front(found):
    """Those that no other one beats in both bytes and instructions, the least bytes first."""
    kept = []
    for it in sorted(found, key=lambda it: (pool_bytes(it.layout), it.cost, it.layout)):
        if not kept or it.cost < kept[-1].cost:
            kept.append(it)
    return kept
