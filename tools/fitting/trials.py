"""One layout of memory, tried on the traces: whether it is enough, and what it costs."""
import collections, os

from runs import figures, outcome, places, story

LEAST_CHUNK, LEAST_EXTRA, LARGEST_CHUNK, MOST_CHUNKS, MOST_BYTES, HEADER = 64, 32, 65_536, 65_536, 67_108_864, 16
Layout = collections.namedtuple("Layout", "max_path chunk chunks extra extra_size", defaults=[0, 0])
Result = collections.namedtuple("Result", "stop outputs dropped cost held")
Result.__doc__ = """Of one run: its last line's word, its outputs, what was dropped, instructions, and the chunks held
between segments."""


def pool_bytes(layout):
    return layout.chunks * layout.chunk + layout.extra * layout.extra_size


def options_of(layout):
    found = {"chunk": layout.chunk, "max-path": layout.max_path, "chunks": layout.chunks}
    return found | ({"extra": layout.extra, "extra-size": layout.extra_size} if layout.extra else {})


class Trials:
    """Runs of a server on some traces, with options of the user's."""

    def __init__(self, server, traces, options, answers=None):
        self.server, self.options, self.traces, self.answers = server, options, traces, answers  # `traces` are texts
        with open(server.source, "rb") as source:
            self.source = source.read()
        self.places = places.Places(self.source)
        self.wanted, self.runs = None, 0

    def log(self, layout, trace):
        self.runs += 1
        made = self.server.run(options_of(layout) | self.options, trace.encode())
        if "stop " not in made.log:
            raise story.Unfit(made.said.strip())
        return made.log

    def results(self, layout):
        """The result of each trace; fewer where one of them isn't enough."""
        found = []
        for number, trace in enumerate(self.traces):
            told = outcome.Outcome(self.log(layout, trace), self.places)
            held = layout.chunks + layout.extra - (told.least_free or 0)
            found.append(Result(told.stop[0], len(told.outputs), len(told.dropped), told.cost, held))
            if found[-1].stop == "nochunk" or self.wanted and not is_enough(found[-1], self.wanted[number]):
                return None
        return found

    def latencies(self, layout):
        """The latencies to the first answer, of all traces."""
        found = []
        for trace in self.traces:
            told = story.Story(self.places, trace.splitlines())
            pairing = figures.Pairing(self.answers) if self.answers else None
            found += figures.Figures(told.happenings(self.log(layout, trace).splitlines()), pairing).first
        return found


def is_enough(result, wanted):
    """Whether a run did what it does with plenty: it stops alike, drops no more and puts no less. Up to `stop fuel` a
    run with more instructions for each answer comes less far."""
    if result.stop != wanted.stop or result.dropped > wanted.dropped:
        return False
    return wanted.stop == "fuel" or result.outputs >= wanted.outputs


def cost(results):
    return sum(it.cost for it in results)


def held(results):
    return max(it.held for it in results)


def jobs():
    return os.cpu_count() or 1
