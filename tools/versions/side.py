"""One of two versions of a run: its source, its log, and what they tell about each request."""
import collections, pathlib, re

from reporting import folded
from runs import figures, many, outcome, places, program, story

from .puts import place_of_output

IS_LOG = re.compile(r"(run|event|drop|stop) ")
PLACED = 2  # the end of a stack: a function and the call at which its segment ended

Answer = collections.namedtuple("Answer", "state values numbers")
Answer.__doc__ = """What came of a request: `answered`, `unanswered`, `untaken`, `dropped` or `unsent`, its outputs, and
their numbers among all outputs."""


class Side:
    """A run of a source on a trace. `log` is its text."""

    def __init__(self, source, log, trace, pairing):
        self.source, self.log, self.trace = source, log, trace
        self.text = pathlib.Path(source).read_bytes()
        self.places = places.Places(self.text)
        self.outcome = outcome.Outcome(log, self.places)
        self.is_paired, self.cut = pairing, None
        told = story.Story(self.places, trace)
        self.costs = folded.Folded(None, told, False)
        happenings = self.heard(told.happenings(log.splitlines()))
        self.figures = figures.Figures(happenings, figures.Pairing("first") if pairing else None)

    def heard(self, happenings):
        for it in happenings:
            self.costs.tell(it)
            if isinstance(it, story.Segment) and it.cut:
                self.cut = it
            yield it

    def stop(self):
        """The stop without clocks and numbers of threads: its word, and the kind of a trap or the line of a trace."""
        word, *rest = self.outcome.stop
        return (word, rest[1]) if word == "trap" else (word, rest[0]) if word == "trace" else (word,)

    def answers(self):
        """What came of each request, in the order of the trace, and the numbers of the outputs that answer none."""
        told, taken = self.outcome, len(self.outcome.takers)
        outputs = collections.defaultdict(list)
        others = []
        for number, (_, _, request) in enumerate(told.outputs):
            request = number if self.is_paired else request
            (outputs[request] if request is not None and request < taken else others).append(number)
        place_of = {line: place for place, line in enumerate(told.delivered)}
        found = []
        for line in arrivals(self.trace):
            if line >= len(told.items):
                found.append(Answer("unsent", [], []))
            elif line not in place_of:
                found.append(Answer("dropped", [], []))
            elif place_of[line] >= taken:
                found.append(Answer("untaken", [], []))
            else:
                numbers = outputs[place_of[line]]
                values = [told.outputs[it][1] for it in numbers]
                found.append(Answer("answered" if values else "unanswered", values, numbers))
        return found, others

    def put_at(self, number):
        """The place of the `put` of an output."""
        happenings = story.Story(self.places, self.trace).happenings(self.log.splitlines())
        site = place_of_output(number, self.text, happenings)
        return f"{self.source}:{site.place()}" if site else self.source

    def waits_at(self, request):
        """Where the thread that took a request (from 0) waits at the end, or None."""
        thread = self.outcome.takers[request]
        if thread not in self.outcome.waiting or self.outcome.under_way.get(thread) != request:
            return None
        return self.node(self.outcome.waiting[thread][0])

    def node(self, node):
        site = self.places.sites[self.outcome.keys[node][0]] if node in self.outcome.keys else None
        return f"{self.source}:{site.place()} {site.callee}" if site else f"{self.source}: the start of a thread"

    def cut_at(self):
        """The place after which the segment began that the stop cut."""
        return self.node(self.cut.node) if self.cut else None

    def costs_by_function(self):
        found = collections.Counter()
        for stack, cost in self.costs.sums.items():
            found[stack[-PLACED]] += cost
        return found


def arrivals(trace):
    """The numbers from 0 of the lines of a trace that are requests."""
    return [number for number, line in enumerate(trace) if line.startswith("arrive ")]


def is_log(path):
    with open(path, errors="replace") as file:
        return bool(IS_LOG.match(file.readline()))


def log_of(source, options, trace):
    """The log of a run; `Refused` where the program has none."""
    made = many.started([program.itself(), "serve", *options, source], trace)
    if "stop " not in made.log:
        raise many.Refused(made.said.strip(), made.status)
    return made.log
