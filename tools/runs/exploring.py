"""The runs of one exploration: which trace and which options each has, and what is found in it.

A run has a number. Number 0 and those behind it, one for each trace, are the traces as they are given; every other is a
variant, drawn from the seed and the number alone, so the same in whichever process it is made.
"""
import collections, random, time

from explained.commands import OPTIONS
from traces import events, variants
from traces.lines import Refused

from . import finds, free_server, story

BAD_TRACE = 4  # the status for a trace that is none
CHOICES = ("rule", "tickets", "gate", "pool", "backlog")  # what is varied of the options
USUAL = ("times", "order", "bursts", "late", "rule", "tickets", "gate")
ANY_ORDER = "any-order"  # an option of runs that aren't the program's (free_server.py): no rule chooses their threads
OPTIONS_OF = {"rule": ["rule"], "tickets": ["tickets"], "gate": ["high", "low", "knee"], "pool": ["chunks"],
              "backlog": ["backlog"]}
DEFAULTS = {name[2:]: it.default for name, it in OPTIONS.items()}
MOST_TICKETS, MOST_NAMED = 1024, 64  # of one thread; threads that --tickets may name
MOST_ORDERS = 1_000_000

Given = collections.namedtuple("Given", "text varied first threads held")
Given.__doc__ = """A trace that was given: its text as bytes, its events ready to be varied, the outputs of its run by
line, how many threads ran in it, and the most chunks that they held."""

Result = collections.namedtuple("Result", "number lines finds seconds reading lost refused")
Result.__doc__ = """A run: its number, the lines of its trace, what was found, the seconds that the program and that
reading its log took, whether it couldn't be followed, and why the program refused it, or None."""


class NotRun(Exception):
    """A trace that was given comes to no stop; `status` is the program's."""

    def __init__(self, text, status):
        super().__init__(text)
        self.status = status


class Exploration:
    """An exploration of a server (many.py) by a looker (finds.py), over some traces with some options that stay as they are."""

    def __init__(self, server, looker, options, changes, seed):
        self.server, self.looker, self.options, self.seed = server, looker, dict(options), seed
        self.changes = [it for it in changes if not any(name in self.options for name in OPTIONS_OF.get(it, []))]
        self.traces = []

    def add(self, text, name):
        """Adds a trace of this name, and makes its first run."""
        try:
            varied = variants.Varied(events.read(text.decode("ascii", "replace")))
            run = self.server.run(self.options, text)
            told = self.looker.outcome(run.log)
        except Refused as why:
            raise NotRun(f"{name}: {why}", BAD_TRACE) from None
        except story.Unfit as why:
            raise NotRun(f"{name}: {run.said.strip() or why}", run.status or BAD_TRACE) from None
        self.looker.learn(run.log)
        held = int(self.options.get("chunks", DEFAULTS["chunks"])) + int(self.options.get("extra", 0)) - told.least_free
        self.traces.append(Given(text, varied, self.looker.outputs_by_line(run.log), told.threads, held))

    def chance(self, number):
        return random.Random(f"{self.seed} {number}")

    def variant(self, number):
        """The trace that a run is a variant of, its events, and its options."""
        given = self.traces[number % len(self.traces)]
        if number < len(self.traces):
            return given, given.varied.events, self.options
        chance = self.chance(number)
        options = self.options | self.drawn(given, chance)
        kinds = [it for it in self.changes if it in variants.CHANGES]
        if options != self.options and chance.random() < (0.5 if ANY_ORDER in options else 0.1):
            kinds = []  # some runs have other options alone
        return given, variants.variant(given.varied, kinds, chance), options

    def drawn(self, given, chance):
        """The options that are varied, by chance: each kind in every second run, but an order of threads in each."""
        drawn = {ANY_ORDER: chance.randrange(MOST_ORDERS)} if ANY_ORDER in self.changes else {}
        for kind in CHOICES:
            if kind in self.changes and chance.random() < 0.5:
                drawn |= DRAWS[kind](self.options | drawn, given, chance)
        return drawn

    def run(self, number):
        """Makes a run and looks at it."""
        given, found, options = self.variant(number)
        began = time.perf_counter()
        run = self.server.run(options, events.text_of(found).encode())
        ran = time.perf_counter()
        lost = self.looker.lost
        try:
            seen = self.looker.finds(run.log, options, finds.First(given.first, [it.line for it in found]))
            if any(it.kind == "outputs" for it in seen) and is_changed(given, found):
                seen = self.again(given, found, options, run)
            refused = None
        except story.Unfit as why:
            seen, refused = [], run.said.strip() or str(why)
        return Result(number, len(found), seen, ran - began, time.perf_counter() - ran, self.looker.lost > lost,
                      refused)

    def first_of(self, given, found):
        """The trace that was given with the lines alone that a variant has."""
        kept = {it.line for it in found}
        return [it for it in given.varied.events if it.line in kept]

    def again(self, given, found, options, run):
        """What is found where lines are missing: by the outputs of a first run without them."""
        first = self.first_of(given, found)
        outputs = self.looker.outputs_by_line(self.server.run(self.options, events.text_of(first).encode()).log)
        by_line = {first[place].line: values for place, values in outputs.items()}
        return self.looker.finds(run.log, options, finds.First(by_line, [it.line for it in found]))


def begun(value, folder, source, traces):
    """The exploration of a value of plain parts, with the first runs made. Pairs are stored in the folder."""
    with open(source, "rb") as file:
        text = file.read()
    looker = finds.Looker(text, value["kinds"], value["title"], value["patience"], value["answers"], value["command"])
    server = free_server.FreeServer(source, folder)
    exploration = Exploration(server, looker, value["options"], value["changes"], value["seed"])
    for name in traces:
        with open(name, "rb") as file:
            exploration.add(file.read(), name)
    return exploration


def result_of(value):
    """A result from its form in JSON."""
    result = Result(*value)
    return result._replace(finds=[finds.Find(*it) for it in result.finds])


def is_changed(given, found):
    """Whether a variant has other lines than the trace that was given."""
    return len(found) != len(given.varied.events) or any(it.line is None for it in found)


def one_run(exploration, number):
    """The work of a process."""
    return exploration.run(number)


def rule(options, given, chance):
    return {"rule": chance.choice(("graph", "stride"))}


def tickets(options, given, chance):
    """Priorities by chance for all threads that the first run had; with the priority rule there are none."""
    if options.get("rule") != "stride":
        return {}
    most = chance.choice((1, 3, 10))
    drawn = [(thread, 2 ** chance.randint(0, most)) for thread in range(min(given.threads, MOST_NAMED))]
    named = [f"{thread}={MOST_TICKETS if most == 1 and it == 2 else it}" for thread, it in drawn if it > 1]
    return {"tickets": ",".join(named)} if named else {}


def gate(options, given, chance):
    high = chance.randint(1, 1000)
    knee = {"knee": chance.randint(1, 999)} if chance.random() < 0.5 else {}
    return {"high": high, "low": chance.randint(0, high - 1)} | knee


def pool(options, given, chance):
    """From the chunks that the first run held to four times as many."""
    return {"chunks": chance.randint(max(1, given.held), max(1, min(4 * given.held, DEFAULTS["chunks"])))}


def backlog(options, given, chance):
    return {"backlog": int(2 ** chance.uniform(0, DEFAULTS["backlog"].bit_length() - 1))}


DRAWS = {"rule": rule, "tickets": tickets, "gate": gate, "pool": pool, "backlog": backlog}
