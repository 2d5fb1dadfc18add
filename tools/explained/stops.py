"""What the last line of a log means, and which option or line of the source helps."""
import os, shlex

from . import traces
from .text import listed, some
from .tokens import closing, tokens_of

STOPS = {4: "trace", 10: "idle", 11: "trap", 12: "nochunk", 13: "fuel", 14: "threads"}  # by status
MOST_FUEL, MOST_CHUNKS, MOST_THREADS, MOST_RESOURCE, MOST_UNITS, MOST_CHANNEL = 1_000_000_000, 65_536, 65_535, 7, 1_000_000, 63
VERBS = {"take": "asks for", "give": "returns"}
BLOCKING = ("accept", "wait", "waitfor", "sleep", "yield", "take")


class Stop:
    """A stop: its name, the fields behind it as far as they can be seen, and what the run was
    given."""

    def __init__(self, given, name, fields):
        self.given, self.name, self.fields = given, name, fields

    def field(self, place):
        return self.fields[place] if place < len(self.fields) else ""

    def thread(self):
        return f"thread {self.field(0)}" if self.fields else "a thread"


def why(given, line):
    """The notes on a stop: by its line, or by the status where the line can't be seen."""
    name, fields = STOPS.get(given.status), []
    if line and line.startswith("stop "):
        name, *fields = line.split()[1:]
    meant = MEANT.get(name)
    if not meant:
        return []
    return [f"note: {it}" for it in [*meant(Stop(given, name, fields)), *where(given, name)]]


def where(given, name):
    """Which call shows more."""
    if given.command not in ("serve", "run") or name == "trace":
        return []
    if given.is_report:
        return more_by_why(given)
    shows = "where each thread waits" if name == "idle" else "the function, the line and the values" if name == "trap" else "where each thread was"
    return [f"{given.report_call()} shows {shows}"]


def more_by_why(given):
    """What `--why` adds to a report on a run whose log doesn't tell when the gate was closed."""
    is_told = "--caps" not in given.options or given.options.get("--rule") == "stride" or {"--why", "--log"} & set(given.of_report)
    return [] if is_told else ["`--why` before the command also shows when the gate was closed, which keeps requests in the queue"]


def idle(stop):
    return ["the trace has ended and every remaining thread is waiting" + how_idle(stop.given)]


def how_idle(given):
    """What tells a good end from a bad one, from the whole log, if it was seen."""
    usual = "; a server normally ends like this (status 10)"
    tail = given.run.output.tail if given.run.output else None
    source = given.source()
    if given.is_report or not tail or tail.lines_before or source is None:
        return usual
    from runs import outcome, places, story
    try:
        told = outcome.Outcome(tail.text.decode(errors="replace"), places.Places(source))
    except story.Unfit:
        return usual
    missing, untaken = sum(not it for it in told.answers), len(told.delivered) - len(told.takers)
    if not told.delivered:
        return usual
    if untaken:
        return f", but {some(untaken, 'request')} of {len(told.delivered):,} came and {'was' if untaken == 1 else 'were'} never taken"
    if missing and len(told.outputs) < len(told.takers):
        return f", but {some(missing, 'request')} of {len(told.takers):,} {'has' if missing == 1 else 'have'} no answer of the thread that took {'it' if missing == 1 else 'them'}"
    return f"{usual[:-12]}, and here each request is answered (status 10)" if not missing else usual


def trap(stop):
    kind = stop.field(1)
    meant = {"index": index, "table": table, "resource": resource, "channel": channel}.get(kind)
    return meant(stop) if meant else ["a thread made an invalid call or used an index out of range, which ends the run; the last line of the log has the thread and the kind"]


def index(stop):
    return [f"{stop.thread()} used an index outside its array: the range is 0 to the size minus 1"]


def table(stop):
    return [f"{stop.thread()} used an index outside its table: the range is 0 to the number of members minus 1"]


def resource(stop):
    caps, most = stop.given.caps(), {}
    for name, numbers, line in literal_calls(stop, ("take", "give"), 2):
        number, units = numbers
        if not 1 <= number <= MOST_RESOURCE:
            return [f"`{name}({number}, {units})` in line {line} uses resource {number}; resources are numbered from 1 to {MOST_RESOURCE}"]
        if units > most.get(number, (caps.get(number, 0), ""))[0]:
            most[number] = units, f"`{name}({number}, {units})` in line {line} {VERBS[name]} {some(units, 'unit')} of resource {number}, which has {caps.get(number, 0)}"
    if most:
        return [*(told for _, (_, told) in sorted(most.items())),
                more({**caps, **{it: units for it, (units, _) in most.items()}})]
    has = listed([f"resource {it} has {units:,}" for it, units in caps.items()]) or "no resource has any, as `--caps` is not given"
    return [f"a `take` of {stop.thread()} asked for more units than the resource has, or a `give` returned more than are in use ({has})"]


def more(units):
    """The option that gives each resource so many units."""
    if max(units.values()) > MOST_UNITS:
        return f"a resource has at most {MOST_UNITS:,} units"
    pairs = ",".join(f"{it}={count}" for it, count in sorted(units.items()))
    return f"`--caps` sets the units of each resource; at least `--caps {pairs}` is needed"


def channel(stop):
    for name, numbers, line in literal_calls(stop, ("wait", "waitfor"), 1):
        if not 0 <= numbers[0] <= MOST_CHANNEL:
            call = f"{name}({numbers[0]}{', ..' * (name == 'waitfor')})"
            return [f"`{call}` in line {line} uses channel {numbers[0]}; channels are numbered from 0 to {MOST_CHANNEL}"]
    return [f"{stop.thread()} waited for a message on a channel outside 0 to {MOST_CHANNEL}"]


def literal_calls(stop, names, count):
    """The calls of these names in the source whose first arguments are numbers: name, numbers, and
    line."""
    source = stop.given.source() or b""
    tokens = tokens_of(source)
    for place, token in enumerate(tokens[:-1]):
        if token.text in names and tokens[place + 1].text == "(":
            inside = tokens[place + 2 : closing(tokens, place + 1)]
            numbers = [it.value() for it in inside[::2][:count] if it.is_number()]
            if len(numbers) == count and all(it.text == "," for it in inside[1::2]):
                yield token.text, numbers, source.count(b"\n", 0, token.at) + 1


def nochunk(stop):
    given = stop.given
    chunks = given.number("--chunks") + given.number("--extra")
    free = f"{stop.field(2)} of {chunks:,} chunks are free, and a larger one is needed" if stop.field(2) not in ("", "0") else f"all {chunks:,} chunks are in use"
    return [
        f"{stop.thread()} found no free chunk for a call or a new thread: {free}",
        f"use more chunks (`--chunks`, here {given.number('--chunks'):,}; the maximum is {MOST_CHUNKS:,}), fewer live threads, or fewer nested calls",
        budget_calls(given),
    ]


def budget_calls(given):
    """Which commands print how many chunks a thread may hold: those of a stored pair, or of one that
    is built first."""
    says = "how many chunks a thread may hold"
    if given.command == "run":
        return f"`budget {shlex.join(given.names)}` prints {says}"
    source = given.name(0)
    pair = shlex.join([source, *(f"{os.path.splitext(os.path.basename(source))[0]}{it}" for it in (".img", ".crt"))])
    sizes = "".join(f" {it} {given.options[it]}" for it in ("--chunk", "--max-path") if it in given.options)
    return f"`build{sizes} {pair}` and then `budget {pair}` print {says}"


def fuel(stop):
    given = stop.given
    default = "" if "--fuel" in given.options else ", the default"
    return [
        f"the run has executed the {some(given.number('--fuel'), 'instruction')} that `--fuel` allows{default}; the maximum is {MOST_FUEL:,}",
        f"if {stop.thread()} loops without a blocking call, no other thread runs: threads switch only at {listed(BLOCKING)}, and when one ends",
    ]


def threads(stop):
    return [
        f"{MOST_THREADS:,} threads are live, the maximum, and {stop.thread()} started another",
        "a resource can limit them: `take(1, 1)` before the `spawn`, `give(1, 1)` at the thread's end, and `--caps 1=N`",
    ]


def trace(stop):
    return traces.refused(stop.given, int(stop.field(0) or 0))


MEANT = {"idle": idle, "trap": trap, "nochunk": nochunk, "fuel": fuel, "threads": threads, "trace": trace}
