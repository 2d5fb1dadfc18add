"""The moments of a run line by line, each as what has changed since the line before: for the page of a run."""
from sources.tree import NotASource

from . import moments
from .code import Code
from .replayed import Differs, Log, Replayed

MOST_LINES = 5_000  # of a log whose moments are kept
MOST_WORDS = 64  # of an array


def states_of(source, caps, lines, chunks):
    """What each line of a log changes, from the first to the last; an empty list if the log is too long, or isn't that
    of the source."""
    if len(lines) > MOST_LINES:
        return []
    try:
        run = Replayed(Code(source), caps, Log(lines), chunks)
        return list(changes(run))
    except (NotASource, Differs, RecursionError, SyntaxError, MemoryError):
        return []


def changes(run):
    """The change by each line that the run reads."""
    kept, before = {}, None
    while True:
        touched = [run.running.number] if run.running else []
        if not run.advance():
            return
        if run.running and run.steps and not run.stop:
            continue  # within a segment
        now = shared(run)
        found = {name: it for name, it in now.items() if before is None or before[name] != it}
        threads = threads_changed(run, touched, kept)
        before = now
        yield {"line": run.line, "clock": run.clock} | found | ({"threads": threads} if threads else {})


def shared(run):
    """What belongs to no thread."""
    uses = [[number, run.uses[number], cap] for number, cap in sorted(run.caps.items())]
    return {
        "running": run.running.number if run.running else None,
        "free": run.free,
        "globals": [shortened(moments.variable(it, value)) for it, value in zip(run.code.globals, run.globals)],
        "resources": uses,
    } | moments.queues(run)


def shortened(variable):
    """A variable, of an array no more than the first words."""
    return variable | {"values": variable["values"][:MOST_WORDS]} if "values" in variable else variable


def shortened_thread(document):
    for it in document["stack"]:
        it["locals"] = list(map(shortened, it["locals"]))
    return document


def threads_changed(run, touched, kept):
    """The threads that a line has changed, each with its document, or None if it has ended."""
    found = {}
    numbers = {*touched, *([run.running.number] if run.running else []), *(run.threads.keys() - kept.keys())}
    for number in sorted(numbers):
        live = run.threads.get(number)
        document = shortened_thread(moments.thread(live, run, run.code)) if live else None
        if kept.get(number, document) != document or number not in kept:
            found[number] = document
        kept[number] = document
    return found
