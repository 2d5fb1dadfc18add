"""What came of a run, in a sentence: the first line of a report. And whether a run is as it was expected to be."""
from .columns import counted, number
from .document import at

MOST_NUMBERS = 12  # of requests in a sentence
MANY_CHOICES = 1000  # of other threads: one that is ready and isn't chosen meanwhile starves
CUT = {"trap": "trap", "nochunk": "no free chunk", "threads": "too many threads"}  # the stops that are failures
FOREIGN = "the log isn't of this source and trace: the numbers below mix two runs"
EXPECTED = {
    "answered": "each request that came is answered",
    "no-drops": "no request is dropped",
    "no-deadlock": "no threads wait in a circle for one another's resources",
}


def of(document):
    """The sentences about a run, the gravest first; one that says that all went well if no other is there."""
    found = [FOREIGN] if not document["log_fits"] else []
    found += [*deadlocks(document), *stops(document), *starved(document), *unanswered(document), *untaken(document),
              *dropped(document)]
    spent = ["the fuel was spent"] * (stop_of(document) == "fuel")
    return [*found, *spent] if found else ["; ".join([good(document), *spent])]


def stop_of(document):
    """The kind of the stop, or nothing for a log without one."""
    return (document["stop"] or {}).get("kind", "")


def stops(document):
    """The stop that ended the run as no server should end."""
    stop, stopped = document["stop"], document.get("stopped") or {}
    if stop_of(document) == "trace":
        yield f"the trace is refused at line {number(stop['trace_line'])}"
    if stop_of(document) in CUT:
        places = " or ".join(at(it) for it in stopped.get("places", ()))
        where = f" at {places}" if places else ""
        function = f" in {stopped['function']}" if stopped.get("function") else ""
        why = f", {stopped['why']}" if "why" in stopped else ""
        yield f"{CUT[stop['kind']]}{where}: thread {stop['thread']}{function}{why}"


def circle_text(circle):
    """A circle of threads and the resources for which they wait."""
    return " → ".join([f"thread {it['thread']} → resource {it['resource']}" for it in circle]
                      + [f"thread {circle[0]['thread']}"])


def deadlocks(document):
    for circle in document["circles"]:
        yield f"deadlock: {circle_text(circle)}"


def unanswered(document):
    requests = document["requests"]
    missing = requests["taken"] - requests["answered"]
    if missing <= 0:
        return
    others = (document.get("other_outputs") or {}).get("count")
    which = named(document, missing, ("unanswered", "undecided"))
    if others and document["answers"] == "own":
        yield (f"{counted(missing, 'request')} without an answer by the own thread{which}; {counted(others, 'output')} "
               f"by other threads (--answers)")
    else:
        yield f"{counted(missing, 'request')} taken and never answered{which}"


def untaken(document):
    requests = document["requests"]
    if (count := requests["came"] - requests["taken"]) > 0:
        yield f"{counted(count, 'request')} never taken{named(document, count, ('untaken',))}"


def named(document, count, kinds):
    """The numbers of so many requests, if the document's verdict is of these kinds and has them."""
    told = document.get("verdict") or {}
    shown = told["requests"][:MOST_NUMBERS] if told.get("kind") in kinds else []
    return f": {', '.join(map(number, shown))}{', ..' * (count > len(shown))}" if shown else ""


def dropped(document):
    if count := document["requests"]["dropped"]:
        yield f"{counted(count, 'request')} dropped"


def starved(document):
    """Threads that were ready at the end, while others were chosen 1,000 times; and threads that never ran although
    there were as many choices."""
    if document["never_ran"] and document["choices"]["count"] >= MANY_CHOICES:
        verb = "was" if document["never_ran"] == 1 else "were"
        yield f"starved: {counted(document['never_ran'], 'thread')} {verb} started and never ran"
    ready = document.get("ready") or {"threads": []}
    threads = [it for it in ready["threads"] if it["starves"]]
    for it in threads[:1]:
        others = f", and {counted(len(threads) - 1, 'other')} too" if len(threads) > 1 else ""
        place = f" at {at(it['place'])}" if it.get("place") else ""
        yield (f"starved: thread {it['thread']}{place} was ready for {counted(it['ticks'], 'tick')} and not "
               f"chosen{others}")


def good(document):
    count = document["requests"]["answered"]
    if not document["requests"]["came"]:
        return "no request came"
    return "1 request came and is answered" if count == 1 else f"all {number(count)} requests answered"


def failures(document, expected):
    """Why the run isn't as expected, a sentence each; none if it is."""
    requests = document["requests"]
    if "answered" in expected and requests["answered"] < requests["came"]:
        yield "; ".join([*unanswered(document), *untaken(document)])
    if "no-drops" in expected and requests["dropped"]:
        yield "; ".join(dropped(document))
    if "no-deadlock" in expected:
        yield from deadlocks(document)


def is_bad_end(document):
    """Whether the run ended as no server should end."""
    return stop_of(document) in (*CUT, "trace")

