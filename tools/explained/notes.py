"""What is added to what a program said: the notes, a line each, on its refusal or its stop."""
import os, stat

from . import audits, files, numbers, pairs, source, stops, words
from .given import Given
from .text import quoted


def of(run):
    """The notes on a run of the program."""
    given = Given(run)
    said = run.error.tail.text.decode(errors="replace").splitlines()
    line = said[-1] if said else ""
    for beginnings, notes in BY_BEGINNING.items():
        if line.startswith(beginnings):
            return notes(given, line)
    return [] if line else of_output(given)


def of_words(given, line):
    """The notes on words that are refused."""
    for word in given.all_words:
        if any(0xDC80 <= ord(it) < 0xDD00 for it in word):
            return [f"note: {quoted(word)} is not UTF-8"]
    return words.why_report(given.all_words) if given.is_report else words.why(given.all_words)


BY_BEGINNING = {
    ("usage: ",): of_words,
    ("source: ", "limit: "): source.why,
    ("absent: ",): files.absent,
    ("fault: read",): files.unread,
    ("fault: write",): files.unwritten,
    ("fault: memory",): files.no_memory,
    ("image: ", "certificate: "): pairs.refused,
    ("check: rejected ",): pairs.rejected,
    ("budget: cycle at ",): pairs.cycle,
    ("log: TooLong",): audits.too_long,
    ("report: the log",): files.no_log,
    ("report: the source",): files.no_source,
}


def of_output(given):
    """The notes where standard error took nothing: on the last line of standard output, or on the
    numbers in it, which a report shows beside the text."""
    if given.status == 0:
        notes = {"graph": numbers.sites, "budget": numbers.functions}.get(given.command)
        return notes(given) if notes and is_watched() and not given.is_report else []
    line = given.last_line()
    if given.command == "audit":
        return audits.judged(given, line)
    if given.command == "check":
        return pairs.rejected(given, line or "")
    return stops.why(given, line) if is_watched() else []


class Ended:
    """A run that has ended, of which somebody else has read the output: what Given asks of one."""

    def __init__(self, words, status, called):
        self.called, self.name, self.words, self.status = called, "report", words, status
        self.output = self.error = self.trace = None
        self.trace_start = start_of_trace()


def start_of_trace():
    """Where the trace on standard input stands if it is a regular file, which was read from its start."""
    try:
        return 0 if stat.S_ISREG(os.fstat(0).st_mode) else None
    except OSError:
        return None


def of_stop(line, words, status, called):
    """The notes on the stop of a run whose report is laid out, if somebody looks on: its last line, its words behind
    those of the report, its status, and the script that was called."""
    return stops.why(Given(Ended(words, status, called)), line) if is_watched() else []


def is_watched():
    """Whether somebody looks on; the report explains refusals also where nobody does. The stop of a report is
    explained by whoever lays it out."""
    if os.environ.get("CAPRICCIO_DOCUMENT"):
        return False
    return os.isatty(2) or bool(os.environ.get("CAPRICCIO_EXPLAIN"))
