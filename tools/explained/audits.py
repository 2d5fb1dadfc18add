"""What the answer of an audit means."""
import os, stat

from .commands import MOST_LOG, OPTIONS, options_of
from .text import quoted


def judged(given, line):
    """The notes on `unlawful LINE` and `steps LINE`, or on the status where the line can't be
    seen."""
    answer, number = (line or "").split()[:2] if line and len(line.split()) == 2 else ({15: "unlawful", 16: "steps"}.get(given.status), "0")
    if answer not in ("unlawful", "steps"):
        return []
    return [f"note: {it}"
            for it in [*shown(given, int(number)), *(unlawful(given) if answer == "unlawful" else steps(given))]]


def shown(given, number):
    """The line of the log, where that is a regular file."""
    if not os.path.isfile(given.name(1)):
        return []
    try:
        with open(given.name(1), "rb") as log:
            for place, line in enumerate(log, 1):
                if place == number:
                    return [f"line {number:,} of {given.name(1)}: {quoted(line.rstrip(bytes([10])).decode(errors='backslashreplace'))}"]
    except OSError:
        return []
    return [f"{given.name(1)} ends before line {number:,}, without a `stop` line"] if number else []


def unlawful(given):
    """By which rule and options the log was judged."""
    values = " ".join(f"{it} {given.options.get(it, OPTIONS[it].default)}" for it in options_of("audit")
                      if it not in ("--caps", "--steps"))
    caps = f"--caps {given.options['--caps']}" if "--caps" in given.options else "no --caps"
    lines = [
        f"the log was judged by the priority rule, with {values} and {caps}",
        "`audit` knows no other rule; give it the options and the trace of the run",
    ]
    return lines + (["the trace on standard input is empty"] if is_empty(0) else [])


def is_empty(descriptor):
    """Whether nothing can be read there: the null device or an empty file."""
    try:
        found = os.fstat(descriptor)
    except OSError:
        return True
    return stat.S_ISCHR(found.st_mode) and found.st_rdev == os.makedev(1, 3) or stat.S_ISREG(found.st_mode) and found.st_size == 0


def steps(given):
    return [
        f"this line and those before it need more steps of the source than `--steps` allows, here {given.number('--steps'):,}; the maximum is {OPTIONS['--steps'].most:,}",
        "the lines before it are lawful; if a thread never blocks again, no number of steps is enough",
    ]


def too_long(given, _):
    try:
        size = f"{given.name(1)} has {os.path.getsize(given.name(1)):,} bytes; "
    except OSError:
        size = ""
    return [
        f"note: {size}an audit reads at most {MOST_LOG:,}",
        "note: a log can't be audited in parts: split the requests into several runs, and audit their logs",
    ]
