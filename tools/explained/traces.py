"""Why a line of a trace is refused."""
import re

from .text import nearest, quoted

MOST_LINES, MOST_BYTES, MOST_TIME, MOST_CHANNEL = 1_000_000, 64, 10**15, 63
EVENTS = {"arrive": ("TIME", "VALUE"), "data": ("TIME", "CHANNEL", "VALUE")}
RANGES = {"TIME": (0, MOST_TIME), "CHANNEL": (0, MOST_CHANNEL), "VALUE": (-(2**31), 2**31 - 1)}
FORMS = "a line is `arrive TIME VALUE` or `data TIME CHANNEL VALUE` with single spaces, and times never decrease"


def refused(given, number):
    """The notes on a trace that is refused at the line of this number; 0 where that isn't known, as
    standard output can't be seen: it is then the first line with a cause."""
    number = number or first_refused(given.whole_trace())
    found = given.trace_lines(number) if number else None
    if not found:
        return [f"line {number:,} of the trace is refused: {FORMS}" if number
                else f"a line of the trace is refused; the last line of the log has its number: {FORMS}"]
    line, before = found
    return [f"line {number:,} of the trace: {quoted(line.decode(errors='backslashreplace'))}",
            cause(line, before, number) or FORMS]


def first_refused(lines):
    """The number of the first line that is refused, from 1, or 0."""
    before = b""
    for number, line in enumerate(lines, 1):
        if cause(line, before, number):
            return number
        before = line
    return 0


def cause(line, before, number):
    """What is wrong with the line, or nothing."""
    if number > MOST_LINES:
        return f"a trace has at most {MOST_LINES:,} lines"
    if len(line) > MOST_BYTES:
        return f"it has {len(line):,} bytes; a line has at most {MOST_BYTES}"
    try:
        text = line.decode("ascii")
    except UnicodeDecodeError as error:
        return "it begins with a byte order mark; a trace is plain ASCII" if line.startswith(b"\xef\xbb\xbf") else f"byte {error.start + 1} is not ASCII"
    return wrong_bytes(text) or wrong_fields(text.split(" ")) or wrong_order(text, before)


def wrong_bytes(text):
    """What is wrong with the line as a whole."""
    if text.endswith("\r"):
        return "it ends with a carriage return: lines end with a line feed alone; `tr -d '\\r'` removes them"
    if not text.strip():
        return "it is empty; each line must be an event"
    if text.startswith(("#", "//")):
        return "a trace has no comments"
    if "\t" in text or text.startswith(" ") or text.endswith(" ") or "  " in text:
        return "fields must be separated by exactly one space, with none before the first or after the last"
    return None


def wrong_fields(fields):
    """What is wrong with the first field that doesn't fit."""
    word, *rest = fields
    if word not in EVENTS:
        return f"{quoted(word)} is not an event: expected `arrive` or `data`{nearest(word, EVENTS)}"
    names = EVENTS[word]
    for name, text in zip(names, rest):
        least, most = RANGES[name]
        if not re.fullmatch(r"0|-?[1-9][0-9]*", text):
            return f"{name} is {quoted(text)}: expected a whole number in plain decimal digits, without a plus sign, a leading zero or a fraction"
        if len(text) > 20 or not least <= int(text) <= most:
            return f"{name} is {quoted(text)}: the range is {least:,} to {most:,}"
    if len(rest) != len(names):
        return f"`{word}` takes {len(names)} fields, {' '.join(names)}; found {len(rest)}"
    return None


def wrong_order(text, before):
    """How the time falls, if it does."""
    time, earlier = text.split(" ")[1], before.split(b" ")[1:2]
    if earlier and earlier[0].isdigit() and int(time) < int(earlier[0]):
        return f"its time, {time}, is before that of the previous line, {int(earlier[0])}: sort the trace by time, for example with `sort -s -n -k 2`"
    return None
