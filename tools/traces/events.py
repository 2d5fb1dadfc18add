"""The events of a trace as they are read and written: a trace is a list of them, in the order of the lines."""
import collections

from .lines import CHANNELS, LAST_TIME, LEAST_VALUE, MOST_VALUE, Refused

Event = collections.namedtuple("Event", "time channel value line")
Event.__doc__ = """An event: an arrival has no channel (None). `line` is the number from 0 of its line in the trace that
was given, also where the event has been moved; one that was added has none (None)."""


def read(text):
    """The events of a trace's text."""
    found = []
    for number, line in enumerate(text.splitlines()):
        kind, *fields = line.split(" ")
        try:
            numbers = [int(it) for it in fields]
            if line != written(*numbers) or kind != ("arrive" if len(numbers) == 2 else "data"):
                raise ValueError
        except (ValueError, TypeError):
            raise Refused(f"line {number + 1} is no event: expected `arrive TIME VALUE` or `data TIME CHANNEL VALUE`, found {line!r}") from None
        event = Event(numbers[0], numbers[1] if kind == "data" else None, numbers[-1], number)
        if not (0 <= event.time <= LAST_TIME and (event.channel is None or 0 <= event.channel < CHANNELS)
                and LEAST_VALUE <= event.value <= MOST_VALUE):
            raise Refused(f"line {number + 1}, {line!r}, has a number out of range")
        if found and event.time < found[-1].time:
            raise Refused(f"line {number + 1}: the time {event.time:,} is before the one above")
        found.append(event)
    return found


def written(*numbers):
    """A line without its end, of two numbers or of three."""
    return " ".join(["data" if len(numbers) == 3 else "arrive", *map(str, numbers)])


def text_of(events):
    """The text of a trace with these events."""
    return "".join([f"arrive {time} {value}\n" if channel is None else f"data {time} {channel} {value}\n"
                    for time, channel, value, _ in events])
