"""The lines of a trace, within its limits (docs/FORMATS.md)."""

MOST_LINES = 1_000_000
LAST_TIME = 10**15
CHANNELS = 64
LEAST_VALUE, MOST_VALUE = -(2**31), 2**31 - 1


class Refused(Exception):
    """What is asked for is no trace."""


def lines_of(events):
    """The line of each event (time, channel, value), in the order of times. An arrival has no
    channel (None)."""
    before = 0
    for number, (time, channel, value) in enumerate(events, 1):
        if number > MOST_LINES:
            raise Refused(f"a trace has at most {MOST_LINES:,} lines: ask for fewer requests or messages")
        if not before <= time <= LAST_TIME:
            raise Refused(f"line {number}: time {time:,} is " + ("before the time of the line above" if time < before else f"above {LAST_TIME:,}"))
        if not LEAST_VALUE <= value <= MOST_VALUE:
            raise Refused(f"line {number}: the value {value:,} has more than 32 bits")
        before = time
        yield f"arrive {time} {value}\n" if channel is None else f"data {time} {channel} {value}\n"
