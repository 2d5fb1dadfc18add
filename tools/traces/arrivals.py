"""Times of arrivals in ticks, never falling and without an end, by the shape of the load."""
import heapq, itertools

from . import recordings
from .lines import Refused


def constant(gap, start):
    """One every `gap` ticks. A gap may have a fraction: the i-th comes at i gaps, rounded down."""
    return (start + int(number * gap) for number in itertools.count())


def poisson(gap, start, random):
    """Independent arrivals with `gap` ticks between them on average."""
    time = float(start)
    while True:
        time += random.expovariate(1 / gap)
        yield int(time)


def bursts(gap, size, start, random):
    """Bursts of `size` at one time each, with `gap` ticks between them on average, as in `poisson`."""
    for time in poisson(gap, start, random):
        yield from itertools.repeat(time, size)


def closed(clients, think, answer, start, random):
    """Each of `clients` sends the next request when it has waited `answer` ticks for the last and
    thought `think`, both on average and exponentially spread. The first requests come as if the
    clients had thought before."""
    after = lambda mean: random.expovariate(1 / mean) if mean else 0.0
    due = [start + after(think) for _ in range(clients)]
    heapq.heapify(due)
    while True:
        yield int(due[0])
        heapq.heapreplace(due, due[0] + after(answer) + after(think))


def from_csv(file, column, value_column, ticks, start):
    """The times of a CSV with a line of headings, in units of `ticks` ticks, rising and moved so
    that the first is at `start`; and the values of a second column, if one is named. The file is
    open in bytes."""
    recording = recordings.read(file, "standard input", "csv")
    for name in (column, value_column):
        if name is not None and name not in recording.columns:
            raise Refused(f"there is no column {name!r} in the CSV; its columns are {', '.join(recording.columns)}")
    found = []
    for number, row in enumerate(recording.rows):
        time = parsed(row, column, float, "a number")
        found.append((time, number, parsed(row, value_column, int, "a whole number") if value_column else None))
    found.sort()
    first = found[0][0] if found else 0
    return [(start + round((time - first) * ticks), value) for time, _, value in found]


def parsed(row, column, kind, expected):
    """The number in a column of a row, refused with its place if there is none."""
    try:
        return kind(row.columns[column])
    except ValueError:
        raise row.refused(column, expected) from None
