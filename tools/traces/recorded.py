"""The events of a trace that repeats a recording: an arrival for each row, or connections with their messages."""
import collections, csv, dataclasses, decimal

from .expressions import Expression, NoValue
from .instants import seconds_of
from .lines import CHANNELS, LAST_TIME, LEAST_VALUE, MOST_VALUE, Refused
from .recordings import time_column


@dataclasses.dataclass(frozen=True)
class Asked:
    """What is asked of a recording. `ticks` are those of a second; `maps` number the names of columns."""

    time: str | None = None
    unit: str = "s"
    form: str | None = None
    ticks: decimal.Decimal = decimal.Decimal(1_000_000)
    start: int = 0
    value: str | None = None
    maps: tuple = ()
    connection: str | None = None
    last: int | None = None


@dataclasses.dataclass(frozen=True)
class Taken:
    """A row as it is taken: its tick, its value and its connection."""

    row: object
    tick: int
    value: int
    connection: str | None


class Names:
    """Numbers of the names in a column: those given as NAME:NUMBER, or else 1, 2, .. as they first occur."""

    def __init__(self, asked):
        self.column, _, given = asked.partition("=")
        self.numbers, self.fixed = {}, bool(given)
        for it in filter(None, given.split(",")):
            name, sign, number = it.rpartition(":")
            if not sign or not number.lstrip("-").isdigit():
                raise Refused(f"--map {asked}: expected COLUMN or COLUMN=NAME:NUMBER,.., found {it!r}")
            self.numbers[name] = int(number)

    def number(self, row):
        name = row.columns[self.column]
        if name not in self.numbers:
            if self.fixed:
                raise row.refused(self.column, f"one of {', '.join(self.numbers)}")
            self.numbers[name] = len(self.numbers) + 1
        return self.numbers[name]


def times_of(recording, asked):
    """Each row with its tick, by time: the first is at the start, and rows of one time stay in their order."""
    column, found = time_column(recording, asked.time), []
    for row in recording.rows:
        seconds = seconds_of(row.columns[column], asked.unit, asked.form)
        if seconds is None:
            wanted = f"a time in the form {asked.form}" if asked.form else "a number of seconds or a date with its time"
            raise row.refused(column, wanted)
        found.append((seconds, row))
    found.sort(key=lambda it: it[0])
    for seconds, row in found:
        tick = asked.start + int(((seconds - found[0][0]) * asked.ticks).to_integral_value())
        if tick > LAST_TIME:
            raise row.refused(column, f"a time within {LAST_TIME:,} ticks of the first")
        yield tick, row


def take(recording, asked):
    """The rows in the order of their times, each with its tick, its value and its connection."""
    names = [Names(it) for it in asked.maps]
    for it in [names.column for names in names] + ([asked.connection] if asked.connection else []):
        if it not in recording.columns:
            raise Refused(f"there is no column {it!r}; the columns are {', '.join(recording.columns)}")
    expression = Expression(asked.value, recording.columns) if asked.value else None
    for tick, row in times_of(recording, asked):
        yield Taken(row, tick, value_of(row, expression, names), row.columns.get(asked.connection))


def value_of(row, expression, names):
    columns = {**row.columns, **{it.column: str(it.number(row)) for it in names}}
    if expression is None:
        return int(columns[names[0].column]) if names else 0
    try:
        value = expression.value(columns)
    except NoValue as why:
        raise Refused(f"{row.file}:{row.line}: --value {expression.text!r}: {why}") from None
    if not LEAST_VALUE <= value <= MOST_VALUE:
        raise Refused(f"{row.file}:{row.line}: --value {expression.text!r}: {value:,} has more than 32 bits")
    return value


def events_of(rows, asked):
    """The events: (time, channel, value, row).

    An arrival has no channel (None), and a message that is made here has no row.
    """
    if not asked.connection:
        return [(it.tick, None, it.value, it.row) for it in rows]
    left = collections.Counter(it.connection for it in rows)
    free, channels, events = collections.deque(range(CHANNELS)), {}, []
    for it in rows:
        if it.connection not in channels:
            if not free:
                raise Refused(f"{it.row.file}:{it.row.line}: more than {CHANNELS} connections are open at once")
            channels[it.connection] = free.popleft()
            events.append((it.tick, None, channels[it.connection], it.row))
        events.append((it.tick, channels[it.connection], it.value, it.row))
        left[it.connection] -= 1
        if not left[it.connection]:
            channel = channels.pop(it.connection)
            if asked.last is not None:
                events.append((it.tick, channel, asked.last, None))
            free.append(channel)
    return events


def write_rows(file, events, columns):
    """Writes which row each line of the trace comes from: the number of the request, the line, and the row."""
    writer = csv.writer(file)
    writer.writerow(["request", "trace line", "time", "channel", "value", "file", "row line", *columns])
    request = 0
    for line, (time, channel, value, row) in enumerate(events, 1):
        request += channel is None
        number = request if channel is None else ""
        place = [row.file, row.line, *(row.columns.get(it, "") for it in columns)] if row else [""] * (2 + len(columns))
        writer.writerow([number, line, time, "" if channel is None else channel, value, *place])
