"""Rows of recordings: access logs of web servers, and tables with a line of headings (CSV, fields of tshark)."""
import csv, dataclasses, io, re

from .lines import Refused

FORMATS = ("auto", "common", "combined", "csv")
DELIMITERS = "\t,;|"
# The common log format, and with referer and agent the combined one (Apache HTTP Server, "Log Files").
ACCESS = re.compile(
    r"(?P<host>\S+) (?P<ident>\S+) (?P<user>\S+) \[(?P<time>[^\]]*)\] "
    r'"(?P<request>(?:[^"\\]|\\.)*)" (?P<status>\d{3}) (?P<bytes>\d+|-)'
    r'(?: "(?P<referer>(?:[^"\\]|\\.)*)" "(?P<agent>(?:[^"\\]|\\.)*)")?'
)
COMMON = ("host", "ident", "user", "time", "request", "method", "path", "protocol", "status", "bytes")
COMBINED = (*COMMON, "referer", "agent")
# Headings that name a time, the likeliest first, where no column is named.
TIMES = ("time", "timestamp", "frame.time_epoch", "_ws.col.Time", "frame.time", "date", "datetime", "ts", "at")


@dataclasses.dataclass(frozen=True)
class Row:
    """A row with its place, FILE:LINE, and the text of each column."""

    file: str
    line: int
    columns: dict

    def refused(self, column, expected):
        found = self.columns.get(column)
        there = "nothing" if found is None else repr(found)
        return Refused(f"{self.file}:{self.line}: column {column}: expected {expected}, found {there}")


@dataclasses.dataclass(frozen=True)
class Recording:
    """The rows of a file, and the names of their columns."""

    columns: tuple
    rows: list


def text_of(file, name):
    """The text of a file that is open in bytes, without a byte-order mark."""
    content = file.read()
    for mark, encoding in ((b"\xef\xbb\xbf", "utf-8-sig"), (b"\xff\xfe", "utf-16"), (b"\xfe\xff", "utf-16")):
        if content.startswith(mark):
            break
    else:
        encoding = "utf-8"
    try:
        return content.decode(encoding)
    except UnicodeDecodeError as why:
        line = content[: why.start].count(b"\n") + 1
        raise Refused(f"{name}:{line}: expected {encoding} text, found the byte {content[why.start]:#04x}") from None


def read(file, name, form="auto", delimiter=None):
    """Reads a recording, whose format is found out unless it is named."""
    text = text_of(file, name)
    first = next((line for line in text.splitlines() if line.strip()), "")
    if form == "auto":
        form = "combined" if ACCESS.match(first) else "csv"
    if form == "csv":
        return table(text, name, delimiter or likeliest_delimiter(first))
    return access_log(text, name, form)


def likeliest_delimiter(line):
    return max(DELIMITERS, key=line.count) if line.strip() else ","


def table(text, name, delimiter):
    reader = csv.reader(io.StringIO(text, newline=""), delimiter=delimiter)
    headings, rows = None, []
    while True:
        line = reader.line_num + 1
        try:
            cells = next(reader)
        except StopIteration:
            break
        except csv.Error as why:
            raise Refused(f"{name}:{line}: {why}") from None
        if headings is None:
            headings = tuple(it.strip() for it in cells)
        elif any(it.strip() for it in cells):
            if len(cells) != len(headings):
                raise Refused(f"{name}:{line}: expected {len(headings)} columns, found {len(cells)}")
            rows.append(Row(name, line, dict(zip(headings, map(str.strip, cells)))))
    if headings is None:
        raise Refused(f"{name}:1: expected a line of headings, found the end of the file")
    return Recording(headings, rows)


def access_log(text, name, form):
    rows = []
    for line, content in enumerate(text.splitlines(), 1):
        if content.strip():
            found = ACCESS.match(content)
            if not found:
                found = repr(content[:60])
                raise Refused(f"{name}:{line}: expected a line of the {form} log format, found {found}")
            columns = {key: value or "" for key, value in found.groupdict().items()}
            words = columns["request"].split(" ")
            columns.update(zip(("method", "path", "protocol"), [*words, "", "", ""]))
            columns["bytes"] = columns["bytes"].replace("-", "0")
            rows.append(Row(name, line, columns))
    return Recording(COMBINED if form == "combined" else COMMON, rows)


def time_column(recording, name):
    """The column with the times: the one that is named, or else the first that is called like one."""
    if name is not None:
        if name not in recording.columns:
            raise Refused(f"there is no column {name!r}; the columns are {', '.join(recording.columns)}")
        return name
    for it in TIMES:
        if it in recording.columns:
            return it
    raise Refused(f"no column is called like a time: name one by --time; the columns are {', '.join(recording.columns)}")
