"""What a run of the program was given: its words, files and trace, and what it wrote."""
import os, shlex

from . import words
from .commands import MOST_SOURCE, OPTIONS

MOST_LINE = 1 << 16  # bytes of a line that are read: one of more is refused, and none behind it is asked for


class Given:
    """The command of a run with its names and options, the options of the report, and its
    streams."""

    def __init__(self, run):
        self.run, self.is_report, self.all_words, self.status = run, run.name == "report", list(run.words), run.status
        self.of_report, rest, _ = words.without_report(self.all_words) if self.is_report else ({}, self.all_words, None)
        self.words = rest
        self.command = rest[0] if rest else ""
        self.names, self.options, _ = words.split(self.command, rest[1:])

    def number(self, option):
        """The value of an option with a number, or its default."""
        return int(self.options.get(option, OPTIONS[option].default))

    def caps(self):
        """The units of each resource that has any."""
        pairs = [it.split("=") for it in self.options.get("--caps", "").split(",") if it]
        return {int(resource): int(units) for resource, units in pairs}

    def name(self, place):
        """The name of a file among the words, or nothing."""
        return self.names[place] if place < len(self.names) else ""

    def source(self):
        """The bytes of the source, no more than its limit and one, or None where it is no regular
        file: what a device or a pipe gives can't be read again."""
        try:
            if not os.path.isfile(self.name(0)):
                return None
            with open(self.name(0), "rb") as it:
                return it.read(MOST_SOURCE + 1)
        except OSError:
            return None

    def last_line(self):
        """The last line on standard output, or None where it can't be seen: standard output is no
        terminal and no regular file."""
        if self.run.output:
            lines = self.run.output.tail.text.splitlines()
            return lines[-1].decode(errors="replace") if lines else ""
        try:
            with open("/proc/self/fd/1", "rb") as it:
                it.seek(max(0, os.lseek(1, 0, os.SEEK_CUR) - 1000))
                lines = it.read(1000).splitlines()
                return lines[-1].decode(errors="replace") if lines else ""
        except OSError:
            return None

    def trace_lines(self, number):
        """The line of this number of the trace, from 1, and the one before it, as bytes; None where
        they can't be read again."""
        if self.run.trace:
            tail = self.run.trace.tail
            return pair_at(tail.text, number - tail.lines_before, is_whole=tail.lines_before == 0)
        if self.run.trace_start is None:
            return None
        try:
            with open("/proc/self/fd/0", "rb") as it:
                it.seek(self.run.trace_start)
                before = b""
                for _ in range(number - 1):
                    before = it.readline(MOST_LINE)
                return it.readline(MOST_LINE).rstrip(b"\n"), before.rstrip(b"\n")
        except OSError:
            return None

    def whole_trace(self):
        """The lines of the trace as bytes, from the first on; none where they can't be read again."""
        if self.run.trace:
            tail = self.run.trace.tail
            yield from tail.text.removesuffix(b"\n").split(b"\n") if tail.text and not tail.lines_before else []
        elif self.run.trace_start is not None:
            with open("/proc/self/fd/0", "rb") as it:
                it.seek(self.run.trace_start)
                while line := it.readline(MOST_LINE):
                    yield line.rstrip(b"\n")

    def report_call(self):
        """How the report on the same run is called: with the trace, where it is a file."""
        folder = os.path.dirname(self.run.called)
        script = os.path.join(folder, "report") if os.path.exists(os.path.join(folder, "report")) else "capriccio-report"
        call = " ".join(shlex.quote(it) for it in [script, *self.words])
        trace = trace_name() if self.run.trace_start is not None else None
        return f"`{call} < {shlex.quote(trace)}`" if trace else f"`{call}` on the same trace"


def pair_at(text, number, is_whole):
    """The line of this number, from 1, and the one before it, or b"" for that; None where the text
    hasn't them whole."""
    lines = text.split(b"\n")
    if not (1 if is_whole else 2) <= number <= len(lines):
        return None
    return lines[number - 1], lines[number - 2] if number > 1 else b""


def trace_name():
    """The name of the file on standard input, seen from the present folder."""
    try:
        name = os.readlink("/proc/self/fd/0")
    except OSError:
        return None
    inside = os.path.relpath(name)
    return inside if not inside.startswith("..") else name
