"""What a command line may have: commands, options with their ranges and defaults, the options of
the report."""

MOST_POOL = 67_108_864  # bytes of all chunks
MOST_SOURCE = 1_048_576  # bytes
MOST_LOG = 67_108_864  # bytes of a log that is audited
USES_TRACE = ("serve", "run", "audit")


class Command:
    """A command: its arguments, what it does, and an example, which dev/check_messages runs in a
    folder with server.c and trace."""

    def __init__(self, names, does, example):
        self.names, self.does, self.example = names, does, example


COMMANDS = {
    "serve": Command(("SRC",), "compiles a source, checks it and runs it on the trace; prints the log",
                     "serve server.c < trace > log"),
    "run": Command(("SRC", "IMG", "CRT"), "checks a stored pair and runs it on the trace; prints the log",
                   "run server.c server.img server.crt < trace"),
    "build": Command(("SRC", "IMG", "CRT"), "compiles a source and stores image and certificate",
                     "build server.c server.img server.crt"),
    "check": Command(("SRC", "IMG", "CRT"), "checks source, image and certificate against one another",
                     "check server.c server.img server.crt"),
    "graph": Command(("SRC",), "prints each function's frame and stack, and where chunks are linked", "graph server.c"),
    "demo": Command(("N",), "runs a workload of N threads, 1 to 1,000; prints a summary", "demo 10"),
    "audit": Command(("SRC", "LOG"), "judges whether a log is one of the source on the trace",
                     "audit server.c log < trace"),
    "budget": Command(("SRC", "IMG", "CRT"), "prints how many chunks a thread of a pair may hold",
                      "budget server.c server.img server.crt"),
}
PLACEMENT, POLICY, READING = ("serve", "build", "graph"), ("serve", "run"), ("serve", "run", "audit")


class Option:
    """An option: what it sets, the commands that take it, its default, and its range: the minimum,
    the maximum, and the number of which it is a multiple. A range or a default that isn't plain
    numbers is in words."""

    def __init__(self, sets, commands, default=None, least=None, most=None, step=1, value="N", range=None,
                 without=None):
        self.sets, self.commands, self.default, self.least, self.most, self.step = sets, commands, default, least, most, step
        self.value, self.range, self.without = value, range, without

    def is_number(self):
        return self.value == "N"

    def bounds_in_words(self):
        """The range."""
        step = f", a multiple of {self.step}" if self.step > 1 else ""
        return self.range or f"{self.least:,} to {self.most:,}{step}"

    def default_in_words(self):
        return self.without or f"{self.default:,}"

    def range_in_words(self):
        """The range and the default."""
        return f"{self.bounds_in_words()}; default {self.default_in_words()}"


OPTIONS = {
    "--chunk": Option("bytes of a chunk of stack", PLACEMENT, 4096, 64, 65_536, 16),
    "--max-path": Option(
        "maximum bytes of frames in a row without a test for room", PLACEMENT, None, 16, None, range="16 to chunk - 16",
        without="half of chunk - 16"
    ),
    "--chunks": Option("number of chunks", READING, 1024, 1, 65_536),
    "--extra": Option("number of chunks of a second size", READING, 0, 0, 65_536),
    "--extra-size": Option("bytes of a chunk of the second size", POLICY, 64, 32, 65_536, 16),
    "--fuel": Option("maximum instructions of a run", READING, 10_000_000, 0, 1_000_000_000),
    "--backlog": Option("maximum waiting requests, and waiting messages of each channel", READING, 64, 1, 4096),
    "--caps": Option("units of each resource, as in 1=4,3=10", READING, value="R=N,..",
                     range="resources 1 to 7, increasing; units 1 to 1,000,000", without="none"),
    "--high": Option("pressure at which the gate closes: without --knee, use in thousandths", READING, 900, 1, 1000),
    "--low": Option("pressure at which the gate opens again", READING, 700, 0, None, range="0 to high - 1"),
    "--rule": Option("how the next thread is chosen", POLICY, value="R", range="graph or stride", without="graph"),
    "--tickets": Option(
        "tickets of threads under --rule stride, as in 1=3,2=1", POLICY, value="T=N,..",
        range="at most 64 threads, 0 to 1,000,000, increasing; tickets 1 to 1,024", without="1 each"
    ),
    "--knee": Option("thousandths of a cap above which use counts as pressure", READING, 0, 0, 999),
    "--steps": Option("maximum steps of the source that an audit takes", ("audit",), 1_000_000_000, 0, 1_000_000_000),
}

USAGE_OF_REPORT = "usage: report [OPTION ..] serve SRC .. | run SRC IMG CRT ..    the trace on standard input, the report on standard output"

# The options of the report, which go before the command: the value that follows, if there is one,
# and what they do.
REPORT_OPTIONS = {
    "--timeline": ("FILE", "stores a timeline as SVG"),
    "--graph": ("FILE", "stores the blocking graph as SVG, or as DOT if FILE ends in .dot"),
    "--html": ("FILE", "stores a page: verdict, plots, tables, a timeline that zooms, requests, graph, log, source"),
    "--trace": ("FILE", "stores the run in the Trace Event format, for Perfetto"),
    "--folded": ("FILE", "stores folded stacks by instructions, with --why by waits, for flame graphs"),
    "--requests": ("FILE", "stores a row for each request as CSV: value, clocks, thread, outputs"),
    "--coverage": ("FILE", "stores the lines, branches and functions that ran, for lcov"),
    "--json": (None, "prints the document behind the report, by docs/report.schema.json"),
    "--all": (None, "prints all rows of each table"),
    "--by": ("WAY", "adds the latencies by the requests' first output, by their input, or by function"),
    "--expect": ("WHAT", "status 20 unless answered, no-drops, no-deadlock; several joined by commas"),
    "--unit": ("UNIT", "shows times in a unit with its number of ticks, as in us=10"),
    "--why": (None, "repeats the run: what decided the choices, who holds what, answers of started threads"),
    "--request": ("N", "shows the parts of the latency of the N-th request that came"),
    "--answers": ("HOW", "pairs outputs with requests: first, by their order, or value, by their values"),
    "--from": ("CLOCK", "start of the window for requests, waits, choices and the timeline"),
    "--to": ("CLOCK", "end of the window for requests, waits, choices and the timeline"),
    "--log": ("LOG", "reads a stored log with its source and trace, and makes no run"),
}


def options_of(command):
    return [name for name, it in OPTIONS.items() if command in it.commands]


def form_of(command):
    """How a command is called, with its options."""
    taken = options_of(command)
    return " ".join([command, *COMMANDS[command].names]) + (f"   options: {' '.join(taken)}" if taken else "   no options")


def default_path(chunk):
    """`--max-path` where it isn't given."""
    return (chunk - 16) // 2 // 16 * 16
