"""Which file is absent, or can't be read or written, and why."""
import os, shlex, stat

from .commands import COMMANDS, REPORT_OPTIONS
from .text import nearest, quoted

PLACES = {"source": "SRC", "image": "IMG", "certificate": "CRT", "log": "LOG"}
READ_BY = {"serve": ("SRC",), "graph": ("SRC",), "build": ("SRC",)}  # of all others each name


def named(given, which):
    """The name that stands for SRC, IMG, CRT or LOG, which the report has behind --log."""
    if which == "LOG" and "--log" in given.of_report:
        return given.of_report["--log"]
    names = COMMANDS[given.command].names
    return given.name(names.index(which)) if which in names else ""


def absent(given, line):
    """The notes on `absent: WHICH`."""
    which = line.split()[1]
    name = named(given, PLACES[which])
    folder = os.path.dirname(name) or "."
    if not os.path.isdir(folder):
        return [f"note: {quoted(name)}: there is no folder {quoted(folder)}"]
    others = (it for it in os.listdir(folder) if os.path.isfile(os.path.join(folder, it))
              and os.path.join(os.path.dirname(name), it) not in given.names)
    alike = nearest(os.path.basename(name), others)
    return [f"note: {quoted(name)}: there is no such file{alike}", *made_by(which)]


def made_by(which):
    """What makes a file of this kind."""
    if which in ("image", "certificate"):
        return ["note: `build SRC IMG CRT` makes image and certificate"]
    return ["note: `serve SRC > LOG` makes a log"] if which == "log" else []


def unread(given, _):
    """The notes on `fault: read`: the first file that can't be read, or the trace."""
    for name in [*names_read(given), *names_of_report(given, "LOG")]:
        fault = read_fault(name)
        if fault:
            return [f"note: {quoted(name)}: {fault}"]
    return [f"note: the trace on standard input: {trace_fault() or 'a read failed'}"]


def names_read(given):
    wanted = COMMANDS[given.command].names if given.command in COMMANDS else ()
    return [given.name(place) for place, it in enumerate(wanted) if it in READ_BY.get(given.command, PLACES.values())]


def names_of_report(given, value):
    """The names behind those options of the report that take such a value."""
    return [name for option, name in given.of_report.items() if REPORT_OPTIONS[option][0] == value]


def read_fault(name):
    """Why a file of this name can't be read, or nothing."""
    if os.path.isdir(name):
        return "it is a folder"
    if os.path.exists(name) and not os.path.isfile(name):  # (a pipe would keep this waiting)
        return None
    try:
        with open(name, "rb") as it:
            it.read(1)
    except OSError as error:
        return in_words(error)
    return None


def in_words(error):
    return (error.strerror or str(error)).lower()


def trace_fault():
    """Why standard input can't be read, or nothing."""
    try:
        os.read(0, 0)
    except OSError as error:
        return in_words(error)
    return None


def unwritten(given, _):
    """The notes on `fault: write`: the first file that can't be stored, or standard output."""
    stored = given.names[1:] if given.command == "build" else []
    for name in [*stored, *names_of_report(given, "FILE")]:
        fault = write_fault(name)
        if fault:
            return [f"note: {quoted(name)}: {fault}"]
    return [f"note: standard output: {output_fault()}; what was written is a prefix of the output"]


def write_fault(name):
    """Why a file of this name can't be stored, or nothing."""
    folder = os.path.dirname(name) or "."
    if os.path.isdir(name):
        return "it is a folder"
    if not os.path.isdir(folder):
        return f"there is no folder {quoted(folder)}"
    if os.path.exists(name) and not os.access(name, os.W_OK) or not os.path.exists(name) and not os.access(folder, os.W_OK):
        return "permission denied"
    return "no space left" if is_full(name if os.path.exists(name) else folder) else None


def is_full(name):
    """Whether no more can be written there."""
    try:
        return os.path.samefile(name, "/dev/full") or os.statvfs(name).f_bavail == 0
    except OSError:
        return False


def output_fault():
    """Why standard output can't be written, as far as that can be seen."""
    try:
        mode = os.fstat(1).st_mode
    except OSError:
        return "it is closed"
    if stat.S_ISFIFO(mode) or stat.S_ISSOCK(mode):
        return "its reader has ended"
    return "no space left" if is_full("/proc/self/fd/1") else "a write failed"


def no_memory(given, _):
    chunks = "; a run allocates all of its chunks (`--chunks` times `--chunk`) at the start" if given.command in ("serve", "run") else ""
    return [f"note: an allocation failed{chunks}"]


def no_log(given, _):
    """The notes where the report is given no log of a run."""
    name = given.of_report.get("--log", "")
    if is_cut(name):
        whole = shlex.quote(name)
        return [f"note: the last line of {quoted(name)} is truncated, as after Ctrl-C; `sed '$d' {whole} > {whole}.whole` removes it"]
    return [f"note: {quoted(name)} is not the log of a run; `serve SRC > LOG` makes one"]


def is_cut(name):
    """Whether a file begins as logs do and its last line has no end."""
    try:
        with open(name, "rb") as it:
            begins = it.read(4) == b"run "
            it.seek(-1, os.SEEK_END)
            return begins and it.read(1) != b"\n"
    except OSError:
        return False


def no_source(given, _):
    """The notes where the report is given a source that is refused."""
    return [f"note: {quoted(given.name(0))} is refused; `graph {given.name(0)}` shows where and why"]
