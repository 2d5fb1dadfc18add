"""The help of the scripts, and their version."""
import json, os, subprocess

from .commands import COMMANDS, OPTIONS, REPORT_OPTIONS, USAGE_OF_REPORT, USES_TRACE, options_of

WIDTH = 20  # of the first column
MORE = "docs/WRITING.md leads from an empty file to a server, docs/FORMATS.md has formats and statuses."
STATUSES = {  # docs/FORMATS.md has them with their lines
    "0": "success",
    "1": "wrong arguments",
    "2": "the source is refused",
    "3": "a pair fails a rule of the checker",
    "4": "the image, the certificate, the log or the trace is refused",
    "5": "a frame, the code or the pool is too large",
    "6, 7, 8": "a read failed, a write failed, out of memory",
    "9": "a file doesn't exist",
    "10": "the run stopped idle: the trace has ended and every thread is waiting",
    "11, 12, 13, 14": "the run stopped by a trap, without a free chunk, without fuel, with too many threads",
    "15, 16": "the audited log is unlawful, needs more steps",
    "17": "the program of a budget has recursion",
    "70": "the program can't be built",
}
STATUSES_OF_REPORT = {
    "as of the run": "with --log 0",
    "0, 20": "with --expect: the run is as expected, or isn't",
    "2": "wrong arguments, or a run whose source is refused",
    "3, 4": "with --log: the source is refused, the log is refused",
    "6, 7, 8": "a read failed, a write failed, out of memory",
    "9": "a file doesn't exist",
}
EXAMPLES_OF_REPORT = ("report serve server.c < trace", "report --html run.html serve server.c < trace",
                      "report --expect answered,no-deadlock serve server.c < trace",
                      "report --log log serve server.c < trace")


def row(head, *lines):
    """A head and what it means, in two columns."""
    gap = "\n" + " " * (WIDTH + 2)
    return f"  {head:<{WIDTH - 1}} {gap.join(lines)}" if len(head) < WIDTH else f"  {head}{gap}{gap.join(lines)}"


def of(name, words):
    """The help that the arguments ask for: of a command, or of all; None where they ask for that of
    no command."""
    asked = asked_for(words)
    if name == "report":
        return of_report()
    return of_all() if asked is None else of_command(asked) if asked in COMMANDS else None


def asked_for(words):
    """The command whose help is asked for, or None for that of all."""
    return next((it for it in words if it != "help" and not it.startswith("-")), None)


def of_all():
    lines = ["usage: capriccio COMMAND NAME .. [--OPTION VALUE ..]",
             "The trace is read from standard input; the log goes to standard output.", "", "commands:"]
    lines += [row(" ".join([name, *it.names]), it.does) for name, it in COMMANDS.items()]
    lines += ["", "options, anywhere after the command:"]
    lines += [row(f"{it} {OPTIONS[it].value}", OPTIONS[it].sets, *with_commands(OPTIONS[it])) for it in OPTIONS]
    lines += ["", "exit status:", *rows(STATUSES), "", "examples:",
              *(f"  capriccio {it.example}" for it in COMMANDS.values())]
    lines += ["", "`capriccio help COMMAND` has the options of one command, `report --help` those of the report.", MORE]
    return "\n".join(lines)


def with_commands(option):
    """The range of an option and the commands that take it, on one line if they fit."""
    text, commands = option.range_in_words(), f"({', '.join(option.commands)})"
    return [f"{text}  {commands}"] if len(text) + len(commands) < 76 else [text, commands]


def rows(table):
    return [row(head, text) for head, text in table.items()]


def options(names):
    return [row(f"{it} {OPTIONS[it].value}", OPTIONS[it].sets, OPTIONS[it].range_in_words()) for it in names]


def of_command(command):
    taken = options_of(command)
    it = COMMANDS[command]
    lines = [f"usage: capriccio {' '.join([command, *it.names])}{' [--OPTION VALUE ..]' * bool(taken)}", "", it.does]
    lines += ["reads the trace from standard input"] if command in USES_TRACE else []
    lines += ["", "options:", *options(taken)] if taken else ["takes no options"]
    return "\n".join([*lines, "", "example:", f"  capriccio {it.example}"])


def of_report():
    lines = [USAGE_OF_REPORT,
             "       report graph SRC .. | budget SRC IMG CRT             what these print, with places in the source",
             ""]
    lines += ["options, before the command:"]
    lines += [row(" ".join([name, *[value] * bool(value)]), does) for name, (value, does) in REPORT_OPTIONS.items()]
    lines += ["", "options of the run, after the command:",
              *options(it for it in OPTIONS if set(OPTIONS[it].commands) & {"serve", "run"})]
    lines += ["", "exit status:", *rows(STATUSES_OF_REPORT), "", "examples:", *(f"  {it}" for it in EXAMPLES_OF_REPORT)]
    lines += ["", "docs/REPORT.md says what each line of a report means."]
    return "\n".join(lines)


def version(top, name):
    """What the program was built from, as its build has noted it: whether it is proved, commit and
    toolchain. Else that no build is noted, with the commit of the clone."""
    called, folder = ("capriccio-report" if name == "report" else "capriccio"), os.environ.get("CAPRICCIO_PROGRAMS") or str(top / "built")
    try:
        with open(f"{folder}/{name}.made") as note:
            made = json.load(note)
        state = "proved" if made.get("proved", True) else "unproved"
        return f"{called} {made['commit']}, {state} ({made['toolchain']})"
    except (OSError, ValueError, KeyError):
        there = "unproved as far as is known: no build is noted" if os.access(f"{folder}/{name}", os.X_OK) else "not built"
        return f"{called} {commit_of(top)}, {there}"


def commit_of(top):
    """The commit of a clone, with a mark where files differ from it."""
    try:
        run = subprocess.run(["git", "-C", str(top), "describe", "--always", "--dirty=, with changes", "--exclude=*"],
                             stdout=subprocess.PIPE, stderr=subprocess.DEVNULL, text=True)
    except OSError:
        return "of an unknown commit"
    return run.stdout.strip() or "of an unknown commit"
