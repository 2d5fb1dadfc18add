"""The words of a call of ./report: its own options, and the run behind them."""
import argparse

from .columns import Unit
from .verdict import EXPECTED

DEFAULT_CHUNKS = 1024
TAKES = {"serve": 1, "run": 3}  # the commands that are runs, with the number of their files
FILES = ("timeline", "graph", "trace", "folded", "html", "requests", "coverage")  # the options that store a file
VALUED = (*FILES, "by", "expect", "unit", "request", "answers", "from", "to", "log")
FLAGS = ("json", "all", "why")
OF_PROGRAM = ("request", "answers", "from", "to", "log", "why")  # the options that the program takes
WAYS = ("output", "input", "function")  # what --by takes


def parser():
    told = argparse.ArgumentParser(prog="report", allow_abbrev=False)
    for name in VALUED:
        told.add_argument(f"--{name}")
    for name in FLAGS:
        told.add_argument(f"--{name}", action="store_true")
    told.add_argument("command", choices=list(TAKES))
    told.add_argument("words", nargs=argparse.REMAINDER)
    return told


class Run:
    """The words of a run: its options, each with a value, and its files."""

    def __init__(self, command, words):
        self.words, self.options, self.files = [command, *words], {}, []
        left = list(words)
        while left:
            word = left.pop(0)
            if word.startswith("--") and left:
                self.options[word] = left.pop(0)
            else:
                self.files.append(word)

    def is_whole(self):
        """Whether it has as many files as its command takes."""
        return len(self.files) == TAKES[self.words[0]]

    def chunks(self):
        """How many chunks of both sizes there are."""
        return sum(int(it) for it in (self.options.get("--chunks", DEFAULT_CHUNKS), self.options.get("--extra", 0)))


def of_program(asked):
    """The words before the command that the program takes. A deadlock is found at any stop only with --why."""
    words = [it for name in OF_PROGRAM if name not in FLAGS and (value := getattr(asked, name)) is not None
             for it in (f"--{name}", value)]
    return words + ["--why"] * (asked.why or "no-deadlock" in expected(asked) and not asked.log)


def expected(asked):
    """What is expected of the run."""
    return (asked.expect or "").split(",") if asked.expect else []


def unit_of(text):
    """The unit that `us=10` is: a microsecond of 10 ticks. None where it is no unit."""
    name, sign, ticks = text.partition("=")
    try:
        unit = Unit(name, float(ticks)) if sign else Unit(name)
    except ValueError:
        return None
    return unit if name.isidentifier() and 0 < unit.ticks < float("inf") else None


def wrong_value(name, text):
    """Why the value of an option that the program doesn't take isn't as it should be, if it isn't."""
    if name == "by" and text not in WAYS:
        return f"expected {', '.join(WAYS[:-1])} or {WAYS[-1]}"
    if name == "expect" and not set(text.split(",")) <= EXPECTED.keys():
        return f"expected one or several of {', '.join(EXPECTED)}, joined by commas"
    if name == "unit" and unit_of(text) is None:
        return "expected a name and its number of ticks, as in us=10"
    return None
