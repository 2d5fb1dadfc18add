"""Runs of a server by the program, and runs under an order that none of its rules need choose."""
from traces import events

from . import free_run, many
from .orders import Order
from .translation import Untranslated

STATUSES = {"done": 0, "idle": 10, "trap": 11, "fuel": 13, "threads": 14}
NOT_MADE = 70  # the status of a run that Python can't make
HAS_EFFECT = ("caps", "fuel", "backlog", "chunks", "extra")  # the options of `serve` on which such a run depends
CHOOSE = ("rule", "tickets", "high", "low", "knee")  # those that choose threads, which contradict it


class FreeServer(many.Server):
    """A server (many.py) whose runs with the option `any-order`, a number, are made in Python (free_run.py)."""

    def run(self, options, trace=b""):
        if "any-order" not in options:
            return super().run(options, trace)
        found = events.read(trace.decode())
        with open(self.source, "rb") as file:
            source = file.read()
        try:
            made = free_run.FreeRun(source, options, Order(options["any-order"], len(found)), found)
            stop = made.run()
        except (Untranslated, RecursionError):
            return many.Run("", NOT_MADE, "the source can't be run in Python")
        return many.Run("\n".join(made.lines) + "\n", STATUSES[stop[0]], "")
