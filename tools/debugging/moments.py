"""Moments of a run, as documents (docs/moment.schema.json), of the replay in Python."""
from .instructions import Fail, GiveBack, GiveWord
from .rewriting import Temporary
from sources.tree import Call


class Replayed:
    """The moments of the replay."""

    def __init__(self, chunks):
        self.chunks = chunks

    def at(self, run, code):
        line, steps = run.moment
        resources = [{"resource": it, "used": run.uses[it], "cap": cap} for it, cap in sorted(run.caps.items())]
        return {
            "version": 1,
            "line": line,
            "steps": steps,
            "clock": run.log.clocks[line - 1] if line else 0,
            "cost": run.log.costs[line],
            "chunks": {"free": run.free, "all": self.chunks},
            "running": run.running.number if run.running else None,
            "threads": [thread(it, run, code) for _, it in sorted(run.threads.items())],
            "globals": [variable(it, value) for it, value in zip(code.globals, run.globals)],
            "resources": resources,
        } | queues(run)


def queues(run):
    """The requests that have arrived and weren't taken, and the channels that hold messages."""
    channels = [{"channel": it, "messages": list(queue)} for it, queue in sorted(run.channels.items()) if queue]
    return {"arrivals": list(run.arrivals), "channels": channels}


def thread(it, run, code):
    state = "running" if it is run.running else "ready" if run.is_ready(it, run.clock) else "waiting"
    call = it.block and {
        "name": it.block[0],
        "arguments": list(it.block[1:]),
        "since": it.since,
        "until": run.until(it),
    }
    return {
        "thread": it.number,
        "state": state,
        "call": call,
        "stack": [frame(one, code) for one in reversed(it.frames)],
    }


def frame(it, code):
    does = it.does
    kinds = {GiveWord: "return", Fail: "trap"}
    ends = isinstance(does, GiveBack) and does.at == it.function.tree.end
    kind = "call" if it.waits else "end" if ends else kinds.get(type(does), "statement")
    line, column = (does.line, does.column) if not it.waits else code.place_of(does.call.at)
    names = [*does.scope, *does.held]
    return {
        "function": it.function.name,
        "does": kind,
        "line": line,
        "column": column,
        "locals": [variable(one, it.words[it.function.slots[one]], code) for one in names],
    }


def variable(it, value, code=None):
    """A variable with its value. A temporary has the call whose value it is in place of a name."""
    words = {"values": list(value), "words": len(value)} if isinstance(value, list) else {"value": value}
    if not isinstance(it, Temporary):
        return {"name": it.name} | words
    if not isinstance(it.of, Call):
        return {"name": None, "call": None} | words
    line, column = code.place_of(it.of.at)
    return {"name": None, "call": {"name": it.of.name, "line": line, "column": column}} | words
