"""Warnings about channels, which need traces: a thread that waits where no message comes, and messages for
which no thread waits."""
import collections

from .found import Warning

Waiting = collections.namedtuple("Waiting", "name at origin")


class Channels:
    def __init__(self):
        self.waitings = set()

    def blocks(self, call, arguments):
        if call.name in ("wait", "waitfor"):
            self.waitings.add(Waiting(call.name, call.at, arguments[0].origin))

    def warnings(self, traces):
        if not traces:
            return
        sent, arrived = {}, {}  # the place of the first message by channel, of the first arrival by value
        for name, lines in traces:
            for number, line in enumerate(lines, 1):
                fields = line.split()
                if fields[:1] == ["data"] and len(fields) == 4:
                    sent.setdefault(int(fields[2]), (name, number))
                elif fields[:1] == ["arrive"] and len(fields) == 3:
                    arrived.setdefault(int(fields[2]), (name, number))
        yield from self.unsent(sent, arrived)
        yield from self.unheard(sent, arrived)

    def unsent(self, sent, arrived):
        patient = {it.origin for it in self.waitings if it.name == "waitfor"}
        for it in sorted(self.waitings, key=lambda it: it.at):
            if isinstance(it.origin, int) and it.origin not in sent:
                text = f"{it.name}() waits on channel {it.origin}, and no line of a trace has a message on it"
                yield Warning("channel", it.at, text, [])
            elif is_arrival(it.origin) and it.name == "wait" and it.origin not in patient:
                silent = sorted((place, value) for value, place in arrived.items() if value not in sent)
                if silent:
                    (name, number), value = silent[0]
                    more = f", and {len(silent) - 1} more such" if len(silent) > 1 else ""
                    named = f"{name}:{number} names {value}, on which no message comes{more}"
                    yield Warning("channel", it.at, f"wait() waits on the channel that an arrival names: {named}", [])

    def unheard(self, sent, arrived):
        if not all(isinstance(it.origin, int) or is_arrival(it.origin) for it in self.waitings):
            return
        heard = {it.origin for it in self.waitings}
        if any(is_arrival(it) for it in heard):
            heard |= set(arrived)
        for channel, (name, number) in sent.items():
            if channel not in heard:
                yield Warning("channel", number, f"a message on channel {channel}, on which no thread waits", [], name)


def is_arrival(origin):
    return isinstance(origin, tuple) and origin[0] == "accept"
