"""A source as Python (translation.py) whose threads say where they are, and count what they do.

Each function that may block keeps in `site_` the number of the call that it is in, so `key_of` can tell the key of a
thread that is blocked. Each statement calls `tick`, and a call through a table calls `member_` with the members, the
index and the arguments: both are of whoever runs the source (free_run.py).
"""
from explained.tokens import calls_of, tokens_of

from .places import MOST_SITES_IN_A_KEY
from .translation import Translation, translated

class Tracked(Translation):
    """A translation with `site_` and `tick`."""

    def __init__(self, source):
        super().__init__(source)
        tokens = tokens_of(source)
        numbers = {token.at: number for number, (token, _) in enumerate(calls_of(tokens))}
        self.site_at = {at: numbers[token.at] for at, token in enumerate(tokens) if token.at in numbers}

    def statement(self):
        self.put("tick()")
        super().statement()

    def call(self, name):
        at, text = self.at - 1, super().call(name)
        for mark in ("(yield from ", "(yield "):
            if text.startswith(mark):
                return f"{mark}{self.kept(text.removeprefix(mark).removesuffix(')'), at)})"
        return text

    def table_call(self, name, index, at):
        arguments = "".join(f"{it}, " for it in self.arguments())
        member = f"member_({self.named(name)}(), {index}, ({arguments}))"
        return f"(yield from {self.kept(member, at)})" if name in self.blocking else member

    def kept(self, call, at):
        """A call whose site is noted once its arguments are evaluated, which may have calls too."""
        return f"at_({call}, site_ := {self.site_at[at]})"


def at_(made, site):
    """The first argument; the second is only there to be noted behind it."""
    return made


def tracked(source):
    """The text of a source in Python."""
    return translated(source, Tracked)


def key_of(thread):
    """The key of a thread that is blocked: the sites of its calls, the innermost first."""
    sites = []
    while thread is not None:
        sites.append(thread.gi_frame.f_locals["site_"])
        thread = thread.gi_yieldfrom
    return tuple(reversed(sites))[:MOST_SITES_IN_A_KEY]
