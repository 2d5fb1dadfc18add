"""A warning, and the comments of a source that silence one."""
import bisect, collections, re

from explained.tokens import GAP, TOKEN, tokens_of
from runs.places import line_starts

KINDS = {
    "update": "a global is read or tested, a call may block, and the global is written",
    "order": "resources are taken in different orders, or one again",
    "kept": "a resource is taken and not given back on some path",
    "channel": "no line of the traces has a message on a channel, or no thread waits for one that has",
    "spin": "a loop does nothing but wait for a global",
    "allow": "a comment `allow(KIND)` that silences nothing",
}
Warning = collections.namedtuple("Warning", "kind at text places file near", defaults=[None, ()])
Warning.__doc__ = """A warning at a place of the source, in bytes; `{0}`, `{1}` .. in its text stand for further
places, and at those `near` it may be silenced too. Of a trace it has the file, and `at` is a line."""
ALLOWED = re.compile(rb"\ballow\(([\w, ]*)\)")


class Comments:
    """The comments `allow(KIND, ..)` of a source: each silences the warnings of these kinds with a place in its
    line, or in the next line if it stands alone."""

    def __init__(self, source):
        self.starts, self.allowed = line_starts(source), []  # place, lines, kinds
        token_lines = {self.line(it.at) for it in tokens_of(source)}
        at = 0
        while at <= len(source):
            end = GAP.match(source, at).end()
            for found in ALLOWED.finditer(source, at, end):
                line = self.line(found.start())
                kinds = {it.strip() for it in found[1].decode().split(",")}
                self.allowed.append((found.start(), {line} if line in token_lines else {line, line + 1}, kinds))
            token = TOKEN.match(source, end)
            at = token.end() if token else len(source) + 1

    def line(self, at):
        return bisect.bisect_right(self.starts, at)

    def place(self, at):
        line = self.line(at)
        return f"{line}:{at - self.starts[line - 1] + 1}"

    def sift(self, warnings):
        """The warnings that no comment silences, with those about comments, by their places, and the number of
        the others."""
        used, left = set(), []
        for it in warnings:
            lines = {self.line(at) for at in (it.at, *it.places, *it.near)} if it.file is None else set()
            silent = [comment for comment in self.allowed if it.kind in comment[2] and comment[1] & lines]
            used |= {at for at, _, _ in silent}
            left += [] if silent else [it]
        silenced = len(warnings) - len(left)
        for at, _, kinds in self.allowed:
            unknown = sorted(kinds - KINDS.keys())
            if unknown:
                known = ", ".join(it for it in KINDS if it != "allow")
                left.append(Warning("allow", at, f"there is no kind {unknown[0]!r}: one of {known}", []))
            elif at not in used:
                left.append(Warning("allow", at, "silences nothing", []))
        return sorted(left, key=lambda it: (it.file or "", it.at, it.kind, it.text)), silenced
