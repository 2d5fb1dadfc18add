"""The call sites of a source: what each number in a log's keys stands for, with line, column and
function."""
import bisect

from explained.tokens import calls_of, tokens_of

MOST_SITES_IN_A_KEY = 8


class Site:
    """A call site: the name of what is called, its line and column from 1, and the function that it
    stands in. A call through a table has the table's name."""

    def __init__(self, callee, line, column, function):
        self.callee, self.line, self.column, self.function = callee, line, column, function

    def place(self):
        return f"{self.line}:{self.column}"


class Places:
    """The sites of a source by number, and in which function each thread may start."""

    def __init__(self, source):
        self.tokens = tokens_of(source)
        starts = line_starts(source)
        self.sites = [site_of(token, caller, starts) for token, caller in calls_of(self.tokens)]
        self.starters = self.spawned()

    def spawned(self):
        """For each function that a `spawn` names, the functions in which such a `spawn` stands."""
        found, callers = {}, (it.function for it in self.sites if it.callee == "spawn")
        for call, mark, function in zip(self.tokens, self.tokens[1:], self.tokens[2:]):
            if call.text == "spawn" and mark.text == "(":
                found.setdefault(function.text, set()).add(next(callers))
        return found

    def is_only_started(self, function):
        """Whether a thread is in this function only where it started there: the source names it in
        its declarations and as the function of a `spawn` alone."""
        before = lambda index, steps: self.tokens[index - steps].text if index >= steps else ""
        named = [index for index, token in enumerate(self.tokens) if token.text == function]
        return all(before(index, 1) in ("int", "void") or before(index, 1) == "(" and before(index, 2) == "spawn"
                   for index in named)

    def callee(self, key):
        """The name of the call at which a thread with this key is blocked."""
        return self.sites[key[0]].callee

    def path(self, key):
        """The functions that a thread with this key is in, the outermost first, which is where it
        started, but for a key of eight sites: that may be cut."""
        return [self.sites[site].function for site in reversed(key)]

    def described(self, key):
        """The call as `accept 14:19 in worker`, and behind each `<` a call above it."""
        first, *above = [self.sites[site] for site in key]
        return f"{first.callee} {first.place()} in {first.function}" + "".join(f" < {it.place()} in {it.function}" for it in above)


def site_of(token, caller, starts):
    """The site of a call by its name's token, over the bytes at which the lines begin."""
    line = bisect.bisect_right(starts, token.at)
    return Site(token.text, line, token.at - starts[line - 1] + 1, caller)


def line_starts(source):
    """The byte at which each line begins."""
    starts = [0]
    while (found := source.find(b"\n", starts[-1])) >= 0:
        starts.append(found + 1)
    return starts
