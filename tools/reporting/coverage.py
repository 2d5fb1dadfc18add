"""Which lines, branches and functions of a source ran, in lcov's format.

The source is replayed along the log (runs/replay.py) with counts: of each statement, of both outcomes of each `if`,
`while` and `for`, and of the calls of each function. A segment that the stop cut isn't replayed.
"""
import bisect

from explained.tokens import tokens_of
from runs.places import line_starts
from runs.replay import Replay
from runs.translation import Translation, translated

from .columns import counted

MOST_NAMED = 20  # lines that were never reached


class Counting(Translation):
    """A translation whose statements, branches and functions are counted by their numbers."""

    def __init__(self, source):
        super().__init__(source)
        self.starts, self.places = line_starts(source), [it.at for it in tokens_of(source)]
        self.statements, self.branches, self.functions = [], [], []  # the line of each; functions with their names

    def line(self):
        return bisect.bisect_right(self.starts, self.places[min(self.at, len(self.places) - 1)])

    def statement(self):
        if self.tokens[self.at] not in ("{", ";"):
            self.put(f"ran[{len(self.statements)}] += 1")
            self.statements.append(self.line())
        super().statement()

    def function(self, name):
        self.defined = (self.line(), name)
        super().function(name)

    def if_(self):
        self.branch_at = self.line()
        super().if_()

    def while_(self):
        self.branch_at = self.line()
        super().while_()

    def for_(self):
        self.branch_at = self.line()
        super().for_()

    def put(self, line):
        word, _, rest = line.partition(" ")
        if word in ("if", "while") and line.endswith(":"):
            line = f"{word} decided({len(self.branches)}, {rest[:-1]}):"
            self.branches.append(self.branch_at)
        super().put(line)
        if word == "def":
            self.depth += 1
            super().put(f"entered[{len(self.functions)}] += 1")
            self.depth -= 1
            self.functions.append(self.defined)


class Coverage:
    """Counts what runs in a source while it is told the happenings of a log."""

    def __init__(self, source, name):
        self.name, kept = name, []
        self.branches = {}  # by number and outcome

        def translate(text):
            kept.append(Counting(text))
            return translated(text, lambda _: kept[-1])

        self.ran, self.entered = Counts(), Counts()
        self.replay = Replay(source, translate, {"ran": self.ran, "entered": self.entered, "decided": self.decided})
        self.places = kept[-1]

    def decided(self, number, outcome):
        key = (number, bool(outcome))
        self.branches[key] = self.branches.get(key, 0) + 1
        return outcome

    def tell(self, it):
        self.replay.tell(it)

    def lines(self):
        """For each line with a statement how often it ran: of several statements the greatest count; a condition counts
        each time it is evaluated."""
        found = {}
        for count, line in enumerate(self.places.statements):
            found[line] = max(found.get(line, 0), self.ran.get(count, 0))
        for count, line in enumerate(self.places.branches):
            found[line] = max(found.get(line, 0), self.taken(count, True) + self.taken(count, False))
        return dict(sorted(found.items()))

    def taken(self, number, outcome):
        return self.branches.get((number, outcome), 0)

    def text(self):
        """The record of the source in lcov's format."""
        lines, functions = self.lines(), list(enumerate(self.places.functions))
        found = ["TN:", f"SF:{self.name}", *[f"FN:{line},{name}" for _, (line, name) in functions],
                 *[f"FNDA:{self.entered.get(count, 0)},{name}" for count, (_, name) in functions],
                 f"FNF:{len(functions)}", f"FNH:{sum(bool(self.entered.get(count)) for count, _ in functions)}"]
        for count, line in enumerate(self.places.branches):
            is_reached = self.taken(count, True) + self.taken(count, False) > 0
            found += [f"BRDA:{line},{count},{way},{self.taken(count, not way) if is_reached else '-'}" for way in (0,
                                                                                                                   1)]
        found += [f"BRF:{2 * len(self.places.branches)}", f"BRH:{len(self.branches)}",
                  *[f"DA:{line},{count}" for line, count in lines.items()],
                  f"LF:{len(lines)}", f"LH:{sum(map(bool, lines.values()))}", "end_of_record"]
        return "".join(f"{it}\n" for it in found)

    def summary(self):
        """What ran, in a line."""
        lines = self.lines()
        missed = [line for line, count in lines.items() if not count]
        named = ", ".join(map(str, missed[:MOST_NAMED])) + (", .." if len(missed) > MOST_NAMED else "")
        text = (f"{len(lines) - len(missed)} of {counted(len(lines), 'line')}, {len(self.branches)} of "
                f"{counted(2 * len(self.places.branches), 'branch', 'branches')}")
        if self.replay.is_lost:
            return f"{text}, as far as the source could be replayed"
        return f"{text}; never reached: line{'s' * (len(missed) > 1)} {named}" if missed else text


class Counts(dict):
    """Counts by number, from 0."""

    def __missing__(self, _):
        return 0
