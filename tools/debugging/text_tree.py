"""The tree of a source as tools/sources/tree.py has it, with what counts the steps of a run: parentheses, a `for` as
other than a `while`, and a `for` without a condition."""
import collections, functools

from sources import tree

Group = collections.namedtuple("Group", "inner at")  # an expression in parentheses


class For(tree.Loop):
    """A `for`; its test is None without a condition, and else a group, which has the place of the condition."""


class Reader(tree.Reader):
    """Reads a source, or an expression in the scopes that it is given."""

    def primary(self):
        at = self.place()
        if not self.takes("("):
            return super().primary()
        inside = self.expression()
        self.wants(")")
        return Group(inside, at)

    def for_(self, at):
        self.wants("(")
        self.scopes.append({})
        start = [] if self.text() == ";" else self.part()
        self.wants(";")
        place = self.place()
        test = None if self.text() == ";" else Group(self.expression(), place)
        self.wants(";")
        step = [] if self.text() == ")" else self.part()
        self.wants(")")
        found = For(start, test, step, self.body(), at)
        self.scopes.pop()
        return found


@functools.lru_cache(maxsize=4)
def program_of(source):
    """The tree of a source's bytes."""
    try:
        return Reader(source).whole()
    except (IndexError, ValueError, RecursionError) as why:
        raise tree.NotASource("it isn't one that the program takes") from why
