"""Which threads a source has, and what each of them reaches: the functions that it calls, and the
globals that it writes."""
import collections

from sources import tree

Root = collections.namedtuple("Root", "function argument is_many")
Root.__doc__ = """A function in which threads start. `argument` is a number, or None if it isn't known or differs;
`is_many` says whether more than one such thread may live."""


def called_from(program, function):
    """The functions that one calls directly, through tables too."""
    for it in tree.all_in(function.body):
        if isinstance(it, tree.Call):
            if it.index is not None:
                yield from program.tables[it.name].members
            elif it.name in program.functions:
                yield it.name


class Reach:
    """For each function, the functions that it reaches, itself among them; whether it may block; and the
    globals that are written there."""

    def __init__(self, program):
        self.program, self.found = program, {}
        direct = {name: set(called_from(program, it)) for name, it in program.functions.items()}
        for name in direct:
            found, left = set(), [name]
            while left:
                if (it := left.pop()) not in found:
                    found.add(it)
                    left += direct.get(it, ())
            self.found[name] = found

    def nodes(self, name):
        """All expressions and statements that a call of the function may come to."""
        for it in self.found[name]:
            yield from tree.all_in(self.program.functions[it].body)

    def may_block(self, name):
        calls = (it for it in self.nodes(name) if isinstance(it, tree.Call) and it.index is None)
        return any(tree.is_blocking(it.name) for it in calls)

    def written(self, name):
        return {it.variable for it in self.nodes(name) if isinstance(it, tree.Assign) and it.variable.is_global}


def spawns_of(statements, is_repeated):
    """The spawns within statements, each with whether it stands in a loop."""
    for it in statements:
        if isinstance(it, tree.Call) and it.name == "spawn":
            yield it, is_repeated
        yield from spawns_of(tree.parts_of(it), is_repeated or isinstance(it, tree.Loop))


def roots(program):
    """The threads of a source: main's, and those of each `spawn`."""
    found = {("main", None): False}
    for function in program.functions.values():
        for call, is_repeated in spawns_of(function.body, function.name != "main"):
            name, argument = call.arguments
            number = argument.value if isinstance(argument, tree.Number) else None
            found[name, number] = is_repeated or (name, number) in found
    return [Root(name, argument, is_many) for (name, argument), is_many in found.items()]
