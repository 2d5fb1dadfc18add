"""How many threads a source may ever have, where its text tells it: each `spawn` stands outside of loops, or in a
`for` that counts from one number to another."""
from sources import tree

STEPS = {"<": lambda first, last, by: range(first, last, by), "<=": lambda first, last, by: range(first, last + 1, by)}


class Unbounded(Exception):
    """The text sets no limit."""


def most_threads(program):
    """The maximum number of threads, main's among them, or None."""
    try:
        return Count(program).threads("main")
    except Unbounded:
        return None


class Count:
    def __init__(self, program):
        self.program, self.open, self.kept = program, [], {}

    def threads(self, name):
        """The threads that come of one that starts in this function, itself among them."""
        return 1 + self.started_in(name)

    def started_in(self, name):
        """The threads that a call of the function starts, and those that they start."""
        if name in self.open:
            if self.may_start(name):
                raise Unbounded
            return 0
        if name not in self.kept:
            self.open.append(name)
            self.kept[name] = self.among(self.program.functions[name].body)
            self.open.pop()
        return self.kept[name]

    def may_start(self, name):
        """Whether a function within which this stands may start a thread at all."""
        inside, left = set(), [name]
        while left:
            if (it := left.pop()) in inside or it not in self.program.functions:
                continue
            inside.add(it)
            for call in (node for node in tree.all_in(self.program.functions[it].body) if isinstance(node, tree.Call)):
                if call.name == "spawn":
                    return True
                left += self.program.tables[call.name].members if call.index else [call.name]
        return False

    def among(self, nodes):
        return sum(map(self.of_node, nodes))

    def of_node(self, it):
        if isinstance(it, tree.If):
            return self.of_node(it.test) + max(self.of_node(it.then), self.of_node(it.otherwise) if it.otherwise else 0)
        if isinstance(it, tree.Loop):
            return self.of_loop(it)
        own = 0
        if isinstance(it, tree.Call):
            if it.name == "spawn":
                own = self.threads(it.arguments[0])
            elif it.index or it.name in self.program.functions:
                members = self.program.tables[it.name].members if it.index else [it.name]
                own = max(map(self.started_in, members))
        return own + self.among(tree.parts_of(it))

    def of_loop(self, it):
        inside = self.among([it.test, *it.body.statements, *it.step])
        return self.among(it.start) + (inside * rounds(it) if inside else 0)


def rounds(loop):
    """The maximum rounds of a `for` that counts up, by numbers in the text."""
    step = loop.step[0] if len(loop.step) == 1 else None
    start = loop.start[0] if len(loop.start) == 1 else None
    test = loop.test
    is_form = isinstance(step, tree.Assign) and isinstance(test, tree.Binary) and test.mark in STEPS
    if not is_form or not isinstance(start, (tree.Assign, tree.Declare)):
        raise Unbounded
    counter = start.variable
    inside = [it for it in tree.all_in(loop.body.statements) if isinstance(it, tree.Assign) and it.variable is counter]
    is_counted = not counter.is_global and counter is step.variable and is_use(test.left, counter) and not inside
    sum_of = step.value if isinstance(step.value, tree.Binary) and step.value.mark == "+" else None
    if not is_counted or not sum_of or not is_use(sum_of.left, counter):
        raise Unbounded
    numbers = [start.value, test.right, sum_of.right]
    if not all(isinstance(it, tree.Number) for it in numbers) or sum_of.right.value == 0:
        raise Unbounded
    return len(STEPS[test.mark](*[it.value for it in numbers]))


def is_use(it, variable):
    return isinstance(it, tree.Use) and it.variable is variable and it.index is None
