"""The functions of a source as instructions (instructions.py), with the line and the column of each."""
from runs.places import line_starts
from sources.tree import Assign, Block, Declare, Do, If, Leave, Loop
import bisect

from . import rewriting, text_tree
from .expressions import function_of, uses_in
from .instructions import CallStep, Clear, Destination, Fail, GiveBack, GiveWord, Instruction, Jump, Store, Test
from .rewriting import Made, Temporary


class Landing(Instruction):
    """A place in the list of instructions that takes no step: control passes on to `next`."""


class Function:
    """A function with its first instruction, its parameters, the sizes of its names, and all its instructions."""

    def __init__(self, tree):
        self.tree, self.name, self.parameters = tree, tree.name, tree.parameters
        self.slots, self.first, self.instructions = {}, None, []

    def words(self, arguments):
        """The words of a new frame: the arguments, and every other name 0."""
        return [*arguments, *[[0] * it.size if it.size else 0 for it in list(self.slots)[len(arguments) :]]]


class Body:
    """Writes the instructions of one function. `open` are the instructions that end without a successor yet, `held` the
    temporaries of the statement that is being written."""

    def __init__(self, function, slots_of_globals):
        self.function, self.slots_of_globals = function, slots_of_globals
        self.scope, self.loops, self.made, self.open, self.held = [], [], [], [], []
        for it in function.parameters:
            self.declare(it)
        self.statements(rewriting.rewritten(function.tree.body))
        self.put(GiveBack(function.tree.end, tuple(self.scope)), True)
        function.first = chased(self.made[0])
        for it in self.made:
            it.next, it.other, it.function = chased(it.next), chased(it.other), function
        function.instructions = [it for it in self.made if not isinstance(it, Landing)]

    def declare(self, variable):
        self.function.slots.setdefault(variable, len(self.function.slots))
        self.scope.append(variable)

    def put(self, instruction, begins):
        """Appends an instruction, to which the open ones lead."""
        self.held = [] if begins else self.held
        instruction.begins, instruction.held = begins, tuple(self.held)
        for it, name in self.open:
            setattr(it, name, instruction)
        self.open = [(instruction, "next")]
        self.made.append(instruction)
        return instruction

    def leads(self, instruction):
        """The open instructions lead to one that is written already."""
        for it, name in self.open:
            setattr(it, name, instruction)
        self.open = []

    def value(self, node):
        return function_of(node, self.function.slots | self.slots_of_globals)

    def statements(self, statements, begins=True):
        """Statements in one scope. Those that the rewriting put before another begin none of their own."""
        before = len(self.scope)
        for it in statements:
            self.statement(it, begins)
            begins = not is_made(it)
        del self.scope[before:]

    def statement(self, it, begins):
        if isinstance(it, Block):
            self.statements(it.statements, begins)
        elif isinstance(it, Declare):
            self.declaration(it, begins)
        elif isinstance(it, Assign):
            index = None if it.index is None else self.value(it.index)
            reads = [] if it.index is None else uses_in(it.index)
            slots = self.slots_of_globals if it.variable.is_global else self.function.slots
            self.assign(it.at, begins, Destination(it.variable, slots[it.variable], index), it.value, reads)
        elif isinstance(it, Do):
            self.call(it.at, begins, it.call, None)
        elif isinstance(it, If):
            self.branch(it, begins)
        elif isinstance(it, Loop):
            self.loop(it, begins)
        else:
            self.leave(it, begins)

    def declaration(self, it, begins):
        slot = self.function.slots.setdefault(it.variable, len(self.function.slots))
        if it.value is None:
            self.put(Clear(it.at, tuple(self.scope), it.variable, slot), begins)
        else:
            self.assign(it.at, begins, Destination(it.variable, slot), it.value)
        (self.held if isinstance(it.variable, Temporary) else self.scope).append(it.variable)

    def assign(self, at, begins, destination, value, reads=()):
        if hasattr(value, "arguments"):
            self.call(at, begins, value, destination, reads)
        else:
            reads = [*reads, *uses_in(value)]
            self.put(Store(at, tuple(self.scope), reads, destination, self.value(value)), begins)

    def call(self, at, begins, call, destination, reads=()):
        arguments = rewriting.arguments_of(call)
        reads = [*reads, *(it for node in [call.index, *arguments] for it in uses_in(node))]
        index = None if call.index is None else self.value(call.index)
        self.put(
            CallStep(at, tuple(self.scope), reads, call, destination, list(map(self.value, arguments)), index), begins
        )

    def test(self, node, begins, at):
        return self.put(Test(at, tuple(self.scope), uses_in(node), self.value(node)), begins)

    def branch(self, it, begins):
        test = self.test(it.test, begins, it.at)
        self.statement(it.then, not isinstance(it.then, Made))
        ends, self.open = self.open, [(test, "other")]
        if it.otherwise:
            self.statement(it.otherwise, not isinstance(it.otherwise, Made))
        self.open += ends

    def loop(self, it, begins):
        before = len(self.scope)
        for part in it.start:
            self.statement(part, begins)
        start = self.put(Landing(it.at, ()), False)
        test, place = None, it.at
        if it.test is not None:
            place = it.test.at if isinstance(it, text_tree.For) else it.at
            test = self.test(it.test, begins and not isinstance(it.body, Made), place)
        self.loops.append(([], []))
        self.statement(it.body, True)
        leaves, skips = self.loops.pop()
        if isinstance(it, text_tree.For):
            self.open += [(jump, "next") for jump in skips]
            self.put(Landing(it.at, ()), False)
            for part in it.step:
                self.statement(part, True)
        else:
            for jump in skips:
                jump.next = start
        self.put(Jump(place, tuple(self.scope)), False)
        self.leads(start)
        self.open = [(jump, "next") for jump in leaves] + ([(test, "other")] if test else [])
        del self.scope[before:]

    def leave(self, it, begins):
        if it.word == "return":
            if hasattr(it.value, "arguments"):
                self.call(it.at, begins, it.value, "caller")
            else:
                reads, value = ((), None) if it.value is None else (uses_in(it.value), self.value(it.value))
                self.put(GiveBack(it.at, tuple(self.scope), reads, value), begins)
        else:
            self.loops[-1][it.word == "continue"].append(self.put(Jump(it.at, tuple(self.scope)), begins))
        self.open = []


def is_made(statement):
    """Whether the rewriting put a statement there, before another."""
    if isinstance(statement, If):
        return isinstance(statement.then, Made) and isinstance(statement.then.statements[-1], Assign)
    return isinstance(statement, Declare) and isinstance(statement.variable, Temporary)


def chased(instruction):
    """The instruction that takes the next step from here. (A landing always leads to one.)"""
    while isinstance(instruction, Landing):
        instruction = instruction.next
    return instruction


class Code:
    """The functions of a source by name, its globals with their slots, and its tables."""

    def __init__(self, source):
        self.source, self.tree = source, text_tree.program_of(source)
        self.globals = list(self.tree.globals.values())
        slots = {it: number for number, it in enumerate(self.globals)}
        self.tables = {name: table.members for name, table in self.tree.tables.items()}
        self.functions = {name: Function(it) for name, it in self.tree.functions.items()}
        self.starts, self.made = line_starts(source), {}
        for function in self.functions.values():
            Body(function, slots)
            for it in function.instructions:
                self.place(it)

    def place_of(self, at):
        """The line and the column of a byte of the source, from 1."""
        line = bisect.bisect_right(self.starts, at)
        return line, at - self.starts[line - 1] + 1

    def place(self, instruction):
        instruction.line, instruction.column = self.place_of(instruction.at)
        return instruction

    def globals_at_start(self):
        return [[0] * it.size if it.size else it.initial for it in self.globals]

    def after(self, call, kind):
        """The instruction of this kind that follows a call whose result has arrived."""
        if (call, kind) not in self.made:
            made = self.made[call, kind] = self.place(kind(call.at, call.scope))
            made.function, made.held = call.function, call.held
        return self.made[call, kind]

    def gives_word(self, call):
        return self.after(call, GiveWord)

    def fails(self, call):
        return self.after(call, Fail)
