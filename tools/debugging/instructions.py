"""What a frame does next, step by step: an instruction for each step of the source (docs/LANGUAGE.md, "Meaning").

`do(machine, frame)` makes the step. `next` is the instruction that follows it in its function, `other` that of a test
that failed. `begins` says that a statement of the source, or a test of one, begins there.
"""
from .expressions import Trap


class Instruction:
    """A step at the byte `at`, with the variables in scope there. `reads` are the variables and elements (`Use`) that
    it may read."""

    next = other = function = None
    begins, held = False, ()  # `held` are the temporaries that its statement has set before it

    def __init__(self, at, scope, reads=()):
        self.at, self.scope, self.reads = at, scope, tuple(reads)
        self.line = self.column = 0

    def do(self, machine, frame):
        raise NotImplementedError


class Destination:
    """Where a value goes: the variable with its slot, and the function of its index, if it has one."""

    def __init__(self, variable, slot, index=None):
        self.variable, self.slot, self.index = variable, slot, index

    def indexed(self, frame, machine):
        """The index, evaluated before the value."""
        return None if self.index is None else self.index(frame.words, machine.globals)

    def store(self, words, index, value):
        if index is None:
            words[self.slot] = value
        elif 0 <= index < len(words[self.slot]):
            words[self.slot][index] = value
        else:
            raise Trap("index")


class Clear(Instruction):
    """A declaration without a value."""

    def __init__(self, at, scope, variable, slot):
        super().__init__(at, scope)
        self.variable, self.slot = variable, slot

    def do(self, machine, frame):
        frame.words[self.slot] = [0] * self.variable.size if self.variable.size else 0
        frame.does = self.next


class Store(Instruction):
    """An assignment of the value of an expression."""

    def __init__(self, at, scope, reads, destination, value):
        super().__init__(at, scope, reads)
        self.destination, self.value = destination, value

    def do(self, machine, frame):
        index = self.destination.indexed(frame, machine)
        value = self.value(frame.words, machine.globals)
        words = machine.globals if self.destination.variable.is_global else frame.words
        self.destination.store(words, index, value)
        frame.does = self.next


class Test(Instruction):
    """A test of a condition."""

    def __init__(self, at, scope, reads, value):
        super().__init__(at, scope, reads)
        self.value = value

    def do(self, machine, frame):
        frame.does = self.next if self.value(frame.words, machine.globals) else self.other


class Jump(Instruction):
    """`break`, `continue`, or the jump back at the end of a loop's body."""

    def do(self, machine, frame):
        frame.does = self.next


class CallStep(Instruction):
    """A call with its destination: None, a `Destination`, or "caller" if its result is returned."""

    def __init__(self, at, scope, reads, call, destination, arguments, index):
        super().__init__(at, scope, reads)
        self.call, self.destination, self.arguments, self.index = call, destination, arguments, index

    def do(self, machine, frame):
        words, shared = frame.words, machine.globals
        where = self.destination.indexed(frame, machine) if hasattr(self.destination, "indexed") else None
        index = None if self.index is None else self.index(words, shared)
        arguments = [it(words, shared) for it in self.arguments]
        frame.waits = (self, where)
        machine.call(self.call, index, arguments)

    def deliver(self, machine, frame, where, value):
        """The result of the call arrives, which isn't a step. One that can't be stored is a trap at the next step."""
        frame.waits = None
        if self.destination == "caller":
            frame.does, frame.word = machine.code.gives_word(self), value
            return
        frame.does = self.next
        if self.destination:
            words = machine.globals if self.destination.variable.is_global else frame.words
            try:
                self.destination.store(words, where, value)
            except Trap:
                frame.does = machine.code.fails(self)


class GiveBack(Instruction):
    """A return of the value of an expression, or without one."""

    def __init__(self, at, scope, reads=(), value=None):
        super().__init__(at, scope, reads)
        self.value = value

    def do(self, machine, frame):
        machine.give_back(self.value(frame.words, machine.globals) if self.value else 0)


class GiveWord(Instruction):
    """The return of a call's result, which has arrived."""

    def do(self, machine, frame):
        machine.give_back(frame.word)


class Fail(Instruction):
    """The trap of a result that couldn't be stored."""

    def do(self, machine, frame):
        raise Trap("index")
