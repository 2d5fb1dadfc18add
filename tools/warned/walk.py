"""Walks every path of a thread through its source, calls included, and tells a listener what happens on
the way: writes of globals, calls that block, resources taken and given, and ends of calls and rounds.

Paths that meet are joined (state.py), a loop is walked twice from values that it may change, and a call
within itself isn't entered again. So what is told may happen, but not all that may happen is told.
"""
import collections

from sources import tree

from .state import UNKNOWN, Held, Read, State, Value, met

MOST_STATEMENTS = 20_000  # of a thread that are walked
MOST_SYMBOL = 40  # parts of a symbol
NONE = frozenset()
FOLDED = {
    "+": lambda a, b: a + b,
    "-": lambda a, b: a - b,
    "*": lambda a, b: a * b,
    "/": lambda a, b: a // b if a >= 0 < b else None,
    "%": lambda a, b: a % b if a >= 0 < b else None,
}

Block = collections.namedtuple("Block", "path")  # the calls that led to one that blocks, itself last
Exit = collections.namedtuple("Exit", "at state value")
Jumps = collections.namedtuple("Jumps", "breaks continues")


class NoWayOn(Exception):
    """No path leads on from here."""


class TooLong(Exception):
    """The walk of a thread has come to its limit."""


class Frame:
    """A call under way: its exits so far, and the jumps of the loops that are open."""

    def __init__(self):
        self.exits, self.loops = [], []


class Walk:
    def __init__(self, program, reach, listener):
        self.program, self.reach, self.listener = program, reach, listener
        written = set().union(*map(reach.written, program.functions))
        self.constants = {it: it.initial for it in program.globals.values() if it not in written and it.size is None}

    def thread(self, root):
        """Walks a thread from its start. Says whether the walk came to its end: else what was told is not all."""
        self.calls, self.frames, self.left = [], [], MOST_STATEMENTS
        function, state = self.program.functions[root.function], State()
        argument = ("argument", root.function) if root.argument is None else root.argument
        try:
            self.entered(function, [Value(argument, NONE)], state)
            self.listener.thread_ends(function, state)
        except NoWayOn:
            pass
        except TooLong:
            return False
        return True

    def entered(self, function, arguments, state):
        """The result of a call, with the state behind it."""
        control, depth = state.control, len(self.frames)
        state.values.update(zip(function.parameters, arguments))
        self.frames.append(Frame())
        out = self.run(function.body, state.copy())
        exits = self.frames.pop().exits + ([Exit(function.end, out, Value(0, NONE))] if out else [])
        unclear = self.listener.call_ends(exits, depth)
        after = met([it.state for it in exits])
        if not after:
            raise NoWayOn
        after.held.update({key: held._replace(how="maybe") for key, held in after.held.items() if key in unclear})
        origins = {it.value.origin for it in exits}
        decided = (after.control - control).union(*[it.value.reads for it in exits])
        after.control = control
        state.become(after)
        return Value(origins.pop() if len(origins) == 1 else ("result", function.name), decided)

    def run(self, statements, state):
        """The state behind some statements, None if no path leads there."""
        for it in statements:
            self.left -= 1
            if self.left < 0:
                raise TooLong
            try:
                state = STATEMENTS[type(it)](self, it, state)
            except NoWayOn:
                return None
            if not state:
                return None
        return state

    def block_(self, it, state):
        return self.run(it.statements, state)

    def declare(self, it, state):
        without = UNKNOWN if it.variable.size else Value(0, NONE)
        state.values[it.variable] = self.value(it.value, state) if it.value else without
        return state

    def assign(self, it, state):
        element = self.value(it.index, state).origin if it.index else 0
        value = self.value(it.value, state)
        if it.variable.is_global:
            self.listener.written(it.variable, element, value, state, it.at)
        else:
            before = state.values.get(it.variable, UNKNOWN)
            state.values[it.variable] = Value(None, before.reads | value.reads) if it.index else value
        return state

    def do(self, it, state):
        self.value(it.call, state)
        return state

    def if_(self, it, state):
        test = self.value(it.test, state)
        state.is_ordered = state.is_ordered or has_order(it.test)
        ways = [it.then.statements, it.otherwise.statements if it.otherwise else []]
        if isinstance(test.origin, int):
            return self.run(ways[test.origin == 0], state)
        ends = []
        for way in ways:
            inside = state.copy()
            inside.control |= test.reads
            ends.append(self.run(way, inside))
        after = met(ends)
        if all(ends):  # the test no longer decides what happens
            after.control = after.control - test.reads | state.control
        return after

    def loop(self, it, state):
        state = self.run(it.start, state)
        for variable in assigned_in(it):
            state.values[variable] = Value(("mixed", variable), state.values.get(variable, UNKNOWN).reads)
        ends, held = [], set(state.held)
        for _ in range(2):
            entry = state.copy()
            test = self.value(it.test, state)
            if not isinstance(test.origin, int) or test.origin == 0:
                ends.append(state.copy())
                ends[-1].control |= test.reads
            self.frames[-1].loops.append(Jumps([], []))
            out = self.run(it.body.statements, state) if test.origin != 0 else None
            jumps = self.frames[-1].loops.pop()
            ends += jumps.breaks
            back = met([out, *jumps.continues])
            back = self.run(it.step, back) if back else None
            if not back:
                break
            self.listener.round_ends(it, back, held)
            state = met([entry, back])
            if state.__dict__ == entry.__dict__:  # a second round would find nothing else
                break
        return met(ends)

    def leave(self, it, state):
        if it.word == "return":
            value = self.value(it.value, state) if it.value else Value(0, NONE)
            self.frames[-1].exits.append(Exit(it.at, state, value))
        elif it.word == "break":
            self.frames[-1].loops[-1].breaks.append(state)
        else:
            self.frames[-1].loops[-1].continues.append(state)

    def value(self, it, state):
        """The value of an expression, which may change the state."""
        return EXPRESSIONS[type(it)](self, it, state)

    def use(self, it, state):
        index = self.value(it.index, state) if it.index else Value(0, NONE)
        if not it.variable.is_global:
            return state.values.get(it.variable, UNKNOWN)
        if it.variable in self.constants:
            return Value(self.constants[it.variable], NONE)
        read = Read(it.variable, index.origin, it.at, len(self.calls))
        state.read(read)
        return Value(("global", it.variable, index.origin), index.reads | {read})

    def unary(self, it, state):
        inner = self.value(it.inner, state)
        if isinstance(inner.origin, int) and it.mark != "~":
            return inner._replace(origin={"-": -inner.origin, "+": inner.origin, "!": +(not inner.origin)}[it.mark])
        return inner._replace(origin=symbol(it, inner.origin))

    def binary(self, it, state):
        left = self.value(it.left, state)
        if it.mark in ("&&", "||"):
            return self.joined(it, left, [it.right], [None], state)
        right = self.value(it.right, state)
        numbers = isinstance(left.origin, int) and isinstance(right.origin, int) and it.mark in FOLDED
        origin = FOLDED[it.mark](left.origin, right.origin) if numbers else symbol(it, left.origin, right.origin)
        return Value(origin, left.reads | right.reads)

    def choice(self, it, state):
        test = self.value(it.test, state)
        state.is_ordered = state.is_ordered or has_order(it.test)
        return self.joined(it, test, [it.first, it.second], [], state)

    def joined(self, it, test, parts, others, state):
        """Evaluates each part on a path of its own; `others` are paths on which nothing is evaluated."""
        ends, reads = [state.copy() for _ in others], test.reads
        for part in parts:
            ends.append(state.copy())
            reads |= self.value(part, ends[-1]).reads
        state.become(met(ends))
        return Value(("chosen", it.at), reads)

    def call(self, it, state):
        index = self.value(it.index, state) if it.index else None
        arguments = [self.value(argument, state) for argument in it.arguments if not isinstance(argument, str)]
        if index is None and it.name not in self.program.functions:
            return self.modelled(it, arguments, state)
        members = self.program.tables[it.name].members if it.index else [it.name]
        ends, values = [], []
        for name in dict.fromkeys(members):
            inside = state.copy()
            try:
                values.append(self.one_call(it, self.program.functions[name], arguments, inside))
                ends.append(inside)
            except NoWayOn:
                pass
        if not ends:
            raise NoWayOn
        state.become(met(ends))
        return values[0] if len(values) == 1 else Value(None, NONE.union(*[value.reads for value in values]))

    def one_call(self, it, function, arguments, state):
        """A call of a function: entered, but within itself."""
        self.calls.append(it)
        try:
            if function.name not in [call.name for call in self.calls[:-1]]:
                return self.entered(function, arguments, state)
            if self.reach.may_block(function.name):
                state.block(Block(tuple(self.calls)))
            return UNKNOWN
        finally:
            self.calls.pop()

    def modelled(self, it, arguments, state):
        if it.name in ("take", "give"):
            key, units = (argument.origin for argument in arguments)
            (self.take if it.name == "take" else self.give)(it, key, units, state)
        elif tree.is_blocking(it.name):
            state.block(Block((*self.calls, it)))
            self.listener.blocks(it, arguments)
        return Value((it.name, it.at), NONE)

    def take_place(self, it, key):
        """Where a resource is taken: at the `take`, or at the call around it whose argument is its number."""
        if not isinstance(key, int) or isinstance(it.arguments[0], tree.Number):
            return it.at
        has_number = lambda call: any(isinstance(part, tree.Number) for part in call.arguments)
        return next((call.at for call in reversed(self.calls) if has_number(call)), it.at)

    def take(self, it, key, units, state):
        at = self.take_place(it, key)
        self.listener.takes(at, key, state)
        state.block(Block((*self.calls, it)))
        if key is not None:
            before = state.held.get(key)
            is_more = before and before.how == "held" and None not in (before.units, units)
            more = before.units if is_more and isinstance(before.units, int) and isinstance(units, int) else 0
            state.held[key] = Held("held", units + more if more else units, at, len(self.frames))

    def give(self, it, key, units, state):
        before = state.held.get(key)
        was_taken = before is not None and before.how != "given"
        self.listener.gives(key, was_taken)
        if was_taken:
            is_part = isinstance(before.units, int) and isinstance(units, int) and units < before.units
            state.held[key] = before._replace(units=before.units - units) if is_part else before._replace(how="given")
        if not was_taken or state.held[key].how != "held":
            state.give(key)


def symbol(it, *origins):
    """The symbol of an operation on values of these origins."""
    if None in origins:
        return None
    made = (it.mark, *origins)
    return made if len(str(made)) < MOST_SYMBOL * 10 else ("value", it.at)


def has_order(test):
    """Whether a test compares two values that aren't numbers in the text."""
    orders = [it for it in tree.all_in([test]) if isinstance(it, tree.Binary) and it.mark in ("<", ">", "<=", ">=")]
    return any(not isinstance(it.left, tree.Number) and not isinstance(it.right, tree.Number) for it in orders)


def assigned_in(loop):
    """The local variables without an index that a loop assigns."""
    assigned = (it for it in tree.all_in([loop]) if isinstance(it, tree.Assign) and it.index is None)
    return {it.variable for it in assigned if not it.variable.is_global}


STATEMENTS = {
    tree.Block: Walk.block_,
    tree.Declare: Walk.declare,
    tree.Assign: Walk.assign,
    tree.Do: Walk.do,
    tree.If: Walk.if_,
    tree.Loop: Walk.loop,
    tree.Leave: Walk.leave,
}
EXPRESSIONS = {
    tree.Number: lambda walk, it, state: Value(it.value, NONE),
    tree.Use: Walk.use,
    tree.Unary: Walk.unary,
    tree.Binary: Walk.binary,
    tree.Choice: Walk.choice,
    tree.Call: Walk.call,
}
