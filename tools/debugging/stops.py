"""What stops a thread: breakpoints and watches, and the search for them along a run."""
import itertools, re

from sources.tree import Number, Use

from .asked import Expression, Unknown, instructions_at, listed
from .expressions import Trap, function_of, uses_in


COUNTED = {"==": int.__eq__, ">=": int.__ge__, ">": int.__gt__, "%": lambda hits, times: hits % times == 0}


class Point:
    """A breakpoint or a watch. `hits` counts since it was set; the first `ignored` ones don't stop, and of the others
    those that `counted` takes. `kind` is for who set it."""

    def __init__(self, number, thread):
        self.number, self.thread, self.kind = number, thread, None
        self.is_enabled, self.hits, self.ignored, self.condition, self.counted = True, 0, 0, None, None

    def set_hit_condition(self, text):
        """Stops only at some hits: `N` and `>= N` from the N-th on, `== N` at that one, `% N` at each N-th."""
        if not text:
            return
        found = re.fullmatch(r"\s*(==|>=|>|%)?\s*(\d+)\s*", text)
        if not found or int(found[2]) == 0:
            raise Unknown(f"expected a count of hits, as 3, >= 3, == 3 or % 3, found {text!r}")
        compare, times = COUNTED[found[1] or ">="], int(found[2])
        self.counted = lambda hits: compare(hits, times)

    def passes(self):
        """Counts a hit, and answers whether it stops."""
        self.hits += 1
        if self.ignored:
            self.ignored -= 1
            return False
        return self.counted is None or self.counted(self.hits)


class Breakpoint(Point):
    """Stops at instructions."""

    def __init__(self, number, code, place, thread=None, condition=None, is_temporary=False, line=None):
        super().__init__(number, thread)
        self.code, self.place, self.is_temporary = code, place, is_temporary
        self.instructions = frozenset(instructions_at(code, place, line))
        self.line = min(it.line for it in self.instructions)
        self.function = next(iter(self.instructions)).function.name
        self.tests = {}
        self.set_condition(condition)

    def set_condition(self, text):
        """The expression without which it doesn't stop, in the scope of each of its instructions."""
        self.tests = (
            {it: Expression(text, self.code, it.scope, it.function) for it in self.instructions} if text else {}
        )
        if any(it.array for it in self.tests.values()):
            raise Unknown(f"{text.strip()} is an array: give an index, as in {text.strip()}[0]")
        self.condition = text or None

    def is_hit(self, run, frame):
        """Whether a thread stops here, at one of the instructions. Doesn't count."""
        if not self.is_enabled or self.thread is not None and run.running.number != self.thread:
            return False
        try:
            return not self.tests or bool(self.tests[frame.does].of(frame.words, run.globals))
        except Unknown:
            return False


class Catch(Breakpoint):
    """Stops before the output of a value, or of any."""

    def __init__(self, number, code, value=None):
        super().__init__(number, code, "put")
        self.value, self.text = value, "output" if value is None else f"output {value}"

    def is_hit(self, run, frame):
        if not super().is_hit(run, frame):
            return False
        return self.value is None or frame.does.arguments[0](frame.words, run.globals) == self.value


class Watch(Point):
    """Stops when a variable changes: a global, an element of one, a local in scope in a frame, or `function.name` for a
    local in all threads."""

    def __init__(self, number, code, text, frame=None, thread=None):
        super().__init__(number, thread)
        self.text = text.strip()
        owner, dot, name = self.text.partition(".")
        if dot and owner not in code.functions:
            raise Unknown(f"there is no function {owner}: the functions are {listed(code.functions)}")
        self.function = code.functions[owner] if dot else frame and frame.function
        scope = [it for it in self.function.slots if it.name] if dot else frame.does.scope if frame else ()
        self.expression = Expression(name if dot else self.text, code, scope, self.function)
        node = self.expression.node
        self.variables = {it.variable for it in uses_in(node)}
        self.index = node.index.value if isinstance(node, Use) and isinstance(node.index, Number) else None
        if not self.variables:
            raise Unknown(f"{self.text} has no variable")
        if all(it.is_global for it in self.variables):
            self.function = self.thread = None
        self.last, self.seen = None, {}

    def begin(self, run):
        """Notes the values at a moment, from which the changes are counted."""
        self.last, self.seen = None, {}
        if not self.function:
            self.last = self.value(run, None)
            return
        for frame in itertools.chain.from_iterable(it.frames for it in run.threads.values()):
            if frame.function is self.function:
                self.seen[frame.serial] = self.value(run, frame)

    def value(self, run, frame):
        try:
            return self.expression.of(frame.words if frame else (), run.globals)
        except Unknown:
            return None

    def change(self, run):
        """The old and the new value, if the last move changed it."""
        if not self.function:
            value = self.value(run, None)
            old, self.last = self.last, value
            return (old, value) if old != value else None
        if not run.running or run.running.frames[-1].function is not self.function:
            return None
        frame = run.running.frames[-1]
        value = self.value(run, frame)
        old = self.seen.get(frame.serial, value)
        self.seen[frame.serial] = value
        return (old, value) if old != value and self.thread in (None, run.running.number) else None

    def is_read(self, run):
        """Whether the next step may read it: the variable, and for an element at a constant index that element."""
        frame = run.running.frames[-1]
        if self.function not in (None, frame.function):
            return False
        slots = frame.function.slots | self.expression.slots
        for it in frame.does.reads:
            if it.variable in self.variables:
                try:
                    if (
                        None in (self.index, it.index)
                        or function_of(it.index, slots)(frame.words, run.globals) == self.index
                    ):
                        return True
                except Trap:
                    pass
        return False


class Hit:
    """Why a search stopped: the breakpoint or the watch, with the old and the new value of a watch; or what a step came
    to (`reason` alone). `is_back` says that the search went backwards: a change is then still to come."""

    def __init__(self, reason, point=None, old=None, new=None):
        self.reason, self.point, self.old, self.new, self.is_back = reason, point, old, new, False


class Search:
    """Looks for hits of breakpoints and watches, and for `is_there(run)`, the end of a step. It counts hits only on the
    way forward."""

    def __init__(self, breakpoints, watches, is_there=None, counts=True):
        self.places = {}
        for it in breakpoints:
            for instruction in it.instructions:
                self.places.setdefault(instruction, []).append(it)
        self.watches, self.is_there, self.counts = [it for it in watches if it.is_enabled], is_there, counts

    def begin(self, run):
        for it in self.watches:
            it.begin(run)

    def changed(self, run):
        """The hit of a watch by the last move."""
        found = None
        for it in self.watches:
            if (change := it.change(run)) and self.passes(it):
                found = found or Hit("watch", it, *change)
        return found

    def at(self, run):
        """The hit at this moment."""
        frame = run.running.frames[-1] if run.running and not run.stop else None
        if frame and frame.does in self.places:
            for it in self.places[frame.does]:
                if it.is_hit(run, frame) and self.passes(it):
                    return Hit("breakpoint", it)
        return self.is_there(run) if self.is_there else None

    def passes(self, point):
        """Whether a hit stops; on the way forward it is counted."""
        return point.passes() if self.counts else True
