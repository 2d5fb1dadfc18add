"""The threads of a source with what they share, and one step of the thread that runs (docs/LANGUAGE.md, "Meaning").

`World` knows no log: replayed.py says which thread runs, and which events come.
"""
import collections

from explained.tokens import MODELLED
from sources.tree import is_blocking

from .expressions import Trap

CHANNELS = 64


class Frame:
    """A frame: its function, its words, and what it does next. `waits` is the call whose result it waits for."""

    __slots__ = ("serial", "function", "words", "does", "waits", "word")

    def __init__(self, serial, function, words):
        self.serial, self.function, self.words = serial, function, words
        self.does, self.waits, self.word = function.first, None, 0

    def copy(self):
        made = Frame.__new__(Frame)
        made.serial, made.function, made.does = self.serial, self.function, self.does
        made.words = [it[:] if isinstance(it, list) else it for it in self.words]
        made.waits, made.word = self.waits, self.word
        return made


class Thread:
    """A thread that hasn't ended: its frames, the innermost last, and the call at which it is blocked."""

    __slots__ = ("number", "starter", "frames", "block", "since")

    def __init__(self, number, frames):
        self.number, self.starter, self.frames, self.block, self.since = (
            number,
            frames[0].function.name,
            frames,
            None,
            None,
        )

    def copy(self):
        made = Thread.__new__(Thread)
        made.number, made.starter, made.block, made.since = self.number, self.starter, self.block, self.since
        made.frames = [it.copy() for it in self.frames]
        return made


class World:
    """All threads by number, and one of them that runs, or none. `outputs` are those of the segment that runs."""

    def __init__(self, code, caps):
        self.code, self.caps, self.globals = code, caps, code.globals_at_start()
        self.arrivals, self.channels, self.uses = collections.deque(), {}, collections.Counter()
        self.holders = collections.Counter()  # (resource, thread): units
        self.frames_made, self.threads_made, self.outputs, self.threads = 0, 0, [], {}
        self.running, self.returned = None, 0  # `returned` is the last result of a function
        self.start("main", [])

    def copy_to(self, made):
        """Copies what a step changes into another world of the same code."""
        made.code, made.caps = self.code, self.caps
        made.globals = [it[:] if isinstance(it, list) else it for it in self.globals]
        made.arrivals, made.uses, made.holders = self.arrivals.copy(), self.uses.copy(), self.holders.copy()
        made.channels = {number: queue.copy() for number, queue in self.channels.items()}
        made.frames_made, made.threads_made, made.outputs = self.frames_made, self.threads_made, self.outputs[:]
        made.threads = {number: thread.copy() for number, thread in self.threads.items()}
        made.returned = self.returned
        made.running = made.threads.get(self.running.number) if self.running else None

    def frame(self, name, arguments):
        function = self.code.functions[name]
        self.frames_made += 1
        return Frame(self.frames_made, function, function.words(arguments))

    def start(self, name, arguments):
        """Starts a thread, and gives its number."""
        number = self.threads_made
        self.threads[number] = Thread(number, [self.frame(name, arguments)])
        self.threads_made += 1
        return number

    def queue(self, channel):
        return self.arrivals if channel is None else self.channels.setdefault(channel, collections.deque())

    def is_held(self, channel):
        return bool(self.channels.get(channel))

    def is_ready(self, thread, clock):
        """Whether a thread may be chosen at this clock."""
        if thread.block is None:
            return True
        name, *values = thread.block
        until = self.until(thread)
        held = {
            "accept": lambda: self.arrivals,
            "wait": lambda: self.is_held(values[0]),
            "yield": lambda: True,
            "waitfor": lambda: self.is_held(values[0]),
            "sleep": lambda: False,
            "take": lambda: self.uses[values[0]] + values[1] <= self.caps[values[0]],
        }
        return bool(held[name]()) or until is not None and until <= clock

    def until(self, thread):
        """The clock at which a blocked thread wakes, if a time wakes it."""
        if thread.block and thread.block[0] in ("sleep", "waitfor"):
            return thread.since + max(0, thread.block[-1])
        return None

    def resume(self, number):
        """A thread runs, with the effect of its call if it is blocked at one; that isn't a step."""
        self.running, self.outputs = self.threads[number], []
        if self.running.block is None:
            return
        (name, *values), result = self.running.block, 0
        if name in ("accept", "wait"):
            result = self.queue(values[0] if values else None).popleft()
        elif name == "take":
            self.uses[values[0]] += values[1]
            self.holders[values[0], number] += values[1]
        elif name == "waitfor":
            result = +self.is_held(values[0])
        self.running.block = self.running.since = None
        self.arrive(result)

    def arrive(self, result):
        """The result of the innermost frame's call arrives."""
        frame = self.running.frames[-1]
        call, where = frame.waits
        call.deliver(self, frame, where, result)

    def step(self):
        """Makes one step of the thread that runs. A trap is raised."""
        frame = self.running.frames[-1]
        frame.does.do(self, frame)

    def call(self, call, index, arguments):
        if index is not None:
            members = self.code.tables[call.name]
            if not 0 <= index < len(members):
                self.running.frames[-1].waits = None
                raise Trap("table")
            self.running.frames.append(self.frame(members[index], arguments))
        elif call.name not in MODELLED:
            self.running.frames.append(self.frame(call.name, arguments))
        elif is_blocking(call.name):
            self.block(call.name, arguments)
        else:
            self.arrive(self.answer(call, arguments))

    def block(self, name, values):
        if name in ("wait", "waitfor") and not 0 <= values[0] < CHANNELS:
            raise Trap("channel")
        if name == "take":
            self.check_amount(*values, most=self.caps.get(values[0], 0))
        self.running.block, self.running = (name, *values), None

    def check_amount(self, resource, amount, most):
        if not self.caps.get(resource) or not 0 <= amount <= most:
            raise Trap("resource")

    def answer(self, call, values):
        """The result of a call that doesn't block, with its effect."""
        if call.name == "put":
            self.outputs.append(values[0])
        elif call.name == "give":
            self.check_amount(*values, most=self.uses[values[0]])
            self.uses[values[0]] -= values[1]
            self.holders[values[0], self.running.number] -= values[1]
        elif call.name == "spawn":
            return self.start(call.arguments[0], values)
        return self.running.number if call.name == "self" else 0

    def give_back(self, value):
        """The innermost frame ends; with the last one the thread ends."""
        self.running.frames.pop()
        self.returned = value
        if self.running.frames:
            self.arrive(value)
        else:
            del self.threads[self.running.number]
            self.running = None
