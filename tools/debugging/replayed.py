"""A run beside its log, move by move: a move is a step of the source, or a line of the log that delivers an event, or
that chooses a thread.

`Replayed.advance()` makes the next move. The log says which thread runs, and which events come; the source says what
the thread does. Outputs, blocking calls and ends are compared with the log.
"""
import bisect, itertools

from .expressions import Trap
from .instructions import CallStep
from .world import World

CUT = ("trap", "nochunk", "fuel", "threads")  # the stops that cut a segment


class Differs(Exception):
    """The source doesn't do what a line of the log says."""

    def __init__(self, line, text, why):
        super().__init__(f"line {line} of the log, {text!r}: {why}")


class Log:
    """The lines of a log, counted from 1, and the clock of each. `costs` are those of the segments that have ended, by
    the number of lines."""

    def __init__(self, lines):
        self.lines = [it.rstrip("\n") for it in lines]
        self.clocks, self.run_lines = [], []  # by line; the numbers of the lines that choose a thread
        self.costs = [0]
        clock = 0
        for number, line in enumerate(self.lines, 1):
            word, *fields = line.split()
            try:
                if word in ("event", "drop", "run"):
                    clock = int(fields[0])
                elif word in ("block", "end") or word == "stop" and fields[0] in CUT:
                    clock += int(fields[-2])
            except (ValueError, IndexError):
                raise Differs(number, line, "it isn't a line of a log") from None
            self.clocks.append(clock)
            self.costs.append(self.costs[-1] + (int(fields[-2]) if word in ("block", "end") else 0))
            if word == "run":
                self.run_lines.append(number)
        if not self.lines or not self.lines[-1].startswith("stop "):
            raise Differs(len(self.lines) + 1, "", "a log ends with a stop line")

    def fields(self, number):
        return self.lines[number - 1].split()

    def line_at(self, clock):
        """The line after which the run is at a clock: the last one whose clock isn't above it, or 0."""
        return bisect.bisect_right(self.clocks, clock)

    def outputs_after(self, number):
        """The values of the `out` lines that follow a line, and the number of the line that ends their segment: the
        last line of the log if the segment was cut."""
        values = []
        for following in itertools.count(number + 1):
            fields = self.fields(following)
            if fields[0] != "out":
                return values, len(self.lines) if fields[0] == "edge" else following
            values.append(int(fields[2]))


class Replayed(World):
    """A run at a moment: after `line` lines of its log and `steps` steps of the segment that begins there. `time`
    counts the moves. `stop` is the last line's text at the end."""

    def __init__(self, code, caps, log, chunks):
        super().__init__(code, caps)
        self.log, self.line, self.steps, self.time = log, 0, 0, 0
        self.free = chunks - 1  # that of main's first frame isn't free
        self.stop, self.expected, self.after, self.trap, self.begun = None, [], 0, None, 0

    def copy(self):
        made = Replayed.__new__(Replayed)
        self.copy_to(made)
        made.log, made.line, made.steps, made.time, made.free = self.log, self.line, self.steps, self.time, self.free
        made.stop, made.expected, made.after, made.trap = self.stop, self.expected, self.after, self.trap
        made.begun = self.begun
        return made

    @property
    def clock(self):
        return self.log.clocks[self.line - 1] if self.line else 0

    @property
    def moment(self):
        """This moment as the number of lines and of steps after them. A segment that was cut stays where it was."""
        return (self.begun, self.steps) if self.running else (self.line, 0)

    def frame_now(self):
        """The frame that makes the next step, or None between segments."""
        return self.running.frames[-1] if self.running and not self.stop else None

    def advance(self):
        """Makes the next move. Answers whether there is one."""
        if self.stop:
            return False
        self.time += 1
        if self.running is None:
            self.read_line()
        elif self.is_cut():
            self.finish()
        else:
            self.make_step()
        return True

    def differs(self, line, why):
        return Differs(line, self.log.lines[line - 1], why)

    def read_line(self):
        self.line += 1
        word, *fields = self.log.fields(self.line)
        if word in ("event", "drop"):
            if word == "event":
                self.queue(int(fields[2]) if fields[1] == "data" else None).append(int(fields[-1]))
        elif word == "run":
            self.choose(int(fields[1]))
        elif word in ("stop", "edge"):
            self.line = len(self.log.lines)
            self.stop = self.log.lines[-1]
        else:
            raise self.differs(self.line, "no thread runs there")

    def choose(self, number):
        if number not in self.threads:
            raise self.differs(self.line, f"no thread {number} lives there")
        if not self.is_ready(self.threads[number], self.clock):
            raise self.differs(self.line, f"thread {number} isn't ready there")
        self.resume(number)
        self.steps, self.begun = 0, self.line
        self.expected, self.after = self.log.outputs_after(self.line)

    def is_cut(self):
        """Whether the segment was cut at this step or before it: more would be in the log."""
        word, kind, *fields = self.log.fields(self.after)
        if word != "stop" or kind == "trap":
            return False
        does = self.running.frames[-1].does
        puts = isinstance(does, CallStep) and does.call.name == "put" and len(self.outputs) == len(self.expected)
        return puts or self.steps >= int(fields[-2])

    def finish(self, trap=None):
        """The segment that the stop cuts is over; its thread stays where it is."""
        self.line, self.trap = len(self.log.lines), trap
        self.stop = self.log.lines[-1]

    def make_step(self):
        thread = self.running
        try:
            self.step()
        except Trap as trap:
            self.check_outputs(thread)
            if self.log.fields(self.after)[:4] != ["stop", "trap", str(thread.number), str(trap)]:
                raise self.differs(self.after, f"thread {thread.number} traps ({trap})") from None
            return self.finish(str(trap))
        self.steps += 1
        if self.running is None:
            self.rest(thread)
        elif len(self.outputs) > len(self.expected):
            self.check_outputs(thread)

    def rest(self, thread):
        """A segment is over: its lines are those of the log."""
        self.check_outputs(thread)
        word, *fields = self.log.fields(self.after)
        if word == "stop":  # a stop at the call itself
            self.running = thread
            return self.finish()
        key = "<".join(str(it.waits[0].call.site) for it in thread.frames[:-9:-1])
        found = [word, fields[0], *([fields[2]] if word == "block" else [])]
        wanted = ["block", str(thread.number), key] if thread.block else ["end", str(thread.number)]
        if found != wanted:
            raise self.differs(self.after, f"the source does {' '.join(wanted)}")
        self.line, self.steps, self.free = self.after, 0, int(fields[-1])
        thread.since = self.clock if thread.block else None

    def check_outputs(self, thread):
        if (
            self.outputs != self.expected[: len(self.outputs)]
            or self.running is None
            and self.outputs != self.expected
        ):
            raise self.differs(
                self.after, f"thread {thread.number} puts {' '.join(map(str, self.outputs)) or 'nothing'}"
            )
