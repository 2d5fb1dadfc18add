"""A run that a user steps through, forwards and backwards, on a terminal (terminal.py) or in an editor (adapter.py)."""
import re

from .asked import Expression, Unknown
from .stops import Breakpoint, Catch, Hit, Search, Watch
from .timeline import Timeline


class Session:
    """`thread` and `level` are what the user has selected: a thread's number, and a frame of it, 0 the innermost.
    `told` gives the document of a moment (moments.py)."""

    def __init__(self, code, caps, log, chunks, told, name):
        self.code, self.told, self.name = code, told, name
        self.timeline = Timeline(code, caps, log, chunks)
        self.points, self.made, self.thread, self.level, self.kept = {}, 0, 0, 0, (None, None)
        self.source_lines = code.source.decode(errors="replace").split("\n")

    @property
    def run(self):
        return self.timeline.now

    def document(self):
        """The document of this moment."""
        if self.kept[0] != self.run.time:
            self.kept = (self.run.time, self.told.at(self.run, self.code))
        return self.kept[1]

    # ---- breakpoints

    def breakpoints(self):
        return [it for it in self.points.values() if isinstance(it, Breakpoint)]

    def watches(self):
        return [it for it in self.points.values() if isinstance(it, Watch)]

    def next_number(self):
        self.made += 1
        return self.made

    def add_breakpoint(self, place, **more):
        found = Breakpoint(self.made + 1, self.code, place, line=self.current_line(), **more)
        self.points[self.next_number()] = found
        return found

    def add_catch(self, text):
        """A stop before an output: `output`, or `output VALUE`."""
        found = re.fullmatch(r"\s*output(?:\s+(-?\d+))?\s*", text)
        if not found:
            raise Unknown(f"expected output or output VALUE, found {text.strip() or 'nothing'!r}")
        point = Catch(self.made + 1, self.code, None if found[1] is None else int(found[1]))
        self.points[self.next_number()] = point
        return point

    def add_watch(self, text):
        """A watch of a variable in scope in the selected frame, of a global, or of `function.name`."""
        found = self.watch(text)
        self.points[self.next_number()] = found
        return found

    def watch(self, text):
        """Such a watch, which stops nothing."""
        frame = None if "." in text else self.frame()
        return Watch(self.made + 1, self.code, text, frame, self.thread if frame else None)

    # ---- the selected thread and frame

    def select(self):
        """Selects the innermost frame of the thread that runs, or of the one that was selected if it still lives."""
        if self.run.running:
            self.thread = self.run.running.number
        elif self.thread not in self.run.threads:
            self.thread = min(self.run.threads, default=0)
        self.level = 0

    def frames(self):
        """The frames of the selected thread, the innermost first."""
        thread = self.run.threads.get(self.thread)
        return thread.frames[::-1] if thread else []

    def frame(self):
        frames = self.frames()
        return frames[self.level] if self.level < len(frames) else None

    def current_line(self):
        frame = self.frame()
        return frame.does.line if frame else None

    def told_frame(self):
        """The selected frame in the document of this moment."""
        threads = {it["thread"]: it for it in self.document()["threads"]}
        if self.thread not in threads:
            raise Unknown("no thread lives at this moment")
        return threads[self.thread]["stack"][self.level]

    def value_of(self, text):
        """The value of an expression in the selected frame: a number, or the list of an array."""
        frame, document = self.frame(), self.document()
        asked = Expression(text, self.code, frame.does.scope if frame else (), frame.function if frame else None)
        return asked.of_documents(self.told_frame()["locals"] if frame else [], document["globals"])

    # ---- moving

    def search(self, is_there=None, counts=True):
        return Search(self.breakpoints(), self.watches(), is_there, counts)

    def search_for(self, point):
        """A search for one breakpoint alone, which counts nothing."""
        return Search([point], [], counts=False)

    def forward(self, is_there=None):
        return self.arrive(self.timeline.forward(self.search(is_there)))

    def backward(self, is_there=None):
        hit = self.arrive(self.timeline.backward(self.search(is_there, counts=False)))
        hit.is_back = True
        return hit

    def arrive(self, hit):
        """What stopped the run: a hit, or why there is none. A temporary breakpoint is gone after its hit."""
        self.select()
        if hit == "interrupted":
            return Hit("interrupted")
        if hit is None:
            return Hit("start" if self.run.time == 0 else "end")
        if hit.point and getattr(hit.point, "is_temporary", False):
            self.points.pop(hit.point.number, None)
        return hit

    def step(self):
        """To the next statement of the selected thread, in whatever function."""
        number = self.thread
        return self.forward(lambda run: Hit("step") if begins(run, number) else gone(run, number))

    def next(self):
        """To the next statement of the selected frame, or to its caller when it has returned."""
        number, frames = self.thread, self.frames()
        if not frames:
            return self.forward()
        serial, depth = frames[0].serial, len(frames)
        return self.forward(lambda run: in_frame(run, number, serial, depth))

    def until(self):
        """As `next`, but not back to an earlier statement of the frame."""
        number, frames = self.thread, self.frames()
        if not frames:
            return self.forward()
        serial, depth, at = frames[0].serial, len(frames), frames[0].does.at
        return self.forward(lambda run: in_frame(run, number, serial, depth, at))

    def finish(self):
        """Until the selected frame has returned."""
        number, frames = self.thread, self.frames()
        depth = len(frames) - self.level
        returned = (
            lambda run: Hit("finish") if runs(run, number) and len(run.running.frames) < depth else gone(run, number)
        )
        return self.forward(returned)

    def reverse_step(self):
        """Back to the statement before, of the selected thread."""
        number = self.thread
        return self.backward(lambda run: Hit("step") if begins(run, number) else None)

    def reverse_next(self):
        """Back to the statement before of the selected frame, or to the call in its caller."""
        number, frames = self.thread, self.frames()
        serials = {it.serial for it in frames}
        return self.backward(
            lambda run: Hit("step") if begins(run, number) and run.running.frames[-1].serial in serials else None
        )

    def reverse_finish(self):
        """Back to the call of the selected frame."""
        number, serials = self.thread, {it.serial for it in self.frames()[self.level + 1 :]}
        return self.backward(
            lambda run: Hit("step") if begins(run, number) and run.running.frames[-1].serial in serials else None
        )

    def go_to_clock(self, clock):
        """To the moment at a clock: within a segment to its start."""
        return self.go_to_line(self.run.log.line_at(clock))

    def go_to_words(self, text):
        """To the moment of the words CLOCK, or `line N [+K]`."""
        found = re.fullmatch(
            r"\s*(?:line\s+(?P<line>[\d,]+)\s*(?:\+\s*(?P<steps>[\d,]+))?|(?P<clock>[\d,]+))\s*", text
        )
        if not found:
            raise Unknown(
                "expected a clock, or `line N` or `line N +K` for a line of the log,"
                f" found {text.strip() or 'nothing'!r}"
            )
        number = {name: int(it.replace(",", "")) for name, it in found.groupdict(default="0").items()}
        return (
            self.go_to_clock(number["clock"]) if found["clock"] else self.go_to_line(number["line"], number["steps"])
        )

    def go_to_line(self, line, steps=0):
        """To the moment after some lines of the log and steps."""
        log = self.run.log
        if not 0 <= line <= len(log.lines):
            raise Unknown(f"the log has the lines 1 to {len(log.lines)}")
        if line and log.fields(line)[0] == "out":
            line = max(it for it in log.run_lines if it < line)
        if line and log.fields(line)[0] == "edge":
            line = len(log.lines)
        if not self.timeline.go_to_line(line, steps) and steps:
            raise Unknown(f"the segment that begins after line {line} has fewer than {steps} steps")
        self.select()
        return Hit("goto")

    # ---- who read and wrote a variable

    def last_read(self, watch):
        """The last moment before this one at which the selected thread read a watched variable, as a tuple of clock and
        place, with the writes of other threads since then; None if it read none in this segment or before."""
        here, number = self.run.time, self.thread
        reads = lambda run: Hit("read") if runs(run, number) and watch.is_read(run) else None
        found = self.timeline.backward(Search([], [], reads))
        if not found or found == "interrupted":
            self.timeline.go_to_time(here)
            return None
        read, writes = (self.run.clock, self.place()), []
        search = Search([], [watch], counts=False)
        while self.run.time < here and (hit := self.timeline.forward(search)) and self.run.time < here:
            if hit != "interrupted" and self.run.running and self.run.running.number != number:
                writes.append((self.run.clock, self.run.running.number, hit.new))
        self.timeline.go_to_time(here)
        return read, writes

    def place(self, frame=None):
        frame = frame or (self.run.running.frames[-1] if self.run.running else self.frame())
        return f"{self.name}:{frame.does.line}:{frame.does.column}" if frame else self.name

    def log_line(self):
        return self.run.log.lines[self.run.line - 1] if self.run.line else ""


def runs(run, number):
    return run.running is not None and not run.stop and run.running.number == number


def begins(run, number):
    """Whether a statement of a thread begins at this moment."""
    return runs(run, number) and run.running.frames[-1].does.begins


def gone(run, number):
    return None if number in run.threads else Hit("ended")


def in_frame(run, number, serial, depth, after=-1):
    """The end of a `next`: a statement of the frame begins, or the frame has returned."""
    if not runs(run, number):
        return gone(run, number)
    frames = run.running.frames
    if len(frames) < depth:
        return Hit("step")
    return (
        Hit("step") if frames[-1].serial == serial and frames[-1].does.begins and frames[-1].does.at > after else None
    )
