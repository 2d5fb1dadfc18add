"""The words of the debugger on a terminal, which are gdb's where gdb has them."""
import inspect, re

from . import moment_text
from .asked import Unknown, listed
from .replayed import Differs
from .stops import Catch

ALIASES = {
    "b": "break",
    "tb": "tbreak",
    "c": "continue",
    "rc": "reverse-continue",
    "n": "next",
    "rn": "reverse-next",
    "s": "step",
    "rs": "reverse-step",
    "fin": "finish",
    "u": "until",
    "i": "info",
    "p": "print",
    "l": "list",
    "bt": "backtrace",
    "where": "backtrace",
    "t": "thread",
    "q": "quit",
    "h": "help",
    "d": "delete",
    "r": "run",
    "f": "frame",
    "cond": "condition",
    "exit": "quit",
    "g": "goto",
}
AROUND = 5  # lines that `list` shows before and after


class Bad(Exception):
    """A command that can't be done; the text says what is expected."""


def number_of(text, what):
    if not re.fullmatch(r"\d[\d,]*", text.strip()):
        raise Bad(f"expected {what}, found {text.strip() or 'nothing'!r}")
    return int(text.replace(",", ""))


class Terminal:
    """Does commands, a line each, over a session; `put` writes a line."""

    def __init__(self, session, put):
        self.session, self.put, self.is_over, self.results, self.listed_to = session, put, False, 0, None
        self.displayed, self.last = [], ""
        self.commands = {
            name[3:].replace("_", "-"): it for name, it in inspect.getmembers(self) if name.startswith("do_")
        }

    def do(self, line):
        """Does a command. Raises Bad for one that can't be done."""
        word, _, rest = line.strip().partition(" ")
        if match := re.fullmatch(r"(print|p)(/\w)", word):
            word, rest = match[1], f"{match[2]} {rest}"
        name = ALIASES.get(word, word)
        found = [name] if name in self.commands else [it for it in self.commands if it.startswith(name)]
        if not word or word.startswith("#"):
            return
        if len(found) != 1:
            what = "is short for " + listed(found) if found else "is no command: `help` lists them"
            raise Bad(f"{word!r} {what}")
        try:
            self.commands[found[0]](rest.strip())
        except (Unknown, Differs) as why:
            raise Bad(str(why)) from None

    # ---- moving

    def do_run(self, rest):
        """run: go to the start of the run, and from there to the first stop."""
        self.session.timeline.go_to_time(0)
        self.session.select()
        self.stopped(self.session.forward())

    def do_start(self, rest):
        """start: go to the first statement of main."""
        self.session.go_to_line(self.session.run.log.run_lines[0])
        self.stopped(None)

    def times(self, rest, move):
        """Makes a move, or as many as are asked for, up to another stop."""
        for _ in range(number_of(rest, "how many times") if rest else 1):
            hit = move()
            if hit.reason != "step":
                break
        self.stopped(hit)

    def do_continue(self, rest):
        """continue [N]: to the next breakpoint, watch or stop; with N the next N - 1 hits of this breakpoint pass."""
        self.stopped(self.session.forward())
        for _ in range(number_of(rest, "how many hits") - 1 if rest else 0):
            self.stopped(self.session.forward())

    def do_reverse_continue(self, rest):
        """reverse-continue: back to the last breakpoint or watch before, or to the start of the run."""
        self.stopped(self.session.backward())

    def do_next(self, rest):
        """next [N]: to the next statement of this function; calls are made whole."""
        self.times(rest, self.session.next)

    def do_step(self, rest):
        """step [N]: to the next statement of this thread, also in a function that is called."""
        self.times(rest, self.session.step)

    def do_reverse_next(self, rest):
        """reverse-next [N]: back to the statement before, of this function."""
        self.times(rest, self.session.reverse_next)

    def do_reverse_step(self, rest):
        """reverse-step [N]: back to the statement before, of this thread."""
        self.times(rest, self.session.reverse_step)

    def do_finish(self, rest):
        """finish: until the selected frame has returned."""
        hit = self.session.finish()
        self.stopped(hit)
        if hit.reason == "finish":
            self.put(f"Value returned is {self.session.run.returned}")

    def do_reverse_finish(self, rest):
        """reverse-finish: back to the call of the selected frame."""
        self.stopped(self.session.reverse_finish())

    def do_until(self, rest):
        """until [PLACE]: as next, but not back in a loop; or to a place."""
        if not rest:
            return self.stopped(self.session.until())
        point = self.session.add_breakpoint(rest, is_temporary=True)
        self.stopped(self.session.forward())
        self.session.points.pop(point.number, None)

    def do_goto(self, rest):
        """goto CLOCK, goto line N [+K]: to the moment at a clock, or after N lines of the log and K steps."""
        self.session.go_to_words(rest)
        self.stopped(None)

    # ---- breakpoints

    def point_words(self, rest):
        """PLACE [thread N] [if EXPR] as the words of a breakpoint."""
        place, _, condition = re.sub(r"(^|\s)if(?=[\s(])", r"\1\0", f"{rest} ").partition("\0")
        place, is_there, thread = place.partition("thread ")
        return place.strip() or str(self.session.current_line() or ""), {
            "condition": condition.strip() or None,
            "thread": number_of(thread, "a thread's number") if is_there else None,
        }

    def add_point(self, rest, **more):
        place, words = self.point_words(rest)
        point = self.session.add_breakpoint(place, **words, **more)
        kind = "Temporary breakpoint" if point.is_temporary else "Breakpoint"
        self.put(f"{kind} {point.number} at {self.session.name}:{point.line}, in {point.function}")

    def do_break(self, rest):
        """break PLACE [thread N] [if EXPR]: stop at a line, FILE:LINE or a function."""
        self.add_point(rest)

    def do_tbreak(self, rest):
        """tbreak PLACE [thread N] [if EXPR]: stop there once."""
        self.add_point(rest, is_temporary=True)

    def do_watch(self, rest):
        """watch NAME, watch NAME[INDEX], watch FUNCTION.NAME: stop when the value changes."""
        if not rest:
            raise Bad("expected a variable, as in `watch total`, `watch a[3]` or `watch worker.sum`")
        point = self.session.add_watch(rest)
        self.put(f"Watch {point.number}: {point.text}")

    def do_catch(self, rest):
        """catch output [VALUE]: stop before an output of this value, or of any."""
        point = self.session.add_catch(rest)
        self.put(f"Catch {point.number}: {point.text}")

    def point(self, text):
        number = number_of(text, "the number of a breakpoint")
        if number not in self.session.points:
            raise Bad(f"there is no breakpoint {number}: `info breakpoints` lists them")
        return self.session.points[number]

    def do_delete(self, rest):
        """delete [N ..]: remove breakpoints, or all of them."""
        for it in [self.point(one) for one in rest.split()] or list(self.session.points.values()):
            del self.session.points[it.number]

    def do_disable(self, rest):
        """disable [N ..]: breakpoints that stop no more until they are enabled."""
        for it in [self.point(one) for one in rest.split()] or self.session.points.values():
            it.is_enabled = False

    def do_enable(self, rest):
        """enable [N ..]"""
        for it in [self.point(one) for one in rest.split()] or self.session.points.values():
            it.is_enabled = True

    def do_ignore(self, rest):
        """ignore N COUNT: the next COUNT hits of a breakpoint pass."""
        number, _, count = rest.partition(" ")
        self.point(number).ignored = number_of(count, "how many hits")

    def do_condition(self, rest):
        """condition N [EXPR]: a breakpoint stops only where the expression isn't 0."""
        number, _, condition = rest.partition(" ")
        point = self.point(number)
        if not hasattr(point, "set_condition"):
            raise Bad(f"{number} is a watch: it stops at each change")
        point.set_condition(condition.strip())

    # ---- looking

    def do_backtrace(self, rest):
        """backtrace: the calls of the selected thread, the innermost first."""
        document = self.session.document()
        for it in document["threads"]:
            if it["thread"] == self.session.thread:
                return self.put("\n".join(moment_text.stack_lines(it, self.session.name, is_full=False)))
        raise Bad("no thread lives at this moment")

    def do_frame(self, rest):
        """frame [N]: select a frame of the selected thread, 0 the innermost."""
        self.select_level(number_of(rest, "the number of a frame") if rest else self.session.level)

    def do_up(self, rest):
        """up [N]: select the caller."""
        self.select_level(self.session.level + (number_of(rest, "how many frames") if rest else 1))

    def do_down(self, rest):
        """down [N]: select the frame that the selected one called."""
        self.select_level(self.session.level - (number_of(rest, "how many frames") if rest else 1))

    def select_level(self, level):
        frames = self.session.frames()
        if not 0 <= level < len(frames):
            raise Bad(
                f"thread {self.session.thread} has the frames 0 to {len(frames) - 1}"
                if frames
                else "no thread lives at this moment"
            )
        self.session.level = level
        self.put_frame()

    def do_thread(self, rest):
        """thread [N]: select a thread, or say which one is selected."""
        if rest:
            number = number_of(rest, "a thread's number")
            if number not in self.session.run.threads:
                raise Bad(
                    f"no thread {number} lives at this moment:"
                    f" there are {listed(map(str, sorted(self.session.run.threads)))}"
                )
            self.session.thread, self.session.level = number, 0
        self.put_state()
        self.put_frame()

    def do_print(self, rest):
        """print[/x] EXPR: the value of an expression without calls, in the selected frame; /x in hexadecimal."""
        format_, text = (rest[1], rest[2:]) if rest[:1] == "/" else ("d", rest)
        if not text.strip():
            raise Bad("expected an expression, as in `print total`")
        value = self.session.value_of(text)
        self.results += 1
        self.put(f"${self.results} = {self.shown(value, format_)}")

    def shown(self, value, format_="d"):
        if isinstance(value, list):
            return "{" + ", ".join(self.shown(it, format_) for it in value) + "}"
        return f"{value & 0xFFFFFFFF:#x}" if format_ == "x" else str(value)

    def do_display(self, rest):
        """display EXPR: print its value at each stop."""
        self.session.value_of(rest)
        self.displayed.append(rest)
        self.put(f"{rest} = {self.shown(self.session.value_of(rest))}")

    def do_undisplay(self, rest):
        """undisplay: print nothing at each stop."""
        self.displayed.clear()

    def do_list(self, rest):
        """list [LINE | FUNCTION]: lines of the source, around the selected frame or a place."""
        lines, session = self.session.source_lines, self.session
        if rest in session.code.functions:
            middle = session.code.functions[rest].first.line
        elif rest:
            middle = number_of(rest.rpartition(":")[2], "a line or a function")
        elif self.listed_to:
            middle = self.listed_to + AROUND
        else:
            middle = session.current_line() or 1
        first = max(1, min(middle - AROUND, len(lines)))
        self.listed_to = first + 2 * AROUND
        for number in range(first, min(self.listed_to, len(lines) + 1)):
            self.put(f"{number}\t{lines[number - 1]}".rstrip())

    def do_info(self, rest):
        """info threads, locals, globals, queues, resources, breakpoints, moment, log."""
        names = [it[5:] for it in dir(self) if it.startswith("info_")]
        found = [it for it in names if rest and it.startswith(rest)] if rest not in names else [rest]
        if len(found) != 1:
            raise Bad(f"expected one of {listed(names)}, found {rest or 'nothing'!r}")
        getattr(self, f"info_{found[0]}")()

    def info_threads(self):
        document = self.session.document()
        for it in document["threads"]:
            mark = "*" if it["thread"] == self.session.thread else " "
            frame = it["stack"][0]
            place = moment_text.place_text(frame, self.session.name)
            self.put(f"{mark} {it['thread']:<3} {frame['function']:<12} {place}  {moment_text.state_text(it)}")

    def info_locals(self):
        variables = moment_text.shown(self.session.told_frame()["locals"])
        for it in variables:
            self.put(moment_text.variable_text(it))
        if not variables:
            self.put("no locals")

    def info_globals(self):
        for it in self.session.document()["globals"]:
            self.put(moment_text.variable_text(it))

    def info_queues(self):
        document = self.session.document()
        self.put(f"arrivals   {', '.join(map(str, document['arrivals'])) or 'none'}")
        for it in document["channels"]:
            self.put(f"channel {it['channel']:<3}{', '.join(map(str, it['messages']))}")

    def info_resources(self):
        for it in self.session.document()["resources"]:
            held = {
                thread: units
                for (number, thread), units in self.session.run.holders.items()
                if number == it["resource"] and units
            }
            holders = ", ".join(f"{units} by thread {thread}" for thread, units in sorted(held.items()))
            self.put(
                f"resource {it['resource']}  {it['used']} of {it['cap']} in use{': ' if holders else ''}{holders}"
            )

    def info_breakpoints(self):
        for it in self.session.points.values():
            what = (
                f"{type(it).__name__.lower()} {it.text}"
                if hasattr(it, "text")
                else f"{self.session.name}:{it.line} in {it.function}"
            )
            more = [f"thread {it.thread}"] if it.thread is not None else []
            more += [f"if {it.condition}"] if it.condition else []
            more += ["once"] if getattr(it, "is_temporary", False) else []
            more += [] if it.is_enabled else ["disabled"]
            self.put(f"{it.number}  {', '.join([what, *more])}, hit {it.hits} time{'s' * (it.hits != 1)}")
        if not self.session.points:
            self.put("no breakpoints or watches")

    def info_moment(self):
        self.put(moment_text.text_of(self.session.document(), self.session.name).rstrip("\n"))

    def info_log(self):
        log, line = self.session.run.log, self.session.run.line
        for number in range(max(1, line - 4), min(line + 5, len(log.lines) + 1)):
            self.put(f"{'*' if number == line else ' '} {number:>6}  {log.lines[number - 1]}")

    # ---- words of the debugger

    def do_help(self, rest):
        """help [COMMAND]: what a command does."""
        name = ALIASES.get(rest, rest)
        if rest and name not in self.commands:
            raise Bad(f"there is no command {rest!r}: `help` lists them")
        short = {full: word for word, full in reversed(ALIASES.items())}
        for it in [name] if rest else self.commands:
            self.put(f"{short.get(it, ''):<4}{inspect.getdoc(self.commands[it])}")

    def do_quit(self, rest):
        """quit: end."""
        self.is_over = True

    # ---- what a stop shows

    def stopped(self, hit):
        """Shows where the run is, and why."""
        self.listed_to = None
        reason = hit.reason if hit else ""
        if reason == "end":
            self.put(
                f"The run is over: {self.session.run.stop}, at clock {moment_text.count(self.session.run.clock)}."
            )
            if not self.session.run.running:
                return
        elif reason == "start":
            return self.put("The start of the run: no thread has run.")
        elif reason == "interrupted":
            self.put("Interrupted.")
        elif reason == "ended":
            self.put("The thread has ended.")
        elif reason == "breakpoint":
            is_catch = isinstance(hit.point, Catch)
            self.put(f"Catch {hit.point.number}: {hit.point.text}" if is_catch else f"Breakpoint {hit.point.number}")
        elif reason == "watch":
            self.put_watch(hit)
        self.put_state()
        self.put_frame()
        for it in self.displayed:
            try:
                self.put(f"{it} = {self.shown(self.session.value_of(it))}")
            except Unknown:
                pass

    def put_watch(self, hit):
        self.put(f"Watch {hit.point.number}: {hit.point.text}")
        if hit.is_back:
            return self.put(f"  value {self.shown(hit.old)}, which the next step changes to {self.shown(hit.new)}")
        self.put(f"  old value {self.shown(hit.old)}, new value {self.shown(hit.new)}")
        if not self.session.run.running:
            return
        found = self.session.last_read(hit.point)
        if found:
            (clock, place), writes = found
            self.put(f"  this thread read it last at clock {moment_text.count(clock)}, {place}")
            for at, thread, new in writes:
                self.put(
                    f"  since then thread {thread} wrote {self.shown(new)},"
                    f" in a segment from clock {moment_text.count(at)} on"
                )

    def put_state(self):
        run = self.session.run
        line, steps = run.moment
        within = f" + {steps} step{'s' * (steps != 1)}" if steps else ""
        self.put(f"thread {self.session.thread}, clock {moment_text.count(run.clock)}, line {line}{within} of the log")

    def put_frame(self):
        """The selected frame with its arguments, and the line of the source."""
        frame = self.session.frame()
        if not frame:
            return
        told, count = self.session.told_frame(), len(frame.function.parameters)
        arguments = ", ".join(moment_text.variable_text(it, False) for it in moment_text.shown(told["locals"])[:count])
        self.put(
            f"#{self.session.level}  {told['function']} ({arguments})"
            f" at {moment_text.place_text(told, self.session.name)}"
        )
        if told["line"]:
            self.put(f"{told['line']}\t{self.session.source_lines[told['line'] - 1]}".rstrip())
