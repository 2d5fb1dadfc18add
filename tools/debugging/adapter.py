"""The Debug Adapter Protocol over a session: requests of an editor, and the events that answer them.

`Adapter(wire).serve()` answers requests until the editor ends. A request that can't be answered is refused with a
sentence.
"""
import io, os, re

from . import launch, terminal
from .asked import Unknown
from .replayed import Differs
from .stops import Hit
from .views import Views
from .wire import Ended

CAPABILITIES = {
    "supportsConfigurationDoneRequest": True,
    "supportsFunctionBreakpoints": True,
    "supportsConditionalBreakpoints": True,
    "supportsHitConditionalBreakpoints": True,
    "supportsEvaluateForHovers": True,
    "supportsStepBack": True,
    "supportsGotoTargetsRequest": True,
    "supportsLoadedSourcesRequest": True,
    "supportsDataBreakpoints": True,
    "supportsExceptionInfoRequest": True,
    "supportsTerminateRequest": True,
    "supportsBreakpointLocationsRequest": True,
    "supportsDelayedStackTraceLoading": True,
    "exceptionBreakpointFilters": [
        {"filter": "traps", "label": "Traps", "default": True},
        {"filter": "stops", "label": "Other stops: deadlock, end of the trace, no chunk, fuel", "default": True},
    ],
}
REASONS = {
    "breakpoint": "breakpoint",
    "watch": "data breakpoint",
    "interrupted": "pause",
    "goto": "goto",
    "start": "entry",
}
LOOKS = (
    "info",
    "list",
    "backtrace",
    "help",
    "print",
)  # commands of the terminal that the console takes besides `goto`


class Bad(Exception):
    """A request that can't be answered; the text says why."""


def thread_and_condition(text):
    """`thread N`, `if EXPR` or both, as on the terminal, or an expression alone."""
    found = re.fullmatch(r"\s*(?:thread\s+(\d+))?\s*(?:\bif\b)?\s*(.*?)\s*", text or "", re.S)
    return int(found[1]) if found[1] else None, found[2] or None


class Adapter:
    def __init__(self, wire):
        self.wire, self.session, self.views, self.made, self.words = wire, None, None, None, {}
        self.filters, self.is_over, self.last, self.targets, self.stops_on_entry = (
            set(),
            False,
            Hit("start"),
            [],
            False,
        )
        self.first = 1  # the number of the first line and column, as the editor counts
        self.known = {name.removeprefix("on_"): getattr(self, name) for name in dir(self) if name.startswith("on_")}

    def serve(self):
        try:
            while not self.is_over:
                self.answer(self.wire.next())
        except (Ended, BrokenPipeError):
            pass

    def answer(self, request):
        command = request.get("command", "")
        try:
            if command not in self.known:
                raise Bad(f"the request {command!r} isn't one that this adapter knows")
            if not self.session and command not in ("initialize", "launch", "disconnect", "terminate"):
                raise Bad(f"{command} comes before launch")
            self.known[command](request, request.get("arguments") or {})
        except (Bad, Unknown, Differs, launch.Refused, terminal.Bad) as why:
            self.wire.refuse(request, str(why))
        except (KeyError, TypeError, ValueError, AttributeError, OSError) as why:
            self.wire.refuse(request, f"{command}: {why}")

    # ---- beginning and end

    def on_initialize(self, request, given):
        self.first = 1 if given.get("linesStartAt1", True) else 0
        self.wire.answer(request, CAPABILITIES)

    def on_launch(self, request, given):
        source = given.get("source") or given.get("program")
        if not source:
            raise Bad("launch: `source` is missing: the server's source")
        words = [*given.get("options", given.get("args", []))]
        os.chdir(given.get("cwd") or os.curdir)
        self.made = launch.Launch(
            [given.get("command", "serve"), *words, source, *given.get("files", [])], given.get("log")
        )
        if given.get("trace"):
            with open(given["trace"], "rb") as trace:
                self.made.copy_trace(trace)
        else:
            self.made.copy_trace(io.BytesIO())
        self.session = self.made.session()
        self.session.timeline.is_interrupted = self.wire.pauses.is_set
        self.views, self.stops_on_entry = Views(self.session), bool(given.get("stopOnEntry"))
        self.wire.answer(request)
        if self.made.note:
            self.wire.event("output", category="console", output=f"{self.made.note}\n")
        self.wire.event("initialized")

    def on_configurationDone(self, request, given):
        self.wire.answer(request)
        if self.stops_on_entry:
            self.session.go_to_line(self.session.run.log.run_lines[0])
            self.stopped(Hit("start"))
        else:
            self.move(self.session.forward)

    def on_disconnect(self, request, given):
        self.wire.answer(request)
        self.wire.event("terminated")
        self.is_over = True

    on_terminate = on_disconnect

    # ---- breakpoints

    def replace(self, kind, made):
        """Puts breakpoints in the place of the earlier ones of a kind; gives the body of the answer."""
        for it in [it for it in self.session.points.values() if it.kind == kind]:
            del self.session.points[it.number]
        found = []
        for given, make in made:
            try:
                point = make()
                point.kind = kind
                point.set_hit_condition(given.get("hitCondition"))
                found.append(self.told_point(point))
            except Unknown as why:
                found.append({"verified": False, "message": str(why)})
        return {"breakpoints": found}

    def told_point(self, point):
        place = {"source": self.views.source(), "line": point.line - 1 + self.first} if hasattr(point, "line") else {}
        return {"id": point.number, "verified": True} | place

    def breakpoint(self, place, given):
        thread, condition = thread_and_condition(given.get("condition"))
        return lambda: self.session.add_breakpoint(place, thread=thread, condition=condition)

    def on_setBreakpoints(self, request, given):
        points, is_here = given.get("breakpoints") or [], self.is_source(given["source"])
        if not is_here:
            why = f"only {self.views.path} runs"
            return self.wire.answer(request, {"breakpoints": [{"verified": False, "message": why} for _ in points]})
        made = [(it, self.breakpoint(str(it["line"] + 1 - self.first), it)) for it in points]
        self.wire.answer(request, self.replace("line", made))

    def is_source(self, source):
        path = source.get("path")
        return bool(path) and os.path.realpath(path) == os.path.realpath(self.views.path)

    def on_setFunctionBreakpoints(self, request, given):
        """Functions, modelled calls, and `output` or `output VALUE`."""
        made = [
            (it, self.catch(it["name"]) if it["name"].startswith("output") else self.breakpoint(it["name"], it))
            for it in given["breakpoints"]
        ]
        self.wire.answer(request, self.replace("function", made))

    def catch(self, text):
        return lambda: self.session.add_catch(text)

    def on_dataBreakpointInfo(self, request, given):
        reference = given.get("variablesReference")
        text = self.views.watchable(reference, given["name"]) if reference else given["name"]
        if text is None:
            return self.wire.answer(
                request, {"dataId": None, "description": f"{given['name']} isn't a variable of the source"}
            )
        self.wire.answer(request, {"dataId": text, "description": text, "accessTypes": ["write"], "canPersist": True})

    def on_setDataBreakpoints(self, request, given):
        made = [(it, lambda it=it: self.session.add_watch(it["dataId"])) for it in given["breakpoints"]]
        self.wire.answer(request, self.replace("data", made))

    def on_setExceptionBreakpoints(self, request, given):
        self.filters = set(given.get("filters", []))
        self.wire.answer(request, {})

    def on_breakpointLocations(self, request, given):
        first = given["line"] + 1 - self.first
        last = given.get("endLine", given["line"]) + 1 - self.first
        lines = {
            it.line for function in self.session.code.functions.values() for it in function.instructions if it.begins
        }
        self.wire.answer(
            request, {"breakpoints": [{"line": it - 1 + self.first} for it in sorted(lines) if first <= it <= last]}
        )

    # ---- moving

    def move(self, make):
        """Makes a move, and says where it ended."""
        self.stopped(make())

    def stopped(self, hit):
        self.views.forget()
        self.last, run = hit, self.session.run
        reason = REASONS.get(hit.reason, "step")
        more = {}
        if hit.reason == "end":
            reason = "exception" if ("traps" if run.trap else "stops") in self.filters else "step"
            more = {"description": f"The run is over: {run.stop}", "text": run.stop}
        elif hit.reason == "watch":
            value = lambda it: f"{{{', '.join(map(str, it))}}}" if isinstance(it, list) else str(it)
            more = {"description": f"{hit.point.text}: {value(hit.old)} -> {value(hit.new)}"}
        if hit.point:
            more["hitBreakpointIds"] = [hit.point.number]
        self.wire.event("stopped", reason=reason, threadId=self.session.thread + 1, allThreadsStopped=True, **more)

    def select(self, given):
        number = given.get("threadId", self.session.thread + 1) - 1
        if number in self.session.run.threads:
            self.session.thread, self.session.level = number, 0

    def stepping(self, request, given, make, body=None):
        self.select(given)
        self.wire.answer(request, body)
        self.move(make)

    def on_continue(self, request, given):
        if self.session.run.stop:
            self.wire.answer(request, {"allThreadsContinued": True})
            return self.wire.event("terminated")
        self.stepping(request, given, self.session.forward, {"allThreadsContinued": True})

    def on_reverseContinue(self, request, given):
        self.stepping(request, given, self.session.backward)

    def on_next(self, request, given):
        self.stepping(request, given, self.session.next)

    def on_stepIn(self, request, given):
        self.stepping(request, given, self.session.step)

    def on_stepOut(self, request, given):
        self.stepping(request, given, self.session.finish)

    def on_stepBack(self, request, given):
        self.stepping(request, given, self.session.reverse_next)

    def on_pause(self, request, given):
        self.wire.answer(request)
        if self.last.reason != "interrupted":
            self.stopped(Hit("interrupted"))

    def on_gotoTargets(self, request, given):
        """The next and the last moment before this one at which a thread comes to a line, by their clocks."""
        line, session, here = given["line"] + 1 - self.first, self.session, self.session.run.time
        self.targets = []
        for word, search in (("next", session.timeline.forward), ("before", session.timeline.backward)):
            if moment := self.moment_at(line, search):
                self.targets.append((word, *moment))
            session.timeline.go_to_time(here)
        self.wire.answer(
            request,
            {
                "targets": [
                    {"id": number, "label": f"{word}: clock {clock:,}, thread {thread}", "line": given["line"]}
                    for number, (word, _, clock, thread) in enumerate(self.targets, 1)
                ]
            },
        )

    def moment_at(self, line, search):
        point = self.session.add_breakpoint(str(line))
        found = search(self.session.search_for(point))
        del self.session.points[point.number]
        run = self.session.run
        return (run.time, run.clock, run.running.number) if isinstance(found, Hit) else None

    def on_goto(self, request, given):
        if not 0 < given["targetId"] <= len(self.targets):
            raise Bad("goto: the target is one of an earlier moment")
        time = self.targets[given["targetId"] - 1][1]
        self.wire.answer(request)
        self.session.timeline.go_to_time(time)
        self.session.select()
        self.stopped(Hit("goto"))

    # ---- looking

    def on_threads(self, request, given):
        self.wire.answer(request, self.views.threads())

    def on_stackTrace(self, request, given):
        body = self.views.stack(given["threadId"] - 1, given.get("startFrame") or 0, given.get("levels") or 0)
        for it in body["stackFrames"]:
            it["line"], it["column"] = max(0, it["line"] - 1 + self.first), max(0, it["column"] - 1 + self.first)
        self.wire.answer(request, body)

    def on_scopes(self, request, given):
        self.wire.answer(request, self.views.scopes(given["frameId"]))

    def on_variables(self, request, given):
        body = self.views.variables(given["variablesReference"], given.get("start") or 0, given.get("count") or 0)
        self.wire.answer(request, body)

    def on_evaluate(self, request, given):
        if given.get("frameId"):
            self.session.thread, self.session.level, _ = self.views.referred(given["frameId"], "frame")
        text = given["expression"].strip()
        word = terminal.ALIASES.get(text.split(" ")[0], text.split(" ")[0])
        if given.get("context") == "repl" and word == "goto":
            hit = self.session.go_to_words(text.partition(" ")[2])
            self.wire.answer(request, {"result": f"clock {self.session.run.clock:,}", "variablesReference": 0})
            return self.stopped(hit)
        if given.get("context") == "repl" and word in LOOKS:
            lines = []
            terminal.Terminal(self.session, lines.append).do(text)
            return self.wire.answer(request, {"result": "\n".join(lines), "variablesReference": 0})
        value = self.session.value_of(text)
        if isinstance(value, list):
            shown = self.views.variable({"name": text, "values": value, "words": len(value)}, None, "")
            return self.wire.answer(
                request,
                {
                    "result": shown["value"],
                    "type": shown["type"],
                    "indexedVariables": len(value),
                    "variablesReference": shown["variablesReference"],
                },
            )
        self.wire.answer(request, {"result": str(value), "type": "int", "variablesReference": 0})

    def on_exceptionInfo(self, request, given):
        run = self.session.run
        self.wire.answer(
            request,
            {
                "exceptionId": run.stop or "none",
                "breakMode": "always",
                "description": f"The run is over: {run.stop}" if run.stop else "The run goes on.",
            },
        )

    def on_loadedSources(self, request, given):
        self.wire.answer(request, {"sources": [self.views.source()]})

    def on_source(self, request, given):
        self.wire.answer(
            request, {"content": self.session.code.source.decode(errors="replace"), "mimeType": "text/x-c"}
        )
