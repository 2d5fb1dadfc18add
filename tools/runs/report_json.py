"""A report as JSON: the text that the program `report` prints, read line by line.

Every number is read off the text, so none can differ from it. A line of no known form is kept under
`other`, so nothing is lost; docs/report.schema.json describes the value, and docs/REPORT.md each
line.
"""
import re

NUMBER = r"\d+"
SPREAD = ("least", "median", "90th", "99th", "greatest")
WAITS = ("count", "total", "median", "99th", "greatest")
FOREIGN = "this log is not of this source and trace: the numbers below mix two runs"
PAIRINGS = {
    "answers: the N-th output is that to the N-th request": "first",
    "answers: an output is that to the first request of its value that has none": "value",
}
CUT = {"trap": ("trap", "cost", "free"), "nochunk": ("cost", "free"), "fuel": ("cost", "free"),
       "threads": ("cost", "free")}


def form(text, **parts):
    """A line's form as an expression: `{name}` is a number, or what `parts` say. Brackets hold what may
    be missing."""
    found = re.escape(text).replace(r"\[", "(?:").replace(r"\]", ")?")
    return re.compile(re.sub(r"\\\{(\w+)\\\}", lambda it: f"(?P<{it[1]}>{parts.get(it[1], NUMBER)})", found))


def numbers_of(names, found):
    return {name: int(number) for name, number in zip(names, re.findall(NUMBER, found))}


def given(found):
    """The parts of a line that are there: numbers as such."""
    return {name: int(it) if it.isdecimal() else it for name, it in found.groupdict().items() if it is not None}


PLACE = re.compile(r"(?P<file>.+?):(?P<line>\d+):(?P<column>\d+) (?P<text>.+?)(?: in (?P<function>\w+))?")


def place_of(text):
    """A place, as `server.c:8:10 take in worker` or with the whole text of the call. Of a log of another
    source the report has a number alone: `site 8`."""
    found = PLACE.fullmatch(text)
    if not found:
        return {"text": text}
    place = given(found) | {"name": re.match(r"\w*", found["text"])[0]}
    if place["name"] == place["text"]:
        del place["text"]
    return place


REQUESTS = form("requests: {came} came, {dropped} dropped, {taken} taken, {answered} answered")
LATENCY = form("latency to the {which} answer: {spread} (arrived {arrived}, thread {thread})", which="first|last",
               spread=".*")
OUTPUTS = form("outputs by threads that served no request: {count}{threads}[, the others by {more} more thread[s]]",
               threads=r"(?:, \d+ by thread \d+)*")
BY_THREAD = re.compile(r"(-?\d+) by thread (\d+)")
REQUEST = form(
    "request {number}{slowest}: {rest}",
    slowest="(?:, the slowest)?",
    rest=r"no accept took it|\d+ requests? came in all|arrived \d+, taken by thread \d+, and its parts until when",
)
SHORTER = form("  {count} shorter part[s]: {ticks}")
PART = form("  {what}: {ticks}, {until}", what=".*")
WINDOW = form("window: the requests that arrived from {from} {until}, and the waits, choices and segments that ended then", until=r"to \d+|on")
OTHERS = re.compile(r"until thread (\d+) answers")
PLACES = "waits by place: count, total, median, 99th, greatest"
QUEUE = "queue, from arrival to accept"
WAIT = form("  {what}: {spread} ([request {request}, ]thread {thread}, until {until})", what=".*",
            spread=r"\d+(?:, \d+){4}")
CHUNKS = form("chunks: at most {most_held} of {of} held between segments")
CHOICES = form("choices: {count}[, by score {by_score}, by the gate {by_gate}, by turn {by_turn}]")
GATE = form("gate: closed {times} time[s], for {ticks} tick[s] in all[, held a request back at {held_back} choice[s]]{end}", end="(?:, closed at the end)?")
NEVER_RAN = form("left: {count} thread[s] that never ran")
MORE_LEFT = form("left: {count} more thread[s]")
LEFT = form(
    "left: thread {thread}{how}[, went past {passed} at {passed_at}]",
    how=r", whose segment was cut| waits at .* since \d+(?:: \w+\([-0-9, ]*\))?", passed=".*"
)
BLOCKED = form(" waits at {place} since {since}[: {values}]", place=".*", values=r"\w+\([-0-9, ]*\)")
RESOURCE = form(
    "resource {resource}: {used} of {cap} in use{holders}[, the others by {more} more thread[s]]",
    holders=r"(?:: -?\d+ by thread \d+(?:, -?\d+ by thread \d+)*)?"
)
STOPPED = form(
    "stopped: thread {thread}{where}[: {why}][, at {places}][: {values}]",
    where=r"(?: in (?:\w+|function \d+)| behind its last return)?", why=".*?", places=r".+?:\d+:\d+ .+?|site \d+",
    values=r"\w+\([-0-9, ]*\)",
)
INDEX = re.compile(r"index (-?\d+) of (\d+) (words|members)")
MORE_PLACES = re.compile(r"(?P<places>.*?)(?: or at (?P<more>\d+) more places?)?")
CALLED_AT = form("  called at {place}", place=".*")
MORE_CALLS = "  and by more calls above"


class Report:
    """A report as it is read: `value` is what the lines so far tell."""

    def __init__(self):
        self.value = {
            "log_fits": True, "circles": [], "answers": "own", "requests": None,
            "latency": {"first": None, "last": None}, "other_outputs": None, "window": None, "request": None,
            "waits": [], "chunks": None, "choices": None, "gate": None, "left": [], "more_left": 0, "never_ran": 0,
            "resources": [], "stopped": None, "stop": None,
            "other": [],
        }
        self.lines = [
            (REQUESTS, self.requests), (WINDOW, self.window), (LATENCY, self.latency), (OUTPUTS, self.outputs),
            (REQUEST, self.request), (CHUNKS, self.numbers("chunks")),
            (CHOICES, self.numbers("choices")), (GATE, self.gate), (NEVER_RAN, self.count("never_ran")),
            (MORE_LEFT, self.count("more_left")), (LEFT, self.left),
            (RESOURCE, self.resource), (STOPPED, self.stopped), (re.compile("circle: (.*)"), self.circle),
            (re.compile("stop (.*)"), self.stop),
        ]
        self.below = []  # the forms of the lines that may follow the last head, two blanks in

    def read(self, line):
        forms = self.below if line.startswith("  ") else self.lines
        for expression, take in forms:
            if found := expression.fullmatch(line):
                return take(found)
        if line in PAIRINGS:
            self.value["answers"] = PAIRINGS[line]
        elif line == FOREIGN:
            self.value["log_fits"] = False
        elif line == PLACES:
            self.below = [(WAIT, self.wait)]
        else:
            self.value["other"].append(line)

    def numbers(self, name):
        return lambda found: self.value.update({name: given(found)})

    def count(self, name):
        return lambda found: self.value.update({name: int(found["count"])})

    def window(self, found):
        end = found["until"].removeprefix("to ")
        self.value["window"] = {"from": int(found["from"]), "to": int(end) if end.isdecimal() else None}

    def requests(self, found):
        self.value["requests"] = given(found)

    def latency(self, found):
        more = {name: int(found[name]) for name in ("arrived", "thread")}
        self.value["latency"][found["which"]] = numbers_of(SPREAD, re.sub(r"90th|99th", "", found["spread"])) | more

    def outputs(self, found):
        threads = [{"thread": int(thread), "outputs": int(puts)}
                   for puts, thread in BY_THREAD.findall(found["threads"])]
        self.value["other_outputs"] = {"count": int(found["count"]), "threads": threads,
                                       "more_threads": int(found["more"] or 0)}

    def request(self, found):
        self.value["request"] = {"number": int(found["number"]), "is_slowest": bool(found["slowest"])}
        if taken := re.match(r"arrived (\d+), taken by thread (\d+)", found["rest"]):
            self.value["request"] |= {"arrived": int(taken[1]), "thread": int(taken[2]), "parts": [], "shorter": None}
            self.below = [(SHORTER, self.shorter), (PART, self.part)]
        elif came := re.match(r"(\d+) requests? came", found["rest"]):
            self.value["request"]["came"] = int(came[1])

    def part(self, found):
        part = {"ticks": int(found["ticks"]), "until": int(found["until"])}
        if other := OTHERS.fullmatch(found["what"]):
            part = {"kind": "others", "thread": int(other[1])} | part
        else:
            kind, _, place = found["what"].partition(" at ")
            part = {"kind": kind} | part | ({"place": place_of(place)} if place else {})
        self.value["request"]["parts"].append(part)

    def shorter(self, found):
        self.value["request"]["shorter"] = given(found)

    def wait(self, found):
        row = {"place": None if found["what"] == QUEUE else place_of(found["what"])} | numbers_of(WAITS, found["spread"])
        self.value["waits"].append(row | {name: int(found[name]) for name in ("request", "thread", "until")
                                          if found[name]})

    def gate(self, found):
        numbers = {name: int(found[name]) for name in ("times", "ticks", "held_back") if found[name]}
        self.value["gate"] = numbers | {"is_closed_at_end": bool(found["end"])}

    def left(self, found):
        left = {"thread": int(found["thread"]), "is_cut": found["how"].startswith(",")}
        if blocked := BLOCKED.fullmatch(found["how"]):
            left |= given(blocked) | {"place": place_of(blocked["place"])}
        if found["passed"]:
            left["went_past"] = {"place": place_of(found["passed"]), "at": int(found["passed_at"])}
        self.value["left"].append(left)

    def resource(self, found):
        holders = [{"thread": int(thread), "units": int(units)}
                   for units, thread in BY_THREAD.findall(found["holders"])]
        row = {name: int(found[name]) for name in ("resource", "used", "cap")}
        self.value["resources"].append(row | {"holders": holders, "more_holders": int(found["more"] or 0)})

    def circle(self, found):
        steps = re.findall(r"thread (\d+) → resource (\d+)", found[1])
        self.value["circles"].append([{"thread": int(thread), "resource": int(resource)} for thread, resource in steps])

    def stopped(self, found):
        stopped = {"thread": int(found["thread"]), "function": found["where"].removeprefix(" in ")
                   if found["where"].startswith(" in ") else None}
        stopped |= {name: found[name] for name in ("why", "values") if found[name]}
        if index := INDEX.fullmatch(found["why"] or ""):
            stopped |= {"index": int(index[1]), "bound": int(index[2])}
        places = MORE_PLACES.fullmatch(found["places"] or "")
        stopped["places"] = [place_of(it) for it in places["places"].split(" or ") if it]
        self.value["stopped"] = stopped | {"more_places": int(places["more"] or 0), "calls": [],
                                           "has_more_calls": False}
        self.below = [(CALLED_AT, self.called_at), (re.compile(MORE_CALLS), self.more_calls)]

    def called_at(self, found):
        self.value["stopped"]["calls"].append(place_of(found["place"]))

    def more_calls(self, _):
        self.value["stopped"]["has_more_calls"] = True

    def stop(self, found):
        kind, *fields = found[1].split()
        stop = {"line": found[0], "kind": kind}
        if kind in CUT:
            stop |= {name: int(it) if it.isdecimal() else it for name, it in zip(("thread", *CUT[kind]), fields)}
        elif kind == "trace":
            stop["trace_line"] = int(fields[0])
        self.value["stop"] = stop


def value_of(text):
    """The value of a report, or None if the text is none: a run that comes to no stop has the beginning of
    its log in place of one."""
    report = Report()
    for line in text.splitlines():
        report.read(line)
    return report.value if report.value["requests"] else None
