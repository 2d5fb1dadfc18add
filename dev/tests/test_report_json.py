"""A report as JSON fits docs/report.schema.json, and has all that the report's text has: the text can
be made from it again."""
import json, pathlib, re, unittest

from runs import report_json

try:
    import jsonschema
except ImportError:
    jsonschema = None

TOP = pathlib.Path(__file__).resolve().parent.parent.parent
STORED = (TOP / "crates/report/stdout").read_text()
# The lines that no stored report has, by docs/REPORT.md.
RARE = """circle: thread 1 → resource 2 → thread 2 → resource 1 → thread 1
circle: thread 7 → resource 3 → thread 7
this log is not of this source and trace: the numbers below mix two runs
answers: the N-th output is that to the N-th request
window: the requests that arrived from 5 to 400, and the waits, choices and segments that ended then
requests: 70 came, 3 dropped, 69 taken, 0 answered
outputs by threads that served no request: 60, 20 by thread 3, 5 by thread 4, the others by 3 more threads
request 5, the slowest: arrived 10, taken by thread 1, and its parts until when
  queue: 40, 50
  runs: 10, 60
  waits at a b/x:1.c:16:5 take in worker: 500, 560
  1 shorter part: 12
  until thread 3 answers: 40, 600
waits by place: count, total, median, 99th, greatest
  queue, from arrival to accept: 3, 171, 59, 72, 72 (request 3, thread 3, until 192)
  site 8: 2, 23, 0, 23, 23 (thread 2, until 202)
chunks: at most 3 of 1024 held between segments
choices: 2155, by score 736, by the gate 78, by turn 1341
gate: closed 1 time, for 1971 ticks in all, held a request back at 1 choice, closed at the end
left: thread 1 waits at server.c:15:15 take(since, in + 1) in worker since 337: take(-2, 1), went past server.c:1:1 take(1, a at, b) in worker at 5
left: thread 2, whose segment was cut
left: 980 more threads
left: 1 thread that never ran
resource 1: 3 of 4 in use: 3 by thread 2
resource 2: 4 of 4 in use: 6 by thread 2, -2 by thread 3, the others by 4 more threads
stopped: thread 2 in get: index -4 of 9 members, at server.c:5:10 a or server.c:6:3 a or at 2 more places
  called at server.c:9:19 get in twice
  and by more calls above
stop fuel 2 10000000 7
"""
STOPS = {
    "stopped: thread 2 behind its last return: the instructions that `--fuel` allows are spent\nstop fuel 2 1 2\n": "fuel",
    "stopped: thread 0 in main: resource 1 isn't there; `--caps 1=N` gives it N units, at server.c:2:3 take(n, 1) in main: take(1, 1)\nstop trap 0 resource 5 1023\n": "trap",
    "stopped: thread 0 in main: a resource that isn't there, or an amount out of range, at server.c:2:3 take(1, 9) in main\nstop trap 0 resource 5 1023\n": "trap",
    "stopped: thread 0 in main: an amount out of range, as 0 of 4 units of resource 2 are in use, at server.c:2:3 give(r, 1) in main: give(2, 1)\nstop trap 0 resource 5 1023\n": "trap",
    "stopped: thread 0 in function 3: no free chunk is large enough, at site 4\nstop nochunk 0 5 0\n": "nochunk",
    "stopped: thread 9\nstop threads 9 5 1\n": "threads",
    "stop trace 7\n": "trace",
    "stop done\n": "done",
}
REST = "".join(it for it in RARE.splitlines(True) if re.match("requests|waits|  queue,|chunks|choices", it))


def place(it):
    if "file" not in it:
        return it["text"]
    return f"{it['file']}:{it['line']}:{it['column']} {it.get('text', it['name'])}" + (f" in {it['function']}" if "function" in it else "")


def counted(number, noun):
    """A number and its noun."""
    return f"{number} {noun}" + "s" * (number != 1)


def listed(items, form, more, unit):
    return "".join([", ".join(form.format(**it) for it in items), f", the others by {counted(more, unit)}" if more
                    else ""])


def plural(text):
    """A report with `1 times` for `1 time`, and the like."""
    return re.sub(r"\b1 (time|tick|choice|thread|more thread|shorter part)\b", r"1 \1s", text)


def text_of(value):
    """The report that a value is of, with plurals throughout."""
    return "".join(f"{it}\n" for part in (first_lines, request_lines, wait_lines, count_lines, left_lines, stop_lines)
                   for it in part(value))


def first_lines(value):
    for circle in value["circles"]:
        yield "circle: " + "".join(f"thread {it['thread']} → resource {it['resource']} → " for it in circle) + f"thread {circle[0]['thread']}"
    if not value["log_fits"]:
        yield report_json.FOREIGN
    yield from [line for line, pairing in report_json.PAIRINGS.items() if pairing == value["answers"]]
    if it := value["window"]:
        end = "on" if it["to"] is None else f"to {it['to']}"
        yield f"window: the requests that arrived from {it['from']} {end}, and the waits, choices and segments that ended then"
    yield "requests: {came} came, {dropped} dropped, {taken} taken, {answered} answered".format(**value["requests"])
    for which, it in value["latency"].items():
        if it:
            ranks = ", ".join(f"{name} {it[name]}" for name in report_json.SPREAD)
            yield f"latency to the {which} answer: {ranks} (arrived {it['arrived']}, thread {it['thread']})"
    if it := value["other_outputs"]:
        yield f"outputs by threads that served no request: {it['count']}, " + listed(it["threads"], "{outputs} by thread {thread}", it["more_threads"], "more thread")


def request_lines(value):
    it = value["request"]
    if it:
        head = f"request {it['number']}" + ", the slowest" * it["is_slowest"]
        if "parts" in it:
            yield f"{head}: arrived {it['arrived']}, taken by thread {it['thread']}, and its parts until when"
        else:
            yield f"{head}: {counted(it['came'], 'request')} came in all" if "came" in it else f"{head}: no accept took it"
        parts = it.get("parts", ())
        for part in [each for each in parts if each["kind"] != "others"]:
            yield f"  {part['kind']}" + (f" at {place(part['place'])}" if "place" in part else "") + f": {part['ticks']}, {part['until']}"
        if it.get("shorter"):
            yield f"  {counted(it['shorter']['count'], 'shorter part')}: {it['shorter']['ticks']}"
        for part in [each for each in parts if each["kind"] == "others"]:
            yield "  until thread {thread} answers: {ticks}, {until}".format(**part)


def wait_lines(value):
    yield report_json.PLACES
    for it in value["waits"]:
        who = (f"request {it['request']}, " if "request" in it else "") + f"thread {it['thread']}, until {it['until']}"
        yield f"  {place(it['place']) if it['place'] else report_json.QUEUE}: {', '.join(str(it[name]) for name in report_json.WAITS)} ({who})"


def count_lines(value):
    yield "chunks: at most {most_held} of {of} held between segments".format(**value["chunks"])
    by = ", by score {by_score}, by the gate {by_gate}, by turn {by_turn}" if "by_turn" in value["choices"] else ""
    yield ("choices: {count}" + by).format(**value["choices"])
    if it := value["gate"]:
        held = f", held a request back at {counted(it['held_back'], 'choice')}" if "held_back" in it else ""
        yield f"gate: closed {counted(it['times'], 'time')}, for {counted(it['ticks'], 'tick')} in all{held}" + ", closed at the end" * it["is_closed_at_end"]


def left_lines(value):
    for it in value["left"]:
        line = f"left: thread {it['thread']}" + ", whose segment was cut" * it["is_cut"]
        line += f" waits at {place(it['place'])} since {it['since']}" if "place" in it else ""
        line += f": {it['values']}" if "values" in it else ""
        yield line + (f", went past {place(it['went_past']['place'])} at {it['went_past']['at']}" if "went_past" in it
                      else "")
    if value["more_left"]:
        yield f"left: {counted(value['more_left'], 'more thread')}"
    if value["never_ran"]:
        yield f"left: {counted(value['never_ran'], 'thread')} that never ran"
    for it in value["resources"]:
        holders = ": " * bool(it["holders"]) + listed(it["holders"], "{units} by thread {thread}", it["more_holders"],
                                                      "more thread")
        yield f"resource {it['resource']}: {it['used']} of {it['cap']} in use{holders}"


def stop_lines(value):
    if it := value["stopped"]:
        where = " behind its last return" if it["function"] is None and "why" in it else f" in {it['function']}" if it["function"] else ""
        places = [place(each) for each in it["places"]] + [f"at {counted(it['more_places'], 'more place')}"] * bool(it["more_places"])
        line = f"stopped: thread {it['thread']}{where}" + (f": {it['why']}" if "why" in it else "") + (f", at {' or '.join(places)}" if places else "")
        yield line + (f": {it['values']}" if "values" in it else "")
        yield from [f"  called at {place(each)}" for each in it["calls"]]
        yield from [report_json.MORE_CALLS] * it["has_more_calls"]
    yield value["stop"]["line"]


def texts():
    """Reports, each with its name."""
    if not STORED.startswith("{"):
        yield "the stored report", STORED
    yield "rare lines", RARE
    for stop, kind in STOPS.items():
        yield f"stop {kind}", REST + stop
    yield "no accept", REST.replace("waits by", "request 9: no accept took it\nwaits by") + "stop idle\n"
    yield "no request", REST.replace("waits by", "request 99: 70 requests came in all\nwaits by") + "stop idle\n"
    yield "a window to the end", "window: the requests that arrived from 5 on, and the waits, choices and segments that ended then\n" + REST + "stop idle\n"


def whole(text):
    return {"words": ["serve", "server.c"], "status": 10} | report_json.value_of(text)


class Values(unittest.TestCase):
    def test_the_text_can_be_made_from_the_value(self):
        for name, text in texts():
            with self.subTest(report=name):
                value = report_json.value_of(text)
                self.assertEqual(value["other"], [])
                self.assertEqual(plural(text_of(value)), plural(text))

    def test_a_line_of_no_known_form_is_kept(self):
        self.assertEqual(report_json.value_of(REST + "something new: 5\nstop idle\n")["other"], ["something new: 5"])

    def test_the_beginning_of_a_log_is_no_report(self):
        self.assertIsNone(report_json.value_of("run 0 0 0\nblock 0 2 1 10 1022\n"))
        self.assertIsNone(report_json.value_of(""))


@unittest.skipUnless(jsonschema, "the package jsonschema (python3-jsonschema of Debian) isn't there")
class Schema(unittest.TestCase):
    def setUp(self):
        schema = json.loads((TOP / "docs/report.schema.json").read_text())
        jsonschema.Draft202012Validator.check_schema(schema)
        self.schema = jsonschema.Draft202012Validator(schema)

    def test_each_report_fits_it(self):
        for name, text in texts():
            with self.subTest(report=name):
                self.schema.validate(whole(text))

    def test_what_is_changed_does_not(self):
        changes = {
            "a part is missing": lambda it: it.pop("stop"),
            "a part is there that is unknown": lambda it: it.update(more=1),
            "a number is a text": lambda it: it["requests"].update(came="3"),
            "a number is below 0": lambda it: it["chunks"].update(most_held=-1),
            "a stop is unknown": lambda it: it["stop"].update(kind="asleep"),
            "a field of a stop is missing": lambda it: it["stop"].pop("cost"),
        }
        for why, change in changes.items():
            value = whole(RARE)
            change(value)
            with self.subTest(changed=why), self.assertRaises(jsonschema.ValidationError):
                self.schema.validate(value)


if __name__ == "__main__":
    unittest.main()
