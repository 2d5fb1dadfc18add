"""The report as text: the verdict, then the numbers of the run, tables of latencies, of one request and of the waits by
place, and the end."""
from . import document as documents, verdict
from .columns import LABEL, TICKS, counted, labelled, number, table

MOST_LINES = 40  # of a report, unless all rows are asked for
MOST_ROWS, LEAST_ROWS = 20, 2  # of a table, as there is room
MOSTLY = 0.9  # of the time
RANKS = (("min", "least"), ("p50", "median"), ("p90", "90th"), ("p99", "99th"), ("max", "greatest"))
PAIRINGS = {
    "first": "the N-th output answers the N-th request",
    "value": "an output answers the earliest unanswered request of its value",
}
QUEUE = "queue, from arrival to accept"


def text_of(document, is_all=False, is_asked=False, unit=TICKS):
    """The lines of a report. Unless all rows are asked for, tables are cut so that it has at most 40 lines; the parts
    of a request that was asked for by its number are never cut."""
    if is_all:
        return Report(document, None, unit).lines()
    for most in range(MOST_ROWS, LEAST_ROWS, -1):
        lines = Report(document, most, unit, is_asked).lines()
        if len(lines) <= MOST_LINES:
            return lines
    return Report(document, LEAST_ROWS, unit, is_asked).lines()


class Report:
    """A document as lines, with tables of at most so many rows, or of all if `most` is None."""

    def __init__(self, document, most, unit, has_all_parts=False):
        self.document, self.most, self.unit = document, most, unit
        self.most_parts = None if has_all_parts else most

    def lines(self):
        """The lines: parts with an empty line between them."""
        parts = (self.verdict, self.counts, self.latencies, self.request, self.waits, self.left, self.stop)
        lines = []
        for made in filter(None, (list(part()) for part in parts)):
            lines += ["", *made] if lines else made
        return lines

    def verdict(self):
        for sentence in verdict.of(self.document):
            first, *more = labelled("", sentence)
            yield first.strip()
            yield from (f"  {it.strip()}" for it in more)

    def counts(self):
        document = self.document
        if document["answers"] in PAIRINGS:
            yield from labelled("answers", PAIRINGS[document["answers"]])
        if it := document["window"]:
            to = "the end" if it["to"] is None else self.unit.shown(it["to"])
            yield from labelled("window", f"from {self.unit.shown(it['from'])} to {to}: requests that arrived, waits, "
                                          f"choices and segments that ended")
        names = ("came", "dropped", "taken", "answered")
        yield from labelled("requests", ", ".join(f"{number(document['requests'][it])} {it}" for it in names))
        yield from self.other_outputs()
        yield from self.time()
        it = document["chunks"]
        yield from labelled("chunks", f"at most {number(it['most_held'])} of {number(it['of'])} held between segments")
        yield from self.choices()
        yield from self.gate()

    def other_outputs(self):
        if it := self.document["other_outputs"]:
            threads = ", ".join(f"{number(each['outputs'])} by thread {each['thread']}" for each in it["threads"])
            more = f", the others by {counted(it['more_threads'], 'more thread')}" if it["more_threads"] else ""
            yield from labelled("outputs", f"{number(it['count'])} by threads that took no request: {threads}{more}")

    def time(self):
        """The last clock and the share of the time in which segments ran, if the document has them."""
        if it := self.document.get("run"):
            share = f" ({100 * it['busy'] / it['ended']:.0f} %)" if it["ended"] else ""
            ran = f"{counted(it['segments'], 'segment')} of {counted(it['threads'], 'thread')}"
            busy = f"busy for {self.unit.shown(it['busy'])}{share}"
            yield from labelled("time", f"{self.unit.counted(it['ended'])}, {busy}: {ran}")

    def choices(self):
        it = self.document["choices"]
        named = (("by_score", "by score"), ("by_gate", "by the gate"), ("by_turn", "by turn"))
        ways = [f"{number(it[key])} {name}" for key, name in named if it.get(key) is not None]
        yield from labelled("choices", number(it["count"]) + (f": {', '.join(ways)}" if ways else ""))

    def gate(self):
        it = self.document["gate"]
        if it is None:
            return
        text = f"closed {counted(it['times'], 'time')}, for {self.unit.counted(it['ticks'])} in all"
        text = text if it["times"] else "open all the time"
        text += ", closed at the end" * it["is_closed_at_end"]
        if it.get("held_back"):
            text += f", held a request back at {counted(it['held_back'], 'choice')}"
        yield from labelled("gate", text)
        yield from self.why_closed(it)

    def why_closed(self, gate):
        """What to do if a resource that serves as a lock or a queue keeps the gate closed nearly all the time."""
        run = self.document.get("run")
        full = [it["resource"] for it in self.document["resources"] if it["used"] == it["cap"]]
        if run and full and gate["ticks"] >= MOSTLY * run["ended"] > 0:
            named = " and ".join(f"resource {it}" for it in full)
            yield from labelled("", f"{named} in full use, as a lock or a queue, keeps it closed: let a lock or an "
                                    f"item be 2 units of 3 (docs/WRITING.md, \"Locks and queues, and the gate\")")

    def latencies(self):
        first, last = (self.document["latency"][which] for which in ("first", "last"))
        kinds = [("first and last answer", first)] if first == last else [("first answer", first),
                                                                          ("last answer", last)]
        rows = [[name, *[self.unit.shown(it[key]) for _, key in RANKS], self.unit.shown(it["arrived"]),
                 f"by thread {it['thread']}"]
                for name, it in kinds if it]
        if rows:
            yield from table([f"latency, {self.unit.name}", *[name for name, _ in RANKS], "arrived", "taken"], rows,
                             texts=(0,))

    def request(self):
        it = self.document["request"]
        if not it:
            return
        head = f"request {number(it['number'])}" + ", the slowest" * it["is_slowest"]
        if "parts" not in it:
            why = f"{counted(it['came'], 'request')} came in all" if "came" in it else "no accept took it"
            yield f"{head}: {why}"
            return
        yield f"{head}: arrived at {self.unit.shown(it['arrived'])}, taken by thread {it['thread']}"
        shown, rest = longest(it["parts"], self.most_parts)
        shorter = it.get("shorter") or {"count": 0, "ticks": 0}
        count, ticks = shorter["count"] + len(rest), shorter["ticks"] + sum(part["ticks"] for part in rest)
        rows = [self.part(part) for part in shown if part["kind"] != "others"]
        rows += [[self.unit.shown(ticks), "", counted(count, "shorter part")]] * bool(count)
        rows += [self.part(part) for part in shown if part["kind"] == "others"]
        yield from table([self.unit.name, "until", "part"], rows, indent=2)

    def part(self, part):
        """The cells of a part of a request's time."""
        what = part["kind"]
        if what == "others":
            what = f"until thread {part['thread']} answers"
        elif what == "waits":
            ready = part["until"] - part["ready_at"] if part.get("ready_at") is not None else 0
            what = f"waits at {documents.shown(part['place'])}"
            what += f", ready for {self.unit.shown(ready)}" if ready else ""
        return [self.unit.shown(part["ticks"]), self.unit.shown(part["until"]), what]

    def waits(self):
        waits = self.document["waits"]
        if not waits:
            return
        has_ready = any(it.get("split") for it in waits)
        self.ranks = [it for it in RANKS[1:] if it[1] in waits[0]]
        order = sorted(range(len(waits)), key=lambda at: -waits[at]["total"])
        kept = set(order if self.most is None else order[:self.most])
        rows = [self.wait(it, has_ready) for at, it in enumerate(waits) if at in kept]
        if rest := [it for at, it in enumerate(waits) if at not in kept]:
            count, total = (sum(it[key] for it in rest) for key in ("count", "total"))
            rows.append([number(count), self.unit.shown(total), *[""] * (len(rows[0]) - 3),
                         f"{counted(len(rest), 'more place')} (--all)"])
        yield from table(["waits", self.unit.name, *["ready"] * has_ready, *[name for name, _ in self.ranks], "thread",
                          "until",
                          "at"], rows)

    def wait(self, it, has_ready):
        """The cells of the waits at a place: thread and end are those of the longest."""
        ready = [self.unit.shown(it["split"]["ready"] if it.get("split") else None)] * has_ready
        ranks = [self.unit.shown(it[key]) for _, key in self.ranks]
        place = documents.shown(it["place"]) if it["place"] else f"{QUEUE} (request {number(it['request'])})"
        return [number(it["count"]), self.unit.shown(it["total"]), *ready, *ranks, str(it["thread"]),
                self.unit.shown(it["until"]), place]

    def left(self):
        """The threads that are left: a line for those that wait alike, or for each if all are asked for."""
        left = self.document["left"]
        groups = [[it] for it in left] if self.most is None else alike(left)
        shown = groups[: self.most]
        if shown:
            rows = [row for group in shown for row in self.waiting(group)]
            yield from table(["at the end", "since", "waits at"], rows, texts=(0,))
        if rest := self.document["more_left"] + sum(map(len, groups[len(shown):])):
            yield f"{counted(rest, 'more thread')} that didn't end"
        if count := self.document["never_ran"]:
            yield f"{counted(count, 'thread')} that never ran"
        for it in self.document["resources"]:
            yield from labelled(f"resource {it['resource']}",
                                f"{number(it['used'])} of {number(it['cap'])} in use{self.holders(it)}")

    def waiting(self, group):
        """The rows of threads that wait alike."""
        first, is_one = group[0], len(group) == 1
        who = f"thread {first['thread']}" if is_one else counted(len(group), "thread")
        if "place" in first:
            clocks = [it["since"] for it in group]
            since = " to ".join(map(self.unit.shown, sorted({min(clocks), max(clocks)})))
            yield [who, since, documents.shown(first["place"]) + (f": {first['values']}" if "values" in first else "")]
        else:
            yield [who, "", "its segment was cut"]
        if is_one and first.get("ready_since") is not None:
            yield ["  ready", self.unit.shown(first["ready_since"]), "and not chosen"]
        if is_one and "went_past" in first:
            it = first["went_past"]
            yield ["  went past", self.unit.shown(it["at"]), documents.shown(it["place"])]

    def holders(self, resource):
        """Which threads hold units of a resource. Where one takes and another gives, no thread holds them."""
        if not resource["holders"]:
            return ""
        if documents.is_semaphore(resource):
            net = ", ".join(map(more_than, resource["holders"]))
            return ", taken by some threads and given by others" + (f": {net}" if self.most is None else "")
        named = ", ".join(f"{number(it['units'])} by thread {it['thread']}" for it in resource["holders"])
        more = f", the others by {counted(resource['more_holders'], 'more thread')}" if resource["more_holders"] else ""
        return f": {named}{more}"

    def stop(self):
        if it := self.document["stopped"]:
            where = f" in {it['function']}" if it["function"] else " behind its last return" if "why" in it else ""
            places = [documents.shown(each) for each in it["places"]]
            places += [counted(it["more_places"], "more place")] * bool(it["more_places"])
            text = f"thread {it['thread']}{where}" + (f": {it['why']}" if "why" in it else "")
            text += f", at {' or at '.join(places)}" if places else ""
            yield from labelled("stopped", text + (f": {it['values']}" if "values" in it else ""))
            for each in it["calls"]:
                yield " " * LABEL + f"called at {documents.shown(each)}"
            if it["has_more_calls"]:
                yield " " * LABEL + "and by more calls above"
        if it := self.document["stop"]:
            yield it["line"]


def more_than(holder):
    """What a thread took or gave more."""
    units = number(abs(holder["units"]))
    way = "took {} more than it gave" if holder["units"] >= 0 else "gave {} more than it took"
    return f"thread {holder['thread']} {way.format(units)}"


def longest(parts, most):
    """The parts of a request that are shown, in their order, and the others: the longest are shown, and the time of
    other threads always."""
    order = sorted(range(len(parts)), key=lambda at: (parts[at]["kind"] != "others", -parts[at]["ticks"], at))
    kept = set(order[:most])
    return [it for at, it in enumerate(parts) if at in kept], [it for at, it in enumerate(parts) if at not in kept]


def alike(left):
    """The threads that are left in groups of those that wait at one call with the same values."""
    groups = {}
    for it in left:
        passed = documents.shown(it["went_past"]["place"]) if "went_past" in it else ""
        place = documents.shown(it["place"]) if "place" in it else ""
        groups.setdefault((it["is_cut"], place, it.get("values"), passed), []).append(it)
    return list(groups.values())
