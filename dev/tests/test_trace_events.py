"""The Trace Event files keep the rules of the format: each kind of event has its fields, the slices
of a row nest, and each flow has one start and one end, within slices.

The rules are those of the format's public description ('Trace Event Format': complete, instant,
counter, flow and metadata events). The JSON is read by Python's own parser.
"""
import collections, io, json, pathlib, re, unittest

from reporting import readiness, trace_events
from runs import places, story
from runs.story import Segment

TOP = pathlib.Path(__file__).resolve().parent.parent.parent
EXAMPLES = sorted(it for it in TOP.glob("examples/*/log*"))
FIELDS = {  # what each kind of event has beside ph, pid, tid, ts and name
    "X": {"dur"}, "C": {"args"}, "M": {"args"}, "i": {"s"}, "s": {"id", "cat"}, "t": {"id", "cat"}, "f": {"id", "cat"},
}
METADATA = {"process_name": str, "thread_name": str, "process_sort_index": int, "thread_sort_index": int}


def happenings_of(source, trace, log):
    told = story.Story(places.Places(source), trace)
    return told, list(told.happenings(log))


def written(source, trace, log, chunks=1024, caps=""):
    """The events of a run."""
    told, file = story.Story(places.Places(source), trace), io.StringIO()
    writer = trace_events.TraceEvents(file, told, "server.c", chunks, readiness.Ready(source, {"--caps": caps}))
    for it in told.happenings(log):
        writer.tell(it)
    writer.finish()
    return json.loads(file.getvalue())["traceEvents"]


def of_example(log):
    folder = log.parent
    return (folder / "server.c").read_bytes(), (folder / "trace").read_text().splitlines(True), log.read_text().splitlines(True), chunks_of(log)


def chunks_of(log):
    """How many chunks of both sizes the run of an example had, by its options."""
    options = log.parent / log.name.replace("log", "options")
    words = options.read_text().split() if options.exists() else []
    given = dict(zip(words[::2], words[1::2]))
    return int(given.get("--chunks", 1024)) + int(given.get("--extra", 0))


def many_threads(count):
    """A run of so many threads, by hand: each takes a request and answers it."""
    source = b"void worker(int n) { put(accept()); }\nint main() { int i; for (i = 0; i < 1000; i = i + 1) spawn(worker, i); return 0; }"
    trace = [f"arrive {100_000 + 50 * it} {it}\n" for it in range(count)]
    log = ["run 0 0 0\n", "end 0 50 2000\n"]
    log += [line for it in range(count)
            for line in (f"run {50 + it * 10} {it + 1} 0\n", f"block {it + 1} 2 1 10 2000\n")]
    for it in range(count):
        log += [f"event {100_000 + 50 * it} arrive {it}\n", f"run {100_000 + 50 * it} {it + 1} 2\n",
                f"out {it + 1} {it}\n", f"end {it + 1} 20 {2001 + it}\n"]
    return source, trace, [*log, "stop done\n"], 2001 + count


def counted(events, name):
    """The numbers of a counter, in order."""
    return [next(iter(it["args"].values())) for it in events if it["ph"] == "C" and it["name"] == name]


class Rules(unittest.TestCase):
    def check(self, events):
        for it in events:
            self.assertTrue({"ph", "pid", "tid", "ts", "name"} | FIELDS[it["ph"]] <= set(it), it)
            self.assertTrue(all(isinstance(it[name], int) and it[name] >= 0 for name in ("pid", "tid", "ts")), it)
            if it["ph"] == "C":
                self.assertTrue(all(isinstance(value, int) for value in it["args"].values()), it)
            if it["ph"] == "M":
                self.assertIsInstance(next(iter(it["args"].values())), METADATA[it["name"]])
            if it["ph"] == "i":
                self.assertIn(it["s"], "gpt")
        self.check_counters(events)
        slices = collections.defaultdict(list)
        for it in events:
            if it["ph"] == "X":
                self.assertGreaterEqual(it["dur"], 0)
                slices[it["pid"], it["tid"]].append((it["ts"], it["ts"] + it["dur"]))
        self.check_nesting(slices)
        self.check_flows(events, slices)
        named = {(it["pid"], it["tid"]) for it in events if it["name"] == "thread_name"}
        self.assertLessEqual(set(slices), named)

    def check_counters(self, events):
        """The times of a counter never fall, and its numbers are none below 0."""
        counters = collections.defaultdict(list)
        for it in events:
            if it["ph"] == "C":
                counters[it["pid"], it["name"]].append(it["ts"])
                self.assertTrue(all(value >= 0 for value in it["args"].values()), it)
        for times in counters.values():
            self.assertEqual(times, sorted(times))

    def check_nesting(self, slices):
        for row, found in slices.items():
            open_ends = []
            for start, end in sorted(found, key=lambda it: (it[0], -it[1])):
                while open_ends and open_ends[-1] <= start:
                    open_ends.pop()
                self.assertTrue(not open_ends or end <= open_ends[-1], (row, start, end))
                open_ends.append(end)

    def check_flows(self, events, slices):
        flows = collections.defaultdict(list)
        for it in events:
            if it["ph"] in "stf":
                flows[it["cat"], it["name"], it["id"]].append(it)
                self.assertTrue(any(start <= it["ts"] < end for start, end in slices[it["pid"], it["tid"]]), it)
        for found in flows.values():
            kinds = "".join(it["ph"] for it in found)
            self.assertRegex(kinds, "^s(t*f)?$")  # a request that nobody took has its start alone
            times = [it["ts"] for it in found]
            self.assertEqual(times, sorted(times))

    def test_each_log_of_the_examples(self):
        self.assertGreater(len(EXAMPLES), 0)
        for log in EXAMPLES:
            with self.subTest(log=f"{log.parent.name}/{log.name}"):
                self.check(written(*of_example(log)))

    def test_10_and_1000_threads(self):
        for count in (10, 1000):
            with self.subTest(threads=count):
                events = written(*many_threads(count))
                self.check(events)
                rows = [it for it in events if it["name"] == "thread_name" and it["pid"] == trace_events.SERVER]
                self.assertEqual(len(rows), count + 1)
                self.assertEqual(sum(it["ph"] == "f" for it in events), count)

    def test_the_checks_find_what_breaks_a_rule(self):
        events = written(*many_threads(10))
        breaks = {
            "a field is missing": lambda it: it.pop("dur", None),
            "slices cross": lambda it: it.update(dur=it["dur"] + 1) if it["ph"] == "X" else None,
            "a flow ends outside its slice": lambda it: it.update(ts=it["ts"] + 1000) if it["ph"] == "f" else None,
            "a flow has no start": lambda it: it.update(id=-1) if it["ph"] == "s" else None,
        }
        for why, change in breaks.items():
            changed = json.loads(json.dumps(events))
            for it in changed:
                change(it)
            with self.subTest(broken=why), self.assertRaises(AssertionError):
                self.check(changed)


class Told(unittest.TestCase):
    """The events tell what the log does."""

    def test_segments_drops_and_the_stop(self):
        for log in EXAMPLES:
            with self.subTest(log=f"{log.parent.name}/{log.name}"):
                text, events = log.read_text().splitlines(), written(*of_example(log))
                lines = [it.split() for it in text]
                self.assertEqual(sum(it.get("cat") == "segment" for it in events), sum(it[0] == "run" for it in lines))
                self.assertEqual(sum(it["name"] == "drop" for it in events), sum(it[0] == "drop" for it in lines))
                costs = sum(int(it[-2]) for it in lines if it[0] in ("block", "end"))
                costs += sum(int(it[-2]) for it in lines
                             if it[:2] in (["stop", "trap"], ["stop", "nochunk"], ["stop", "fuel"],
                                           ["stop", "threads"]))
                self.assertEqual(sum(it["dur"] for it in events if it.get("cat") == "segment"), costs)
                self.assertEqual([it["name"] for it in events if it.get("cat") == "stop"], [text[-1]])

    def test_held_chunks_go_by_the_logs_free_ones(self):
        self.assertEqual(counted(written(*of_example(TOP / "examples/pool/log")), "held chunks"),
                         [2])  # 1,022 of 1,024 are free from the first line to the last

    def test_requests_have_the_numbers_of_the_report(self):
        events = written(*of_example(TOP / "examples/limiter/log"))
        self.assertEqual([it["args"]["request"] for it in events if it["name"] == "arrive"], [1, 2, 3, 4, 5])
        slowest = next(it for it in events if it.get("cat") == "segment" and it["args"].get("request") == 4)
        self.assertEqual((slowest["ts"], slowest["tid"]),
                         (1205, 1))  # `request 4, the slowest: arrived 130, taken by thread 1`, and queued until 1205

    def test_resources_go_up_by_take_and_down_by_give(self):
        """The limiter takes a unit for each of five requests, and a thread gives it back 1,000 ticks later; the run has two units."""
        events = written(*of_example(TOP / "examples/limiter/log"))
        self.assertEqual(counted(events, "resource 1 in use"), [1, 2, 1, 2, 1, 2, 1, 0, 1, 0])
        taken = [it["ts"] for it in events if it["name"] == "resource 1 in use"]
        self.assertEqual(taken[0], 111)  # `run 111 1 3`, of thread 1 from its first take

    def test_resources_at_the_end_are_those_of_the_stored_report(self):
        folder = TOP / "examples/relay"
        events = written(*of_example(folder / "log"))
        for resource, used in re.findall(r"^resource (\d+): (\d+) of", (folder / "report").read_text(), re.M):
            self.assertEqual(counted(events, f"resource {resource} in use")[-1], int(used))

    def test_threads_live_from_when_they_are_started(self):
        source = b"void f(int n) { sleep(n); } int main() { spawn(f, 1); spawn(f, 2); yield(); return 0; }"
        log = ["run 0 0 0", "block 0 2 3 20 1021", "run 20 1 0", "block 1 3 0 5 1021", "run 25 0 2", "end 0 5 1022",
               "run 30 2 0", "block 2 3 0 5 1022"]
        log += ["run 35 1 3", "end 1 5 1023", "run 40 2 3", "end 2 5 1024", "stop done"]
        events = written(source, [], log)
        self.assertEqual(counted(events, "live threads"), [1, 3, 2, 1, 0])
        self.assertEqual([it["args"]["call"] for it in events if it.get("cat") == "wait" and "call" in it["args"]],
                         ["sleep(1)", "sleep(2)"])

    def test_what_a_source_does_not_explain_is_left_out(self):
        """The log of a source that puts another value: nothing of the replay is told from there on."""
        source = b"int main() { put(1); yield(); take(1, 1); yield(); return 0; }"
        log = ["run 0 0 0", "out 0 2", "block 0 2 1 20 1021", "run 20 0 2", "block 0 3 2 5 1021", "run 25 0 3",
               "block 0 4 3 5 1021", "stop idle"]
        events = written(source, [], log)
        self.check_names(events, {"live threads"})
        self.assertEqual(counted(events, "live threads"), [1])

    def check_names(self, events, wanted):
        self.assertEqual({it["name"] for it in events if it["ph"] == "C"} - {"held chunks"}, wanted)


if __name__ == "__main__":
    unittest.main()
