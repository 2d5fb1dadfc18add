"""Runs whose threads no rule chooses (runs/free_run.py), against logs of the proved program and its audit."""
import json, os, pathlib, re, subprocess, sys, tempfile, unittest

from runs import free_run, free_server, orders
from traces import events

TOP = pathlib.Path(__file__).resolve().parent.parent.parent
TOOLS = TOP / "tools"
PROGRAM = os.path.join(os.environ.get("CAPRICCIO_PROGRAMS", "no folder"), "capriccio_cli")
LOGS = sorted(TOP.glob("examples/*/log*"))
FREE = re.compile(r"^((?:block|end|stop) .*) \d+$|^(edge(?: \S+){4}) \S+")  # the last number, or the change of chunks


def options_of(log):
    words = log.parent / log.name.replace("log", "options")
    words = words.read_text().split() if words.exists() else []
    return {name[2:]: value for name, value in zip(words[::2], words[1::2])}


def without_chunks(lines):
    """Lines of a log without what only a machine knows: how many chunks are free."""
    return [FREE.sub(r"\1\2", it) for it in lines]


def without_cut_outputs(lines):
    """The same without the outputs of a segment that was cut."""
    last = max(place for place, it in enumerate(lines) if it.startswith("run "))
    is_cut = not any(it.startswith(("block ", "end ")) for it in lines[last:])
    return [it for place, it in enumerate(lines) if not (is_cut and place > last and it.startswith("out "))]


class Along(free_run.FreeRun):
    """A run with the choices and the costs of a log. Where a lack of fuel or of chunks cuts the last segment, it is cut
    before its first step."""

    def __init__(self, source, options, log, found):
        self.choices = [int(it.split()[2]) for it in log if it.startswith("run ")]
        self.costs = [int(it.split()[-2]) for it in log if re.match("block|end|stop (?:trap|fuel|nochunk|threads)", it)]
        self.stopped = log[-1].split()[1]
        super().__init__(source, options, self, found)

    def choose(self, it):
        """The choice among threads that are ready, as an order makes it; or a thread runs, as in any run."""
        if isinstance(it, int):
            return super().choose(it)
        thread = self.choices.pop(0)
        if thread not in it:
            raise AssertionError(f"thread {thread} isn't ready")
        return thread

    def fall(self, thread):
        pass

    def tick(self):
        pass

    def advance(self, thread):
        if not self.choices and self.stopped in ("fuel", "nochunk"):
            raise free_run.Cut(self.stopped)
        return super().advance(thread)

    def cost_of_segment(self):
        return self.costs.pop(0)


class AlongLogs(unittest.TestCase):
    def test_the_choices_of_a_log_give_the_log(self):
        """Events, outputs, keys, nodes, ends, edges and stops of each log of examples/."""
        for log in LOGS:
            with self.subTest(log=f"{log.parent.name}/{log.name}"):
                lines = log.read_text().splitlines()
                found = events.read((log.parent / "trace").read_text())
                run = Along((log.parent / "server.c").read_bytes(), options_of(log), lines, found)
                run.run()
                self.assertEqual(*[without_chunks(without_cut_outputs(it)) for it in (run.lines, lines)])


def made(source, number, trace="", **options):
    found = events.read(trace)
    run = free_run.FreeRun(source.encode(), options, orders.Order(number, len(found)), found)
    return run.run(), run.lines


class ByHand(unittest.TestCase):
    def test_stops_and_traps(self):
        body = "int a[2]; int f(int n) { return n; } int (*t[1])(int) = {f}; int main() { %s return 0; }"
        trap = lambda kind: ("trap", 0, kind)
        cases = {"": ("done",), "accept();": ("idle",), "while (1) {}": ("fuel", 0), "while (1) yield();": ("fuel", 0),
                 "put(a[2]);": trap("index"), "a[0 - 1] = 1;": trap("index"), "put(t[1](5));": trap("table"),
                 "give(1, 1);": trap("resource"), "take(2, 1);": trap("resource"), "take(1, 4);": trap("resource"),
                 "put(wait(64));": trap("channel")}
        for text, stop in cases.items():
            with self.subTest(text=text):
                self.assertEqual(made(body % text, 1, caps="1=3", fuel="10000")[0][: len(stop)], stop)

    def test_each_order_of_two_threads_comes(self):
        source = "void f(int n) { put(n); } int main() { spawn(f, 1); spawn(f, 2); return 0; }"
        outputs = {tuple(it for it in made(source, number)[1] if it.startswith("out")) for number in range(40)}
        self.assertEqual(outputs, {("out 1 1", "out 2 2"), ("out 2 2", "out 1 1")})

    def test_a_thread_that_yields_lets_others_run(self):
        source = ("int x; void f(int n) { while (!x) yield(); put(1); } void g(int n) { x = 1; } "
                  "int main() { spawn(f, 0); spawn(g, 0); return 0; }")
        for number in range(30):
            self.assertEqual(made(source, number, fuel="100000")[0], ("done",))

    def test_arguments_are_evaluated_before_the_index_of_a_table(self):
        source = "int f(int n) { put(n); return 9; } int (*t[1])(int) = {f}; int main() { t[7](f(3)); return 0; }"
        stop, lines = made(source, 1)
        self.assertEqual((stop[:3], lines[1]), (("trap", 0, "table"), "out 0 3"))


LATE = """int size; int a[4];
void sizer(int n) { size = 4; }
void worker(int n) { int v; while (1) { v = accept(); a[v % size] = v; put(v); } }
int main() { spawn(sizer, 0); spawn(worker, 0); return 0; }
"""
EVERY = "".join(f"arrive {it} {it + 4}\n" for it in range(8))


@unittest.skipUnless(os.access(PROGRAM, os.X_OK), "the program isn't built")
class WithTheProgram(unittest.TestCase):
    def setUp(self):
        room = tempfile.TemporaryDirectory()
        self.addCleanup(room.cleanup)
        self.room = pathlib.Path(room.name)

    def tool(self, name, *words, given=None):
        words = [sys.executable, TOOLS / name, *map(str, words)]
        return subprocess.run(words, cwd=self.room, input=given, capture_output=True, text=True)

    def shell(self, command):
        return subprocess.run(["bash", "-c", command], cwd=self.room, capture_output=True, text=True)

    def put(self, name, text):
        (self.room / name).write_text(text)
        return name

    def explored(self, *words):
        told = self.tool("explore", "--json", *words)
        self.assertIn(told.returncode, (0, 20), told.stderr)
        return json.loads(told.stdout)["finds"]

    def test_the_audit_takes_all_but_choices(self):
        """Up to the first line that it refuses, which is one with a choice; with one thread there is none."""
        refused, lawful = 0, 0
        for name in ("pool", "bank", "relay", "limiter", "timers", "calculator", "silent"):
            folder = TOP / "examples" / name
            source, options = (folder / "server.c").read_bytes(), options_of(folder / "log")
            found = events.read((folder / "trace").read_text())
            words = [it for key in free_server.HAS_EFFECT if key in options for it in (f"--{key}", options[key])]
            for number in range(4):
                run = free_run.FreeRun(source, options, orders.Order(number, len(found)), found)
                run.run()
                self.put("log", "\n".join(run.lines) + "\n")
                audit = ["audit", *words, folder / "server.c", self.room / "log"]
                with open(folder / "trace") as trace, self.subTest(name=name, number=number):
                    told = subprocess.run([PROGRAM, *audit], stdin=trace, capture_output=True, text=True).stdout
                    line = re.match(r"unlawful (\d+)$", told)
                    self.assertTrue(told == "lawful\n" or run.lines[int(line[1]) - 1].startswith("run "), told)
                    refused, lawful = refused + bool(line), lawful + (told == "lawful\n")
        self.assertGreater(refused, 5)
        self.assertGreater(lawful, 0)

    def test_what_no_rule_shows_is_found_repeated_and_shrunk(self):
        """The sizer is the first thread, so under both rules it runs before the worker."""
        words = ["--runs", "40", "--find", "trap", self.put("late.c", LATE), self.put("trace", EVERY)]
        self.assertEqual(self.explored(*words), [])
        found = self.explored("--any-order", *words)
        self.assertEqual([it["where"] for it in found], ["index after late.c:3:45 accept in worker"])
        log = self.shell(found[0]["repeat"])
        self.assertEqual((log.returncode, log.stdout), (11, (self.room / found[0]["log"]).read_text()))
        lawful = r"^lawful up to line \d+ of the log; then the priority rule doesn't choose `run \d+ 2 \d+`$"
        self.assertRegex(found[0]["audit"], lawful)
        made = self.shell(found[0]["shrink"])
        self.assertEqual(len(events.read((self.room / "small").read_text())), 1, made.stderr)
        again = self.shell(made.stderr.splitlines()[-1])
        self.assertTrue(again.stdout.splitlines()[-1].startswith("stop trap 2 index "), again.stderr)

    def test_a_server_without_a_mistake_has_none_in_any_order(self):
        source = LATE.replace("spawn(sizer, 0);", "sizer(0);")
        words = [self.put("right.c", source), self.put("trace", EVERY)]
        self.assertEqual(self.explored("--any-order", "--runs", "40", *words), [])

    def test_a_deadlock_of_the_story_is_found(self):
        stories = TOP / "docs/stories"
        words = ["--find", "deadlock", "--caps", "1=1,2=1", stories / "kv.c", stories / "kv.trace"]
        found = self.explored("--any-order", "--first", *words)
        self.assertEqual([it["kind"] for it in found], ["deadlock"])

    def test_words_that_contradict(self):
        words = [self.put("late.c", LATE), self.put("trace", EVERY)]
        for more in (["--rule", "graph"], ["--find", "starved"], ["--find", "nochunk"], ["--change", "tickets"]):
            told = self.tool("explore", "--any-order", *more, *words)
            self.assertEqual((told.returncode, told.stdout), (2, ""))
            self.assertIn("--any-order", told.stderr.splitlines()[-1])

    def test_refusals_are_the_programs(self):
        words = ["any_order", "serve", "--any-order", "1"]
        call = lambda source, trace, *more: self.tool(*words, *more, source, given=trace).returncode
        self.assertEqual(call(self.put("none.c", "int f() { return 0; }\n"), ""), 2)
        self.assertEqual(call("absent.c", ""), 9)
        good = self.put("late.c", LATE)
        self.assertEqual(call(good, "arrive x\n"), 4)
        self.assertEqual(call(good, "", "--backlog", "0"), 1)
        self.assertEqual(call(good, EVERY, "--rule", "graph"), 2)
        self.assertEqual(call(good, ""), 10)


if __name__ == "__main__":
    unittest.main()
