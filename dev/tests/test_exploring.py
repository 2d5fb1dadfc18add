"""tools/explore and tools/shrink, tried on the program where the folder that CAPRICCIO_PROGRAMS names has it: each find in
a server that has it, and none in one that hasn't."""
import json, os, pathlib, re, shutil, signal, subprocess, sys, tempfile, time, unittest

from runs import finds
from traces import events

TOP = pathlib.Path(__file__).resolve().parent.parent.parent
TOOLS = TOP / "tools"
STORIES = TOP / "docs/stories"
FOUND = 20


def is_there(name):
    return os.access(os.path.join(os.environ.get("CAPRICCIO_PROGRAMS", "no folder"), name), os.X_OK)


SOURCES = {
    "echo": "void worker(int n) { while (1) put(accept()); }\nint main() { spawn(worker, 0); return 0; }\n",
    "drop": "int main() { while (1) { put(accept()); sleep(50000); } }\n",
    "trap": "int at;\nint a[4];\n"
    "void worker(int n) { int v; while (1) { v = accept(); at = at + 1; sleep(300); a[at + 1] = v; at = at - 1; put(v); } }\n"
    "int main() { int n; for (n = 0; n < 4; n = n + 1) spawn(worker, n); return 0; }\n",
    "unanswered": "int busy;\n"
    "void worker(int n) { int v; while (1) { v = accept(); if (busy) wait(1); busy = 1; sleep(300); busy = 0; put(v); } }\n"
    "int main() { spawn(worker, 1); spawn(worker, 2); return 0; }\n",
    "nochunk": "void one(int v) { sleep(400); put(v); }\nint main() { while (1) spawn(one, accept()); }\n",
    "threads": "void f(int n) { accept(); }\nint main() { while (1) spawn(f, 1); return 0; }\n",
    "fuel": "int main() { while (1) { put(accept()); while (1) { } } }\n",
    "starved": "int ready;\nvoid spinner(int n) { while (!ready) yield(); put(1); }\nvoid setter(int n) { ready = 1; }\n"
    "int main() { spawn(spinner, 0); spawn(setter, 0); return 0; }\n",
}
EVERY = "".join(f"arrive {1000 * it} {it}\n" for it in range(1, 9))


@unittest.skipUnless(is_there("capriccio_cli"), "the program isn't built")
class WithTheProgram(unittest.TestCase):
    def setUp(self):
        room = tempfile.TemporaryDirectory()
        self.addCleanup(room.cleanup)
        self.room = pathlib.Path(room.name)

    def put(self, name, text):
        (self.room / name).write_text(text)
        return name

    def tool(self, name, *words, given=None):
        words = [sys.executable, TOOLS / name, *map(str, words)]
        return subprocess.run(words, cwd=self.room, input=given, capture_output=True, text=True)

    def explored(self, *words):
        told = self.tool("explore", "--json", *words)
        self.assertIn(told.returncode, (0, FOUND), told.stderr)
        return json.loads(told.stdout)["finds"], told

    def test_each_find_in_a_server_that_has_it(self):
        trace = self.put("trace", EVERY)
        burst = ["--change", "bursts,times", "--runs", "12"]
        cases = {"drop": ["--backlog", "1", *burst], "nochunk": ["--chunks", "3", *burst],
                 "starved": ["--fuel", "60000", "--runs", "1"], "fuel": ["--fuel", "60000", "--runs", "4"],
                 "threads": ["--chunk", "64", "--max-path", "48", "--chunks", "65536", "--runs", "1"]}
        cases |= {"trap": burst, "unanswered": burst}
        for kind, words in cases.items():
            with self.subTest(kind=kind):
                found, told = self.explored(*words, "--find", kind, self.put(f"{kind}.c", SOURCES[kind]), trace)
                self.assertEqual((list(dict.fromkeys(it["kind"] for it in found)), told.returncode), ([kind], FOUND))
                words = [it for it in words if it not in ("--backlog", "1")
                         or kind != "drop"]  # (of one place, each burst drops some)
                self.assertEqual(self.explored(*words, "--find", kind, self.put("echo.c", SOURCES["echo"]), trace)[0],
                                 [])

    def test_nothing_found_has_status_0_and_stores_nothing(self):
        told = self.tool("explore", "--runs", "8", self.put("echo.c", SOURCES["echo"]), self.put("trace", EVERY))
        self.assertEqual((told.returncode, told.stdout.partition(" in ")[0], told.stderr), (0, "nothing found", ""))
        self.assertFalse((self.room / "explored").exists())

    def test_a_deadlock_is_found_repeated_and_shrunk(self):
        """The store of docs/EXPLORING.md."""
        found, _ = self.explored("--first", "--find", "deadlock", "--change", "rule,times", "--caps", "1=1,2=1",
                                 STORIES / "kv.c", STORIES / "kv.trace")
        self.assertEqual(len(found), 1)
        log = subprocess.run(["bash", "-c", found[0]["repeat"]], cwd=self.room, capture_output=True, text=True)
        looker = finds.Looker((STORIES / "kv.c").read_bytes(), ["deadlock"], "kv.c")
        self.assertEqual([it.where for it in looker.finds(log.stdout, {"caps": "1=1,2=1"})], [found[0]["where"]])
        made = subprocess.run(["bash", "-c", found[0]["shrink"]], cwd=self.room, capture_output=True, text=True)
        self.assertEqual(made.returncode, 0, made.stderr)
        small = (self.room / "small").read_text()
        self.assertLessEqual(len(events.read(small)), 40)  # (38 on docs/EXPLORING.md)
        self.assertRegex(made.stderr, r"^200 -> \d+ lines in [\d,]+ runs, [\d.]+ s\ndeadlock: kv.c:")
        again = subprocess.run(["bash", "-c", made.stderr.splitlines()[-1]], cwd=self.room, capture_output=True,
                               text=True)
        self.assertEqual([it.where for it in looker.finds(again.stdout, {"caps": "1=1,2=1"})], [found[0]["where"]])

    def test_the_page_shows_what_is_printed(self):
        """But for the times, and the folder of what is found."""
        blocks = re.findall(r"^```\n(.*?)^```", (TOP / "docs/EXPLORING.md").read_text(), re.S | re.M)
        untimed = lambda text: re.sub(r"[\d.]+ s, [\d,]+ runs a second", "", text)
        shown = [(command.split(), untimed(output)) for command, output in zip(blocks, blocks[1:])
                 if command.startswith("tools/explore")]
        self.assertEqual(len(shown), 4)
        for (tool, *words), output in shown:
            folder = str(self.room / "explored")
            made = subprocess.run([sys.executable, tool, "-o", folder, *words], cwd=TOP, capture_output=True, text=True)
            stem = pathlib.Path(words[-2]).stem
            printed = re.sub(r"^  debug: .*\n", "", made.stdout, flags=re.M)  # (where there is a debugger)
            self.assertEqual(untimed(printed).replace(folder, f"explored/{stem}"), output, made.stderr)

    def test_locks_in_one_order_have_no_deadlock(self):
        text = (STORIES / "kv.c").read_text()
        right = text.replace("  lock(2);\n  lock(1);\n  kept", "  lock(1);\n  lock(2);\n  kept")
        self.assertNotEqual(right, text)
        words = ["--runs", "40", "--find", "deadlock", "--change", "rule,times", "--caps", "1=1,2=1",
                 self.put("right.c", right), STORIES / "kv.trace"]
        self.assertEqual(self.explored(*words)[0], [])

    def test_a_lost_update_is_found_and_shrunk(self):
        """The till of docs/EXPLORING.md."""
        found, _ = self.explored("--first", "--find", "outputs", STORIES / "till.c", STORIES / "till.trace")
        made = subprocess.run(["bash", "-c", found[0]["shrink"]], cwd=self.room, capture_output=True, text=True)
        self.assertEqual(made.returncode, 0, made.stderr)
        small = events.read((self.room / "small").read_text())
        self.assertEqual((len(small), small[-1].value), (3, 0))  # two sales at once, and then the till is closed

    def test_without_the_lost_update_nothing_is_found(self):
        text = (STORIES / "till.c").read_text()
        right = text.replace("  before = total;\n  price = cents + tax(cents);",
                             "  price = cents + tax(cents);\n  before = total;")
        self.assertNotEqual(right, text)
        found, _ = self.explored("--runs", "40", "--find", "outputs", self.put("right.c", right),
                                 STORIES / "till.trace")
        self.assertEqual(found, [])

    def test_one_seed_gives_the_same_finds_whatever_the_jobs(self):
        words = ["--find", "outputs", "--runs", "16", STORIES / "till.c", STORIES / "till.trace"]
        one, four = self.explored("--jobs", "1", *words)[0], self.explored("--jobs", "4", *words)[0]
        self.assertEqual(one, four)
        self.assertNotEqual(one, self.explored("--seed", "2", *words)[0])

    def test_an_option_that_is_given_keeps_its_value(self):
        words = ["--find", "outputs", "--runs", "30", "--change", "rule,tickets,times", "--rule", "graph"]
        found, _ = self.explored(*words, STORIES / "till.c", STORIES / "till.trace")
        self.assertEqual(found[0]["options"], ["--rule", "graph"])

    def test_a_command_finds_what_it_says(self):
        trace = self.put("trace", EVERY)
        command = "if grep -q '^drop'; then echo dropped; exit 1; fi"
        words = ["--command", command, "--find", "command", "--change", "bursts", "--backlog", "1", "--runs", "10"]
        found, _ = self.explored(*words, self.put("drop.c", SOURCES["drop"]), trace)
        self.assertEqual([(it["kind"], it["where"]) for it in found], [("command", "dropped")])

    def test_ctrl_c_tells_what_was_found(self):
        words = [sys.executable, TOOLS / "explore", "--find", "outputs", "--runs", "1000000", STORIES / "till.c",
                 STORIES / "till.trace"]
        with subprocess.Popen(words, cwd=self.room, stdout=subprocess.PIPE, stderr=subprocess.PIPE, text=True, start_new_session=True) as process:
            time.sleep(4)
            os.killpg(process.pid, signal.SIGINT)
            told, said = process.communicate(timeout=60)
        self.assertIn(process.returncode, (FOUND, 130))
        self.assertNotIn("Traceback", said)
        self.assertIn("explore: ended after", said)
        self.assertRegex(told, "^(1 find|nothing found) in ")

    def test_refusals_have_the_programs_status(self):
        trace, source = self.put("trace", EVERY), self.put("none.c", "int f() { return 0; }\n")
        self.assertEqual(self.tool("explore", source, trace).returncode, 2)
        good = self.put("echo.c", SOURCES["echo"])
        self.assertEqual(self.tool("explore", good, self.put("bad", "arrive x\n")).returncode, 4)
        self.assertEqual(self.tool("explore", good, "absent").returncode, 2)
        self.assertEqual(self.tool("explore", "--backlog", "0", good, trace).returncode, 1)
        self.assertEqual(self.tool("shrink", "--until", "deadlock", "serve", good, given=EVERY).returncode, 1)

    @unittest.skipUnless(shutil.which("parallel"), "there is no GNU parallel")
    def test_runs_through_parallel_are_those_of_this_machine(self):
        """`:` is this machine without ssh."""
        words = ["--find", "outputs", "--runs", "20", STORIES / "till.c", STORIES / "till.trace"]
        self.assertEqual(self.explored("--hosts", self.put("hosts", "2/:\n"), *words)[0], self.explored(*words)[0])
        words = [STORIES / "till.c", STORIES / "till.trace", "--vary", "rule", "graph", "stride", "--vary", "chunks",
                 "8", "16"]
        self.assertEqual(self.tool("sweep", "--hosts", "hosts", *words).stdout, self.tool("sweep", *words).stdout)


if __name__ == "__main__":
    unittest.main()
