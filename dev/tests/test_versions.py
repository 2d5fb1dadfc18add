"""tools/compare: on stored logs, and with the program on two sources."""
import json, os, pathlib, re, subprocess, sys, tempfile, unittest

TOP = pathlib.Path(__file__).resolve().parent.parent.parent
TOOLS = TOP / "tools"
HAS_PROGRAM = os.access(os.path.join(os.environ.get("CAPRICCIO_PROGRAMS", "no folder"), "capriccio_cli"), os.X_OK)


class Compared(unittest.TestCase):
    def setUp(self):
        room = tempfile.TemporaryDirectory()
        self.addCleanup(room.cleanup)
        self.room = pathlib.Path(room.name)

    def file(self, name, text):
        self.room.joinpath(name).write_text(text)
        return name

    def compare(self, *words, trace=""):
        command = [sys.executable, TOOLS / "compare", *map(str, words)]
        made = subprocess.run(command, cwd=self.room, input=trace, capture_output=True, text=True)
        self.assertNotIn("Traceback", made.stderr)
        return made.returncode, made.stdout, made.stderr

    def example(self, name):
        folder = TOP / "examples" / name
        return folder / "server.c", folder / "log", (folder / "trace").read_text()


class OfLogs(Compared):
    def test_a_log_is_equal_to_itself(self):
        for folder in sorted(TOP.glob("examples/*/")):
            source, log, trace = self.example(folder.name)
            if log.exists() and log.stat().st_size < 100_000:
                with self.subTest(example=folder.name):
                    status, text, said = self.compare(log, log, "serve", source, trace=trace)
                    self.assertEqual((status, text.splitlines()[0]), (0, "equal"), said)

    def test_clocks_and_numbers_of_threads_may_differ(self):
        source, log, trace = self.example("pool")
        moved = re.sub(r"^(run|event) (\d+)", lambda it: f"{it[1]} {int(it[2]) + 1000}", log.read_text(), flags=re.M)
        moved = re.sub(r"^(run \d+|block|out|end) ([12])\b", lambda it: f"{it[1]} {3 - int(it[2])}", moved, flags=re.M)
        self.assertNotEqual(moved, log.read_text())
        status, text, _ = self.compare(log, self.file("moved", moved), "serve", source, trace=trace)
        self.assertEqual((status, text.splitlines()[:2]), (0, ["equal", "  answers   3 of 3 requests have the same"]))

    def test_an_answer_that_differs(self):
        source, log, trace = self.example("pool")
        other = re.sub(r"^(out \d) 16$", r"\1 17", log.read_text(), flags=re.M)
        status, text, _ = self.compare("--json", log, self.file("other", other), "serve", source, trace=trace)
        value = json.loads(text)
        self.assertEqual((status, value["equal"], value["requests"], value["unlike"]), (21, False, 3, [2]))
        first = value["first"][0]
        self.assertEqual(first["what"], "request 2, line 2 of the trace: arrive 100 4")
        self.assertEqual(first["old"], f"16, put at {source}:6:5")
        self.assertTrue(first["new"].startswith("17, put at "))

    def test_outputs_that_answer_no_request(self):
        folder = TOP / "examples/tenants"
        status, text, _ = self.compare("--json", folder / "log", folder / "log_graph", "serve", folder / "server.c")
        lines = [(folder / name).read_text().splitlines() for name in ("log", "log_graph")]
        old, new = ([int(it.split()[2]) for it in log if it.startswith("out ")] for log in lines)
        place = next(it for it, (one, other) in enumerate(zip(old, new)) if one != other)
        first = json.loads(text)["first"][0]
        self.assertEqual((status, first["what"]), (21, f"output {place + 1} of those that answer no request"))
        wanted = [f"{it[place]}, put at {folder}/server.c:4:5" for it in (old, new)]
        self.assertEqual([first["old"], first["new"]], wanted)

    def test_what_was_dropped_or_not_taken(self):
        source, log, _ = self.example("pool")
        lines = log.read_text().splitlines()
        trace = "arrive 100 3\narrive 100 4\narrive 500 5\narrive 501 6\n"
        kept = self.file("kept", "\n".join([*lines[:-4], "event 501 arrive 6", *lines[-4:]]) + "\n")
        dropped = self.file("dropped", "\n".join([*lines[:-4], "drop 501 arrive 6", *lines[-4:]]) + "\n")
        self.assertTrue(all(it.startswith(("edge", "stop")) for it in lines[-4:]))
        status, text, said = self.compare("--json", kept, dropped, "serve", source, trace=trace)
        first = json.loads(text)["first"][0]
        self.assertEqual((status, first["old"], first["new"]), (21, "not taken", "dropped"), said)

    def test_words_that_do_not_fit(self):
        source, log, trace = self.example("pool")
        unfit = [(log, log, "serve"), (source, source, "run"), (source, source, "serve", source)]
        for words in [*unfit, (log, "no_file", "serve", source)]:
            self.assertEqual(self.compare(*words, trace=trace)[0], 2, words)
        other = TOP / "examples/idle/server.c"
        self.assertEqual(self.compare(log, log, "serve", other, trace="")[0], 2)  # of another trace


@unittest.skipUnless(HAS_PROGRAM, "the program isn't built")
class OfSources(Compared):
    def versions(self, name, *changes, options=(), words=()):
        source, _, trace = self.example(name)
        text = source.read_text()
        for old, new in changes:
            self.assertIn(old, text)
            text = text.replace(old, new)
        return self.compare(*words, source, self.file("new.c", text), "serve", *options, trace=trace)

    def test_names_and_sites_may_differ(self):
        changes = [("worker", "helper"), ("slot_of", "place_of"), ("int main() {", "int main() {\n  self();")]
        status, text, _ = self.versions("store", *changes)
        self.assertEqual((status, text.splitlines()[0]), (0, "equal"))

    def test_a_slower_version_is_equal_and_its_cost_is_shown(self):
        change = ("    put(", "    int i;\n    for (i = 0; i < 9; i = i + 1) ;\n    put(")
        status, text, _ = self.versions("pool", change, words=["--json"])
        value = json.loads(text)
        self.assertEqual((status, value["equal"]), (0, True))
        self.assertGreater(value["instructions"]["worker"][1], value["instructions"]["worker"][0])
        self.assertEqual(*value["instructions"]["main"])
        self.assertGreater(value["latency"]["greatest"][1], value["latency"]["greatest"][0])

    def test_the_place_of_the_put_that_differs(self):
        status, text, _ = self.versions("store", ("else put(get(key));", "else\n      put(get(key) + 1);"))
        self.assertEqual(status, 21)
        self.assertIn("new.c:42:7", text)
        self.assertIn("examples/store/server.c:41:10", text)

    def test_another_stop(self):
        changes = [("put(request * request)", "put(seen[request])"), ("void worker", "int seen[4];\nvoid worker")]
        status, text, _ = self.versions("pool", *changes, words=["--json"])
        value = json.loads(text)
        self.assertEqual((status, value["stops"][0], value["first"][-1]["what"]), (21, "stop idle", "the stop"))
        told = value["first"][-1]["new"]
        self.assertRegex(told, r"^stop trap \d index \d+ \d+, in a segment from new\.c:6:15 accept$")

    def test_answers_of_other_threads(self):
        options = (TOP / "examples/relay/options").read_text().split()
        change = ("2 * receive(0)", "3 * receive(0)")
        self.assertEqual(self.versions("relay", options=options, words=["--answers", "first"])[0], 0)
        status, text, _ = self.versions("relay", change, options=options, words=["--answers", "first", "--json"])
        self.assertEqual((status, json.loads(text)["unlike"]), (21, [1, 2, 3]))

    def test_a_version_that_is_refused(self):
        status, text, said = self.versions("pool", ("put(request * request);", "put(request * );"))
        self.assertEqual((status, text), (2, ""))
        self.assertIn("source: Unexpected", said)


if __name__ == "__main__":
    unittest.main()
