"""tools/fit: the search by itself, the threads that a text allows, and with the program the layouts of small servers,
whose bytes follow from docs/MACHINE.md by hand."""
import json, os, pathlib, subprocess, sys, tempfile, unittest

from fitting import placements, search, table, threads, trials
from runs import many
from sources import tree

TOP = pathlib.Path(__file__).resolve().parent.parent.parent
TOOLS = TOP / "tools"
HAS_PROGRAM = os.access(os.path.join(os.environ.get("CAPRICCIO_PROGRAMS", "no folder"), "capriccio_cli"), os.X_OK)
DEEP = """int depth(int n) {
  if (n < 1) return 0;
  return 1 + depth(n - 1);
}
int main() {
  put(depth(accept()));
  return 0;
}
"""


def limit(text):
    return threads.most_threads(tree.program_of(text.encode()))


class Search(unittest.TestCase):
    def test_the_least_number_is_found_from_any_guess(self):
        for truth in (1, 2, 3, 7, 64, 65, 1000):
            for guess in (1, 2, truth, truth + 1, 4 * truth, 5000):
                tried = []
                self.assertEqual(search.least(lambda count: tried.append(count) or count >= truth, guess, 4096), truth)
                self.assertEqual(len(tried), len(set(tried)))  # no run is made twice
                self.assertLess(len(tried), 30)
                if truth > 1:
                    self.assertIn(truth - 1, tried)  # what is said to be too few was tried
        self.assertIsNone(search.least(lambda count: False, 3, 100))

    def test_rows_that_show_the_same_instructions_are_left_out(self):
        """But for the first that is enough for all traces."""
        parts = [(0.054, table.THESE), (0.0541, table.ALL), (0.0539, table.THESE), (0.002, table.THESE),
                 (0.0016, table.ALL), (0.0, table.THESE)]
        rows = [table.Row(None, place, place, more, {}, enough, "") for place, (more, enough) in enumerate(parts)]
        self.assertEqual([it.pool for it in table.told_apart(rows)], [0, 1, 3, 5])
        unrun = [it._replace(more=None) for it in rows[:2]]
        self.assertEqual(list(table.told_apart(unrun)), unrun)

    def test_the_front_has_what_nothing_beats(self):
        pairs = ((3, 50), (1, 90), (2, 90), (4, 50), (5, 49), (2, 70))
        made = [search.Found(trials.Layout(16, 64, count), cost) for count, cost in pairs]
        front = [(it.layout.chunks, it.cost) for it in search.front(made)]
        self.assertEqual(front, [(1, 90), (2, 70), (3, 50), (5, 49)])

    def test_what_is_enough(self):
        wanted = trials.Result("idle", 5, 1, 100, 3)
        self.assertTrue(trials.is_enough(wanted._replace(cost=999), wanted))
        for change in ({"stop": "nochunk"}, {"outputs": 4}, {"dropped": 2}):
            worse = wanted._replace(**change)
            self.assertFalse(trials.is_enough(worse, wanted))
        endless = wanted._replace(stop="fuel")
        self.assertTrue(trials.is_enough(endless._replace(outputs=4), endless))


class Threads(unittest.TestCase):
    def test_of_examples(self):
        wanted = {"idle": 1001, "pool": 3, "relay": 4, "recursion": 1, "limiter": None, "sizes": None, "timers": None}
        given = {name: limit((TOP / f"examples/{name}/server.c").read_text()) for name in wanted}
        self.assertEqual(given, wanted)

    def test_by_the_text(self):
        leaf = "void leaf(int n) { put(n); }\n"
        main = lambda body: limit(f"int accepted;\n{leaf}{two}int main() {{ int i; {body} return 0; }}")
        two = "void two(int n) { spawn(leaf, 0); spawn(leaf, 1); }\n"
        self.assertEqual(main("for (i = 2; i <= 10; i = i + 3) { spawn(leaf, i); spawn(leaf, 0); }"), 1 + 3 * 2)
        self.assertEqual(main("spawn(two, 0); two(1);"), 1 + 3 + 2)
        self.assertEqual(main("if (accept()) spawn(leaf, 0); else { spawn(leaf, 1); spawn(leaf, 2); }"), 1 + 2)
        self.assertIsNone(main("while (1) spawn(leaf, 0);"))
        self.assertIsNone(main("for (i = 0; i < 3; i = i + 1) { spawn(leaf, 0); i = i - 1; }"))
        self.assertIsNone(main("for (i = 0; i < accepted; i = i + 1) spawn(leaf, 0);"))
        self.assertIsNone(limit("void more(int n) { spawn(more, n); } int main() { spawn(more, 1); return 0; }"))


@unittest.skipUnless(HAS_PROGRAM, "the program isn't built")
class WithTheProgram(unittest.TestCase):
    def fit(self, *words):
        made = subprocess.run([sys.executable, TOOLS / "fit", *map(str, words)], capture_output=True, text=True)
        return made.returncode, made.stdout, made.stderr

    def value(self, *words):
        status, text, said = self.fit("--json", *words)
        self.assertIn(status, (0, 23), said)
        return status, json.loads(text)

    def pool(self, *words):
        folder = TOP / "examples/pool"
        return self.value(*words, folder / "server.c", folder / "trace")

    def test_two_workers_on_small_chunks(self):
        """A worker's frame has 32 bytes, so its chunk has 48, and main's 32. The first size has 64 bytes or more."""
        status, value = self.pool()
        self.assertEqual((status, value["threads"], value["live"], value["circle"]), (0, 3, 3, None))
        rows = [(it["pool"], it["enough_for"]) for it in value["rows"]]
        self.assertEqual(rows, [(64 + 2 * 48, "these traces"), (3 * 64, "all traces")])
        self.assertTrue(all(it["more"] == 0 for it in value["rows"]))
        self.assertEqual(value["chosen"], 1)
        folder = TOP / "examples/pool"
        program = os.path.join(os.environ["CAPRICCIO_PROGRAMS"], "capriccio_cli")
        for chunks, status in ((3, 10), (2, 12)):  # `stop idle`, and `stop nochunk` with one chunk less
            layout = ["--chunk", "64", "--max-path", "32", "--chunks", str(chunks)]
            words = [program, "serve", *layout, folder / "server.c"]
            with open(folder / "trace") as trace:
                self.assertEqual(subprocess.run(words, stdin=trace, stdout=subprocess.DEVNULL).returncode, status)

    def test_what_fits_in_memory(self):
        _, value = self.pool()
        least, safe = (it["in_all"] for it in value["rows"])
        given = [self.pool("--ram", room) for room in (least - 1, least, safe)]
        self.assertEqual([(status, value["chosen"]) for status, value in given], [(23, None), (0, 0), (0, 1)])

    def test_without_a_trace_the_budget_counts(self):
        _, value = self.value("--threads", "10", TOP / "examples/pool/server.c")
        rows = [(it["pool"], it["enough_for"], it["more"]) for it in value["rows"]]
        self.assertEqual(rows, [(10 * 64, "all traces", None)])
        status, _, said = self.fit(TOP / "examples/timers/server.c")
        self.assertEqual(status, 2)
        self.assertIn("give a trace, or --threads N", said)

    def test_the_peak_within_a_segment(self):
        """A recursion that never blocks: a chunk of 64 bytes has room for the frames of main and of the first call of
        `depth`, of 16 and 32 bytes, or of one call. So 151 calls hold 151 chunks at once, and the log shows one."""
        with tempfile.TemporaryDirectory() as to:
            source = pathlib.Path(to, "deep.c")
            source.write_text(DEEP)
            server = many.Server(source, to)
            tried = trials.Trials(server, ["arrive 10 150\n"], {})
            frames = placements.Graph(server, 65_520).frames
            self.assertEqual(frames, {"main": 16, "depth": 32})
            largest = max(frames.values())
            found = search.Search(tried, 1_000)
            self.assertEqual(found.probe(largest, 64)[0], 1)
            self.assertEqual(found.one_size(largest, 64).layout.chunks, 151)
            trace = pathlib.Path(to, "trace")
            trace.write_text("arrive 10 5\n")
            _, value = self.value(source, trace)
            self.assertEqual((value["circle"], {it["enough_for"] for it in value["rows"]}), ("depth", {"these traces"}))

    def test_placements_leave_nothing_out(self):
        """Between two placements `graph` says the same of each call, at each --max-path."""
        source = TOP / "examples/relay/server.c"
        with tempfile.TemporaryDirectory() as to:
            server = many.Server(source, to)
            found = placements.placements(server, source.read_bytes())
            starts = [it.max_path for it in found]
            self.assertGreater(len(starts), 1)
            paths = range(starts[0], starts[-1] + 33, 16)
            kinds = {max_path: placements.Graph(server, max_path).sites for max_path in paths}
            for max_path, sites in kinds.items():
                self.assertEqual(sites, kinds[max(it for it in starts if it <= max_path)], max_path)
            self.assertTrue(all(kinds[one] != kinds[other] for one, other in zip(starts, starts[1:])))
            words = [server.program, "graph", "--max-path", str(starts[0] - 16), source]
            refused = subprocess.run(words, capture_output=True)
            self.assertEqual(refused.returncode, 5)  # a frame is larger

    def test_a_run_that_ends_badly_is_not_fitted(self):
        status, _, said = self.fit(TOP / "examples/bank/server.c", TOP / "examples/bank/trace")
        self.assertEqual(status, 2)
        self.assertIn("stop trap", said)  # without --caps


if __name__ == "__main__":
    unittest.main()
