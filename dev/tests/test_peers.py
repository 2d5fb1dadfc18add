"""dev/peers: its tables, what it skips, and the programs of its tasks."""
import os, pathlib, subprocess, sys, tempfile, unittest, xml.etree.ElementTree
from unittest import mock

DEV = pathlib.Path(__file__).resolve().parent.parent
sys.path.insert(0, str(DEV))
from peering import chart, held, runs, systems, tables
from peering.stored import stored, text_of

PROGRAM = os.path.join(os.environ.get("CAPRICCIO_PROGRAMS", "no folder"), "capriccio_cli")


class Tables(unittest.TestCase):
    def test_median_and_spread(self):
        rows = {"X": [({"seconds": s}, "") for s in (2.0, 1.0, 4.0)]}
        text = "\n".join(tables.tables({("pool", 8, 16): rows}))
        self.assertIn("| X | 4 (2 to 8) |", text)

    def test_memory_a_thread(self):
        rows = {"X": [({"before": 1000.0, "after": 5000.0, "start": 0.5, "wake": 0.25}, "")]}
        text = "\n".join(tables.tables({("waiters", 4, 16): rows}))
        self.assertIn("| X | 1,000 | 0.500 | 0.250 |", text)

    def test_what_failed(self):
        text = "\n".join(tables.tables({("deep", 8, 16): {"X": [(None, "ends with signal 11")]}}))
        self.assertIn("| X | ends with signal 11 |", text)


class Charts(unittest.TestCase):
    found = {("waiters", number, 16): {name: [({"before": 0, "after": number * bytes_}, "")]
                                       for name, bytes_ in (("Capriccio", 400), ("A", 8000), ("B", 8001))}
             for number in (1000, 10_000)}

    def test_places_follow_the_scales(self):
        scale = chart.Scale(1000, 100_000, 0, 200)
        self.assertEqual([scale(it) for it in (1000, 10_000, 100_000)], [0, 100, 200])

    def test_each_system_has_a_line_and_a_name_of_its_own(self):
        tree = xml.etree.ElementTree.fromstring(chart.chart(self.found))
        svg = "{http://www.w3.org/2000/svg}"
        names = {it.text: float(it.get("y")) for it in tree.iter(svg + "text") if it.text in ("Capriccio", "A", "B")}
        self.assertEqual(len(names), 3)
        self.assertGreaterEqual(abs(names["A"] - names["B"]), 15)
        self.assertGreater(names["Capriccio"], names["A"])  # less memory stands lower
        self.assertEqual(len(list(tree.iter(svg + "circle"))), 6)

    def test_the_name_of_a_line_that_ends_early_stands_at_its_end(self):
        systems = {"A": [(1000, 1e6), (10_000, 1e7)], "B": [(1000, 1e6)]}
        across, upwards = chart.Scale(1000, 10_000, 100, 600), chart.Scale(1e5, 1e8, 400, 100)
        places = chart.places_of_names(systems, 10_000, across, upwards)
        self.assertEqual(places["B"], (110, 292))
        self.assertGreater(places["A"][0], 600)


class Pages(unittest.TestCase):
    told, found = stored(DEV / "peering/measured.json")

    def test_the_page_has_the_tables_of_what_was_measured(self):
        page = (DEV.parent / "docs/PERFORMANCE.md").read_text()
        lines = [it for it in tables.tables(self.found) if it.startswith("|")]
        self.assertGreater(len(lines), 40)
        self.assertEqual([it for it in lines if it not in page.splitlines()], [])
        self.assertIn(self.told.partition(";")[0], page)

    def test_the_chart_is_that_of_what_was_measured(self):
        self.assertEqual((DEV.parent / "docs/threads.svg").read_text(), chart.chart(self.found))


class Stored(unittest.TestCase):
    def test_numbers_are_read_as_they_are_written(self):
        found = {("pool", 8, 16): {"X": [[{"seconds": 0.5}, ""], [None, "ends with status 1"]], "Y": []},
                 ("deep", 1, 16): {}}
        with tempfile.TemporaryDirectory() as folder:
            file = pathlib.Path(folder, "json")
            file.write_text(text_of("a machine", found))
            self.assertEqual(stored(file), ("a machine", found))


class Systems(unittest.TestCase):
    def test_missing_compiler_is_named(self):
        with mock.patch("shutil.which", return_value=None):
            for system in systems.SYSTEMS:
                with self.assertRaisesRegex(systems.Missing, r"missing \(Debian: "):
                    system.build(pathlib.Path("."))

    def test_numbers_stand_in_the_source(self):
        with tempfile.TemporaryDirectory() as folder:
            text = systems.source_of(pathlib.Path(folder), "waiters", 1234).read_text()
        self.assertIn("i < 1234;", text)
        self.assertNotIn("THREADS;", text)

    def test_trace_wakes_each_thread_on_its_channel(self):
        lines = "".join(systems.trace_of("waiters", 130)).splitlines()
        self.assertEqual(len(lines), 130)
        self.assertEqual([line.split()[2] for line in lines], [str(i % 64) for i in range(130)])


class Runs(unittest.TestCase):
    def test_a_command_is_timed(self):
        status, taken, said = runs.timed(["sh", "-c", "cat; exit 3"], b"given")
        self.assertEqual((status, said), (3, b"given"))
        self.assertLess(taken, 60)

    def test_a_run_rests_where_it_reads_on(self):
        """`cat` has written its first line when it waits for more."""
        with held.Held(["cat"], "first\n") as made:
            self.assertLess(made.rest(), 60)
            self.assertGreater(made.resident(), 0)
            status, _, said = made.finish("rest\n")
        self.assertEqual((status, said), (0, "first\nrest\n"))

    def test_a_run_that_ends_before_is_said(self):
        with held.Held(["sh", "-c", "read line; exit 5"], "first\n") as made:
            with self.assertRaisesRegex(held.NotAtRest, "status 5"):
                made.rest()

    def test_a_wrong_sum_is_said(self):
        system = systems.System("X", None, lambda *_: ["echo", "sum 7"])
        self.assertEqual(runs.peer_run(system, None, "pool", 3, 16), (None, "has the sum 7"))  # 0 + 1 + 4 is 5

    @unittest.skipUnless(os.access(PROGRAM, os.X_OK), "the program isn't built")
    def test_capriccio_does_its_tasks(self):
        """Each thread that waits holds a chunk of 64 bytes at least, and has all its messages."""
        with tempfile.TemporaryDirectory() as folder:
            told = {task: held.capriccio_run(PROGRAM, pathlib.Path(folder), task, number)
                    for task, number in (("waiters", 5000), ("handing", 100), ("pool", 1000), ("deep", 50))}
        self.assertEqual({task: why for task, (_, why) in told.items()}, dict.fromkeys(told, ""))
        waiters, deep = told["waiters"][0], told["deep"][0]
        self.assertGreater(waiters["after"] - waiters["before"], 5000 * 64)
        self.assertEqual(deep["depth"], 10_000)

    def test_asyncio_does_its_tasks(self):
        python = next(it for it in systems.SYSTEMS if it.name.startswith("Python"))
        numbers, why = runs.peer_run(python, pathlib.Path("."), "pool", 1000, 16)
        # (each value from 0 to 99 comes ten times)
        self.assertEqual(why, "")
        self.assertEqual(numbers["sum"], 10 * sum(i * i for i in range(100)))

    def test_c_recurses_only_on_a_large_stack(self):
        if subprocess.run(["which", "gcc"], stdout=subprocess.DEVNULL).returncode:
            self.skipTest("gcc is missing")
        threads = systems.SYSTEMS[0]
        with tempfile.TemporaryDirectory() as folder:
            threads.build(pathlib.Path(folder))
            self.assertIsNone(runs.peer_run(threads, pathlib.Path(folder), "deep", 10, 16)[0])
            self.assertEqual(runs.peer_run(threads, pathlib.Path(folder), "deep", 10, 1024)[0]["depth"], 10000)


if __name__ == "__main__":
    unittest.main()
