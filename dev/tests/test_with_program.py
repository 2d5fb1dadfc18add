"""The tools that run the program, tried on it where the folder that CAPRICCIO_PROGRAMS names has
it; dev/check_tools names it, and nothing is built here."""
import csv, io, json, os, pathlib, re, shutil, stat, subprocess, sys, tempfile, unittest

from random_programs import compared, printers

TOP = pathlib.Path(__file__).resolve().parent.parent.parent
TOOLS = TOP / "tools"


def is_there(name):
    return os.access(os.path.join(os.environ.get("CAPRICCIO_PROGRAMS", "no folder"), name), os.X_OK)


def run(tool, *words, given=None):
    with open(given or os.devnull) as trace:
        return subprocess.run([sys.executable, TOOLS / tool, *map(str, words)], stdin=trace, capture_output=True,
                              text=True)


@unittest.skipUnless(is_there("capriccio_cli"), "the program isn't built")
class WithTheProgram(unittest.TestCase):
    def test_a_sweep_has_the_numbers_of_the_kept_report(self):
        folder = TOP / "examples/calculator"
        rows = self.swept(folder, "report", "--vary", "fuel", "10000000", "100")
        self.assertEqual(rows[0]["stop"], "idle")
        self.assertRegex(rows[1]["stop"], "^fuel ")
        self.assertEqual(rows[1]["cost"], "100")  # all of the fuel

    def test_a_sweep_pairs_outputs_as_the_kept_report_does(self):
        self.swept(TOP / "examples/relay", "report_first", "--answers", "first")

    def test_a_sweep_says_what_came_of_each_run(self):
        bank, store = TOP / "examples/bank", TOP / "examples/store"
        told = run("sweep", bank / "server.c", bank / "trace", "--vary", "caps", "1=1,2=1", "1=9,2=9", "--csv", "--expect",
                   "answered,no-deadlock")
        rows = list(csv.DictReader(io.StringIO(told.stdout)))
        self.assertEqual([it["verdict"] for it in rows], ["deadlock", "answered"])
        self.assertEqual(told.returncode, 20)
        self.assertEqual(told.stderr.splitlines()[-1], "sweep: trace: not as expected: answered, no-deadlock")
        good = run("sweep", store / "server.c", store / "trace", "--expect", "answered,no-drops,no-deadlock")
        self.assertEqual((good.returncode, good.stderr), (0, ""))

    def swept(self, folder, report, *words):
        """The rows of a sweep on an example, of which the first has the latencies of its report."""
        options = folder / "options"
        pairs = zip(*[iter(options.read_text().split() if options.exists() else [])] * 2)
        varied = [it for name, value in pairs for it in ("--vary", name[2:], value)]
        told = run("sweep", folder / "server.c", folder / "trace", "--csv", *varied, *words)
        rows = list(csv.DictReader(io.StringIO(told.stdout)))
        whole = re.search(r"first (?:and last )?answer +([\d,]+) +([\d,]+) +([\d,]+) +([\d,]+) +([\d,]+) ",
                          (folder / report).read_text())
        ranks = [rows[0][f"first {rank}"] for rank in ("least", "median", "90th", "99th", "greatest")]
        self.assertEqual(ranks, [it.replace(",", "") for it in whole.groups()])
        return rows

    @unittest.skipUnless(shutil.which("gcc"), "there is no gcc")
    def test_random_programs_do_what_gcc_makes_of_them(self):
        self.assertGreater(sum(map(compared.compared, range(4, 7))), 100)

    @unittest.skipUnless(shutil.which("gcc"), "there is no gcc")
    def test_another_meaning_of_division_by_zero_is_found(self):
        right = printers.PRELUDE
        self.addCleanup(setattr, printers, "PRELUDE", right)
        printers.PRELUDE = right.replace("b == 0 ? -1", "b == 0 ? 1")
        self.assertNotEqual(printers.PRELUDE, right)
        with self.assertRaises(compared.Differs):
            sum(map(compared.compared, range(4, 7)))


@unittest.skipUnless(is_there("capriccio_cli") and is_there("report"), "the programs aren't built")
class WithTheReport(unittest.TestCase):
    def test_files_are_stored_beside_the_report(self):
        folder = TOP / "examples/pool"
        with tempfile.TemporaryDirectory() as to:
            names = [os.path.join(to, name) for name in ("run.json", "run.folded", "run.html")]
            options = [it for pair in zip(("--trace", "--folded", "--html"), names) for it in pair]
            told = run("export", *options, "serve", folder / "server.c", given=folder / "trace")
            self.assertEqual(told.returncode, 10)
            self.assertEqual(told.stdout.splitlines()[-1], "stop idle")
            self.assertEqual(sorted(os.listdir(to)), ["run.folded", "run.html", "run.json"])
            self.assertEqual(pathlib.Path(names[1]).read_text(), "main;[end] 31\nmain;worker;accept 86\n")

    def test_the_reports_own_options_reach_it(self):
        folder = TOP / "examples/pool"
        words = ["--request", "2", "--answers", "first", "--why", "serve", str(folder / "server.c")]
        alone = run("export", *words, given=folder / "trace")
        with tempfile.TemporaryDirectory() as to:
            told = run("export", "--folded", os.path.join(to, "run.folded"), *words, given=folder / "trace")
        self.assertIn("\nrequest 2: arrived at ", told.stdout)
        self.assertIn(" by turn\n", told.stdout)
        self.assertEqual((told.stdout, told.returncode), (alone.stdout, alone.returncode))

    def test_json_has_the_numbers_of_the_run(self):
        folder = TOP / "examples/limiter"
        told = run("export", "--json", "--why", "serve", *(folder / "options").read_text().split(), folder / "server.c",
                   given=folder / "trace")
        value = json.loads(told.stdout)
        wanted = {"least": 34, "median": 67, "90th": 1109, "99th": 1109, "greatest": 1109, "arrived": 130, "thread": 1}
        self.assertEqual(value["latency"]["last"], wanted)
        self.assertEqual(value["choices"], {"count": 22, "by_score": 0, "by_gate": 0, "by_turn": 22})
        self.assertEqual((value["status"], told.returncode, value["words"][:3]), (10, 10, ["serve", "--caps", "1=2"]))

    def test_an_expectation_has_its_status(self):
        bank, store = TOP / "examples/bank", TOP / "examples/store"
        good = run("export", "--expect", "answered,no-drops,no-deadlock", "serve", store / "server.c",
                   given=store / "trace")
        self.assertEqual((good.returncode, good.stderr), (0, ""))
        words = ["serve", "--caps", "1=1,2=1", bank / "server.c"]
        for expected, status in (("answered", 20), ("no-deadlock", 20), ("no-drops", 0), ("answered,no-drops", 20)):
            told = run("export", "--expect", expected, *words, given=bank / "trace")
            self.assertEqual((told.returncode, bool(told.stderr)), (status, status == 20), expected)

    def test_where_there_is_no_report_nothing_is_json(self):
        with tempfile.TemporaryDirectory() as to:
            trace = pathlib.Path(to, "trace")
            trace.write_text("arrive 1 x\n")
            told = run("export", "--json", "serve", TOP / "examples/pool/server.c", given=trace)
            self.assertEqual(told.returncode, 4)
            refused = run("export", "--json", "serve", os.devnull)
            self.assertEqual((refused.stdout, refused.returncode), ("", 2))

    def test_what_is_no_regular_file_stays_what_it_is(self):
        """A pipe is written as the text comes, and a link stays a link to its file."""
        folder = TOP / "examples/pool"
        with tempfile.TemporaryDirectory() as to:
            pipe, link, file = (os.path.join(to, name) for name in ("pipe", "link", "file"))
            os.mkfifo(pipe)
            os.symlink("file", link)
            with subprocess.Popen(["cat", pipe], stdout=subprocess.PIPE, text=True) as reader:
                told = run("export", "--folded", pipe, "--trace", link, "serve", folder / "server.c",
                           given=folder / "trace")
                self.assertEqual(reader.communicate()[0], "main;[end] 31\nmain;worker;accept 86\n")
            self.assertEqual(told.returncode, 10)
            self.assertTrue(os.path.islink(link) and stat.S_ISFIFO(os.stat(pipe).st_mode))
            self.assertIn("traceEvents", json.loads(pathlib.Path(file).read_text()))

    def test_faults_of_standard_output_and_an_absent_log(self):
        folder = TOP / "examples/pool"
        for stdout, close in ((os.open("/dev/full", os.O_WRONLY), None), (subprocess.DEVNULL, lambda: os.close(1))):
            with open(folder / "trace") as trace:
                words = [sys.executable, TOOLS / "export", "--json", "serve", folder / "server.c"]
                told = subprocess.run(words, stdin=trace, stdout=stdout, stderr=subprocess.PIPE, preexec_fn=close,
                                      text=True)
            self.assertEqual(told.returncode, 7, told.stderr)
            self.assertNotIn("Traceback", told.stderr)
        with tempfile.TemporaryDirectory() as to:
            told = run("export", "--folded", os.path.join(to, "file"), "--log", os.path.join(to, "log"), "serve",
                       folder / "server.c", given=folder / "trace")
            self.assertEqual((told.returncode, os.listdir(to)), (9, []))

    def test_a_refused_source_stores_nothing(self):
        with tempfile.TemporaryDirectory() as to:
            name = os.path.join(to, "run.json")
            told = run("export", "--trace", name, "serve", os.devnull)
            self.assertNotEqual(told.returncode, 0)
            self.assertEqual(os.listdir(to), [])


if __name__ == "__main__":
    unittest.main()
