"""The reports that are kept in examples/, byte for byte."""
import os, pathlib, subprocess, unittest

TOP = pathlib.Path(__file__).resolve().parent.parent.parent
PROGRAM = os.path.join(os.environ.get("CAPRICCIO_PROGRAMS", ""), "report")
OWN = {"report": [], "report_why": ["--why"],
       "report_first": ["--answers", "first"]}  # the report's own options, by the kept file's name


@unittest.skipUnless(os.access(PROGRAM, os.X_OK), "the program isn't built")
class Reports(unittest.TestCase):
    def test_each_kept_report_is_what_is_printed(self):
        for kept in sorted(TOP.glob("examples/*/report*")):
            with self.subTest(report=str(kept.relative_to(TOP))), open(kept.parent / "trace") as trace:
                options = kept.parent / "options"
                words = options.read_text().split() if options.exists() else []
                source = kept.parent.relative_to(TOP) / "server.c"
                run = subprocess.run([TOP / "report", *OWN[kept.name], "serve", *words, source], cwd=TOP, stdin=trace,
                                     stdout=subprocess.PIPE, text=True)
                self.assertEqual(run.stdout, kept.read_text())

    def test_the_deadlock_is_the_first_line(self):
        first = (TOP / "examples/bank/report").read_text().splitlines()[0]
        self.assertEqual(first, "deadlock: thread 1 → resource 2 → thread 2 → resource 1 → thread 1")


if __name__ == "__main__":
    unittest.main()
