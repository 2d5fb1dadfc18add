"""The sessions that docs/DEBUGGING.md shows are what tools/debug prints, and its table has each command."""
import os, pathlib, re, shlex, subprocess, sys, tempfile, unittest

from debugging import terminal

TOP = pathlib.Path(__file__).resolve().parent.parent.parent
PAGE = TOP / "docs/DEBUGGING.md"
PROGRAM = os.path.join(os.environ.get("CAPRICCIO_PROGRAMS", "no folder"), "capriccio_cli")


def debug(*words, trace="", **more):
    with open(TOP / trace if trace else os.devnull) as given:
        return subprocess.run(
            [sys.executable, TOP / "tools/debug", "--batch", *words],
            stdin=given,
            cwd=TOP,
            capture_output=True,
            text=True,
            **more,
        )


def moment(*words, trace):
    with open(TOP / trace) as given:
        command = [sys.executable, TOP / "tools/moment", *words]
        return subprocess.run(command, stdin=given, cwd=TOP, capture_output=True, text=True)


def sessions():
    """The sessions of the page: the words of a call, its trace, and what it shows."""
    blocks = re.findall(r"^```\n(.*?)^```", PAGE.read_text(), re.M | re.S)
    for call, shown in zip(blocks, blocks[1:]):
        if call.startswith("tools/debug ") and shown.startswith("(debug) "):
            words, _, trace = call.strip().removeprefix("tools/debug ").partition(" < ")
            yield shlex.split(words), trace, shown


@unittest.skipUnless(os.access(PROGRAM, os.X_OK), "the program isn't built")
class Sessions(unittest.TestCase):
    def test_each_session_is_what_the_debugger_prints(self):
        found = list(sessions())
        self.assertGreaterEqual(len(found), 3)
        for words, trace, shown in found:
            with self.subTest(words=words), tempfile.NamedTemporaryFile("w") as script:
                script.write("".join(f"{it}\n" for it in re.findall(r"^\(debug\) (.*)$", shown, re.M)))
                script.flush()
                told = debug("-x", script.name, *words, trace=trace)
                self.assertEqual((told.stdout, told.returncode), (shown, 0), told.stderr)

    def test_the_moment_is_what_the_tool_prints(self):
        found = re.findall(r"^```\ntools/moment (.*?)\n```\n\n```\n(.*?)^```", PAGE.read_text(), re.M | re.S)
        self.assertEqual(len(found), 2)
        for call, shown in found:
            words, _, trace = call.partition(" < ")
            told = moment(*shlex.split(words), trace=trace)
            self.assertEqual((told.stdout, told.returncode), (shown, 0), told.stderr)

    def test_visits_of_a_place(self):
        run = ("serve", "docs/stories/pages.c")
        told = moment("--break", "value_of", "--if", "page > 3", *run, trace="docs/stories/pages.trace")
        rows = told.stdout.splitlines()
        self.assertEqual(rows[1:], ["1,041       2  docs/stories/pages.c:6:3  page = 7"])
        self.assertEqual(told.returncode, 0)

    def test_moments_that_are_not_there(self):
        run = ("serve", "--caps", "1=1,2=1", "examples/bank/server.c")
        for words, why in (
            (("--at-line", "14+99"), "fewer than 99 steps"),
            (("--at-line", "99"), "has the lines 1 to 48"),
            (("--at", "soon"), "expected a clock"),
            (("--watch", "balance"), "no name balance is in scope here: balances"),
            (("--break", "teler"), "functions are transfer, teller, main"),
            (("--at", "1040", "--thread", "9"), "no thread 9 lives at this moment: there are 1, 2"),
        ):
            told = moment(*words, *run, trace="examples/bank/trace")
            with self.subTest(words=words):
                self.assertEqual((told.stdout, told.returncode), ("", 1), told.stderr)
                self.assertIn(why, told.stderr)
        self.assertEqual(moment(*run, trace="examples/bank/trace").returncode, 2)

    def test_a_command_that_cannot_be_done_ends_a_script(self):
        for command, why in (
            ("break teler", "functions are transfer, teller, main"),
            ("fly", "`help` lists them"),
            ("re", "short for"),
            ("print nothing", "no name nothing is in scope here: balances"),
            ("thread 9", "there are 0"),
            ("info", "expected one of"),
            ("delete 4", "no breakpoint 4"),
            ("goto soon", "expected a clock"),
            ("next often", "expected how many times"),
        ):
            told = debug(
                "-e",
                command,
                "-e",
                "run",
                "serve",
                "--caps",
                "1=1,2=1",
                "examples/bank/server.c",
                trace="examples/bank/trace",
            )
            with self.subTest(command=command):
                self.assertEqual(told.returncode, 1, told.stdout)
                self.assertIn("debug: ", told.stderr)
                self.assertIn(why, told.stderr)
                self.assertNotIn("Traceback", told.stderr)
                self.assertNotIn("(debug) run", told.stdout)

    def test_statuses(self):
        self.assertEqual(debug("fly").returncode, 2)
        self.assertEqual(debug("serve").returncode, 2)
        self.assertEqual(debug("serve", "/none.c").returncode, 9)
        self.assertEqual(debug("serve", os.devnull).returncode, 2)  # the program refuses an empty source
        self.assertEqual(
            debug("--log", "examples/pool/log", "serve", "examples/bank/server.c", "-e", "run").returncode, 2
        )
        told = debug("-e", "run", "--log", "examples/pool/log", "serve", "examples/bank/server.c")
        self.assertEqual((told.returncode, "line 4 of the log" in told.stderr), (1, True), told.stderr)


class Table(unittest.TestCase):
    def test_each_command_stands_in_the_table_of_the_page(self):
        named = set(re.findall(r"[a-z-]+", " ".join(re.findall(r"^\| (`.*?) \|", PAGE.read_text(), re.M))))
        names = {it[3:].replace("_", "-") for it in dir(terminal.Terminal) if it.startswith("do_")}
        self.assertEqual(names - named, {"help", "quit", "undisplay"})
        infos = {it[5:] for it in dir(terminal.Terminal) if it.startswith("info_")}
        self.assertEqual(infos - named, set())


if __name__ == "__main__":
    unittest.main()
