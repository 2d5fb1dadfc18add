"""docs/WRITING.md, step by step: the program is called as the reader calls it, and prints what the page shows."""
import os, pathlib, re, subprocess, tempfile, unittest

from repository import rooms

PROGRAM = os.path.join(os.environ.get("CAPRICCIO_PROGRAMS", "no folder"), "capriccio_cli")
PAGE = (rooms.TOP / "docs/WRITING.md").read_text()


def section(title):
    """The text below a heading, up to the next one."""
    return re.search(rf"^## {re.escape(title)}\n(.*?)(?=^## |\Z)", PAGE, re.M | re.S)[1]


def blocks(title):
    return re.findall(r"^```\n(.*?)^```", section(title), re.M | re.S)


@unittest.skipUnless(os.access(PROGRAM, os.X_OK), "the program isn't built")
class Steps(unittest.TestCase):
    def serve(self, source, trace="", words=()):
        """The status of `serve` of a source on a trace, its log and its line on standard error."""
        with tempfile.TemporaryDirectory() as room:
            pathlib.Path(room, "server.c").write_text(source)
            run = subprocess.run([PROGRAM, "serve", *words, "server.c"], cwd=room, input=trace, capture_output=True, text=True)
            return run.returncode, run.stdout, run.stderr

    def test_a_program(self):
        source, log = blocks("1. A program")
        self.assertEqual(self.serve(""), (2, "", "source: NoMain\n"))
        self.assertEqual(self.serve(source), (0, log, ""))

    def test_a_worker(self):
        server, nested, note = blocks("2. A worker")
        self.assertEqual(self.serve(nested + "\nint main() { return 0; }\n"), (2, "", "source: NestedCall at 48\n"))
        self.assertEqual(nested.encode()[:48].count(b"\n"), 2)
        line, column = map(int, re.match(r"server\.c:(\d+):(\d+):", note).groups())
        lines = nested.splitlines(True)
        self.assertEqual(len("".join(lines[: line - 1])) + column - 1, 48)
        self.assertEqual(note.splitlines()[1].strip(), lines[line - 1].strip())

    def test_the_refusals_of_the_worker(self):
        server, *_ = blocks("2. A worker")
        worker, main = server.split("\n\n")
        changed = {
            "source: Unknown at 21": [main + worker],
            "source: Unexpected at 97": [server[:at] + server[at + 1 :] for at, it in enumerate(server) if it == ";"],
            "source: Arity at 118": [server.replace("spawn(worker, 0)", "spawn(worker)")],
        }
        for line, sources in changed.items():
            with self.subTest(line=line):
                self.assertIn(f"| `{line}` |", section("2. A worker"))
                self.assertIn((2, "", line + "\n"), [self.serve(it) for it in sources])

    def test_a_call_within_an_expression(self):
        server, *_ = blocks("2. A worker")
        short = server.replace("request = accept();\n    put(request * 2);", "put(accept() * 2);")
        self.assertNotEqual(short, server)
        trace, _ = blocks("3. A trace")
        outs = lambda it: re.findall(r"^out .*", self.serve(it, trace)[1], re.M)
        self.assertEqual(outs(short), outs(server))

    def test_a_trace(self):
        server, *_ = blocks("2. A worker")
        trace, log = blocks("3. A trace")
        self.assertEqual(self.serve(server, trace), (10, log, ""))
        for second in ("arrive 100 2", "arrive x 2"):
            status, log, _ = self.serve(server, trace.replace("arrive 210 2", second))
            self.assertEqual((status, log.splitlines()[-1]), (4, "stop trace 2"))

    def test_a_resource(self):
        server, trapped, held, whole = blocks("4. A resource")
        trace, _ = blocks("3. A trace")
        status, log, _ = self.serve(server, trace)
        self.assertEqual((status, log[-len(trapped) :]), (11, trapped))
        status, log, _ = self.serve(server, trace, ["--caps", "1=2"])
        self.assertEqual((status, log[-len(held) :], log.count("\nout ")), (10, held, 2))
        put = "put(request * 2);"
        status, log, _ = self.serve(server.replace(put, put + "\n    give(1, 1);"), trace, ["--caps", "1=2"])
        self.assertEqual((status, log[-len(whole) :]), (10, whole))
        status, log, _ = self.serve(server.replace(put, put + "\n    give(1, 2);"), trace, ["--caps", "1=2"])
        self.assertEqual((status, log.count("\nout ")), (11, 2))
        status, log, _ = self.serve(server, trace, ["--caps", "1=2", "--chunks", "3"])
        self.assertEqual((status, log.splitlines()[-1][:12]), (12, "stop nochunk"))

    def test_threads_that_send_to_one_another(self):
        (server,) = blocks("Threads that send to one another")
        trace, _ = blocks("3. A trace")
        status, log, _ = self.serve(server, trace, ["--caps", "1=1,2=1"])
        self.assertEqual((status, re.findall(r"^out \d+ (.*)", log, re.M)), (10, ["1", "2", "3"]))
        status, log, _ = self.serve(server, trace)
        self.assertEqual((status, log.splitlines()[-1].split()[:4]), (11, ["stop", "trap", "0", "resource"]))

    def test_locks_and_queues_and_the_gate(self):
        (server,) = blocks("Threads that send to one another")
        doubled = re.sub(r"(take|give)\((\d), 1\)", r"\1(\2, 2)", server)
        self.assertEqual(doubled.count(", 2)"), 5)
        trace, _ = blocks("3. A trace")
        status, log, _ = self.serve(doubled, trace, ["--caps", "1=3,2=3"])
        self.assertEqual((status, re.findall(r"^out \d+ (.*)", log, re.M)), (10, ["1", "2", "3"]))
        busy = "void busy(int n) { while (1) yield(); }\n\nint main() {"
        six = "".join(f"arrive {300 * it} {it}\n" for it in range(1, 7))
        for source, caps, words, count in ((server, "1=1,2=1", (), 0), (server, "1=1,2=1", ("--high", "1000"), 0),
                                           (doubled, "1=3,2=3", (), 6)):
            source = source.replace("int main() {", busy).replace("  return 0;", "  spawn(busy, 0);\n  return 0;")
            status, log, _ = self.serve(source, six, ["--caps", caps, "--fuel", "20000", *words])
            self.assertEqual((status, len(re.findall(r"^out ", log, re.M))), (13, count))

    def test_many_runs(self):
        commands, table = blocks("Traces at a rate, and many runs")[-2:]
        with tempfile.TemporaryDirectory() as room:
            for name in ("tools", "docs", "examples"):
                pathlib.Path(room, name).symlink_to(rooms.TOP / name)
            made = subprocess.run(["bash", "-ec", commands], cwd=room, capture_output=True, text=True)
        self.assertEqual(made.stdout, table, made.stderr)


if __name__ == "__main__":
    unittest.main()
