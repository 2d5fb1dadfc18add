"""Folded stacks have the run's whole cost, and its waits as the proved report gives them."""
import collections, io, pathlib, re, unittest

from reporting import folded, readiness
from runs import places, story

TOP = pathlib.Path(__file__).resolve().parent.parent.parent
REPORTS = sorted(it for it in TOP.glob("examples/*/report") if (it.parent / "log").exists())
LINE = re.compile(r"[^\s;]+(;[^\s;]+)* [1-9][0-9]*\n")  # what flame graph tools read


def lines_of(folder, log, by_waits):
    with open(folder / "trace") as trace, open(log) as lines:
        source, file = (folder / "server.c").read_bytes(), io.StringIO()
        told = story.Story(places.Places(source), trace)
        writer = folded.Folded(file, told, by_waits, readiness.Ready(source, {}) if by_waits else None)
        for it in told.happenings(lines):
            writer.tell(it)
        writer.finish()
    return file.getvalue().splitlines(True)


def sum_of(lines):
    return sum(int(it.split()[1]) for it in lines)


class OfExamples(unittest.TestCase):
    def test_the_sum_is_the_cost_of_all_segments(self):
        for log in TOP.glob("examples/*/log*"):
            with self.subTest(log=f"{log.parent.name}/{log.name}"):
                lines = lines_of(log.parent, log, False)
                for line in lines:
                    self.assertRegex(line, LINE)
                fields = [it.split() for it in log.read_text().splitlines()]
                cut = [int(it[-2]) for it in fields if it[0] == "stop"
                       and it[1] in ("trap", "nochunk", "fuel", "threads")]
                self.assertEqual(sum_of(lines),
                                 sum(int(it[-2]) for it in fields if it[0] in ("block", "end")) + sum(cut))

    def test_waits_are_those_of_the_report(self):
        """The ended waits of the report by call and function, and beside them those that are under
        way at the stop."""
        for report in REPORTS:
            with self.subTest(example=report.parent.name):
                wanted = collections.Counter()
                text = report.read_text()
                for call, function, total in re.findall(r"^  server\.c:\d+:\d+ (\w+) in (\w+): \d+, (\d+)", text, re.M):
                    wanted[f"{function};{call}"] += int(total)
                found = collections.Counter()
                for line in lines_of(report.parent, report.parent / "log", True):
                    stack, number = line.split()
                    found[";".join(stack.split(";")[-2:])] += int(number)
                for stack, total in wanted.items():
                    self.assertGreaterEqual(found[stack], total)
                under_way = sum(found.values()) - sum(wanted.values())
                self.assertGreaterEqual(under_way, 0)

    def test_the_stacks_of_the_store(self):
        folder = TOP / "examples/store"
        stacks = [it.split()[0] for it in lines_of(folder, folder / "log", False)]
        self.assertEqual(stacks, ["main;[end]", "main;worker;accept", "main;worker;serve;wait"])

    def test_the_page_of_the_report_shows_those_of_the_store(self):
        folder, shown = TOP / "examples/store", (TOP / "docs/REPORT.md").read_text()
        for by_waits in (False, True):
            self.assertIn(f"```\n{''.join(lines_of(folder, folder / 'log', by_waits))}```", shown)


class Roots(unittest.TestCase):
    def root_of(self, source, function):
        return folded.Folded(None, story.Story(places.Places(source), []), False).root(function)

    def test_the_starter_stands_above_where_it_is_certain(self):
        self.assertEqual(self.root_of(b"void f(int n) { } int main() { spawn(f, 1); return 0; }", "f"), ("main", "f"))

    def test_no_starter_stands_above_where_there_are_several(self):
        self.assertEqual(self.root_of(b"void f(int n) { } void g(int n) { spawn(f, 1); } int main() { spawn(f, 1); spawn(g, 1); return 0; }", "f"), ("f",))

    def test_no_starter_stands_above_where_something_calls_it(self):
        self.assertEqual(self.root_of(b"void f(int n) { } void g(int n) { spawn(f, 1); } int main() { spawn(g, 1); g(2); return 0; }", "f"), ("f",))


if __name__ == "__main__":
    unittest.main()
