"""The story of a log has the numbers that the proved report gives of it: the `report` files of
examples/ are what that program wrote."""
import pathlib, re, unittest

from runs import figures, places, story

TOP = pathlib.Path(__file__).resolve().parent.parent.parent
REPORTS = sorted(it for it in TOP.glob("examples/*/report") if (it.parent / "log").exists())


def figures_of(folder):
    with open(folder / "trace") as trace, open(folder / "log") as log:
        return figures.Figures(story.Story(places.Places((folder / "server.c").read_bytes()), trace).happenings(log))


def number(text):
    """A number of a report, whose thousands have separators."""
    return int(text.replace(",", ""))


class OfExamples(unittest.TestCase):
    def test_requests_and_latencies_are_those_of_the_report(self):
        self.assertGreater(len(REPORTS), 0)
        for report in REPORTS:
            with self.subTest(example=report.parent.name):
                told, said = figures_of(report.parent), report.read_text()
                counts = re.search(r"^requests +(\S+) came, (\S+) dropped, (\S+) taken, (\S+) answered", said, re.M)
                wanted = [number(it) for it in counts.groups()]
                self.assertEqual([told.came, told.dropped, told.taken, told.answered], wanted)
                for which, numbers in (("first", told.first), ("last", told.last)):
                    line = re.search(rf"^(?:first and last|{which}) answer((?: +[\d,]+){{5}})", said, re.M)
                    wanted = [number(it) for it in line[1].split()] if line else [None] * 5
                    self.assertEqual(list(figures.spread(numbers).values()), wanted)
                self.assertEqual(told.stop.text, said.splitlines()[-1])

    def test_places_of_waits_are_those_of_the_report(self):
        for report in REPORTS:
            with self.subTest(example=report.parent.name):
                sites = places.Places((report.parent / "server.c").read_bytes()).sites
                known = {f"{it.place()} {it.callee} in {it.function}" for it in sites}
                told = re.findall(r" examples/\w+/server\.c:(\d+:\d+ \w+ in \w+)$", report.read_text(), re.M)
                self.assertGreater(len(told), 0)
                for place in told:
                    self.assertIn(place, known)


class Unfit(unittest.TestCase):
    def test_a_log_of_another_source_or_trace_is_refused(self):
        source, trace, log = b"int main() { yield(); return 0; }", ["arrive 1 2\n"], ["run 0 0 0\n", "block 0 2 0 10 1023\n"]
        told = lambda source, trace, log: list(story.Story(places.Places(source), trace).happenings(log))
        told(source, trace, log)
        for name, other in {
            "site": (b"int main() { return 0; }", trace, log),
            "value": (source, trace, ["event 1 arrive 3\n"]),
            "kind": (source, trace, ["event 1 data 2 2\n"]),
            "end of the trace": (source, [], ["event 1 arrive 2\n"]),
            "word": (source, trace, ["walk 0 0 0\n"]),
            "node": (source, trace, ["run 0 0 5\n"]),
            "no segment": (source, trace, ["end 0 1 2\n"]),
        }.items():
            with self.subTest(differs=name), self.assertRaises(story.Unfit):
                told(*other)


if __name__ == "__main__":
    unittest.main()
