"""The moments of a page are those of the log of examples/bank, line by line."""
import pathlib, unittest

from debugging import states

BANK = pathlib.Path(__file__).resolve().parent.parent.parent / "examples/bank"
SOURCE, LOG = (BANK / "server.c").read_bytes(), (BANK / "log").read_text().splitlines()


def moment(changes, line):
    """The moment after a line, of the changes up to it."""
    found = {"threads": {}}
    for it in changes:
        if it["line"] > line:
            break
        found["threads"] |= it.get("threads", {})
        found |= {name: value for name, value in it.items() if name != "threads"}
    return found


class Bank(unittest.TestCase):
    def setUp(self):
        self.changes = states.states_of(SOURCE, {1: 1, 2: 1}, LOG, 1024)

    def test_each_line_that_runs_has_its_change(self):
        lines = [number for number, it in enumerate(LOG, 1) if not it.startswith(("out", "edge", "stop"))]
        self.assertEqual([it["line"] for it in self.changes][:-1], lines)
        self.assertEqual(self.changes[-1]["line"], len(LOG))

    def test_values_after_lines(self):
        self.assertEqual(moment(self.changes, 7)["arrivals"], [12])  # event 100 arrive 12
        after = moment(self.changes, 16)  # the first transfer is over: 5 from account 1 to account 2
        self.assertEqual((after["globals"][0]["values"], after["running"], after["clock"]), ([0, -5, 5], None, 359))
        self.assertEqual(after["resources"], [[1, 0, 1], [2, 0, 1]])
        last = moment(self.changes, len(LOG))
        self.assertEqual({number: it and it["call"]["arguments"] for number, it in last["threads"].items()}, {0: None, 1: [2, 1], 2: [1, 1]})

    def test_a_line_that_changes_nothing_has_no_threads(self):
        self.assertNotIn("threads", next(it for it in self.changes if it["line"] == 7))

    def test_long_logs_and_other_sources_have_none(self):
        self.assertEqual(states.states_of(SOURCE, {}, ["run 0 0 0"] * (states.MOST_LINES + 1), 1024), [])
        self.assertEqual(states.states_of(b"int main() {", {}, LOG, 1024), [])
        self.assertEqual(states.states_of(b"int main() { return 0; }", {}, LOG, 1024), [])


if __name__ == "__main__":
    unittest.main()
