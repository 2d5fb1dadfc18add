"""The smallest case of a find that is known: here what has the find is said by a function of the case, so that the
smallest case is known too. Runs of the program are tried in test_exploring.py."""
import unittest

from runs import finds, shrinking
from traces import events


class Known:
    """In place of a search: what has the find is told by a function."""

    def __init__(self, has):
        self.has = has

    def find(self, case):
        return finds.Find("known", "", "") if self.has(case) else None


def shrunk(has, text, options=None, first=""):
    first = events.read(first)
    case = shrinking.Case(shrinking.paired(events.read(text), first), first, options or {})
    made = shrinking.Shrinking(Known(has), case, 2, None, lambda it: None)
    made.shrink()
    return made


def values(case):
    return [it.value for it in case.events]


LONG = "".join(f"arrive {137 * it} {it}\n" for it in range(200))


class Smallest(unittest.TestCase):
    def test_two_lines_of_two_hundred(self):
        made = shrunk(lambda case: {61, 158} <= set(values(case)), LONG)
        self.assertEqual(values(made.case), [61, 158])
        self.assertEqual([it.time for it in made.case.events], [0, 0])
        self.assertEqual(made.before, 200)
        self.assertLess(made.runs, 400)

    def test_lines_that_hold_only_together(self):
        wanted = list(range(40, 52)) + [150]
        self.assertEqual(values(shrunk(lambda case: set(wanted) <= set(values(case)), LONG).case), wanted)

    def test_times_become_small_and_round(self):
        made = shrunk(lambda case: len(case.events) == 3 and case.events[1].time - case.events[0].time > 115,
                      "arrive 14 1\narrive 151 2\narrive 9999 3\n")
        self.assertEqual([it.time for it in made.case.events], [0, 140, 140])  # (14 and 151 in tens)

    def test_values_become_small_and_round(self):
        made = shrunk(lambda case: max(values(case), default=0) > 12_300, "arrive 0 12345\narrive 5 7\n")
        self.assertEqual(values(made.case), [12_340])
        self.assertEqual(values(shrunk(lambda case: values(case) != [] and values(case)[0] < 0, "arrive 0 -12345\n").case), [-10_000])

    def test_a_channel_gets_a_low_number(self):
        has = lambda case: [it.value for it in case.events if it.channel is None] == [it.channel for it in case.events if it.channel is not None] != []
        made = shrunk(has, "arrive 0 17\ndata 5 17 3\n")
        self.assertEqual(events.text_of(made.case.events), "arrive 0 0\ndata 0 0 0\n")

    def test_options_go_back_to_their_defaults(self):
        has = lambda case: case.options.get("rule") == "stride" and "2=8" in case.options.get("tickets", "").split(",")
        made = shrunk(has, "arrive 1 1\n",
                      {"rule": "stride", "tickets": "1=4,2=8,3=2", "high": "300", "low": "10", "backlog": "4"})
        self.assertEqual(made.case.options, {"rule": "stride", "tickets": "2=8"})
        self.assertEqual(made.case.events, [])

    def test_lines_that_are_far_apart_stay_so_beside_a_first_run(self):
        first = "arrive 100 1\narrive 200 2\narrive 300 3\narrive 7000 0\n"
        made = shrunk(lambda case: values(case)[-1:] == [0] and len(case.events) > 1, first, first=first)
        self.assertEqual(len(made.case.events), 2)
        self.assertEqual([it.time for it in made.case.events], [0, 2000])  # (ten times 100, and round)

    def test_the_first_run_loses_the_same_lines(self):
        has = lambda case: 61 in values(case)
        made = shrunk(has, LONG, first="".join(f"arrive {it} {it}\n" for it in range(200)))
        self.assertEqual((values(made.case), [it.value for it in made.case.first]), ([61], [61]))


class Pairs(unittest.TestCase):
    def test_the_kth_of_a_value_stands_for_the_kth(self):
        first = events.read("arrive 1 5\narrive 2 6\narrive 3 5\n")
        found = shrinking.paired(events.read("arrive 1 6\narrive 2 5\narrive 3 5\narrive 4 5\n"), first)
        self.assertEqual([it.line for it in found], [1, 0, 2, None])


if __name__ == "__main__":
    unittest.main()
