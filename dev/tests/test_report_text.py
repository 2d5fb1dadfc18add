"""The report as text: its first line says what came of the run, its numbers are those of the document, and it stays
short and narrow."""
import copy, unittest

from reporting import columns, document as documents, text, verdict

RANKS = {"least": 34, "median": 67, "90th": 1109, "99th": 1109, "greatest": 1234567, "arrived": 130, "thread": 1}


def place(line, name="take", function="worker", **more):
    return {"file": "server.c", "line": line, "column": 5, "name": name, "function": function, **more}


def wait(line, total, **more):
    return {"place": place(line), "count": 2, "total": total, "median": 1, "99th": total, "greatest": total,
            "thread": 1,
            "until": 5000, **more}


GOOD = {
    "log_fits": True, "circles": [], "answers": "own", "window": None,
    "requests": {"came": 5, "dropped": 0, "taken": 5, "answered": 5}, "latency": {"first": RANKS, "last": RANKS},
    "other_outputs": None, "request": None, "waits": [wait(3, 2400)], "chunks": {"most_held": 3, "of": 1024},
    "choices": {"count": 22}, "gate": None, "left": [], "more_left": 0, "never_ran": 0, "resources": [],
    "stopped": None,
    "stop": {"line": "stop idle", "kind": "idle"},
}


def changed(**parts):
    """The good document with other parts."""
    return copy.deepcopy(GOOD) | parts


def requests(came, dropped, taken, answered):
    return {"came": came, "dropped": dropped, "taken": taken, "answered": answered}


class Verdict(unittest.TestCase):
    def test_the_first_line_says_what_came_of_the_run(self):
        circle = [{"thread": 1, "resource": 2}, {"thread": 2, "resource": 1}]
        trap = {"line": "stop trap 2 index 87 1021", "kind": "trap", "thread": 2, "trap": "index", "cost": 87,
                "free": 1021}
        where = {"thread": 2, "function": "get", "why": "index 4 of 4 words", "places": [place(9, "a", None)],
                 "more_places": 0,
                 "calls": [], "has_more_calls": False}
        cases = {
            "all 5 requests answered": {},
            "1 request came and is answered": {"requests": requests(1, 0, 1, 1)},
            "no request came": {"requests": requests(0, 0, 0, 0)},
            "all 5 requests answered; the fuel was spent": {"stop": {"line": "stop fuel 1 2 3", "kind": "fuel",
                                                                     "thread": 1}},
            "3 requests taken and never answered": {"requests": requests(5, 0, 5, 2)},
            "3 requests taken and never answered: 2, 4, 5": {
                "requests": requests(5, 0, 5, 2), "verdict": {"kind": "unanswered", "requests": [2, 4, 5]}},
            "1 request never taken": {"requests": requests(5, 0, 4, 4)},
            "464 requests dropped": {"requests": requests(536, 464, 536, 536)},
            "deadlock: thread 1 → resource 2 → thread 2 → resource 1 → thread 1": {"circles": [circle]},
            "trap at server.c:9:5: thread 2 in get, index 4 of 4 words": {"stop": trap, "stopped": where},
            "the trace is refused at line 7": {"stop": {"line": "stop trace 7", "kind": "trace", "trace_line": 7}},
            "starved: 2 threads were started and never ran": {"never_ran": 2, "choices": {"count": 1000}},
            "starved: thread 3 at server.c:4:5 was ready for 8,331 ticks and not chosen": {
                "ready": {"threads": [{"thread": 3, "since": 9, "ticks": 8331, "starves": True, "place": place(4)}]}},
        }
        for wanted, parts in cases.items():
            with self.subTest(wanted=wanted):
                self.assertEqual(text.text_of(changed(**parts))[0], wanted)

    def test_the_gravest_comes_first_and_each_has_a_line(self):
        lines = verdict.of(changed(requests=requests(5, 1, 4, 2), circles=[[{"thread": 7, "resource": 3}]]))
        self.assertEqual(lines, ["deadlock: thread 7 → resource 3 → thread 7", "2 requests taken and never answered",
                                 "1 request never taken", "1 request dropped"])

    def test_outputs_of_other_threads_are_named(self):
        others = {"count": 3, "threads": [{"thread": 3, "outputs": 3}], "more_threads": 0}
        lines = verdict.of(changed(requests=requests(3, 0, 3, 0), other_outputs=others))
        self.assertEqual(lines, ["3 requests without an answer by the own thread; 3 outputs by other threads "
                                 "(--answers)"])

    def test_what_is_expected(self):
        bad = changed(requests=requests(5, 1, 4, 2), circles=[[{"thread": 7, "resource": 3}]])
        for expected, count in (("answered", 1), ("no-drops", 1), ("no-deadlock", 1)):
            self.assertEqual(len(list(verdict.failures(bad, [expected]))), count, expected)
            self.assertEqual(list(verdict.failures(GOOD, [expected])), [])
        never = changed(requests=requests(5, 0, 4, 4))
        self.assertEqual(list(verdict.failures(never, ["answered"])), ["1 request never taken"])


class Text(unittest.TestCase):
    def test_numbers_stand_in_columns_with_separators(self):
        lines = text.text_of(GOOD)
        head = next(it for it in lines if it.startswith("latency"))
        row = lines[lines.index(head) + 1]
        self.assertEqual(row.split(), ["first", "and", "last", "answer", "34", "67", "1,109", "1,109", "1,234,567",
                                       "130",
                                       "by", "thread", "1"])
        for name, number in (("min", "34"), ("p50", "67"), ("max", "1,234,567")):
            self.assertEqual(head.index(name) + len(name), row.index(f" {number} ") + 1 + len(number))

    def test_threads_that_wait_alike_have_one_line(self):
        left = [{"thread": it, "is_cut": False, "place": place(8, "accept"), "since": 40 + it} for it in range(1, 14)]
        lines = text.text_of(changed(left=left, more_left=980))
        self.assertIn("13 threads  41 to 53  server.c:8:5 accept in worker", lines)
        self.assertIn("980 more threads that didn't end", lines)
        whole = text.text_of(changed(left=left, more_left=980), is_all=True)
        self.assertIn("thread 13      53  server.c:8:5 accept in worker", whole)

    def test_what_one_takes_and_another_gives_has_no_holder(self):
        holders = [{"thread": 1, "units": -300}, {"thread": 2, "units": 301}]
        resource = {"resource": 1, "used": 1, "cap": 4, "holders": holders, "more_holders": 0}
        lines = text.text_of(changed(resources=[resource]))
        self.assertIn("resource 1  1 of 4 in use, taken by some threads and given by others", lines)
        self.assertNotIn("-300", "\n".join(lines))
        resource = resource | {"holders": [{"thread": 2, "units": 1}]}
        self.assertIn("resource 1  1 of 4 in use: 1 by thread 2", text.text_of(changed(resources=[resource])))

    def test_a_gate_that_a_resource_keeps_closed_is_explained(self):
        gate = {"times": 1, "ticks": 19949, "is_closed_at_end": True}
        full = {"resource": 1, "used": 1, "cap": 1, "holders": [], "more_holders": 0}
        run = {"ended": 20012, "busy": 20000, "segments": 9, "threads": 4}
        for parts, is_told in (({}, True), ({"run": run | {"ended": 40000}}, False), ({"resources": []}, False)):
            lines = "\n".join(text.text_of(changed(**({"gate": gate, "resources": [full], "run": run} | parts))))
            self.assertEqual("resource 1 in full use" in lines, is_told)
            self.assertIn("closed 1 time, for 19,949 ticks in all, closed at the end", lines)

    def test_a_report_is_short_and_narrow_whatever_the_run(self):
        parts = [{"kind": "waits", "ticks": it, "until": 10 * it, "place": place(it)} for it in range(1, 21)]
        request = {"number": 5, "is_slowest": True, "arrived": 10, "thread": 1, "parts": parts,
                   "shorter": {"count": 1, "ticks": 7}}
        left = [{"thread": it, "is_cut": False, "place": place(it + 1), "since": it,
                 "went_past": {"place": place(3), "at": 2}}
                for it in range(20)]
        full = changed(request=request, waits=[wait(it, it) for it in range(1, 60)], left=left, more_left=980)
        lines = text.text_of(full)
        self.assertLessEqual(len(lines), 40)
        self.assertLessEqual(max(map(len, lines)), 100)
        total = sum(range(1, 21)) + 7
        shown = [it for it in lines if " waits at server.c" in it or it.endswith("shorter parts")]
        self.assertEqual(sum(int(it.split()[0]) for it in shown), total)
        waits = [it for it in lines if it.endswith("(--all)")]
        self.assertEqual(len(waits), 1)
        self.assertGreater(len(text.text_of(full, is_all=True)), 110)

    def test_a_long_place_has_a_line_of_its_own(self):
        far = place(12) | {"file": "a/very/long/path/that/goes/on/and/on/in/some/folder/of/sources/server.c"}
        lines = text.text_of(changed(waits=[wait(3, 1) | {"place": far}]))
        self.assertIn(f"      {documents.shown(far)}", lines)
        self.assertLessEqual(max(map(len, lines)), 100)

    def test_times_are_shown_in_a_unit(self):
        unit = columns.Unit("us", 10)
        lines = text.text_of(GOOD, unit=unit)
        self.assertIn("latency, us", lines[lines.index("") + 5] + "".join(lines))
        self.assertIn("123,456.7", "\n".join(lines))
        self.assertEqual([columns.Unit("ms", it).shown(1500) for it in (1, 1000, 3)], ["1,500", "1.500", "500.0"])

    def test_a_wait_in_two_parts(self):
        split = {"count": 2, "blocked": 400, "ready": 2000, "greatest_ready": 1500, "thread": 1, "until": 9}
        lines = text.text_of(changed(waits=[wait(3, 2400, split=split), wait(4, 7, split=None)]))
        at = next(number for number, it in enumerate(lines) if it.startswith("waits"))
        self.assertEqual(lines[at].split()[:3], ["waits", "ticks", "ready"])
        self.assertEqual([it.split()[1:3] for it in lines[at + 1:at + 3]], [["2,400", "2,000"], ["7", "-"]])


if __name__ == "__main__":
    unittest.main()
