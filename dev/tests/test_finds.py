"""What is found in the logs of examples/, against the reports that the proved program has made of them, and against the
stops and drops that the logs have."""
import pathlib, re, unittest

from runs import finds, following, outcome, places

TOP = pathlib.Path(__file__).resolve().parent.parent.parent
LOGS = sorted(TOP.glob("examples/*/log*"))
STEP = re.compile(r"thread (\d+) → resource (\d+)")


def options_of(log):
    words = log.parent / log.name.replace("log", "options")
    words = words.read_text().split() if words.exists() else []
    return {name[2:]: value for name, value in zip(words[::2], words[1::2])}


def found_in(log, kinds=tuple(finds.KINDS)[:-1], **words):
    looker = finds.Looker((log.parent / "server.c").read_bytes(), kinds, "server.c", **words)
    found = {it.kind: it for it in looker.finds(log.read_text(), options_of(log))}
    return found, looker.lost


class OfExamples(unittest.TestCase):
    def test_circles_are_those_of_the_reports(self):
        circles = 0
        for report in TOP.glob("examples/*/report"):
            log = report.parent / "log"
            if log.exists():
                with self.subTest(example=report.parent.name):
                    line = re.search(r"^deadlock: (.*)$", report.read_text(), re.M)
                    source = (report.parent / "server.c").read_bytes()
                    told = outcome.Outcome(log.read_text(), places.Places(source))
                    steps = following.circle(told, following.followed(source, told.log), finds.caps_of(options_of(log)))
                    self.assertEqual([(str(it.thread), str(it.resource)) for it in steps], STEP.findall(line[1])
                                     if line else [])
                    circles += bool(line)
        self.assertGreater(circles, 0)

    def test_the_bank_deadlocks_at_its_second_take(self):
        found, _ = found_in(TOP / "examples/bank/log")
        self.assertEqual(list(found), ["deadlock"])
        self.assertEqual(found["deadlock"].where, "server.c:8:3 take in transfer, called at server.c:20:5 in teller")

    def test_two_of_the_banks_requests_have_no_answer(self):
        """By its report: 5 came, 4 taken, 2 answered."""
        self.assertRegex((TOP / "examples/bank/report").read_text(), "5 came, 0 dropped, 4 taken, 2 answered")
        found, _ = found_in(TOP / "examples/bank/log", ["unanswered"])
        self.assertRegex(found["unanswered"].detail, "^2 of 4 requests, the first taken by thread 1 at 1000")

    def test_stops_are_those_of_the_logs(self):
        for log in LOGS:
            with self.subTest(log=log):
                stop = log.read_text().splitlines()[-1].split()[1]
                found, lost = found_in(log)
                self.assertEqual([it for it in found if it in ("trap", "nochunk", "fuel", "threads")], [stop]
                                 if stop in finds.KINDS else [])
                self.assertEqual(lost, 0)

    def test_nothing_else_is_found(self):
        """No other server of examples/ deadlocks, drops or starves, and none leaves a request that its thread is at."""
        for log in LOGS:
            if log.parent.name != "bank":
                with self.subTest(log=log):
                    self.assertEqual(set(found_in(log, ["deadlock", "unanswered", "drop", "starved"])[0]), set())

    def test_requests_have_the_numbers_of_the_reports(self):
        for report in TOP.glob("examples/*/report"):
            log = report.parent / "log"
            if log.exists():
                told = outcome.Outcome(log.read_text(), places.Places((report.parent / "server.c").read_bytes()))
                numbers = [len(told.delivered), len(told.dropped), len(told.takers), sum(map(bool, told.answers))]
                wanted = re.search(r"^requests +(\d+) came, (\d+) dropped, (\d+) taken, (\d+) answered",
                                   report.read_text(), re.M)
                self.assertEqual(numbers, list(map(int, wanted.groups())))

    def test_a_sleeping_thread_was_ready_for_as_long_as_it_was_late(self):
        """In the limiter a sleep of 1,000 ticks in `worker` ends when the thread is chosen: the log has the clocks."""
        folder = TOP / "examples/limiter"
        told = outcome.Outcome((folder / "log").read_text(), places.Places((folder / "server.c").read_bytes()))
        longest = following.longest_ready((folder / "server.c").read_bytes(), told, {1: 2})
        for it in longest.values():
            self.assertLessEqual(0, it.until - it.since)
            self.assertLess(it.until - it.since, 200)  # (four workers, segments below 50 ticks)


SPIN = b"""int ready;
void spinner(int n) { while (!ready) yield(); put(1); }
void setter(int n) { ready = 1; }
int main() { spawn(spinner, 0); spawn(setter, 0); return 0; }
"""
SPINNING = "run 0 0 0\nend 0 30 1022\nrun 30 1 0\nblock 1 2 0 20 1022\n" + "".join(f"run {50 + 20 * it} 1 2\nblock 1 2 0 20 1022\n" for it in range(100)) + "run 2050 1 2\nstop fuel 1 20 1022\n"


class Starved(unittest.TestCase):
    def found(self, patience):
        return finds.Looker(SPIN, ["starved"], "spin.c", patience).finds(SPINNING, {})

    def test_a_thread_that_never_ran_is_starved(self):
        found = self.found(1000)
        self.assertEqual([(it.kind, it.where) for it in found], [("starved", "the start of a thread")])
        self.assertEqual(found[0].detail, "thread 2 was ready from 30 to 2070")

    def test_within_the_patience_none_is(self):
        self.assertEqual(self.found(3000), [])


class Compared(unittest.TestCase):
    LOG = "run 0 0 0\nblock 0 2 1 10 9\nevent 10 arrive 5\nrun 10 0 2\nout 0 {}\nblock 0 2 1 10 9\nevent 20 arrive 6\nrun 20 0 2\n{}block 0 2 1 10 9\nstop idle\n"
    SOURCE = b"int main() { while (1) put(accept()); }"

    def found(self, first, second, kinds):
        looker = finds.Looker(self.SOURCE, kinds, "echo.c")
        wanted = finds.First(looker.outputs_by_line(self.LOG.format(5, "out 0 6\n")), [0, 1])
        return [it.kind for it in looker.finds(self.LOG.format(first, second), {}, wanted)]

    def test_other_outputs_are_found(self):
        self.assertEqual(self.found(5, "out 0 6\n", ["outputs"]), [])
        self.assertEqual(self.found(5, "out 0 7\n", ["outputs"]), ["outputs"])

    def test_a_request_that_the_first_run_answered_is_unanswered(self):
        self.assertEqual(self.found(5, "", ["unanswered", "outputs"]), ["unanswered"])
        self.assertEqual(self.found(5, "out 0 7\n", ["unanswered"]), [])

    def test_a_command_reads_the_log(self):
        looker = finds.Looker(self.SOURCE, ["command"], "echo.c",
                              command="if grep -q '^out 0 9'; then echo nine; exit 1; fi")
        self.assertEqual(looker.finds(self.LOG.format(5, ""), {}), [])
        self.assertEqual([it.where for it in looker.finds(self.LOG.format(9, ""), {})], ["nine"])


if __name__ == "__main__":
    unittest.main()
