"""Steps through runs, forwards and backwards: they are those of the logs, of gcc and of docs/LANGUAGE.md."""
import pathlib, random, shutil, tempfile, unittest

from debugging import asked, code, expressions, launch, replayed, session, stops, timeline, world
from random_programs import compared, printers, trees

TOP = pathlib.Path(__file__).resolve().parent.parent.parent
LOGS = sorted(TOP.glob("examples/*/log*"))


def options_of(log):
    """The words of the run of a stored log."""
    for name in (f"options{log.name.removeprefix('log')}", "options"):
        if (log.parent / name).exists():
            return (log.parent / name).read_text().split()
    return []


def words_of(log):
    return launch.Words(["serve", *options_of(log), str(log.parent / "server.c")])


def timeline_of(source, lines, caps=None, chunks=1024):
    return timeline.Timeline(code.Code(source), caps or {}, replayed.Log(lines), chunks)


def of_example(log):
    words = words_of(log)
    return timeline_of(
        (log.parent / "server.c").read_bytes(), log.read_text().splitlines(), words.caps(), words.chunks()
    )


class Documents:
    """Moments that nobody looks at."""

    def at(self, run, code):
        raise AssertionError("no document is needed")


def session_of(source, lines, caps=None):
    return session.Session(code.Code(source), caps or {}, replayed.Log(lines), 1024, Documents(), "server.c")


BANK = TOP / "examples/bank"


def bank():
    return session_of((BANK / "server.c").read_bytes(), (BANK / "log").read_text().splitlines(), {1: 1, 2: 1})


class OfExamples(unittest.TestCase):
    def test_each_log_is_replayed_to_its_stop(self):
        self.assertGreater(len(LOGS), 10)
        for log in LOGS:
            with self.subTest(log=f"{log.parent.name}/{log.name}"):
                made = of_example(log)
                while made.advance():
                    pass
                self.assertEqual(made.now.stop, log.read_text().splitlines()[-1])

    def test_a_log_of_another_source_is_refused_with_its_line(self):
        source, lines = (BANK / "server.c").read_bytes(), (BANK / "log").read_text().splitlines()
        wrong = {
            "out 1 5": "out 1 6",
            "block 1 3 0<7 40 1022": "block 1 3 1<7 40 1022",
            "run 31 1 0": "run 31 5 0",
            "end 0 31 1022": "block 0 2 0 31 1022",
            "run 246 1 4": "run 245 1 4",
        }
        for line, other in wrong.items():
            with self.subTest(line=line):
                at = lines.index(line)
                made = timeline_of(source, [*lines[:at], other, *lines[at + 1 :]], {1: 1, 2: 1})
                with self.assertRaisesRegex(replayed.Differs, "line"):
                    while made.advance():
                        pass

    def test_a_log_without_a_stop_is_refused(self):
        with self.assertRaisesRegex(replayed.Differs, "stop"):
            replayed.Log(["run 0 0 0", "end 0 31 1022"])


class Steps(unittest.TestCase):
    """Counts by docs/LANGUAGE.md, "Meaning", in rewritten texts."""

    def steps(self, body, lines=("end 0 9 9",), more=""):
        made = timeline_of(f"{more} int main() {{ {body} }}".encode(), ["run 0 0 0", *lines, "stop done"])
        made.go_to_line(1)
        while made.now.running:
            made.advance()
        return made.now.time - 1

    def test_statements(self):
        self.assertEqual(self.steps("return 0;"), 1)
        self.assertEqual(self.steps("int x; x = 2; { ; } return x;"), 3)
        self.assertEqual(self.steps("int a[3]; a[1] = 1;"), 3)  # the end of the body is a step

    def test_loops(self):
        turn = 2 + 1  # test, body, jump back; at the end a test, and the return
        self.assertEqual(self.steps("int i = 0; while (i < 3) i = i + 1; return 0;"), 1 + 3 * turn + 2)
        self.assertEqual(self.steps("int i; for (i = 0; i < 3; i = i + 1) ; return 0;"), 2 + 3 * turn + 2)
        # without a condition a turn has no test: `if`, then the step and the jump back, or `break`
        self.assertEqual(self.steps("int i = 0; for (;; i = i + 1) if (i == 2) break; return 0;"), 1 + 2 * 3 + 2 + 1)
        self.assertEqual(self.steps("int i = 0; while (i < 2) { i = i + 1; continue; } return 0;"), 1 + 2 * 3 + 2)
        self.assertEqual(self.steps("int i; for (i = 0; i < 2; i = i + 1) continue; return 0;"), 2 + 2 * 4 + 2)

    def test_calls_inside_expressions(self):
        more = "int g; int f(int n) { return n; }"
        call = 2  # the call, and the return
        self.assertEqual(self.steps("int x; x = f(1) + f(2); return 0;", more=more), 1 + 2 * call + 1 + 1)
        self.assertEqual(
            self.steps("int x; x = g + f(2); return 0;", more=more), 1 + 1 + call + 1 + 1
        )  # g has a name of its own
        self.assertEqual(
            self.steps("int x; x = 5 + f(2); return 0;", more=more), 1 + call + 1 + 1
        )  # a number keeps its place
        self.assertEqual(self.steps("int x; x = (5) + f(2); return 0;", more=more), 1 + 1 + call + 1 + 1)
        self.assertEqual(self.steps("int x; x = f(f(3)); return 0;", more=more), 1 + 2 * call + 1)
        self.assertEqual(self.steps("return f(4);", more=more), call + 1)
        # `int h = l != 0; if (h) { int i = f(1); h = i != 0; }`, and the `if` of the source
        self.assertEqual(self.steps("if (1 && f(1)) ; return 0;", more=more), 2 + call + 1 + 1 + 1)
        self.assertEqual(self.steps("if (0 && f(1)) ; return 0;", more=more), 2 + 1 + 1)
        # `while (1) { int h = f(0); if (!h) break; .. }`
        self.assertEqual(self.steps("while (f(0)) ; return 0;", more=more), 1 + call + 1 + 1 + 1)


@unittest.skipUnless(shutil.which("gcc"), "there is no gcc")
class RandomPrograms(unittest.TestCase):
    def test_they_put_what_gcc_makes_of_them(self):
        values = 0
        for seed in range(40, 50):
            tree = trees.Program(random.Random(seed))
            with tempfile.TemporaryDirectory() as folder, self.subTest(seed=seed):
                native = compared.native_lines(pathlib.Path(folder), printers.C().program(tree))
                lines = lines_of(printers.CapC().program(tree).encode())
                self.assertEqual(lines[:-1], native[:-1])
                self.assertTrue(native[-1].startswith(lines[-1]))
                values += len(native)
        self.assertGreater(values, 250)


def lines_of(source):
    """What the threads of a source put that never block, each made to its end."""
    made, lines, number = world.World(code.Code(source), {}), [], 0
    while number in made.threads:
        made.resume(number)
        try:
            while made.running:
                made.step()
        except expressions.Trap:
            return [*lines, *[f"out {number} {it}" for it in made.outputs], f"stop trap {number}"]
        lines += [f"out {number} {it}" for it in made.outputs]
        number += 1
    return [*lines, "stop done"]


class Moving(unittest.TestCase):
    """The log of examples/bank, with the lines of its source."""

    def lines(self, made, move, times):
        found = []
        for _ in range(times):
            move()
            found.append(made.current_line())
        return found

    def test_forwards_and_back_by_statements(self):
        made = bank()
        made.add_breakpoint("transfer")
        made.forward()
        made.points.clear()
        self.assertEqual((made.thread, made.run.clock, made.current_line()), (1, 100, 6))
        self.assertEqual(self.lines(made, made.next, 8), [7, 8, 9, 10, 11, 12, 13, 14])
        self.assertEqual(self.lines(made, made.reverse_next, 8), [13, 12, 11, 10, 9, 8, 7, 6])
        self.assertEqual(self.lines(made, made.reverse_step, 3), [20, 19, 18])

    def test_each_step_back_undoes_a_step(self):
        made, times = bank(), []
        made.add_breakpoint("19")
        made.forward()
        made.points.clear()
        for _ in range(12):
            times.append(made.run.time)
            made.step()
        for time in reversed(times):
            made.reverse_step()
            self.assertEqual(made.run.time, time)

    def test_step_goes_into_a_call_and_finish_out_of_it(self):
        made = bank()
        made.add_breakpoint("20")
        made.forward()
        made.points.clear()
        made.step()
        self.assertEqual((made.frame().function.name, made.current_line()), ("transfer", 6))
        hit = made.finish()
        self.assertEqual((hit.reason, made.frame().function.name), ("finish", "teller"))
        made.reverse_step()
        self.assertEqual((made.frame().function.name, made.current_line()), ("transfer", 14))
        made.reverse_finish()
        self.assertEqual((made.frame().function.name, made.current_line()), ("teller", 20))

    def test_conditions_threads_and_counts(self):
        made = bank()
        point = made.add_breakpoint("transfer", condition="from == 2")
        made.forward()
        self.assertEqual((made.thread, made.run.clock, point.hits), (2, 500, 1))
        point.is_enabled = False
        other = made.add_breakpoint("6", thread=1)
        other.set_hit_condition("== 2")
        made.timeline.go_to_time(0)
        made.forward()
        self.assertEqual((made.thread, made.run.clock, other.hits), (1, 1000, 2))
        with self.assertRaisesRegex(asked.Unknown, "count of hits"):
            other.set_hit_condition("often")

    def test_a_watch_stops_behind_a_change_and_back_before_it(self):
        made = bank()
        made.add_watch("balances[2]")
        hit = made.forward()
        self.assertEqual((hit.old, hit.new, made.run.clock, made.current_line()), (0, 5, 255, 11))
        hit = made.forward()
        self.assertEqual((hit.old, hit.new, made.run.clock), (5, 0, 655))
        hit = made.backward()
        self.assertEqual((hit.old, hit.new, made.run.clock, made.current_line()), (5, 0, 655, 9))
        hit = made.backward()
        self.assertEqual((hit.old, hit.new, made.run.clock, made.current_line()), (0, 5, 255, 10))
        self.assertEqual(made.backward().reason, "start")

    def test_a_local_is_watched_in_all_frames_of_its_function(self):
        made, seen = bank(), []
        made.add_watch("teller.request")
        while (hit := made.forward()).reason == "watch":
            seen.append((made.thread, hit.old, hit.new))
        self.assertEqual(seen, [(1, 0, 12), (2, 0, 21)])  # the later requests are the same numbers

    def test_a_moment_by_clock_and_by_line(self):
        made = bank()
        made.go_to_clock(1040)
        self.assertEqual(made.run.moment, (32, 0))
        made.go_to_line(14, 2)
        self.assertEqual((made.run.moment, made.current_line()), ((14, 2), 11))
        for words, why in (
            ("line 14 +99", "fewer than 99 steps"),
            ("line 999", "lines 1 to 48"),
            ("soon", "expected a clock"),
        ):
            with self.assertRaisesRegex(asked.Unknown, why):
                made.go_to_words(words)

    def test_what_is_not_there_is_refused_with_what_is(self):
        made = bank()
        made.go_to_line(14)
        for ask, why in (
            (lambda: made.add_breakpoint("teler"), "functions are transfer, teller, main"),
            (lambda: made.add_breakpoint("99"), "the last one is at line 28"),
            (lambda: made.add_watch("balance"), "no name balance is in scope here: from, to, amount, balances"),
            (lambda: made.add_watch("tell.x"), "no function tell"),
            (lambda: made.add_breakpoint("6", condition="put(1)"), "without calls"),
            (lambda: made.add_breakpoint("6", condition="from +"), "isn't an expression"),
            (lambda: made.add_breakpoint("6", condition="balances"), "is an array"),
            (lambda: made.add_breakpoint("waitfor"), "no call of waitfor"),
        ):
            with self.assertRaisesRegex(asked.Unknown, why):
                ask()
        self.assertEqual(made.points, {})


class LostUpdate(unittest.TestCase):
    """Two threads read `total`, wait, and write it: of 1 and 2 only one is kept."""

    SOURCE = b"""int total;
void add(int n) { int before; before = total; sleep(10); total = before + n; }
int main() { spawn(add, 1); spawn(add, 2); return 0; }"""
    LOG = [
        "run 0 0 0",
        "end 0 10 9",
        "run 10 1 0",
        "block 1 2 0 5 9",
        "run 15 2 0",
        "block 2 2 0 5 9",
        "run 25 1 2",
        "end 1 5 9",
        "run 30 2 2",
        "end 2 5 9",
        "stop done",
    ]

    def test_the_read_and_the_writes_between_are_told(self):
        made = session_of(self.SOURCE, self.LOG)
        watch = made.add_watch("total")
        hit = made.forward()
        self.assertEqual(
            (hit.old, hit.new, made.thread, made.last_read(watch)), (0, 1, 1, ((10, "server.c:2:31"), []))
        )
        hit = made.forward()
        self.assertEqual((hit.old, hit.new, made.thread), (1, 2, 2))
        self.assertEqual(made.last_read(watch), ((15, "server.c:2:31"), [(25, 1, 1)]))
        self.assertEqual(made.run.clock, 30)


class Copies(unittest.TestCase):
    def test_going_back_ends_where_running_again_does(self):
        source = b"int s; int main() { int i; for (i = 0; i < 3000; i = i + 1) s = s + i; return 0; }"
        made = session_of(source, ["run 0 0 0", "end 0 9 9", "stop done"])
        made.timeline.interval = 50  # many copies, which thin out
        made.forward()
        self.assertLessEqual(len(made.timeline.copies), timeline.MOST_COPIES + 1)
        made.timeline.go_to_time(2 + 4 * 1234)  # four steps a turn: test, sum, step, jump back
        self.assertEqual(made.run.globals, [sum(range(1234))])


if __name__ == "__main__":
    unittest.main()
