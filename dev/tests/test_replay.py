"""The replay of a run does what the log says, and its uses of resources are those of the proved
program: the log's edges and the stored reports have them."""
import pathlib, random, re, shutil, tempfile, unittest

from random_programs import compared, printers, trees
from runs import places, replay, story
from runs.story import Edge, Item, Segment

TOP = pathlib.Path(__file__).resolve().parent.parent.parent
LOGS = sorted(TOP.glob("examples/*/log*"))
REPORTS = sorted(it for it in TOP.glob("examples/*/report") if (it.parent / "log").exists())


def replayed(source, trace, log):
    """The replay of a run at its end, and its happenings, each with the uses from before it and behind it."""
    found, told = replay.Replay(source), []
    for it in story.Story(places.Places(source), trace).happenings(log):
        before = dict(found.uses)
        found.tell(it)
        told.append((it, before, dict(found.uses)))
    return found, told


def of_example(log):
    folder = log.parent
    return replayed((folder / "server.c").read_bytes(), (folder / "trace").read_text().splitlines(),
                    log.read_text().splitlines())


def averages_of(told):
    """By edge and resource, the average of the changes by docs/SCHEDULING.md, in 256ths."""
    found = {}
    for it, before, behind in told:
        if isinstance(it, Segment) and not it.cut:
            for resource in range(1, 8):
                change, edge = behind.get(resource, 0) - before.get(resource, 0), (it.node, it.end_node, resource)
                found[edge] = 256 * change if edge not in found else found[edge] - found[edge] // 8 + 32 * change
    return found


def by_hand(source, *lines, trace=()):
    return replayed(source.encode(), list(trace), list(lines))


class OfExamples(unittest.TestCase):
    def test_each_log_is_replayed_to_its_end(self):
        self.assertGreater(len(LOGS), 0)
        for log in LOGS:
            with self.subTest(log=f"{log.parent.name}/{log.name}"):
                self.assertFalse(of_example(log)[0].is_lost)

    def test_the_changes_of_resources_are_those_of_the_edges(self):
        checked = 0
        for log in LOGS:
            told = of_example(log)[1]
            averages = averages_of(told)
            for edge in (it for it, _, _ in told if isinstance(it, Edge)):
                for resource, change in enumerate(edge.changes[1:], 1):
                    with self.subTest(log=f"{log.parent.name}/{log.name}", edge=edge, resource=resource):
                        self.assertEqual(averages[edge.start, edge.end, resource], change)
                        checked += change != 0
        self.assertGreater(checked, 5)

    def test_the_uses_at_the_end_are_those_of_the_stored_reports(self):
        for report in REPORTS:
            with self.subTest(example=report.parent.name):
                said = {int(resource): int(used)
                        for resource, used in re.findall(r"^resource (\d+) +(\d+) of", report.read_text(), re.M)}
                self.assertEqual({resource: used
                                  for resource, used in of_example(report.parent / "log")[0].uses.items() if used},
                                  said)

    def test_the_calls_at_the_end_are_those_of_the_stored_reports(self):
        checked = 0
        for report in REPORTS:
            with self.subTest(example=report.parent.name):
                blocked = of_example(report.parent / "log")[0].blocked
                for thread, call in re.findall(r"^thread (\d+) +[\d,]+  \S+ (\w+)\(", report.read_text(), re.M):
                    self.assertEqual(blocked[int(thread)][0], call)
                    checked += 1
        self.assertGreater(checked, 5)


class ByHand(unittest.TestCase):
    def test_threads_resources_and_values(self):
        source = "void f(int n) { take(2, n + 1); yield(); give(2, n); } int main() { spawn(f, 2); spawn(f, 3); return 0; }"
        lines = ["run 0 0 0", "end 0 9 9", "run 9 1 0", "block 1 2 0 5 9", "run 14 1 2", "block 1 3 1 5 9",
                 "run 19 1 3", "end 1 5 9"]
        found, told = by_hand(source, *lines[:2])
        self.assertEqual((found.live, found.blocked, found.is_lost), (2, {}, False))
        found, told = by_hand(source, *lines[:4])
        self.assertEqual((found.blocked, found.uses[2]), ({1: ("take", 2, 3)}, 0))
        found, told = by_hand(source, *lines)
        self.assertEqual((found.live, found.blocked, found.uses[2], found.is_lost), (1, {}, 1, False))

    def test_what_comes_from_outside(self):
        source = "int main() { int c; c = accept(); put(waitfor(c, 9)); put(wait(c)); put(waitfor(c, -1)); return 0; }"
        trace = ["arrive 1 7", "arrive 2 8", "data 3 7 -5"]
        log = ["run 0 0 0", "block 0 2 0 1 9", "event 1 arrive 7", "drop 2 arrive 8", "run 2 0 2", "block 0 3 2 1 9",
               "event 3 data 7 -5", "run 3 0 3"]
        log += ["out 0 1", "block 0 4 4 1 9", "run 4 0 4", "out 0 -5", "block 0 5 6 1 9", "run 5 0 5", "out 0 0",
                "end 0 1 9"]
        self.assertFalse(by_hand(source, *log, trace=trace)[0].is_lost)

    def test_a_log_that_the_source_does_not_make_is_noticed(self):
        source = "int main() { put(5); yield(); return 0; }"
        good = ["run 0 0 0", "out 0 5", "block 0 2 1 1 9", "run 1 0 2", "end 0 1 9"]
        self.assertFalse(by_hand(source, *good)[0].is_lost)
        self.assertTrue(by_hand(source, "run 0 0 0", "out 0 6", "block 0 2 1 1 9")[0].is_lost)
        self.assertTrue(by_hand(source, "run 0 0 0", "out 0 5", "end 0 1 9")[0].is_lost)

    def test_a_segment_that_was_cut_is_not_made(self):
        found, _ = by_hand("int main() { while (1) { } return 0; }", "run 0 0 0", "stop fuel 0 100 9")
        self.assertFalse(found.is_lost)

    def test_order_and_scopes(self):
        source = """int g; int a[3]; int (*t[2])(int) = { up, down };
            int up(int n) { g = g + n; return g; }
            int down(int n) { yield(); g = g - n; return g; }
            int main() {
                int i = 1;
                put(g + up(2) + g);
                { int i = 5; put(i); }
                for (int i = 0; i < 3; i = i + 1) { if (i == 1) continue; a[i] = a[0] * 2 + i + 1; }
                put(a[0]); put(a[1]); put(a[2]);
                a[up(-1)] = t[i](1);
                put(a[1]);
                put(i); put(0 - 2147483647 - 2); put(-7 / 2); put(-7 % 2); put(7 / 0); put(1 << 33); put(-8 >> 1); put(0x80000000);
                put(!5); put(~5); put(3 && 2); put(0 || 0); put(1 ? 2 : 3); put(1 < 2 == 1);
                return 0;
            }"""
        # the prototypes of what stands in the table, as CapC asks for them
        source = "int up(int n); int down(int n); " + source
        outs = [4, 5, 1, 0, 5]
        more = [0, 1, 2147483647, -3, -1, -1, 2, -4, -2147483648, 0, -6, 1, 0, 2, 1]
        log = ["run 0 0 0", *[f"out 0 {it}" for it in outs], "block 0 2 0<8 1 9", "run 1 0 2",
               *[f"out 0 {it}" for it in more], "end 0 1 9"]
        self.assertEqual(by_hand(source, *log)[0].outputs, more)

    def test_what_python_does_not_take_is_left(self):
        deep = "int main() { " + "while (1) { " * 30 + "yield(); " + "} " * 30 + "return 0; }"
        self.assertTrue(replay.Replay(deep.encode()).is_lost)
        self.assertTrue(replay.Replay(b"int main() {").is_lost)
        self.assertTrue(replay.Replay(b"").is_lost)


def lines_of(source):
    """What the threads of a source put that never block, each made to its end."""
    found, lines = replay.Replay(source), []
    while found.running in found.threads:
        try:
            next(found.threads[found.running], None)
            end = "stop done"
        except (IndexError, found.trap):
            end = f"stop trap {found.running}"
        lines += [f"out {found.running} {it}" for it in found.outputs]
        if end != "stop done":
            break
        found.running, found.outputs = found.running + 1, []
    return [*lines, end]


@unittest.skipUnless(shutil.which("gcc"), "there is no gcc")
class RandomPrograms(unittest.TestCase):
    def test_they_put_what_gcc_makes_of_them(self):
        values = 0
        for seed in range(20, 32):
            tree = trees.Program(random.Random(seed))
            with tempfile.TemporaryDirectory() as folder, self.subTest(seed=seed):
                native = compared.native_lines(pathlib.Path(folder), printers.C().program(tree))
                lines = lines_of(printers.CapC().program(tree).encode())
                self.assertEqual(lines[:-1], native[:-1])
                self.assertTrue(native[-1].startswith(lines[-1]))
                values += len(native)
        self.assertGreater(values, 300)


if __name__ == "__main__":
    unittest.main()
