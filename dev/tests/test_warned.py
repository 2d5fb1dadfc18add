"""tools/warn: each kind of warning on a source that deserves it and none on one that doesn't, and the
number of warnings on the examples."""
import json, pathlib, re, subprocess, sys, tempfile, unittest

from runs import places
from sources import tree
from warned import found, rules, walk

TOP = pathlib.Path(__file__).resolve().parent.parent.parent
TOOLS = TOP / "tools"
WORKERS = "int main() { spawn(worker, 1); spawn(worker, 2); return 0; }\n"
TILL = """int total;
int tax(int price) {
  sleep(100);
  return price / 10;
}
void sale(int price) {
  total = total + price + tax(price);
}
void worker(int n) {
  while (1) sale(accept());
}
"""
KV = """void writer(int n) {
  while (1) {
    accept();
    take(1, 1);
    take(2, 1);
    give(2, 1);
    give(1, 1);
  }
}
void cleaner(int n) {
  while (1) {
    sleep(500);
    take(2, 1);
    take(1, 1);
    give(1, 1);
    give(2, 1);
  }
}
"""


def told(source, *traces, both=True):
    """The warnings of a source, `KIND LINE: TEXT`, with two workers if it has no main."""
    source = (source if "main" in source or not both else source + WORKERS).encode()
    comments = found.Comments(source)
    warnings, _ = comments.sift(rules.warnings_of(source, traces))
    lines = [comments.line(it.at) if it.file is None else f"{it.file}:{it.at}" for it in warnings]
    return [f"{it.kind} {line}: {it.text.format(*map(comments.place, it.places))}" for it, line in zip(warnings, lines)]


def worker(body, more=""):
    """A worker of which two run."""
    return f"{more}void worker(int n) {{\n{body}\n}}\n"


class OfExamples(unittest.TestCase):
    def test_the_only_warning_is_the_deadlock_of_the_bank(self):
        """docs/WRITING.md says so: no false alarm on the fifteen examples."""
        given = {}
        for source in sorted(TOP.glob("examples/*/server.c")):
            trace = (source.parent / "trace").read_text().splitlines()
            given[source.parent.name] = told(source.read_text(), ("trace", trace))
        self.assertEqual(len(given), 15)
        self.assertEqual({name for name, it in given.items() if it}, {"bank"})
        self.assertEqual(len(given["bank"]), 1)
        wanted = "order 8: takes `to` while it holds `from`, taken at 6:3"
        self.assertTrue(given["bank"][0].startswith(wanted), given["bank"])

    def test_the_sites_of_a_tree_are_those_of_the_program(self):
        for path in sorted(TOP.glob("examples/*/server.c")):
            source = path.read_bytes()
            bodies = [it.body for it in tree.program_of(source).functions.values()]
            calls = [it for body in bodies for it in tree.all_in(body) if isinstance(it, tree.Call)]
            calls.sort(key=lambda it: it.site)
            self.assertEqual([it.name for it in calls], [it.callee for it in places.Places(source).sites], path)
            self.assertEqual([it.site for it in calls], list(range(len(calls))))


class Updates(unittest.TestCase):
    def test_a_total_is_read_before_a_call_that_blocks_and_written_after_it(self):
        given = told(TILL)
        what = "total is read, tax() may block at 3:3, then total is written at 7:3"
        self.assertEqual(given, [f"update 7: {what}: a write in between by another thread is lost"])

    def test_through_a_local_and_through_callees(self):
        more = "int total; int get() { return total; } void set(int n) { total = n; }\n"
        given = told(worker("  int seen;\n  seen = get();\n  sleep(1);\n  set(seen + 1);", more))
        self.assertEqual([it.partition(":")[0] for it in given], ["update 1"])
        self.assertIn("sleep() may block at 5:3, then total is written at 1:58", given[0])

    def test_through_two_calls_that_read_and_write(self):
        given = told("int total; void note(int price) { total = total + price; }\n" + worker("  note(accept());"))
        self.assertEqual(given, [])  # the call that blocks comes first

    def test_a_test_before_a_call_that_blocks(self):
        body = "  if (free > 0) {\n    sleep(10);\n    free = free - 1;\n  }"
        given = told(worker(body, "int free = 3;\n"))
        self.assertEqual(len(given), 1)
        self.assertIn("update 3: free is tested, sleep() may block at 4:5, then free is written at 5:5", given[0])
        again = body.replace("    free = free - 1;", "    if (free > 0) free = free - 1;")
        self.assertEqual(told(worker(again, "int free = 3;\n")), [])

    def test_an_early_return_is_a_test_too(self):
        body = "  if (is_busy) return;\n  sleep(10);\n  is_busy = 1;"
        self.assertIn("is_busy is tested", told(worker(body, "int is_busy;\n"))[0])
        self.assertEqual(told(worker("  while (is_busy) sleep(10);\n  is_busy = 1;", "int is_busy;\n")), [])

    def test_no_other_thread_writes_it(self):
        alone = "int main() { spawn(worker, 1); return 0; }"
        self.assertEqual(told(TILL + alone), [])
        self.assertEqual(len(told(TILL + alone.replace("return", "spawn(worker, 1); return"))), 1)
        self.assertEqual(len(told(TILL + alone.replace("spawn", "int n; for (n = 0; n < 2; n = n + 1) spawn"))), 1)
        reader = "void reader(int n) { while (1) { sleep(5); put(total); } }\n"
        both = alone.replace("return", "spawn(reader, 1); return")
        self.assertEqual(told(TILL + reader + both), [])
        self.assertEqual(len(told(TILL + reader.replace("put(total)", "total = 0") + both)), 1)

    def test_a_resource_that_is_held_all_along_protects(self):
        body = "  take(1, 1);\n  total = total + wait(2);\n  give(1, 1);"
        self.assertEqual(told(worker(body, "int total;\n")), [])
        late = "  int seen;\n  seen = total;\n  take(1, 1);\n  total = seen + 1;\n  give(1, 1);"
        self.assertEqual(len(told(worker(late, "int total;\n"))), 1)
        apart = "  take(1, 1);\n  int seen = total;\n  give(1, 1);\n  sleep(1);\n"
        apart += "  take(1, 1);\n  total = seen + 1;\n  give(1, 1);"
        self.assertEqual(len(told(worker(apart, "int total;\n"))), 1)

    def test_another_element_or_a_fresh_value(self):
        same = "  int i = accept();\n  sum[i] = sum[i] + wait(i);"
        self.assertEqual(len(told(worker(same, "int sum[8];\n"))), 1)
        self.assertEqual(told(worker(same.replace("sum[i] =", "sum[i + 1] ="), "int sum[8];\n")), [])
        self.assertEqual(told(worker("  last = wait(3);\n  put(last);\n  last = wait(3);", "int last;\n")), [])

    def test_a_table_and_a_recursion(self):
        more = "int total;\nint slow(int n) { sleep(n); return n; }\nint fast(int n) { return n; }\n"
        more += "int (*does[2])(int) = { fast, slow };\n"
        self.assertEqual(len(told(worker("  total = total + does[n](3);", more))), 1)
        self.assertEqual(told(worker("  total = does[n](3) + total;", more)), [])
        deep = "int total;\nint down(int n) { if (n > 0) return down(n - 1); yield(); return 0; }\n"
        self.assertEqual(len(told(worker("  total = total + down(3);", deep))), 1)


class Orders(unittest.TestCase):
    BOTH = "int main() { spawn(writer, 0); spawn(cleaner, 0); return 0; }\n"

    def test_two_resources_in_two_orders(self):
        given = told(KV + self.BOTH)
        both = "takes 2 while it holds 1, 14:5 takes 1 while it holds 2"
        self.assertEqual(given, [f"order 5: {both}: the threads may wait for one another"])

    def test_one_order_or_one_thread(self):
        same = KV.replace("take(2, 1);\n    take(1, 1);", "take(1, 1);\n    take(2, 1);")
        self.assertNotEqual(same, KV)
        self.assertEqual(told(same + self.BOTH), [])
        one = "take(1, 1); take(2, 1); give(2, 1); give(1, 1);"
        other = "take(2, 1); take(1, 1); give(1, 1); give(2, 1);"
        self.assertEqual(told(f"int main() {{ {one} {other} return 0; }}"), [])

    def test_a_third_resource_around_both(self):
        guarded = re.sub(r"take\((\d), 1\);\n    take", r"take(3, 1);\n    take(\1, 1);\n    take", KV)
        guarded = re.sub(r"    give\((\d), 1\);\n  }", r"    give(\1, 1);\n    give(3, 1);\n  }", guarded)
        self.assertEqual(guarded.count("(3, 1)"), 4)
        self.assertEqual(told(guarded + self.BOTH), [])

    def test_a_circle_of_three_by_arguments(self):
        body = "  while (1) {\n    take(n, 1);\n    sleep(5);\n    take(n % 3 + 1, 1);\n"
        body += "    give(n, 1);\n    give(n % 3 + 1, 1);\n  }"
        three = worker(body) + "int main() { spawn(worker, 1); spawn(worker, 2); spawn(worker, 3); return 0; }\n"
        steps = "takes 2 while it holds 1, 5:5 takes 3 while it holds 2, 5:5 takes 1 while it holds 3"
        self.assertEqual(told(three), [f"order 5: {steps}: the threads may wait for one another"])
        any_number = worker(body) + "int main() { int n; for (n = 1; n < 4; n = n + 1) spawn(worker, n); return 0; }\n"
        self.assertIn("takes `n % 3 + 1` while it holds `n`, taken at 3:5", told(any_number)[0])

    def test_values_that_were_compared(self):
        swap = "  int a = accept();\n  int b = accept();\n  if (a > b) {\n    int c = a;\n    a = b;\n    b = c;\n  }\n"
        takes = "  take(a, 1);\n  take(b, 1);\n  give(b, 1);\n  give(a, 1);"
        self.assertEqual(told(worker(swap + takes)), [])
        self.assertEqual(len(told(worker(swap[: swap.index("  if")] + takes))), 1)

    def test_one_resource_again(self):
        more = "void note() { take(1, 1); put(1); give(1, 1); }\n"
        given = told(worker("  take(1, 1);\n  note();\n  give(1, 1);", more))
        self.assertEqual(len(given), 1)
        self.assertIn("order 1: takes 1 while it holds 1, taken at 3:3", given[0])

    def test_the_place_is_that_of_the_number(self):
        locks = "void lock(int which) {\n  take(which, 1);\n}\nvoid unlock(int which) {\n  give(which, 1);\n}\n"
        source = re.sub(r"take\((\d), 1\)", r"lock(\1)", re.sub(r"give\((\d), 1\)", r"unlock(\1)", KV))
        both = "takes 2 while it holds 1, 20:5 takes 1 while it holds 2"
        self.assertEqual(told(locks + source + self.BOTH), [f"order 11: {both}: the threads may wait for one another"])

    def test_a_mailbox_has_no_order(self):
        page = (TOP / "docs/WRITING.md").read_text()
        mailbox = next(it for it in re.findall(r"^```\n(.*?)^```", page, re.S | re.M) if it.startswith("int letter;"))
        self.assertEqual(told(mailbox), [])


class Kept(unittest.TestCase):
    def test_a_return_in_between(self):
        body = "  int n2;\n  while (1) {\n    answer(accept());\n  }"
        more = "void answer(int n) {\n  take(1, 1);\n  if (n < 0) return;\n  put(n);\n  give(1, 1);\n}\n"
        where = "gives it back on one path, but not where the call ends at 3:14"
        self.assertEqual(told(worker(body, more)), [f"kept 2: takes `1`, and {where}"])
        self.assertEqual(told(worker(body, more.replace("return;", "{ give(1, 1); return; }"))), [])

    def test_a_branch_and_a_continue(self):
        self.assertIn("kept 3", told(worker("  while (1) {\n    take(1, 1);\n    if (accept()) give(1, 1);\n  }"))[0])
        body = "  while (1) {\n    take(1, 1);\n    if (accept()) continue;\n    give(1, 1);\n  }"
        self.assertIn("kept 3", told(worker(body))[0])
        self.assertEqual(told(worker(body.replace("continue;", "{ give(1, 1); continue; }"))), [])

    def test_never_given(self):
        body = "  while (1) {\n    int n2 = accept();\n    take(1, 1);\n    put(n2);\n  }"
        self.assertIn("kept 4: takes `1`, and doesn't give it back on each path", told(worker(body))[0])
        self.assertIn("the thread ends at", told(worker("  take(1, 1);\n  put(n);"))[0])

    def test_what_is_kept_on_purpose(self):
        lock = "void lock() { take(1, 1); }\nvoid unlock() { give(1, 1); }\n"
        self.assertEqual(told(worker("  while (1) { lock(); put(accept()); unlock(); }", lock)), [])
        trying = "int try() { take(1, 1); if (waitfor(2, 5)) return 1; give(1, 1); return 0; }\n"
        self.assertEqual(told(worker("  while (1) { if (try()) { put(1); give(1, 1); } }", trying)), [])
        each = "  int i;\n  for (i = 1; i < 4; i = i + 1) take(i, 1);\n  for (i = 1; i < 4; i = i + 1) give(i, 1);"
        self.assertEqual(told(worker(each)), [])
        self.assertEqual(told(worker("  if (n) take(1, 1);\n  put(1);\n  if (n) give(1, 1);")), [])


class Others(unittest.TestCase):
    def test_a_channel_on_which_no_message_comes(self):
        source = worker("  while (1) {\n    put(wait(5));\n  }")
        self.assertEqual(told(source), [])  # nothing is known without a trace
        self.assertEqual(told(source, ("t", ["data 5 5 1"])), [])
        given = told(source, ("t", ["arrive 5 5", "data 6 4 1"]))
        unsent = "channel 3: wait() waits on channel 5, and no line of a trace has a message on it"
        self.assertEqual(given, [unsent, "channel t:2: a message on channel 4, on which no thread waits"])
        named = worker("  while (1) put(wait(accept()));")
        self.assertEqual(told(named, ("t", ["arrive 5 5", "data 6 5 1"])), [])
        silent = told(named, ("t", ["arrive 5 5", "arrive 6 7", "data 7 5 1"]))
        self.assertIn("t:2 names 7, on which no message comes", silent[0])
        patient = worker("  int c = accept();\n  if (waitfor(c, 50)) put(wait(c));")
        self.assertEqual(told(patient, ("t", ["arrive 6 7"])), [])

    def test_loops_that_only_wait(self):
        more = "int is_ready;\n"
        self.assertIn("spin 3: a thread that only yields", told(worker("  while (!is_ready) yield();", more))[0])
        self.assertIn("spin 3", told(worker("  while (!is_ready) { yield(); yield(); }\n  is_ready = 1;", more))[0])
        self.assertIn("spin 3: no other thread runs", told(worker("  while (!is_ready) ;", more))[0])
        self.assertEqual(told(worker("  while (!is_ready) sleep(10);", more)), [])
        self.assertEqual(told(worker("  while (!is_ready) { put(1); yield(); }", more)), [])
        self.assertEqual(told(worker("  int i;\n  for (i = 0; i < 3; i = i + 1) yield();", more)), [])

    def test_comments_silence(self):
        line = "  total = total + price + tax(price);"
        self.assertEqual(told(TILL.replace(line, line + " // allow(update) one sale at a time")), [])
        self.assertEqual(told(TILL.replace(line, "  /* allow(update) */\n" + line)), [])
        self.assertEqual(told(TILL.replace("  sleep(100);", "  sleep(100); // allow(update, order)")), [])
        kinds = [it.partition(":")[0] for it in told(TILL.replace(line, line + " // allow(order)"))]
        self.assertEqual(kinds, ["update 7", "allow 7"])
        self.assertIn("there is no kind 'updates'", "".join(told(TILL.replace(line, line + " // allow(updates)"))))
        apart = TILL.replace(line, "  int due = total;\n  due = due + price + tax(price);\n  total = due;")
        self.assertEqual([it.partition(":")[0] for it in told(apart)], ["update 7"])
        call = "tax(price);"  # between the read and the write
        self.assertEqual(told(apart.replace(call, call + " // allow(update)")), [])
        beside = told(TILL.replace(line, "  put(1); // allow(update)\n" + line))
        self.assertEqual(len(beside), 2)  # the line above has tokens of its own


class Limits(unittest.TestCase):
    def test_a_walk_that_is_too_long_is_named(self):
        before, walk.MOST_STATEMENTS = walk.MOST_STATEMENTS, 3
        self.addCleanup(setattr, walk, "MOST_STATEMENTS", before)
        cut = set()
        rules.warnings_of((TILL + WORKERS).encode(), (), cut)
        self.assertEqual(cut, {"worker"})


class Command(unittest.TestCase):
    def warn(self, source, *words):
        with tempfile.TemporaryDirectory() as to:
            pathlib.Path(to, "till.c").write_text(source)
            command = [sys.executable, TOOLS / "warn", *words, "till.c"]
            return subprocess.run(command, cwd=to, capture_output=True, text=True)

    def test_lines_json_and_statuses(self):
        given = self.warn(TILL + WORKERS)
        self.assertEqual(given.returncode, 22)
        self.assertRegex(given.stdout, r"\Atill\.c:7:11: warning: total is read, .* \[update\]\n\Z")
        value = json.loads(self.warn(TILL + WORKERS, "--json").stdout)
        found = [[it[name] for name in ("file", "line", "column", "kind")] for it in value]
        self.assertEqual(found, [["till.c", 7, 11, "update"]])
        statuses = [self.warn(f"int main() {{ return 0{end} }}").returncode for end in (";", "")]
        self.assertEqual(statuses, [0, 2])


if __name__ == "__main__":
    unittest.main()
