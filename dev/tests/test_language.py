"""What docs/LANGUAGE.md shows by examples: which statements of C are refused and what takes their
place, a source for each refusal, and the values of expressions. The page states them from the rules
of C and of the page itself; the program is asked here."""
import concurrent.futures, os, pathlib, re, subprocess, tempfile, unittest

TOP = pathlib.Path(__file__).resolve().parent.parent.parent
PROGRAM = os.path.join(os.environ.get("CAPRICCIO_PROGRAMS", "no folder"), "capriccio_cli")
AROUND = (
    "int a[16]; int f(int x) { return x; } int h(int x) { return x; } int (*t[2])(int) = {f, h};"
    " void w(int n) { } int main() { int x; int y; %s return 0; }"
)


def rows_below(title):
    """The rows of the table with this first line, each a list of the codes in its cells."""
    text = (TOP / "docs/LANGUAGE.md").read_text()
    table = re.search(rf"^{re.escape(title)}\n(.*?)(?=^[^|]|\Z)", text, re.M | re.S)[1]
    return [[it.strip().strip("`") for it in re.split(r"(?<!\\)\|", line)[1:-1]] for line in table.splitlines()[1:]]


def answers(command, sources):
    """Standard output and standard error of the program for each source."""

    def answer(source):
        with tempfile.TemporaryDirectory() as room:
            path = pathlib.Path(room, "server.c")
            path.write_text(source)
            run = subprocess.run([PROGRAM, command, path], stdin=subprocess.DEVNULL, capture_output=True, text=True)
            return run.stdout, run.stderr.strip()

    with concurrent.futures.ThreadPoolExecutor(os.cpu_count()) as pool:
        return list(pool.map(answer, sources))


@unittest.skipUnless(os.access(PROGRAM, os.X_OK), "the program isn't built")
class Examples(unittest.TestCase):
    def test_statements_of_c_are_refused_and_those_in_their_place_are_not(self):
        rows = rows_below("| In place of | Write |")
        self.assertGreater(len(rows), 15)
        refused = answers("graph", [AROUND % of_c for of_c, _ in rows])
        taken = answers("graph", [AROUND % in_place for _, in_place in rows])
        for (of_c, in_place), (_, line), (_, other) in zip(rows, refused, taken):
            with self.subTest(of_c=of_c):
                self.assertRegex(line, "^source: ")
                self.assertEqual(other, "", in_place)

    def test_each_refusal_has_its_line(self):
        rows = rows_below("| Source | Line |")
        listed = (TOP / "docs/WRITING.md").read_text().partition("## Every refusal of a source")[2]
        names = set(re.findall(r"^\| `([A-Z]\w+)[ `]", listed, re.M))
        self.assertEqual({line.split()[1] for _, line in rows} | {"TooLong", "TooDeep"},
                         names)  # (these two take long sources)
        for (source, line), (_, given) in zip(rows, answers("graph", [it for it, _ in rows])):
            with self.subTest(source=source):
                self.assertEqual(given, line)

    def test_expressions_have_their_values(self):
        rows = rows_below("| Expression | Value |")
        self.assertGreater(len(rows), 10)
        puts = " ".join(f"put({expression});" for expression, _ in rows)
        (log, _), = answers("serve", [f"int main() {{ {puts} return 0; }}"])
        self.assertEqual(re.findall(r"^out 0 (\S+)$", log, re.M), [value for _, value in rows])


if __name__ == "__main__":
    unittest.main()
