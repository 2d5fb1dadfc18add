"""The wrong bodies that docs/MUTANTS.md names: each has an edit, or a row that refuses it."""
import re, unittest

from repository import rooms

SECTION = "## The wrong bodies that the promises exclude by name"
EDIT = re.compile(r"`(\w+)/([\w-]+)`")
ROW = re.compile(r"`(\w+)` of `(\w+)`")


def rows():
    """The cells of the table."""
    section = (rooms.TOP / "docs/MUTANTS.md").read_text().partition(SECTION)[2].partition("<!--")[0]
    lines = [it for it in section.splitlines() if it.startswith("| ")]
    return [tuple(map(str.strip, it.strip("| ").split(" | "))) for it in lines if not it.startswith("| Wrong body")]


def tests_of(crate):
    sources = (rooms.TOP / "crates" / crate / "src").rglob("*.rt")
    return {name for path in sources for name in re.findall(r"#\[test\]\s*fn (\w+)", path.read_text())}


class Bodies(unittest.TestCase):
    def test_the_table_is_there(self):
        self.assertGreater(len(rows()), 20)

    def test_each_edit_is_there(self):
        for body, refused_by in rows():
            for crate, name in EDIT.findall(refused_by):
                with self.subTest(body=body):
                    self.assertTrue((rooms.TOP / f"crates/{crate}/must-fail/{name}.edit").is_file(), f"{crate}/{name}")

    def test_each_row_is_a_test(self):
        for body, refused_by in rows():
            for test, crate in ROW.findall(refused_by):
                with self.subTest(body=body):
                    self.assertIn(test, tests_of(crate))

    def test_each_body_has_an_edit_or_says_why_not(self):
        for body, refused_by in rows():
            with self.subTest(body=body):
                self.assertEqual(bool(EDIT.search(refused_by)), not refused_by.startswith("no edit: "))
                self.assertTrue(EDIT.search(refused_by) or ROW.search(refused_by))
