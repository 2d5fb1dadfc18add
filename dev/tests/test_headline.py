"""The promises of the headline: which there are, what stands under each, and the page's table."""
import pathlib, re, tempfile, unittest, unittest.mock

from repository import headline, pages, trust
from repository.definitions import CodeType, cited

EIGHT = ["memory", "pool", "choices", "outputs", "stops", "budget", "audit", "faults"]


def names_under(promise):
    return {it.name for it in headline.under(promise)[0]}


class Promises(unittest.TestCase):
    def test_there_are_eight(self):
        self.assertEqual(headline.names(), EIGHT)

    def test_what_a_promise_is_about_stands_under_it(self):
        for promise, name in (("pool", "IsPartition"), ("memory", "IsGoodAccess"), ("choices", "IsGraphChoice"),
                              ("outputs", "deep_step"), ("budget", "IsBudget"), ("audit", "IsTextLog"),
                              ("faults", "IsPairInPart"), ("stops", "IsIdle")):
            with self.subTest(promise=promise):
                self.assertIn(name, names_under(promise))

    def test_the_premise_doesn_t(self):
        for promise in EIGHT:
            with self.subTest(promise=promise):
                self.assertFalse({"IsAnswer", "IsDue", "HasEnoughChunks"} & names_under(promise))

    def test_a_law_has_one_premise_and_that_is_a_clause_of_the_call(self):
        clauses = {it.name for it in cited(*trust.contract_of(trust.COMMAND, "capriccio")) if not isinstance(it, CodeType)}
        for promise in EIGHT:
            with self.subTest(promise=promise):
                _, contract = trust.contract_of(headline.LAWS, promise)
                self.assertNotIn("requires", contract)
                (law,) = re.findall(r"ensures \{(.*)\}", contract, re.S)
                variables, premise, conclusion = (it.split() for it in law.split("→"))
                bound = set(re.findall(r"\w+'?", " ".join(re.findall(r"\(([^:()]*) :", " ".join(variables)))))
                self.assertIn(premise[0], clauses)
                self.assertEqual(len(premise[1:]), len(set(premise[1:])))  # nothing is left out by using one variable twice
                self.assertLessEqual(set(premise[1:]), bound)
                self.assertEqual([conclusion[0]], [it.name for it in headline.conclusions(promise)])

    def test_none_is_too_large(self):
        self.assertEqual(list(headline.too_large()), [])

    def test_one_that_is_too_large_is_named(self):
        with unittest.mock.patch.object(headline, "MOST_OF", {"faults": 3}):
            found = list(headline.too_large())
        self.assertEqual(len(found), 1)
        self.assertRegex(found[0], r"^the promise faults has \d+ definitions under it, and 3 are the most$")

    def test_the_table_has_a_row_for_each_with_its_count(self):
        rows = [line.split(" | ") for line in headline.summary().splitlines()[2:]]
        self.assertEqual([row[0].strip("| `") for row in rows], EIGHT)
        for promise, row in zip(EIGHT, rows):
            self.assertEqual(int(row[3].replace(",", "")), len(headline.under(promise)[0]))

    def test_the_list_has_each_definition_behind_those_of_the_crates_below(self):
        page = headline.page("pool")
        self.assertLess(page.index("`canonical_decimal`"), page.index("`IsPartition`"))
        self.assertLess(page.index("`IsPartition`"), page.index("`KeepsPool`"))


class Blocks(unittest.TestCase):
    def test_only_the_block_is_made(self):
        begin, end = pages.block("dev/x")
        with tempfile.TemporaryDirectory() as folder, unittest.mock.patch.object(pages, "TOP", pathlib.Path(folder)):
            page = pathlib.Path(folder, "page.md")
            page.write_text(f"before\n{begin}old\n{end}behind\n")
            self.assertFalse(pages.is_block_current("page.md", "dev/x", "new\n"))
            pages.write_block("page.md", "dev/x", "new\n")
            self.assertEqual(page.read_text(), f"before\n{begin}new\n{end}behind\n")
            self.assertTrue(pages.is_block_current("page.md", "dev/x", "new\n"))

    def test_a_page_without_one_is_refused(self):
        with tempfile.TemporaryDirectory() as folder, unittest.mock.patch.object(pages, "TOP", pathlib.Path(folder)):
            pathlib.Path(folder, "page.md").write_text("nothing\n")
            with self.assertRaisesRegex(SystemExit, "page.md has no lines"):
                pages.write_block("page.md", "dev/x", "new\n")
