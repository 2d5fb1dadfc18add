"""The views of a log: timeline, graph, latencies by outcome, a row a request, and coverage, on runs whose numbers were
read off their logs by hand."""
import csv, io, pathlib, re, shutil, subprocess, tempfile, unittest
import xml.etree.ElementTree as tree

from reporting import columns, coverage, graph, outcomes, palette, readiness, timeline
from runs import places, story

TOP = pathlib.Path(__file__).resolve().parent.parent.parent
SVG = "{http://www.w3.org/2000/svg}"


def told_by(name, make):
    """A view of an example, told its log."""
    folder = TOP / "examples" / name
    source = (folder / "server.c").read_bytes()
    told = story.Story(places.Places(source), (folder / "trace").read_text().splitlines())
    view = make(told, source)
    for it in told.happenings((folder / "log").read_text().splitlines()):
        view.tell(it)
    return view


def timeline_of(name, caps="", span=(0, None)):
    make = lambda told, source: timeline.Timeline(told, span, 1024, readiness.Ready(source, {"--caps": caps}))
    return told_by(name, make).svg(None, "a <title> & more")


class Timelines(unittest.TestCase):
    def test_it_is_a_picture_of_830_pixels_with_text_of_11(self):
        for name, caps in (("store", ""), ("bank", "1=1,2=1"), ("idle", "")):
            picture = tree.fromstring(timeline_of(name, caps))
            self.assertEqual(picture.get("width"), "830")
            sizes = re.findall(r"font(?:-size)?: (?:600 )?(\d+)px", picture.find(f"{SVG}style").text)
            self.assertGreaterEqual(min(map(int, sizes)), 11)

    def test_work_covers_its_share_of_a_row(self):
        """main runs from 0 to 31 of 1,487 ticks, which is 14.6 of 698 pixels."""
        text = timeline_of("store")
        first = re.search(r'<text [^>]*>0 main</text>\n<path class="run" d="([^"]*)"', text)[1]
        widths = [int(it) for it in re.findall(r"h(\d+)v", first)]
        self.assertEqual(sum(widths), 15)
        self.assertTrue(first.startswith(f"M{timeline.LEFT} "))

    def test_rows_have_the_names_of_functions_and_the_legend_the_places(self):
        text = timeline_of("store")
        for wanted in ("0 main", "1 worker", "2 worker", "accept 46:19 in worker", "wait 37:17 in serve",
                       "ready, not chosen"):
            self.assertIn(f">{wanted}<", text)

    def test_resources_have_bands(self):
        self.assertIn("resource 2, max 1", timeline_of("bank", "1=1,2=1"))

    def test_a_window_begins_and_ends_where_it_says(self):
        text = timeline_of("store", span=(400, 1100))
        self.assertIn("clock 400 to 1,100", text)
        self.assertNotIn(">0 main<", text)

    def test_a_thousand_threads_fit(self):
        text = timeline_of("idle")
        self.assertLess(len(text), 1_000_000)
        self.assertIn("and 601 more threads", text)


class Styles(unittest.TestCase):
    def test_twenty_places_look_different_and_accept_is_pale(self):
        source = "int main() { accept(); " + "wait(1); " * 20 + "}"
        styles = palette.Styles(places.Places(source.encode()))
        self.assertEqual(styles.of(0), "accept")
        self.assertEqual(len({styles.of(it) for it in range(1, 21)}), 20)
        self.assertEqual(len({it.split(">", 1)[1] for it in palette.patterns()}), 25)


class Graphs(unittest.TestCase):
    def test_a_box_for_each_place_and_an_arrow_with_its_count(self):
        """The log of examples/store has the edge from 39:11 to 37:17 three times, with a mean cost of 189."""
        made = told_by("store", lambda told, _: graph.Graph(told))
        self.assertEqual(len(made.boxes), 6)
        arrow = made.arrows[(39, 11), (37, 17)]
        self.assertEqual(made.label(arrow)[0], "3 × 189 ticks")
        dot = made.dot()
        self.assertEqual(dot.count(" -> "), 8)
        self.assertIn('"wait 39:11\\nin serve"', dot)

    def test_nodes_that_differ_only_in_their_callers_are_one_box(self):
        made = told_by("recursion", lambda told, _: graph.Graph(told))
        self.assertLessEqual(len(made.boxes), 4)

    def test_without_graphviz_boxes_stand_apart(self):
        made = told_by("relay", lambda told, _: graph.Graph(told))
        picture = tree.fromstring(graph.Layout(made).svg("server.c"))
        boxes = [(float(it.get("x")),
                  float(it.get("y"))) for it in picture.iter(f"{SVG}rect") if it.get("class") == "box"]
        self.assertEqual(len(boxes), 7)
        for at, (x, y) in enumerate(boxes):
            self.assertTrue(0 <= x <= 830 - graph.BOX)
            for other_x, other_y in boxes[:at]:
                self.assertTrue(abs(x - other_x) >= graph.BOX or abs(y - other_y) >= graph.TALL)

    @unittest.skipUnless(shutil.which("dot"), "there is no Graphviz")
    def test_graphviz_lays_it_out(self):
        made = told_by("store", lambda told, _: graph.Graph(told))
        picture = tree.fromstring(made.svg("server.c"))
        self.assertLessEqual(int(picture.get("width")), 830)
        self.assertEqual(sum(it.get("class") == "edge" for it in picture.iter(f"{SVG}g")), 8)


class Outcomes(unittest.TestCase):
    def test_a_row_for_each_request(self):
        file = io.StringIO()
        view = told_by("store", lambda told, _: outcomes.Rows(file, told))
        view.finish()
        rows = list(csv.DictReader(io.StringIO(file.getvalue())))
        self.assertEqual([(it["arrived"], it["taken"], it["last"], it["thread"], it["function"]) for it in rows],
                         [("100", "100", "1439", "1", "worker"), ("300", "342", "1162", "2", "worker")])
        log = (TOP / "examples/store/log").read_text()
        outputs = [it.split()[1:] for it in log.splitlines() if it.startswith("out ")]
        for row in rows:
            self.assertEqual(row["outputs"], " ".join(value for thread, value in outputs if thread == row["thread"]))

    def test_latencies_by_function(self):
        lines = list(told_by("store", lambda told, _: outcomes.Groups("function", told)).lines(columns.TICKS))
        self.assertEqual(lines[1].split(), ["2", "862", "862", "1,339", "1,339", "1,339", "worker"])

    def test_by_order_the_n_th_output_is_that_of_the_n_th_request(self):
        """examples/relay: the latencies are 339, 617 and 678 (crates/report_lines)."""
        view = told_by("relay", lambda told, _: outcomes.Groups("function", told, "first"))
        self.assertEqual(sorted(it.last - it.arrived for it in view.entries), [339, 617, 678])


SOURCE = b"""int total;
int half(int x) {
  if (x > 5) { return x / 2; }
  total = total + 1;
  return x;
}
int main() {
  int x;
  for (x = 0; x < 3; x = x + 1) { half(x); }
  while (0) { total = 9; }
  return 0;
}
"""


class Coverages(unittest.TestCase):
    def covered(self):
        told = coverage.Coverage(SOURCE, "server.c")
        for it in story.Story(places.Places(SOURCE), []).happenings(["run 0 0 0", "end 0 200 1023", "stop done"]):
            told.tell(it)
        return told

    def test_lines_branches_and_functions_are_counted(self):
        told = self.covered()
        self.assertEqual(told.lines(), {3: 3, 4: 3, 5: 3, 8: 1, 9: 4, 10: 1, 11: 1})
        text = told.text()
        for line in ("FNDA:3,half", "FNDA:1,main", "BRDA:3,0,0,0", "BRDA:3,0,1,3", "BRDA:9,1,0,3", "BRDA:9,1,1,1",
                     "BRDA:10,2,0,0", "BRDA:10,2,1,1", "LF:7", "LH:7", "BRF:6", "BRH:4"):
            self.assertIn(f"{line}\n", text)

    @unittest.skipUnless(shutil.which("lcov"), "there is no lcov")
    def test_lcov_reads_and_merges_it(self):
        with tempfile.TemporaryDirectory() as folder:
            (pathlib.Path(folder) / "server.c").write_bytes(SOURCE)
            (pathlib.Path(folder) / "one.info").write_text(self.covered().text())
            told = subprocess.run(["lcov", "-q", "-a", "one.info", "-a", "one.info", "-o", "two.info"], cwd=folder,
                                  capture_output=True, text=True)
            self.assertEqual(told.returncode, 0, told.stderr)
            self.assertIn("DA:9,8\n", (pathlib.Path(folder) / "two.info").read_text())


if __name__ == "__main__":
    unittest.main()
