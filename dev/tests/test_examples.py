"""The pages of examples/: what they say of a changed server or of other options is what the program prints."""
import os, pathlib, re, subprocess, tempfile, unittest

from repository import rooms

PROGRAM = os.path.join(os.environ.get("CAPRICCIO_PROGRAMS", "no folder"), "capriccio_cli")
PAGES = sorted(rooms.TOP.glob("examples/*/README.md"))
BLOCK = re.compile(r"^```\n(.*?)^```", re.M | re.S)
LINE = re.compile(r"`((?:run|block|event|drop|out|end|edge|stop|site|function) [^`]*)`")


def changes(page):
    """The paragraphs below "Change it", each with the commands in the block after it."""
    rest = page.read_text().partition("\n## Change it\n")[2]
    said = 0
    for block in BLOCK.finditer(rest):
        yield rest[said : block.start()], block[1]
        said = block.end()


@unittest.skipUnless(os.access(PROGRAM, os.X_OK), "the program isn't built")
class Changes(unittest.TestCase):
    def setUp(self):
        room = tempfile.TemporaryDirectory()
        self.addCleanup(room.cleanup)
        self.room = pathlib.Path(room.name)
        (self.room / "examples").symlink_to(rooms.TOP / "examples")
        (self.room / "capriccio").symlink_to(PROGRAM)

    def test_the_lines_that_a_page_names_are_printed(self):
        tried = 0
        for page in PAGES:
            for said, commands in changes(page):
                with self.subTest(page=page.parent.name, commands=commands):
                    commands = commands.replace("/tmp/changed.c", "changed.c")
                    made = subprocess.run(["bash", "-c", commands], cwd=self.room, capture_output=True, text=True)
                    self.assertEqual(made.stderr, "")
                    lines, named = made.stdout.splitlines(), LINE.findall(said)
                    self.assertTrue(named)
                    self.assertEqual([it for it in named if it not in lines], [])
                    status = re.search(r"status (\d+)", said)
                    self.assertEqual(made.returncode, int(status[1]) if status else made.returncode)
                    tried += 1
        self.assertGreater(tried, 8)

    def test_what_graph_prints_is_shown(self):
        commands, lines = BLOCK.findall((rooms.TOP / "examples/sizes/README.md").read_text())[:2]
        made = subprocess.run(["bash", "-c", commands], cwd=self.room, capture_output=True, text=True)
        self.assertEqual(made.stdout, lines)


if __name__ == "__main__":
    unittest.main()
