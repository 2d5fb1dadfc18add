"""docs/IMPROVING.md: each command prints what the page shows below it."""
import os, pathlib, re, subprocess, tempfile, unittest

TOP = pathlib.Path(__file__).resolve().parent.parent.parent
HAS_PROGRAM = os.access(os.path.join(os.environ.get("CAPRICCIO_PROGRAMS", "no folder"), "capriccio_cli"), os.X_OK)
BLOCK = re.compile(r"^```\n(.*?)^```", re.S | re.M)
FILE = re.compile(r"[Tt]he file `(\S+?)` [^`]*\Z", re.S)


def parts_of(page):
    """The files that a page shows, by name, and its commands with what stands in the next block."""
    files, commands, before = {}, [], 0
    blocks = list(BLOCK.finditer(page))
    for it, behind in zip(blocks, blocks[1:] + [None]):
        named = FILE.search(page, before, it.start())
        if named:
            files[named[1]] = it[1]
        elif it[1].startswith("tools/"):
            commands.append((it[1].strip(), behind[1]))
        before = it.end()
    return files, commands


class OfThePage(unittest.TestCase):
    def setUp(self):
        room = tempfile.TemporaryDirectory()
        self.addCleanup(room.cleanup)
        self.room = pathlib.Path(room.name)
        self.files, self.commands = parts_of((TOP / "docs/IMPROVING.md").read_text())
        for name, text in self.files.items():
            (self.room / name).write_text(text)
        for name in ("tools", "docs", "examples"):
            (self.room / name).symlink_to(TOP / name)

    def test_the_page_has_files_and_commands(self):
        self.assertEqual(list(self.files), ["till.c", "till2.c", "sales"])
        tools = [it.split()[0].removeprefix("tools/") for it, _ in self.commands]
        self.assertEqual(tools, ["warn", "warn", "compare", "fit", "fit"])

    def test_each_command_prints_what_is_shown(self):
        for command, shown in self.commands:
            if HAS_PROGRAM or command.startswith("tools/warn"):
                with self.subTest(command=command):
                    made = subprocess.run(["bash", "-c", command], cwd=self.room, capture_output=True, text=True)
                    self.assertEqual(made.stdout, shown, made.stderr)

    def test_the_second_till_has_no_warning(self):
        made = subprocess.run(["tools/warn", "till2.c"], cwd=self.room, capture_output=True, text=True)
        self.assertEqual((made.returncode, made.stdout), (0, ""))


if __name__ == "__main__":
    unittest.main()
