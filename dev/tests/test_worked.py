"""The worked examples of docs/FORMATS.md, docs/MACHINE.md and docs/SCHEDULING.md: the pair of the
smallest program, a linked call, and a choice. What they show was worked out by hand from the rules
of the pages; the program, and the log of an example, are asked here."""
import os, pathlib, re, struct, subprocess, tempfile, unittest

TOP = pathlib.Path(__file__).resolve().parent.parent.parent
PROGRAM = os.path.join(os.environ.get("CAPRICCIO_PROGRAMS", "no folder"), "capriccio_cli")


def section(page, title):
    """The text below a title of a page, up to the next title."""
    text = (TOP / "docs" / page).read_text()
    return re.search(rf"^##+ {re.escape(title)}\n(.*?)(?=^##|\Z)", text, re.M | re.S)[1]


def blocks(text):
    return re.findall(r"^```\n(.*?)^```", text, re.M | re.S)


def called(*words, source):
    """What the program writes for a source in a folder of its own, and the files there."""
    with tempfile.TemporaryDirectory() as room:
        pathlib.Path(room, "server.c").write_text(source)
        run = subprocess.run([PROGRAM, *words], cwd=room, stdin=subprocess.DEVNULL, capture_output=True, text=True)
        return run.stdout, {it.name: it.read_bytes() for it in pathlib.Path(room).iterdir()}


@unittest.skipUnless(os.access(PROGRAM, os.X_OK), "the program isn't built")
class Pairs(unittest.TestCase):
    def test_the_smallest_pair(self):
        text = section("FORMATS.md", "A worked pair")
        _, files = called("build", "server.c", "server.img", "server.crt", source="int main() { return 0; }")
        self.assertEqual(files["server.crt"].decode(), blocks(text)[0])
        rows = re.findall(r"^\| 0x(\w+) \| (\w+) \|", text, re.M)
        self.assertEqual([int(place, 16) for place, _ in rows], list(range(0x1000, 0x1000 + 4 * len(rows), 4)))
        words = [int(word, 16) for _, word in rows]
        image = b"CAP1" + struct.pack(f"<{5 + len(words)}I", len(words), 0, 0, 1, *words, 0x1008)
        self.assertEqual(files["server.img"], image)
        self.assertIn(f"The image has {len(image)} bytes", text)
        self.assertIn(f"`{image[:8].hex(' ')}`", text)

    def test_a_linked_call(self):
        text = section("MACHINE.md", "A linked call, step by step")
        source = blocks(text)[0]
        sizes = ("--chunk", "64", "--max-path", "48")
        _, files = called("build", *sizes, "server.c", "server.img", "server.crt", source=source)
        self.assertIn(b"\nsite 2 linked 16\n", files["server.crt"])
        log, _ = called("serve", *sizes, "--chunks", "4", "server.c", source=source)
        shown = re.findall(r"`((?:block|out|end) [^`]*)`", text)
        self.assertEqual(len(shown), 3)
        self.assertEqual([it for it in log.splitlines() if it in shown], shown)


class Choices(unittest.TestCase):
    def test_the_choice_is_that_of_the_log(self):
        text = section("SCHEDULING.md", "A worked choice")
        log = (TOP / "examples/tenants/log_graph").read_text()
        self.assertTrue(log.startswith(blocks(text)[0] + "run 46 1 2\n"))


if __name__ == "__main__":
    unittest.main()
