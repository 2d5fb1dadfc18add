"""tools/ and dev/: each README has a row for each entry of its folder, and tools/ needs nothing of dev/."""
import pathlib, re, unittest

TOP = pathlib.Path(__file__).resolve().parent.parent.parent


def entries(folder):
    """The names of a folder's tools, tables and packages."""
    return sorted(it.name for it in (TOP / folder).iterdir() if it.name not in ("README.md", "__pycache__"))


class Folders(unittest.TestCase):
    def test_each_entry_has_a_row(self):
        for folder in ("tools", "dev"):
            with self.subTest(folder=folder):
                rows = re.findall(r"^\| `([\w.]+)` \|", (TOP / folder / "README.md").read_text(), re.M)
                self.assertEqual(sorted(rows), entries(folder))

    def test_tools_import_nothing_of_dev(self):
        packages = "|".join(it for it in entries("dev") if (TOP / "dev" / it).is_dir())
        imports = re.compile(rf"^\s*(?:from|import) (?:{packages})\b", re.M)
        files = [it for it in (TOP / "tools").rglob("*") if it.is_file() and it.suffix != ".pyc"]
        self.assertEqual([it for it in files if imports.search(it.read_text())], [])


if __name__ == "__main__":
    unittest.main()
