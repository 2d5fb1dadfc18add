"""C compilers take every example with include/capriccio.h, and refuse calls that CapC refuses."""
import pathlib, shutil, subprocess, unittest

TOP = pathlib.Path(__file__).resolve().parent.parent.parent
HEADER = TOP / "include/capriccio.h"
COMPILERS = [it for it in ("gcc", "clang") if shutil.which(it)]
REFUSED = {
    "too many arguments": "int main() { put(1, 2); return 0; }",
    "too few arguments": "int main() { int x; x = wait(); return x; }",
    "a result of a call that gives none": "int main() { int x; x = put(1); return x; }",
    "a thread of a function without parameters": "void f(void) { } int main() { spawn(f, 1); return 0; }",
    "a thread of a function with two parameters": "void f(int a, int b) { put(a + b); } int main() { spawn(f, 1); return 0; }",
    "a call that isn't there": "int main() { acept(); return 0; }",
}
TAKEN = {
    "a thread of an int function": "int f(int x) { return x; } int main() { put(spawn(f, 1)); return 0; }",
    "names of the C library, and a main that gives nothing": "int exit; int log(int x) { return x; } void main() { exit = log(self()); }",
}


def said_of(compiler, source, *names):
    """What the compiler says of a source on standard input, or of the files of these names."""
    words = [compiler, "-fsyntax-only", "-ffreestanding", "-Wall", "-Werror", "-include", str(HEADER), "-x", "c",
             *(names or ["-"])]
    return subprocess.run(words, input=source, capture_output=True, text=True).stderr


class Header(unittest.TestCase):
    def test_there_is_a_compiler(self):
        self.assertTrue(COMPILERS, "neither gcc nor clang is on the path")

    def test_every_example_is_taken_without_a_warning(self):
        sources = sorted(TOP.glob("examples/*/server.c"))
        self.assertGreater(len(sources), 0)
        for compiler in COMPILERS:
            with self.subTest(compiler=compiler):
                self.assertEqual(said_of(compiler, None, *map(str, sources)), "")

    def test_what_capc_takes_is_taken(self):
        for compiler in COMPILERS:
            for why, source in TAKEN.items():
                with self.subTest(compiler=compiler, why=why):
                    self.assertEqual(said_of(compiler, source), "")

    def test_what_capc_refuses_is_refused(self):
        for compiler in COMPILERS:
            for why, source in REFUSED.items():
                with self.subTest(compiler=compiler, why=why):
                    self.assertIn("error", said_of(compiler, source))


if __name__ == "__main__":
    unittest.main()
