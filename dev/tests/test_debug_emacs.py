"""Whole sessions of a real editor with tools/debug_adapter: Emacs in batch, with Debian's elpa-dap-mode."""
import os, pathlib, shutil, subprocess, tempfile, unittest

TOP = pathlib.Path(__file__).resolve().parent.parent.parent
PROGRAM = os.path.join(os.environ.get("CAPRICCIO_PROGRAMS", "no folder"), "capriccio_cli")
HAS_CLIENT = shutil.which("emacs") and list(pathlib.Path("/usr/share/emacs/site-lisp/elpa-src").glob("dap-mode-*"))


@unittest.skipUnless(os.access(PROGRAM, os.X_OK), "the program isn't built")
@unittest.skipUnless(HAS_CLIENT, "emacs or elpa-dap-mode is missing")
class Emacs(unittest.TestCase):
    def session(self, source, trace, breakpoints, moves, prints="", options=""):
        """The lines of a session's stops."""
        with tempfile.TemporaryDirectory() as home:
            words = {
                "HOME": home,
                "SOURCE": source,
                "TRACE": trace,
                "BREAKPOINTS": breakpoints,
                "MOVES": moves,
                "PRINTS": prints,
                "OPTIONS": options,
                "ADAPTER": TOP / "tools/debug_adapter",
            }
            given = os.environ | {f"SESSION_{name}": str(it) for name, it in words.items()} | {"HOME": home}
            told = subprocess.run(
                ["emacs", "--batch", "-Q", "-l", TOP / "dev/tests/debug_session.el"],
                env=given,
                capture_output=True,
                text=True,
                timeout=240,
            )
        self.assertEqual(told.returncode, 0, told.stderr[-2000:])
        return told.stdout.splitlines()

    def test_forwards_and_backwards_over_a_bank(self):
        bank = TOP / "examples/bank"
        lines = self.session(
            bank / "server.c",
            bank / "trace",
            "9",
            "next;next;stepBack;continue;reverseContinue;stepIn",
            "balances[2];from",
            "--caps 1=1,2=1",
        )
        self.assertEqual(
            lines,
            [
                "transfer 9 balances[2]=0 from=1",
                "transfer 10 balances[2]=0 from=1",
                "transfer 11 balances[2]=5 from=1",
                "transfer 10 balances[2]=0 from=1",
                "transfer 9 balances[2]=5 from=2",
                "transfer 9 balances[2]=0 from=1",
                "transfer 10 balances[2]=0 from=1",
            ],
        )

    def test_a_lost_update(self):
        """Both sales read `total` at 0, before either writes it."""
        stories = TOP / "docs/stories"
        lines = self.session(
            stories / "till.c", stories / "till_together.trace", "18", "next;continue;next", "total;before;price"
        )
        self.assertEqual(
            lines,
            [
                "sale 18 total=0 before=0 price=641",
                "sale 19 total=641 before=0 price=641",
                "sale 18 total=641 before=0 price=793",
                "sale 19 total=793 before=0 price=793",
            ],
        )


if __name__ == "__main__":
    unittest.main()
