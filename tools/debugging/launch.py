"""Begins to debug a run: makes the run, or takes a stored log, and gives a session over it."""
import os, subprocess, tempfile

from runs import program
from sources.tree import NotASource

from . import moments
from .code import Code
from .replayed import Differs, Log
from .session import Session

TAKES = {"serve": 1, "run": 3}  # the commands that are runs, with the number of their files
DEFAULT_CHUNKS = 1024
NOTE = "values: those of a replay in Python, of which nothing is proved (docs/DEBUGGING.md)"


class Refused(Exception):
    """There is nothing to debug: a sentence, and a status for scripts."""

    def __init__(self, text, status):
        super().__init__(text)
        self.status = status


class Words:
    """The words of a run: its command, files and options, each with a value."""

    def __init__(self, words):
        if not words or words[0] not in TAKES:
            raise Refused(
                f"expected a run, serve SRC .. or run SRC IMG CRT .., found {' '.join(words) or 'nothing'}", 2
            )
        self.words, self.options, self.files, left = words, {}, [], list(words[1:])
        while left:
            word = left.pop(0)
            name, sign, value = word.partition("=")
            if word.startswith("--"):
                self.options[name] = value if sign else left.pop(0) if left else ""
            else:
                self.files.append(word)
        if len(self.files) != TAKES[words[0]]:
            raise Refused(f"{words[0]} takes {TAKES[words[0]]} file(s), found {' '.join(self.files) or 'none'}", 2)

    def chunks(self):
        return sum(int(it) for it in (self.options.get("--chunks", DEFAULT_CHUNKS), self.options.get("--extra", 0)))

    def caps(self):
        """The caps of the resources by their numbers."""
        pairs = [it.split("=") for it in self.options.get("--caps", "").split(",") if it]
        return {int(resource): int(cap) for resource, cap in pairs}


class Launch:
    """A run to debug, in a folder of its own for its trace and its log."""

    def __init__(self, words, log=None):
        self.words, self.folder = Words(words), tempfile.TemporaryDirectory(prefix="capriccio-debug-")
        self.trace, self.log = os.path.join(self.folder.name, "trace"), log or os.path.join(self.folder.name, "log")
        self.is_stored, self.note = log is not None, NOTE

    def copy_trace(self, source):
        """Keeps the trace, from a file that is open."""
        with open(self.trace, "wb") as file:
            while piece := source.read(1 << 16):
                file.write(piece)

    def make_run(self):
        """Makes the run, whose log is kept. What the program says is left on standard error."""
        with open(self.trace, "rb") as trace, open(self.log, "wb") as log:
            made = subprocess.run([program.capriccio(), *self.words.words], stdin=trace, stdout=log)
        if not os.path.getsize(self.log):
            raise Refused("the run was refused, so there is nothing to debug", made.returncode or 1)

    def session(self):
        """The session over the run."""
        source = self.words.files[0]
        for name in [source, *([self.log] if self.is_stored else [])]:
            if not os.path.exists(name):
                raise Refused(f"there is no file {name}", 9)
        if not self.is_stored:
            self.make_run()
        with open(source, "rb") as file, open(self.log, encoding="utf-8", errors="replace") as lines:
            try:
                code, log = Code(file.read()), Log(lines)
            except NotASource as why:
                raise Refused(
                    f"{source}: the source can't be read: {why}; `./capriccio graph {source}` says where", 2
                ) from None
            except Differs as why:
                raise Refused(f"{why}", 4) from None
        chunks = self.words.chunks()
        return Session(code, self.words.caps(), log, chunks, moments.Replayed(chunks), source)
