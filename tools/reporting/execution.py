"""The runs behind a report: the program `report`, whose document is read, and the run whose log is read as it comes."""
import os, subprocess

from runs import program

from . import asked as words_of

AS_TEXT = {"encoding": "utf-8", "errors": "replace"}  # a byte that is no text is in no line that is taken
IS_READ = "CAPRICCIO_DOCUMENT"  # set where ./report is asked for the document, which somebody else lays out


def printed(words, trace=None):
    """What ./report prints for these words before it is laid out, and its status. The trace is a file, or standard
    input as it is."""
    given = open(trace, "rb") if trace else None
    try:
        told = subprocess.run([program.report(), *words], stdin=given, stdout=subprocess.PIPE,
                              env={**os.environ, IS_READ: "1"}, **AS_TEXT)
        return told.stdout, told.returncode
    finally:
        if given:
            given.close()


def of_run(asked, run, trace):
    """What the program prints for a run, and its status."""
    return printed([*words_of.of_program(asked), *run.words], trace)


class Lines:
    """The lines of the log, of a stored one or of the run as it is made. `status` is the run's, if it gave no line."""

    def __init__(self, asked, run, trace):
        self.process = self.status = None
        if asked.log:
            self.file = open(asked.log, **AS_TEXT)
        else:
            with open(trace, "rb") as given:
                self.process = subprocess.Popen([program.capriccio(), *run.words], stdin=given, stdout=subprocess.PIPE,
                                                **AS_TEXT)
            self.file = self.process.stdout

    def __iter__(self):
        is_empty = True
        for line in self.file:
            is_empty = False
            yield line
        status = self.process.wait() if self.process else 0
        self.status = status if is_empty else None
