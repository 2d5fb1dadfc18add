"""What is made of the log of a run beside its report: files, and tables by outcome."""
import os, pathlib

from runs import places, story

from . import coverage, execution, folded, graph, outcomes, page, readiness, timeline, trace_events
from .asked import unit_of
from .columns import TICKS, labelled
from .stored import Stored


class Views:
    """The files and tables that are asked for of a run. Files appear under their names once they are whole."""

    def __init__(self, asked, run, trace):
        self.asked, self.run, self.trace = asked, run, trace
        self.source = pathlib.Path(run.files[0]).read_bytes()
        self.stored = {}
        try:
            for name in ("timeline", "graph", "html", "trace", "folded", "requests", "coverage"):
                if getattr(asked, name):
                    self.stored[name] = Stored(getattr(asked, name))
        except OSError:
            self.drop()
            raise

    def read(self):
        """Reads the log and tells each view what it has. Gives the status of a run without a log, and else None."""
        if not self.trace:
            self.writers = {}
            return None
        with open(self.trace, **execution.AS_TEXT) as times:
            told = story.Story(places.Places(self.source), times)
            self.writers = self.made(told)
            lines = execution.Lines(self.asked, self.run, self.trace)
            logged = self.writers["html"].kept(lines) if "html" in self.writers else lines
            writers = [it.tell for it in self.writers.values()]
            for happening in told.happenings(logged):
                for tell in writers:
                    tell(happening)
            return lines.status

    def made(self, told):
        """The views by their names, each with a method `tell`."""
        asked, title = self.asked, os.path.basename(self.run.files[0])
        file = lambda name: self.stored[name].file
        ready = lambda: readiness.Ready(self.source, self.run.options)
        unit = unit_of(asked.unit) if asked.unit else TICKS
        makers = {
            "timeline": lambda: timeline.Timeline(told, self.span(), self.run.chunks(), ready()),
            "graph": lambda: graph.Graph(told),
            "html": lambda: page.Page(file("html"), told, title, self.source, self.run.chunks(), self.run.options,
                                      unit),
            "trace": lambda: trace_events.TraceEvents(file("trace"), told, title, self.run.chunks(), ready()),
            "folded": lambda: folded.Folded(file("folded"), told, asked.why, ready()),
            "requests": lambda: outcomes.Rows(file("requests"), told, asked.answers),
            "coverage": lambda: coverage.Coverage(self.source, self.run.files[0]),
            "by": lambda: outcomes.Groups(asked.by, told, asked.answers),
        }
        return {name: make() for name, make in makers.items() if getattr(asked, name)}

    def span(self):
        """The window of clocks that is asked for."""
        return int(self.asked.__dict__["from"] or 0), int(self.asked.to) if self.asked.to else None

    def table(self, unit):
        """The lines of the table by outcome and of what ran, if they are asked for."""
        found = list(self.writers["by"].lines(unit)) if "by" in self.writers else []
        if "coverage" in self.writers:
            found += labelled("coverage", self.writers["coverage"].summary())
        return found

    def finish(self, document):
        """Writes what is left to write, and keeps the files."""
        title = os.path.basename(self.run.files[0])
        if "graph" in self.stored:
            is_dot = self.asked.graph.endswith(".dot")
            self.stored["graph"].file.write(self.writers["graph"].dot() if is_dot else self.writers["graph"].svg(title))
        if "timeline" in self.stored:
            self.stored["timeline"].file.write(self.writers["timeline"].svg(document, title))
        if "html" in self.stored:
            self.writers["html"].add(document)
        for name in ("html", "trace", "folded", "requests"):
            if name in self.writers:
                self.writers[name].finish()
        if "coverage" in self.stored:
            self.stored["coverage"].file.write(self.writers["coverage"].text())
        for it in self.stored.values():
            it.keep()
        self.stored = {}

    def drop(self):
        """Leaves no file that isn't whole."""
        for it in self.stored.values():
            it.drop()
        self.stored = {}
