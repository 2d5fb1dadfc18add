"""An exploration from its first run to what it prints."""
import contextlib, json, os, pathlib, sys, time

from . import exploring, groups, hosts, many

ANY_ORDER = ("the runs are made in Python, and any thread that is ready may run next: "
             "no rule of serve need choose so")
COMMANDS = ("audit", "report", "debug", "repeat", "shrink")  # what is told of a find, if it is there
BATCH, TOGETHER = 8, 100  # runs that a process takes at once, and a command for another machine


class Campaign:
    """Makes the runs of an exploration (exploring.py), side by side, and tells what was found. `asked` has the words of
    the command line."""

    def __init__(self, exploration, asked):
        self.exploration, self.asked = exploration, asked
        self.groups = groups.Groups(exploration, asked.traces)
        self.began = time.monotonic()
        self.progress = Progress(sys.stderr.isatty())

    def seconds(self):
        return time.monotonic() - self.began

    def numbers(self):
        """The numbers of the runs, as long as there is time."""
        for number in range(max(self.asked.runs, len(self.asked.traces))):
            if self.asked.seconds is not None and self.seconds() >= self.asked.seconds and number:
                return
            yield number

    def results(self, value):
        """The results of the runs, as they come. `value` is what they depend on, for other machines."""
        if self.asked.hosts:
            with hosts.Hosts(self.asked.hosts, "explore", value, self.exploration.server.source, self.asked.traces) as made:
                for _, result in made.each(max(self.asked.runs, len(self.asked.traces)), TOGETHER):
                    if self.asked.seconds is not None and self.seconds() >= self.asked.seconds:
                        return
                    yield exploring.result_of(result)
        else:
            with many.Workers(self.asked.jobs, self.exploration) as workers:
                yield from workers.each(exploring.one_run, self.numbers(), BATCH)

    def run(self, value):
        """Makes the runs. Answers whether they weren't interrupted."""
        try:
            with contextlib.closing(self.results(value)) as results:
                for result in results:
                    self.groups.add(result)
                    self.progress.show(self.line)
                    if self.asked.first and self.groups.found:
                        break
            return True
        except KeyboardInterrupt:
            return False
        finally:
            self.taken = self.seconds()
            self.progress.clear()

    def line(self):
        runs, seconds = self.groups.runs, max(self.seconds(), 0.001)
        return f"explore: {runs:,} of {self.asked.runs:,} runs, {runs / seconds:,.0f} a second; found: {self.groups.counts()}"

    def tell(self):
        """Stores what was found, and prints it."""
        folder = self.asked.output or os.path.join("explored", pathlib.Path(self.asked.source).stem)
        found = list(self.groups.stored(folder)) if self.groups.found else []
        if self.asked.json:
            print(json.dumps(self.summary() | {"finds": found}, indent=2))
        else:
            print(self.verdict(found))
            if self.asked.any_order:
                print(ANY_ORDER)
            for value in found:
                print("\n" + told(value))
        self.warn()

    def summary(self):
        source = os.fspath(self.exploration.server.source)
        spent = self.groups.seconds  # in all processes
        return {"source": source, "traces": self.asked.traces, "seed": self.asked.seed, "runs": self.groups.runs,
                "seconds": round(self.taken, 2), "program_seconds": round(spent["program"], 2),
                "reading_seconds": round(spent["reading"], 2)}

    def verdict(self, found):
        runs, seconds = self.groups.runs, max(self.taken, 0.001)
        what = f"{len(found)} finds" if len(found) > 1 else "1 find" if found else "nothing found"
        return f"{what} in {runs:,} runs of {self.exploration.server.source}, {seconds:.1f} s, {runs / seconds:,.0f} runs a second"

    def warn(self):
        """Says on standard error what the numbers don't."""
        if self.groups.runs < self.asked.runs and not self.asked.first:
            many.say(f"explore: ended after {self.groups.runs:,} of {self.asked.runs:,} runs")
        if self.groups.lost:
            many.say(f"explore: {self.groups.lost:,} runs couldn't be followed by their source, so no deadlock and no starved thread was looked for in them")
        if self.groups.refused:
            many.say(f"explore: a run had no log that could be read: {self.groups.refused}")


class Progress:
    """A line on a terminal that is written over."""

    def __init__(self, is_shown):
        self.is_shown, self.last = is_shown, 0.0

    def show(self, line):
        now = time.monotonic()
        if self.is_shown and now - self.last >= 0.2:
            self.last = now
            sys.stderr.write(f"\r{line()}\x1b[K")
            sys.stderr.flush()

    def clear(self):
        if self.is_shown and self.last:
            sys.stderr.write("\r\x1b[K")
            sys.stderr.flush()


def told(value):
    """A find as text."""
    runs = f"{value['runs']:,} runs" if value["runs"] > 1 else "1 run"
    as_given = ", the trace as it is given" if value["run"] < 1 else ""
    lines = [f"{value['kind']}: {runs}{as_given}, shortest trace {value['lines']:,} lines"]
    lines += [f"  {it}" for it in value["where"].split("\n") if it]
    lines += [f"  {value['detail']}"] if value["detail"] else []
    commands = [f"  {name}: {value[name]}" for name in COMMANDS if name in value]
    return "\n".join([*lines, *commands])
