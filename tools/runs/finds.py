"""What is found in a run: a deadlock, a request without an answer, and so on, each with a word for it (KINDS) and with
where it is, by which the finds of many runs are grouped.
"""
import collections, re, subprocess

from . import following, outcome
from .places import Places

KINDS = {
    "deadlock": "threads wait in a circle for one another's resources",
    "unanswered": "a request was taken and has no answer",
    "drop": "a request or a message was dropped",
    "trap": "the run ended with a trap",
    "nochunk": "the run ended because no free chunk was large enough",
    "threads": "the run ended because too many threads were live",
    "fuel": "the run used up its fuel",
    "starved": "a thread was ready for long and wasn't chosen",
    "outputs": "a request has other outputs than in the first run",
    "command": "the command that reads the log found something",
}
USUAL = ("deadlock", "unanswered", "drop", "trap", "nochunk", "threads", "starved")
OF_A_RULE = {
    "starved": "in any order a thread may wait for long",
    "nochunk": "these runs have no chunks",
}  # what isn't looked for where any thread may run next, and why
FOLLOW = ("starved", "unanswered", "drop", "outputs")  # what a deadlock brings about isn't told beside it
PATIENCE = 20_000  # ticks

Find = collections.namedtuple("Find", "kind where detail")
Find.__doc__ = """A find of a run: its kind, where it is in the source (the same for all runs that have this find), and
what is told of this run alone."""

First = collections.namedtuple("First", "outputs lines")
First.__doc__ = """What a run is compared with: the outputs of each request of the first run by the line of its trace,
and for each line of this run's trace the line there, or None."""


def caps_of(options):
    """The units of each resource, from the option --caps."""
    return {int(resource): int(units) for resource, units in re.findall(r"(\d+)=(\d+)", str(options.get("caps", "")))}


class Looker:
    """Looks for finds of some kinds in the runs of a source, whose places begin with `title`. `answers` pairs outputs with
    requests (Outcome.by_request); `command` is a command for the shell."""

    def __init__(self, source, kinds, title, patience=PATIENCE, answers=None, command=None):
        self.text, self.kinds, self.title = source, kinds, title
        self.patience, self.answers, self.command = patience, answers, command
        self.places = Places(source)
        self.lost = 0  # how many runs couldn't be followed
        self.usual_threads = None  # how many ran in the first runs, if all that were started ran

    def outcome(self, log):
        return outcome.Outcome(log, self.places, self.patience)

    def finds(self, log, options, first=None):
        """The finds in a log of a run with these options; `first` is what its outputs are compared with."""
        told = self.outcome(log)
        looks = {
            "deadlock": lambda: self.deadlock(told, caps_of(options)),
            "starved": lambda: self.starved(told, caps_of(options)),
            "unanswered": lambda: self.unanswered(told, first),
            "drop": lambda: self.drop(told),
            "outputs": lambda: self.outputs(told, first),
            "command": lambda: self.commanded(log),
        }
        found = []
        for kind in sorted(self.kinds, key=list(KINDS).index):  # (deadlocks first)
            if kind in FOLLOW and found and found[0].kind == "deadlock":
                continue
            try:
                found += looks[kind]() if kind in looks else self.stopped(told, kind)
            except following.Lost:
                self.lost += 1
        return found

    def place(self, told, node):
        """Where a thread waits, with the calls above: `kv.c:14:3 take in move, called at kv.c:20:5 in worker`."""
        if node not in told.keys:
            return "the start of a thread"
        first, *above = [self.places.sites[it] for it in told.keys[node]]
        calls = "".join(f", called at {self.title}:{it.place()} in {it.function}" for it in above)
        return f"{self.title}:{first.place()} {first.callee} in {first.function}{calls}"

    def deadlock(self, told, caps):
        if any(told.callee(node) == "take" for node, _ in told.waiting.values()):
            if steps := following.circle(told, following.followed(self.text, told.log), caps):
                where = "\n".join(sorted({self.place(told, it.node) for it in steps}))
                chain = ", ".join(f"thread {it.thread} waits for resource {it.resource}" for it in steps)
                yield Find("deadlock", where, chain)

    def starved(self, told, caps):
        """A thread that was ready for long. Where no wait was long, and as many threads ran as usual, none was."""
        if told.long_waits or told.cost >= self.patience and told.threads != self.usual_threads:
            longest = following.longest_ready(self.text, told, caps).values()
            it = max(longest, key=lambda it: it.until - it.since)
            if it.until - it.since >= self.patience:
                yield Find("starved", self.place(told, it.node),
                           f"thread {it.thread} was ready from {it.since} to {it.until}")

    def drop(self, told):
        if told.dropped:
            yield Find("drop", "", f"{len(told.dropped)} dropped, the first at line {told.dropped[0] + 1}")

    def stopped(self, told, kind):
        """The stop that cut a segment."""
        if told.stop[0] == kind:
            why = f"{told.stop[2]} " if kind == "trap" else ""
            yield Find(kind, f"{why}after {self.place(told, told.node)}", f"thread {told.thread} at {told.clock}")

    def unanswered(self, told, first):
        """Requests that were taken and have no answer: their thread is still at it, or the first run answered them."""
        missing = []
        for request, outputs in enumerate(told.by_request(self.answers)):
            if not outputs and self.is_over(told, request):
                thread = told.takers[request]
                is_at_it = self.answers is None and told.under_way.get(thread) == request and told.waiting.get(thread, (0,))[0] not in told.accepts
                if is_at_it or self.wanted(told, request, first):
                    missing.append((request, thread if is_at_it else None))
        if missing:
            request, thread = missing[0]
            where = self.place(told, told.waiting[thread][0]) if thread in told.waiting else ""
            count = f"{len(missing)} of {len(told.takers)} requests" if len(missing) > 1 else "1 request"
            yield Find("unanswered", where,
                       f"{count}, the first taken by thread {told.takers[request]} at {told.taken_at[request]}")

    def is_over(self, told, request):
        """Whether no more outputs can be expected for a request."""
        return told.stop[0] in ("idle", "done") or told.stop[0] == "fuel" and told.clock - told.taken_at[request] >= self.patience

    def wanted(self, told, request, first):
        """The outputs of a request in the first run, if it had this request."""
        if first is None:
            return None
        return first.outputs.get(first.lines[told.delivered[request]])

    def outputs(self, told, first):
        """A request that was answered in both runs, and not the same."""
        shown = lambda values: " ".join(map(str, values[:8])) + (" .." if len(values) > 8 else "")
        for request, outputs in enumerate(told.by_request(self.answers)):
            wanted = self.wanted(told, request, first)
            if wanted and outputs and wanted != outputs:
                yield Find("outputs", "",
                           f"request {request + 1} has {shown(outputs)}, and in the first run {shown(wanted)}")
                return

    def learn(self, log):
        """Learns from the log of a first run how many threads usually run."""
        told = self.outcome(log)
        try:
            started = following.followed(self.text, log).started
        except following.Lost:
            started = None
        self.usual_threads = told.threads if started == told.threads and self.usual_threads in (None, started) else -1

    def outputs_by_line(self, log):
        """The outputs of a run's requests by the lines of its trace."""
        told = self.outcome(log)
        return dict(zip(told.delivered, told.by_request(self.answers)))

    def commanded(self, log):
        run = subprocess.run(self.command, shell=True, input=log, capture_output=True, text=True)
        if run.returncode:
            said = (run.stdout or run.stderr).strip().splitlines()
            yield Find("command", said[0] if said else f"status {run.returncode}", "")
