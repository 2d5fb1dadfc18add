"""A run of a sweep, and the row that is told of it."""
import os, subprocess

from . import figures, finds, following, outcome, places, program, story

COUNTS = ["came", "dropped", "taken", "answered", "outputs", "cost"]
FAILED = ("trap", "nochunk", "threads", "trace")  # stops as which no server should end


def one_run(source, trace, answers, options):
    """A row: the numbers of one run, by the names of their columns."""
    words = [it for name, value in options for it in (f"--{name}", value)]
    row = {"trace": os.path.basename(trace), **dict(options)}
    with open(source, "rb") as text, open(trace) as times, open(trace, "rb") as given:
        served = subprocess.Popen([program.capriccio(), "serve", *words, source], stdin=given, stdout=subprocess.PIPE,
                                  stderr=subprocess.PIPE, text=True)
        try:
            code = text.read()
            log = served.stdout.read()
            happenings = story.Story(places.Places(code), times).happenings(log.splitlines())
            told = figures.Figures(happenings, figures.Pairing(answers) if answers else None)
        except story.Unfit as why:
            return row | {"stop": str(why)}
        said = served.stderr.read().strip().splitlines()
    if served.wait() and told.stop is None:
        # (the program answers a wrong combination of options with its usage line)
        is_usage = bool(said) and said[0].startswith("usage: ")
        return row | {"stop": "options refused" if is_usage else said[0] if said else f"status {served.returncode}"}
    row |= {name: getattr(told, name) for name in COUNTS}
    row |= {f"first {name}": value for name, value in figures.spread(told.first).items()}
    row |= {f"last {name}": value for name, value in figures.spread(told.last).items()}
    row["verdict"] = verdict(told, code, log, dict(options).get("caps"))
    return row | {"least free": told.least_free, "clock": told.stop.clock, "stop": told.stop.text.removeprefix("stop ")}


def verdict(told, source, log, caps):
    """What came of a run in a word: the gravest that holds, by the words of docs/report.schema.json."""
    stop = told.stop.text.split()[1]
    counts = {"unanswered": told.taken - told.answered, "untaken": told.came - told.taken, "dropped": told.dropped}
    if caps and is_deadlocked(source, log, caps):
        return "deadlock"
    return stop if stop in FAILED else next((word for word, count in counts.items() if count > 0), "answered")


def is_deadlocked(source, log, caps):
    """Whether threads wait in a circle for one another's resources at the end; not if the source can't be followed."""
    came = outcome.Outcome(log, places.Places(source))
    if all(came.callee(node) != "take" for node, _ in came.waiting.values()):
        return False
    try:
        return bool(following.circle(came, following.followed(source, log), finds.caps_of({"caps": caps})))
    except following.Lost:
        return False


def failures(row, expected):
    """Which of the expectations the run of a row doesn't meet."""
    if "came" not in row:
        return [row["stop"]] if expected else []
    met = {"answered": row["answered"] == row["came"], "no-drops": not row["dropped"],
           "no-deadlock": row["verdict"] != "deadlock"}
    return [it for it in expected if not met[it]]
