"""What a developer does with Capriccio in a day, timed: many runs by tools/explore, an audit and a report of a long
log."""
import json, pathlib, subprocess, sys, tempfile

from .runs import failed, timed

TOP = pathlib.Path(__file__).resolve().parent.parent.parent
STORIES, POOL, MOMENT = TOP / "docs/stories", TOP / "examples/pool/server.c", TOP / "tools/moment"
RUNS = 1_000  # of tools/explore
APART = 10  # ticks between the requests of the long log: half of them are dropped, else an audit takes no log so long


def explored(program):
    """Runs a second of the story of docs/EXPLORING.md, a source of 115 lines with a trace of 200."""
    with tempfile.TemporaryDirectory() as folder:
        words = ["env", f"CAPRICCIO_PROGRAMS={program.parent}", sys.executable, TOP / "tools/explore", "--json", "-o",
                 folder, "--runs", RUNS, "--caps", "1=1,2=1", STORIES / "kv.c", STORIES / "kv.trace"]
        status, _, said = timed(words)
    if status not in (0, 20):
        return None, failed(status)
    told = json.loads(said)
    return {"value": told["runs"] / told["seconds"]}, ""


def seconds(words, trace, statuses=(0,)):
    status, taken, _ = timed(words, trace)
    return ({"value": taken}, "") if status in statuses else (None, failed(status))


def long_log(program, folder, requests):
    """The trace and the file of the log of so many requests, made once for all rounds."""
    trace = "".join(f"arrive {it * APART} {it % 9 + 1}\n" for it in range(requests)).encode()
    log = folder / f"log_{requests}"
    if not log.exists():
        with open(log, "wb") as file:
            subprocess.run([program, "serve", "--fuel", "1000000000", POOL], input=trace, stdout=file)
    return trace, log


def rows(program, folder, requests):
    """By its name each thing that was done, with its number or the reason why there is none."""
    trace, log = long_log(program, folder, requests)
    yield f"explore, {RUNS:,} runs of docs/stories/kv.c: runs a second", *explored(program)
    words = ["--fuel", "1000000000", POOL]
    yield "serve: seconds", *seconds([program, "serve", *words], trace, (10,))
    yield "audit of its log: seconds", *seconds([program, "audit", *words, log], trace)
    middle = 3 * requests // 2  # (about three lines a request)
    moment = [MOMENT, "--at-line", middle, "--log", log, "serve", *words]
    yield "a moment in the middle of its log: seconds", *seconds(moment, trace)
    report = program.parent / "report"
    if not report.is_file():
        return
    yield "report on the run: seconds", *seconds([report, "serve", *words], trace, (10,))
    yield "report on its log: seconds", *seconds([report, "--log", log, "serve", *words], trace)
