"""Tries bugs: a crate is proved with them, and each has to be refused."""
import os, pathlib, re, subprocess, sys, tempfile

from planting import bugs, together

TOP = pathlib.Path(__file__).resolve().parent.parent.parent
KINDS = (
    ("NOT REFUSED", "survived"),
    ("BAD EDIT", "bad"),
    ("NOT TRIED", "not tried"),
    ("only because a proof file names", "named"),
    ("only by a limit", "limit"),
    ("refused, as it must be", "refused"),
)
NOT_PROVED = 1  # the status of a check that refuses a crate
PLANTS = "rt plant"  # the name of a crate's own row


def try_bugs(crate, names):
    """Tries the bugs of a crate that have no result, or those of these names: together those that leave each other's proofs alone."""
    wanted = [it for it in bugs.bugs_of(crate) if (it.name in names if names else bugs.result_of(it) is None)]
    if not wanted:
        return
    status, said = check_cut("check", crate)
    if status:
        sys.exit(f"{said[-2000:]}\nmutants: {crate} isn't proved as it stands")
    with tempfile.TemporaryDirectory() as room:
        edits = {it.name: pathlib.Path(room) / f"{it.name}.edit" for it in wanted}
        for bug in wanted:
            edits[bug.name].write_text("\n".join(bug.edit) + "\n")
        for fit in together.may_go_together, together.are_apart:
            wanted = [bug for group in together.groups(wanted, fit) for bug in try_group(group, edits)]
        for bug in wanted:
            settle(bug, *read(check_cut("edit", crate, edits[bug.name])[1]))


def try_group(group, edits):
    """Tries bugs in one check, and returns those of which it doesn't say that it refuses them."""
    if len(group) == 1:
        return group
    status, said = check_cut("together", group[0].crate, *[edits[it.name] for it in group])
    if status != NOT_PROVED or "\nlogic=not-proved" not in said:
        # (one of them may be what can't be applied or read)
        half = len(group) // 2
        return try_group(group[:half], edits) + try_group(group[half:], edits)
    left = []
    for bug in group:
        line = together.refusal(bug, said)
        if line is None:
            left.append(bug)
        else:
            settle(bug, "refused", line[:160])
    return left


def check_cut(*words):
    """The status of dev/check_cut, and what it said."""
    run = subprocess.run([TOP / "dev/check_cut", *words], cwd=TOP, stdout=subprocess.PIPE, stderr=subprocess.STDOUT,
                         text=True)
    return run.returncode, run.stdout


def settle(bug, came, line):
    """Tells what a bug came to, and puts it into the record if it says anything."""
    print(f"{bug.crate} {bug.name}: {came}: {line}", flush=True)
    if came not in ("bad", "not tried"):
        bugs.keep(bugs.Result(bug.crate, bug.name, bug.sum, came, line))


def read(said):
    """What a try came to, and the place that refused it."""
    line = next((it for it in said.splitlines() if it.startswith("must-fail ")), said[-200:].replace("\n", " "))
    came = next((came for words, came in KINDS if words in line), "not tried")
    return came, re.sub(r"\s+", " ", line.partition(": refused, as it must be")[2].lstrip(": ") or line)[:160]


def plant(crate):
    """Has `rt plant` try its wrong bodies, and keeps its last line and those that met the contract."""
    run = subprocess.run(["rt", "plant", "--jobs", os.environ.get("JOBS", "1"), "--minutes", "30"],
                         cwd=TOP / "crates" / crate, stdout=subprocess.PIPE, stderr=subprocess.STDOUT, text=True)
    lines = run.stdout.splitlines()
    if run.returncode:
        sys.exit(f"{run.stdout[-2000:]}\nmutants: rt plant {crate} ended with {run.returncode}")
    bugs.keep(bugs.Result(crate, PLANTS, "-", "planted", lines[-1]))
    print("\n".join([f"== {crate}", *lines]), flush=True)
