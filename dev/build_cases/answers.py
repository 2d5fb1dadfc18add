"""Calls that take no program: what they answer with and without one, on a terminal and without, and that they build nothing."""
import shutil, subprocess

USAGE = "usage: capriccio serve SRC, run SRC IMG CRT, "
USAGE_OF_REPORT = "usage: report [--timeline FILE] "
HELP, HELP_OF_REPORT = "usage: capriccio COMMAND NAME ..", "usage: report [OPTION ..] serve SRC .."
HELP_OF_TRY = "Runs Capriccio unproved"
NOT_BUILT = "not built"

# The words; on a terminal the first words of standard output, with status 0; without one the status
# and the first words of standard output or standard error.
ROWS = (
    (("./capriccio",), HELP, 1, USAGE),
    (("./capriccio", "help"), HELP, 1, USAGE),
    (("./capriccio", "--help"), HELP, 1, USAGE),
    (("./capriccio", "-h"), HELP, 1, USAGE),
    (("./capriccio", "serve", "--help"), "usage: capriccio serve SRC", 1, USAGE),
    (("./capriccio", "--version"), "capriccio ", 1, USAGE),
    (("./report",), HELP_OF_REPORT, 2, USAGE_OF_REPORT),
    (("./report", "--help"), HELP_OF_REPORT, 0, HELP_OF_REPORT),
    (("./report", "--html", "x", "--help"), HELP_OF_REPORT, 0, HELP_OF_REPORT),
    (("./report", "--version"), "capriccio-report ", 0, "capriccio-report "),
    (("tools/try",), HELP_OF_TRY, 1, USAGE),
    (("tools/try", "--help"), HELP_OF_TRY, 0, HELP_OF_TRY),
    (("tools/try", "help", "serve"), "usage: capriccio serve SRC", 1, USAGE),
    (("tools/try", "--version"), "capriccio ", 1, USAGE),
    (("tools/try", "report", "--version"), "capriccio-report ", 0, "capriccio-report "),
)


def answer_of(clone, words, explains):
    environment = {**clone.environment, **({"CAPRICCIO_EXPLAIN": "1"} if explains else {})}
    return subprocess.run(words, cwd=clone.at, env=environment, stdin=subprocess.DEVNULL, capture_output=True,
                          text=True)


def without_program(clone):
    """Each row, with no program there: nothing is built."""
    for words, shown, status, said in ROWS:
        run = answer_of(clone, words, explains=True)
        if run.returncode or not run.stdout.startswith(shown):
            yield f"{' '.join(words)} on a terminal: status {run.returncode}, {run.stdout[:80]!r} {run.stderr[:80]!r}"
        run = answer_of(clone, words, explains=False)
        if run.returncode != status or not (run.stderr if status else run.stdout).startswith(said):
            yield f"{' '.join(words)} without a terminal: status {run.returncode}, {run.stdout[:80]!r} {run.stderr[:80]!r}"
        if clone.proved() or (clone.at / "built").exists():
            yield f"{' '.join(words)} builds"


def versions(clone):
    """The version says what the program is: not built, proved or unproved, and of which toolchain."""
    wanted = "(a toolchain that pretends)"
    cases = [(["./capriccio", "--version"], NOT_BUILT, ""), (["tools/try", "--version"], NOT_BUILT, "")]
    yield from differing(clone, cases)
    clone.call()
    cases = [(["./capriccio", "--version"], ", proved ", wanted), (["./report", "--version"], NOT_BUILT, "")]
    yield from differing(clone, cases)
    clone.call(["tools/try", "serve", "x"])
    clone.call(["tools/try", "report", "serve", "x"])
    cases = [(["tools/try", *its, "--version"], ", unproved ", wanted) for its in ([], ["report"])]
    yield from differing(clone, [*cases, (["./capriccio", "--version"], ", proved ", wanted)])
    clone.proved()
    for folder in [clone.at / "built", *clone.at.glob("crates/*/out")]:
        shutil.rmtree(folder)  # (the next case is a first call)


def differing(clone, cases):
    for words, state, toolchain in cases:
        out = answer_of(clone, words, explains=True).stdout
        if state not in out or toolchain not in out or out.count("\n") != 1:
            yield f"{' '.join(words)}: {out!r}"


def completion(clone):
    """The completion offers commands and builds nothing."""
    script = "source tools/completion.bash; COMP_WORDS=(./capriccio a); COMP_CWORD=1; _capriccio; echo ${COMPREPLY[@]}"
    run = answer_of(clone, ["bash", "-c", script], explains=True)
    if run.stdout != "audit\n" or clone.proved():
        yield f"{run.stdout!r} {run.stderr!r}"


CASES = {
    "without a program": without_program,
    "completion without a program": completion,
    "the version": versions,
}
