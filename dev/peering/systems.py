"""The systems side by side: how each is built, and how a task of it is called."""
import dataclasses, os, pathlib, shutil, subprocess

SOURCES = pathlib.Path(__file__).resolve().parent / "sources"
WORKERS = 16
# The longest run of Capriccio, in instructions, and a time at which every thread waits.
FUEL, LATE = 1_000_000_000, 500_000_000
APART = 25  # ticks between requests: a worker of the pool takes 20 for one


class Missing(Exception):
    """What a system needs isn't installed; the text says what."""


@dataclasses.dataclass(frozen=True)
class System:
    """A system of threads. `build` makes it in a folder, and raises Missing; `words` is the command of a task."""

    name: str
    build: callable
    words: callable


def needs(program, package):
    if not shutil.which(program):
        raise Missing(f"{program} is missing (Debian: {package})")


def compiled_c(name):
    def build(folder):
        needs("gcc", "gcc")
        subprocess.run(["gcc", "-O2", "-o", folder / name, SOURCES / f"{name}.c", "-lpthread"], check=True)

    return build


def build_go(folder):
    needs("go", "golang-go")
    environment = {**os.environ, "GOCACHE": str(folder / "go"), "GO111MODULE": "off"}
    subprocess.run(["go", "build", "-o", folder / "routines", SOURCES / "routines.go"], check=True, env=environment)


def build_erlang(folder):
    needs("erlc", "erlang-base")
    subprocess.run(["erlc", "-o", folder, SOURCES / "processes.erl"], check=True)


def build_python(folder):
    needs("python3", "python3")


def words_of(name):
    return lambda folder, task, number, stack: [folder / name, task, str(number), str(stack)]


def words_of_erlang(folder, task, number, stack):
    call = "processes:main(init:get_plain_arguments())."
    return ["erl", "+P", "200000", "-noshell", "-pa", folder, "-eval", call, "-extra", task, str(number)]


def words_of_python(folder, task, number, stack):
    return ["python3", SOURCES / "tasks.py", task, str(number)]


SYSTEMS = (
    System("C, POSIX threads", compiled_c("threads"), words_of("threads")),
    System("C, ucontext", compiled_c("coroutines"), words_of("coroutines")),
    System("Go", build_go, words_of("routines")),
    System("Erlang", build_erlang, words_of_erlang),
    System("Python, asyncio", build_python, words_of_python),
)


def source_of(folder, task, number):
    """Writes the program of a task for Capriccio, and returns its file."""
    text = (SOURCES / "capc" / f"{task}.c").read_text()
    for word in ("THREADS", "TURNS"):
        text = text.replace(f" {word};", f" {number};")
    file = folder / f"{task}_{number}.c"
    file.write_text(text)
    return file


def options_of(task, number):
    """The options under which a task runs: chunks as small as its threads allow, and room for a message to each."""
    if task == "waiters":
        room = ["--backlog", str(max(64, -(-number // 64)))]
        return ["--chunk", "64", "--max-path", "48", "--chunks", str(number + 2), *room]
    if task == "deep":
        return [*options_of("waiters", number), "--extra-size", "4096", "--extra", "100"]
    return {"handing": ["--caps", "1=1,2=1"], "pool": []}[task]


def trace_of(task, number):
    """The trace of a task, its first line apart: what wakes the threads, or the requests."""
    lines = {
        "waiters": lambda: [f"data {LATE} {i % 64} 1\n" for i in range(number)],
        "deep": lambda: [f"data {LATE} 0 1\n", f"arrive {LATE} 0\n"],
        "pool": lambda: [f"arrive {i * APART} {i % 100}\n" for i in range(number)],
    }.get(task, list)()
    return "".join(lines[:1]), "".join(lines[1:])
