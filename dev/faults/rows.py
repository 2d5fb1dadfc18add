"""The rows of dev/inject_faults: runs of each command and of the report, with their files."""
import dataclasses, pathlib, subprocess

PUT = b"int main() { put(7); return 0; }"
CALL = b"int g(int x) { return x; } int main() { int a; int b; a = g(1); return a; }"
SERVER = (
    b"void worker(int n) { int c; int v; while (1) { c = accept(); take(1, 1); v = wait(c); put(v + n); give(1, 1); } }"
    b" int main() { spawn(worker, 100); spawn(worker, 200); return 0; }"
)
NESTED = b"int f(int x) { return x + 1; } int main() { int a[2]; while (f(a[f(0)]) < 2 && f(1)) a[f(0)] = f(f(a[1])); put(a[1] ? f(2) : f(3)); return 0; }"
CYCLE = b"int f(int n) { return n ? f(n - 1) : 0; } int main() { return f(3); }"
TRACE = b"arrive 100 0\ndata 150 0 7\narrive 200 1\narrive 210 2\ndata 400 1 8\ndata 500 2 9\n"
LONG = b"int main() { int i; for (i = 0; i < 700; i = i + 1) { put(i); } return 0; }"  # a log of more than 4,096 bytes
STORED = ("image", "certificate", "timeline.svg", "graph.svg", "graph.dot")  # the files that a row may store


@dataclasses.dataclass
class Row:
    """A run: its program, words and trace, its status without a fault, and its line on standard
    error. `instead` are words whose whole output the program may give after a failed allocation."""

    name: str
    words: tuple
    status: int = 0
    trace: bytes = b""
    err: bytes = b""
    program: str = "capriccio_cli"
    instead: tuple = ()


ROWS = (
    Row("serve", ("serve", "put")),
    Row("serve of a server", ("serve", "--caps", "1=1", "server"), 10, TRACE),
    Row("serve by strides, two sizes",
        ("serve", "--caps", "1=1", "--rule", "stride", "--tickets", "1=3", "--chunk", "512", "--max-path", "128",
         "--extra", "4", "--extra-size", "256", "server"), 10, TRACE),
    Row("serve of a long log", ("serve", "long")),
    Row("serve of a bad trace", ("serve", "--caps", "1=1", "server"), 4, TRACE + b"arrive 1 1\n"),
    Row("build", ("build", "put", "image", "certificate")),
    Row("build of calls inside expressions", ("build", "nested", "image", "certificate", "--chunk", "1024")),
    Row("check", ("check", "put", "put.image", "put.certificate")),
    Row("check of a pair that is refused", ("check", "call", "put.image", "put.certificate"), 3),
    Row("run", ("run", "put", "put.image", "put.certificate")),
    Row("run of linked calls", ("run", "call", "linked.image", "linked.certificate")),
    Row("graph", ("graph", "nested")),
    Row("graph of a source that is refused", ("graph", "bad"), 2, err=b"source: Unexpected at 12\n"),
    Row("demo", ("demo", "2")),
    Row("audit", ("audit", "--caps", "1=1", "server", "server.log"), 0, TRACE),
    Row("audit of an unlawful log", ("audit", "server", "put"), 15, TRACE),
    Row("budget", ("budget", "call", "linked.image", "linked.certificate")),
    Row("budget of a cycle", ("budget", "cycle", "cycle.image", "cycle.certificate"), 17, err=b"budget: cycle at f\n"),
    Row("no words", (), 1, err=None),
    Row("report", ("serve", "--caps", "1=1", "server"), 10, TRACE, program="report"),
    Row("report with pictures",
        ("--timeline", "timeline.svg", "--graph", "graph.svg", "serve", "--caps", "1=1", "server"), 10, TRACE,
        program="report"),
    Row("report with reasons", ("--why", "--graph", "graph.dot", "serve", "--caps", "1=1", "server"), 10, TRACE,
        program="report", instead=("--graph", "graph.dot", "serve", "--caps", "1=1", "server")),
    Row("report of a log", ("--log", "server.log", "serve", "--caps", "1=1", "server"), 0, TRACE, program="report"),
)


def made(programs, folder):
    """The files that the rows read, made by the program itself where it makes them."""
    program, folder = programs / "capriccio_cli", pathlib.Path(folder)
    for name, data in {"put": PUT, "call": CALL, "server": SERVER, "nested": NESTED, "cycle": CYCLE, "long": LONG, "bad": b"int main() {]"}.items():
        (folder / name).write_bytes(data)
    for words in (("put", "put"), ("call", "linked", "--chunk", "64", "--max-path", "16"), ("cycle", "cycle")):
        call = [program, "build", words[0], f"{words[1]}.image", f"{words[1]}.certificate", *words[2:]]
        subprocess.run(call, cwd=folder, check=True, stdout=subprocess.DEVNULL, stdin=subprocess.DEVNULL)
    # Its code is the same for longer paths: only the certificate says how long they are.
    facts = folder / "linked.certificate"
    facts.write_bytes(facts.read_bytes().replace(b"max-path 16", b"max-path 32"))
    log = subprocess.run([program, *ROWS[1].words], cwd=folder, input=TRACE, capture_output=True).stdout
    (folder / "server.log").write_bytes(log)
    return held(folder)


def held(folder):
    return {path.name: path.read_bytes() for path in pathlib.Path(folder).iterdir()}


def put_back(folder, files):
    """Leaves these files alone in a folder."""
    for path in pathlib.Path(folder).iterdir():
        if path.name not in files:
            path.unlink()
    for name, data in files.items():
        path = pathlib.Path(folder) / name
        if not path.exists() or path.read_bytes() != data:
            path.write_bytes(data)
