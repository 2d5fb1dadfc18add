"""Runs of a program with one fault each."""
import dataclasses, os, pathlib, resource, signal, subprocess

KINDS = ("memory", "read", "write", "open")
SECONDS = 300  # by the clock
SOURCE = pathlib.Path(__file__).resolve().parent / "library.c"


@dataclasses.dataclass
class Ended:
    """How a run ended, what it wrote to both streams, and its requests of each kind. The status
    is None where the run took too long, and negative where a signal ended it."""

    status: int
    out: bytes
    err: bytes
    asked: dict


def compiled(folder):
    """The library, compiled into a folder."""
    library = str(pathlib.Path(folder) / "faults.so")
    subprocess.run(["cc", "-O1", "-shared", "-fPIC", "-o", library, str(SOURCE), "-ldl"], check=True)
    return library


def run(library, words, given=b"", kind="", at=0, folder=None, stdout=subprocess.PIPE, file_size=None):
    """Runs the words with the fault. `given` is standard input, `file_size` the most bytes that a
    file may have for this run (RLIMIT_FSIZE)."""
    got, put = os.pipe()
    environment = dict(os.environ, LD_PRELOAD=library, FAULT_KIND=kind, FAULT_AT=str(at), FAULT_TOLD=str(put))

    def limit():
        signal.signal(signal.SIGXFSZ, signal.SIG_IGN)  # so that the write fails, and no signal ends the run
        resource.setrlimit(resource.RLIMIT_FSIZE, (file_size, file_size))

    try:
        ended = subprocess.run(
            words, input=given, stdout=stdout, stderr=subprocess.PIPE, env=environment, pass_fds=[put], timeout=SECONDS,
            cwd=folder, preexec_fn=None if file_size is None else limit
        )
        status, out, err = ended.returncode, ended.stdout or b"", ended.stderr
    except subprocess.TimeoutExpired as late:
        status, out, err = None, late.stdout or b"", late.stderr or b""
    os.close(put)
    with os.fdopen(got) as told:
        counts = [int(it) for it in told.read().split()]
    return Ended(status, out, err, dict(zip(KINDS, counts or [0] * len(KINDS))))
