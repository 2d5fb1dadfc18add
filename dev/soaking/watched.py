"""A run whose memory is watched and whose output is kept or only counted."""
import dataclasses, os, pathlib, re, subprocess, threading, time

PERIOD = 0.05  # seconds between two looks at the memory
BLOCK = 1 << 20


@dataclasses.dataclass
class Seen:
    """What was seen of a run: its status, its bytes and lines of output and the last line, its
    wall-clock and CPU seconds, and pairs of a time and the resident bytes then."""

    status: int
    size: int
    lines: int
    last: str
    err: str
    seconds: float
    processor: float
    memory: list

    def growth(self, after):
        """By how many bytes the memory after this many seconds of the run exceeds what it was
        then, at the most; 0 where the run was shorter."""
        later = [held for at, held in self.memory if at >= after]
        return max(later) - later[0] if later else 0

    def peak(self):
        return max((held for _, held in self.memory), default=0)


def resident(pid):
    try:
        found = re.search(r"VmRSS:\s+(\d+)", pathlib.Path(f"/proc/{pid}/status").read_text())
    except OSError:
        return None
    return int(found[1]) * 1024 if found else None


class Output(threading.Thread):
    """Reads the output to its end: counts its bytes and lines, keeps the last line, and stores the
    first `most` bytes in a file, if there is one."""

    def __init__(self, pipe, kept, most):
        super().__init__(daemon=True)
        self.pipe, self.kept, self.most, self.size, self.lines, self.tail = pipe, kept, most, 0, 0, b""
        self.start()

    def run(self):
        while block := self.pipe.read(BLOCK):
            if self.kept and self.size < self.most:
                self.kept.write(block[: self.most - self.size])
            self.size, self.lines, self.tail = self.size + len(block), self.lines + block.count(b"\n"), (self.tail + block)[-200:]

    def last(self):
        return (self.tail.splitlines() or [b""])[-1].decode(errors="replace")


def watch(words, trace, folder, kept=None, most=1 << 32, seconds=None):
    """Runs the words over a trace, a path. After `seconds` the run is ended by a signal."""
    started, memory = time.monotonic(), []
    with open(trace, "rb") as given, open(os.path.join(folder, "err"), "w+b") as err:
        run = subprocess.Popen(words, cwd=folder, stdin=given, stdout=subprocess.PIPE, stderr=err)
        output = Output(run.stdout, kept, most)
        while True:
            pid, status, used = os.wait4(run.pid, os.WNOHANG)
            if pid:
                break
            at, held = time.monotonic() - started, resident(run.pid)
            memory += [(at, held)] if held else []
            if seconds and at > seconds:
                run.terminate()
            time.sleep(PERIOD)
        run.returncode = os.waitstatus_to_exitcode(status)
        output.join()
        err.seek(0)
        text = err.read().decode(errors="replace")
    return Seen(run.returncode, output.size, output.lines, output.last(), text, time.monotonic() - started,
                used.ru_utime + used.ru_stime, memory)
