"""The same numbers of Capriccio: a run whose trace is held back at its first line, so that it rests where all threads
wait, and its memory can be read there.

The program examines the next line of its trace at each choice point. The first line is of a far time, so it is
delivered once no thread is ready; then the program reads on, and waits for the rest of the trace.
"""
import array, fcntl, os, signal, subprocess, tempfile, termios, time

from .runs import LONGEST, failed, sum_of_squares, timed
from .systems import FUEL, options_of, source_of, trace_of

IDLE = 10  # the status of a run in which every thread waits and no event is left


class NotAtRest(Exception):
    """The program ended, or ran too long, before it came to where it reads on."""


class Held:
    """A run of a command that reads a trace, of which it has the first line."""

    def __init__(self, words, first):
        self.output = tempfile.TemporaryFile()
        self.began = time.monotonic()
        self.process = subprocess.Popen([str(it) for it in words], stdin=subprocess.PIPE, stdout=self.output,
                                        stderr=subprocess.DEVNULL)
        os.write(self.process.stdin.fileno(), first.encode())

    def __enter__(self):
        return self

    def __exit__(self, *_):
        if self.process.poll() is None:
            self.process.send_signal(signal.SIGKILL)
        self.process.wait()
        self.output.close()

    def is_at_rest(self):
        """Whether it has read all that it has, and sleeps."""
        unread = array.array("i", [0])
        fcntl.ioctl(self.process.stdin, termios.FIONREAD, unread)
        with open(f"/proc/{self.process.pid}/stat") as file:
            return not unread[0] and file.read().rpartition(")")[2].split()[0] == "S"

    def rest(self):
        """Waits until it rests. Gives the seconds from its start."""
        while not (self.is_at_rest() and self.is_at_rest()):
            if self.process.poll() is not None or time.monotonic() - self.began > LONGEST:
                raise NotAtRest(failed(self.process.poll()))
            time.sleep(0.0005)
        return time.monotonic() - self.began

    def resident(self):
        """The bytes of its memory that are resident."""
        with open(f"/proc/{self.process.pid}/statm") as file:
            return int(file.read().split()[1]) * os.sysconf("SC_PAGESIZE")

    def finish(self, rest):
        """Gives it the rest of its trace. Gives the status, the seconds from here to its end, and its log."""
        began = time.monotonic()
        with self.process.stdin as stream:
            stream.write(rest.encode())
        status = self.process.wait(LONGEST)
        taken = time.monotonic() - began
        self.output.seek(0)
        return status, taken, self.output.read().decode()


def words_of(program, folder, task, number):
    return [program, "serve", source_of(folder, task, number), *options_of(task, number), "--fuel", FUEL]


def at_rest(program, folder, task, number):
    """The seconds to where all threads wait, the memory there, and how the run ends."""
    first, rest = trace_of(task, number)
    with Held(words_of(program, folder, task, number), first) as made:
        seconds = made.rest()
        return seconds, made.resident(), made.finish(rest)


def capriccio_run(program, folder, task, number):
    """The numbers of a task, or None with the reason. The translation of the source is in the times of `handing` and
    `pool`; in those of the others a run with one thread is taken off."""
    try:
        return {"handing": whole_run, "pool": whole_run}.get(task, held_run)(program, folder, task, number)
    except NotAtRest as why:
        return None, str(why)


def held_run(program, folder, task, number):
    small_seconds, small_bytes, _ = at_rest(program, folder, "waiters", 1)
    seconds, resident, (status, woken, log) = at_rest(program, folder, task, number)
    if status not in (0, IDLE):
        return None, failed(status)
    found = {"start": max(0.0, seconds - small_seconds), "before": small_bytes, "after": resident, "deep": resident}
    if task == "waiters":
        ended = sum(it.startswith("end ") for it in log.splitlines())
        return (found | {"wake": woken}, "") if ended == number + 1 else (None, f"ends with {ended} threads ended")
    return found | {"depth": float(next(it.split()[2] for it in log.splitlines() if it.startswith("out ")))}, ""


def whole_run(program, folder, task, number):
    status, taken, log = timed(words_of(program, folder, task, number), "".join(trace_of(task, number)).encode())
    if status not in (0, IDLE):
        return None, failed(status)
    if task == "pool":
        total = sum(int(it.split()[2]) for it in log.splitlines() if it.startswith(b"out "))
        if total != sum_of_squares(number):
            return None, f"has the sum {total}"
    return {"seconds": taken}, ""
