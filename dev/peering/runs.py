"""One run of a task by a peer: what the system prints, and its wall-clock time."""
import subprocess, tempfile, time

# Seconds after which a run is given up.
LONGEST = 300


def timed(words, given=b""):
    """Runs a command with this standard input. Gives status, seconds, and standard output."""
    with tempfile.TemporaryFile() as standard_input, tempfile.TemporaryFile() as output:
        standard_input.write(given)
        standard_input.seek(0)
        began = time.monotonic()
        streams = {"stdin": standard_input, "stdout": output, "stderr": subprocess.DEVNULL}
        try:
            status = subprocess.run([str(it) for it in words], timeout=LONGEST, **streams).returncode
        except subprocess.TimeoutExpired:
            status = None
        taken = time.monotonic() - began
        output.seek(0)
        return status, taken, output.read()


# What statuses of the peers mean: their own, and of a signal the negative number.
MEANINGS = {3: "can't start so many threads", -11: "overflows its stack"}


def failed(status):
    """The words for how a run ended that didn't come to its end."""
    if status is None:
        return f"takes over {LONGEST} s"
    if status in MEANINGS:
        return MEANINGS[status]
    return f"ends with {'signal' if status < 0 else 'status'} {abs(status)}"


def sum_of_squares(number):
    """What the tasks of a pool put together: requests have the values from 0 to 99 in turn."""
    return sum((it % 100) ** 2 for it in range(number))


def peer_run(system, folder, task, number, stack):
    """The numbers that a peer prints, or None with the reason if it didn't come to its end."""
    status, _, said = timed(system.words(folder, task, number, stack))
    if status != 0:
        return None, failed(status)
    found = {name: float(value) for name, value in map(str.split, said.decode(errors="replace").splitlines())}
    if task == "pool" and found["sum"] != sum_of_squares(number):
        return None, f"has the sum {found['sum']:.0f}"
    return found, ""
