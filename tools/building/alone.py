"""One call at a time builds in a folder."""
import contextlib, fcntl, os, time

AGAIN = 60  # seconds between two words


@contextlib.contextmanager
def alone(folder, does, say):
    """Keeps other builds out of the folder; if one is under way, says so and waits."""
    descriptor = os.open(folder, os.O_RDONLY)
    try:
        began, told = time.monotonic(), 0
        while not is_locked(descriptor):
            waited = time.monotonic() - began
            if waited >= told:
                since = f" since {int(waited) // 60}:{int(waited) % 60:02}" if told else ""
                say(f"another call {does} in this clone; waiting for it{since}")
                told += AGAIN
            time.sleep(0.2)
        yield
    finally:
        os.close(descriptor)


def is_locked(descriptor):
    try:
        fcntl.flock(descriptor, fcntl.LOCK_EX | fcntl.LOCK_NB)
    except BlockingIOError:
        return False
    return True
