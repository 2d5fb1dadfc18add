"""How many processes the free memory has room for."""
import os, pathlib, re

SYSTEM = "/proc/meminfo"
EACH = 2 << 30  # bytes of a proof, or of the compilation of a program


def room(system=SYSTEM):
    """How many proofs or compilations fit beside what runs; 1 if the system doesn't say what is free."""
    text = pathlib.Path(system).read_text() if os.path.exists(system) else ""
    free = re.search(r"MemAvailable: +(\d+) kB", text)
    return int(free[1]) * 1024 // EACH if free else 1
