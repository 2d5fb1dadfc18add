"""The parts of dev/soak: runs under load, and files with random bytes changed."""
