"""The programs that the tools run: the scripts at the top of the repository, which run those of the
folder that CAPRICCIO_PROGRAMS names, if it does."""
import os, pathlib, subprocess

TOP = pathlib.Path(__file__).resolve().parent.parent.parent


def capriccio():
    """The path of the program, which starts faster, or of the script that proves, builds and runs it."""
    folder = os.environ.get("CAPRICCIO_PROGRAMS")
    return os.path.join(folder, "capriccio_cli") if folder else str(TOP / "capriccio")


def itself():
    """The path of the program behind the script, for many runs: `make_ready` has built it."""
    built = os.path.join(os.environ.get("CAPRICCIO_PROGRAMS") or str(TOP / "built"), "capriccio_cli")
    return built if os.access(built, os.X_OK) else capriccio()


def report():
    """The path of the script, which explains what the program refuses."""
    return str(TOP / "report")


def make_ready(source, options=()):
    """Builds the program if need be, and has it read the source: gives its status, and leaves what
    it refuses on standard error."""
    return subprocess.run([capriccio(), "graph", source,
                           *options], stdin=subprocess.DEVNULL, stdout=subprocess.DEVNULL).returncode
