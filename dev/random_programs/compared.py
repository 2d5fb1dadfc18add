"""Compares what a random program does under Capriccio with what it does as a native program that
gcc makes."""
import pathlib, random, subprocess, tempfile

from runs import program

from . import printers, trees

GCC = ["gcc", "-std=gnu11", "-O1", "-fwrapv", "-w"]


class Differs(Exception):
    """What a program prints differs, or it doesn't come to its end."""


def native_lines(folder, text):
    """What the C text prints as a native program."""
    source, binary = folder / "native.c", folder / "native"
    source.write_text(text)
    subprocess.run([*GCC, "-o", binary, source], check=True)
    return subprocess.run([binary], stdin=subprocess.DEVNULL, stdout=subprocess.PIPE, text=True, check=True).stdout.splitlines()


def served_lines(folder, text):
    """The outputs and the stop of the run under Capriccio, without its cost and chunks."""
    source = folder / "server.c"
    source.write_text(text)
    run = subprocess.run([program.capriccio(), "serve", "--fuel", "100000000", source], stdin=subprocess.DEVNULL,
                         capture_output=True, text=True)
    if not run.stdout:
        raise Differs(f"serve gives status {run.returncode}: {run.stderr.strip()}")
    lines = [it for it in run.stdout.splitlines() if it.startswith(("out ", "stop "))]
    return [*lines[:-1], " ".join(lines[-1].split()[:4])]


def compared(seed):
    """How many values of the program with this seed are the same on both sides."""
    tree = trees.Program(random.Random(seed))
    with tempfile.TemporaryDirectory() as name:
        folder = pathlib.Path(name)
        native, served = native_lines(folder, printers.C().program(tree)), served_lines(folder, printers.CapC().program(tree))
    for number, (one, other) in enumerate(zip(native + ["nothing"], served + ["nothing"]), 1):
        if one != other:
            raise Differs(f"line {number} is {other!r}, and {one!r} of the native program")
    return len(native) - 1


def kept(seed, to):
    """Where the two texts of the program with this seed are stored."""
    folder = pathlib.Path(to or tempfile.mkdtemp(prefix=f"compare_gcc_{seed}_"))
    folder.mkdir(parents=True, exist_ok=True)
    tree = trees.Program(random.Random(seed))
    (folder / "server.c").write_text(printers.CapC().program(tree))
    (folder / "native.c").write_text(printers.C().program(tree))
    return folder
