"""The form of a case, its bounds, and sources and tests that several groups use."""

SOURCE, IMAGE, CERTIFICATE, LOG = 1_048_576, 2_097_152, 8_388_608, 67_108_864  # the most bytes of each file
SECONDS, MEGABYTES = 20, 512  # of the proved program, where a case doesn't say otherwise
LEAST = b"int main() { return 0; }"


def case(name, words, files=(), status=0, err="", out=None, stdin=b"", stdout=None, stderr=None, seconds=SECONDS,
         megabytes=MEGABYTES):
    """`out` is the whole output, or a test of it; None takes any. `stdin` is bytes or a path;
    `stdout` and `stderr` are a path in their place. `seconds` of processor and `megabytes` of
    memory bound the run of the proved program."""
    return dict(
        name=name, words=words, files=dict(files), status=status, err=err, out=out, stdin=stdin, stdout=stdout,
        stderr=stderr, seconds=seconds, megabytes=megabytes
    )


def refused(name, source, refusal, words=("graph", "S"), status=2, **rest):
    """A source that is refused, by any command that reads it."""
    return case(name, list(words), {"S": source}, status, refusal + "\n", b"", **rest)


def puts(name, source, values, stop=b"stop done", status=0, words=("serve", "S"), **rest):
    """A run that puts these values, whichever thread puts them, and whose last line begins with
    `stop`."""
    wanted = [str(it).encode() for it in values]

    def fits(out):
        lines = out.splitlines() or [b""]
        return [it.split()[2] for it in lines if it.startswith(b"out ")] == wanted and lines[-1].startswith(stop) and out.endswith(b"\n")

    return case(name, list(words), {"S": source}, status, "", fits, **rest)
