"""What the last good build of a program was made of, kept beside it: so a file that is newer but
the same builds nothing."""
import hashlib, json, os, tempfile

from explained.help_text import commit_of

TICK = 10_000_000  # nanoseconds: times of files may lag behind the clock by less


class LastBuild:
    """The note on the last good build of a program, beside it in `built`. Its time is when the
    sources were last found to be those that it names."""

    def __init__(self, top, program):
        self.top, self.program, self.note = top, program, program.with_name(program.name + ".made")

    def is_of(self, crates):
        """Whether the program stands and was made of these crates as they are. Of the files only
        those are read that were touched since; the note then has the time of now."""
        began = self.now()
        try:
            made, mark = json.loads(self.note.read_text()), self.note.stat().st_mtime_ns
            is_same = os.access(self.program, os.X_OK) and made["uses"] == uses_of(crates) and self.has_files(made["files"], crates, mark)
        except (OSError, ValueError, KeyError, TypeError):
            return False
        if is_same:
            os.utime(self.note, ns=(began, began))
        return is_same

    def has_files(self, sums, crates, mark):
        """Whether the crates have just these files, and those that were touched after the time
        `mark` have these sums."""
        files = self.files_of(crates)
        return files.keys() == sums.keys() and all(it.stat().st_ctime_ns <= mark or sum_of(it) == sums[name]
                                                   for name, it in files.items())

    def files_of(self, crates):
        return {str(file.relative_to(self.top)): file for it in crates.values() for file in it.files()}

    def begun(self, crates, toolchain, proved=True):
        """What a build that begins now is made of, and when it began."""
        began = self.now()
        files = {name: sum_of(it) for name, it in self.files_of(crates).items()}
        return {"proved": proved, "commit": commit_of(self.top), "toolchain": toolchain, "uses": uses_of(crates), "files": files}, began

    def keep(self, begun):
        """Notes a build that has ended well."""
        made, began = begun
        with tempfile.NamedTemporaryFile("w", prefix="note.", dir=self.note.parent, delete=False) as it:
            json.dump(made, it, indent=0)
        os.utime(it.name, ns=(began, began))
        os.replace(it.name, self.note)

    def now(self):
        """The time by the clock that times the files, a tick before."""
        self.note.parent.mkdir(parents=True, exist_ok=True)
        with tempfile.NamedTemporaryFile(prefix="now.", dir=self.note.parent) as it:
            return os.fstat(it.fileno()).st_ctime_ns - TICK


def uses_of(crates):
    return {name: it.uses for name, it in crates.items()}


def sum_of(file):
    return hashlib.sha256(file.read_bytes()).hexdigest()
