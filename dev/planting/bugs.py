"""The bugs of dev/planted, and the record of what came of them."""
import dataclasses, hashlib, pathlib

PLANTED = pathlib.Path(__file__).resolve().parent.parent / "planted"
RESULTS = PLANTED / "results"
FIELDS = ("-- ", "file: ", "old: ", "new:", "free: ", "test: ")


@dataclasses.dataclass
class Bug:
    """A bug: the crate, its name, what it changes, the lines of the edit, and what is said of it."""

    crate: str
    name: str
    what: str = ""
    edit: tuple = ()
    free: str = ""
    test: str = ""

    @property
    def sum(self):
        return hashlib.sha256("\n".join(self.edit).encode()).hexdigest()[:12]


@dataclasses.dataclass
class Result:
    """What came of a bug or of a crate's plants: a word, and the line that says more."""

    crate: str
    name: str
    sum: str
    came: str
    line: str


def bugs_of(crate):
    """The bugs of a crate, in the order of their file."""
    file, found = PLANTED / f"{crate}.bugs", []
    for number, line in enumerate(file.read_text().splitlines(), 1):
        if line.startswith("== "):
            found.append(Bug(crate, line[3:].strip()))
        elif line.startswith(FIELDS) and found:
            add(found[-1], line)
        elif line.strip():
            raise SystemExit(f"{file}:{number}: no such line in a bug: {line}")
    names = [it.name for it in found]
    for name in names:
        if names.count(name) > 1:
            raise SystemExit(f"{file}: two bugs have the name {name}")
    return found


def add(bug, line):
    head, _, text = line.partition(" ")
    if head == "--":
        bug.what = f"{bug.what} {text}".strip()
    elif head == "free:":
        bug.free = text
    elif head == "test:":
        bug.test = text
    else:
        bug.edit += (line,)


def all_bugs():
    """The bugs of all crates."""
    return [bug for file in sorted(PLANTED.glob("*.bugs")) for bug in bugs_of(file.stem)]


def results():
    """The record, the newest of each bug."""
    found = {}
    if RESULTS.exists():
        for line in RESULTS.read_text().splitlines():
            result = Result(*line.split("\t"))
            found[result.crate, result.name] = result
    return found


def result_of(bug, known=None):
    """What came of this bug as it is written now, or nothing."""
    known = (results() if known is None else known).get((bug.crate, bug.name))
    return known if known and known.sum == bug.sum else None


def keep(result):
    """Puts a result into the record, in the place of an older one."""
    known = results()
    known[result.crate, result.name] = result
    lines = ["\t".join(dataclasses.astuple(it)) for _, it in sorted(known.items())]
    RESULTS.write_text("\n".join(lines) + "\n")
