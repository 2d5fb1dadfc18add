"""The crates of the repository by room, as crates.txt has them."""
import dataclasses, pathlib

TOP = pathlib.Path(__file__).resolve().parents[2]
KINDS = ("Code", "Laws", "Tests")


@dataclasses.dataclass
class Crate:
    """A line of crates.txt. `kind` is the heading of its group, empty if there is none."""

    name: str
    uses: list[str]
    kind: str


@dataclasses.dataclass
class Room:
    """A heading `## Name: sentence.` with the crates below it."""

    name: str
    says: str
    crates: list[Crate]


def rooms_of(text):
    """The rooms in order. Crates above the first heading are in a room without a name."""
    rooms, kind = [Room("", "", [])], ""
    for line in text.splitlines():
        if line.startswith("## "):
            name, _, says = line[3:].partition(":")
            rooms.append(Room(name.strip(), says.strip(), []))
            kind = ""
        elif line.startswith("# "):
            kind = line[2:].strip() if line[2:].strip() in KINDS else kind
        else:
            head, colon, uses = line.partition("#")[0].partition(":")
            if colon:
                rooms[-1].crates.append(Crate(head.split()[0], uses.split(), kind))
    return rooms


def rooms():
    """The rooms of this repository."""
    return rooms_of((TOP / "crates.txt").read_text())


def crates():
    """The crates of this repository by name, in the order of crates.txt."""
    return {it.name: it for room in rooms() for it in room.crates}
