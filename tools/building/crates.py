"""The crates of the repository by crates.txt: what each uses, and the files that it is made of."""
import pathlib


class Sources:
    """The source files of a crate, with the libraries that it names: what an unproved program is made of."""

    def __init__(self, top, name, uses):
        self.name, self.uses, self.folder = name, uses, top / "crates" / name

    def files(self):
        return sorted(it for it in (self.folder / "src").rglob("*") if it.is_file())


def uses_by_crate(top):
    """The libraries that each crate names, by the crate's name."""
    uses = {}
    for line in (pathlib.Path(top) / "crates.txt").read_text().splitlines():
        head, colon, rest = line.partition("#")[0].partition(":")
        if colon:
            uses[head.split()[0]] = rest.split()
    return uses


def closure(uses, name):
    """The repository's crates that `name` depends on, each before those that use it, and itself last."""
    order, seen = [], set()

    def visit(it):
        if it in uses and it not in seen:
            seen.add(it)
            for below in uses[it]:
                visit(below)
            order.append(it)

    visit(name)
    return order
