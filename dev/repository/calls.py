"""The public calls of the crates, with their clauses and must-fail edits.

The sources are in the layout of `rt fmt`: an item at the margin ends at the next `}` there.
"""
import dataclasses, pathlib, re

from repository import rooms
from repository.definitions import CodeType, Module, cited, first_sentence

FUNCTION = re.compile(r"^([ ]*)(pub )?(?:const )?(?:unsafe )?fn (\w+)", re.M)
CONTEXT = re.compile(r"^(?:pub )?(?:unsafe )?(?:impl|trait)\b(.*)$")
CLAUSE = re.compile(r"\b(ensures|requires)(?:\s+(\w+))?\s*$")


@dataclasses.dataclass
class Clause:
    """An `ensures` with its name, empty if it has none, and the definitions that it cites."""

    name: str
    cites: list[str]


@dataclasses.dataclass
class Call:
    """A function of a crate, in lines `line` to `last` of `path`.

    `owner` is its type or trait, empty for a free function. `form` is "trait" if it is only
    declared, "law" if it does nothing, else "code".
    """

    path: pathlib.Path
    line: int
    last: int
    owner: str
    name: str
    is_pub: bool
    form: str
    says: str
    clauses: list[Clause]
    edits: list[str] = dataclasses.field(default_factory=list)

    @property
    def called(self):
        return f"{self.owner}::{self.name}" if self.owner else self.name


def public_names(crate):
    """The names that a library hands out by `pub use`; none of a program."""
    path = rooms.TOP / "crates" / crate / "src/lib.rt"
    text = path.read_text() if path.exists() else ""
    names = set()
    for group in re.findall(r"pub use ([^;]+);", text):
        names.update(re.findall(r"(\w+)\s*(?=[,}]|$)", group.strip()))
    return names


def after_angles(text):
    """What stands behind a group in angle brackets."""
    depth = 0
    for at, char in enumerate(text):
        depth += (char == "<") - (char == ">" and text[at - 1] != "-")
        if not depth:
            return text[at + 1 :].strip()
    return ""


def owner_of(line):
    """The type or trait that an `impl` or `trait` line is of, and the trait that it implements."""
    rest = CONTEXT.match(line)[1].strip()
    while rest.startswith("<"):
        rest = after_angles(rest)
    first, is_impl, target = rest.partition(" for ")
    owner = re.match(r"\w+", (target if is_impl else first).strip().lstrip("&"))
    return owner[0] if owner else rest, first if is_impl else ""


def owners(lines):
    """For each line the owner and the trait of the `impl` or `trait` that it stands in."""
    owner = trait = ""
    for line in lines:
        if CONTEXT.match(line):
            owner, trait = owner_of(line)
        elif line.startswith("}"):
            owner = trait = ""
        yield owner, trait


def signature_at(text, start):
    """The clauses of the function that begins at `start`, each as kind, name and text, and where
    its body begins, or its `;`."""
    clauses, depth, opened, clause, brackets = [], 0, 0, None, 0
    for at in range(start, len(text)):
        char = text[at]
        if not depth:
            brackets += (char in "([") - (char in ")]")
        if char == "{":
            if not depth:
                clause, opened = CLAUSE.search(text, start, at), at + 1
                if not clause:
                    return clauses, at
            depth += 1
        elif char == "}":
            depth -= 1
            if not depth:
                clauses.append((clause[1], clause[2] or "", text[opened:at]))
        elif char == ";" and not depth and not brackets:
            return clauses, at
    return clauses, len(text)


def end_of(text, at, indent):
    """Where the function ends whose body begins at `at`."""
    if text[at : at + 1] != "{" or text[at : at + 2] == "{}":
        return at + 1
    found = re.compile(rf"^{indent}\}}", re.M).search(text, at)
    return found.start() if found else len(text)


def docstring_above(lines, number):
    """The docstring above line `number`, from 1."""
    found = []
    for line in reversed(lines[: number - 1]):
        bare = line.strip()
        if bare.startswith("///"):
            found.append(bare[3:].strip())
        elif not bare.startswith("#["):
            break
    return "\n".join(reversed(found))


def functions(path):
    """All functions of a source."""
    text = path.read_text()
    lines, module = text.splitlines(), Module(str(path), path)
    for line in lines:
        if line.strip().startswith("ghost use"):
            module.take_use(line)
    around = list(owners(lines))
    for found in FUNCTION.finditer(text):
        yield function_at(path, text, lines, around, module, found)


def function_at(path, text, lines, around, module, found):
    """The function whose `fn` was found there."""
    indent, is_pub, name = found.groups()
    number = text.count("\n", 0, found.start()) + 1
    owner, trait = around[number - 1] if indent else ("", "")
    clauses, body = signature_at(text, found.start())
    end = end_of(text, body, indent)
    promised = [Clause(it, names_in(module, said)) for kind, it, said in clauses if kind == "ensures"]
    form = "code" if text[body + 1 : end].strip() else "law"
    form = "trait" if text[body : body + 1] == ";" else form
    return Call(
        path=path,
        line=number,
        last=text.count("\n", 0, end) + 1,
        owner=owner,
        name=name,
        is_pub=bool(is_pub or form == "trait" or (trait and promised)),
        form=form,
        says=first_sentence(docstring_above(lines, number)),
        clauses=promised,
    )


def names_in(module, text):
    """The definitions of the repository that a clause cites, in order."""
    return [it.name for it in cited(module, text) if not isinstance(it, CodeType)]


def edits_of(crate):
    """The must-fail edits of a crate: name, file, and the first text that each takes out."""
    for path in sorted((rooms.TOP / "crates" / crate / "must-fail").glob("*.edit")):
        text = path.read_text()
        file = re.search(r"^file: (.+)$", text, re.M)[1].strip()
        yield path.stem, file, re.search(r"^old: ?(.*)$", text, re.M)[1].strip()


def line_of(path, text):
    """The line, from 1, at which a text stands in a file."""
    whole = path.read_text()
    return whole.count("\n", 0, whole.find(text)) + 1


def calls_of(crate):
    """The public calls of a crate, and the edits that are in none of them, each with its place."""
    top, names = rooms.TOP / "crates" / crate, public_names(crate)
    sources = {it: list(functions(it)) for it in sorted((top / "src").rglob("*.rt"))}
    elsewhere = []
    for edit, file, old in edits_of(crate):
        line = line_of(top / file, old)
        around = (it for it in sources.get(top / file, []) if it.line <= line <= it.last)
        inside = next(around, None)
        if inside and is_public(inside, names):
            inside.edits.append(edit)
        else:
            elsewhere.append(f"`{edit}` ({inside.called if inside else file})")
    found = [it for listed in sources.values() for it in listed if is_public(it, names)]
    return found, elsewhere


def is_public(call, names):
    return call.is_pub and (call.owner or call.name) in names
