"""The definitions of the folders specs/, and which of them a definition or a contract cites.

Names are resolved by the `use` lines of a module, as antt does. A variable with the name of a
definition of the same module counts as a citation of it: what is found may be too much and never
too little. Names of the toolchain's own libraries are not followed.
"""
import dataclasses, functools, pathlib, re

from repository import rooms

OWN = re.compile(r"^Rattle\.(\w+)\.specs\.(.+)$")
USE = re.compile(
    r"^\s*(?:pub |ghost )?use (?P<target>[\w.]+?)(?:\.\{(?P<names>[^}]*)\})?"
    r"(?: as (?P<alias>\w+))?;?\s*$"
)
NAME = re.compile(r"[A-Za-zÀ-ɏ_][\w'\-]*(?:\.[A-Za-z_][\w'\-]*)*")
WORD = r"([^\s:(){}=]+)"
KEYWORDS = r"(?:(?:abbrev|unfoldable) )?(?:pub )?(?:(?:record|data) )?"
# a definition at the margin begins with one of its keywords, or is a name with its type
AT_MARGIN = [
    re.compile(rf"^(?=(?:abbrev|unfoldable|pub|record|data) ){KEYWORDS}{WORD}"),
    re.compile(rf"^{WORD} : "),
]
# within `mutual` it stands two columns in
IN_MUTUAL = [
    re.compile(rf"^  (?:pub )?(?:record|data) {WORD}"),
    re.compile(rf"^  (?:pub )?{WORD} :"),
]
DATA = re.compile(r"^\s*(pub )?data ")
CONSTRUCTOR = re.compile(r"^\s+(?:pub )?([^\s:(){}=,]+) : ")


@dataclasses.dataclass
class Definition:
    """Lines `first` to `last` of `path`, the comment right above, and the section's heading."""

    module: str
    name: str
    path: pathlib.Path
    first: int
    comment: str
    section: str
    body: list[str] = dataclasses.field(default_factory=list)
    last: int = 0

    @property
    def crate(self):
        return OWN.match(self.module)[1]

    @property
    def lines(self):
        return self.last - self.first + 1


@dataclasses.dataclass(frozen=True)
class CodeType:
    """A type of the code that a definition speaks of; `declared` is its place below src/."""

    crate: str
    declared: str


@dataclasses.dataclass
class Module:
    """A module of specs/.

    It has its definitions and the constructors of its data by name, and the names that its `use`
    lines bring in: `imports` of single names, `aliases` of whole modules.
    """

    name: str
    path: pathlib.Path
    head: str = ""
    defined: dict = dataclasses.field(default_factory=dict)
    constructors: dict = dataclasses.field(default_factory=dict)
    imports: dict = dataclasses.field(default_factory=dict)
    aliases: dict = dataclasses.field(default_factory=dict)

    def take_use(self, line):
        """Takes up a `use` line."""
        found = USE.match(line)
        if not found:
            return
        target = found["target"]
        if found["names"] is None:
            self.aliases[found["alias"] or target.split(".")[-1]] = target
            return
        for each in filter(None, map(str.strip, found["names"].split(","))):
            name, _, other = each.partition(" as ")
            self.imports[(other or name).strip()] = (target, name.strip())

    def meaning_of(self, word):
        """What a word of this module stands for, if that is in the repository."""
        first, _, rest = word.partition(".")
        if first in self.aliases:
            return found_in(self.aliases[first], rest.split(".")[0])
        if first in self.imports:
            return found_in(*self.imports[first])
        return self.defined.get(first) or self.constructors.get(first)


class Reader:
    """Reads one module line by line."""

    def __init__(self, module):
        self.module, self.current, self.mutual = module, None, False
        self.comment, self.section = [], ""

    def take(self, line, number):
        """Takes up the next line."""
        bare = line.strip()
        if bare.startswith("-- ----"):
            self.comment, self.section = [], bare.strip("- ")
        elif bare.startswith("--"):
            self.comment.append(bare[2:].strip())
        elif not bare:
            self.section = "\n".join(self.comment) or self.section
            self.comment = []
        elif line in ("mutual", "abbrev mutual"):
            self.mutual, self.current = True, None
        elif re.match(r"^(pub )?(use|mod) ", line):
            self.module.head = self.module.head or "\n".join(self.comment)
            self.module.take_use(line)
            self.comment, self.current = [], None
        else:
            self.take_code(line, number)

    def take_code(self, line, number):
        """Takes up a line that begins a definition or belongs to one."""
        self.mutual = self.mutual and line.startswith(" ")
        forms = IN_MUTUAL if self.mutual else AT_MARGIN
        found = next(filter(None, (form.match(line) for form in forms)), None)
        if found:
            self.current = Definition(
                self.module.name, found[1], self.module.path, number, "\n".join(self.comment), self.section
            )
            self.module.defined[found[1]] = self.current
        self.comment = []
        if not self.current:
            return
        self.current.body.append(line)
        self.current.last = number
        constructor = CONSTRUCTOR.match(line)
        if constructor and DATA.match(self.current.body[0]):
            self.module.constructors.setdefault(constructor[1], self.current)


def first_sentence(comment):
    """The text up to the full stop or colon that ends its first sentence, in one line."""
    text = " ".join(comment.split())
    found = re.match(r"(.+?[.:])(?=\s+[A-Z`(#]|\s*$)", text)
    return (found[1] if found else text).rstrip(".:")


def read_module(name, path):
    module = Module(name, path)
    reader = Reader(module)
    for number, line in enumerate(path.read_text().splitlines(), 1):
        reader.take(line, number)
    return module


@functools.cache
def modules():
    """All modules of specs/ by name."""
    found = {}
    for crate in rooms.crates():
        top = rooms.TOP / "crates" / crate / "specs"
        for path in sorted(top.rglob("*.antt")):
            parts = path.relative_to(top).with_suffix("").parts
            name = f"Rattle.{crate}.specs.{'.'.join(parts)}"
            found[name] = read_module(name, path)
    return found


def found_in(target, name):
    """What a name of a module stands for: a definition, a type of the code, or None."""
    own = OWN.match(target)
    if own and own[2].startswith("declared."):
        place = own[2].removeprefix("declared.").split(".")
        return CodeType(own[1], ".".join(it for it in place if not it.startswith("The")))
    module = modules().get(target)
    return module and (module.defined.get(name) or module.constructors.get(name))


def cited(module, text):
    """The definitions and types that a text in a module cites, in order of the text."""
    found = {}
    for word in NAME.findall(text):
        it = module.meaning_of(word)
        if it is not None:
            found[it if isinstance(it, CodeType) else id(it)] = it
    return list(found.values())


def cites(definition):
    """What a definition cites, beside itself."""
    text = "\n".join(line.split("--")[0] for line in definition.body)
    found = cited(modules()[definition.module], text)
    return [it for it in found if it is not definition]
