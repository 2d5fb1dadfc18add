"""Which bugs one check can try together, and what it says of each.

A check names each function that it refuses, with the goal that its body doesn't meet. Of a function
that only calls one that was refused it says just that, and names no goal. So bugs in the bodies of
several functions can be tried at once: each counts as refused only where a line of the check names
the body that it changes, or the file of that body's own answers, and says more than that something
else was refused. What isn't refused so is tried again among bodies that don't call one another, by
whatever way, and then alone.
"""
import dataclasses, functools, pathlib, re

TOP = pathlib.Path(__file__).resolve().parent.parent.parent
HEAD = re.compile(r"^( *)(?:pub(?:\([^)]*\))? )?(?:const )?fn (\w+)")
MOST = 12  # as many bugs go together
# Names of functions and of methods, where they are called or handed over.
FUNCTIONS = re.compile(r"(?<![.\w:])(?:[a-z_]\w*::)*([a-z_]\w*)(?=(?:::<[^()]*>)?\(|[,)])")
METHODS = re.compile(r"\.(\w+)(?=(?:::<[^()]*>)?\()|\b([A-Z]\w*)(?:::<[^()]*>)?::(\w+)")
# How a check says which goal isn't met, or which answer to a goal is wrong.
REFUSAL = re.compile(r"note: src/\S+:\d+:\d+: it is not proved that |(?:\./)?proofs/\S+:\d+:\d+: error: ")
# What a check says of a proof that cites what was refused, or names what an edit took away.
SECOND_HAND = re.compile(r"was not admitted|has no field|is not in scope|has no `")


@dataclasses.dataclass(frozen=True)
class Body:
    """A function's body: the crate, the file, the name, the line of its first attribute, its own first and last line, whether it is in an `impl`, and its cycle of calls."""

    crate: str
    file: str
    name: str
    top: int
    first: int
    last: int
    is_method: bool
    cycle: str = ""

    @property
    def module(self):
        """The names of the modules around it."""
        inside = re.sub(r"^src/|/mod\.rt$|\.rt$", "", self.file)
        return () if inside in ("lib", "main") else tuple(inside.split("/"))

    @property
    def has_answers(self):
        """Whether a file has answers to goals of this body."""
        return any((TOP / "crates" / self.crate / "proofs").joinpath(*self.module).glob(f"**/{self.name}/Answers.antt"))

    def is_beside(self, other):
        """Whether both have one proof, which names the goals of each."""
        return bool(self.cycle) and self.cycle == other.cycle

    def is_refused_by(self, line):
        """Whether a line of a check says that this function isn't proved, and not only since it calls another."""
        path = "::".join((self.crate, *self.module))
        return bool(re.match(rf"fn {path}::(?:.*::)?{self.name}: (?:not proved|no proof: (?!it calls))", line))

    def is_named_by(self, line):
        """Whether a line of a check speaks of this body, or of a file of its own proof."""
        source = re.match(r"note: (src/\S+?):(\d+):\d+: ", line)
        if source:
            return source[1] == self.file and self.top <= int(source[2]) <= self.last
        if self.cycle:
            return bool(re.match(rf"(?:\./)?proofs/(?:[^/]+/)*\+{self.cycle}/[^/]+\.antt:\d+:\d+: error: `{self.name}-",
                                 line))
        folder = "/".join(("proofs", *self.module))
        return bool(re.match(rf"(?:\./)?{folder}/(?:[^/]+/)?{self.name}/[^/]+\.antt:\d+:\d+: ", line))


@functools.cache
def bodies(crate):
    """The bodies of a crate's functions, each with those that it seems to call."""
    found, types = {}, {"Self"}
    for file in sorted((TOP / "crates" / crate / "src").rglob("*.rt")):
        lines = file.read_text().splitlines()
        for first, line in enumerate(lines, 1):
            head = HEAD.match(line)
            if head:
                last = next((it for it in range(first, len(lines) + 1) if lines[it - 1] == head[1] + "}"), first)
                above = attributes(lines, first)
                cycle = re.search(r"#\[cycle\((\w+)\)", "".join(above))
                body = Body(crate, str(file.relative_to(TOP / "crates" / crate)), head[2], first - len(above), first,
                            last, bool(head[1]), cycle[1] if cycle else "")
                found[body] = "\n".join(lines[first:last])
            elif line.startswith("impl"):
                types |= set(re.findall(r"\b[A-Z]\w*", line))
    return {body: {other for other in found if other.name in (methods(text, types) if other.is_method else set(FUNCTIONS.findall(text)))} for body, text in found.items()}


def attributes(lines, first):
    """The lines of attributes above a function's first line."""
    found = []
    for line in reversed(lines[: first - 1]):
        if not line.strip() or line.strip().startswith(("//", "}")) or line.endswith("{"):
            break
        found.append(line)
    return found


def methods(text, types):
    """The names of methods that a text names: by a dot, or of one of these types."""
    return {dotted or name for dotted, of, name in METHODS.findall(text) if dotted or of in types}


@functools.cache
def reached(body):
    """The bodies that a body reaches, by one call or more."""
    seen, left = set(), [body]
    while left:
        new = bodies(body.crate)[left.pop()] - seen
        seen |= new
        left += new
    return frozenset(seen)


def body_of(bug):
    """The one body that a bug changes, or nothing."""
    found, file = set(), None
    for line in bug.edit:
        head, _, text = line.partition(" ")
        if head == "file:":
            file = text.strip()
        elif head == "old:":
            lines = (TOP / "crates" / bug.crate / file).read_text().splitlines()
            at = [number for number, it in enumerate(lines, 1) if text in it]
            within = [it for it in bodies(bug.crate) if it.file == file and len(at) == 1 and it.first < at[0] < it.last]
            if not within:
                return None
            found.add(max(within, key=lambda it: it.first))
    return found.pop() if len(found) == 1 else None


def are_apart(one, other):
    """Whether neither body seems to reach the other, or has its name."""
    return one.name != other.name and other not in reached(one) and one not in reached(other)


def may_go_together(one, other):
    """Whether a check can refuse each of two bodies by itself: `search` waits for what a body calls, but what is written in its answers is read at once."""
    if one.name == other.name:
        return False
    return one.is_beside(other) or (one.has_answers or other not in reached(one)) and (other.has_answers or one not in reached(other))


def groups(some, fit):
    """Puts the bugs into groups of which each two bodies fit; a bug that changes no single body is alone."""
    made, alone = [], []
    for bug in some:
        body = body_of(bug)
        if body is None:
            alone.append([bug])
            continue
        group = next((it for it in made if len(it) < MOST and all(fit(body, body_of(other)) for other in it)), None)
        if group is None:
            made.append([bug])
        else:
            group.append(bug)
    return made + alone


def refusal(bug, said):
    """The first line of a check that refuses this bug's own body, or nothing."""
    body = body_of(bug)
    if not any(body.is_refused_by(it) for it in said.splitlines()):
        return None
    told = [it for it in said.splitlines() if REFUSAL.match(it) and not SECOND_HAND.search(it)]
    return next((it for it in told if body.is_named_by(it)), None)
