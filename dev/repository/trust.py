"""Which definitions stand under the contract of a public call, and the page that lists them."""
import collections, re

from repository import rooms
from repository.definitions import CodeType, Module, cited, cites, first_sentence, modules
from repository.pages import row, table

COMMAND = "crates/capriccio_call/src/command.rt"


def contract_of(path, function):
    """The `ghost use` lines of a source as a module, and the clauses of one of its functions."""
    module, text = Module(path, rooms.TOP / path), (rooms.TOP / path).read_text()
    for line in text.splitlines():
        module.take_use(line)
    signature = text[re.search(rf"^pub fn {function}\b", text, re.M).start() :]
    return module, signature[: re.search(r"^\{", signature, re.M).start()]


def under(path, function):
    """What the function's clauses rest on: definitions by their identity, and types of the code.

    Each comes with the definition that first cited it, None if a clause did.
    """
    return under_these(cited(*contract_of(path, function)))


def under_these(starts):
    """The same for these definitions, themselves among them."""
    todo = collections.deque((it, None) for it in starts)
    definitions, types = {}, {}
    while todo:
        it, above = todo.popleft()
        if isinstance(it, CodeType):
            types.setdefault(it, above)
        elif id(it) not in definitions:
            definitions[id(it)] = (it, above)
            todo += ((each, it) for each in cites(it))
    return definitions, types


class Citations:
    """Which definition cites which, below the clauses of the call."""

    def __init__(self, definitions):
        self.of = {
            id(it): [id(each) for each in cites(it) if not isinstance(each, CodeType)]
            for it in definitions
        }
        clauses = cited(*contract_of(COMMAND, "capriccio"))
        self.clauses = [it for it in clauses if not isinstance(it, CodeType)]

    def below(self, starts, without=None):
        """What these rest on, and themselves, without one of them and what only it leads to."""
        found, todo = set(), [it for it in starts if it != without]
        while todo:
            it = todo.pop()
            if it not in found:
                found.add(it)
                todo += (each for each in self.of[it] if each != without)
        return found

    def behind(self, definition):
        """How many definitions only this one leads to, itself among them."""
        starts = [id(it) for it in self.clauses]
        return len(self.of) - len(self.below(starts, id(definition)))


# A definition has a row if at least so many stand behind it alone, and less than this share of what
# stands behind one above it that has a row.
LEAST_BEHIND, LEAST_SHARE = 30, 0.8


def dearest(definitions, citations):
    """The definitions behind which most others stand, with their number, the most first."""
    counted = [(citations.behind(it), it) for it in definitions]
    counted.sort(key=lambda it: (-it[0], it[1].name))
    rows = []
    for number, it in counted:
        if number < LEAST_BEHIND:
            return rows
        around = [more for more, above in rows if id(it) in citations.below([id(above)])]
        if not around or number < LEAST_SHARE * min(around):
            rows.append((number, it))
    return rows


def says(it):
    return first_sentence(it.comment or it.section or modules()[it.module].head)


def costs(definitions):
    """Two tables: what each definition that a clause cites rests on, and what only one leads to."""
    citations, by_id = Citations(definitions), {id(it): it for it in definitions}
    yield from table("Definition that a clause cites", "Definitions under it", "Lines")
    for it in citations.clauses:
        under_it = [by_id[each] for each in citations.below([id(it)])]
        yield row(f"`{it.name}`", f"{len(under_it):,}", f"{lines_of(under_it):,}")
    yield from ("", "Definitions needed only because of one other definition, by that definition:", "")
    yield from table("Definition", "Crate", "Says", "Definitions")
    for number, it in dearest(definitions, citations):
        yield row(f"`{it.name}`", f"`{it.crate}`", says(it), f"{number:,}")
    yield ""


def ways_to(name):
    """For each definition of this name the shortest way from a clause to it."""
    definitions, _ = under(COMMAND, "capriccio")
    for it, above in definitions.values():
        if it.name == name:
            way = [it]
            while above:
                way.append(above)
                above = definitions[id(above)][1]
            yield " -> ".join(f"{it.name} ({shown(it)}:{it.first})" for it in reversed(way))


def shown(it):
    return it.path.relative_to(rooms.TOP)


def ordered(files):
    """Modules of one crate, each behind those that it uses."""
    found = []

    def visit(module):
        used = [*(it[0] for it in module.imports.values()), *module.aliases.values()]
        for target in used:
            if target in files and files[target] not in found and files[target] is not module:
                visit(files[target])
        if module not in found:
            found.append(module)

    for name in sorted(files):
        visit(files[name])
    return found


def type_line(it):
    """File and line of a type of the code, its name, and the first sentence of its docstring."""
    *place, name = it.declared.split(".")
    path, comment = f"crates/{it.crate}/src/{'/'.join(place)}.rt", []
    for number, line in enumerate((rooms.TOP / path).read_text().splitlines(), 1):
        if line.startswith("///"):
            comment.append(line[3:].strip())
        elif re.match(rf"(pub(\([a-z]+\))? )?(enum|struct|trait) {name}\b", line):
            return path, number, name, first_sentence("\n".join(comment))
        elif not line.startswith("#["):
            comment = []
    raise ValueError(f"{path} declares no {name}")


def grouped(module, wanted):
    """The wanted definitions of a file, those together that share a comment or a section."""
    groups = []
    for it in module.defined.values():
        if id(it) in wanted:
            if it.comment or not groups or groups[-1][-1].section != it.section:
                groups.append([])
            groups[-1].append(it)
    return groups


def group_row(module, group):
    first, last = group[0].first, group[-1].last
    lines = f"{first}" if first == last else f"{first}-{last}"
    names = ", ".join(f"`{it.name}`" for it in group)
    return row(names, f"{module.path.stem}:{lines}", says(group[0]))


def crate_part(crate, definitions, types):
    """The part of one crate: its types, and its definitions file by file."""
    yield from (f"### {crate}", "")
    for path, number, name, says in sorted(map(type_line, types)):
        yield f"- type `{name}`, {path}:{number}{': ' + says if says else ''}"
    if types:
        yield ""
    if not definitions:
        return
    yield from table("Definition", f"File of crates/{crate}/specs, lines", "Says")
    wanted = {id(it) for it in definitions}
    for module in ordered({it.module: modules()[it.module] for it in definitions}):
        yield from (group_row(module, group) for group in grouped(module, wanted))
    yield ""


def lines_of(definitions):
    return sum(it.lines for it in definitions)


def by_crate(found):
    grouped_by = collections.defaultdict(list)
    for it in found:
        grouped_by[it.crate].append(it)
    return grouped_by


def listing(definitions, types, between=()):
    """How many definitions there are, by room, and then all of them, the lowest crate first."""
    defined, declared = by_crate(definitions), by_crate(types)
    by_room = []
    for room in rooms.rooms():
        names = [it.name for it in room.crates if it.name in defined or it.name in declared]
        if names:
            by_room.append((room.name, names))
    lines = [
        f"{len(definitions):,} definitions in {lines_of(definitions):,} lines of"
        f" {len({it.module for it in definitions})} files and {len(defined)} crates,"
        f" and {len(types)} types of the code.",
        "",
        *table("Room", "Definitions", "Lines"),
    ]
    for room, names in by_room:
        here = [it for name in names for it in defined[name]]
        lines.append(row(room, f"{len(here):,}", f"{lines_of(here):,}"))
    lines += ["", *between]
    for room, names in by_room:
        lines += [f"## {room}", ""]
        for name in names:
            lines += crate_part(name, defined[name], declared[name])
    return "\n".join(lines).rstrip("\n") + "\n"


def page():
    """The made part of docs/TRUST.md."""
    found, types = under(COMMAND, "capriccio")
    definitions = [it for it, _ in found.values()]
    return "## The list\n\n" + listing(definitions, types, costs(definitions))
