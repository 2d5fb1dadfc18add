"""What the sources say of inlining, which the module of a trial leaves out."""
import re

ATTRIBUTES = {"inline": "inlinehint", "inline(always)": "alwaysinline", "inline(never)": "noinline",
              "cold": "cold noinline"}
LINE = re.compile(
    r"^(?P<impl>impl\b.*)|^(?P<end>\})|^ *#\[(?P<mark>inline(?:\((?:always|never)\))?|cold)\]"
    r"|^ *(?:pub(?:\([\w ]+\))? )?(?:const |unsafe |async )*fn (?P<fn>\w+)",
    re.M,
)
GENERICS = re.compile(r"<[^<>]*>")


def type_of(header):
    """The name of a type by the header of its `impl`, with that of the trait behind it, or nothing."""
    text = header.replace("->", "")
    while GENERICS.search(text):
        text = GENERICS.sub("", text)
    found = re.match(r"impl (?:!?([\w:]+) for )?([\w:]+)", text)
    return found[2].split("::")[-1] + (found[1] or "").split("::")[-1] if found else None


def in_crate(name, folder):
    """The attributes of functions of a crate: of those of a type by crate, type and name, of others by crate, modules
    and name."""
    found = {}
    for file in sorted((folder / "src").rglob("*.rt")):
        modules = file.relative_to(folder / "src").with_suffix("").parts
        modules = modules[:-1] if modules[-1] in ("lib", "main", "mod") else modules
        place, mark = (name, *modules), None
        for it in LINE.finditer(file.read_text(errors="replace")):
            if it["impl"]:
                place = (name, type_of(it["impl"]))
            elif it["end"]:
                place = (name, *modules)
            elif it["mark"]:
                mark = "cold" if mark == "cold" else it["mark"]
            elif mark:
                found[(*place, it["fn"])], mark = ATTRIBUTES[mark], None
    return found


def of(name, found):
    """The attribute of a function of the module, or nothing."""
    places = tuple(name.strip('@"').split("::<")[0].split("::"))
    return found.get((places[0], *places[-2:])) or found.get(places, "")
