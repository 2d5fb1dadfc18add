"""What the refusals of an image, a certificate or a pair mean."""
from .text import quoted
from .tokens import bodies_of, tokens_of

WHY = {
    "TooLong": "it exceeds the maximum of 2,097,152 bytes for an image, 8,388,608 for a certificate",
    "Magic": "it does not begin with CAP1",
    "Short": "it ends too early",
    "Long": "extra bytes after the last word",
    "Limit": "it declares more words than a limit allows",
}
# what each rule of a certificate asks, in short (docs/FORMATS.md has them whole)
RULES = {
    "V1": "the sizes of certificate, image and source agree, and the sites are the source's",
    "V2": "each function's code lies inside the image, where the image says, and apart from the others",
    "V3": "each frame is a multiple of 16 from 16 to 2,032 bytes",
    "V4": "the variables and the return address lie inside the frame, apart from one another",
    "V5": "each function begins with its prologue",
    "V6": "the code of each function is what its source compiles to",
    "V7": "the code begins with the end stub",
    "V8": "the table words are the entries of the tables' members",
    "V9": "each linked or spawning site asks for the stack that its callees need",
    "V10": "a plain call's stack fits into the caller's bound",
    "V11": "each frame is within its bound, that within max-path, and that within the chunk",
    "V12": "the global words are the values that the source declares",
}


def refused(given, line):
    """The notes on a line `image: ..` or `certificate: ..`."""
    which, cause = line.split(": ", 1)
    name, word = given.name(1 if which == "image" else 2), cause.split()[0]
    why = WHY.get(word, f"line {cause.split()[-1]} is not the line that a certificate has there" if word == "Line"
                  else cause)
    return [f"note: {quoted(name)} is not a valid {which}: {why}", "note: arguments are SRC IMG CRT, in this order"]


def rejected(given, line):
    """The notes on `rejected VN function F index I`."""
    parts = line.split()
    if "rejected" not in parts:
        return []
    rule, number, place = parts[parts.index("rejected") + 1 :][0:5:2]
    source = given.source() or b""
    names = [name for name, _, _ in bodies_of(tokens_of(source))]
    of = f" at function {number}, `{names[int(number)]}`, index {place}" if int(number) < len(names) else f" at function {number}, index {place}"
    return [
        f"note: rule {rule} fails{of}: {RULES.get(rule, 'a rule of the certificate')}",
        f"note: the pair belongs to another source, or was changed; `build {given.name(0)} {given.name(1)} {given.name(2)}` makes it again",
    ]


def cycle(given, line):
    name = line.split()[-1]
    return [
        f"note: `{name}` can call itself (directly or through others), so stack depth is unbounded, and no number of chunks is enough for all runs",
        "note: a program without recursion has a budget: use a loop",
    ]
