"""Where in its file a refused source breaks the rule that the program names, what that means there,
and what could stand there."""
import os, subprocess, tempfile

from . import c_forms, scope
from .commands import MOST_POOL, MOST_SOURCE, default_path
from .text import listed, visible
from .tokens import bodies_of, declarations_of, tokens_of

MOST_FRAME = 2032  # bytes
LONGEST_LINE = 160  # characters of a line that are shown
AT_A_TIME = 8  # questions to the program
OPERATORS = "* / % << >> < > <= >= == != & ^ | && ||".split()
STATEMENTS = "if while for return break continue { ;".split()
OTHERS = "( ) [ ] } , = ? : int void else".split()
LIMITS = {
    "functions": "a source has at most 4,096 functions",
    "sites": "a source has at most 65,535 calls",
    "globals": "the globals have at most 65,536 words in all",
    "tables": "the tables have at most 65,536 members in all",
    "locals": "the local names of a function have at most 4,096 words, of which about 500 fit its frame",
    "params": "a function has at most 6 parameters",
}

BROKEN = {  # what a refusal means where no more is known of its place
    "Unexpected": "this can't follow the text before it",
    "Arity": "the number of arguments, parameters or members differs from the declaration",
    "Kind": "this name can't be used here in this way",
}


def why(given, line):
    """What is added to a line `source: ..` or `limit: ..`, a line each."""
    if line.startswith("limit: "):
        return [f"note: {it}" for it in limited(line.split(), given)]
    name, source = given.name(0), given.source()
    if source is None:
        return []
    kind, *rest = line.split()[1:]
    if kind == "TooLong":
        return [f"{name}: note: it has {os.path.getsize(name):,} bytes; a source has at most {MOST_SOURCE:,}"]
    if kind == "NoMain":
        return [f"{name}: note: a program needs a function `int main()` or `void main()` with a body"]
    if kind == "Limit":
        return [f"{name}: note: {it}" for it in exceeded(rest[0], source)]
    at = int(rest[1])
    first, *others = meant(given.run.program, kind, source, at) or [BROKEN.get(kind, kind)]
    return [*shown(name, source, at, first), *[f"note: {it}" for it in others]]


def limited(parts, given):
    """What a line `limit: ..` means."""
    if parts[1] == "frame":
        return frame(parts[3], given)
    if parts[1] == "code":
        return ["the code of an image has at most 200,000 words"]
    return [f"`--chunks` times the bytes of the certificate's chunk, and `--extra` times `--extra-size`, are together at most {MOST_POOL:,} bytes"] if parts[1] == "pool" else []


def frame(name, given):
    """What bounds the frame of the function of this name."""
    chunk = given.number("--chunk")
    path = int(given.options.get("--max-path", default_path(chunk)))
    by = "`--max-path`" if "--max-path" in given.options else f"the default of `--max-path` at `--chunk {chunk}`"
    what = f"the frame of `{name}` has its parameters, its locals with all words of their arrays, and its temporaries"
    if path < MOST_FRAME:
        return [f"{what}; {by} allows {path:,} bytes",
                "use a larger `--max-path`, with a larger `--chunk`, or fewer locals"]
    return [f"{what}; the maximum is {MOST_FRAME:,} bytes, whatever the options",
            "make a large array global, or split the function"]


def place_of(source, at):
    """The line and the column of a place, both from 1."""
    return source.count(b"\n", 0, at) + 1, at - (source.rfind(b"\n", 0, at) + 1) + 1


def shown(name, source, at, fault):
    """The place with what is wrong there, its line or the part of it around the place, and a mark
    below the token."""
    line, column = place_of(source, at)
    start, end = at - column + 1, source.find(b"\n", at)
    first = max(start, at - LONGEST_LINE // 2)
    text = source[first : min(end if end >= 0 else len(source), first + LONGEST_LINE)].rstrip(b"\r")
    token = next((it for it in tokens_of(source) if it.at == at), None)
    length = max(1, min(len(token.text) if token else 1, first + len(text) - at))
    before = "".join("\t" if it == "\t" else visible(it) for it in text[: at - first].decode(errors="replace"))
    behind = "".join("\t" if it == "\t" else visible(it) for it in text[at - first :].decode(errors="replace"))
    blank = "".join("\t" if it == "\t" else " " for it in before)
    return [f"{name}:{line}:{column}: {fault}", f"    {before}{behind}", f"    {blank}^{'~' * (length - 1)}"]


def meant(program, kind, source, at):
    """What the refusal of this name means at that place."""
    if kind == "Unexpected":
        return unexpected(program, source, at)
    if kind == "BadByte":
        return [c_forms.of_byte(source, at)]
    if kind == "OpenComment":
        return ["this `/*` is never closed by `*/`"]
    if kind == "BadNumber":
        return [c_forms.of_number(word_at(source, at))]
    if kind == "TooDeep":
        return [
            "nested more than 64 deep: `(`, `[`, `{`, `if`, `while`, `for`, unary operators and `?` count",
            "in a long chain of `else if`, each `if` is nested in the one before: call through a table of functions, `t[i](x)`, or split the chain",
        ]
    if kind == "NestedCall":
        name = word_at(source, at)
        return [
            "in the parentheses of a `for`, a call must be a whole part, or the whole right side of `=`",
            f"assign it to a variable before the `for`, as in `r = {name}(..);`, or write a `while`",
        ]
    return scope.meant(kind, source, at)


def word_at(source, at):
    """The word that begins there."""
    end = at
    while end < len(source) and (chr(source[end]).isalnum() and source[end] < 128 or source[end] == ord("_")):
        end += 1
    return source[at:end].decode()


def unexpected(program, source, at):
    """What stands there and what could, of a token at which the source is no program any more."""
    tokens = tokens_of(source)
    index = next((place for place, it in enumerate(tokens) if it.at == at), len(tokens))
    inside = any(first < at <= last for _, first, last in bodies_of(tokens))
    note = c_forms.missing_end(tokens, index, source, inside)
    if not note and index < len(tokens):
        note = c_forms.of_token(tokens, index, inside)
    stands = f"`{tokens[index].text}`" if index < len(tokens) else "the end of the source"
    could = could_stand(program, source[:at])
    return [note] * bool(note) + [f"expected {could}; found {stands}"] * bool(could)


def could_stand(program, before):
    """What the program takes behind this beginning of a source, in words."""
    tried = ["x", "1", "-", *STATEMENTS, *OPERATORS, *OTHERS]
    taken = {it for it, fits in zip(tried, are_taken(program, before, tried)) if fits}
    is_expression = taken.issuperset(("x", "1", "-"))
    is_statement = taken.issuperset(STATEMENTS)
    all_operators = taken.issuperset(OPERATORS)
    found = ["a statement"] * is_statement + ["an expression"] * (is_expression and not is_statement) + ["an operator"] * all_operators
    found += ["a name"] * (not is_expression and not is_statement and "x" in taken) + ["a number"] * (not is_expression and "1" in taken)
    others = [it for it in OTHERS if not (it == "(" and is_expression)]
    others += [] if is_statement else STATEMENTS
    others += [] if all_operators else [it for it in OPERATORS if not (it == "*" and is_expression)]
    return listed(found + [f"`{it}`" for it in others if it in taken], "or")


def are_taken(program, before, tokens):
    """Whether a source that begins so may go on with each of these tokens: the program is asked,
    several times at once."""
    for start in range(0, len(tokens), AT_A_TIME):
        asked = [asking(program, before, it) for it in tokens[start : start + AT_A_TIME]]
        for folder, run in asked:
            said = run.communicate()[1]
            folder.cleanup()
            # (a refusal behind it, or of what the tokens mean, is none of its form)
            yield said.split("\n")[0] != f"source: Unexpected at {len(before) + 1}"


def asking(program, before, token):
    """The program at work on a source that begins so and goes on with this token, and the folder of
    that."""
    folder = tempfile.TemporaryDirectory()
    with open(f"{folder.name}/source", "wb") as it:
        it.write(before + b"\n" + token.encode() + b"\n")
    run = subprocess.Popen([program, "graph", "source"], cwd=folder.name, stdin=subprocess.DEVNULL,
                           stdout=subprocess.DEVNULL, stderr=subprocess.PIPE, text=True, errors="replace")
    return folder, run


def exceeded(which, source):
    """What a limit says, and of which function."""
    found = [LIMITS.get(which, f"the maximum of {which} is exceeded")]
    declared = declarations_of(tokens_of(source))
    if which == "params":
        found += [f"`{it.name}` in line {place_of(source, it.at)[0]} has {it.count}" for it in declared if it.what in ("function", "prototype") and it.count > 6][:1]
    if which == "locals":
        sums = {}
        for it in declared:
            if it.inside and it.what != "parameter":
                sums[it.inside] = sums.get(it.inside, 0) + it.count
        found += [f"`{name}` has {count:,}" for (name, _), count in sums.items() if count > 4096][:1]
    return found
