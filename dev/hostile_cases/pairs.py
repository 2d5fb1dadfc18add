"""Images and certificates with every field at its least, its greatest and one beyond, and with
words and lines that are wrong. What is wanted is the refusal, or the least rule that fails, by
docs/FORMATS.md."""
import dataclasses

from . import hand_made
from .form import LEAST, case
from .hand_made import ENTRY, Certificate, Function, image, least_code, words_of

WORD = 2**32 - 1  # the greatest number that a certificate or a word may have
CALLING = b"void f() { } int main() { f(); return 0; }"
TABLES = b"int g = 5; int f(int x) { return x; } int (*t[2])(int) = {f, f}; int main() { return 0; }"
LEAST_IMAGE = image(least_code())


def checked(name, source, image, certificate, wanted):
    """`wanted` is `accepted`, a rule with function and index as in `V2 0 1`, or a refusal."""
    text = certificate.text() if isinstance(certificate, Certificate) else certificate
    files, words, name = {"S": source, "I": image, "C": text}, ["check", "S", "I", "C"], f"{name}: {wanted}"
    if wanted == "accepted":
        return case(name, words, files, 0, "", b"accepted\n")
    if wanted.startswith("V"):
        rule, function, index = wanted.split()
        return case(name, words, files, 3, "", f"rejected {rule} function {function} index {index}\n".encode())
    return case(name, words, files, 4, ("certificate: " if wanted.startswith("Line") else "image: ") + wanted + "\n",
                b"")


def head_cases():
    """chunk, max-path and the counts of the least program's certificate."""
    for field, rows in {
        "chunk": {0: "V1 0 1", 48: "V1 0 1", 63: "V1 0 1", 64: "V11 0 3", 2047: "V1 0 1", 2048: "accepted",
                  65_536: "accepted", 65_537: "V1 0 1", 65_552: "V1 0 1", WORD: "V1 0 1", WORD + 1: "Line 2"},
        "max_path": {0: "V11 0 2", 15: "V11 0 2", 16: "accepted", 4_080: "accepted", 4_081: "V11 0 3",
                     WORD - 15: "V11 0 3", WORD: "V11 0 3", WORD + 1: "Line 3"},
        "function_count": {0: "Line 5", 2: "Line 6", 4_096: "Line 6", 4_097: "Line 4", WORD: "Line 4",
                           WORD + 1: "Line 4"},
        "site_count": {1: "Line 7", 65_535: "Line 7", 65_536: "Line 6", WORD: "Line 6", WORD + 1: "Line 6"},
    }.items():
        for value, wanted in rows.items():
            yield checked(f"{field} {value}", LEAST, LEAST_IMAGE, Certificate(**{field: value}), wanted)
    yield checked("chunk 64, max-path 48", LEAST, LEAST_IMAGE, Certificate(chunk=64, max_path=48), "accepted")
    yield checked("chunk 64, max-path 49", LEAST, LEAST_IMAGE, Certificate(chunk=64, max_path=49), "V11 0 3")
    yield checked("no function", LEAST, LEAST_IMAGE, Certificate(()), "V1 0 3")


def function_cases():
    """The fields of the least program's function, whose code has a frame of 16 bytes."""
    for field, rows in {
        "entry": {0: "V2 0 1", ENTRY - 4: "V2 0 1", ENTRY - 1: "V2 0 1", ENTRY + 4: "V2 0 1", WORD - 3: "V2 0 1",
                  WORD: "V2 0 1", WORD + 1: "Line 5"},
        "words": {0: "V5 0 0", 1: "V5 0 1", 2: "V6 0 0", 6: "V6 0 1", 15: "V6 0 3", 17: "V2 0 1",
                  WORD // 4 + 1: "V2 0 1", WORD: "V2 0 1", WORD + 1: "Line 5"},
        "frame": {0: "V3 0 0", 15: "V3 0 0", 32: "V5 0 0", 2_032: "V5 0 0", 2_033: "V3 0 0", 2_048: "V3 0 0",
                  WORD - 15: "V3 0 0", WORD: "V3 0 0", WORD + 1: "Line 5"},
        "ra": {0: "V4 0 1", 4: "V5 0 1", 13: "V4 0 1", 16: "V4 0 1", WORD - 3: "V4 0 1", WORD: "V4 0 1",
               WORD + 1: "Line 5"},
        "bound": {0: "V11 0 1", 15: "V11 0 1", 17: "accepted", 2_032: "accepted", 2_033: "V11 0 2", WORD: "V11 0 2",
                  WORD + 1: "Line 5"},
        "place": {3: "V4 0 0", 4: "V6 0 0", 12: "V4 0 1", 16: "V4 0 0", WORD - 3: "V4 0 0", WORD: "V4 0 0",
                  WORD + 1: "Line 5"},
    }.items():
        for value, wanted in rows.items():
            changed = {"places": (value,)} if field == "place" else {field: value}
            yield checked(f"{field} {value}", LEAST, LEAST_IMAGE, Certificate((Function(**changed),)), wanted)
    for count, wanted in {0: "V1 0 4", 2: "V1 0 4", 4_096: "V1 0 4", 4_097: "Line 5"}.items():
        yield checked(f"{count} places", LEAST, LEAST_IMAGE, Certificate((Function(places=(0,) * count),)), wanted)
    for frame, wanted in {16: "accepted", 2_032: "accepted", 2_048: "V3 0 0"}.items():
        fitting = Function(frame=frame, ra=frame - 4, bound=frame)
        yield checked(f"code and frame of {frame} bytes", LEAST, image(least_code(frame)),
                      Certificate((fitting,), max_path=2_048), wanted)
    longer = image(least_code() + [0])
    yield checked("a word behind the last function", LEAST, longer, Certificate(), "accepted")
    yield checked("a word behind the last operation", LEAST, longer, Certificate((Function(words=17),)), "V6 0 4")


def site_cases():
    """The fields of a site, of a program with one call, plain and linked."""
    entry = ENTRY + 20

    def certificate(site, f=None, main=None):
        linked = site.startswith("0 linked")
        functions = (Function(words=5, places=(), **(f or {})),
                     dataclasses.replace(Function(entry, 27 if linked else 17, bound=16 if linked else 32),
                                         **(main or {})))
        return Certificate(functions, (site,))

    plain, entries = image(hand_made.calling_code(), entries=(ENTRY, entry)), (ENTRY, entry)
    for site, wanted in {
        "0 plain": "accepted", "1 plain": "V1 0 5", "65534 plain": "V1 0 5", f"{WORD} plain": "V1 0 5",
        f"{WORD + 1} plain": "Line 8", "0 spawn 16": "V1 0 5", "0 linked 16": "V2 1 1",
        "0 plain 16": "Line 8", "0 linked": "Line 8", "0 spawn": "Line 8", f"0 linked {WORD + 1}": "Line 8",
        "0": "Line 8", "0 back": "Line 8",
    }.items():
        yield checked(f"a plain call, site {site}", CALLING, plain, certificate(site), wanted)
    yield checked("a site twice", CALLING, plain,
                  dataclasses.replace(certificate("0 plain"), sites=("0 plain", "0 plain")), "Line 9")
    yield checked("no site", CALLING, plain, dataclasses.replace(certificate("0 plain"), sites=()), "V1 0 5")
    for main, wanted in {16: "V10 1 0", 31: "V10 1 0", 33: "accepted", 2_032: "accepted", 2_033: "V11 1 2"}.items():
        yield checked(f"a plain call, the caller's bound {main}", CALLING, plain,
                      certificate("0 plain", main={"bound": main}), wanted)
    for f, wanted in {0: "V11 0 1", 15: "V11 0 1", 17: "V10 1 0", WORD - 15: "V10 1 0", WORD: "V10 1 0"}.items():
        yield checked(f"a plain call, the callee's bound {f}", CALLING, plain, certificate("0 plain", f={"bound": f}),
                      wanted)
    for need, wanted in {0: "V9 1 0", 15: "V9 1 0", 16: "accepted", 17: "V9 1 0", WORD: "V9 1 0"}.items():
        linked = image(hand_made.calling_code(need), entries=entries)
        yield checked(f"a linked call, code and need {need}", CALLING, linked, certificate(f"0 linked {need}"), wanted)
        if need != 16:
            yield checked(f"a linked call, code {need} and need 16", CALLING, linked, certificate("0 linked 16"),
                          "V6 1 0")


def table_cases():
    """Global words, table words and entries of a program that declares them."""
    entry = ENTRY + 64
    certificate = Certificate((Function(places=(0, 4)), Function(entry)))

    def pair(name, wanted, globals=(5,), tables=(ENTRY, ENTRY), entries=(ENTRY, entry), certificate=certificate):
        return checked(f"tables: {name}", TABLES, image(hand_made.table_code(), globals, tables, entries), certificate,
                       wanted)

    yield pair("as declared", "accepted")
    for value in (0, 4, 6, WORD):
        yield pair(f"a global word {value}", "V12 0 0", globals=(value,))
    yield pair("no global word", "V12 0 0", globals=())
    yield pair("a global word too many", "V12 0 1", globals=(5, 0))
    for value in (0, ENTRY - 4, entry, WORD):
        yield pair(f"a table word {value}", "V8 0 1", tables=(ENTRY, value))
        yield pair(f"an entry {value}", "V2 0 2", entries=(value, entry))
    yield pair("no table word", "V8 0 0", tables=())
    yield pair("a table word too few", "V8 0 1", tables=(ENTRY,))
    yield pair("a table word too many", "V8 0 2", tables=(ENTRY,) * 3)
    yield pair("no entry", "V1 0 3", entries=())
    yield pair("an entry too few", "V1 0 3", entries=(ENTRY,))
    yield pair("an entry too many", "V1 0 3", entries=(ENTRY, entry, entry))
    both = Certificate((Function(places=(0, 4)), Function(ENTRY)))
    yield pair("a function over another", "V2 1 3", entries=(ENTRY, ENTRY), certificate=both)


def image_cases():
    limits = {"code": 200_000, "globals": 65_536, "tables": 65_536, "entries": 4_096}
    for name, data, wanted in (
        ("no byte", b"", "Short at 0"), ("three bytes", b"CAP", "Short at 3"), ("three other bytes", b"CAQ", "Magic"),
        ("small letters", b"cap1" + LEAST_IMAGE[4:], "Magic"),
        ("another digit", b"CAP2" + LEAST_IMAGE[4:], "Magic"), ("four bytes", b"CAP1", "Short at 4"),
        ("19 bytes", LEAST_IMAGE[:19], "Short at 19"), ("20 bytes", LEAST_IMAGE[:20], "Short at 20"),
        ("20 zeros behind CAP1", b"CAP1" + bytes(20), "Long at 20"), ("no word", b"CAP1" + bytes(16), "V1 0 2"),
        ("a byte too few", LEAST_IMAGE[:-1], "Short at 95"), ("a word too few", LEAST_IMAGE[:-4], "Short at 92"),
        ("a byte too many", LEAST_IMAGE + b"\0", "Long at 96"),
        ("a megabyte too many", LEAST_IMAGE + bytes(1_000_000), "Long at 96"),
        ("all of the greatest size", b"CAP1" + b"\xff" * 2_097_148, "Limit code"),
    ):
        yield checked(f"image: {name}", LEAST, data, Certificate(), wanted)
    for at, (field, most) in enumerate(limits.items()):
        counts = lambda value: [value if it == at else 0 for it in range(4)]
        for value in (most + 1, 2**16 * 2**14, 2**31, WORD):
            yield checked(f"image: {field} {value}", LEAST, b"CAP1" + words_of(counts(value)), Certificate(),
                          f"Limit {field}")
        yield checked(f"image: {field} {most} without words", LEAST, b"CAP1" + words_of(counts(most)), Certificate(),
                      "Short at 20")
    least = least_code()
    for name, data, wanted in (
        ("code 200000", image(least + [0] * (200_000 - 18)), "accepted"), ("code 0", image([]), "V1 0 2"),
        ("code 1", image(least[:1]), "V1 0 2"), ("code 2", image(least[:2]), "V2 0 1"),
        ("code 17", image(least[:17]), "V2 0 1"), ("globals 1", image(least, [0]), "V12 0 0"),
        ("globals 65536", image(least, [0] * 65_536), "V12 0 0"), ("tables 1", image(least, (), [ENTRY]), "V8 0 0"),
        ("tables 65536", image(least, (), [ENTRY] * 65_536), "V8 0 0"),
        ("entries 0", image(least, entries=()), "V1 0 3"),
        ("entries 4096", image(least, entries=[ENTRY] * 4_096), "V1 0 3"),
    ):
        yield checked(f"image: {name}", LEAST, data, Certificate(), wanted)


def word_cases():
    """Each word of the least program's code with one bit changed: the end stub, the prologue, and
    four operations."""
    rules = ["V7 0 0", "V7 0 1", "V5 0 0", "V5 0 1"] + ["V6 0 0"] * 3 + ["V6 0 1"] * 4 + ["V6 0 2"] * 3 + ["V6 0 3"] * 4
    for at, wanted in enumerate(rules):
        for bit in (at % 7, 31 - at % 5):
            code = least_code()
            code[at] ^= 1 << bit
            yield checked(f"bit {bit} of word {at}", LEAST, image(code), Certificate(), wanted)


def line_cases():
    lines = Certificate().lines()
    text = hand_made.text_of(lines)
    for at, line in enumerate(lines):
        number = at + 1
        # The last line's place is empty where it is missing, and elsewhere the next one stands in it.
        yield checked(f"certificate: without line {number}", LEAST, LEAST_IMAGE,
                      hand_made.text_of(lines[:at] + lines[number:]), f"Line {number}")
        yield checked(f"certificate: line {number} twice", LEAST, LEAST_IMAGE,
                      hand_made.text_of(lines[:number] + lines[at:]), f"Line {number + 1}")
        yield checked(f"certificate: CR behind line {number}", LEAST, LEAST_IMAGE,
                      hand_made.text_of([*lines[:at], line + "\r", *lines[number:]]), f"Line {number}")
        yield checked(f"certificate: a space behind line {number}", LEAST, LEAST_IMAGE,
                      hand_made.text_of([*lines[:at], line + " ", *lines[number:]]), f"Line {number}")
    for name, data, wanted in (
        ("no byte", b"", "Line 1"), ("an empty line", b"\n", "Line 1"), ("no LF at the end", text[:-1], "Line 6"),
        ("an empty line behind", text + b"\n", "Line 7"), ("a byte behind", text + b"x", "Line 7"),
        ("a leading zero", text.replace(b"chunk 4096", b"chunk 04096"), "Line 2"),
        ("a sign", text.replace(b"chunk 4096", b"chunk +4096"), "Line 2"),
        ("minus zero", text.replace(b"sites 0", b"sites -0"), "Line 6"),
        ("two spaces", text.replace(b"chunk ", b"chunk  "), "Line 2"),
        ("a tab", text.replace(b"chunk ", b"chunk\t"), "Line 2"),
        ("another title", text.replace(b"certificate 1", b"certificate 2"), "Line 1"),
        ("no number", text.replace(b"max-path 2032", b"max-path "), "Line 3"),
        ("a number of a megabyte", text.replace(b"2032", b"9" * 1_000_000), "Line 3"),
        ("8 MB of LF", b"\n" * 8_388_608, "Line 1"),
        ("8 MB without LF", b"capriccio certificate 1" + b" " * 8_388_585, "Line 1"),
        ("NUL behind a line", text.replace(b"4096\n", b"4096\0\n"), "Line 2"),
    ):
        yield checked(f"certificate: {name}", LEAST, LEAST_IMAGE, data, wanted)


def cases():
    for group in (head_cases, function_cases, site_cases, table_cases, image_cases, word_cases, line_cases):
        yield from group()
