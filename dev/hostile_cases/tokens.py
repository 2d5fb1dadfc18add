"""Sources that are all comment, all white space, or a megabyte of one token, by the tokens and the
grammar of docs/LANGUAGE.md."""
from .form import LEAST, SOURCE, case, puts, refused

KEYWORDS = (
    "auto break case char const continue default do double else enum extern float for goto if inline int long register restrict return short signed sizeof "
    "static struct switch typedef union unsigned void volatile while _Alignas _Alignof _Atomic _Bool _Complex _Generic _Imaginary _Noreturn _Static_assert _Thread_local"
).split()
MARKS = "[ ] ( ) { } ++ -- & * + - -> ~ ! / % << >> < > <= >= == != ^ | && || ? : ; = *= /= %= += -= <<= >>= &= ^= |= ,".split()
BODY = b"int main() {"
# What may come first in a block, and how many of them may come in a row: None for any number.
IN_BLOCK = {"break": 1, "continue": 1, "return": 1, "for": 1, "if": 1, "while": 1, "int": 1, "name": 1, ";": None,
            "}": 1}


def megabyte_of(token, before=b""):
    one = token.encode() + b" "
    return before + one * ((SOURCE - len(before)) // len(one))


def comment_cases():
    for name, text in {
        "one comment": b"/*" + b"x" * (SOURCE - 4) + b"*/", "one comment of stars": b"/*" + b"*" * (SOURCE - 4) + b"*/",
        "262,144 comments": b"/**/" * (SOURCE // 4),
        "one comment to the end of the line": b"//" + b"/" * (SOURCE - 2),
        "349,525 empty lines of comment": b"//\n" * (SOURCE // 3),
        "comments that hold a program": (b"/*" + LEAST + b"*/") * 37_000,
        "NUL bytes in a comment": b"/*" + bytes(SOURCE - 4) + b"*/", "tabs": b"\t" * SOURCE,
        "vertical tabs": b"\v" * SOURCE, "form feeds": b"\f" * SOURCE, "CRs": b"\r" * SOURCE, "LFs": b"\n" * SOURCE,
        "no byte": b"",
    }.items():
        yield refused(f"all comment or blank: {name}", text, "source: NoMain")
    # Two of them are one comment: the slash behind the second star closes it.
    yield refused("/*/ an odd number of times", b"/*/" * 349_525, f"source: OpenComment at {3 * 349_524}")
    yield puts("a megabyte of comment inside a number's statement",
               b"int main() { put(" + b"/**/" * 262_000 + b"5); return 0; }", [5])
    yield puts("a comment without LF at the end", LEAST + b"//", [])


def token_cases():
    for token in KEYWORDS + MARKS + ["name", "0"]:
        place = {"int": 4, "void": 5}.get(token, 0)
        yield refused(f"a megabyte of the token {token}", megabyte_of(token), f"source: Unexpected at {place}")
    for token, count in IN_BLOCK.items():
        source = megabyte_of(token, BODY)
        place = len(source) if count is None else len(BODY) + count * (len(token) + 1)
        yield refused(f"a megabyte of the token {token} in a block", source, f"source: Unexpected at {place}")


def byte_cases():
    for byte in (0, 1, 8, 14, 27, 31, *b"\"'#.@$`\\", 127, 128, 192, 254, 255):
        yield refused(f"a megabyte of byte {byte}", bytes([byte]) * SOURCE, "source: BadByte at 0")
    yield refused("a byte order mark", b"\xef\xbb\xbf" + LEAST, "source: BadByte at 0")


def number_cases():
    value = lambda text: b"int a = " + text + b"; int main() { put(a); return 0; }"
    yield puts("a number of a million hexadecimal zeros", value(b"0x" + b"0" * 1_000_000 + b"1"), [1])
    yield puts("the greatest number", value(b"4294967295"), [-1])
    yield puts("the greatest number, hexadecimal", value(b"0XfFfFfFfF"), [-1])
    yield puts("the least number", value(b"- 2147483648"), [-2147483648])
    for name, text in {
        "the greatest number and one": b"4294967296", "the same, hexadecimal": b"0x100000000",
        "a million hexadecimal digits": b"0x" + b"f" * 1_000_000, "a million zeros": b"0" * 1_000_000,
        "2^64": b"18446744073709551616", "2^64 and 1, hexadecimal": b"0x10000000000000001", "an octal number": b"08",
        "a suffix": b"12u", "0x alone": b"0x",
    }.items():
        yield refused(f"no number: {name}", value(text), "source: BadNumber at 8")


def cases():
    for group in (comment_cases, token_cases, byte_cases, number_cases):
        yield from group()
