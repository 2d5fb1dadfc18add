"""Images and certificates made by hand, from the templates and the rules of docs/FORMATS.md, so
that what is wanted of them doesn't rest on what the program builds."""
import dataclasses

RA, SP, TP, T0, T1, A0, A7 = 1, 2, 4, 5, 6, 10, 17  # registers
ECALL = 0x73
ENTRY = 0x1008  # of the first function: the end stub has two words at 0x1000


def immediate(opcode, rd, kind, rs1, value):
    return (value & 0xFFF) << 20 | rs1 << 15 | kind << 12 | rd << 7 | opcode


def addi(rd, rs1, value):
    return immediate(0x13, rd, 0, rs1, value)


def lw(rd, place):
    return immediate(0x03, rd, 2, SP, place)


def sw(register, place):
    return (place >> 5 & 0x7F) << 25 | register << 20 | SP << 15 | 2 << 12 | (place & 0x1F) << 7 | 0x23


def li(rd, value):
    upper = (value + 0x800) >> 12 & 0xFFFFF
    return [upper << 12 | rd << 7 | 0x37, addi(rd, rd, value - (upper << 12))]


def jal(rd, offset):
    bits = offset & 0x1FFFFF
    return (bits >> 20) << 31 | (bits >> 1 & 0x3FF) << 21 | (bits >> 11 & 1) << 20 | (bits >> 12 & 0xFF) << 12 | rd << 7 | 0x6F


END_STUB = [addi(A7, 0, 30), ECALL]


def prologue(frame):
    return [addi(SP, SP, -frame), sw(RA, frame - 4)]


def give_back(frame):
    return [lw(RA, frame - 4), addi(SP, SP, frame), immediate(0x67, 0, 0, RA, 0)]


def return_zero(frame, place=0):
    """`return 0;` with its temporary at this place."""
    return [*li(T0, 0), sw(T0, place), lw(A0, place), *give_back(frame)]


def least_code(frame=16):
    """The code of `int main() { return 0; }`: it returns 0 at its end once more."""
    return END_STUB + prologue(frame) + 2 * return_zero(frame)


def transfer(at, to, need=None):
    """A call of the function at `to`, whose first word lies at `at`, plain or linked."""
    if need is None:
        return [jal(RA, to - at)]
    sub, bltu = 0x20 << 25 | T1 << 20 | SP << 15 | T0 << 7 | 0x33, TP << 20 | T0 << 15 | 6 << 12 | 12 << 7 | 0x63
    return [*li(T1, need), sub, bltu, jal(RA, to - at - 16), jal(0, 24), addi(A7, 0, 1), ECALL, jal(RA, to - at - 32),
            addi(A7, 0, 2), ECALL]


def calling_code(need=None):
    """The code of `void f() { } int main() { f(); return 0; }`."""
    start = ENTRY + 4 * 5
    return END_STUB + prologue(16) + give_back(16) + prologue(16) + transfer(start + 8, ENTRY, need) + 2 * return_zero(16)


def table_code():
    """The code of `int f(int x) { return x; } int main() { return 0; }`, with x at 0 and the
    temporary at 4."""
    body = [lw(T0, 0), sw(T0, 4), lw(A0, 4), *give_back(16)] + return_zero(16, 4)
    return END_STUB + prologue(16) + [sw(A0, 0)] + body + prologue(16) + 2 * return_zero(16)


def image(code, globals=(), tables=(), entries=(ENTRY,)):
    parts = [code, globals, tables, entries]
    return b"CAP1" + words_of([len(it) for it in parts]) + b"".join(map(words_of, parts))


def words_of(numbers):
    return b"".join((it & 0xFFFFFFFF).to_bytes(4, "little") for it in numbers)


@dataclasses.dataclass
class Function:
    """A function's line in a certificate; the place of its return address is `ra`."""

    entry: int = ENTRY
    words: int = 16
    frame: int = 16
    ra: int = 12
    bound: int = 16
    places: tuple = (0,)

    def line(self):
        return " ".join(map(str, ("function", self.entry, self.words, self.frame, self.ra, self.bound, *self.places)))


@dataclasses.dataclass
class Certificate:
    """A certificate; a count that isn't given is that of the lines."""

    functions: tuple = (Function(),)
    sites: tuple = ()
    chunk: int = 4096
    max_path: int = 2032
    function_count: int = None
    site_count: int = None

    def lines(self):
        count = lambda given, lines: len(lines) if given is None else given
        head = ["capriccio certificate 1", f"chunk {self.chunk}", f"max-path {self.max_path}",
                f"functions {count(self.function_count, self.functions)}"]
        sites = [f"sites {count(self.site_count, self.sites)}", *(f"site {it}" for it in self.sites)]
        return head + [it.line() for it in self.functions] + sites

    def text(self):
        return text_of(self.lines())


def text_of(lines):
    return "".join(f"{it}\n" for it in lines).encode()
