"""Files with random bytes changed: whatever they hold, each command ends with a status and a line
of docs/FORMATS.md."""
import re, subprocess

SOURCES = (r"TooLong", r"(BadByte|OpenComment|BadNumber|Unexpected|TooDeep|NestedCall|Unknown|Twice|Arity|Kind) at \d+",
           r"NoMain", r"Limit (functions|sites|globals|tables|locals|params)")
# For each status what standard error may have.
LINES = {
    0: (r"",), 2: tuple(f"source: {it}\n" for it in SOURCES),
    3: (r"", r"check: rejected V\d+ function \d+ index \d+\n"),
    4: (r"", r"image: (TooLong|Magic|Short at \d+|Long at \d+|Limit (code|globals|tables|entries))\n",
        r"certificate: (TooLong|Line \d+)\n", r"log: TooLong\n"),
    5: (r"limit: frame of \w+ is \d+ bytes\n", r"limit: code is \d+ words\n", r"limit: pool is \d+ bytes\n"),
    10: (r"",), 11: (r"",), 12: (r"",), 13: (r"",), 14: (r"",), 15: (r"",), 16: (r"",),
    17: (r"budget: cycle at \w+\n",),
}
WORDS = (
    ("serve", "--fuel", "100000", "S"), ("graph", "S"), ("build", "S", "J", "D"), ("check", "S", "I", "C"),
    ("run", "S", "I", "C", "--fuel", "100000"), ("audit", "S", "L"), ("budget", "S", "I", "C"),
)
READS = {"serve": "ST", "graph": "S", "build": "S", "check": "SIC", "run": "SICT", "audit": "SLT", "budget": "SIC"}
PIECES = (b"0", b"-1", b"4294967295", b"4294967296", b"(", b")", b"{", b"}", b";", b"[", b"]", b",", b"&&", b"?", b":",
          b"int ", b"if ", b"while ", b"return ", b"\n", b" ", b"\0", b"\xff", b"/*", b"wait(", b"spawn(")


def changed(data, chance):
    """The data with one to four changes: a byte, a piece put in, a part left out, doubled or moved."""
    data = bytearray(data)
    for _ in range(chance.randint(1, 4)):
        at = chance.randint(0, len(data))
        part = slice(at, at + chance.choice((1, 1, 2, 4, 16, 64)))
        kind = chance.randrange(5)
        if kind == 0 and at < len(data):
            data[at] = chance.randrange(256)
        elif kind == 1:
            data[at:at] = chance.choice(PIECES)
        elif kind == 2:
            del data[part]
        elif kind == 3:
            data[at:at] = data[part]
        else:
            moved = data[part]
            del data[part]
            place = chance.randint(0, len(data))
            data[place:place] = moved
    return bytes(data)


def wrong_with(status, err):
    """Why this ending is none of docs/FORMATS.md, or nothing."""
    if status not in LINES:
        return f"status {status}, {err[:100]!r}"
    return "" if any(re.fullmatch(it, err) for it in LINES[status]) else f"status {status} with {err[:100]!r}"


def tried(program, folder, files, chance):
    """One run over files of which one is changed: its command, its status, and what is wrong."""
    words = chance.choice(WORDS)
    name = chance.choice(READS[words[0]])
    for it, data in files.items():
        (folder / it).write_bytes(changed(data, chance) if it == name else data)
    run = subprocess.run([program, *words], cwd=folder, stdin=open(folder / "T", "rb"), capture_output=True,
                         timeout=600)
    return words[0], name, run.returncode, wrong_with(run.returncode, run.stderr.decode(errors="replace"))
