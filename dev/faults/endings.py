"""What is wrong with the ending of a run with a fault, by docs/FORMATS.md."""
from .rows import STORED

LINES = {6: b"fault: read\n", 7: b"fault: write\n", 8: b"fault: memory\n"}
STATUS = {"memory": 8, "read": 6, "write": 7, "room": 7, "limit": 7, "full": 7}


def wrong_with(kind, left, whole, before, after, whole_files):
    """The reasons why this ending isn't one that is allowed, joined; `whole` is the run without a
    fault, `before` and `after` the files. With memory a run may also end as without a fault, where
    the program goes on without what it asked for."""
    expected = (6, 7) if kind == "open" else (STATUS[kind],)
    said = [] if whole.out.startswith(left.out) else ["not a prefix of the output"]
    if left.status in expected:
        said += [] if left.err == LINES[left.status] or kind == "memory" and is_part(left.err, LINES[8], whole.err) else [f"standard error {left.err[:60]!r}"]
    elif left.status == whole.status and left.out == whole.out:
        said += [] if whole.err.startswith(left.err) else [f"standard error {left.err[:60]!r}"]
    else:
        said.append(f"status {left.status}, neither {expected[0]} nor {whole.status} with the whole output")
    return "; ".join(said + wrong_files(before, after, whole_files))


def is_same(left, after, other, other_files):
    return (left.status, left.out, left.err, after) == (other.status, other.out, other.err, other_files)


def is_part(text, *wholes):
    return any(it.startswith(text) for it in wholes)


def wrong_files(before, after, whole):
    """Files that aren't stored are as they were; one that is stored is as it was or a prefix of the
    whole, the certificate only beside the whole image."""
    kept = before.keys() | after.keys()
    wrong = [f"{name} has changed" for name in sorted(kept) if name not in STORED
             and after.get(name) != before.get(name)]
    wrong += [f"{name} is no prefix" for name in STORED if after.get(name) != before.get(name)
              and not is_part(after.get(name, b""), whole.get(name, b""))]
    if after.get("certificate") != before.get("certificate") and after.get("image") != whole.get("image"):
        wrong.append("a certificate beside a part of the image")
    return wrong
