"""How words, lines and counts are shown on a terminal."""
import difflib

LONGEST = 60  # characters of a word or a line that are quoted


def visible(text):
    """The text without characters that steer a terminal."""
    return "".join(it if it.isprintable() else escaped(it) for it in text)


def escaped(character):
    """A character as C writes it; a byte that is no text is one of the last 256 of the
    surrogates."""
    code = ord(character)
    if character in "\r\n\t":
        return {"\r": "\\r", "\n": "\\n", "\t": "\\t"}[character]
    return f"\\x{code & 0xff:02x}" if code < 256 or 0xDC00 <= code < 0xE000 else f"\\u{code:04x}"


def quoted(text):
    """A word or a line as it is shown: short, and without characters that steer a terminal."""
    shown = visible(text if len(text) <= LONGEST else text[:LONGEST])
    return f"`{shown}`" if len(text) <= LONGEST else f"`{shown}..`"


def some(number, what):
    """A count with its noun."""
    return f"{number:,} {what}{'' if number == 1 else 's'}"


def listed(names, last="and"):
    return ", ".join(names[:-1]) + f" {last} " + names[-1] if len(names) > 1 else "".join(names)


def nearest(word, names):
    """A question for the name that is most like the word, or nothing."""
    found = difflib.get_close_matches(word, list(names), 1, 0.5)
    return f"; did you mean `{found[0]}`?" if found else ""
