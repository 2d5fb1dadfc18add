"""Escapes text for XML, HTML and the scripts of a page: the one place where that is done."""
import html, json

IN_SCRIPTS = {ord(it): f"\\u{ord(it):04x}" for it in "<>&\u2028\u2029"}


def text(it):
    """Text as the content of an element or within a quoted attribute, of XML and HTML."""
    return html.escape(it, quote=True)


def script(value):
    """A value as JSON within a `script` element: nothing in it can end the element or begin a
    comment."""
    return json.dumps(value, separators=(",", ":")).translate(IN_SCRIPTS)
