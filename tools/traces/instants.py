"""Points in time, as recordings write them: numbers since an epoch, ISO 8601, and the form of access logs."""
import datetime, decimal, re

# Seconds of one unit of a time that is a number.
UNITS = {name: decimal.Decimal(size) for name, size in {"s": "1", "ms": "1e-3", "us": "1e-6", "ns": "1e-9"}.items()}
ACCESS_LOG = "%d/%b/%Y:%H:%M:%S %z"
# A date and a time with a fraction of any length (ISO 8601; a blank may stand for the T).
ISO = re.compile(r"(\d{4}-\d\d-\d\d)(?:[T ](\d\d:\d\d(?::\d\d)?)(?:[.,](\d+))?)?\s*(Z|[+-]\d\d:?\d\d)?$")


def seconds_of(text, unit="s", form=None):
    """The seconds of a point in time since its epoch, exactly, or None if the text is none.

    A time without an offset counts as UTC: only the differences of a recording's times matter.
    """
    text = text.strip().strip("[]")
    if form is not None:
        return from_form(text, form)
    try:
        number = decimal.Decimal(text)
        return number * UNITS[unit] if number.is_finite() else None
    except decimal.InvalidOperation:
        return from_iso(text) if text[:4].isdigit() else from_form(text, ACCESS_LOG)


def from_form(text, form):
    try:
        return since_epoch(datetime.datetime.strptime(text, form))
    except ValueError:
        return None


def from_iso(text):
    found = ISO.match(text)
    if not found:
        return None
    day, time, fraction, offset = found.groups()
    offset = {None: "+00:00", "Z": "+00:00"}.get(offset, offset)
    if ":" not in offset:
        offset = f"{offset[:3]}:{offset[3:]}"
    try:
        whole = since_epoch(datetime.datetime.fromisoformat(f"{day}T{time or '00:00'}{offset}"))
    except ValueError:
        return None
    return whole + decimal.Decimal(f"0.{fraction or 0}")


def since_epoch(moment):
    if moment.tzinfo is None:
        moment = moment.replace(tzinfo=datetime.timezone.utc)
    passed = moment - datetime.datetime(1970, 1, 1, tzinfo=datetime.timezone.utc)
    return decimal.Decimal(passed.days * 86_400 + passed.seconds) + decimal.Decimal(passed.microseconds) / 1_000_000
