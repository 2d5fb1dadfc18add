"""The page of the public calls with their clauses."""
from repository import calls, rooms
from repository.pages import row, table


def clause(it):
    cited = ", ".join(f"`{name}`" for name in it.cites)
    name = f"`{it.name}`" if it.name else "clause"
    return f"{name} ({cited})" if cited else name


def state(call):
    if call.form == "trait":
        return "form"
    if not call.clauses:
        return "returns"
    return "law" if call.form == "law" else "proved"


def call_row(call, crate):
    place = call.path.relative_to(rooms.TOP / "crates" / crate)
    return row(
        f"`{call.called}`, {place}:{call.line}",
        call.says,
        "; ".join(map(clause, call.clauses)),
        ", ".join(f"`{it}`" for it in call.edits),
        state(call),
    )


def crate_part(crate, public, elsewhere):
    lines = [f"### {crate}", ""]
    if public:
        lines += table("Call", "Says", "Clauses", "Edits", "State")
        lines += [*(call_row(it, crate) for it in public), ""]
    if elsewhere:
        lines += [f"Edits of private functions: {', '.join(elsewhere)}.", ""]
    return lines if public or elsewhere else []


def counts(found):
    listed = [it for public, _ in found.values() for it in public]
    clauses = sum(len(it.clauses) for it in listed)
    laws = sum(1 for it in listed if state(it) == "law")
    return f"{len(listed):,} public calls with {clauses:,} clauses; {laws} of them are laws."


def page():
    """The made part of docs/CLAUSES.md."""
    found = {crate: calls.calls_of(crate) for crate in rooms.crates()}
    lines = [counts(found), ""]
    for room in rooms.rooms():
        parts = [line for it in room.crates for line in crate_part(it.name, *found[it.name])]
        if parts:
            lines += [f"## {room.name}", "", *parts]
    return "\n".join(lines).rstrip("\n") + "\n"
