"""What an editor shows of a moment: threads, frames, scopes and variables, as bodies of the Debug Adapter Protocol."""
import os

from . import moment_text

OVER = "the run is over, and no thread lives"


class Views:
    """The bodies over a session, with the references that they gave for this moment."""

    def __init__(self, session):
        self.session, self.kept = session, []
        self.path = os.path.abspath(session.name)

    def source(self):
        return {"name": os.path.basename(self.path), "path": self.path}

    def forget(self):
        """The run has moved: earlier references mean nothing."""
        self.kept = []

    def refer(self, what):
        self.kept.append(what)
        return len(self.kept)

    def referred(self, reference, kind):
        """What a reference stands for. Raises KeyError for one of an earlier moment."""
        if not 0 < reference <= len(self.kept) or self.kept[reference - 1][0] != kind:
            raise KeyError(f"{reference} is no {kind} of this moment")
        return self.kept[reference - 1][1]

    def threads(self):
        """The threads, whose ids are their numbers plus 1."""
        document = self.session.document()
        found = [
            {
                "id": it["thread"] + 1,
                "name": f"{it['thread']} {it['stack'][-1]['function']}: {moment_text.state_text(it)}",
            }
            for it in document["threads"]
        ]
        return {"threads": found or [{"id": 1, "name": OVER}]}

    def stack(self, number, first=0, levels=0):
        """The frames of a thread, the innermost first."""
        frames = next((it["stack"] for it in self.session.document()["threads"] if it["thread"] == number), [])
        shown = frames[first : first + levels if levels else None]
        return {
            "stackFrames": [self.frame(number, first + level, it) for level, it in enumerate(shown)],
            "totalFrames": len(frames),
        }

    def frame(self, number, level, it):
        return {
            "id": self.refer(("frame", (number, level, it))),
            "name": it["function"],
            "source": self.source(),
            "line": it["line"] or 0,
            "column": it["column"] or 0,
        }

    def scopes(self, reference):
        _, _, frame = self.referred(reference, "frame")
        document = self.session.document()
        queues = [{"name": "arrivals", "values": document["arrivals"], "words": len(document["arrivals"])}]
        queues += [
            {"name": f"channel {it['channel']}", "values": it["messages"], "words": len(it["messages"])}
            for it in document["channels"]
        ]
        resources = [
            {"name": f"resource {it['resource']}", "text": f"{it['used']} of {it['cap']} in use"}
            for it in document["resources"]
        ]
        scopes = [
            ("Locals", moment_text.shown(frame["locals"]), "locals"),
            ("Globals", document["globals"], "globals"),
            ("Queues", queues, None),
            ("Resources", resources, None),
        ]
        return {"scopes": [self.scope(*it, frame["function"]) for it in scopes]}

    def scope(self, name, variables, hint, function):
        found = {
            "name": name,
            "variablesReference": self.refer(("variables", (variables, hint, function))),
            "namedVariables": len(variables),
            "expensive": False,
        }
        return found | ({"presentationHint": "locals"} if hint == "locals" else {})

    def variables(self, reference, first=0, count=0):
        variables, hint, function = self.referred(reference, "variables")
        shown = variables[first : first + count if count else None]
        return {"variables": [self.variable(it, hint, function) for it in shown]}

    def variable(self, it, hint, function):
        name = moment_text.name_text(it)
        if "text" in it:
            return {"name": name, "value": it["text"], "variablesReference": 0}
        found = {"name": name, "value": moment_text.value_text(it, False), "type": "int", "variablesReference": 0}
        if hint and it["name"] and "value" in it:
            found["evaluateName"] = it["name"]
        if "values" in it and it["values"]:
            elements = [{"name": f"[{number}]", "value": value} for number, value in enumerate(it["values"])]
            found["variablesReference"] = self.refer(
                ("variables", (elements, f"{hint} {name}" if hint else None, function))
            )
            found |= {"type": f"int[{it['words']}]", "indexedVariables": len(elements)}
        return found

    def watchable(self, reference, name):
        """The text of a watch for a variable of a scope or an element of an array, or None."""
        _, hint, function = self.referred(reference, "variables")
        if not hint:
            return None
        kind, _, array = hint.partition(" ")
        return f"{function}." * (kind == "locals") + array + name
