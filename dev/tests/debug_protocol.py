"""The types of the Debug Adapter Protocol, as Debian's package python3-pydevd carries them, and a client that checks
each message against them."""
import ast, os, pathlib, subprocess, sys

from debugging import wire

TOP = pathlib.Path(__file__).resolve().parent.parent.parent
INSTALLED = "/usr/lib/python3/dist-packages/_pydevd_bundle/_debug_adapter/pydevd_schema.py"
KINDS = {
    "integer": int,
    "string": str,
    "boolean": bool,
    "number": (int, float),
    "array": list,
    "object": dict,
    "null": type(None),
}


def schema_file():
    """The file with the types: that of the package, or the one that CAPRICCIO_DEBUG_SCHEMA names."""
    return os.environ.get("CAPRICCIO_DEBUG_SCHEMA", INSTALLED)


class Types:
    """The types by name: the properties of each, and which of them must be there."""

    def __init__(self, file):
        self.properties, self.required, self.messages = {}, {}, {}
        for node in ast.parse(pathlib.Path(file).read_text(encoding="utf-8")).body:
            if isinstance(node, ast.ClassDef):
                self.learn(node)

    def learn(self, node):
        for it in node.body:
            if isinstance(it, ast.Assign) and it.targets[0].id == "__props__":
                self.properties[node.name] = ast.literal_eval(it.value)
            if isinstance(it, ast.FunctionDef) and it.name == "__init__":
                names = [argument.arg for argument in it.args.args]
                self.required[node.name] = names[1 : len(names) - len(it.args.defaults)]
        for it in node.decorator_list:
            if isinstance(it, ast.Call):
                self.messages[it.func.id.removeprefix("register_"), it.args[0].value] = node.name

    def wrong(self, value, name, place=""):
        """What is wrong with a value of a type."""
        found = [f"{place}: {it} is missing" for it in self.required.get(name, []) if it not in value]
        for key, inner in value.items():
            if key not in self.properties[name]:
                found.append(f"{place}: {name} has no {key}")
            else:
                found += self.wrong_part(inner, self.properties[name][key], f"{place}.{key}")
        return found

    def wrong_part(self, value, schema, place):
        name = schema.get("$ref", "").rpartition("/")[2] or schema.get("type")
        if isinstance(name, list):
            return (
                [] if any(isinstance(value, KINDS[it]) for it in name) else [f"{place}: {value!r} is none of {name}"]
            )
        if name in self.properties:
            if "enum" in self.properties[name] or not isinstance(value, dict):
                return [] if isinstance(value, (str, dict)) else [f"{place}: {value!r} is no {name}"]
            return self.wrong(value, name, place)
        if not isinstance(value, KINDS[name]) or isinstance(value, bool) and name != "boolean":
            return [f"{place}: {value!r} is no {name}"]
        if "enum" in schema and value not in schema["enum"]:
            return [f"{place}: {value!r} is none of {schema['enum']}"]
        if name == "array":
            return [
                it
                for number, one in enumerate(value)
                for it in self.wrong_part(one, schema["items"], f"{place}[{number}]")
            ]
        if name == "object" and "properties" in schema:
            return [
                it
                for key, one in value.items()
                if key in schema["properties"]
                for it in self.wrong_part(one, schema["properties"][key], f"{place}.{key}")
            ]
        return []

    def wrong_message(self, message):
        """What is wrong with a message that an adapter sends."""
        if message["type"] == "response" and not message["success"]:
            return self.wrong(message, "ErrorResponse", message["command"])
        kind, name = (message["type"], message.get("command") or message["event"])
        if (kind, name) not in self.messages:
            return [f"the protocol has no {kind} {name}"]
        type_, body = self.messages[kind, name], message.get("body")
        found = [] if body is None or f"{type_}Body" not in self.properties else self.wrong(body, f"{type_}Body", name)
        inline = self.properties[type_].get("body", {})
        if body is not None and f"{type_}Body" not in self.properties:
            found += self.wrong_part(body, inline, name)
        if body is None and "body" in self.required[type_]:
            found.append(f"{name}: the body is missing")
        found += [f"{name}: {key} is missing" for key in ("seq", "type") if key not in message]
        return found


class Client:
    """An editor: it sends requests to tools/debug_adapter, and keeps what comes back."""

    def __init__(self, types=None):
        self.types, self.sent, self.messages, self.wrong = types, 0, [], []
        self.process = subprocess.Popen(
            [sys.executable, TOP / "tools/debug_adapter"],
            stdin=subprocess.PIPE,
            stdout=subprocess.PIPE,
            stderr=subprocess.DEVNULL,
        )

    def __enter__(self):
        return self

    def __exit__(self, *_):
        self.process.stdin.close()
        self.process.wait(timeout=20)
        self.process.stdout.close()

    def read(self):
        message = wire.read_message(self.process.stdout)
        if message is None:
            raise EOFError("the adapter has ended")
        self.messages.append(message)
        if self.types:
            self.wrong += self.types.wrong_message(message)
        return message

    def send(self, command, **arguments):
        self.sent += 1
        request = {"seq": self.sent, "type": "request", "command": command} | (
            {"arguments": arguments} if arguments else {}
        )
        wire.write_message(self.process.stdin, request)
        return self.sent

    def ask(self, command, **arguments):
        """The body of the answer; a refusal is a ValueError."""
        number = self.send(command, **arguments)
        while True:
            message = self.read()
            if message["type"] == "response" and message["request_seq"] == number:
                if not message["success"]:
                    raise ValueError(message["message"])
                return message.get("body", {})

    def event(self, name):
        """The body of the next event of a name."""
        while True:
            message = self.read()
            if message.get("event") == name:
                return message.get("body", {})

    def move(self, command, **arguments):
        """Moves, and gives the stop and where it is: function and line."""
        self.ask(command, **arguments)
        return self.stop()

    def stop(self):
        stop = self.event("stopped")
        frames = self.ask("stackTrace", threadId=stop["threadId"])["stackFrames"]
        return stop, (frames[0]["name"], frames[0]["line"]) if frames else None

    def values(self, scope, thread):
        """The variables of a scope of a thread's innermost frame, by their names."""
        frame = self.ask("stackTrace", threadId=thread)["stackFrames"][0]["id"]
        scopes = {it["name"]: it["variablesReference"] for it in self.ask("scopes", frameId=frame)["scopes"]}
        return {it["name"]: it["value"] for it in self.ask("variables", variablesReference=scopes[scope])["variables"]}
