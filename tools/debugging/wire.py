"""Messages of the Debug Adapter Protocol on two streams: JSON behind a head with its length."""
import json, queue, threading


class Ended(Exception):
    """No further message comes."""


def read_message(stream):
    """The next message, or None at the end of the stream."""
    length = None
    while line := stream.readline():
        name, _, value = line.decode("ascii", "replace").partition(":")
        if name.strip().lower() == "content-length":
            length = int(value)
        elif not line.strip() and length is not None:
            text = stream.read(length)
            return json.loads(text) if len(text) == length else None
    return None


def write_message(stream, message):
    text = json.dumps(message, separators=(",", ":")).encode()
    stream.write(b"Content-Length: %d\r\n\r\n" % len(text) + text)
    stream.flush()


class Wire:
    """Requests that come in, in order, and what goes out, numbered from 1. A thread reads, so that a `pause` is seen
    while a request is under way: `pauses` is set from its arrival until it is taken."""

    def __init__(self, source, sink):
        self.source, self.sink, self.sent, self.waiting = source, sink, 0, queue.Queue()
        self.pauses = threading.Event()
        threading.Thread(target=self.read_all, daemon=True).start()

    def read_all(self):
        try:
            while message := read_message(self.source):
                if message.get("command") in ("pause", "disconnect", "terminate"):
                    self.pauses.set()
                self.waiting.put(message)
        except (OSError, ValueError):
            pass
        self.pauses.set()
        self.waiting.put(None)

    def next(self):
        """The next request. Raises Ended after the last one."""
        message = self.waiting.get()
        if message is None:
            raise Ended
        if message.get("command") == "pause":
            self.pauses.clear()
        return message

    def send(self, message):
        self.sent += 1
        write_message(self.sink, {"seq": self.sent} | message)

    def event(self, name, **body):
        self.send({"type": "event", "event": name, "body": body} if body else {"type": "event", "event": name})

    def answer(self, request, body=None):
        found = {"type": "response", "request_seq": request["seq"], "command": request["command"], "success": True}
        self.send(found | ({"body": body} if body is not None else {}))

    def refuse(self, request, why):
        self.send(
            {
                "type": "response",
                "request_seq": request["seq"],
                "command": request["command"],
                "success": False,
                "message": why,
                "body": {"error": {"id": 1, "format": why.replace("{", "(").replace("}", ")"), "showUser": True}},
            }
        )
