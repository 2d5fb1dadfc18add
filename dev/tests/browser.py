"""Drives a headless Chromium by its debugging protocol over two pipes, with the standard library
alone."""
import base64, json, os, shutil, subprocess, tempfile

CHROMIUM = shutil.which("chromium") or shutil.which("chromium-browser") or shutil.which("google-chrome")


class Browser:
    """A browser with one page. What a page throws or logs as an error is collected in `errors`."""

    def __init__(self, width=1200, height=800):
        self.folder = tempfile.mkdtemp(prefix="browser_")
        to_browser, self.output = os.pipe()
        self.input, from_browser = os.pipe()
        words = [CHROMIUM, "--headless=new", "--no-sandbox", "--disable-gpu", "--remote-debugging-pipe"]
        words += [f"--user-data-dir={self.folder}", f"--window-size={width},{height}"]
        pipes = (to_browser, from_browser)  # the browser reads from its file 3 and writes to 4
        self.process = subprocess.Popen(
            ["bash", "-c", 'exec 3<&"$0" 4>&"$1" "${@:2}"', *map(str, pipes), *words], pass_fds=pipes,
            stderr=subprocess.DEVNULL
        )
        for it in pipes:
            os.close(it)
        self.number, self.pending, self.errors, self.loaded = 0, b"", [], 0
        self.session = None
        target = self.ask("Target.createTarget", url="about:blank")["targetId"]
        self.session = self.ask("Target.attachToTarget", targetId=target, flatten=True)["sessionId"]
        for domain in ("Page", "Runtime", "Log"):
            self.ask(f"{domain}.enable")

    def message(self):
        while b"\0" not in self.pending:
            piece = os.read(self.input, 1 << 16)
            if not piece:
                raise RuntimeError("the browser has ended")
            self.pending += piece
        said, _, self.pending = self.pending.partition(b"\0")
        return json.loads(said)

    def note(self, said):
        method, of = said.get("method"), said.get("params", {})
        if method == "Runtime.exceptionThrown":
            self.errors.append(of["exceptionDetails"].get("exception", {}).get("description")
                               or of["exceptionDetails"]["text"])
        elif method == "Log.entryAdded" and of["entry"]["level"] == "error":
            self.errors.append(of["entry"]["text"])
        elif method == "Page.loadEventFired":
            self.loaded += 1

    def ask(self, method, **params):
        self.number += 1
        asked = {"id": self.number, "method": method, "params": params}
        os.write(self.output,
                 json.dumps(asked | ({"sessionId": self.session} if self.session else {})).encode() + b"\0")
        while (said := self.message()).get("id") != self.number:
            self.note(said)
        if "error" in said:
            raise RuntimeError(f"{method}: {said['error']['message']}")
        return said["result"]

    def open(self, url):
        before = self.loaded
        self.ask("Page.navigate", url=url)
        while self.loaded == before:
            self.note(self.message())

    def value(self, script):
        """What a script gives, a promise's value too."""
        told = self.ask("Runtime.evaluate", expression=script, returnByValue=True, awaitPromise=True)
        if "exceptionDetails" in told:
            raise RuntimeError(told["exceptionDetails"].get("exception", {}).get("description", "the script failed"))
        return told["result"].get("value")

    def press(self, key):
        text = {"text": key} if len(key) == 1 else {}
        self.ask("Input.dispatchKeyEvent", type="keyDown", key=key, **text)
        self.ask("Input.dispatchKeyEvent", type="keyUp", key=key)

    def dark(self, is_dark):
        self.ask("Emulation.setEmulatedMedia",
                 features=[{"name": "prefers-color-scheme", "value": "dark" if is_dark else "light"}])

    def screenshot(self, name):
        with open(name, "wb") as file:
            file.write(base64.b64decode(self.ask("Page.captureScreenshot", format="png")["data"]))

    def close(self):
        try:
            self.session = None
            self.ask("Browser.close")
        except (RuntimeError, OSError):
            pass
        self.process.wait(300)
        os.close(self.output)
        os.close(self.input)
        shutil.rmtree(self.folder, ignore_errors=True)
