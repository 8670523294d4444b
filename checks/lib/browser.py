"""A headless Chromium that a check speaks to over two pipes; nothing but the standard library."""

import base64
import json
import os
import subprocess
from pathlib import Path


class Browser:
    """A headless Chromium that is spoken to over two pipes."""

    def __init__(self, program: str, folder: str) -> None:
        read_commands, self._write = os.pipe()
        self._read, write_answers = os.pipe()
        script = 'exec 3<&"$1" 4>&"$2"; shift 2; exec "$@"'
        words = [program, "--headless", "--no-sandbox", "--disable-gpu", "--remote-debugging-pipe",
                 "--disable-background-networking", "--no-first-run", f"--user-data-dir={folder}"]
        self._process = subprocess.Popen(
            ["bash", "-c", script, "browser", str(read_commands), str(write_answers), *words],
            pass_fds=(read_commands, write_answers), stdin=subprocess.DEVNULL,
            stdout=subprocess.DEVNULL, stderr=subprocess.DEVNULL)
        os.close(read_commands)
        os.close(write_answers)
        self._rest = b""
        self._number = 0
        self.session = ""
        self.requests: list[str] = []
        self.faults: list[str] = []

    def call(self, method: str, **words) -> dict:
        """Sends one command and gives its answer."""
        self._number += 1
        message = {"id": self._number, "method": method, "params": words}
        if self.session:
            message["sessionId"] = self.session
        os.write(self._write, json.dumps(message).encode() + b"\0")
        while True:
            answer = self._next()
            if answer.get("id") == self._number:
                if "error" in answer:
                    raise RuntimeError(f"{method}: {answer['error']}")
                return answer["result"]

    def _next(self) -> dict:
        while b"\0" not in self._rest:
            piece = os.read(self._read, 1 << 16)
            if not piece:
                raise RuntimeError("the browser has ended")
            self._rest += piece
        text, self._rest = self._rest.split(b"\0", 1)
        answer = json.loads(text)
        if answer.get("method") == "Network.requestWillBeSent":
            self.requests.append(answer["params"]["request"]["url"])
        if answer.get("method") in ("Runtime.exceptionThrown", "Log.entryAdded"):
            self.faults.append(text.decode())
        return answer

    def value(self, expression: str):
        """What an expression gives in the page."""
        answer = self.call("Runtime.evaluate", expression=expression, returnByValue=True,
                           awaitPromise=True)
        return answer["result"].get("value")

    def open(self, page: Path, has_script: bool) -> None:
        """Opens a page in a tab of its own and waits until it is there."""
        self.session = ""
        target = self.call("Target.createTarget", url="about:blank")["targetId"]
        tab = self.call("Target.attachToTarget", targetId=target, flatten=True)
        self.session = tab["sessionId"]
        for domain in ("Network", "Page", "Runtime", "Log", "Accessibility"):
            self.call(f"{domain}.enable")
        self.call("Emulation.setScriptExecutionDisabled", value=not has_script)
        self.requests.clear()
        self.faults.clear()
        self.call("Page.navigate", url=page.as_uri())
        while self.value("document.readyState") != "complete":
            pass

    def show(self, width: int, height: int, is_dark: bool) -> None:
        """Sets the size of the window and the colours that a reader likes."""
        self.call("Emulation.setDeviceMetricsOverride", width=width, height=height,
                  deviceScaleFactor=1, mobile=width < 500)
        colours = [{"name": "prefers-color-scheme", "value": "dark" if is_dark else "light"}]
        self.call("Emulation.setEmulatedMedia", features=colours)

    def press(self, key: str, code: int) -> None:
        """Presses a key."""
        for kind in ("keyDown", "keyUp"):
            text = {"text": "\r"} if key == "Enter" and kind == "keyDown" else {}
            self.call("Input.dispatchKeyEvent", type=kind, key=key, code=key,
                      windowsVirtualKeyCode=code, **text)

    def picture(self, path: Path, is_whole: bool = True) -> None:
        """Writes a picture of the whole page, or of what the window shows of it."""
        answer = self.call("Page.captureScreenshot", captureBeyondViewport=is_whole)
        path.write_bytes(base64.b64decode(answer["data"]))

    def printed(self) -> bytes:
        """The page as it is printed on A4."""
        answer = self.call("Page.printToPDF", preferCSSPageSize=True)
        return base64.b64decode(answer["data"])

    def end(self) -> None:
        """Ends the browser that this object started."""
        os.close(self._write)
        try:
            self._process.wait(timeout=10)
        except subprocess.TimeoutExpired:
            self._process.terminate()
            self._process.wait(timeout=10)
