"""A headless browser of the Chromium family, driven through its DevTools protocol over two pipes, with the standard library alone.

Not a command: tools/draw-test uses it.
"""
import base64
import json
import os
import select
import shutil
import subprocess
import tempfile
import time
from typing import Any

NAMES = ("chromium", "chromium-browser", "google-chrome", "google-chrome-stable")
PATIENCE = 60.0  # seconds that an answer of the browser may take

# The browser reads commands at descriptor 3 and writes answers at 4; the shell puts our ends of the pipes there.
AT_3_AND_4 = 'reads=$1 writes=$2; shift 2; exec "$@" 3<&"$reads" 4>&"$writes"'


def program() -> str | None:
    """The browser's command; none where no browser is installed."""
    return next((path for path in map(shutil.which, NAMES) if path), None)


class Browser:
    """A browser with one page. Its settings live in a folder that the caller lends, and removes afterwards."""

    def __init__(self, command: str, folder: str) -> None:
        reads, self.commands = os.pipe()
        self.answers, writes = os.pipe()
        flags = ["--headless", "--remote-debugging-pipe", "--disable-gpu", "--no-first-run", f"--user-data-dir={folder}"]
        if os.geteuid() == 0:
            flags.append("--no-sandbox")  # the browser's own sandbox refuses to run for root
        self.errors = tempfile.TemporaryFile()
        self.run = subprocess.Popen(
            ["bash", "-c", AT_3_AND_4, "browser", str(reads), str(writes), command, *flags, "about:blank"],
            pass_fds=(reads, writes), stdin=subprocess.DEVNULL, stdout=subprocess.DEVNULL, stderr=self.errors,
        )
        os.close(reads)
        os.close(writes)
        self.session, self.count, self.waiting = "", 0, b""
        self.events: list[dict[str, Any]] = []
        target = self.call("Target.createTarget", url="about:blank")["targetId"]
        self.session = self.call("Target.attachToTarget", targetId=target, flatten=True)["sessionId"]
        for domain in ("Page", "Runtime", "Network", "Log"):
            self.call(f"{domain}.enable")

    def call(self, method: str, **parameters: Any) -> dict[str, Any]:
        """Sends a command, and waits for its answer; events that come in between are kept."""
        self.count += 1
        message = {"id": self.count, "method": method, "params": parameters}
        if self.session:
            message["sessionId"] = self.session
        self.send(json.dumps(message).encode() + b"\0", method)
        ends = time.monotonic() + PATIENCE
        while True:
            heard = self.hear(ends, method)
            if heard.get("id") != self.count:
                self.events.append(heard)
            elif "error" in heard:
                raise RuntimeError(f"{method}: {heard['error']['message']}")
            else:
                return heard["result"]

    def send(self, message: bytes, method: str) -> None:
        try:
            os.write(self.commands, message)
        except BrokenPipeError:
            raise RuntimeError(f"the browser ended (status {self.run.wait()}) before {method}: {self.last_words()}") from None

    def hear(self, ends: float, waits_for: str) -> dict[str, Any]:
        """The next message of the browser."""
        while b"\0" not in self.waiting:
            if not select.select([self.answers], [], [], max(0.0, ends - time.monotonic()))[0]:
                raise TimeoutError(f"the browser did not answer within {PATIENCE:.0f} s: {waits_for}")
            part = os.read(self.answers, 1 << 16)
            if not part:
                raise RuntimeError(f"the browser ended (status {self.run.wait()}) before it answered {waits_for}: {self.last_words()}")
            self.waiting += part
        message, _, self.waiting = self.waiting.partition(b"\0")
        return json.loads(message)

    def last_words(self) -> str:
        """The end of what the browser wrote to standard error."""
        self.errors.seek(0)
        return self.errors.read()[-300:].decode(errors="replace").strip()

    def open(self, url: str) -> None:
        """Opens a page, and waits until all of it is there. Only its own events are kept."""
        for address in ("about:blank", url):
            self.events.clear()
            self.call("Page.navigate", url=address)
            self.wait("Page.loadEventFired")

    def wait(self, event: str) -> None:
        ends = time.monotonic() + PATIENCE
        while not self.heard(event):
            self.events.append(self.hear(ends, event))

    def heard(self, event: str) -> list[dict[str, Any]]:
        """What came with each event of a name since the page was opened."""
        return [e["params"] for e in self.events if e.get("method") == event]

    def value(self, expression: str) -> Any:
        """The value of an expression in the page."""
        result = self.call("Runtime.evaluate", expression=expression, returnByValue=True)
        if "exceptionDetails" in result:
            raise RuntimeError(f"{expression}: {result['exceptionDetails']}")
        return result["result"].get("value")

    def key(self, name: str, text: str = "") -> None:
        for kind in ("keyDown", "keyUp"):
            code = {"Tab": 9, "Escape": 27, " ": 32, "Enter": 13}.get(name, 0)
            more = {"text": text} if text and kind == "keyDown" else {}
            self.call("Input.dispatchKeyEvent", type=kind, key=name, windowsVirtualKeyCode=code, **more)

    def point(self, x: float, y: float) -> None:
        self.call("Input.dispatchMouseEvent", type="mouseMoved", x=x, y=y)

    def click(self, x: float, y: float) -> None:
        self.point(x, y)
        for kind in ("mousePressed", "mouseReleased"):
            self.call("Input.dispatchMouseEvent", type=kind, x=x, y=y, button="left", clickCount=1)

    def tap(self, x: float, y: float) -> None:
        self.call("Input.dispatchTouchEvent", type="touchStart", touchPoints=[{"x": x, "y": y}])
        self.call("Input.dispatchTouchEvent", type="touchEnd", touchPoints=[])

    def shot(self) -> bytes:
        """What the page looks like, as PNG."""
        return base64.b64decode(self.call("Page.captureScreenshot", format="png")["data"])

    def close(self) -> None:
        """Asks the browser to end, and ends it where it does not."""
        try:
            self.call("Browser.close")
            self.run.wait(timeout=10)
        except (OSError, RuntimeError, subprocess.TimeoutExpired):
            self.run.kill()
            self.run.wait()
        os.close(self.commands)
        os.close(self.answers)
        self.errors.close()
