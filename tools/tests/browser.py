"""Chromium without a window, for tests that look at a page and click in it: it is told what to do through two pipes."""

import base64
import json
import os
import shutil
import subprocess
import tempfile
from typing import Any, Self

CHROMIUM = next((it for it in map(shutil.which, ("chromium", "chromium-browser", "google-chrome")) if it), None)
WORDS = ("--headless", "--no-sandbox", "--disable-gpu", "--hide-scrollbars", "--remote-debugging-pipe", "--no-first-run")
SHIFT = 8
# Of what waits for two frames, and for a page that is a file and was read to its end.
DRAWN = "new Promise((done) => requestAnimationFrame(() => requestAnimationFrame(() => done())))"
READY = """new Promise((done) => {
  const look = () => document.readyState === "complete" && location.protocol === "file:" ? done() : setTimeout(look, 10);
  look();
})"""


class Browser:
    """A page of Chromium of a certain size in pixels. Raises EOFError where it ends, and AssertionError where the page fails, or opens a dialog."""

    def __init__(self, wide: int = 1150, high: int = 600) -> None:
        assert CHROMIUM
        self.room = tempfile.TemporaryDirectory(ignore_cleanup_errors=True)
        (its_in, own_out), (own_in, its_out) = os.pipe(), os.pipe()
        # (it reads from the file 3, and writes to 4)
        begin = ["sh", "-c", f'exec "$0" "$@" 3<&{its_in} 4>&{its_out}', CHROMIUM]
        words = [*begin, *WORDS, f"--user-data-dir={self.room.name}", f"--window-size={wide},{high}", "about:blank"]
        self.ran = subprocess.Popen(words, pass_fds=(its_in, its_out), stderr=subprocess.DEVNULL)
        os.close(its_in)
        os.close(its_out)
        self.output, self.input = open(own_out, "wb", buffering=0), open(own_in, "rb")
        self.rest, self.count, self.session, self.faults = b"", 0, "", []
        target = next(it for it in self.call("Target.getTargets")["targetInfos"] if it["type"] == "page")["targetId"]
        self.session = self.call("Target.attachToTarget", targetId=target, flatten=True)["sessionId"]
        self.call("Emulation.setDeviceMetricsOverride", width=wide, height=high, deviceScaleFactor=1, mobile=False)
        for domain in ("Page", "Runtime"):
            self.call(f"{domain}.enable")
        self.call("Performance.enable", timeDomain="threadTicks")

    def read(self) -> dict[str, Any]:
        """Returns the next message of the browser. Raises EOFError where it ended."""
        while b"\0" not in self.rest:
            part = self.input.read1(1 << 16)
            if not part:
                raise EOFError("the browser ended")
            self.rest += part
        text, _, self.rest = self.rest.partition(b"\0")
        return json.loads(text)

    def call(self, method: str, **parameters: Any) -> dict[str, Any]:
        """Returns what a command of the browser returns."""
        own = self.send(method, parameters)
        while True:
            found = self.read()
            self.note(found)
            if found.get("id") == own:
                assert "error" not in found, found
                return found["result"]

    def send(self, method: str, parameters: dict[str, Any]) -> int:
        """Sends a command, and returns its number."""
        self.count += 1
        message = {"id": self.count, "method": method, "params": parameters}
        if self.session:
            message["sessionId"] = self.session
        self.output.write(json.dumps(message).encode() + b"\0")
        return self.count

    def note(self, found: dict[str, Any]) -> None:
        """Notes what the page may not do: an error that nothing takes, and a dialog, which is closed, for the page waits for it."""
        if found.get("method") == "Page.javascriptDialogOpening":
            self.send("Page.handleJavaScriptDialog", {"accept": True})
        if found.get("method") in ("Page.javascriptDialogOpening", "Runtime.exceptionThrown"):
            self.faults.append(found["params"])

    def open(self, path: str, more: str = "") -> None:
        """Opens a file, with what stands behind its name in the address, and waits until it is drawn."""
        self.call("Page.navigate", url="about:blank")
        self.call("Page.navigate", url=f"file://{os.path.realpath(path)}{more}")
        self.value(READY)
        self.settle()

    def value(self, script: str) -> Any:
        """Returns the value of an expression in the page."""
        found = self.call("Runtime.evaluate", expression=script, awaitPromise=True, returnByValue=True)
        assert "exceptionDetails" not in found, found
        return found["result"].get("value")

    def click(self, x: float, y: float, is_shifted: bool = False) -> None:
        """Moves the mouse there, presses its left button and lets it go."""
        for kind, button in (("mouseMoved", "none"), ("mousePressed", "left"), ("mouseReleased", "left")):
            count = 0 if button == "none" else 1
            more = {"button": button, "clickCount": count, "modifiers": SHIFT * is_shifted}
            self.call("Input.dispatchMouseEvent", type=kind, x=x, y=y, **more)
        self.settle()

    def write(self, text: str) -> None:
        """Types a text into the field that was clicked."""
        self.call("Input.insertText", text=text)
        self.settle()

    def settle(self) -> None:
        """Waits until what was changed is drawn."""
        self.value(DRAWN)
        assert not self.faults, self.faults

    def seconds(self) -> float:
        """Returns how long the page has made a processor work since it was opened, however busy the host is."""
        return next(it["value"] for it in self.call("Performance.getMetrics")["metrics"] if it["name"] == "TaskDuration")

    def picture(self) -> bytes:
        """Returns what the page looks like, as PNG."""
        return base64.b64decode(self.call("Page.captureScreenshot", format="png")["data"])

    def __enter__(self) -> Self:
        return self

    def __exit__(self, *_: object) -> None:
        self.output.close()
        self.ran.terminate()
        self.ran.wait()
        self.input.close()
        self.room.cleanup()
