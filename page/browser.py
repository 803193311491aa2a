"""Drives a headless Chromium by the DevTools protocol over two pipes, with nothing but Python's own library."""
import base64
import json
import os
import shutil
import sys
import tempfile
from typing import Any, Optional

sys.dont_write_bytecode = True

NAMES = ("chromium", "chromium-browser", "google-chrome")
INSTALL = "no Chromium is here: as root, `apt-get update && apt-get install chromium` (Debian's package) brings one"
# a browser of root's can't shut itself in
FLAGS = ["--headless", "--remote-debugging-pipe", "--no-first-run", "--disable-gpu", "--hide-scrollbars", "--force-color-profile=srgb"]


class Lost(Exception):
    """The browser ended, or a script or command failed in it."""


def chromium() -> Optional[str]:
    """Where the browser is, or None."""
    return next(filter(None, map(shutil.which, NAMES)), None)


class Browser:
    """One browser with one page. Messages are JSON texts that end with a zero byte."""

    def __init__(self, path: str, width: int = 1280, height: int = 900):
        self.room = tempfile.mkdtemp()
        theirs_in, self.ours_out = os.pipe()
        self.ours_in, theirs_out = os.pipe()
        root = ["--no-sandbox"] if os.getuid() == 0 else []
        words = [path, *FLAGS, *root, f"--user-data-dir={self.room}", f"--window-size={width},{height}", "about:blank"]
        quiet = os.open(os.devnull, os.O_RDWR)
        high = [os.dup2(it, 100 + at) for at, it in enumerate((theirs_in, theirs_out))]
        moves = [(os.POSIX_SPAWN_DUP2, high[0], 3), (os.POSIX_SPAWN_DUP2, high[1], 4), (os.POSIX_SPAWN_DUP2, quiet, 1), (os.POSIX_SPAWN_DUP2, quiet, 2)]
        self.pid = os.posix_spawn(path, words, {**os.environ, "HOME": self.room}, file_actions=moves)
        for it in (theirs_in, theirs_out, quiet, *high):
            os.close(it)
        self.number, self.left = 0, b""
        self.told: list[dict[str, Any]] = []
        self.session: Optional[str] = None
        target = self.ask("Target.createTarget", url="about:blank")["targetId"]
        self.session = self.ask("Target.attachToTarget", targetId=target, flatten=True)["sessionId"]
        self.ask("Page.enable")
        self.ask("Runtime.enable")
        self.ask("Performance.enable", timeDomain="threadTicks")
        self.resize(width, height)

    def resize(self, width: int, height: int, scale: float = 1) -> None:
        """Gives the window a size; a picture of it has so many pixels for each."""
        self.ask("Emulation.setDeviceMetricsOverride", width=width, height=height, deviceScaleFactor=scale, mobile=False)

    def message(self) -> dict[str, Any]:
        """The next message."""
        while b"\0" not in self.left:
            more = os.read(self.ours_in, 1 << 20)
            if not more:
                raise Lost("the browser ended")
            self.left += more
        text, _, self.left = self.left.partition(b"\0")
        told: dict[str, Any] = json.loads(text)
        return told

    def ask(self, method: str, **params: Any) -> dict[str, Any]:
        """The answer to a command; events that come before it are kept."""
        self.number += 1
        said: dict[str, Any] = {"id": self.number, "method": method, "params": params}
        said |= {"sessionId": self.session} if self.session else {}
        text = json.dumps(said).encode() + b"\0"
        while text:
            text = text[os.write(self.ours_out, text):]
        while True:
            answer = self.message()
            if answer.get("id") == self.number:
                if "error" in answer:
                    raise Lost(f"{method}: {answer['error']['message']}")
                result: dict[str, Any] = answer["result"]
                return result
            self.told.append(answer)

    def wait_for(self, event: str) -> None:
        """Waits until the event came."""
        while not any(it.get("method") == event for it in self.told):
            self.told.append(self.message())
        self.told = []

    def open(self, url: str) -> None:
        """Opens a page, and waits until it is loaded."""
        self.told = []
        self.ask("Page.navigate", url=url)
        self.wait_for("Page.loadEventFired")

    def run(self, script: str) -> Any:
        """What a script of the page answers; a promise is waited for."""
        answer = self.ask("Runtime.evaluate", expression=script, awaitPromise=True, returnByValue=True)
        if "exceptionDetails" in answer:
            raise Lost(answer["exceptionDetails"].get("exception", {}).get("description", "a script failed"))
        return answer["result"].get("value")

    def worked(self) -> dict[str, float]:
        """How many milliseconds the page's thread has worked, by what it did."""
        metrics = self.ask("Performance.getMetrics")["metrics"]
        return {it["name"].removesuffix("Duration"): it["value"] * 1000 for it in metrics if it["name"].endswith("Duration")}

    def key(self, name: str, shift: bool = False, code: int = 0, text: str = "") -> None:
        """Presses a key."""
        said: dict[str, Any] = {"key": name, "code": name, "windowsVirtualKeyCode": code, "modifiers": 8 if shift else 0}
        self.ask("Input.dispatchKeyEvent", type="keyDown", **said, **({"text": text} if text else {}))
        self.ask("Input.dispatchKeyEvent", type="keyUp", **said)

    def choose_files(self, selector: str, paths: list[str]) -> None:
        """Chooses files for a field of the page."""
        node = self.run(f"document.querySelector({json.dumps(selector)})") or self.ask("DOM.getDocument")["root"]["nodeId"]
        found = self.ask("DOM.querySelector", nodeId=node, selector=selector)["nodeId"]
        self.ask("DOM.setFileInputFiles", nodeId=found, files=paths)

    def looks(self, scheme: str) -> None:
        """Lets the system wish for light or dark."""
        self.ask("Emulation.setEmulatedMedia", features=[{"name": "prefers-color-scheme", "value": scheme}])

    def picture(self, path: str, part: Optional[str] = None) -> None:
        """Keeps a picture of the window, or of the element that a query finds."""
        said: dict[str, Any] = {}
        if part is not None:
            place = self.run(f"(({{ x, y, width, height }}) => ({{ x: x + scrollX, y: y + scrollY, width, height }}))"
                             f"(document.querySelector({json.dumps(part)}).getBoundingClientRect())")  # fmt: skip
            said = {"clip": {**place, "scale": 1}, "captureBeyondViewport": True}
        data = self.ask("Page.captureScreenshot", format="png", **said)["data"]
        with open(path, "wb") as file:
            file.write(base64.b64decode(data))

    def close(self) -> None:
        """Ends the browser."""
        try:
            self.ask("Browser.close")
        except (Lost, OSError):
            pass
        os.close(self.ours_out)
        os.waitpid(self.pid, 0)
        os.close(self.ours_in)
        shutil.rmtree(self.room, ignore_errors=True)
