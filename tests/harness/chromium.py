"""Drives chromium without a window, by the pipe of its protocol for developers: opens a file, presses keys and the mouse, and
evaluates expressions in the page, which see the names of its code."""
import base64
import json
import os
import select
import shutil
import subprocess
import time
from typing import Any

from .compare import Different
from .window import Window

FLAGS = "--headless --no-sandbox --disable-gpu --disable-dev-shm-usage --no-first-run --remote-debugging-pipe".split()
LONGEST = 60.0
KEYS = {"Enter": 13, "Escape": 27, "PageUp": 33, "PageDown": 34, "End": 35, "Home": 36, "ArrowLeft": 37, "ArrowUp": 38,
        "ArrowRight": 39, "ArrowDown": 40}
# what a key writes, which a button that has the focus waits for
WRITES = {"Enter": "\r"}


class Chromium(Window):
    """Chromium with one page, to be used in a `with`."""

    PROGRAM = "chromium"

    def launch(self) -> None:
        self.count, self.session, self.rest = 0, None, b""
        self.events: list[dict[str, Any]] = []
        asked, self.write = os.pipe()
        self.read, told = os.pipe()
        words = [shutil.which(self.PROGRAM), *FLAGS, f"--window-size={self.width},{self.height}",
                 f"--user-data-dir={self.room.name}", "about:blank"]
        # the protocol is read at 3 and written at 4
        shell = ["bash", "-c", f'exec "$@" 3<&{asked} 4>&{told}', "bash", *words]
        self.process = subprocess.Popen(shell, pass_fds=(asked, told), stdin=subprocess.DEVNULL, stdout=subprocess.DEVNULL,
                                        stderr=subprocess.DEVNULL)
        os.close(asked)
        os.close(told)
        target = next(it for it in self.call("Target.getTargets")["targetInfos"] if it["type"] == "page")
        self.session = self.call("Target.attachToTarget", targetId=target["targetId"], flatten=True)["sessionId"]
        for it in ("Page", "Runtime", "Log"):
            self.call(f"{it}.enable")
        self.call("Emulation.setDeviceMetricsOverride", width=self.width, height=self.height, deviceScaleFactor=1, mobile=False)

    def close(self) -> None:
        os.close(self.write)
        os.close(self.read)
        super().close()

    def call(self, method: str, **parameters: Any) -> dict[str, Any]:
        """Calls a method of the protocol, and returns its result."""
        self.count += 1
        message = {"id": self.count, "method": method, "params": parameters}
        if self.session:
            message["sessionId"] = self.session
        raw = json.dumps(message).encode() + b"\0"
        while raw:
            raw = raw[os.write(self.write, raw):]
        until = time.monotonic() + LONGEST
        while True:
            told = self.next(until)
            if told.get("id") == self.count:
                if "error" in told:
                    raise Different(f"{method}: {told['error']['message']}")
                return told["result"]
            self.events.append(told)

    def next(self, until: float) -> dict[str, Any]:
        while b"\0" not in self.rest:
            ready, _, _ = select.select([self.read], [], [], max(0.0, until - time.monotonic()))
            more = os.read(self.read, 1 << 20) if ready else b""
            if not more:
                raise Different("chromium doesn't answer")
            self.rest += more
        one, _, self.rest = self.rest.partition(b"\0")
        return json.loads(one)

    def open(self, url: str) -> None:
        self.call("Page.navigate", url=url)

    def get(self, expression: str) -> Any:
        told = self.call("Runtime.evaluate", expression=expression, returnByValue=True, awaitPromise=True)
        if "exceptionDetails" in told:
            raise Different(f"{expression}: {told['exceptionDetails'].get('exception', {}).get('description')}")
        return told["result"].get("value")

    def collect(self) -> float:
        """Collects garbage, and returns how many bytes the page uses then."""
        self.call("HeapProfiler.collectGarbage")
        return self.call("Runtime.getHeapUsage")["usedSize"]

    def get_in_frame(self, expression: str) -> Any:
        # it may be a process of its own
        found = [it for it in self.call("Target.getTargets")["targetInfos"] if it["type"] == "iframe"]
        if not found:
            return self.in_context(expression)
        page = self.session
        try:
            self.session = self.call("Target.attachToTarget", targetId=found[0]["targetId"], flatten=True)["sessionId"]
            return self.get(expression)
        finally:
            self.session = page

    def in_context(self, expression: str) -> Any:
        contexts = [it["params"]["context"] for it in self.events if it.get("method") == "Runtime.executionContextCreated"]
        main = self.call("Page.getFrameTree")["frameTree"]["frame"]["id"]
        inner = [it["id"] for it in contexts if it["auxData"]["frameId"] != main and it["auxData"]["isDefault"]]
        told = self.call("Runtime.evaluate", expression=expression, returnByValue=True, contextId=inner[-1])
        return told["result"].get("value")

    def press_at(self, x: float, y: float) -> None:
        for kind in ("mousePressed", "mouseReleased"):
            self.call("Input.dispatchMouseEvent", type=kind, x=x, y=y, button="left", clickCount=1)

    def key(self, name: str, held: int = 0) -> None:
        code, written = KEYS.get(name, ord(name.upper()[0])), WRITES.get(name, "")
        for kind in ("keyDown" if written else "rawKeyDown", "keyUp"):
            text = {"text": written} if kind == "keyDown" else {}
            self.call("Input.dispatchKeyEvent", type=kind, key=name, windowsVirtualKeyCode=code, modifiers=held, **text)

    def type(self, text: str) -> None:
        self.call("Input.insertText", text=text)

    def choose_file(self, selector: str, file: str) -> None:
        root = self.call("DOM.getDocument")["root"]["nodeId"]
        node = self.call("DOM.querySelector", nodeId=root, selector=selector)["nodeId"]
        self.call("DOM.setFileInputFiles", nodeId=node, files=[file])

    def picture(self, file: str) -> None:
        with open(file, "wb") as it:
            it.write(base64.b64decode(self.call("Page.captureScreenshot", format="png")["data"]))

    def errors(self) -> list[str]:
        found = []
        for it in self.events:
            if it.get("method") == "Runtime.exceptionThrown":
                details = it["params"]["exceptionDetails"]
                found.append(details.get("exception", {}).get("description") or details["text"])
            if it.get("method") == "Log.entryAdded" and it["params"]["entry"]["level"] == "error":
                found.append(it["params"]["entry"]["text"])
        return found
