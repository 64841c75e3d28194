"""Drives Firefox without a window, by WebDriver BiDi, the protocol that it has for tests: opens a file, presses keys and the
mouse, and evaluates expressions in the page, which see the names of its code."""
import base64
import json
import os
import shutil
import subprocess
import time
from pathlib import Path
from typing import Any

from .compare import Different
from .processes import read, write
from .web_socket import WebSocket
from .window import CTRL, SHIFT, Window

FLAGS = "--headless --no-remote --remote-debugging-port 0 --profile".split()
# it starts in a second of a processor, of which a machine that proves leaves it little
LONGEST = 180.0
# the keys that write nothing, as WebDriver names them
KEYS = {"Enter": "\ue007", "Escape": "\ue00c", "PageUp": "\ue00e", "PageDown": "\ue00f", "End": "\ue010", "Home": "\ue011",
        "ArrowLeft": "\ue012", "ArrowUp": "\ue013", "ArrowRight": "\ue014", "ArrowDown": "\ue015"}
HELD = {CTRL: "\ue009", SHIFT: "\ue008"}


class Firefox(Window):
    """Firefox with one page, to be used in a `with`."""

    PROGRAM = "firefox-esr"

    def launch(self) -> None:
        self.count, self.told, self.socket = 0, [], None
        profile = Path(self.room.name, "profile")
        profile.mkdir()
        # on a blank page the field for addresses has the focus, and then Enter presses no button of a page
        first = write(profile / "first.html", "<p>first")
        words = [shutil.which(self.PROGRAM), *FLAGS, profile, f"file://{first}"]
        # all that it keeps stands in the room, so that it needs no home that may be written
        places = {"HOME": self.room.name, "TMPDIR": self.room.name}
        self.process = subprocess.Popen(words, stdin=subprocess.DEVNULL, stdout=subprocess.DEVNULL, stderr=subprocess.DEVNULL,
                                        env={**os.environ, **places})
        self.socket = WebSocket(self.port(profile / "WebDriverBiDiServer.json"), "/session", LONGEST)
        self.call("session.new", capabilities={})
        self.call("session.subscribe", events=["log.entryAdded"])
        self.page = self.call("browsingContext.getTree")["contexts"][0]["context"]
        self.call("browsingContext.setViewport", context=self.page, viewport={"width": self.width, "height": self.height},
                  devicePixelRatio=1)
        self.wait("location.protocol === 'file:' && document.hasFocus()", LONGEST)

    def close(self) -> None:
        if self.socket:
            self.socket.close()
        super().close()

    def port(self, file: Path) -> int:
        """Returns the port at which it listens, once it has written which."""
        until = time.monotonic() + LONGEST
        while not (file.is_file() and read(file).endswith("}")):
            if self.process.poll() is not None:
                raise Different(f"{self.PROGRAM} ends with {self.process.returncode}")
            if time.monotonic() > until:
                raise Different(f"{self.PROGRAM} doesn't listen after {LONGEST} seconds")
            time.sleep(0.05)
        return json.loads(read(file))["ws_port"]

    def call(self, method: str, **parameters: Any) -> dict[str, Any]:
        """Calls a method of the protocol, and returns its result."""
        self.count += 1
        self.socket.send(json.dumps({"id": self.count, "method": method, "params": parameters}))
        while True:
            try:
                told = json.loads(self.socket.next())
            except TimeoutError:
                raise Different(f"{method}: {self.PROGRAM} doesn't answer") from None
            if told.get("id") != self.count:
                self.told.append(told)
            elif told["type"] == "error":
                raise Different(f"{method}: {told['message']}")
            else:
                return told["result"]

    def open(self, url: str) -> None:
        self.call("browsingContext.navigate", context=self.page, url=url, wait="interactive")

    def get(self, expression: str) -> Any:
        return self.evaluate(self.page, expression)

    def get_in_frame(self, expression: str) -> Any:
        page, = self.call("browsingContext.getTree", root=self.page)["contexts"]
        return self.evaluate(page["children"][0]["context"], expression)

    def evaluate(self, context: str, expression: str) -> Any:
        """Evaluates an expression in a page or a frame, and takes its value as JSON."""
        told = self.call("script.evaluate", expression=f"(async () => JSON.stringify(await ({expression})))()",
                         target={"context": context}, awaitPromise=True)
        if told["type"] == "exception":
            raise Different(f"{expression}: {told['exceptionDetails']['text']}")
        return json.loads(told["result"].get("value", "null"))

    def press_at(self, x: float, y: float) -> None:
        self.act("pointer", {"type": "pointerMove", "x": round(x), "y": round(y)}, {"type": "pointerDown", "button": 0},
                 {"type": "pointerUp", "button": 0})

    def key(self, name: str, held: int = 0) -> None:
        keys = [value for bit, value in HELD.items() if held & bit] + [KEYS.get(name, name)]
        self.act("key", *({"type": "keyDown", "value": it} for it in keys), *({"type": "keyUp", "value": it} for it in keys[::-1]))

    def type(self, text: str) -> None:
        keys = [KEYS["Enter"] if it == "\n" else it for it in text]
        self.act("key", *({"type": kind, "value": it} for it in keys for kind in ("keyDown", "keyUp")))

    def act(self, kind: str, *actions: dict[str, Any]) -> None:
        self.call("input.performActions", context=self.page, actions=[{"type": kind, "id": kind, "actions": actions}])

    def choose_file(self, selector: str, file: str) -> None:
        found = self.call("browsingContext.locateNodes", context=self.page, locator={"type": "css", "value": selector})
        self.call("input.setFiles", context=self.page, element={"sharedId": found["nodes"][0]["sharedId"]}, files=[file])

    def picture(self, file: str) -> None:
        Path(file).write_bytes(base64.b64decode(self.call("browsingContext.captureScreenshot", context=self.page)["data"]))

    def errors(self) -> list[str]:
        entries = [it["params"] for it in self.told if it.get("method") == "log.entryAdded"]
        return [it["text"] for it in entries if it["level"] == "error"]
