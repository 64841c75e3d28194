"""A browser's window with one page: what tests do in it, whichever browser it is. A browser says how it is launched and closed,
how an expression is evaluated in its page, and how keys and the mouse are pressed."""
import json
import subprocess
import tempfile
import time
from typing import Any

from .compare import Different
from .processes import needs

# what is held while a key is pressed
CTRL, SHIFT = 2, 8


class Window:
    """A browser with one page, to be used in a `with`."""

    PROGRAM: str
    process: subprocess.Popen | None = None

    def __init__(self, width: int = 1400, height: int = 900) -> None:
        needs(self.PROGRAM)
        self.width, self.height = width, height

    def __enter__(self) -> "Window":
        self.room = tempfile.TemporaryDirectory(ignore_cleanup_errors=True)
        try:
            self.launch()
        except BaseException:
            self.close()
            raise
        return self

    def __exit__(self, *_) -> None:
        self.close()

    def launch(self) -> None:
        """Starts the browser as `process`, which keeps its files in `room`, with a page of this size."""
        raise NotImplementedError

    def close(self) -> None:
        """Ends what `launch` has started, be it in part."""
        if self.process:
            self.process.kill()
            self.process.wait()
        self.room.cleanup()

    def open(self, url: str) -> None:
        raise NotImplementedError

    def get(self, expression: str) -> Any:
        """Evaluates an expression in the page, and waits where it is a promise."""
        raise NotImplementedError

    def get_in_frame(self, expression: str) -> Any:
        """Evaluates an expression in the page's frame."""
        raise NotImplementedError

    def press_at(self, x: float, y: float) -> None:
        """Presses the mouse at a place of the window."""
        raise NotImplementedError

    def key(self, name: str, held: int = 0) -> None:
        """Presses a key, while CTRL, SHIFT or both are held."""
        raise NotImplementedError

    def type(self, text: str) -> None:
        raise NotImplementedError

    def choose_file(self, selector: str, file: str) -> None:
        """Chooses a file in an input of the page."""
        raise NotImplementedError

    def picture(self, file: str) -> None:
        """Writes what is seen as a PNG."""
        raise NotImplementedError

    def errors(self) -> list[str]:
        """Returns what the page's console told as an error."""
        raise NotImplementedError

    def wait(self, expression: str, longest: float = 20.0) -> Any:
        """Waits until an expression is true, and returns it."""
        until = time.monotonic() + longest
        while True:
            value = self.get(expression)
            if value:
                return value
            if time.monotonic() > until:
                raise Different(f"never: {expression}")
            time.sleep(0.02)

    def click(self, selector: str) -> None:
        """Clicks the middle of an element with the mouse."""
        where = f"document.querySelector({json.dumps(selector)})"
        if not self.get(f"!!{where}"):
            raise Different(f"there is no {selector}")
        x, y, is_there = self.get(f"""(() => {{
            const it = {where};
            it.scrollIntoView({{ block: 'nearest' }});
            const {{ left, top, width, height }} = it.getBoundingClientRect();
            const [x, y] = [left + width / 2, top + height / 2];
            const met = document.elementFromPoint(x, y);
            return [x, y, !!met && (it === met || it.contains(met) || met.contains(it))];
        }})()""")
        if not is_there:
            raise Different(f"{selector} is behind something else at {x}, {y}")
        self.press_at(x, y)

    def click_in_frame(self, selector: str) -> None:
        """Clicks the middle of an element of the page's frame."""
        left, top = self.get("(({ left, top }) => [left, top])(document.querySelector('iframe').getBoundingClientRect())")
        x, y = self.get_in_frame(f"""(({{ left, top, width, height }}) => [left + width / 2, top + height / 2])(
            document.querySelector({json.dumps(selector)}).getBoundingClientRect())""")
        self.press_at(left + x, top + y)
