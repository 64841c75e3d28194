"""The program as a browser has it: tools/browser builds its module and page once in a run of the tests, and node runs it. It
is the module of the proved program, where the gate or ./build has left one of these sources, and else the unproved program's."""
import json
import tempfile
from pathlib import Path
from typing import Iterable, Iterator, NamedTuple, Sequence

from .compare import Different, Skipped
from .processes import ROOT, Ran, alone, needs, run

TOOLS = ("opt-16", "llc-16", "clang-16", "wasm-ld-16", "wasm-opt", "node")
PARTS = ("tools/wasm.py", "tools/native.py", "browser/shim.c")
FOLDER = ROOT / "browser/out"
MODULE = FOLDER / "lockup.wasm"
PROVED = ROOT / "crates/lockup/out/lockup.bc"


class Call(NamedTuple):
    """A call of the program: its arguments and its standard input."""

    words: Sequence[str]
    text: str = ""


def folder() -> Path:
    """Returns the folder of lockup.wasm and lockup.html: the module, built where what it is made of is newer, and the page
    around it, put together once in a run of the tests."""
    needs(*TOOLS, "rt")
    with alone("browser"):
        is_proved = PROVED.is_file() and is_newer(PROVED, code())
        if not (MODULE.is_file() and is_newer(MODULE, [*tools(), PROVED] if is_proved else [*tools(), *code()])):
            build(*[] if is_proved else ["--unproved"])
        elif not put_together().exists():
            build("--page")
    return FOLDER


def is_newer(made: Path, sources: Iterable[Path]) -> bool:
    return made.stat().st_mtime > max(it.stat().st_mtime for it in sources)


def build(*how: str) -> None:
    failed = Path(tempfile.gettempdir()) / "browser.failed"
    # one that another test began and could not build isn't begun again
    if failed.exists():
        raise Skipped("tools/browser failed")
    ran = run(["nice", ROOT / "tools/browser", *how, "--to", FOLDER], timeout=None)
    if ran.status:
        failed.touch()
        raise Different(f"tools/browser fails:\n{ran.err}")
    put_together().touch()


def put_together() -> Path:
    """Returns the file that is there once this run of the tests has put the page together."""
    return Path(tempfile.gettempdir()) / "browser.page"


def tools() -> list[Path]:
    """Returns what compiles the module."""
    return [ROOT / it for it in PARTS]


def code() -> Iterator[Path]:
    """Returns what the program is made of."""
    yield ROOT / "crates.txt"
    for crate in (ROOT / "crates").iterdir():
        yield from (crate / "src").rglob("*.rt")


def asked(calls: Sequence[Call], *flags: str) -> list[Ran]:
    """Returns what comes of calls that one process of node, with these flags, runs one after another."""
    listed = [{"words": [latin(it) for it in call.words], "input": latin(call.text)} for call in calls]
    ran = run(["node", *flags, ROOT / "browser/many.mjs", folder() / "lockup.wasm"], json.dumps(listed))
    if ran.status:
        raise Different(f"node ends with {ran.status}:\n{ran.err[-2000:]}")
    return [Ran(it["status"], text(it["out"]), text(it["err"])) for it in json.loads(ran.out)]


def latin(it: str) -> str:
    """Returns a text with a character for each of its bytes."""
    return str(it).encode("utf-8", "surrogateescape").decode("latin1")


def text(it: str) -> str:
    return it.encode("latin1").decode("utf-8", "surrogateescape")
