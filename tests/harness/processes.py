"""Runs the program under test, and others, and keeps what they print.

A text is a string with every byte of it: bytes that aren't UTF-8 are surrogates, as `os.fsencode`
has them.
"""
import fcntl
import os
import shutil
import subprocess
import tempfile
from contextlib import contextmanager
from functools import cache
from pathlib import Path
from typing import IO, Iterator, NamedTuple, Sequence

from .compare import Different, Skipped

ROOT = Path(__file__).resolve().parents[2]
BUILT = ROOT / "crates/lockup/out/lockup"
# a program that waits for what never comes fails its test, and doesn't stop the others
LONGEST = 900

_under_test = BUILT
_after_gate = False


class Ran(NamedTuple):
    """What a run came to."""

    status: int
    out: str
    err: str


def text_of(raw: bytes) -> str:
    return raw.decode("utf-8", "surrogateescape")


def bytes_of(text: str) -> bytes:
    return text.encode("utf-8", "surrogateescape")


def read(path: Path | str) -> str:
    return text_of(Path(path).read_bytes())


def write(path: Path | str, text: str) -> Path:
    Path(path).write_bytes(bytes_of(text))
    return Path(path)


def program() -> Path:
    """Returns the program under test."""
    return _under_test


def use(path: Path, after_gate: bool) -> None:
    """Makes this the program under test, and says whether the gate has run."""
    global _under_test, _after_gate
    _under_test, _after_gate = path, after_gate


def gate_ran() -> bool:
    return _after_gate


def run(words: Sequence[str | Path], text: str | IO | None = None, **how) -> Ran:
    """Runs a program at the top of the repository. `text` is its standard input, or a file that is;
    without it there is none."""
    how = {"cwd": ROOT, "stdout": subprocess.PIPE, "stderr": subprocess.PIPE, "timeout": LONGEST, **how}
    if isinstance(text, str):
        how["input"] = bytes_of(text)
    else:
        how["stdin"] = text or subprocess.DEVNULL
    try:
        ran = subprocess.run(words, **how)
    except subprocess.TimeoutExpired as expired:
        raise Different(f"{shown(words)} doesn't end in {expired.timeout} seconds") from None
    return Ran(ran.returncode, text_of(ran.stdout or b""), text_of(ran.stderr or b""))


def lockup(*words: str | Path, text: str | IO | None = None, **how) -> Ran:
    """Runs the program under test."""
    return run([program(), *words], text, **how)


def shown(words: Sequence[str | Path]) -> str:
    return " ".join(map(str, words))[:200]


def needs(*names: str) -> None:
    """Skips the test where one of these programs isn't on the PATH."""
    for name in names:
        if not shutil.which(name):
            raise Skipped(f"'{name}' isn't on the PATH")


@cache
def is_sanitized(path: Path) -> bool:
    return b"__asan_init" in path.read_bytes()


def is_plain() -> None:
    """Skips the test where the program under test has AddressSanitizer, which takes memory and
    functions of its own."""
    if is_sanitized(program()):
        raise Skipped("the program is built with AddressSanitizer")


@contextmanager
def alone(name: str) -> Iterator[None]:
    """Holds a lock of this name against the other processes of the run."""
    with open(Path(tempfile.gettempdir()) / f"{name}.lock", "w", encoding="utf-8") as lock:
        fcntl.flock(lock, fcntl.LOCK_EX)
        yield
