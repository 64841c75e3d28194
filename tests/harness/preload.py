"""Builds the C libraries that are preloaded into a program to refuse or count what it asks of the
system.

Each stands beside this file, and its head says what it does and which variables of the environment
tell it.
"""
import os
import tempfile
from functools import cache
from itertools import count
from pathlib import Path
from typing import Iterator, Sequence

from .compare import Different
from .processes import Ran, alone, needs, read, run

HERE = Path(__file__).parent


@cache
def built(name: str) -> Path:
    """Returns the library, which is built once for all tests of a run."""
    needs("cc")
    library = Path(tempfile.gettempdir()) / f"{name}.so"
    with alone(name):
        if not library.exists():
            made = run(["cc", "-O1", "-fPIC", "-shared", "-o", f"{library}.new", HERE / f"{name}.c", "-ldl"])
            if made.status:
                raise Different(f"{name}.c doesn't compile:\n{made.err}")
            os.rename(f"{library}.new", library)
    return library


def each_refused(words: Sequence[str | Path], text: str | None = None) -> Iterator[tuple[int, Ran]]:
    """Runs a program with ample memory, and then with each of its allocations refused in turn,
    until it makes fewer. Returns which was refused, 0 for none, and what came of it."""
    with tempfile.TemporaryDirectory() as room:
        told = f"{room}/told"
        for number in count():
            ran = run(words, text, env=preloaded("refused_allocation", REFUSED=number, TOLD=told))
            if number and "refused\n" not in read(told):
                return
            yield number, ran


def preloaded(name: str, **variables: object) -> dict[str, str]:
    """Returns an environment with the library, and these variables for it."""
    told = {key: str(value) for key, value in variables.items()}
    return {**os.environ, "LD_PRELOAD": str(built(name)), **told}
