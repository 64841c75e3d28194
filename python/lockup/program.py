"""Finds the program `lockup`, and runs it."""
import os
import shutil
import subprocess
import sys
from pathlib import Path
from typing import Iterator, NamedTuple, Optional, Sequence

from .errors import NoMemory, NoProgram, ProgramFailed

NAME = "lockup"
# what the program's exit status says: no error, an outcome that is forbidden or a round that has none, no memory
FINE, FORBIDDEN, NO_MEMORY = 0, 1, 3


class Said(NamedTuple):
    """What the program printed, without an error."""

    out: str
    err: str


def places() -> Iterator[Path]:
    """Returns where the program may stand: beside this package's shared object, in the repository, or in a prefix above it."""
    here = Path(__file__).resolve().parent
    yield here / NAME
    for folder in here.parents:
        yield folder / "crates/lockup/out" / NAME
        yield folder / "bin" / NAME


def is_built(path: Path) -> bool:
    """Whether the program itself stands there, and not pip's script that looks for it."""
    try:
        with open(path, "rb") as file:
            return file.read(4) == b"\x7fELF" and os.access(path, os.X_OK)
    except OSError:
        return False


def installed() -> Optional[str]:
    """Returns the path of the program that belongs to this package. LOCKUP_PROGRAM comes first."""
    asked = os.environ.get("LOCKUP_PROGRAM")
    if asked:
        return asked if os.access(asked, os.X_OK) and os.path.isfile(asked) else None
    return next((str(it) for it in places() if is_built(it)), None)


def no_program() -> NoProgram:
    asked = os.environ.get("LOCKUP_PROGRAM")
    if asked:
        return NoProgram(127, f"LOCKUP_PROGRAM is no program: {asked}")
    return NoProgram(127, "there is no program lockup: ./build makes it, `pip install` takes it along where it is built, and "
                          "LOCKUP_PROGRAM names another")


def found() -> str:
    """Returns the path of the program, by PATH where it doesn't belong to this package."""
    path = installed() or (None if os.environ.get("LOCKUP_PROGRAM") else shutil.which(NAME))
    if path is None:
        raise no_program()
    return path


def run(words: Sequence[str], text: Optional[bytes] = None) -> Said:
    """Runs the program with these words, and with the text as its standard input. An error of it is raised."""
    path = found()
    given = {"input": text} if text is not None else {"stdin": subprocess.DEVNULL}
    try:
        ran = subprocess.run([path, *words], stdout=subprocess.PIPE, stderr=subprocess.PIPE, check=False, **given)
    except OSError as error:
        raise NoProgram(126, f"{path} can't be started: {error.strerror}") from None
    out, err = (it.decode("utf-8", "surrogateescape") for it in (ran.stdout, ran.stderr))
    if ran.returncode == NO_MEMORY:
        raise NoMemory(NO_MEMORY, err.strip())
    if ran.returncode not in (FINE, FORBIDDEN) or not out:
        # hints on the command line follow an empty line
        said = err.partition("\n\n")[0].strip()
        raise ProgramFailed(ran.returncode, said or f"lockup ended with {ran.returncode}")
    return Said(out, err)


def version() -> str:
    """Returns the version of the program."""
    return run(["--version"]).out.split()[-1]


def main() -> int:
    """Runs the program in the place of this process, with the words of its command line."""
    path = installed()
    if path is None:
        print(no_program(), file=sys.stderr)
        return 127
    os.execv(path, [NAME, *sys.argv[1:]])
