"""Builds the testers: programs and unit tests over the product's crates that no proof is wanted of."""
import re
import shutil
from pathlib import Path
from typing import Iterator

from .compare import Different
from .processes import ROOT, alone, needs, run

FOLDER = ROOT / "tests/testers"
# programs that measure, of which it is tried only that they are built and start
BENCH = ROOT / "bench"
# how a unit test begins in its file
UNIT_TEST = re.compile(r"^#\[test\]\nfn (\w+)", re.M)


def tester(name: str, kind: str = "unproved") -> Path:
    """Returns the tester of this name and kind, as tools/unproved makes it. It is built where sources are newer, a program that
    tests in all kinds at once."""
    needs("rt")
    folder, kinds = folder_of(name), ["unproved"]
    if folder.parent == FOLDER and (folder / "main.rattle").is_file():
        kinds += ["checked", *["races"] * bool(shutil.which("cc"))]
    program = folder / "out" / kind / name
    with alone(name):
        if not program.is_file() or program.stat().st_mtime < newest(folder):
            ran = run([ROOT / "tools/unproved", *(f"--{it}" for it in kinds), name], timeout=None)
            if ran.status:
                raise Different(f"{name} isn't built:\n{ran.err}")
    return program


def folder_of(name: str) -> Path:
    return next(it for it in (FOLDER / name, BENCH / name) if it.is_dir())


def newest(folder: Path) -> float:
    """Returns when the last of a tester's sources was changed."""
    return max(it.stat().st_mtime for it in sources(folder))


def sources(folder: Path) -> Iterator[Path]:
    yield from (ROOT / "crates.txt", ROOT / "tools/native.py", folder / "uses")
    yield from folder.rglob("*.rattle")
    for crate in (ROOT / "crates").iterdir():
        yield from (crate / "src").rglob("*.rt")


def unit_tests() -> Iterator[str]:
    """Returns the names of all unit tests, as the program that has them knows them."""
    for path in sorted((FOLDER / "unit_tests").rglob("*.rattle")):
        for found in UNIT_TEST.finditer(path.read_text(encoding="utf-8")):
            yield f"{path.stem}::{found[1]}"


def expected(name: str) -> str:
    """Returns what a tester prints where all is well."""
    return (folder_of(name) / "stdout").read_text(encoding="utf-8")
