"""Finds the C library and what stands on it, and compiles programs over it.

LOCKUP_LIBRARY names another shared object to test, beside whose folder an archive may stand.
"""
import importlib
import os
import sys
import tempfile
from functools import cache
from pathlib import Path
from types import ModuleType

from .compare import Different, Skipped
from .processes import ROOT, alone, gate_ran, needs, run

INCLUDE = ROOT / "include"
# what examples/library/first.c prints, by hand: a GetM is taken, its data come, the add replies what was there, and then
# the load hits
FIRST_SAYS = "add: pending\nmoved: channel 0, line 0\nmoved: channel 2, line 0\nreply: 0\nload: done, 5\n"
PLAYER = Path(__file__).parent / "player.c"
WARNINGS = ["-std=c11", "-D_GNU_SOURCE", "-Wall", "-Wextra", "-Werror", "-O1"]


def folder() -> Path:
    asked = os.environ.get("LOCKUP_LIBRARY")
    return Path(asked).resolve().parent if asked else ROOT / "crates/lockup_c/out"


def built(name: str) -> Path:
    """Returns a file of the library. Where it isn't built the test is skipped, but after the gate it is built."""
    path = folder() / name
    with alone("library"):
        if not path.is_file() and not gate_ran():
            raise Skipped("the C library isn't built (tools/library builds it)")
        if not path.is_file():
            made = run([ROOT / "tools/library", "--after-gate"], timeout=None)
            if made.status:
                raise Different(f"tools/library ends with {made.status}:\n{(made.out + made.err)[-3000:]}")
    if not path.is_file():
        raise Different(f"tools/library makes no {path}")
    return path


def shared() -> Path:
    return built("liblockup.so")


def archive() -> Path:
    return built("liblockup.a")


@cache
def player() -> Path:
    """Returns the program that plays a script through the shared object, compiled once for all tests of a run."""
    needs("cc")
    library, made = shared(), Path(tempfile.gettempdir()) / "player"
    with alone("player"):
        if not made.exists():
            words = ["cc", *WARNINGS, f"-I{INCLUDE}", PLAYER, library, f"-Wl,-rpath,{library.parent}", "-lpthread"]
            ran = run([*words, "-o", f"{made}.new"])
            if ran.status:
                raise Different(f"{PLAYER.name} doesn't compile:\n{ran.err}")
            os.rename(f"{made}.new", made)
    return made


def module() -> ModuleType:
    """Returns the Python module over the shared object."""
    os.environ["LOCKUP_LIBRARY"] = str(shared())
    if str(ROOT / "python") not in sys.path:
        sys.path.insert(0, str(ROOT / "python"))
    return importlib.import_module("lockup")


def part_of(name: str) -> ModuleType:
    """Returns a part of the Python module."""
    module()
    return importlib.import_module(f"lockup.{name}")
