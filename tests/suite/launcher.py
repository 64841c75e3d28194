"""What ./lockup does, the script that runs the program, with programs of its own in place of the
proved and the unproved one: which of them it runs, what it says on standard error, and that
arguments, folder, input, output and status are theirs."""
import os
import shutil
import tempfile
import time
from contextlib import contextmanager
from pathlib import Path
from typing import Iterator

from harness import ROOT, Ran, run, same, write

# a program that says who it is, where it is, what it was given and what it read
FAKE = """#!/bin/sh
[ "$*" = --version ] && { echo "lockup 9.9.9"; exit 0; }
echo "%s in $PWD: $# $*"
cat
exit 7
"""


class Tree:
    """A tree with the script and one source, and a folder elsewhere with a link to the script."""

    def __init__(self, room: str) -> None:
        self.top, self.elsewhere = Path(room, "the top"), Path(room, "else where")
        self.elsewhere.mkdir()
        self.source = self.put("crates/lockup/src/main.rt", "")
        self.put("crates.txt", "lockup:\n")
        shutil.copy(ROOT / "lockup", self.top)
        (self.elsewhere / "lockup").symlink_to(self.top / "lockup")

    def put(self, name: str, text: str) -> Path:
        path = self.top / name
        path.parent.mkdir(parents=True, exist_ok=True)
        write(path, text).chmod(0o755)
        return path

    def put_programs(self, *names: str) -> None:
        """Puts the programs of these names, each newer than the source."""
        places = {"proved": "crates/lockup/out/lockup", "unproved": "crates/lockup/out/unproved/lockup"}
        for name in names:
            path = self.put(places[name], FAKE % name)
            time.sleep(0.02)
            os.utime(path)

    def lockup(self, *words: str, by_link: bool = False) -> Ran:
        """Runs the script from elsewhere, by its path or by a link on the PATH."""
        path = f"{self.elsewhere}:/usr/bin:/bin" if by_link else os.environ["PATH"]
        script = "lockup" if by_link else self.top / "lockup"
        return run(["env", f"PATH={path}", script, *words], "a line\n", cwd=self.elsewhere)

    def answer_of(self, name: str) -> str:
        return f"{name} in {self.elsewhere}: 2 script a b\na line\n"


@contextmanager
def tree(*programs: str) -> Iterator[Tree]:
    with tempfile.TemporaryDirectory(prefix="lock up ") as room:
        made = Tree(room)
        made.put_programs(*programs)
        yield made


def test_nothing_is_built() -> None:
    """.. and there is no toolchain."""
    with tree() as it:
        ran = run(["env", "PATH=/usr/bin:/bin", it.top / "lockup", "script"], "a line\n", cwd=it.elsewhere)
        same("status, output and lines of error", (2, "", 1), (ran.status, ran.out, ran.err.count("\n")))


def test_unproved() -> None:
    with tree("unproved") as it:
        ran = it.lockup("script", "a b")
        same("status and output", (7, it.answer_of("unproved")), (ran.status, ran.out))
        told = (ran.err.count("\n"), "./build" in ran.err, "isn't proved" in ran.err)
        same("one line says so", (1, True, True), told)
        same("version", "lockup 9.9.9 (not proved)\n", it.lockup("--version").out)


def test_proved() -> None:
    with tree("unproved", "proved") as it:
        wanted = Ran(7, it.answer_of("proved"), "")
        same("by its path", wanted, it.lockup("script", "a b"))
        same("by a link on the PATH", wanted, it.lockup("script", "a b", by_link=True))
        same("version", "lockup 9.9.9\n", it.lockup("--version").out)


def test_a_source_is_newer() -> None:
    """It is told, and nothing is built."""
    with tree("unproved", "proved") as it:
        os.utime(it.source, (time.time() + 60, time.time() + 60))
        ran = it.lockup("script", "a b", by_link=True)
        same("status and output", (7, it.answer_of("proved")), (ran.status, ran.out))
        same("one line says so", (1, True), (ran.err.count("\n"), "newer" in ran.err))
