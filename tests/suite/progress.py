"""Watches a long run as somebody at a terminal does: standard error is a pseudo-terminal, which is
told how far it is.

After rounds 1, 2, 5, 10, 20, 50, 100, 200 and each 500 but the last stands how many of them are done,
on one line, after each 65,536 moves of programs how many of their steps are taken, and after the rows
that are written together, but the last, how many rows are. Where nobody watches nothing is said.
"""
import re
import subprocess
import tempfile

from harness import each, lockup, program, same, want, write
from harness.terminals import shown_at_terminal

TEST = "lockup-litmus 1\nrounds 1500\nthread 0\nload 0 a\nforbid a=1\n"
TOLD = b"".join(b"%d of 1500 rounds\r" % done for done in (1, 2, 5, 10, 20, 50, 100, 200, 500, 1000))


def watched(*words: str) -> tuple[int, bytes]:
    """Returns the status of a run, and what a terminal is told."""
    told, status = shown_at_terminal([program(), *words], stdout=subprocess.DEVNULL)
    return status, told


@each(lambda: ["walk", "litmus"])
def test_rounds(verb: str) -> None:
    with tempfile.TemporaryDirectory() as room:
        test = str(write(f"{room}/test", TEST))
        same("watched", (0, TOLD), watched(verb, test))
        alone = lockup(verb, test)
        same("unwatched", (0, ""), (alone.status, alone.err))


def test_steps() -> None:
    """One core loads one word: the miss takes three moves, and each hit one."""
    with tempfile.TemporaryDirectory() as room:
        text = str(write(f"{room}/text", "core 0\nrepeat 200000\nload 0\nend\n"))
        status, told = watched("run", text)
        moves = (65536, 2 * 65536, 3 * 65536)
        same("watched", (0, b"".join(b"%d of 200000 steps\r" % (count - 2) for count in moves)), (status, told))
        alone = lockup("run", text)
        same("unwatched", (0, ""), (alone.status, alone.err))


def test_rows() -> None:
    with tempfile.TemporaryDirectory() as room:
        text = str(write(f"{room}/text", "core 0\nload 0\n"))
        words = ("run", text, "--seeds", "1..2000", "--csv")
        status, told = watched(*words)
        done = [int(count) for count in re.findall(rb"(\d+) of 2000 rows\r", told)]
        same("status", 0, status)
        same("told", b"".join(b"%d of 2000 rows\r" % count for count in done), told)
        want(done, "nothing is told")
        same("ascending, below all", sorted(set(done) & set(range(1, 2000))), done)
        alone = lockup(*words)
        same("unwatched", (0, ""), (alone.status, alone.err))
