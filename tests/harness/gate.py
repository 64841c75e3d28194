"""Runs the gate, `rt ci`: it proves every crate and its tests, tries the edits that are to be refused, and runs each
program."""
import os
import re
import resource
import shutil
import subprocess
import sys
import tempfile
import time
from pathlib import Path
from typing import NamedTuple

from .processes import ROOT

sys.path.insert(0, str(ROOT / "tools"))
from gate import Call, calls_of, seconds_by_crate

COUNTS = re.compile(r"(\d+) passed, (\d+) failed")
DEAREST = 10


class Counts(NamedTuple):
    passed: int
    failed: int


def counts_of(lines: list[str], status: int) -> Counts:
    """Returns how many passed and failed. A run that fails without saying so counts as one failure."""
    told = [found for line in lines if (found := COUNTS.fullmatch(line.rstrip("\n")))]
    passed, failed = map(int, told[-1].groups()) if told else (0, 0)
    return Counts(passed, 1 if status and not failed else failed)


def run_gate(log: Path | None) -> tuple[Counts, list[Call]]:
    """Runs the gate, printing what it prints and then how long it took. Returns how many passed and failed, and the calls
    of the prover, which are noted in the log."""
    if not shutil.which("rt"):
        sys.exit("test: 'rt' isn't on the PATH: the gate needs the Rattle toolchain. "
                 "'./test --cases' leaves the gate out")
    began, before = time.monotonic(), resource.getrusage(resource.RUSAGE_CHILDREN)
    lines = []
    with tempfile.TemporaryDirectory() as room:
        noted = log.resolve() if log else Path(room, "log")
        words = [sys.executable, ROOT / "tools/gate.py", noted]
        with subprocess.Popen(words, cwd=ROOT, stdout=subprocess.PIPE, stderr=subprocess.STDOUT) as gate:
            for raw in gate.stdout:
                os.write(sys.stdout.fileno(), raw)
                lines.append(raw.decode("utf-8", "replace"))
        calls = calls_of(noted) if noted.exists() else []
    after = resource.getrusage(resource.RUSAGE_CHILDREN)
    spent = after.ru_utime - before.ru_utime + after.ru_stime - before.ru_stime
    took = time.monotonic() - began
    print(f"the gate took {took / 60:.1f} minutes and {spent / 60:.1f} processor minutes", flush=True)
    return counts_of(lines, gate.returncode), calls


def show_dearest(calls: list[Call]) -> None:
    """Prints the crates whose proofs, edits and programs took the most processor seconds."""
    sums = {crate: sum(seconds.values()) for crate, seconds in seconds_by_crate(calls).items()}
    if sums:
        print("dearest, in processor seconds:", ", ".join(f"{it} {sums[it]:.0f}" for it in list(sums)[:DEAREST]))
