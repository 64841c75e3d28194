#!/usr/bin/env python3
"""Runs `rt ci` in the folder where it is called, and notes in a log what each call of the prover takes.

  tools/gate.py LOG     for ./test and bench/gate

LOG has a line a call: crate, kind (proof, tests, edit, compile, other), name of the edit, begin, end (seconds since the run
began), processor seconds, most memory in MB. A crate's edits share what they kept: the first proves it from nothing, and one
more call (edit '-') ends them. What the proof of a static library read is kept in its out/checked, from which tools/library
builds it.
"""
import os
import resource
import shutil
import subprocess
import sys
import tempfile
import threading
import time
from dataclasses import dataclass

sys.dont_write_bytecode = True
import kit

KINDS = ("proof", "tests", "edit", "compile", "other")
BEGAN = "GATE_BEGAN"


@dataclass
class Call:
    """A call of the prover."""

    crate: str
    kind: str
    edit: str
    began: float
    ended: float
    seconds: float
    memory: float


def calls_of(log):
    """Returns the calls that a log has."""
    with open(log, encoding="utf-8") as it:
        rows = [line.rstrip("\n").split("\t") for line in it]
    return [Call(*row[:3], *map(float, row[3:])) for row in rows]


def seconds_by_crate(calls):
    """Returns the processor seconds of each crate by kind, the dearest crate first."""
    found = {}
    for call in calls:
        found.setdefault(call.crate, dict.fromkeys(KINDS, 0.0))[call.kind] += call.seconds
    return dict(sorted(found.items(), key=lambda it: -sum(it[1].values())))


def run(log):
    """Runs `rt ci` with this file before each call of the prover. Returns its status."""
    rt = kit.load_rt()
    of_thread = threading.local()
    guarded, must_fail = rt.rtlib.guarded, rt.must_fail

    def measured():
        label = getattr(of_thread, "edit", "-")
        return [*guarded(), sys.executable, os.path.realpath(__file__), "--call", log, label]

    def labelled(crate, edit, *rest):
        of_thread.edit = os.path.basename(edit)
        try:
            return must_fail(crate, edit, *rest)
        finally:
            of_thread.edit = "-"

    rt.rtlib.guarded, rt.must_fail = measured, labelled
    os.environ[BEGAN] = str(time.time())
    with open(log, "w", encoding="utf-8"):
        return rt.main(["ci"])


def call(log, label, words):
    """Runs one call of the prover, as rt asked for it, and notes it. Returns its status."""
    began = time.time()
    crate = words[words.index("--crate-name") + 1] if "--crate-name" in words else "-"
    is_program = kind_of(words) == "compile" and words[words.index("--backend") + 1] == "llvm"
    status = compiled(crate, words) if is_program else subprocess.run([*words, *keeping(words)]).returncode
    used = resource.getrusage(resource.RUSAGE_CHILDREN)
    since = float(os.environ[BEGAN])
    row = [crate, kind_of(words), label, began - since, time.time() - since, used.ru_utime + used.ru_stime, used.ru_maxrss / 1024]
    with open(log, "a", encoding="utf-8") as it:
        it.write("\t".join(it if isinstance(it, str) else f"{it:.1f}" for it in row) + "\n")
    return status if status >= 0 else 128 - status


def keeping(words):
    """Returns the words by which the proof of a static library is kept, for other calls none."""
    if kind_of(words) != "proof" or "staticlib" not in words:
        return []
    shutil.rmtree(kit.CHECKED, ignore_errors=True)
    return ["-o", kit.CHECKED]


def compiled(crate, words):
    """Has LLVM compile a program that was proved, in the crate's folder, and keeps the module. Returns the status."""
    with tempfile.TemporaryDirectory(prefix="lockup-module-") as room:
        at = words.index("--toolchain") + 1
        words = [*words[:at], kit.toolchain(kit.load_rt(), room, kit.KEEPS_MODULE), *words[at + 1 :]]
        status = subprocess.run(words).returncode
        if not status:
            shutil.copyfile(f"{room}/module.bc", kit.module_of(f"out/{crate}"))
        return status


def kind_of(words):
    if os.path.basename(os.getcwd()).startswith("rt-edit-"):
        return "edit"
    if "--crate-checked" in words:
        return "compile"
    if "check" in words or "build" in words:
        return "tests" if "--test" in words else "proof"
    return "other"


def main(words):
    if words[:1] == ["--call"]:
        return call(words[1], words[2], words[3:])
    if len(words) != 1 or words[0].startswith("-"):
        print(__doc__, end="")
        return 0 if words == ["--help"] else 2
    return run(words[0])


if __name__ == "__main__":
    sys.exit(main(sys.argv[1:]))
