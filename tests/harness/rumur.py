"""Has Rumur search a model of the protocol."""
import os
import platform
import tempfile
from typing import NamedTuple

from .processes import needs, run, write


class Search(NamedTuple):
    """What came of a search: its status, and what the verifier says. A model that doesn't compile
    isn't searched."""

    status: int
    said: str


def searched(model: str, trace: bool) -> Search:
    """Searches a model, printing the way to an error where that is asked for."""
    compiler = os.environ.get("CC", "cc")
    needs("rumur", compiler)
    flags = ["-O0", "-w"] + (["-mcx16"] if platform.machine() == "x86_64" else [])
    quiet = [] if trace else ["--quiet", "--counterexample-trace", "off"]
    with tempfile.TemporaryDirectory() as room:
        write(f"{room}/model.m", model)
        for words in (["rumur", *quiet, "--output", f"{room}/model.c", f"{room}/model.m"],
                      [compiler, *flags, "-o", f"{room}/model", f"{room}/model.c", "-lpthread"],
                      [f"{room}/model"]):
            ran = run(words)
            if ran.status:
                break
    return Search(ran.status, ran.out + ran.err)
