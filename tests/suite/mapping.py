"""The mappings of examples/library, which have bytes at addresses of 64 bits over a machine of 64 lines, in Python, C and
SystemVerilog: drawn loads and stores of four cores, of 1 to 8 bytes in 300 lines, read what a dictionary of bytes has."""
import os
import random
import sys
import tempfile
from typing import Callable

from harness import ROOT, Ran, each, needs, run, same, seconds, write
from harness.library import INCLUDE, archive, shared

FOLDER = ROOT / "examples/library"
CALLS = 6000


def drawn(seed: int) -> tuple[str, list[int]]:
    """Returns accesses, and what their loads read."""
    draw, held, rows, wanted = random.Random(seed), {}, [], []
    lines = [0, (1 << 58) - 1, *(draw.randrange(1 << 58) for _ in range(298))]
    for number in range(CALLS):
        size = 1 << draw.randrange(4)
        # most accesses are to a few lines for a while, so that some hit
        line = lines[draw.randrange(300) if number % 5 == 0 else (number // 50 * 7 + draw.randrange(6)) % 300]
        address = 64 * line + draw.randrange(64 // size) * size
        if draw.randrange(2):
            rows.append(f"{draw.randrange(4)} load {address} {size}")
            wanted.append(sum(held.get(address + it, 0) << 8 * it for it in range(size)))
        else:
            value = draw.randrange(1 << 8 * size)
            rows.append(f"{draw.randrange(4)} store {address} {size} {value}")
            held.update({address + it: value >> 8 * it & 255 for it in range(size)})
    return "".join(f"{row}\n" for row in rows), wanted


def in_python(room: str, accesses: str) -> Ran:
    environment = {**os.environ, "LOCKUP_LIBRARY": str(shared()), "PYTHONPATH": str(ROOT / "python")}
    return run([sys.executable, FOLDER / "mapping.py"], accesses, env=environment)


def in_c(room: str, accesses: str) -> Ran:
    needs("cc")
    words = ["cc", "-std=c99", "-Wall", "-Wextra", "-Wpedantic", "-Werror", FOLDER / "mapping.c", f"-I{INCLUDE}", archive()]
    same("the compiler", (0, "", ""), tuple(run([*words, "-o", f"{room}/mapping"])))
    return run([f"{room}/mapping"], accesses)


def in_systemverilog(room: str, accesses: str) -> Ran:
    shared()
    needs("verilator", "c++", "make")
    made = run(["verilator", "--binary", "--Mdir", room, "--top-module", "mapping", ROOT / "systemverilog/lockup_pkg.sv",
                FOLDER / "mapping.sv", shared(), "-LDFLAGS", f"-Wl,-rpath,{shared().parent}"])
    same("status of verilator", 0, made.status)
    ran = run([f"{room}/Vmapping", f"+accesses={write(f'{room}/accesses.txt', accesses)}"])
    return ran._replace(out="".join(it for it in ran.out.splitlines(True) if not it.startswith("- ")))


@seconds(20)
@each(lambda: [(it.__name__, it) for it in (in_python, in_c, in_systemverilog)])
def test_bytes(_: str, mapped: Callable[[str, str], Ran]) -> None:
    accesses, wanted = drawn(1)
    with tempfile.TemporaryDirectory() as room:
        same("output", (0, "".join(f"{it}\n" for it in wanted), ""), tuple(mapped(room, accesses)))
