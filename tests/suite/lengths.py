"""Runs what should matter to nothing: how long a text is, how great a number, and which shape a
machine has.

Texts past 64 MiB, waves past 64 KiB, and a trace whose numbers lie beside
all powers of two. And at the prompt, where each line that configures has a machine made anew, each
number of miss registers with each of targets, each shape of an array, and each other number of a
few.
"""
import tempfile
from pathlib import Path

from harness import Ran, lockup, same, seconds, want

MIB = 1 << 20
LONG = (b"#" * MIB + b"\n") * 65
NUMBERS = sorted({2**bit + more for bit in range(64) for more in (-1, 0, 1)} | {2**64 - 1})


def ran_on(text: bytes, *words: str) -> Ran:
    with tempfile.TemporaryDirectory() as room:
        Path(room, "text").write_bytes(text)
        return lockup(*words, f"{room}/text")


def judge(ran: Ran, wanted: str) -> None:
    same("status and error", (0, ""), (ran.status, ran.err[:200]))
    want(ran.out == wanted, f"it prints {len(ran.out)} bytes for {len(wanted)}, and at the end {ran.out[-100:]!r}")


@seconds(5)
def test_a_long_text() -> None:
    judge(ran_on(LONG + b"word 0", "script"), "0\n")


@seconds(5)
def test_a_long_trace() -> None:
    trace = b"lockup-trace 1\nentry 0 0 0 load 0 0 0\n"
    judge(ran_on(LONG + trace, "check"), "legal 1 entries\n")


def test_numbers_beside_all_powers_of_two() -> None:
    entries = b"".join(b"entry 0 %d 0 load 0 0 0\n" % number for number in NUMBERS)
    judge(ran_on(b"lockup-trace 2\n" + entries, "check"), f"legal {len(NUMBERS)} entries\n")


def test_long_waves() -> None:
    line = b"evict 0 0\n"
    count = MIB // 8 // len(line)
    ran = ran_on(line * count, "script", "--vcd")
    same("status and error", (0, ""), (ran.status, ran.err[:200]))
    want(ran.out.endswith(f"#{count + 1}\n") and len(ran.out) >= MIB // 8, f"{len(ran.out)} bytes: {ran.out[-100:]!r}")


def shapes() -> list[str]:
    """Returns lines that configure, each of them allowed after those before it."""
    rows = []
    for registers in range(1, 33):
        rows += [f"mshrs {registers}", *(f"targets {targets}" for targets in range(1, 33))]
    for sets in range(9):
        rows += [f"sets {1 << sets}", *(f"ways {ways}" for ways in range(1, 17))]
    rows += [f"writebacks {entries}" for entries in range(1, 17)]
    rows += [f"cores {cores}" for cores in range(1, 65)]
    return rows + ["misses inverted", "misses explicit", "slices 1", "slices 2", "slices 4"]


@seconds(10)
def test_shapes() -> None:
    asked = "".join(f"{row}\n" for row in shapes())
    same("status, answers and error", (0, "", ""), tuple(lockup("try", text=asked)))
