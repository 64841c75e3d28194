#!/usr/bin/env python3
"""A toy simulator: cores that load, store and add at random, each access printed as it is performed.

  toy_simulator.py [--lost-update] [--count N] [--seed N]

With --lost-update an add now and then reads its word before another core's access and writes it after.
"""
import argparse
import random
from typing import Iterator, NamedTuple, Optional

CORES, WORDS = 4, 4
MASK = (1 << 64) - 1
HEAD = "lockup-trace no-since"


class Access(NamedTuple):
    """An access of a core, and what an add lets in between its load and its store."""

    core: int
    kind: str
    word: int
    value: int
    lets_in: "Optional[Access]" = None


def drawn(draw: random.Random, core: int, word: int, loses: bool) -> Access:
    kind, value = draw.choice(("load", "store", "add")), draw.randrange(1, 100)
    lets_in = loses and kind == "add" and draw.randrange(200) == 0
    return Access(core, kind, word, value, drawn(draw, (core + 1) % CORES, word, loses) if lets_in else None)


def accesses(seed: int, count: int, loses: bool) -> Iterator[Access]:
    draw = random.Random(seed)
    return (drawn(draw, draw.randrange(CORES), draw.randrange(WORDS), loses) for _ in range(count))


class Simulator:
    """A memory, and how many accesses each core has made."""

    def __init__(self) -> None:
        self.memory, self.made = [0] * WORDS, [0] * CORES

    def access(self, it: Access) -> Iterator[str]:
        """Performs an access. Returns its entry of a trace, after those of what it lets in."""
        before = self.memory[it.word]
        if it.lets_in:
            yield from self.access(it.lets_in)
        after = {"load": before, "store": it.value, "add": (before + it.value) & MASK}[it.kind]
        operand = [] if it.kind == "load" else [it.value]
        self.memory[it.word] = after
        yield " ".join(map(str, ["entry", it.core, self.made[it.core], 0, it.kind, it.word, *operand,
                                 0 if it.kind == "store" else before]))
        self.made[it.core] += 1


def main() -> None:
    parser = argparse.ArgumentParser()
    parser.add_argument("--lost-update", action="store_true")
    parser.add_argument("--count", type=int, default=2000)
    parser.add_argument("--seed", type=int, default=1)
    options = parser.parse_args()
    simulator = Simulator()
    print(HEAD)
    for it in accesses(options.seed, options.count, options.lost_update):
        for row in simulator.access(it):
            print(row, flush=True)


if __name__ == "__main__":
    main()
