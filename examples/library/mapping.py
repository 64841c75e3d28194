#!/usr/bin/env python3
"""Bytes at addresses of 64 bits, over a machine with few lines of words.

  PYTHONPATH=python examples/library/mapping.py <ACCESSES     CORE load ADDRESS SIZE | CORE store ADDRESS SIZE VALUE

An address's line of 64 bytes is given a line of the machine when it is first asked for. Where all were given out, one that
no core holds is given away, and what it held is kept aside. Its block stays in the machine: each word of it differs from
what is meant by `shifts`, modulo 2^64, which loads, stores, adds and compare-exchanges all allow.
"""
import sys
from collections import deque
from typing import Deque, Dict

from lockup import Answer, DirectoryState, Machine, Op

MASK = (1 << 64) - 1


class Mapping:
    """Give the machine more lines than its caches hold, so that there is always one that no core holds."""

    def __init__(self, machine: Machine) -> None:
        self.machine = machine
        self.lines: Dict[int, int] = {}                           # lines of the machine, by address / 64
        self.asides: Dict[int, int] = {}                          # words without a line, by address / 8
        self.shifts = [[0] * 8 for _ in range(machine.config.lines)]
        self.turns: Deque[int] = deque(range(machine.config.lines))

    def line_of(self, tag: int) -> int:
        if tag not in self.lines:
            self.give(self.unheld(), tag)
        return self.lines[tag]

    def unheld(self) -> int:
        """Returns a line that no core holds, the one first that was given out longest ago."""
        for _ in range(len(self.turns)):
            self.turns.rotate(-1)
            line = self.turns[-1]
            if self.machine.directory(line).state == DirectoryState.I and not self.machine.messages(line):
                return line
        raise MemoryError("each line is held")

    def give(self, line: int, tag: int) -> None:
        """Gives a line to a tag, and puts aside what it held for another."""
        home, shifts = self.machine.directory(line).home, self.shifts[line]
        before = next((it for it, held in self.lines.items() if held == line), None)
        if before is not None:
            del self.lines[before]
            self.asides.update({8 * before + at: home[at] + shifts[at] & MASK for at in range(8)})
        self.shifts[line] = [self.asides.pop(8 * tag + at, 0) - home[at] & MASK for at in range(8)]
        self.lines[tag] = line

    def access(self, core: int, op: Op, address: int, operand: int = 0, replacement: int = 0) -> int:
        """Makes an access of the whole word at an address, and returns what the word had before (not of a store)."""
        line, at = self.line_of(address >> 6), address >> 3 & 7
        shift = self.shifts[line][at]
        meant = operand if op == Op.ADD else operand - shift & MASK
        issued = self.machine.issue(core, 0, op, 8 * line + at, meant, replacement - shift & MASK)
        reply = issued.reply
        if issued.answer == Answer.PENDING:
            self.machine.settle()
            reply = next(self.machine.replies(core, line % self.machine.config.slices)).reply
        return reply + shift & MASK

    def load(self, core: int, address: int, size: int) -> int:
        """Loads 1, 2, 4 or 8 bytes, at an address that they divide: a load, of which they are a part."""
        return self.access(core, Op.LOAD, address) >> 8 * (address % 8) & (1 << 8 * size) - 1

    def store(self, core: int, address: int, size: int, value: int) -> None:
        """Stores as many: a load, and a compare-exchange that leaves the other bytes as they are."""
        mask = (1 << 8 * size) - 1 << 8 * (address % 8)
        found, before = self.access(core, Op.LOAD, address), None
        while found != before:
            before = found
            after = before & ~mask | value << 8 * (address % 8) & mask
            found = self.access(core, Op.CAS, address, before, after)


def main() -> None:
    with Machine(cores=4, lines=64, sets=2, ways=2) as machine:
        mapping = Mapping(machine)
        for line in sys.stdin:
            core, op, *numbers = line.split()
            if op == "load":
                print(mapping.load(int(core), *map(int, numbers)))
            else:
                mapping.store(int(core), *map(int, numbers))


if __name__ == "__main__":
    main()
