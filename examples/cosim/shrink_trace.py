#!/usr/bin/env python3
"""Asks the toy simulator with --lost-update, and leaves out accesses while its trace stays wrong. Prints the trace of those
that are left.

  examples/cosim/shrink_trace.py [SEED]
"""
import sys

from judge_trace import judged
from lockup import Judge
from lockup.shrink import shrink
from toy_simulator import HEAD, Access, Simulator, accesses


def trace_of(asked: "list[Access]") -> "list[str]":
    simulator = Simulator()
    return [row for it in asked for row in simulator.access(it)]


def is_wrong(asked: "list[Access]") -> bool:
    with Judge() as judge:
        return not all(judged(judge, row.split()[1:]) for row in trace_of(asked))


def main() -> int:
    asked = [*accesses(int(sys.argv[1]) if sys.argv[1:] else 1, 2000, True)]
    if not is_wrong(asked):
        print("no update is lost", file=sys.stderr)
        return 1
    left = shrink(asked, is_wrong)
    print(HEAD, *trace_of(left), sep="\n")
    print(f"{len(left)} of {len(asked)} accesses are left", file=sys.stderr)
    return 0


if __name__ == "__main__":
    sys.exit(main())
