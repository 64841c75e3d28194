#!/usr/bin/env python3
"""Counts the misses of one core against the ways of its cache, under each policy, and draws them.

  PYTHONPATH=python examples/library/misses_against_ways.py [--plot FILE]

The core reads lines at random, few of them often (Zipf), each once it has the one before. With --plot, and matplotlib,
FILE gets a plot; else a row of bars stands for each.
"""
import argparse
import random

from lockup import Machine, Policy

LINES, ACCESSES = 256, 2000
WAYS = (1, 2, 4, 8, 16)


def misses(ways: int, policy: Policy) -> int:
    """Returns how many of the accesses miss in 4 sets of so many ways."""
    draw = random.Random(1)
    weights = [1 / (place + 1) for place in range(LINES)]
    with Machine(cores=1, lines=LINES, sets=4, ways=ways, policy=policy) as machine:
        for line in draw.choices(range(LINES), weights, k=ACCESSES):
            machine.load(0, tag=0, word=8 * line)
            # a hit is done at once; of a miss the messages are delivered, and those of its victim
            machine.settle()
            machine.hand(0)
        return machine.counts(0).primary


def plot(found: "dict[Policy, list[int]]", file: str) -> None:
    from matplotlib import pyplot

    for policy, counts in found.items():
        pyplot.plot(WAYS, counts, marker="o", label=policy.name)
    pyplot.xlabel("ways")
    pyplot.ylabel(f"misses of {ACCESSES} loads")
    pyplot.legend()
    pyplot.savefig(file)


def main() -> None:
    parser = argparse.ArgumentParser(description=__doc__.split("\n")[0])
    parser.add_argument("--plot", metavar="FILE")
    options = parser.parse_args()
    found = {policy: [misses(ways, policy) for ways in WAYS] for policy in Policy}
    for policy, counts in found.items():
        print(policy.name)
        for ways, count in zip(WAYS, counts):
            print(f"{ways:5} ways {count:6} {'#' * (count * 50 // ACCESSES)}")
    if options.plot:
        plot(found, options.plot)


if __name__ == "__main__":
    main()
