#!/usr/bin/env python3
"""Judges a trace from standard input as it comes, and ends at its first wrong entry, with status 1.

  examples/cosim/toy_simulator.py --lost-update | examples/cosim/judge_trace.py

The lines are those of `lockup check`; a log that is judged as it comes never has to be a file.
"""
import sys
from pathlib import Path

# the module as it is installed, or that of the repository or prefix above this folder
for folder in Path(__file__).resolve().parents:
    sys.path += [str(it) for it in (folder / "python", folder / "share/lockup/python") if (it / "lockup").is_dir()]

from lockup import Judge, Op  # noqa: E402

OPERANDS = {Op.LOAD: 0, Op.STORE: 1, Op.ADD: 1, Op.CAS: 2}


def judged(judge: Judge, words: "list[str]") -> bool:
    """Gives the judge an entry. Returns whether all is legal so far."""
    core, seq, tag, name, word, *rest = words
    op, numbers = Op[name.upper()], [int(it) for it in rest]
    operands, (reply, *since) = numbers[:OPERANDS[op]], numbers[OPERANDS[op]:]
    operand, replacement = (*operands, 0, 0)[:2]
    return bool(judge.add(int(core), int(seq), op, int(word), operand, replacement, reply, int(tag), *since))


def main() -> int:
    count, init, judge = 0, {}, None
    for line in sys.stdin:
        first, *words = line.split() or [""]
        if first == "init":
            init[int(words[0])] = int(words[1])
        elif first == "entry":
            judge = judge or Judge(init)
            if not judged(judge, words):
                print(f"illegal entry {count}: {judge.verdict.verdict.name.lower()}: {line.rstrip()}")
                return 1
            count += 1
    print(f"legal {count} entries")
    return 0


if __name__ == "__main__":
    sys.exit(main())
