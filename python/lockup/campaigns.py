"""Walks litmus tests and runs sweeps by the program `lockup`, in shares: `rounds` and `rows` keep nothing between calls, and
what they take, return and raise can be pickled, so a pool of processes or of machines can map over them."""
import json
import os
import warnings
from dataclasses import dataclass
from enum import Enum
from typing import Dict, Iterable, List, Mapping, NamedTuple, Optional, Tuple, Union

from . import program
from .errors import NoOutcome, NotAdded
from .library import number

# a text, which has more than one line, or the path of its file
Text = Union[str, "os.PathLike[str]"]
Value = Union[int, str, Enum]
Stretch = Tuple[int, int]

# the columns of rows that aren't numbers
WORDS = ("program", "policy", "miss_file", "exclusive")


class Outcome(NamedTuple):
    """An outcome of a litmus test: its `values` by their names, a counter's as `[WORD]`; how many `rounds` had it; and the
    least `seed` of these."""

    values: Dict[str, int]
    rounds: int
    seed: int


@dataclass(frozen=True)
class Rounds:
    """What rounds of a litmus test came to. Shares of a walk are added up by `+` or `merge`, and the sum of all is equal to
    one walk of all their seeds; its text (`str`) is what `lockup walk` prints of it.

    >>> mp = "lockup-litmus 1\\nthread 0\\nstore 0 7\\nstore 8 1\\nthread 1\\nload 8 flag\\nload 0 data\\nforbid flag=1 data=0\\n"
    >>> rounds(mp, 1, 60) + rounds(mp, 61, 40) == rounds(mp, 1, 100)
    True
    """

    # in the order of their values
    outcomes: Tuple[Outcome, ...]
    # how many rounds had an outcome that the test forbids
    forbidden: int
    # the rounds that are counted, as the first seed and the number of rounds of each stretch without a gap
    stretches: Tuple[Stretch, ...]
    # the sum of the test's text, as in a part of `lockup walk --part`
    test: int
    limit: Optional[int]
    # the version of the program that walked
    version: str

    @property
    def seed(self) -> int:
        """The first seed."""
        return self.stretches[0][0]

    @property
    def rounds(self) -> int:
        """How many rounds are counted."""
        return sum(count for _, count in self.stretches)

    @property
    def missing(self) -> Tuple[Stretch, ...]:
        """The rounds between the first seed and the last that aren't counted."""
        ends = [seed + count for seed, count in self.stretches]
        return tuple((end, begin - end) for end, (begin, _) in zip(ends, self.stretches[1:]))

    @staticmethod
    def merge(parts: "Iterable[Rounds]") -> "Rounds":
        """Adds up shares of one walk, in any order. Raises NotAdded where they aren't, or where a seed is in two of them."""
        ordered = sorted(parts, key=lambda it: it.stretches)
        if not ordered:
            raise NotAdded(2, "there are no rounds to add")
        first = ordered[0]
        for it in ordered[1:]:
            refuse_other(first, it)
        stretches = joined(it for part in ordered for it in part.stretches)
        forbidden = sum(it.forbidden for it in ordered)
        return Rounds(summed(it.outcomes for it in ordered), forbidden, stretches, first.test, first.limit, first.version)

    def __add__(self, other: "Rounds") -> "Rounds":
        return Rounds.merge((self, other)) if isinstance(other, Rounds) else NotImplemented

    def __str__(self) -> str:
        rows = [f"{it.rounds:8} {' '.join(f'{name}={value}' for name, value in it.values.items())} seed {it.seed}\n"
                for it in self.outcomes]
        return "".join([*rows, f"forbidden {self.forbidden}\n"])


def refuse_other(first: Rounds, other: Rounds) -> None:
    """Raises NotAdded where these aren't rounds of one walk."""
    for field, said in (("test", "of another test"), ("limit", "walked with another limit"),
                        ("version", "walked by another version of lockup")):
        one, two = getattr(first, field), getattr(other, field)
        if one != two:
            raise NotAdded(2, f"the rounds of seed {other.seed} are {said} than those of seed {first.seed}: {two}, not {one}")


def joined(stretches: Iterable[Stretch]) -> Tuple[Stretch, ...]:
    """Returns stretches with those put together between which there is no gap. Raises NotAdded where two have a seed."""
    whole: List[Stretch] = []
    for seed, count in sorted(stretches):
        begin, before = whole[-1] if whole else (seed, 0)
        if seed < begin + before:
            raise NotAdded(2, f"seed {seed} is counted twice")
        if whole and seed == begin + before:
            whole[-1] = begin, before + count
        else:
            whole.append((seed, count))
    return tuple(whole)


def summed(parts: Iterable[Iterable[Outcome]]) -> Tuple[Outcome, ...]:
    """Returns the outcomes of all parts, each once, in the order of their values."""
    found: Dict[Tuple[int, ...], Outcome] = {}
    for part in parts:
        for it in part:
            key = tuple(it.values.values())
            had = found.get(key)
            found[key] = Outcome(it.values, had.rounds + it.rounds, min(had.seed, it.seed)) if had else it
    return tuple(found[key] for key in sorted(found))


def sum_of(text: bytes) -> int:
    """Returns the sum of a text by which parts know their test: its 64-bit FNV-1a hash."""
    found = 0xCBF29CE484222325
    for byte in text:
        found = (found ^ byte) * 0x100000001B3 % (1 << 64)
    return found


def is_text(given: Text) -> bool:
    return isinstance(given, str) and "\n" in given


def content_of(given: Text) -> bytes:
    """Returns a text, as bytes, or what its file has."""
    if is_text(given):
        return str(given).encode("utf-8", "surrogateescape")
    with open(given, "rb") as file:
        return file.read()


def rounds(test: Text, seed: int, rounds: int, *, limit: Optional[int] = None, jobs: Optional[int] = 1) -> Rounds:
    """Walks a litmus test on the random schedules of `rounds` seeds, from `seed` on.

    `test` is its text, or the path of its file: what has a line feed is a text. `limit` is how many moves a round may make.
    `jobs` is how many processors walk (None: all). Raises NoOutcome at the first round that is stuck or given up."""
    text, first, count = content_of(test), number(seed), number(rounds)
    # the last seed is a number too
    number(first + max(count, 1) - 1)
    words = ["walk", "-", "--json", "--seed", str(first), "--rounds", str(count)]
    words += ["--limit", str(number(limit))] if limit is not None else []
    words += ["--jobs", str(number(jobs))] if jobs is not None else []
    said = json.loads(program.run(words, text).out)
    for kind in ("stuck", "gave_up"):
        if f"{kind}_round" in said:
            moves = said.get("moves")
            raise NoOutcome(first + int(said[f"{kind}_round"]), None if moves is None else int(moves))
    names = [*said["names"], *(f"[{word}]" for word in said["counters"])]
    outcomes = tuple(Outcome(dict(zip(names, map(int, it["values"]))), int(it["rounds"]), int(it["seed"]))
                     for it in said["outcomes"])
    return Rounds(outcomes, int(said["forbidden"]), ((first, count),), sum_of(text), limit, program.version())


def word_of(value: Value) -> str:
    """Returns a value of a setting as texts have it."""
    if isinstance(value, bool):
        return "on" if value else "off"
    return value.name.lower() if isinstance(value, Enum) else str(value)


def words_of(settings: Mapping[str, Union[Value, Iterable[Value]]]) -> List[str]:
    words = []
    for name, values in settings.items():
        several = [values] if isinstance(values, (int, str, Enum)) else values
        words += ["--set", f"{name}={','.join(map(word_of, several))}"]
    return words


def rows(programs: Text, settings: Optional[Mapping[str, Union[Value, Iterable[Value]]]] = None,
         seeds: Union[int, range] = 1, *, outstanding: Optional[int] = None,
         pace: Optional[int] = None) -> "List[Dict[str, Union[int, str, None]]]":
    """Runs the programs of some cores once for each combination of settings and each seed, on all processors. Returns a row
    of each run, by the names of `lockup run --csv`; what isn't counted is None.

    `programs` is their text, or the path of its file: what has a line feed is a text. A setting has a value, or several:
    `{"ways": [1, 2], "policy": "random 7", "exclusive": True}`. `seeds` is one seed, or a range of them."""
    several = seeds if isinstance(seeds, range) else range(number(seeds), number(seeds) + 1)
    if several.step != 1:
        raise ValueError(f"seeds are one behind another, and not {several}")
    if not several:
        return []
    words = [*words_of(settings or {}), "--seeds", f"{number(several[0])}..{number(several[-1])}", "--json"]
    for name, value in (("--outstanding", outstanding), ("--pace", pace)):
        words += [name, str(number(value))] if value is not None else []
    text = content_of(programs) if is_text(programs) else None
    said = program.run(["run", *words, "--", "-" if text is not None else os.fspath(programs)], text)
    for line in said.err.splitlines():
        warnings.warn(line, stacklevel=2)
    return [{name: value if name in WORDS or value is None else int(value) for name, value in row.items()}
            for row in json.loads(said.out)]
