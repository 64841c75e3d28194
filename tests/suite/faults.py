"""Spoils each word of each kind of line, in every way and two at a time: the program reports the
error that comes first, a word that makes it no such line, then a number that is none, then a line
that may not stand there, then a number past what there is. Each text has the invalid line as its
last."""
import tempfile
from dataclasses import dataclass
from typing import Iterator

from harness import each, lockup, same, seconds, write

REASONS = ("not a command", "bad number", "configuration after a command", "out of range")
MALFORMED, NO_NUMBER, MISPLACED, PAST_THE_LAST, NOTHING = range(5)
GREATEST = 18446744073709551615
NO_NUMBERS = [(NO_NUMBER, it) for it in ("x", "-1", "+1", "0x1", "18446744073709551616", "000000000000000000001")]
NO_NAMES = [(MALFORMED, it) for it in ("A", "1a", "a-b", "abcdefghijklmnopq", "a=1")]


@dataclass
class Kind:
    """A kind of line: the lines before it, how it is run, whether it may not stand there, and its
    fields, which are KEYWORD, or SORT:WORD, where WORD is right and SORT says what spoils it."""

    subcommand: str
    before: list[str]
    misplaced: bool
    fields: list[str]

    @property
    def name(self) -> str:
        behind = f" behind {'; '.join(self.before)}" if self.before else ""
        return f"{self.subcommand}: {' '.join(self.fields)}{behind}"


def spoiled_of(field: str) -> list[tuple[int, str]]:
    """Returns the words that spoil a field, each with the error that it makes."""
    sort, _, _ = field.partition(":")
    if ":" not in field:
        return [(MALFORMED, f"{field}s"), (MALFORMED, field[0].upper() + field[1:])]
    if sort.startswith("below"):
        return NO_NUMBERS + [(PAST_THE_LAST, sort.removeprefix("below")), (PAST_THE_LAST, str(GREATEST))]
    if sort.startswith("upto"):
        # a number that may not be 0
        most = int(sort.removeprefix("upto"))
        return NO_NUMBERS + [(PAST_THE_LAST, it) for it in ("0", str(most + 1), str(GREATEST))]
    # a tag of a script is a byte
    tags = [(NO_NUMBER, "256"), (NO_NUMBER, str(GREATEST))]
    return {"tag": NO_NUMBERS + tags, "number": NO_NUMBERS, "name": NO_NAMES}[sort]


class Spoiler:
    """Spoils a kind of line, and returns each line with the error that is wanted."""

    def __init__(self, kind: Kind) -> None:
        self.misplaced = kind.misplaced
        self.words = [field.rpartition(":")[2] for field in kind.fields]
        self.spoiled = [spoiled_of(field) for field in kind.fields]

    def spoil(self, line: list[str], start: int, first: int, beside: bool) -> Iterator[tuple[list[str], int]]:
        """Spoils the words from one on, where `first` is the first error so far: each in every way,
        and then another beside it, or in one way for each error where it is the one beside."""
        for place in range(start, len(line)):
            seen = None
            for error, word in self.spoiled[place]:
                if beside and error == seen:
                    continue
                comes = min(first, error)
                changed = [*line[:place], word, *line[place + 1:]]
                yield changed, min(comes, MISPLACED) if self.misplaced else comes
                if error != seen and not beside:
                    yield from self.spoil(changed, place + 1, comes, True)
                seen = error

    def lines(self) -> Iterator[tuple[list[str], int]]:
        yield from self.spoil(self.words, 0, NOTHING, False)
        # a word too many, and one too few, come before all errors of numbers
        yield [*self.words, "0"], MALFORMED
        if len(self.words) > 1:
            yield self.words[:-1], MALFORMED
        if len(self.words) > 2:
            yield [self.words[0], "x", *self.words[2:-1]], MALFORMED


SCRIPT_COMMANDS = """
issue below2:1 tag:63 load number:0
issue below2:1 tag:63 store number:0 number:1
issue below2:1 tag:63 add number:0 number:1
issue below2:1 tag:63 cas number:0 number:1 number:2
evict below2:1 below16:15
deliver req below16:15 below2:1
deliver fwd below16:15 below2:1
deliver data below16:15 below2:1
deliver ack below16:15 below2:1 below2:0
deliver home below16:15
hand below2:1 below1:0
word below128:127
state below16:15
log below1:0
stats
waiting
show
pump number:1
"""
# the lines that configure a machine, which have no ranges of their own
COUNTS = "cores slices lines sets ways mshrs targets writebacks".split()
CONFIGURATION = "".join(f"{it} number:1\n" for it in COUNTS) + """
policy lru
policy fifo
policy random number:1
init number:0 number:1
counter number:0
misses explicit
misses inverted
exclusive on
exclusive off
"""
TRACES = """
entry belowCORES:1 number:0 below64:63 load below524288:0 number:0 number:0
entry belowCORES:1 number:0 below64:63 store below524288:0 number:1 number:0 number:0
entry belowCORES:1 number:0 below64:63 add below524288:0 number:1 number:0 number:0
init below524288:524287 number:1
"""
ROUNDS = "rounds upto10000:1\nmovers below5:4\n"
STEPS = """
load below128:127 name:a
store below128:127 number:1
add below128:127 number:1 name:a
cas below128:127 number:1 number:2 name:a
settle
evict below16:15
"""
TEST = "lockup-litmus 2"


def kinds() -> Iterator[tuple[str, Kind]]:
    for subcommand, before, misplaced, rows in (
        ("script", [], False, SCRIPT_COMMANDS),
        ("script", [], False, CONFIGURATION),
        ("script", ["stats"], True, CONFIGURATION),
        ("check", ["lockup-trace 1"], False, TRACES.replace("CORES", "16")),
        ("check", ["lockup-trace 2"], False, TRACES.replace("CORES", "64")),
        ("litmus", [TEST], False, CONFIGURATION + ROUNDS + "thread below2:1\n"),
        ("litmus", [TEST, "thread 0"], False, STEPS),
        ("litmus", [TEST, "thread 0"], True, CONFIGURATION + ROUNDS),
    ):
        for row in rows.split("\n"):
            if row:
                kind = Kind(subcommand, before, misplaced, row.split())
                yield kind.name, kind


@seconds(4)
@each(kinds)
def test_line(_: str, kind: Kind) -> None:
    with tempfile.TemporaryDirectory() as room:
        for line, error in Spoiler(kind).lines():
            text = "".join(f"{it}\n" for it in [*kind.before, " ".join(line)])
            ran = lockup(kind.subcommand, write(f"{room}/text", text))
            wanted = 2, f"lockup: line {len(kind.before) + 1}: {REASONS[error]}\n"
            same(f"'{' '.join(line)}'", wanted, (ran.status, ran.err))
