"""Takes the program to what docs/TEXTS.md allows, all at once, with answers that follow from that
page.

A machine of 64 cores, 4 slices and 65536 lines, with 256 sets of 16 ways, 32 miss registers of 32
targets and 16 entries of a write-back buffer: each of these is filled, and the next of its kind is
refused. All 64 cores share a line, and then one of them writes it. Then texts of 4 MiB, in one line
and in many, with no more memory than three times the text and 32 MiB. That machine needs 900 MB.
"""
import resource
import tempfile
from pathlib import Path
from typing import Callable

from harness import each, is_plain, lockup, same, seconds
from harness.scripts import remark_of

Rows = list[tuple[str, str]]
Text = tuple[str, list[bytes], int, bytes, bytes]
CORES, SLICES, LINES, WORDS, SETS, WAYS = 64, 4, 65536, 8, 256, 16
REGISTERS, TARGETS, WRITEBACKS, TAGS = 32, 32, 16, 64
LAST = CORES - 1
MIB = 1 << 20
LONG = 4 * MIB
ROOM = 3 * LONG + 32 * MIB


def settings(more: list[str]) -> list[str]:
    counts = dict(cores=CORES, slices=SLICES, lines=LINES, sets=SETS, ways=WAYS)
    counts.update(mshrs=REGISTERS, targets=TARGETS, writebacks=WRITEBACKS)
    return [f"{name} {count}" for name, count in counts.items()] + more


def line_of(place: int) -> int:
    """A line of the last slice, by its place in that slice."""
    return SLICES * place + SLICES - 1


def load(tag: int, line: int, core: int = LAST) -> str:
    return f"issue {core} {tag} load {WORDS * line + WORDS - 1}"


def move(line: int, core: int = LAST) -> Rows:
    """A load's request goes to the directory, and the data come back."""
    return [(f"deliver req {line} {core}", "moved"), (f"deliver data {line} {core}", "moved")]


def full_registers() -> Rows:
    """A core has all its registers, and all targets of one of them, until the data come."""
    lines = [line_of(place) for place in range(REGISTERS)]
    first, others = lines[0], TARGETS - 1
    rows = [(load(tag, line), f"pending {tag}") for tag, line in enumerate(lines)]
    rows += [(load(TAGS - 1, line_of(REGISTERS)), "stall 1 NoRegister")]
    rows += [(load(REGISTERS + n, first), f"pending {REGISTERS + n}") for n in range(others)]
    rows += [(load(TAGS - 1, first), "stall 2 NoTarget"), (load(0, first), "refused 3 TagBusy")]
    rows += [(load(TAGS, first), "refused 2 TagRange"), (load(TAGS - 1, LINES), "refused 1 OutOfRange")]
    tags = [0, *range(REGISTERS, REGISTERS + others), *range(1, REGISTERS)]
    for line in lines:
        rows += move(line)
    slice_number = SLICES - 1
    rows += [(f"hand {LAST} {slice_number}", f"receipt {n} tag {tag} reply 0") for n, tag in enumerate(tags)]
    return rows + [(f"hand {LAST} {slice_number}", "none"), (load(0, lines[-1]), f"done {len(tags)} reply 0")]


def full_set_and_buffer() -> Rows:
    """A core fills a set, and goes on until the buffer of the lines that leave is full too."""
    lines = [line_of(SETS * n + SETS - 1) for n in range(WAYS + WRITEBACKS + 1)]
    last, rows = lines.pop(), []
    for n, line in enumerate(lines):
        rows += [(load(0, line), f"pending {n}"), *move(line)]
        rows += [(f"hand {LAST} {SLICES - 1}", f"receipt {n} tag 0 reply 0")]
    return rows + [
        (f"evict {LAST} {lines[0]}", "busy"),
        (load(0, lines[0]), "stall 5 WriteBackBusy"),
        (load(0, last), "stall 4 WriteBackFull"),
        (f"evict {LAST} {lines[-1]}", "buffer full"),
        (f"evict {LAST} {last}", "not held"),
        # the directory takes the first that left, and says so
        (f"deliver req {lines[0]} {LAST}", "moved"),
        (f"deliver fwd {lines[0]} {LAST}", "moved"),
        (f"evict {LAST} {lines[-1]}", "evicting"),
    ]


def view(line: int, directory: str, owner: object, sharers: str, copies: str) -> tuple[str, str]:
    home = " ".join(["0"] * WORDS)
    return f"state {line}", f"line {line} dir {directory} owner {owner} sharers {sharers} home {home} cores {copies}"


def all_share() -> Rows:
    """All cores read the last line, and then the last of them writes it."""
    line, rows = LINES - 1, []
    everyone = ",".join(str(core) for core in range(CORES))
    for core in range(CORES):
        rows += [(load(0, line, core), "pending 0"), *move(line, core)]
        rows += [(f"hand {core} {SLICES - 1}", f"receipt {core} tag 0 reply 0")]
    rows += [view(line, "S", "-", everyone, " ".join(["S"] * CORES))]
    rows += [(f"issue {LAST} 0 add {WORDS * line} {2**64 - 1}", "pending 1"), *move(line)]
    rows += [view(line, "M", LAST, "-", " ".join(["S"] * LAST + ["SM_A"]))]
    for core in range(LAST):
        rows += [(f"deliver fwd {line} {core}", "moved"), (f"deliver ack {line} {LAST} {core}", "moved")]
    rows += [view(line, "M", LAST, "-", " ".join(["I"] * LAST + ["M"]))]
    rows += [(f"issue {LAST} 1 add {WORDS * line} 2", f"done {CORES + 1} reply {2**64 - 1}")]
    return rows + [(f"hand {LAST} {SLICES - 1}", f"receipt {CORES} tag 0 reply 0"), (f"word {WORDS * line}", "1")]


def all_tags() -> Rows:
    """An inverted file takes a miss for each tag."""
    lines = [line_of(place) for place in range(TAGS)]
    rows = [(load(tag, line), f"pending {tag}") for tag, line in enumerate(lines)]
    rows += [(load(tag, LINES - 1), "refused 3 TagBusy") for tag in range(TAGS)]
    return rows + [row for line in lines for row in move(line)]


FILLED = [("registers", full_registers, ""), ("registers under fifo", full_registers, "policy fifo"),
          ("set and buffer", full_set_and_buffer, ""),
          ("set and buffer under fifo", full_set_and_buffer, "policy fifo"),
          ("sharers", all_share, ""), ("sharers under fifo", all_share, "policy fifo"),
          ("tags", all_tags, "misses inverted")]


@seconds(4)
@each(lambda: FILLED)
def test_filled(_: str, rows_of: Callable[[], Rows], setting: str) -> None:
    rows = rows_of()
    text = "\n".join([*settings([setting]), *(command for command, _ in rows)])
    ran = lockup("script", "-", text=text)
    same("status, output and error", (0, "".join(f"{answer}\n" for _, answer in rows), ""), tuple(ran))


def many(line: bytes, text: int = LONG) -> tuple[bytes, int]:
    """So many of a line that they make up a long text, and how many that are."""
    return line * (text // len(line)), text // len(line)


def long_scripts() -> list[Text]:
    comments, _ = many(b"# and a comment\n")
    commands, count = many(b"evict 0 0\n")
    told = b"lockup: line 2: "
    return [
        ("comments", [comments, b"word 0"], 0, b"0\n", b""),
        ("a long comment", [b"#" * LONG, b"\nword 0"], 0, b"0\n", b""),
        ("commands", [commands], 0, b"not held\n" * count, b""),
        ("blanks", [b"word 0\n", b" " * LONG, b"word", b"\t" * LONG, b"0"], 0, b"0\n0\n", b""),
        ("a long word", [b"word 0\n", b"w" * LONG], 2, b"0\n", told + b"not a command\n"),
        ("many words", [b"word 0\nword", b" 0" * (LONG // 2)], 2, b"0\n", told + b"not a command\n"),
        ("a long number", [b"word 0\nword ", b"0" * LONG], 2, b"0\n", told + b"bad number\n"),
    ]


def long_traces() -> list[Text]:
    entries, _ = many(b"entry 0 18446744073709551615 63 store 7 18446744073709551615 0 0\n")
    ascending = [b"entry 0 %d 63 add 7 0 0 0\n" % n for n in range(LONG // 30)]
    blanks = [b"lockup-trace 2", b" " * LONG, b"\nentry 0 0 0 load 0 0", b" " * LONG, b"0"]
    return [
        ("entries", [b"lockup-trace 2\n", *ascending], 0, b"legal %d entries\n" % len(ascending), b""),
        ("entries of one number", [b"lockup-trace 2\n", entries], 1, b"illegal entry 1: order\n", b""),
        ("blanks", blanks, 0, b"legal 1 entries\n", b""),
        ("a long word", [b"lockup-trace 2\n", b"e" * LONG], 2, b"", b"lockup: line 2: not a command\n"),
    ]


def long_tests() -> list[Text]:
    settings_again, _ = many(b"rounds 10000\n")
    forbidden, _ = many(b"forbid" + b" a=18446744073709551615" * 16 + b"\n")
    begin, end, out = b"lockup-litmus 2\n", b"rounds 1\nthread 0\nload 0 a\n", b"       1 a=0 seed 1\nforbidden 0\n"
    steps = b"cores 64\nthread 63\n" + b"store 127 1\n" * 4096
    none, remark = b"       1 seed 1\nforbidden 0\n", remark_of("").encode()
    return [
        ("settings", [begin, settings_again, end], 0, out, remark),
        ("outcomes", [begin, end, forbidden], 0, out, b""),
        ("blanks", [begin, end.strip(), b" " * LONG], 0, out, remark),
        ("a long name", [begin, end.strip(), b"a" * LONG], 2, b"", b"lockup: line 4: not a command\n"),
        ("steps", [begin, steps], 0, none, remark),
        ("a step more", [begin, steps, b"settle"], 2, b"", b"lockup: line 4100: out of range\n"),
    ]


def texts() -> dict[str, tuple[str, Text]]:
    """The texts of each subcommand, by their names."""
    of_each = (("script", long_scripts()), ("check", long_traces()), ("walk", long_tests()))
    return {f"{verb}, {text[0]}": (verb, text) for verb, rows in of_each for text in rows}


def bound() -> None:
    resource.setrlimit(resource.RLIMIT_AS, (ROOM, ROOM))


@seconds(2)
@each(lambda: list(texts()))
def test_text(name: str) -> None:
    """The program has so much memory alone."""
    is_plain()
    verb, (_, pieces, status, out, said) = texts()[name]
    with tempfile.TemporaryDirectory() as room:
        Path(room, "text").write_bytes(b"".join(pieces))
        ran = lockup(verb, f"{room}/text", preexec_fn=bound)
    same("status, output and error", (status, out.decode(), said.decode()), tuple(ran))
