"""Reads the traces that `lockup litmus --trace`, `walk --trace` and `run --trace` print.

Each example of a litmus test and of programs is run on a machine of one, of two and of four slices. Where there are
several, each slice's trace follows a line that names it. Each trace alone is legal by `lockup check`, and has
exactly the accesses that the text asks of the slice, each core's in its order, which are counted here from the text.
The comment lines after the trace of a round over threads say what a replay of its entries finds, which is written
here: how many accesses each core has, and what each counter has at first, what is added to it, and what it has at the
end.

What `walk` and `run` print is what the commands `log 0`, `log 1`, .. print at the end of the script that `--script`
prints. A round that is stuck is named, with status 1, and has no trace."""
import re
import subprocess
import tempfile
from dataclasses import dataclass, field
from pathlib import Path

from harness import ROOT, each, lockup, read, same, want, write

MODULUS = 1 << 64
WORDS_OF_LINE = 8
SLICES = (1, 2, 4)
HEADING = re.compile(r"^# slice (\d+)\n", re.M)
TESTS, PROGRAMS = ROOT / "examples/litmus", ROOT / "examples/programs"
# how many numbers follow the word of an access
VALUES = {"load": 0, "store": 1, "add": 1, "cas": 2}

Access = tuple[str, ...]


@dataclass
class Text:
    """What a litmus test or programs ask for: each core's accesses, in order, and what words begin with."""

    slices: int = 1
    cores: int = 2
    init: dict[int, int] = field(default_factory=dict)
    counters: list[int] = field(default_factory=list)
    accesses: dict[int, list[Access]] = field(default_factory=dict)

    def of_slice(self, core: int, slice_: int) -> list[Access]:
        """The core's accesses of a slice."""
        return [it for it in self.accesses.get(core, []) if int(it[1]) // WORDS_OF_LINE % self.slices == slice_]


def asked_by(text: str) -> Text:
    it, blocks = Text(), []
    for line in text.splitlines():
        verb, *rest = line.split("#")[0].split() or [""]
        if verb in ("slices", "cores"):
            setattr(it, verb, int(rest[0]))
        elif verb == "init":
            it.init[int(rest[0])] = int(rest[1])
        elif verb == "counter":
            it.counters.append(int(rest[0]))
        elif verb in ("thread", "core"):
            blocks = [(1, it.accesses.setdefault(int(rest[0]), []))]
        elif verb == "repeat":
            blocks.append((int(rest[0]), []))
        elif verb == "end":
            times, block = blocks.pop()
            blocks[-1][1].extend(times * block)
        elif verb in VALUES:
            first, _, last = rest[0].partition("..")
            words = range(int(first), int(last or first) + 1)
            blocks[-1][1].extend((verb, str(word), *rest[1:1 + VALUES[verb]]) for word in words)
    return it


def on_slices(text: str, slices: int) -> str:
    """The text, of a machine with so many slices."""
    rows = [row for row in text.splitlines() if not row.startswith("slices ")]
    first = next(at for at, row in enumerate(rows) if row and not row.startswith("#"))
    # a litmus test's first line says what it is
    first += rows[first].startswith("lockup-")
    return "\n".join([*rows[:first], f"slices {slices}", *rows[first:]]) + "\n"


def parted(out: str, slices: int) -> list[str]:
    """The traces of the slices, with the comments after them."""
    if slices == 1:
        want(not HEADING.search(out), "one slice is named")
        return [out]
    before, *parts = HEADING.split(out)
    same("what stands before the first slice", "", before)
    same("the slices that are named", [str(it) for it in range(slices)], parts[::2])
    return parts[1::2]


@dataclass
class Replay:
    """What entries come to: each core's accesses by its numbers, what words have at the end, and what is added."""

    accesses: dict[int, list[Access]]
    memory: dict[int, int]
    added: dict[int, int]


def replayed(rows: list[list[str]], init: dict[int, int]) -> Replay:
    """Each reply is what the word had before."""
    numbered, memory, added = {}, dict(init), {}
    for core, seq, _tag, verb, word, *numbers in rows:
        values, (reply, since) = numbers[:VALUES[verb]], map(int, numbers[VALUES[verb]:])
        before = memory.get(int(word), 0)
        want(since <= sum(map(len, numbered.values())), f"entry {core} {seq} is performed before it is asked for")
        same(f"the reply of entry {core} {seq}", 0 if verb == "store" else before, reply)
        if verb == "store" or verb == "cas" and before == int(values[0]):
            memory[int(word)] = int(values[-1])
        elif verb == "add":
            memory[int(word)] = (before + int(values[0])) % MODULUS
            added[int(word)] = (added.get(int(word), 0) + int(values[0])) % MODULUS
        mine = numbered.setdefault(int(core), {})
        want(int(seq) not in mine, f"entry {core} {seq} stands twice")
        mine[int(seq)] = (verb, word, *values)
    return Replay({core: [mine[seq] for seq in sorted(mine)] for core, mine in numbered.items()}, memory, added)


def comments_on(asked: Text, slice_: int, it: Replay) -> list[str]:
    counts = [len(it.accesses.get(core, [])) for core in range(asked.cores)]
    rows = [f"# core {core}: {count} of these accesses, each once" for core, count in enumerate(counts)]
    for word in asked.counters:
        if word // WORDS_OF_LINE % asked.slices == slice_:
            first = asked.init.get(word, 0)
            now = it.memory.get(word, first)
            rows.append(f"# counter {word}: {first} at first, {it.added.get(word, 0)} added, {now} now")
    return rows


def check_traces(text: str, out: str, is_audited: bool) -> None:
    """Whether each slice's trace has just what the text asks of the slice, and, where it is audited, the comments that
    a replay comes to."""
    asked = asked_by(text)
    for slice_, trace in enumerate(parted(out, asked.slices)):
        judged = lockup("check", "-", text=trace)
        rows = trace.splitlines()
        entries = [row.split()[1:] for row in rows if row.startswith("entry ")]
        same(f"slice {slice_}: judged", (0, f"legal {len(entries)} entries\n", ""), tuple(judged))
        init = {int(row.split()[1]): int(row.split()[2]) for row in rows if row.startswith("init ")}
        same("initial values", {word: value for word, value in asked.init.items()
                                if word // WORDS_OF_LINE % asked.slices == slice_}, init)
        replay = replayed(entries, init)
        wanted = {core: asked.of_slice(core, slice_) for core in range(asked.cores)}
        same(f"slice {slice_}: accesses", {core: its for core, its in wanted.items() if its}, replay.accesses)
        comments = comments_on(asked, slice_, replay) if is_audited else []
        same(f"slice {slice_}: comments", comments, [row for row in rows if row.startswith("#")])


def files(folder: Path) -> list[str]:
    return [path.stem for path in sorted(folder.glob("*.txt"))]


def traced(form: str, text: str, *words: str) -> str:
    with tempfile.TemporaryDirectory(prefix="lockup-test-") as room:
        ran = lockup(form, write(f"{room}/text", text), "--trace", *words)
    same("status and error", (0, ""), (ran.status, ran.err))
    return ran.out


@each(lambda: [f"{name} {slices}" for name in files(TESTS) for slices in SLICES])
def test_rounds(which: str) -> None:
    name, slices = which.split()
    text = on_slices(read(TESTS / f"{name}.txt"), int(slices))
    for number in ("0", "7"):
        check_traces(text, traced("litmus", text, number, "--seed", number), True)


@each(lambda: [f"{name} {slices}" for name in files(TESTS) for slices in SLICES])
def test_walks(which: str) -> None:
    name, slices = which.split()
    text = on_slices(read(TESTS / f"{name}.txt"), int(slices))
    out = traced("walk", text, "--seed", "3")
    check_traces(text, out, False)
    same_as_script("walk", text, out, "3")


@each(lambda: [f"{name} {slices}" for name in files(PROGRAMS) for slices in SLICES])
def test_runs(which: str) -> None:
    name, slices = which.split()
    text = on_slices(read(PROGRAMS / f"{name}.txt"), int(slices))
    out = traced("run", text, "--seed", "3")
    check_traces(text, out, False)
    same_as_script("run", text, out, "3")


def same_as_script(form: str, text: str, out: str, seed: str) -> None:
    """The script that is printed shows the same logs."""
    with tempfile.TemporaryDirectory(prefix="lockup-test-") as room:
        script = lockup(form, write(f"{room}/text", text), "--seed", seed, "--script").out
    slices = asked_by(text).slices
    shown = lockup("script", "-", text=script + "".join(f"log {it}\n" for it in range(slices))).out
    same("the logs of the script", shown[len(lockup("script", "-", text=script).out):], HEADING.sub("", out))


COUNTERS = """lockup-litmus 1
cores 3
slices 2
init 0 18446744073709551615
init 8 5
init 9 6
counter 0
counter 8
counter 16
thread 0
add 0 1 a
add 8 7 b
thread 2
add 0 18446744073709551615 c
add 8 1 d
load 9 e
"""


def test_counters() -> None:
    """Counters that begin with a value, that wrap, and to which nothing is added; and a core without a thread."""
    out = traced("litmus", COUNTERS, "0")
    check_traces(COUNTERS, out, True)
    said = [[row for row in part.splitlines() if row.startswith("#")] for part in parted(out, 2)]
    same("comments", [
        ["# core 0: 1 of these accesses, each once", "# core 1: 0 of these accesses, each once",
         "# core 2: 1 of these accesses, each once",
         "# counter 0: 18446744073709551615 at first, 0 added, 18446744073709551615 now",
         "# counter 16: 0 at first, 0 added, 0 now"],
        ["# core 0: 1 of these accesses, each once", "# core 1: 0 of these accesses, each once",
         "# core 2: 2 of these accesses, each once", "# counter 8: 5 at first, 8 added, 13 now"],
    ], said)


def test_any_round() -> None:
    """A test has any round: its number is a part of the seed alone."""
    text = read(TESTS / "mp.txt")
    check_traces(text, traced("litmus", text, str(MODULUS - 1)), True)


def test_stuck() -> None:
    """A thread that may take one turn alone is stuck, and so is the round, whichever it is."""
    for number in (0, 6):
        ran = lockup("litmus", TESTS / "corr.txt", "--trace", str(number), "--limit", "1")
        same("status, output and error", (1, f"stuck round {number}\n", ""), tuple(ran))


def test_given_up() -> None:
    """A walk that is given up is traced as far as it came, with status 1."""
    for moves in range(1, 6):
        ran = lockup("walk", TESTS / "mp.txt", "--trace", "--limit", str(moves))
        same("status and error", (1, ""), (ran.status, ran.err))
        same("judged", 0, lockup("check", "-", text=ran.out).status)
        want(len(ran.out.splitlines()) <= 5, f"{moves} moves perform {ran.out}")
    same("a walk with moves enough", 0, lockup("walk", TESTS / "mp.txt", "--trace", "--limit", "1000").status)


def test_faults() -> None:
    """A text that can't be read has no trace."""
    for form, first in (("litmus", "0"), ("walk", None), ("run", None)):
        words = [form, "-", "--trace", *([first] if first else [])]
        ran = lockup(*words, text="nonsense\n")
        same(f"{form}: status and output", (2, ""), (ran.status, ran.out))


def test_parted_by_awk() -> None:
    """The command of docs/TEXTS.md parts the traces of several slices into files, which `lockup check` reads."""
    command = re.search(r"^lockup litmus \S+ --trace \d+ \| (awk .*)$", read(ROOT / "docs/TEXTS.md"), re.M)
    want(command, "docs/TEXTS.md has no such command")
    text = on_slices(read(TESTS / "counters_in_two_slices.txt"), 2)
    out = traced("litmus", text, "0")
    with tempfile.TemporaryDirectory(prefix="lockup-test-") as room:
        subprocess.run(["sh", "-c", command[1]], cwd=room, input=out, text=True, check=True)
        same("files", ["slice0.trace", "slice1.trace"], sorted(it.name for it in Path(room).iterdir()))
        for slice_, part in enumerate(parted(out, 2)):
            file = Path(room) / f"slice{slice_}.trace"
            same("a part", f"# slice {slice_}\n{part}", file.read_text())
            same("judged", 0, lockup("check", file).status)
