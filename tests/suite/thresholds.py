"""Takes the program past numbers that other tests stay below, and to each number up to the greatest: an answer
`no memory`, `stuck` or "too many", or a wrong one, that comes only there is seen here.

- 5,002 rows of a sweep; a run of more than 2,000,000 moves; 2,500 rounds over threads and 10,000 on random schedules, in
  which no outcome is lost; a trace of 6,000 entries.
- Each number of cores, miss registers, targets, ways, sets and entries of the write-back buffer: so many are used, one
  more isn't there, and each of them is used once more after it was freed.
- Each word of the largest memory has the value with which it begins; each line of it is loaded; each tag is used.

What is expected is written by hand from docs/TEXTS.md. On a program with AddressSanitizer the longest are left out.
"""
import csv
import io
import json
import tempfile
from itertools import product

from harness import Ran, each, is_plain, lockup, same, seconds, want, write
from harness.scripts import remark_of

LINES, WORDS, TAGS = 65536, 8, 64
MASK = (1 << 64) - 1
Rows = list[tuple[str, str]]


def ran_on(text: str, *words: str) -> Ran:
    """Runs a subcommand on a text: its name, and what follows the file."""
    with tempfile.TemporaryDirectory() as room:
        return lockup(words[0], write(f"{room}/text.txt", text), *words[1:])


def answered(config: str, rows: Rows) -> None:
    """Compares each answer with the one that is wanted."""
    ran = lockup("script", "-", text=config + "".join(f"{command}\n" for command, _ in rows))
    same("status and error", (0, ""), (ran.status, ran.err))
    got = ran.out.split("\n")[:-1]
    same("answers", len(rows), len(got))
    for (command, wanted), answer in zip(rows, got):
        if wanted != answer:
            same(command, wanted, answer)


# ---- many rows, moves and rounds


@seconds(2)
def test_rows() -> None:
    is_plain()
    ran = ran_on("core 0\nload 0\nload 0\n", "run", "--set", "ways=1,2", "--seeds", "1..2501", "--csv")
    same("status and error", (0, ""), (ran.status, ran.err))
    names = ("ways", "seed", "requests", "hits", "misses", "messages_request", "messages_data")
    rows = [tuple(row[name] for name in names) for row in csv.DictReader(io.StringIO(ran.out))]
    wanted = [(ways, str(seed), "2", "1", "1", "1", "1") for ways in "12" for seed in range(1, 2502)]
    want(wanted == rows, f"{len(rows)} rows, of which the first wrong one is "
         f"{next((it for it in zip(wanted, rows) if it[0] != it[1]), None)}")


@seconds(3)
def test_moves() -> None:
    """One core goes to and fro between two lines that have one way: each access but the first writes a line back. So
    many moves are the accesses and the deliveries, beside the stalls for the line that is on its way out."""
    is_plain()
    count = 450_000
    text = f"cores 1\nlines 2\nsets 1\nways 1\noutstanding 1\ncore 0\nrepeat {count // 2}\nload 0\nload 8\nend\n"
    ran = ran_on(text, "run", "--json")
    same("status and error", (0, ""), (ran.status, ran.err))
    counts = json.loads(ran.out)["all"]
    wanted = {"requests": count, "hits": 0, "misses": count, "messages_request": 2 * count - 1,
              "messages_forwarded": count - 1, "messages_data": count, "messages_acknowledgement": 0, "messages_home": 0,
              "moves": 5 * count - 2 + counts["stalls"]}
    same("counts", wanted, {name: counts[name] for name in wanted})
    want(counts["moves"] > 2_000_000, f"{counts['moves']} moves alone")


def test_most_rows() -> None:
    """1,000,000 rows are begun with, and one more isn't. The text has an error, so none is run."""
    for words, told in ((["--seeds", "1..1000000"], "seed 1: line 2: not a command"),
                        (["--set", "ways=1,2", "--seeds", "1..500000"], "ways=1 seed 1: line 2: not a command"),
                        (["--set", "ways=1,2", "--seeds", "1..500001"], "more than 1000000 rows")):
        ran = ran_on("core 0\nlode\n", "run", *words)
        same(" ".join(words), (2, f"lockup: {told}\n"), (ran.status, ran.err))


@seconds(2)
def test_most_accesses() -> None:
    """1,000,000 accesses of all cores together are run, and one more isn't."""
    is_plain()
    text = "core 0\nrepeat 999998\nload 0\nend\ncore 1\nload 0..{}\n"
    ran = ran_on(text.format(1), "run", "--json")
    same("status and error", (0, ""), (ran.status, ran.err))
    counts = json.loads(ran.out)["all"]
    same("counts", (1_000_000, 999_998, 2), tuple(counts[name] for name in ("requests", "hits", "misses")))
    ran = ran_on(text.format(2), "run")
    same("one more", (2, "", "lockup: line 6: out of range\n"), tuple(ran))


@seconds(2)
@each(lambda: [("litmus", 2500), ("walk", 10_000)])
def test_rounds(verb: str, rounds: int) -> None:
    """10,000 rounds are the most that a test may have. Two cores add to a word, so just one of them finds 0."""
    text = f"lockup-litmus 1\ncores 2\nrounds {rounds}\nmovers 0\nthread 0\nadd 0 1 a\nthread 1\nadd 0 2 b\n"
    ran = ran_on(text, verb)
    same("status and error", (0, remark_of(text)), (ran.status, ran.err))
    *rows, last = [line.split() for line in ran.out.splitlines()]
    same("forbidden", ["forbidden", "0"], last)
    want({tuple(row[1:3]) for row in rows} <= {("a=0", "b=1"), ("a=2", "b=0")}, f"outcomes: {rows}")
    same("rounds", rounds, sum(int(row[0]) for row in rows))


def test_a_round_of_all_steps() -> None:
    """A thread of 4096 steps, the most that one may have, makes all of them in each form."""
    text = "lockup-litmus 1\ncores 2\nrounds 3\nmovers 0\ncounter 8\nthread 1\n" + "add 8 1 a\n" + "add 8 1 b\n"
    text += "store 0 5\n" * 4093 + "load 0 c\n"
    for verb, seed in ("litmus", ""), ("walk", " seed 1"):
        ran = ran_on(text, verb)
        same(verb, (0, f"       3 a=0 b=1 c=5 [8]=2{seed}\nforbidden 0\n", remark_of(text)), tuple(ran))


def test_entries() -> None:
    """A trace of 6,000 entries over as many lines of several cores, and one that is wrong in its last."""
    entries = [f"entry {number % 64} {number // 64} {number % 64} add {8 * number} 1 0 {number}\n" for number in range(5999)]
    for last, status, verdict in (("0", 0, "legal 6000 entries"), ("1", 1, "illegal entry 5999: reply")):
        text = "lockup-trace 2\n" + "".join(entries) + f"entry 0 9999 0 load 47999 {last} 5999\n"
        same(verdict, (status, f"{verdict}\n", ""), tuple(ran_on(text, "check")))


# ---- each number up to the greatest


def load(line: int, tag: int = 0, core: int = 0) -> str:
    return f"issue {core} {tag} load {WORDS * line}"


def served(line: int, core: int = 0) -> Rows:
    return [(f"deliver req {line} {core}", "moved"), (f"deliver data {line} {core}", "moved")]


@each(lambda: [f"{kind} {count}" for kind, count in product(("mshrs",), range(1, 33))])
def test_registers(what: str) -> None:
    """So many lines wait at once; one more stalls, until one of them, any, was served."""
    count = int(what.split()[1])
    rows = [(load(line, line), f"pending {line}") for line in range(count)]
    rows.append((load(count, 40), "stall 1 NoRegister"))
    number, waiting = count, list(range(count))
    for freed in range(count):
        # the lines of a register are served in turn, and each is taken anew
        rows += [*served(waiting[freed]), ("hand 0 0", f"receipt {freed} tag {waiting[freed]} reply 0")]
        line = count + freed
        rows += [(load(line, waiting[freed]), f"pending {number}"), (load(line + 1, 41), "stall 1 NoRegister")]
        waiting[freed], number = line, number + 1
    answered(f"cores 1\nlines 256\nsets 256\nways 1\n{what}\n", rows)


@each(lambda: [f"targets {count}" for count in range(1, 33)])
def test_targets(what: str) -> None:
    count = int(what.split()[1])
    rows = [(load(3, tag), f"pending {tag}") for tag in range(count)]
    rows += [(load(3, 40), "stall 2 NoTarget"), *served(3)]
    rows += [("hand 0 0", f"receipt {tag} tag {tag} reply 0") for tag in range(count)]
    answered(f"cores 1\n{what}\n", [*rows, ("hand 0 0", "none"), (load(3, 40), f"done {count} reply 0")])


def filled(lines: list[int]) -> Rows:
    """A core loads these lines one after another, each served before the next."""
    rows = []
    for number, line in enumerate(lines):
        rows += [(load(line), f"pending {number}"), *served(line), ("hand 0 0", f"receipt {number} tag 0 reply 0")]
    return rows


@each(lambda: [f"{policy}, {count} ways" for policy, count in product(("lru", "fifo"), range(1, 17))])
def test_ways(what: str) -> None:
    """So many lines of a set stay, each a hit; the next takes the place of the first, by either policy, where the lines
    were used in the order in which they came."""
    policy, count = what.split()[0].rstrip(","), int(what.split()[1])
    lines = [2 * line + 1 for line in range(count)]
    rows = filled(lines) + [(load(line), f"done {count + place} reply 0") for place, line in enumerate(lines)]
    rows += [(load(2 * count + 1), f"pending {2 * count}")]
    for line in lines:
        state = "SI_A" if line == 1 else "S"
        rows.append((f"state {line}", f"line {line} dir S owner - sharers 0 home 0 0 0 0 0 0 0 0 cores {state}"))
    answered(f"cores 1\nlines 64\nsets 2\nways {count}\npolicy {policy}\n", rows)


@each(lambda: [f"sets {1 << power}" for power in range(9)])
def test_sets(what: str) -> None:
    """So many lines in a row stand each in a set of its own; each line that comes next takes the place of one."""
    count = int(what.split()[1])
    rows = filled(list(range(count))) + [(load(line), f"done {count + line} reply 0") for line in range(count)]
    for line in range(count):
        rows += [(load(count + line), f"pending {2 * count + line}"), *served(count + line),
                 ("hand 0 0", f"receipt {2 * count + line} tag 0 reply 0"),
                 (f"state {line}", f"line {line} dir S owner - sharers 0 home 0 0 0 0 0 0 0 0 cores SI_A"),
                 (f"deliver req {line} 0", "moved"), (f"deliver fwd {line} 0", "moved")]
    answered(f"cores 1\nlines 512\n{what}\nways 1\n", rows)


@each(lambda: [f"writebacks {count}" for count in range(1, 17)])
def test_write_backs(what: str) -> None:
    """So many lines are on their way out at once, and any of them makes room once it is acknowledged."""
    count = int(what.split()[1])
    lines = list(range(2 * count + 1))
    rows = filled(lines) + [(f"evict 0 {line}", "evicting") for line in range(count)]
    for line in range(count):
        rows += [(f"evict 0 {count + line}", "buffer full"), (f"deliver req {line} 0", "moved"),
                 (f"deliver fwd {line} 0", "moved"), (f"evict 0 {count + line}", "evicting")]
    answered(f"cores 1\nlines 64\nsets 64\nways 1\n{what}\n", [*rows, (f"evict 0 {2 * count}", "buffer full")])


@each(lambda: [f"cores {count}" for count in range(1, 65)])
def test_cores(what: str) -> None:
    """The last core reads, and then each, and the last one writes."""
    count = int(what.split()[1])
    last, rows = count - 1, []
    for number, core in enumerate([last, *range(last)]):
        rows += [(load(1, 5, core), "pending 0"), *served(1, core), (f"hand {core} 0", f"receipt {number} tag 5 reply 0")]
    rows += [(f"issue {last} 5 store 8 7", "pending 1"), *served(1, last)]
    for core in range(last):
        rows += [(f"deliver fwd 1 {core}", "moved"), (f"deliver ack 1 {last} {core}", "moved")]
    copies = " ".join(["I"] * last + ["M"])
    rows += [(f"hand {last} 0", f"receipt {count} tag 5 reply 0"), ("word 8", "7"),
             ("state 1", f"line 1 dir M owner {last} sharers - home 0 0 0 0 0 0 0 0 cores {copies}")]
    answered(f"{what}\n", rows)
    ran = lockup("script", "-", text=f"{what}\nissue {count} 0 load 0\n")
    same("one more core", (2, "", "lockup: line 2: out of range\n"), (ran.status, ran.out, ran.err))


def test_tags() -> None:
    rows = [(load(0, tag), f"pending {tag}") for tag in range(TAGS)]
    rows += [(load(0, tag), f"refused {'3 TagBusy' if tag < TAGS else '2 TagRange'}") for tag in range(256)]
    rows += served(0) + [("hand 0 0", f"receipt {tag} tag {tag} reply 0") for tag in range(TAGS)]
    answered("cores 1\nmisses inverted\n", rows)


def value_of(word: int) -> int:
    return (word + 1) * 0x9E3779B97F4A7C15 & MASK


@seconds(4)
@each(lambda: [f"{slices} slices" for slices in (1, 2, 4)])
def test_words(what: str) -> None:
    """Each word of the largest memory begins with the value that its line says."""
    is_plain()
    text = [f"cores 1\nslices {what.split()[0]}\nlines {LINES}\n"]
    text += [f"init {word} {value_of(word)}\n" for word in range(LINES * WORDS)]
    rows = []
    for line in range(LINES):
        home = " ".join(str(value_of(WORDS * line + place)) for place in range(WORDS))
        rows.append((f"state {line}", f"line {line} dir I owner - sharers - home {home} cores I"))
    answered("".join(text), rows)


@seconds(4)
@each(lambda: [f"{slices} slices" for slices in (1, 4)])
def test_lines(what: str) -> None:
    """Each line of the largest memory is written by one core and read by another: its last word is what was written."""
    is_plain()
    slices = int(what.split()[0])
    rows, numbers = [], [0] * slices
    for line in range(LINES):
        slice_number, word = line % slices, WORDS * line + WORDS - 1
        first, seq = numbers[slice_number], numbers[slice_number] // 2
        rows += [(f"issue 0 0 store {word} {line + 1}", f"pending {seq}"), *served(line),
                 (f"hand 0 {slice_number}", f"receipt {first} tag 0 reply 0"),
                 (f"issue 1 0 load {word}", f"pending {seq}"), (f"deliver req {line} 1", "moved"),
                 (f"deliver fwd {line} 0", "moved"), (f"deliver data {line} 1", "moved"), (f"deliver home {line}", "moved"),
                 (f"hand 1 {slice_number}", f"receipt {first + 1} tag 0 reply {line + 1}")]
        for core in range(2):
            rows += [(f"evict {core} {line}", "evicting"), (f"deliver req {line} {core}", "moved"),
                     (f"deliver fwd {line} {core}", "moved")]
        numbers[slice_number] += 2
    answered(f"slices {slices}\nlines {LINES}\n", rows)
