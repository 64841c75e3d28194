"""Walks side by side and in parts: whatever the number of jobs, and however rounds are shared out and put together again,
what is printed is what one walk of all rounds prints, byte for byte. So it is of a walk that goes on after the parts it left.

Parts are of stretches of seeds, also shuffled, one file or many. What can't be merged is refused by the file's name and the
reason: parts of another test, another limit, another version, a round that is counted twice, a changed part. A part that is
cut off, at whichever byte, and what a killed worker left, are told as the rounds that are missing; walked again they
complete the table. `campaign_scripts` runs examples/campaign.
"""
import math
import random
import signal
import subprocess
import tempfile
import time
from pathlib import Path

from harness import ROOT, each, lockup, program, read, same, seconds, want, write

TEST = ROOT / "examples/litmus/sb.txt"
OTHER = ROOT / "examples/litmus/mp.txt"
# in which `merge` adds up 10,000 parts that are in memory
FEW_SECONDS = 1
UNFORBIDDEN = "lockup: nothing is forbidden: the test has no line 'forbid'\n"


def walk(seed: int, rounds: int, *more: str, test: Path = TEST, jobs: int = 2) -> str:
    ran = lockup("walk", test, "--seed", str(seed), "--rounds", str(rounds), "--jobs", str(jobs), *more)
    want(ran.status in (0, 1) and ran.err in ("", UNFORBIDDEN), f"walk: {ran}")
    return ran.out


def part(room: str, seed: int, rounds: int, *more: str, test: Path = TEST) -> Path:
    return write(f"{room}/{seed}.part", walk(seed, rounds, "--part", *more, test=test))


def merged(parts: list[Path], *more: str, test: Path = TEST) -> tuple[str, str]:
    """Returns the table, and what is missing."""
    ran = lockup("merge", test, *more, *parts)
    want(ran.status in (0, 1), f"merge: {ran}")
    return ran.out, ran.err


def refused(parts: list[Path], *wanted: str, test: Path = TEST) -> None:
    """Wants parts to be refused in one line, with these words."""
    ran = lockup("merge", test, *parts)
    same("status and answers", (2, ""), (ran.status, ran.out))
    for word in wanted:
        want(word in ran.err, f"no '{word}' in: {ran.err}")
    want(ran.err.count("\n") == 1, f"one line, and not: {ran.err}")


@each(lambda: ["sb", "iriw", "counter", "false_sharing"])
@seconds(10)
def test_jobs_change_nothing(name: str) -> None:
    test = ROOT / f"examples/litmus/{name}.txt"
    for rounds in (1, 2, 7, 500, 20_000):
        wanted = walk(5, rounds, jobs=1, test=test)
        for jobs in (2, 3, 8):
            same(f"{rounds} rounds in {jobs} jobs", wanted, walk(5, rounds, jobs=jobs, test=test))


def test_a_round_given_up_is_the_first() -> None:
    """With a limit of moves some round is given up; which one doesn't hang on the number of jobs."""
    for limit in range(1, 40):
        wanted = walk(3, 3000, "--limit", str(limit), jobs=1)
        same(f"limit {limit}", wanted, walk(3, 3000, "--limit", str(limit), jobs=7))


def stretches(rounds: int, count: int, draws: random.Random) -> list[tuple[int, int]]:
    """Cuts rounds into stretches, each the number of its first round and how many there are."""
    cuts = sorted(draws.sample(range(1, rounds), count - 1))
    return [(low, high - low) for low, high in zip([0, *cuts], [*cuts, rounds])]


@each(lambda: range(4))
@seconds(10)
def test_parts_merge(number: int) -> None:
    draws = random.Random(number)
    seed, rounds = draws.randrange(10**12), 3000
    with tempfile.TemporaryDirectory() as room:
        parts = [part(room, seed + low, many) for low, many in stretches(rounds, 12, draws)]
        same("in order", (walk(seed, rounds), ""), merged(parts))
        draws.shuffle(parts)
        same("shuffled", (walk(seed, rounds), ""), merged(parts))
        same("as JSON", (walk(seed, rounds, "--json"), ""), merged(parts, "--json"))
        whole = write(f"{room}/all", "".join(read(it) for it in parts))
        same("one file", (walk(seed, rounds), ""), merged([whole]))


def test_merged_rounds_given_up() -> None:
    """The first round that is given up is told, in whichever part it is."""
    with tempfile.TemporaryDirectory() as room:
        for limit in (20, 24, 28, 32):
            more = ("--limit", str(limit))
            parts = [part(room, 100 + 500 * it, 500, *more) for it in (3, 1, 0, 2)]
            same(f"limit {limit}", (walk(100, 2000, *more), ""), merged(parts))


def test_refusals() -> None:
    with tempfile.TemporaryDirectory() as room:
        first, second = part(room, 1, 100), part(room, 101, 100)
        other = write(f"{room}/other", walk(101, 100, "--part", test=OTHER))
        refused([first, other], str(other), "another litmus text")
        limited = write(f"{room}/limited", walk(101, 100, "--part", "--limit", "1000"))
        refused([first, limited], str(limited), str(first), "limit")
        twice = write(f"{room}/twice", walk(150, 10, "--part"))
        refused([first, second, twice], str(twice), str(second), "seed 150")
        refused([first, first], str(first), "seed 1 ")
        refused([write(f"{room}/format", read(first).replace("lockup-part 1", "lockup-part 2"))], "format", "format")
        version = lockup("--version").out.split()[-1]
        refused([write(f"{room}/version", read(first).replace(version, "0.0.1", 1))], "version", "version")
        refused([write(f"{room}/empty", "")], "no part")
        refused([write(f"{room}/text", "forbidden 0\n")], "text", "line 1")


def test_a_changed_part_is_refused() -> None:
    """No digit of a part can be another without being noticed, as far as the part itself can tell."""
    with tempfile.TemporaryDirectory() as room:
        text = read(part(room, 1, 1000))
        for old, new in (("rounds 1000", "rounds 999"), ("outcome ", "outcome 0"), ("end\n", "end \n"), ("values ", "values  ")):
            refused([write(f"{room}/changed", text.replace(old, new, 1))], "changed")


@seconds(20)
def test_cut_at_every_byte() -> None:
    """A file that ends within its second part has the first, and the second's rounds are missing once its first line is
    whole."""
    with tempfile.TemporaryDirectory() as room:
        first, second = read(part(room, 1, 60)), read(part(room, 61, 40))
        table = walk(1, 60)
        head = second.index("\n") + 1
        for length in range(len(second)):
            cut = write(f"{room}/cut", first + second[:length])
            missing = "--seed 61 --rounds 40" if length >= head else ""
            out, err = merged([cut])
            same(f"{length} bytes", table, out)
            want(missing in err and (missing or err == "" or length > 0), f"{length} bytes: {err}")
        same("whole", (walk(1, 100), ""), merged([write(f"{room}/cut", first + second)]))


def test_gaps_are_told() -> None:
    with tempfile.TemporaryDirectory() as room:
        parts = [part(room, 1, 10), part(room, 21, 10), part(room, 41, 10)]
        out, err = merged(parts)
        for missing in ("--seed 11 --rounds 10", "--seed 31 --rounds 10"):
            want(missing in err, f"no '{missing}' in: {err}")
        counts = sum(int(line.split()[0]) for line in out.splitlines() if not line.startswith("forbidden"))
        same("rounds", 30, counts)
        same("filled", (walk(1, 50), ""), merged([*parts, part(room, 11, 10), part(room, 31, 10)]))


@seconds(30)
def test_a_killed_worker() -> None:
    """A worker killed in the middle leaves its whole parts; what is missing is walked again."""
    rounds = 20_000_000
    with tempfile.TemporaryDirectory() as room:
        left = Path(f"{room}/left")
        with open(left, "wb") as out:
            worker = subprocess.Popen(
                [program(), "walk", TEST, "--seed", "1", "--rounds", str(rounds), "--jobs", "2", "--part"], stdout=out)
            while left.stat().st_size == 0 and worker.poll() is None:
                time.sleep(0.05)
            worker.send_signal(signal.SIGKILL)
            worker.wait()
        done = sum(int(line.split()[-1]) for line in read(left).splitlines() if line.startswith("lockup-part"))
        want(0 < done < rounds, f"{done} rounds of {rounds} were walked")
        again = write(f"{room}/again", walk(1 + done, 5000, "--part"))
        same("put together", (walk(1, done + 5000), ""), merged([left, again]))


@seconds(60)
def test_a_walk_goes_on() -> None:
    """After the whole parts of what was left, a walk prints what it would have printed at once."""
    rounds = 100_300
    with tempfile.TemporaryDirectory() as room:
        wanted = walk(7, rounds, "--part", jobs=4)
        second = wanted.index("lockup-part", 1)
        for length in (0, second - 1, second, second + 1, len(wanted) - 1, len(wanted)):
            left = write(f"{room}/left", wanted[:length])
            same(f"behind {length} bytes", wanted, walk(7, rounds, "--resume", str(left), jobs=4))


def test_what_is_known_is_not_walked() -> None:
    """A part that is known is printed as it stands, here one with counts that were made up."""
    with tempfile.TemporaryDirectory() as room:
        known = made(1, 100_000)
        text = walk(1, 100_050, "--part", "--resume", str(write(f"{room}/known", known)))
        same("as it stands", known, text[: len(known)])
        same("behind it", walk(100_001, 50, "--part"), text[len(known) :])


def test_parts_of_other_rounds() -> None:
    """A walk goes on after its own first parts alone."""
    with tempfile.TemporaryDirectory() as room:
        for name, text in (("seed", made(2, 100_000)), ("count", made(1, 100)), ("more", made(1, 100_000) + made(100_001, 100_000)),
                           ("limit", made(1, 100_000).replace("limit none", "limit 1000"))):
            left = write(f"{room}/{name}", text)
            ran = lockup("walk", TEST, "--rounds", "150000", "--resume", left)
            same(name, (2, "", f"lockup: {left}: its parts are not the first of these rounds\n"), (ran.status, ran.out, ran.err))
        other = write(f"{room}/other", walk(1, 10, "--part", test=OTHER))
        ran = lockup("walk", TEST, "--resume", other)
        same("test", (2, "", f"lockup: {other}: line 1: a part of another litmus text\n"), (ran.status, ran.out, ran.err))
        ran = lockup("walk", TEST, "--resume", f"{room}/none")
        same("no file", (2, "", f"lockup: cannot read {room}/none\n"), (ran.status, ran.out, ran.err))


def fnv_1a(text: bytes) -> int:
    """The 64-bit FNV-1a hash, as its authors define it."""
    came = 0xCBF29CE484222325
    for byte in text:
        came = (came ^ byte) * 0x100000001B3 % 2**64
    return came


def made(seed: int, rounds: int = 100) -> str:
    """Returns the part of so many rounds of which 40 have one outcome and the others another, written by hand."""
    version, many = lockup("--version").out.split()[-1], rounds - 40
    return (f"lockup-part 1 {version} test {fnv_1a(TEST.read_bytes())} limit none seed {seed} rounds {rounds}\n"
            f"outcome {many} seed {seed} values 0 1\noutcome 40 seed {seed + many} values 1 1\nend\n")


def test_text() -> None:
    """The text of a part is that of the table: its counts, seeds and values."""
    names, rows = ("a", "b"), []
    lines = walk(1, 500, "--part").splitlines()
    version = lockup("--version").out.split()[-1]
    same("first line", f"lockup-part 1 {version} test {fnv_1a(TEST.read_bytes())} limit none seed 1 rounds 500", lines[0])
    for line in lines[1:-1]:
        _, count, _, seed, _, *values = line.split()
        rows.append(f"{count:>8} " + " ".join(f"{name}={value}" for name, value in zip(names, values)) + f" seed {seed}")
    same("rows", walk(1, 500).splitlines()[:-1], rows)
    same("last line", "end", lines[-1])


@seconds(20)
def test_many_parts() -> None:
    """10,000 parts, each a file."""
    count = 10_000
    with tempfile.TemporaryDirectory() as room:
        sample = made(1)
        parts = []
        for number in range(count):
            seed = 1 + 100 * number
            text = sample.replace("limit none seed 1 ", f"limit none seed {seed} ")
            text = text.replace("60 seed 1 ", f"60 seed {seed} ").replace("40 seed 61 ", f"40 seed {seed + 60} ")
            parts.append(write(f"{room}/{number}", text))
        random.Random(1).shuffle(parts)
        # the disk may keep a reader waiting, and so it is the best of three
        took = math.inf
        for _ in range(3):
            began = time.monotonic()
            out, err = merged(parts)
            took = min(took, time.monotonic() - began)
        same("table", ("  600000 a=0 b=1 seed 1\n  400000 a=1 b=1 seed 61\nforbidden 0\n", ""), (out, err))
        want(took < FEW_SECONDS, f"{took:.1f} seconds")
