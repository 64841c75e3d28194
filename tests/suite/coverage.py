"""What `script --coverage` counts, and what `coverage` adds: of each example the counts are those of the cases that its
explained answers name; the cells that are listed are those of the tables, as `table --json` has them; and a sum is that of
the lines of all texts. Lines that can't be read are refused by their numbers. `walk --coverage` and `run --coverage` have the
sums of the scripts that `--script` prints, of each round."""
import json
import re
import tempfile
from collections import Counter
from functools import cache

from harness import ROOT, Ran, each, lockup, read, same, want, write
from harness.scripts import example, examples, is_command, is_trace

HEAD = "lockup-coverage 1"
CASE = re.compile(r"   (core|dir) \d+ \((\w+), ([\w-]+(?: home)?)[^:]*\): (.*)")
Cell = tuple[str, str, str, str]


# ---- from the explained answers

def outcome_of(event: str, effects: str) -> str | None:
    """Returns what follows of an event by the words after its case, or None where it never came to the table."""
    if to := re.match(r"(?:hit; |primary miss; )?to (\w+)", effects):
        return to[1]
    if effects == "secondary miss; joins":
        return "joins"
    if effects == "no copy":
        return "not-held"
    if event == "eviction":
        return "busy" if effects.startswith("waits for ") else None
    if event in ("load", "write"):
        return "stalls" if effects == "waits for Put-Ack" else None
    return "blocked" if effects.startswith("waits for ") else None


def cell_of(answer: str) -> Cell | None:
    case = CASE.search(answer)
    if not case:
        return None
    table = "cache" if case[1] == "core" else "directory"
    event = case[3].replace(" ", "-")
    outcome = outcome_of(event, case[4])
    return (table, case[2], event, outcome) if outcome else None


def counted(script: str) -> Counter[Cell]:
    answers = lockup("script", "--explain", "-", text=script).out.splitlines()
    return Counter(cell for cell in map(cell_of, answers) if cell)


# ---- from the tables

@cache
def cells_of(exclusive: bool) -> set[Cell]:
    """Returns the cells of both tables, as far as the next state tells them apart."""
    words = ["--json", *(["--exclusive"] if exclusive else [])]
    cells = set()
    for table in ("cache", "directory"):
        for value in map(json.loads, lockup("table", table, *words).out.splitlines()):
            if value["row"] != "never":
                outcome = value["next"]["state"] if value["row"] == "go" else value["row"]
                cells.add((table, value["state"], value["event"].replace(" ", "-"), outcome.replace(" ", "-")))
    return cells


def is_exclusive(script: str) -> bool:
    return re.search(r"^\s*exclusive\s+on", script, re.M) is not None


# ---- a text of counts

def counts_in(text: str) -> dict[Cell, int]:
    head, *lines = text.splitlines()
    same("the first line", HEAD, head)
    counts = {tuple(line.split()[:4]): int(line.split()[4]) for line in lines}
    same("each cell once", len(lines), len(counts))
    return counts


@cache
def covered(name: str) -> str:
    ran = lockup("script", "--coverage", "-", text=example(name))
    same("status", (0, ""), (ran.status, ran.err))
    return ran.out


def scripts() -> list[str]:
    return [name for name in examples() if not is_trace(example(name))]


@each(scripts)
def test_counts_of_an_example(name: str) -> None:
    script, counts = example(name), counts_in(covered(name))
    listed = cells_of(is_exclusive(script))
    same("the cells", listed, set(counts))
    wanted = counted(script)
    same("cells of no table", set(), set(wanted) - listed)
    same("the counts", {cell: wanted[cell] for cell in listed}, counts)


def test_the_cells_come_in_the_order_of_the_tables() -> None:
    for exclusive in ("off", "on"):
        out = lockup("script", "--coverage", "-", text=f"exclusive {exclusive}\nstats\n").out
        cells = [tuple(line.split()[:4]) for line in out.splitlines()[1:]]
        states = [cell[:2] for cell in cells]
        shown = []
        for table in ("cache", "directory"):
            printed = lockup("table", table, *(["--exclusive"] if exclusive == "on" else [])).out
            rows = [line.split("|")[1].strip() for line in printed.splitlines() if line.startswith("| ")]
            shown += [(table, re.split(r"[ ,]", row)[0]) for row in rows if row not in ("Cache", "Directory")]
        same("the states", list(dict.fromkeys(shown)), list(dict.fromkeys(states)))


# ---- sums

def summed(texts: list[str]) -> dict[Cell, int]:
    total: dict[Cell, int] = {}
    for text in texts:
        for cell, count in counts_in(text).items():
            total[cell] = total.get(cell, 0) + count
    return total


def test_the_sum_of_all_examples() -> None:
    texts = [covered(name) for name in scripts()]
    with tempfile.TemporaryDirectory() as room:
        files = [str(write(f"{room}/{number}", text)) for number, text in enumerate(texts)]
        ran = lockup("coverage", *files)
    same("status", (0, ""), (ran.status, ran.err))
    same("the sum", summed(texts), counts_in(ran.out))
    same("one text behind another", ran.out, lockup("coverage", "-", text="".join(texts)).out)
    same("a sum of sums", ran.out, lockup("coverage", "-", text=ran.out).out)


BY_HAND = [
    ("nothing", "", 2, "", "-: line 1: not a coverage"),
    ("another_text", "state 0\n", 2, "", "-: line 1: not a coverage"),
    ("no_cell", f"{HEAD}\n", 0, f"{HEAD}\n", ""),
    ("a_comment_and_a_blank_line", f"# all\n\n{HEAD}\ncache I load IS_D 3\n", 0, f"{HEAD}\ncache I load IS_D 3\n", ""),
    ("twice", f"{HEAD}\ncache I load IS_D 3\ncache S Inv I 0\ncache I load IS_D 4\n", 0,
     f"{HEAD}\ncache I load IS_D 7\ncache S Inv I 0\n", ""),
    ("in_order", f"{HEAD}\ndirectory I GetM M 1\ncache II_A Put-Ack I 2\ncache I load IS_D 3\n", 0,
     f"{HEAD}\ncache I load IS_D 3\ncache II_A Put-Ack I 2\ndirectory I GetM M 1\n", ""),
    ("no_such_cell", f"{HEAD}\ncache I load IS_D 3\ncache I load S 3\n", 2, "", "-: line 3: not a cell"),
    ("a_word_too_few", f"{HEAD}\ncache I load IS_D\n", 2, "", "-: line 2: not a cell"),
    ("a_word_too_many", f"{HEAD}\ncache I load IS_D 3 4\n", 2, "", "-: line 2: not a cell"),
    ("a_bad_number", f"{HEAD}\n\ncache I load IS_D -1\n", 2, "", "-: line 3: bad number"),
    ("the_most", f"{HEAD}\ncache I load IS_D 18446744073709551615\n", 0, f"{HEAD}\ncache I load IS_D 18446744073709551615\n", ""),
    ("too_many", f"{HEAD}\ncache I load IS_D 18446744073709551615\n{HEAD}\ncache I load IS_D 1\n", 2, "",
     "-: line 4: too often"),
]


@each(lambda: BY_HAND)
def test_by_hand(_: str, text: str, status: int, out: str, error: str) -> None:
    wanted = (status, out, f"lockup: {error}\n" if error else "")
    same("coverage", wanted, tuple(lockup("coverage", "-", text=text)))


def test_a_fault_of_a_script_is_that_of_its_answers() -> None:
    for script in ("nonsense\n", "cores 0\n", "state 0\nissue 9 0 load 0\n", "state 0\ncores 2\n"):
        plain, ran = lockup("script", "-", text=script), lockup("script", "--coverage", "-", text=script)
        same(script, (plain.status, "", plain.err), tuple(ran))


def test_a_script_that_says_nothing_has_no_cell() -> None:
    same("nothing", (0, f"{HEAD}\n", ""), tuple(lockup("script", "--coverage", "-", text="# nothing\n")))


def test_a_first_add() -> None:
    # a write misses, is given the line, and then a load hits
    met = {cell: count for cell, count in counts_in(covered("first_add")).items() if count}
    same("first_add", {("cache", "I", "write", "IM_AD"): 1, ("directory", "I", "GetM", "M"): 1,
                       ("cache", "IM_AD", "Data", "M"): 1, ("cache", "M", "load", "M"): 1}, met)


# ---- walks and runs

FEW = ["--rounds", "12"]
MOST = 1 << 64


def names_in(folder: str) -> list[str]:
    return sorted(path.stem for path in (ROOT / "examples" / folder).glob("*.txt"))


def coverage_of_scripts(scripts: list[Ran]) -> tuple[int, dict[Cell, int]]:
    """Returns the worst status of scripts that were printed, and how often their steps met each cell."""
    texts = [lockup("script", "--coverage", "-", text=it.out).out for it in scripts]
    total = summed(texts)
    explained = sum((counted(it.out) for it in scripts), Counter())
    same("as explained", {cell: explained[cell] for cell in total}, total)
    return max(it.status for it in scripts), total


def rounds_of(text: str, rounds: int, seed: int, *words: str) -> list[Ran]:
    seeds = [(seed + it) % MOST for it in range(rounds)]
    return [lockup("walk", "--script", "--seed", str(it), *words, "-", text=text) for it in seeds]


@each(lambda: names_in("litmus"))
def test_a_walk(name: str) -> None:
    text = read(ROOT / f"examples/litmus/{name}.txt")
    ran = lockup("walk", "--coverage", *FEW, "--seed", "7", "-", text=text)
    status, total = coverage_of_scripts(rounds_of(text, 12, 7))
    same("status", (status, ""), (ran.status, ran.err))
    same("the counts", total, counts_in(ran.out))


MP = "examples/litmus/mp.txt"


def test_a_walk_as_long_as_it_says() -> None:
    text = re.sub("(?m)^rounds .*$", "rounds 3", read(ROOT / MP))
    want("rounds 3" in text, "the test says no rounds")
    ran = lockup("walk", "--coverage", "-", text=text)
    same("status and error", (0, ""), (ran.status, ran.err))
    same("as many as it says", lockup("walk", "--coverage", "--rounds", "3", "-", text=text).out, ran.out)
    same("the counts", coverage_of_scripts(rounds_of(text, 3, 1))[1], counts_in(ran.out))


def test_seeds_begin_again_behind_the_last() -> None:
    text = read(ROOT / MP)
    ran = lockup("walk", "--coverage", "--rounds", "3", "--seed", str(MOST - 1), "-", text=text)
    same("the counts", coverage_of_scripts(rounds_of(text, 3, MOST - 1))[1], counts_in(ran.out))


def test_rounds_that_are_given_up() -> None:
    """Each goes as far as it may, also after one that was given up."""
    text = read(ROOT / MP)
    lengths = sorted(sum(map(is_command, it.out.splitlines())) for it in rounds_of(text, 12, 1))
    for most in ("1", str(lengths[0] - 1), str(lengths[6])):
        scripts = rounds_of(text, 12, 1, "--limit", most)
        status, total = coverage_of_scripts(scripts)
        ran = lockup("walk", "--coverage", *FEW, "--limit", most, "-", text=text)
        same(f"status with {most}", (status, ""), (ran.status, ran.err))
        same(f"the counts with {most}", total, counts_in(ran.out))
    same("some of the last ended", {0, 1}, {it.status for it in scripts})


@each(lambda: names_in("programs"))
def test_a_run(name: str) -> None:
    text = read(ROOT / f"examples/programs/{name}.txt")
    ran = lockup("run", "--coverage", "--seed", "3", "-", text=text)
    script = lockup("run", "--script", "--seed", "3", "-", text=text)
    covered = lockup("script", "--coverage", "-", text=script.out)
    same("status and counts", (script.status, covered.out), (ran.status, ran.out))
    same("a sum of one", covered.out, lockup("coverage", "-", text=ran.out).out)


def test_a_run_within_limits() -> None:
    text = read(ROOT / "examples/programs/false_sharing.txt")
    words = ["--outstanding", "1", "--seed", "5"]
    script = lockup("run", "--script", *words, "-", text=text)
    same("the counts", coverage_of_scripts([script])[1], counts_in(lockup("run", "--coverage", *words, "-", text=text).out))


def test_a_fault_is_that_of_the_walk_or_run() -> None:
    for kind, text in (("walk", "nonsense\n"), ("walk", ""), ("run", "nonsense\n"), ("run", "cores 0\n")):
        plain, ran = lockup(kind, "--script", "-", text=text), lockup(kind, "--coverage", "-", text=text)
        same(f"{kind} {text}", (plain.status, "", plain.err), tuple(ran))
