"""Runs each litmus test of examples/litmus, on random schedules and over threads, and compares the
tables with its outcomes.

On 10,000 random schedules each of the outcomes beside a test comes, and no other. The least seed of
each is run again as a script, whose replies and counters give that outcome. An outcome that comes
too rarely has its script beside the test: that of NAME with a=0 b=1 is NAME.a0_b1.script. Over
threads no other outcome comes. Then a few texts are run whose tables are known but for what threads
decide: an outcome that is forbidden and comes, a counter, a compare-exchange.
"""
import re
import tempfile

from harness import ROOT, Ran, each, lockup, read, same, seconds, want, write
from harness.scripts import remark_of

FOLDER = ROOT / "examples/litmus"
ROUNDS = 10000
ROW = re.compile(r"^( *\d+) ((?:\S+=\d+ ?)*?)(?: seed (\d+))?$")
CALLS = ("issue", "evict", "deliver", "pump", "hand", "word")
Rows = dict[str, tuple[int, str | None]]


def table(ran: Ran, seeds: bool, text: str) -> tuple[Rows, int]:
    """The rows of a test's table, as outcome to (rounds, seed), and how many rounds were forbidden."""
    want(ran.status in (0, 1), f"status {ran.status}: {ran.err}{ran.out[:200]}")
    same("remark", remark_of(text), ran.err)
    *lines, last = ran.out.splitlines()
    rows: Rows = {}
    for line in lines:
        row = ROW.match(line)
        want(row and len(row[1]) == max(8, len(row[1].strip())) and (row[3] is not None) == seeds, f"no row: {line}")
        rows[row[2].strip()] = (int(row[1]), row[3])
    in_order = sorted(rows, key=lambda outcome: [int(pair.split("=")[1]) for pair in outcome.split()])
    want(list(rows) == in_order and len(rows) == len(lines), f"the rows don't ascend:\n{ran.out}")
    forbidden = int(last.removeprefix("forbidden "))
    same(f"status at '{last}'", int(forbidden != 0), ran.status)
    return rows, forbidden


def rounds_of(rows: Rows) -> int:
    return sum(count for count, _ in rows.values())


class LitmusTest:
    """A litmus test of the examples: which step has which name, by its thread and its place there,
    and the counters."""

    def __init__(self, name: str) -> None:
        self.name, self.path = name, FOLDER / f"{name}.txt"
        self.lines = [line.split() for line in read(self.path).splitlines() if line.split()]
        self.wanted = read(FOLDER / f"{name}.outcomes").splitlines()
        self.counters = [words[1] for words in self.lines if words[0] == "counter"]
        self.names: dict[tuple[int, int], str] = {}
        thread = step = -1
        for words in self.lines:
            if words[0] == "thread":
                thread, step = thread + 1, -1
            elif words[0] in ("load", "store", "add", "cas", "settle", "evict"):
                step += 1
                if words[0] in ("load", "add", "cas"):
                    self.names[thread, step] = words[-1]

    def rounds(self) -> int:
        said = [int(words[1]) for words in self.lines if words[0] == "rounds"]
        return said[-1] if said else 1

    def outcome_of(self, script: str) -> str:
        """The replies of the named steps that a script's answers give, and its counters."""
        script += "".join(f"word {word}\n" for word in self.counters)
        ran = lockup("script", "-", text=script)
        want(not ran.status and not ran.err, f"the script fails: {ran.err}")
        answers, step, waiting, replies, values = iter(ran.out.splitlines()), None, {}, {}, []
        for line in script.splitlines():
            comment, words = re.fullmatch(r"# thread (\d+), step (\d+)", line), line.split()
            step = (int(comment[1]), int(comment[2])) if comment else step
            if not words or words[0] not in CALLS:
                continue
            answer = next(answers)
            done = re.fullmatch(r"done \d+ reply (\d+)", answer)
            receipt = re.fullmatch(r"receipt \d+ tag (\d+) reply (\d+)", answer)
            if words[0] == "issue" and done:
                replies[self.names.get(step)] = done[1]
            elif words[0] == "issue" and answer.startswith("pending"):
                waiting[words[1], words[2]] = self.names.get(step)
            elif words[0] == "hand" and receipt:
                replies[waiting.pop((words[1], receipt[1]))] = receipt[2]
            elif words[0] == "word":
                values.append(f"[{words[1]}]={answer}")
        return " ".join([f"{key}={replies.get(key)}" for key in self.names.values()] + values)

    def is_in_its_script(self, outcome: str) -> bool:
        """Whether the script beside the test that is named for an outcome gives it."""
        path = FOLDER / f"{self.name}.{outcome.replace('=', '').replace(' ', '_')}.script"
        return path.exists() and self.outcome_of(read(path)) == outcome


def names() -> list[str]:
    return sorted(path.stem for path in FOLDER.glob("*.txt"))


@seconds(3)
@each(names)
def test_schedules(name: str) -> None:
    test = LitmusTest(name)
    rows, forbidden = table(lockup("walk", test.path, "--rounds", str(ROUNDS)), True, read(test.path))
    same("outcomes that aren't allowed", [], sorted(set(rows) - set(test.wanted)))
    same("rounds, and forbidden ones", (ROUNDS, 0), (rounds_of(rows), forbidden))
    for outcome, (_, seed) in rows.items():
        script = lockup("walk", test.path, "--seed", seed, "--script")
        want(not script.status and not script.err, f"no script of seed {seed}: {script.err}")
        same(f"the script of seed {seed}", outcome, test.outcome_of(script.out))
    for outcome in test.wanted:
        want(outcome in rows or test.is_in_its_script(outcome), f"{outcome} doesn't come, and no script gives it")


@seconds(3)
@each(names)
def test_threads(name: str) -> None:
    test = LitmusTest(name)
    rows, forbidden = table(lockup("litmus", test.path), False, read(test.path))
    same("outcomes that aren't allowed", [], sorted(set(rows) - set(test.wanted)))
    same("rounds, and forbidden ones", (test.rounds(), 0), (rounds_of(rows), forbidden))


TEXTS = [
    ("a counter", "lockup-litmus 1\ncores 2\ncounter 0\nrounds 5\nthread 0\nadd 0 3 x\nthread 1\nadd 0 4 y\n",
     {"x=0 y=3 [0]=7", "x=4 y=0 [0]=7"}, 5, 0),
    ("a compare-exchange", "lockup-litmus 2\ncores 2\nrounds 20\nthread 0\ncas 0 0 1 x\nthread 1\ncas 0 0 2 y\n"
     "forbid x=0 y=0\n", {"x=0 y=1", "x=2 y=0"}, 20, 0),
    ("a forbidden outcome", "lockup-litmus 1\nrounds 4\nthread 0\nload 0 a\nforbid a=1\nforbid a=0\n", {"a=0"}, 4, 4),
    ("one pair of a line that holds", "lockup-litmus 1\nrounds 4\nthread 0\nload 0 a\nload 8 b\nforbid a=0 b=1\n",
     {"a=0 b=0"}, 4, 0),
]


@each(lambda: TEXTS)
def test_text(_: str, text: str, allowed: set[str], rounds: int, forbidden: int) -> None:
    """On threads and on schedules its outcomes are among these, and its rounds add up."""
    for verb in ("litmus", "walk"):
        with tempfile.TemporaryDirectory() as room:
            rows, came = table(lockup(verb, write(f"{room}/test.txt", text)), verb == "walk", text)
        want(rows and set(rows) <= allowed, f"{verb} gives {rows}")
        same(f"rounds of {verb}, and forbidden ones", (rounds, forbidden), (rounds_of(rows), came))


# the name that a page has by that of its file
TITLES = {"mp.txt": "mp", "plain": "plain", "two.parts.txt": "two", "of two\nlines.txt": "of two"}


@each(lambda: [(title, file, title) for file, title in TITLES.items()])
def test_page(_: str, file: str, title: str) -> None:
    """The page of a walk is that of its script, after its name and seed."""
    with tempfile.TemporaryDirectory() as room:
        words = ("walk", write(f"{room}/{file}", read(FOLDER / "mp.txt")), "--seed", "10")
        script, page = lockup(*words, "--script"), lockup(*words, "--page")
    same("status and error", (0, ""), (page.status, page.err))
    same("page", lockup("page", "-", text=f"# {title}, seed 10\n{script.out}").out, page.out)


def test_page_of_a_walk_that_gives_up() -> None:
    words = ("walk", FOLDER / "mp.txt", "--seed", "10", "--limit", "5")
    script, page = lockup(*words, "--script"), lockup(*words, "--page")
    same("status and error", (1, ""), (page.status, page.err))
    same("page", lockup("page", "-", text=f"# mp, seed 10\n{script.out}").out, page.out)


def test_page_of_standard_input() -> None:
    text = read(FOLDER / "sb.txt")
    script, page = lockup("walk", "-", "--script", text=text), lockup("walk", "-", "--page", text=text)
    same("page", lockup("page", "-", text=f"# standard input, seed 1\n{script.out}").out, page.out)


def test_what_the_tutorial_shows() -> None:
    tutorial = read(ROOT / "docs/TUTORIAL.md")
    script = lockup("walk", FOLDER / "mp.txt", "--seed", "10", "--script").out
    walked = lockup("walk", FOLDER / "mp.txt", "--rounds", "1000")
    for shown in walked.out + walked.err, script[script.index("#"):]:
        want(f"\n{shown}```\n" in tutorial, f"docs/TUTORIAL.md doesn't show this:\n{shown}")
