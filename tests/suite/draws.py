"""Draws what a seed draws anew, by the generator of tests/harness/generator.py, and compares it with
what the program does.

- A walk: each call of the script that `lockup walk FILE --seed N --script` prints is that of the
  move which the next word of the generator draws from what may come next: a step of a thread, a
  delivery of what `waiting` shows, a hand-out of a reply that waits. There is no further call where
  nothing may come next. This is asked of each litmus test of examples/litmus, for a few seeds, of
  which two differ by 2^32 alone.
- A walk of more than 100,000 calls comes to its end, and one of more than a million moves.
- A walk with a limit makes the first moves of the walk without, and is given up before its last.
- Seeds go on after 2^64 - 1 with 0.
- `lockup run` does other things with seeds that differ by 2^32 alone.
- The turns of a thread: a test whose one thread needs no turns but those that are drawn is stuck in
  the first round that draws more of them than the limit. So is one whose thread is another core's.
"""
import json
import re
import tempfile
from pathlib import Path
from typing import Iterator

from harness import ROOT, Ran, each, lockup, read, same, seconds, want, write
from harness.generator import MASK, Generator
from harness.scripts import remark_of

FOLDER = ROOT / "examples/litmus"
PROGRAMS = ROOT / "examples/programs"
SEEDS = (0, 10, (1 << 32) + 10, MASK)
ACCESSES = ("load", "store", "add", "cas")
WORDS = 8


class Thread:
    """A thread of a litmus test: its core, its steps as lists of words, how far it is, and the tags
    that wait."""

    def __init__(self, core: int) -> None:
        self.core, self.steps, self.step, self.waits = core, [], 0, set()

    def next(self) -> list[str] | None:
        return self.steps[self.step] if self.step < len(self.steps) else None

    def can_step(self) -> bool:
        step = self.next()
        return step is not None and (step != ["settle"] or not self.waits)


def line_of(step: list[str]) -> int | None:
    """The line that a step names, if it names one."""
    if step[0] == "evict":
        return int(step[1])
    return int(step[1]) // WORDS if step[0] in ACCESSES else None


def threads_of(text: str) -> list[Thread]:
    threads = []
    for line in text.splitlines():
        words = line.split()
        if words[:1] == ["thread"]:
            threads.append(Thread(int(words[1])))
        elif words[:1] == ["settle"] or words[:1] == ["evict"]:
            threads[-1].steps.append(words)
        elif words and words[0] in ACCESSES:
            # all but a store have a name after their numbers
            threads[-1].steps.append(words if words[0] == "store" else words[:-1])
    return threads


class Seen:
    """What is seen after a call: its answer, what waits to be delivered, and each slice's log."""

    def __init__(self, answer: str | None, waiting: list[str], logs: list[list[list[str]]]) -> None:
        self.answer, self.waiting, self.logs = answer, waiting, logs


def parted(script: str) -> tuple[list[str], list[tuple[str | None, str]]]:
    """The lines before the first call of a walk's script, and its calls, each with the comment
    before it."""
    head, calls, note = [], [], None
    for line in script.splitlines():
        if line.startswith("#"):
            note = line
        elif line.split()[0] in ("issue", "evict", "deliver", "hand"):
            calls.append((note, line))
            note = None
        else:
            head.append(line)
    return head, calls


def answers_of(head: list[str], commands: list[str]) -> list[list[str]]:
    """The lines of the answer to each command."""
    ran = lockup("script", "-", "--echo", text="\n".join(head + commands) + "\n")
    same("status and error of the script", (0, ""), (ran.status, ran.err))
    answers, rest = [], ran.out.splitlines()
    for place, command in enumerate(commands):
        want(rest[0] == command, f"`{rest[0]}` in place of `{command}`")
        following = commands[place + 1] if place + 1 < len(commands) else None
        end = rest.index(following, 1) if following else len(rest)
        answers.append(rest[1:end])
        rest = rest[end:]
    return answers


def seen_of(script: str, slices: int) -> tuple[list[tuple[str | None, str]], list[Seen]]:
    """The comments and calls of a walk's script, and what is seen after each call."""
    looks = ["waiting", *(f"log {number}" for number in range(slices))]
    head, calls = parted(script)
    answers = answers_of(head, [line for _, call in calls for line in (call, *looks)])
    seen = []
    for place in range(0, len(answers), 1 + len(looks)):
        answer, waiting, *logs = answers[place : place + 1 + len(looks)]
        shown = [line.split("   ")[0] for line in waiting if line != "none"]
        entries = [[line.split() for line in log if line.startswith("entry ")] for log in logs]
        seen.append(Seen(answer[0], shown, entries))
    return calls, seen


class Walk:
    """A walk on its way."""

    def __init__(self, text: str, seed: int, slices: int) -> None:
        self.threads, self.generator, self.slices = threads_of(text), Generator(seed), slices
        self.lines = []
        for thread in self.threads:
            for step in thread.steps:
                line = line_of(step)
                if line is not None and line not in self.lines:
                    self.lines.append(line)
        self.replies = []
        self.seen = Seen(None, [], [[] for _ in range(slices)])

    def moves(self) -> list[tuple]:
        steps = [("step", number) for number, thread in enumerate(self.threads) if thread.can_step()]
        waiting = [("deliver", it) for line in self.lines for it in self.seen.waiting if int(it.split()[2]) == line]
        return steps + waiting + [("hand", number) for number in range(len(self.replies))]

    def call_of(self, kind: str, what: int | str) -> tuple[str | None, str] | None:
        """The comment and the call of a move; None for a thread that has settled."""
        if kind == "deliver":
            return None, what
        if kind == "hand":
            thread, line = self.replies[what]
            return None, f"hand {self.threads[thread].core} {line % self.slices}"
        thread = self.threads[what]
        step, note = thread.next(), f"# thread {what}, step {thread.step}"
        if step == ["settle"]:
            return None
        if step[0] == "evict":
            return note, f"evict {thread.core} {step[1]}"
        tag = next(tag for tag in range(64) if tag not in thread.waits)
        return note, " ".join(["issue", str(thread.core), str(tag), *step])

    def make(self, kind: str, what: int | str, seen: Seen | None) -> None:
        """What a move leaves behind, where this was seen after its call."""
        before, self.seen = self.seen, seen or self.seen
        if kind == "hand":
            thread = self.threads[self.replies[what][0]]
            self.replies[what] = self.replies[-1]
            self.replies.pop()
            if seen.answer != "none":
                thread.waits.discard(int(seen.answer.split()[3]))
        elif kind == "deliver":
            slice_number = int(what.split()[2]) % self.slices
            for entry in seen.logs[slice_number][len(before.logs[slice_number]) :]:
                for number, thread in enumerate(self.threads):
                    if thread.core == int(entry[1]):
                        self.replies.append((number, int(entry[5]) // WORDS))
        else:
            thread = self.threads[what]
            step = thread.next()
            if step[0] in ACCESSES and seen.answer.startswith("pending"):
                thread.waits.add(next(tag for tag in range(64) if tag not in thread.waits))
            if step[0] not in ACCESSES or not seen.answer.startswith(("stall", "refused")):
                thread.step += 1


def walks() -> Iterator[tuple]:
    for path in sorted(FOLDER.glob("*.txt")):
        for seed in SEEDS:
            yield f"{path.stem}, seed {seed}", path, seed


@seconds(2)
@each(walks)
def test_walk(_: str, path: Path, seed: int) -> None:
    ran = lockup("walk", path, "--seed", str(seed), "--script")
    same("status and error", (0, ""), (ran.status, ran.err))
    slices = int(re.search(r"^slices (\d+)$", ran.out, re.M)[1])
    calls, seen = seen_of(ran.out, slices)
    walk, made = Walk(read(path), seed, slices), 0
    while possible := walk.moves():
        kind, what = possible[walk.generator.word() % len(possible)]
        wanted = walk.call_of(kind, what)
        if wanted is None:
            walk.make(kind, what, None)
            continue
        same(f"call {made}", [wanted], calls[made:made + 1])
        walk.make(kind, what, seen[made])
        made += 1
    same("calls where nothing may come next", [], calls[made:])


def ran_on(text: str, *words: str) -> Ran:
    """Runs a subcommand on a text: its name, and what follows the file."""
    with tempfile.TemporaryDirectory() as room:
        return lockup(words[0], write(f"{room}/test.txt", text), *words[1:])


@seconds(5)
def test_a_long_walk() -> None:
    """Four cores with room for a line each write to two lines in turn."""
    stores = "".join(f"store {8 * (number % 2)} 1\n" for number in range(2300))
    threads = "".join(f"thread {core}\n{stores}" for core in range(4))
    ran = ran_on(f"lockup-litmus 1\ncores 4\nlines 2\nsets 1\nways 1\n{threads}", "walk", "--script")
    same("status and error", (0, ""), (ran.status, ran.err))
    calls = len(re.findall(r"^(?:issue|deliver|hand) ", ran.out, re.M))
    want(calls > 100_000, f"it has {calls} calls")


@seconds(10)
def test_a_walk_of_more_than_a_million_moves() -> None:
    """64 threads write to one word."""
    threads = "".join(f"thread {core}\n" + "store 0 1\n" * 400 for core in range(64))
    text = f"lockup-litmus 1\ncores 64\nlines 1\nrounds 1\n{threads}"
    cut, whole = ran_on(text, "walk", "--limit", "1000000"), ran_on(text, "walk")
    same("a million moves", (1, "gave up round 0 after 1000000 moves\n", ""), (cut.status, cut.out, cut.err))
    same("all of them", (0, "       1 seed 1\nforbidden 0\n", remark_of(text)), (whole.status, whole.out, whole.err))


def test_limits() -> None:
    words = ("walk", FOLDER / "mp.txt", "--seed", "10")
    head, calls = parted(lockup(*words, "--script").out)
    for limit in range(1, len(calls) + 1):
        ran, is_cut = lockup(*words, "--script", "--limit", str(limit)), limit < len(calls)
        same(f"status and error of {limit} moves", (int(is_cut), ""), (ran.status, ran.err))
        same(f"{limit} moves", (head, calls[:limit]), parted(ran.out))
        told = lockup(*words, "--rounds", "1", "--limit", str(limit)).out
        same(f"table of {limit} moves", is_cut, told == f"gave up round 0 after {limit} moves\n")


def test_the_last_seeds() -> None:
    ran = lockup("walk", FOLDER / "mp.txt", "--rounds", "40", "--seed", str(MASK))
    same("status and error", (0, remark_of(read(FOLDER / "mp.txt"))), (ran.status, ran.err))
    seeds = {int(row.split()[-1]) for row in ran.out.splitlines()[:-1]}
    goes_on = MASK in seeds and any(seed < 39 for seed in seeds) and seeds <= {MASK, *range(39)}
    want(goes_on, f"seeds behind the last: {sorted(seeds)}")


def report(path: Path, seed: int) -> list[str]:
    ran = lockup("run", path, "--seed", str(seed))
    same(f"{path.stem}, seed {seed}: status and error", (0, ""), (ran.status, ran.err))
    return [line for line in ran.out.splitlines() if not line.startswith("seed")]


def test_seeds_of_programs() -> None:
    differs = [path for path in sorted(PROGRAMS.glob("*.txt")) if report(path, 7) != report(path, (1 << 32) + 7)]
    want(differs, "programs run in one way with seeds that differ by 2^32")


def stuck_round(seed: int, core: int, steps: int, limit: int, rounds: int) -> int | None:
    """The first round in which more turns are drawn than the limit, each core's and each round's
    from a seed of its own."""
    for number in range(rounds):
        generator = Generator((seed + 64 * number + core) & MASK)
        if sum(generator.word() % 4 for _ in range(steps)) > limit:
            return number
    return None


STEPS, LIMIT, ROUNDS = 8, 19, 400
TURNS = [(f"seed {seed}, core {core}, limit {limit}", seed, core, limit)
         for seed, core, limit in [*((seed, core, LIMIT) for seed in SEEDS for core in (0, 3)), (1, 0, 24)]]


@seconds(2)
@each(lambda: TURNS)
def test_turns(_: str, seed: int, core: int, limit: int) -> None:
    stuck = stuck_round(seed, core, STEPS, limit, ROUNDS)
    text = f"lockup-litmus 2\ncores {core + 1}\nrounds {ROUNDS}\nmovers 0\nthread {core}\n" + "evict 0\n" * STEPS
    wanted = f"{ROUNDS:8}\nforbidden 0\n" if stuck is None else f"stuck round {stuck}\n"
    ran = ran_on(text, "litmus", "--seed", str(seed), "--limit", str(limit))
    remark = remark_of(text) if stuck is None else ""
    same("status, output and error", (int(stuck is not None), wanted, remark), tuple(ran))
    value = json.loads(ran_on(text, "litmus", "--json", "--seed", str(seed), "--limit", str(limit)).out)
    same("as JSON", stuck, value.get("stuck_round"))


def test_turns_tell_enough() -> None:
    """Rounds that are stuck are many, so that a wrong draw makes another."""
    stuck = [stuck_round(seed, core, STEPS, LIMIT, ROUNDS) for seed in SEEDS for core in (0, 3)]
    want(len(set(stuck)) >= 5 and None not in stuck, f"the rounds {stuck} tell too little")
