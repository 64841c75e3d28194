"""Makes runs of programs anew, from docs/TEXTS.md and by the account of tests/harness/account.py, which shares nothing
with the machine: each call of the script that `lockup run FILE --seed N --script` prints is that of the move which the
next word of the generator draws from what may come next, and there is no further call where nothing may.

Programs are drawn at random: of one to four cores and slices, small arrays and miss files, with and without the
exclusive state, with one access of a core under way and with several, with waits, with and without deliveries that each
slice makes after an access; and over more than 32 lines of a slice, where rings are kept short. Without that rule, or
with another number in it, another move would be drawn, which a test of its own asks for.
"""
import random
import tempfile
from dataclasses import dataclass
from typing import Callable, Iterator

from harness import each, lockup, same, seconds, want, write
from harness.account import Access, Account, Setting, Slice
from harness.generator import Generator

Step = Access | None
Tidies = Callable[[int, Slice], bool]


@dataclass
class Program:
    """A core's program, how many of its steps are made, how many of its accesses wait, and whether the next has stalled.
    A step that is none waits for all."""

    core: int
    steps: list[Step]
    made: int = 0
    waiting: int = 0
    stalled: bool = False

    def next(self) -> Step:
        return self.steps[self.made]

    def tag(self) -> int:
        return self.made % 64


@dataclass
class Text:
    setting: Setting
    outstanding: int | None
    pace: int | None
    programs: list[Program]

    def written(self) -> str:
        rows = self.setting.script() + ([f"outstanding {self.outstanding}"] if self.outstanding else [])
        rows += [] if self.pace is None else [f"pace {self.pace}"]
        for program in self.programs:
            rows += [f"core {program.core}", *(words_of(step) if step else "settle" for step in program.steps)]
        return "\n".join(rows) + "\n"


def words_of(access: Access) -> str:
    count = {"load": 0, "store": 1, "add": 1, "cas": 2}[access.kind]
    return " ".join(map(str, [access.kind, access.word, *(access.one, access.two)[:count]]))


def tidied(moves: int, of: Slice) -> bool:
    """Whether a slice's ring is kept short now."""
    idle = any(of.next(kind)[0] != "moved" for kind in ("home", "ack"))
    return moves % 32 == 0 and len(of.ring) > 32 and idle


class Run:
    """A run on its way."""

    def __init__(self, text: Text, seed: int, tidies: Tidies) -> None:
        self.text, self.account, self.generator, self.tidies = text, Account(text.setting), Generator(seed), tidies
        self.programs = [Program(it.core, it.steps) for it in text.programs]
        self.most, self.calls, self.moves = text.outstanding or 1, [], 0
        # how many deliveries each slice has still to make after an access
        self.owed = [0] * text.setting.slices

    def may_ask(self, it: Program) -> bool:
        if it.made >= len(it.steps):
            return False
        if it.next() is None:
            return it.waiting == 0
        decided = self.account.decide(it.core, it.tag(), it.next())[0]
        stalls = self.text.outstanding is not None and not it.stalled
        return it.waiting < self.most and (decided in ("hit", "primary", "secondary") or decided == "stall" and stalls)

    def possible(self) -> list:
        for of in self.account.slices:
            if self.owed[of.number]:
                waiting = [(of, line, channel) for line in of.ring for channel in of.lines[line].waiting()]
                if waiting:
                    return waiting
        asks = [it for it in self.programs if self.may_ask(it)]
        nexts = [(of, *of.next("any")[:3]) for of in self.account.slices]
        return asks + [(of, line, channel) for of, answer, line, channel in nexts if answer == "moved"]

    def ask(self, it: Program) -> None:
        step = it.next()
        if step is not None:
            self.owed = [self.text.pace or 0] * len(self.owed)
            self.calls.append(f"issue {it.core} {it.tag()} {words_of(step)}")
            answer = self.account.issue(it.core, it.tag(), step)[0]
            if answer == "stall":
                it.stalled = True
                return
            it.waiting += answer == "pending"
        it.made, it.stalled = it.made + 1, False

    def deliver(self, of: Slice, line: int, channel: tuple) -> None:
        self.calls.append(" ".join(map(str, ["deliver", channel[0], line, *channel[1:]])))
        before, self.owed[of.number] = len(of.log), max(self.owed[of.number] - 1, 0)
        of.deliver(line, channel)
        for entry in of.log[before:]:
            self.calls.append(f"hand {entry.core} {of.number}")
            of.hand(entry.core)
            next(it for it in self.programs if it.core == entry.core).waiting -= 1

    def move(self) -> bool:
        """Makes the next move, if there is one."""
        possible = self.possible()
        if not possible:
            return False
        drawn = possible[self.generator.word() % len(possible)]
        if isinstance(drawn, Program):
            self.ask(drawn)
        else:
            self.deliver(*drawn)
        self.moves += 1
        for of in self.account.slices:
            if self.tidies(self.moves, of):
                of.ring = [line for line in of.ring if of.lines[line].channels]
        return True


def calls_of(text: Text, seed: int, tidies: Tidies = tidied) -> list[str]:
    run = Run(text, seed, tidies)
    while run.move():
        pass
    want(all(it.made == len(it.steps) and not it.waiting for it in run.programs), "the run is stuck")
    return run.calls


def drawn_text(seed: int, lines: int, steps: int, pace: int | None = None) -> Text:
    """Programs that are drawn, on a machine that is."""
    draw = random.Random(seed)
    setting = Setting(
        cores=draw.randrange(1, 5), slices=draw.choice((1, 2, 4)), lines=lines, sets=draw.choice((1, 2, 8)),
        ways=draw.randrange(1, 4), mshrs=draw.randrange(1, 4), targets=draw.randrange(1, 4), writebacks=draw.randrange(1, 3),
        policy=draw.choice(("lru", "fifo", "random")), seed=seed, misses=draw.choice(("explicit", "inverted")),
        exclusive=draw.random() < 0.5, init=[(8 * line, line) for line in range(0, lines, 3)])
    if draw.random() < 0.5:
        # most lines stay, so that rings grow
        setting.sets, setting.ways = 64, 4
    programs = []
    for core in draw.sample(range(setting.cores), draw.randrange(1, setting.cores + 1)):
        programs.append(Program(core, [drawn_step(draw, lines) for _ in range(steps)]))
    return Text(setting, draw.choice((None, 1, 2, 8, 64)), pace, programs)


def drawn_step(draw: random.Random, lines: int) -> Step:
    if draw.random() < 0.03:
        return None
    kind, word = draw.choice(("load", "load", "store", "add", "cas")), draw.randrange(8 * lines)
    one = draw.randrange(3) if kind != "load" else 0
    return Access(kind, word, one, draw.randrange(3) if kind == "cas" else 0)


def texts() -> Iterator[tuple]:
    for seed in range(24):
        yield f"few lines, seed {seed}", seed, 8, 60
    for seed in range(100, 124):
        yield f"many lines, seed {seed}", seed, 512, 250
    for seed in range(200, 224):
        yield f"a pace, seed {seed}", seed, (8, 512)[seed % 2], 120, (0, 1, 2, 3, 8, 64)[seed % 6]


@seconds(1)
@each(texts)
def test_run(_: str, seed: int, lines: int, steps: int, pace: int | None = None) -> None:
    text = drawn_text(seed, lines, steps, pace)
    with tempfile.TemporaryDirectory() as room:
        ran = lockup("run", write(f"{room}/text.txt", text.written()), "--seed", str(seed), "--script")
    same("status", 0, ran.status)
    calls = [line for line in ran.out.splitlines() if line.split()[0] in ("issue", "deliver", "hand")]
    wanted = calls_of(text, seed)
    for place, (one, other) in enumerate(zip(wanted, calls)):
        want(one == other, f"call {place} of {len(wanted)} is {other} in place of {one}")
    same("how many calls", len(wanted), len(calls))


@seconds(5)
def test_the_rule_tells_enough() -> None:
    """Without the rule that keeps rings short, or after every 31st move, with another bound or for rings of any length,
    some run draws another move."""
    others: dict[str, Tidies] = {
        "no rule": lambda moves, of: False,
        "every 16th move": lambda moves, of: moves % 16 == 0 and len(of.ring) > 32,
        "rings of more than 40": lambda moves, of: moves % 32 == 0 and len(of.ring) > 40,
        "any ring": lambda moves, of: moves % 32 == 0,
    }
    texts_of = [(drawn_text(seed, 512, 250), seed) for seed in range(100, 112)]
    wanted = [calls_of(text, seed) for text, seed in texts_of]
    for name, tidies in others.items():
        want(any(calls_of(text, seed, tidies) != calls for (text, seed), calls in zip(texts_of, wanted)),
             f"{name} makes no other run")
