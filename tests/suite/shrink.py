"""`lockup.shrink`: planted bugs of the account as a design, found by drawn calls and shrunk to a few commands; the planted
bugs of examples/cosim; cells of the protocol's tables; errors. A shrunk script fails at its last command, not without any
one of the others, and wants what `lockup test` confirms."""
import os
import random
import statistics
import sys
import tempfile
from itertools import chain
from pathlib import Path
from types import ModuleType
from typing import Any, Callable

from harness import ROOT, Different, Ran, each, needs, run, same, seconds, want, write
from harness.account import Slice
from harness.library import module, part_of, shared
from suite.scoreboard import Design, drawn, held, setting_of, want_tested

COSIM = ROOT / "examples/cosim"
# how long scripts are before, at most, and after
CALLS = 400
SHORT = 20


class Unjudged(Slice):
    """An account that doesn't look whether it is coherent."""

    def judge(self, number: int) -> None:
        pass


class NoInvalidation(Unjudged):
    """A GetM leaves the copies of others."""

    def get_modified(self, line: int, core: int, message: Any) -> None:
        self.lines[line].entry.sharers &= {core}
        super().get_modified(line, core, message)


class LostBlock(Unjudged):
    """A dirty block that is put doesn't come home."""

    def put(self, line: int, core: int, message: Any) -> None:
        home = self.lines[line].entry.home
        super().put(line, core, message)
        self.lines[line].entry.home = home


class NewestFirst(Unjudged):
    """The accesses of a register are performed in the wrong order."""

    def data(self, line: int, channel: tuple, message: Any) -> None:
        self.cores[channel[1]].registers[line].reverse()
        super().data(line, channel, message)


class NeverUsed(Unjudged):
    """A hit doesn't count for LRU."""

    def hit(self, core: int, *rest: Any) -> tuple:
        slots = {number: [*it] for number, it in enumerate(self.cores[core].sets)}
        told = super().hit(core, *rest)
        self.cores[core].sets = [slots[number] for number in range(len(slots))]
        return told


class WritesAlways(Unjudged):
    """A compare-exchange writes, whatever it finds."""

    def issue(self, core: int, tag: int, access: Any) -> tuple:
        return super().issue(core, tag, access._replace(kind="store") if access.kind == "cas" else access)


class EarlyTag(Unjudged):
    """A tag is free once its access is performed."""

    def refusal(self, core: int, tag: int, access: Any) -> Any:
        tags = self.cores[core].tags
        return None if tags.get(tag) is not None and access.kind == "load" else super().refusal(core, tag, access)


class LostForward(Unjudged):
    """The last owner of a line that is read keeps it from the directory that it shares it."""

    def get_shared(self, line: int, core: int, message: Any) -> None:
        owner = self.lines[line].entry.owner
        super().get_shared(line, core, message)
        self.lines[line].entry.sharers -= {owner}


class FullBuffer(Unjudged):
    """A write-back buffer takes one line more."""

    def evict(self, core: int, line: int) -> str:
        told = super().evict(core, line)
        if told == "buffer full" and line in self.cores[core].candidates(line):
            self.leave(core, line)
            return "evicting"
        return told


BUGS = [NoInvalidation, LostBlock, NewestFirst, NeverUsed, WritesAlways, EarlyTag, LostForward, FullBuffer]
SHAPE = {"cores": 3, "slices": 2, "lines": 8, "sets": 1, "ways": 2, "mshrs": 2, "targets": 2, "writebacks": 1}


def answers_of(bug: type[Slice]) -> Callable[[str], list[str]]:
    """Returns what gives the answers of a design with a bug."""
    part = part_of("script")

    def answers(text: str) -> list[str]:
        script = part.Script.of(text)
        design = Design(setting_of(script.config), bug)
        return [part.answer_of(design, it) for it in script.commands]
    return answers


class Answering:
    """The calls of a design, which shows nothing."""

    def __init__(self, design: Design) -> None:
        self.issue, self.evict, self.deliver, self.hand = design.issue, design.evict, design.deliver, design.hand


def counterexample(library: ModuleType, bug: type[Slice], seed: int) -> str:
    """Returns the script of drawn calls up to the first answer that differs."""
    draw = random.Random(f"{bug.__name__} {seed}")
    while True:
        with library.Scoreboard(**SHAPE) as board:
            design = Design(setting_of(board.machine.config), bug)
            try:
                for _ in range(CALLS):
                    held(board, design, drawn(draw, board.machine))
            except (library.Differs, Different):
                return board.script(answers=True)


def commands_of(script: str) -> list[str]:
    return [line.partition("=")[0].strip() for line in script.splitlines() if " = " in line]


def configuration_of(script: str) -> str:
    return "".join(f"{line}\n" for line in script.splitlines() if " = " not in line and not line.startswith("#"))


def first_difference(script: str, answers: Callable[[str], Any]) -> int | None:
    """Returns the place of the first answer of a design that isn't the machine's. Words `?` are passed over."""
    wanted, came = part_of("script").Script.of(script).answers(), answers(script)
    pairs = [(one.split(), its.split()) for one, its in zip(wanted, came, strict=True)]
    return next((place for place, (one, its) in enumerate(pairs)
                 if any(it not in (word, "?") for word, it in zip(one, its)) or len(one) != len(its)), None)


def want_shrunk(script: str, answers: Callable[[str], Any]) -> int:
    """A script fails at its last command, and not without any one of the others. Returns how many it has."""
    commands, head = commands_of(script), configuration_of(script)
    same("the first difference", len(commands) - 1, first_difference(script, answers))
    for nth in range(len(commands)):
        rest = "".join(f"{it}\n" for it in commands[:nth] + commands[nth + 1:])
        same(f"the first difference without {commands[nth]}", None, first_difference(head + rest, answers))
    want(script.splitlines()[-1].startswith("# the design answered: "), script)
    want_tested(script, 1)
    return len(commands)


@seconds(20)
@each(lambda: [(it.__name__, it) for it in BUGS])
def test_bugs(_: str, bug: type[Slice]) -> None:
    library, before, counts = module(), [], []
    for seed in range(3):
        script, answers = counterexample(library, bug, seed), answers_of(bug)
        short = part_of("shrink").shrink_script(script, answers, answers=True)
        same("as a design", short, part_of("shrink").shrink_design(
            script, lambda it: Answering(Design(setting_of(it.config), bug)), answers=True))
        before.append(len(commands_of(script)))
        counts.append(want_shrunk(short, answers))
    want(statistics.median(counts) <= SHORT, f"{before} commands come to {counts}")


@seconds(3)
@each(lambda: [(it.__name__, it) for it in (NoInvalidation, LostBlock)])
def test_looks(_: str, bug: type[Slice]) -> None:
    """What a design shows is compared too, so that less is needed."""
    library = module()
    script = counterexample(library, bug, 1)
    short = part_of("shrink").shrink_design(script, lambda it: Design(setting_of(it.config), bug), answers=True)
    said = {"NoInvalidation": "# messages(0)", "LostBlock": "# directory(0).home"}[bug.__name__]
    want(short.splitlines()[-1].startswith(said) and len(commands_of(short)) <= 5, short)
    want_tested(short, 1)


def test_replies_to_stores() -> None:
    """.. aren't compared."""
    module()
    script = "issue 0 0 store 8 1\npump 9\nhand 0 0\nissue 0 0 store 8 2\nissue 0 0 load 8\n"

    def answers(text: str) -> list[str]:
        return [it.replace("reply 0", "reply 9") for it in part_of("script").Script.of(text).answers()]
    try:
        part_of("shrink").shrink_script(script, answers, answers=True)
    except part_of("shrink").NoFault as error:
        same("error", "nothing differs", str(error))
    else:
        raise Different("a reply to a store differs")


def test_core() -> None:
    """What fails only together stays, in its order, and nothing else; without anything to keep all goes."""
    shrink, draw = part_of("shrink").shrink, random.Random(1)
    for count in chain(range(1, 12), (100, 137)):
        for needed in (1, 2, 5, count):
            kept = sorted(draw.sample(range(count), min(needed, count)))
            same(f"{kept} of {count}", kept, shrink(range(count), lambda it: set(kept) <= set(it)))
    same("nothing is needed", [], shrink(range(9), lambda it: True))
    same("of nothing", [], shrink([], lambda it: True))
    same("any two", 2, len(shrink(range(50), lambda it: len(it) > 1)))


# ---- cells of the tables

# scripts whose last command meets a cell, which by hand takes so many commands, and what is said of it
CELLS = {
    # a reader's invalidation, which overtakes its data
    "blocked": ("""cores 4
lines 8
init 9 5
issue 3 1 store 40 6
issue 2 0 load 9
issue 1 7 add 17 2
pump 50
hand 3 0
show
issue 0 2 load 10
deliver req 1 0
issue 2 0 store 9 7
issue 2 1 store 9 7
deliver req 1 2
deliver fwd 1 0
""", 5, "core (IS_D, Inv): blocked, to IS_D"),
    # a hit, and a miss of a second register
    "hit": ("cores 2\nissue 0 0 load 8\npump 9\nissue 0 1 load 16\nissue 1 1 load 16\npump 9\nissue 0 2 load 17\n", 4,
            "core (S, load): done, to S"),
    "stall": ("cores 1\nmshrs 2\nissue 0 0 load 8\nissue 0 1 load 16\nissue 0 2 load 17\nissue 0 3 store 24 9\n", 2,
              "core (I, write): stall 1 NoRegister, to I"),
    "eviction": ("cores 1\nissue 0 0 store 8 1\npump 9\nissue 0 1 store 17 1\npump 9\nevict 0 1\n", 4,
                 "core (M, eviction): evicting, to MI_A"),
    "directory": ("issue 0 0 load 8\npump 9\nissue 1 0 load 9\npump 9\nissue 0 1 add 8 1\ndeliver req 1 0\n", 7,
                  "directory (S requester shares others share, GetM): moved, to M requester owns"),
}


@each(lambda: CELLS)
def test_cells(name: str) -> None:
    """The same cell is met, by as few commands as by hand; the machine and its numbers are small."""
    module()
    script, count, cell = CELLS[name]
    short = part_of("shrink").shrink_script(script, answers=True)
    want_tested(short, 1)
    same("commands", count, len(commands_of(short)))
    same("cell", f"# it meets {cell}", short.splitlines()[-1])
    want("pump" not in short and "init" not in short and f"lines {1 + (name == 'stall')}\n" in short, short)


def test_no_cell() -> None:
    module()
    for text in ("", "cores 2\n", "issue 0 0 load 0\nhand 0 0\n", "deliver req 0 0\n", "issue 0 64 load 8\n"):
        try:
            part_of("shrink").shrink_script(text)
        except part_of("shrink").NoFault as error:
            same("error", "the last command meets no cell of the tables", str(error))
        else:
            raise Different(f"{text!r} meets a cell")


# ---- the command

DRIVER = """import sys
from lockup.script import Script
answers = Script.of(open(sys.argv[1]).read()).answers()
print(*ANSWERS, sep='\\n')
"""


def shrunk(*words: str | Path, text: str | None = None, cache: str | None = None) -> Ran:
    environment = {**os.environ, "LOCKUP_LIBRARY": str(shared()), "PYTHONPATH": str(ROOT / "python")}
    environment |= {"XDG_CACHE_HOME": cache} if cache else {}
    return run([sys.executable, "-m", "lockup.shrink", "--answers", *words], text, env=environment, timeout=None)


FILE = "# a comment\ncores 1\n\nissue 0 0 load 8 = pending 0\n= nothing\nwaiting\npump 5\nhand 0 0\nissue 0 0 load 8\n"
# what a driver's program says or does in place of the model's answers, and the status and what is said of it
DRIVERS = [
    ("['?' if it.startswith('receipt') else it for it in answers]", 1, "nothing differs"),
    ("answers", 1, "nothing differs"),
    ("['?'] * len(answers)", 1, "nothing differs"),
    ("[it.replace('done', 'pending') for it in answers]", 0, "5 of 5 commands are left"),
    ("[it.replace('receipt 0', 'receipt ?').replace('moved', 'blocked') for it in answers]", 0, "2 of 5 commands are left"),
    ("answers[1:]", 2, "5 commands have 4 answers"),
    ("sys.exit('no such cache')", 2, "ends with status 1, and printed:\nno such cache"),
]


@seconds(3)
@each(lambda: [(f"{number}", *row) for number, row in enumerate(DRIVERS)])
def test_drivers(_: str, answers: str, status: int, said: str) -> None:
    with tempfile.TemporaryDirectory() as room:
        file, driver = write(f"{room}/script.txt", FILE), write(f"{room}/driver.py", DRIVER.replace("ANSWERS", answers))
        ran = shrunk(file, "--against", f"{sys.executable} '{driver}' {{}}", "--to", f"{room}/short.txt")
        same("status and output", (status, ""), ran[:2])
        want(said in ran.err and ran.err.startswith("lockup-shrink: "), ran.err)
        same("there is a short script", status == 0, Path(room, "short.txt").exists())


def test_command() -> None:
    """From standard input to standard output; and what is wrong with a command line, a file or a script."""
    with tempfile.TemporaryDirectory() as room:
        file = write(f"{room}/script.txt", "issue 0 0 load 0\nissue 0 1 load 0\n")
        ran = shrunk("-", text=CELLS["hit"][0])
        same("status and remark", (0, "lockup-shrink: 4 of 10 commands are left"), (ran.status, ran.err.partition(";")[0]))
        want_tested(ran.out, 4)
        for words, text, status, said in (
                ([f"{room}/none"], None, 2, "No such file"), ([file, "--against", "cat"], None, 2, "has no {}"),
                ([file, "--against", "none/such {}"], None, 2, "none/such can't be started: No such file"),
                (["-"], "cores 2\nissue 0 load\n", 2, "line 2: not a command: issue 0 load"),
                (["-"], "issue 0 0 load 0\ncores 2\n", 2, "line 2: not a command: cores 2"),
                (["-"], "deliver any 0 0\n", 2, "line 1: not a command: deliver any 0 0"),
                (["-"], "ways 99\nissue 0 0 load 0\n", 2, "config 5 ways"),
                (["-"], "evict 9 0\n", 2, "out of range"), (["-"], "hand 0 0\n", 1, "meets no cell")):
            ran = shrunk(*words, text=text)
            same("status and output", (status, ""), ran[:2])
            want(said in ran.err and "Traceback" not in ran.err, ran.err)


# ---- the planted bugs of examples/cosim

def cosim(*words: str | Path, cache: str) -> Ran:
    return run([COSIM / words[0], *words[1:]], env={**os.environ, "LOCKUP_LIBRARY": str(shared()), "XDG_CACHE_HOME": cache})


def want_short(kind: str, bug: str, found: list[str], cache: str) -> None:
    """The lock step finds a counterexample, whose short script fails too."""
    script, short = Path(cache, "counterexample.txt"), Path(cache, "short.txt")
    same("status of the lock step", 1, cosim(kind, bug, *(it.format(script) for it in found), cache=cache).status)
    ran = shrunk(script, "--against", f"{COSIM / kind} {bug} --script {{}}", "--to", short, cache=cache)
    want(ran.status == 0 and not ran.out, ran.err)

    def answers(text: str) -> list[str]:
        ran = cosim(kind, bug, "--script", write(f"{cache}/played.txt", text), cache=cache)
        same("status and error of the player", (0, ""), (ran.status, ran.err))
        return ran.out.splitlines()
    count = want_shrunk(short.read_text(), answers)
    want(count <= SHORT, f"{count} commands are left")


@seconds(10)
@each(lambda: "123")
def test_cpp(bug: str) -> None:
    shared()
    needs("c++")
    with tempfile.TemporaryDirectory() as room:
        want_short("cpp", bug, ["100000", "1", "{}"], room)


@seconds(60)
@each(lambda: "1234")
def test_systemverilog(row: str) -> None:
    shared()
    needs("verilator", "c++", "make")
    with tempfile.TemporaryDirectory() as room:
        want_short("systemverilog", row, ["+answers", "+script={}"], room)


REFUSED = [("init 0 1\ninit 0 2\n", "config 9 init"), ("init 1 1\ninit 0 2\n", "config 9 init"), ("counter 1\ncounter 1\n", "config 10 counters"),
           ("seed 7\n", "line 1: not a command: seed 7"), ("exclusive on 7\n", "line 1: not a command: exclusive on 7"),
           ("policy lru 3\n", "line 1: not a command: policy lru 3"), ("policy random\n", "line 1: not a command: policy random"),
           ("waiting all\n", "line 1: not a command: waiting all")]


@each(lambda: [(text, text, said) for text, said in REFUSED])
def test_what_no_script_has(_: str, text: str, said: str) -> None:
    ran = shrunk("-", text=f"{text}issue 0 0 load 0\n")
    same("status and error", (2, f"lockup-shrink: {said}\n"), (ran.status, ran.err))


def test_players_refuse() -> None:
    """.. a script of another machine, and say so."""
    shared()
    needs("c++")
    with tempfile.TemporaryDirectory() as room:
        for text in ("cores 2\nhand 0 0\n", "cores 1\npolicy fifo\nhand 0 0\n", "cores 1\nhand 0 0\nlog 0\n"):
            ran = cosim("cpp", "0", "--script", write(f"{room}/script.txt", text), cache=room)
            want(ran.status == 2 and ran.err.startswith("the cache can't play "), str(ran))
        want(cosim("cpp", "0", "--script", f"{room}/none", cache=room).status == 2, "a script is read that isn't there")


@seconds(2)
def test_trace() -> None:
    """One access of the toy simulator is left, an add, and the one that it lets in changes what it has read."""
    ran = run([sys.executable, COSIM / "shrink_trace.py"], env={**os.environ, "LOCKUP_LIBRARY": str(shared())})
    same("status and error", (0, "1 of 2000 accesses are left\n"), (ran.status, ran.err))
    head, first, last = ran.out.splitlines()
    same("head", "lockup-trace no-since", head)
    same("kinds", ["add", "add"], [it.split()[4] for it in (first, last)])
    same("replies", ["0", "0"], [it.split()[-1] for it in (first, last)])
