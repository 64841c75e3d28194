"""`lockup.Scoreboard` and `lockup.looks`: a second machine, and the account of tests/harness, agree with it call by call and
in all that they show; each kind of difference is told with its field, and what has no meaning isn't compared; the script
wants what the machine answered, which `lockup test` confirms; what is raised can be pickled."""
import pickle
import random
import tempfile
from types import ModuleType, SimpleNamespace
from typing import Any, Iterator

from harness import Different, each, lockup, same, seconds, want, write
from harness.account import Access, Account, Setting, Slice
from harness.library import module

CALLS = 4_000
LOOKS = 40
KINDS = ("load", "store", "add", "cas")
STALLS = ("NoRegister", "NoTarget", "NoWay", "WriteBackFull", "WriteBackBusy")
REFUSED = ("OutOfRange", "TagRange", "TagBusy", "CounterStore")
EVICTED = ("evicting", "not held", "busy", "buffer full")
DELIVERED = ("moved", "blocked", "nothing")
CHANNELS = ("req", "fwd", "data", "ack", "home")
COPIES = ("I", "IS_D", "IM_AD", "IM_A", "S", "SM_AD", "SM_A", "M", "MI_A", "SI_A", "II_A", "E")
MESSAGES = ("GetS", "GetM", "PutS", "PutM", "Fwd-GetS", "Fwd-GetM", "Inv", "Put-Ack", "Data", "Data-E", "Inv-Ack",
            "Data home")
SHAPE = "cores slices lines sets ways mshrs targets writebacks seed exclusive".split()
BROKEN = 3


def record(**fields: Any) -> SimpleNamespace:
    return SimpleNamespace(**fields)


class Design:
    """The account as a design: its calls and looks have the names of the machine's, and its answers their numbers."""

    def __init__(self, setting: Setting, kind: type[Slice] = Slice) -> None:
        self.account = Account(setting)
        self.account.slices = [kind(setting, number) for number in range(setting.slices)]

    # ---- calls

    def issue(self, core: int, tag: int, op: int, word: int, operand: int = 0, replacement: int = 0) -> tuple:
        told = self.account.issue(core, tag, Access(KINDS[op], word, operand, replacement))
        if told[0] in ("stall", "refused"):
            return (2, STALLS.index(told[1]) + 1, None) if told[0] == "stall" else (3, REFUSED.index(told[1]) + 1, None)
        return (0, *told[1:]) if told[0] == "done" else (1, told[1], None)

    def evict(self, core: int, line: int) -> int:
        return EVICTED.index(self.account.evict(core, line))

    def deliver(self, channel: int, line: int, core: int = 0, sender: int = 0) -> int:
        names = {"home": (), "ack": (core, sender)}.get(CHANNELS[channel], (core,))
        try:
            return DELIVERED.index(self.account.deliver(line, (CHANNELS[channel], *names)))
        except Different:
            return BROKEN

    def deliver_next(self, slice: int = 0, channel: int = 5) -> tuple:
        answer, line, found = self.account.slices[slice].deliver_next((*CHANNELS, "any")[channel])
        if answer != "moved":
            return DELIVERED.index(answer), None, 0, 0, 0
        return 0, CHANNELS.index(found[0]), line, *(*found[1:], 0, 0)[:2]

    def hand(self, core: int, slice: int = 0) -> tuple | None:
        return self.account.slices[slice].hand(core)

    # ---- looks

    def of_line(self, line: int) -> Any:
        return self.account.of_line(line).lines[line]

    def copy(self, core: int, line: int) -> SimpleNamespace:
        copy = self.account.of_line(line).cores[core].copy(line)
        return record(state=COPIES.index(copy.state), wants=copy.wanted, counted=copy.counted, block=list(copy.block))

    def directory(self, line: int) -> SimpleNamespace:
        entry = self.of_line(line).entry
        return record(state=("I", "S", "M", "S_D").index(entry.state), owner=entry.owner, sharers=sorted(entry.sharers),
                      home=entry.home)

    def registers(self, core: int, slice: int) -> list:
        cache, found = self.account.slices[slice].cores[core], []
        for line, targets in cache.registers.items():
            copy = cache.copy(line)
            needed = None if copy.state in ("IM_AD", "SM_AD") else copy.wanted
            found.append(record(line=line, kind=int(copy.state != "IS_D"), needed=needed, counted=copy.counted,
                                targets=len(targets)))
        return found

    def targets(self, core: int, line: int) -> list:
        targets = self.account.of_line(line).cores[core].registers.get(line, [])
        return [record(tag=it.tag, op=KINDS.index(it.access.kind), word=it.access.word, operand=it.access.one,
                       replacement=it.access.two, seq=it.seq, since=it.since) for it in targets]

    def writebacks(self, core: int, slice: int) -> list[int]:
        return [*self.account.slices[slice].cores[core].buffer]

    def ways(self, core: int, line: int) -> list[int]:
        return self.account.of_line(line).cores[core].slots(line)

    def messages(self, line: int) -> list:
        return [self.message(line, it) for it in self.of_line(line).waiting()]

    def message(self, line: int, channel: tuple) -> SimpleNamespace:
        message = self.of_line(line).front(channel)
        core, sender = (*channel[1:], 0, 0)[:2]
        return record(channel=CHANNELS.index(channel[0]), line=line, core=core, sender=sender,
                      kind=MESSAGES.index(message.name), requester=message.core, acks=message.acks, block=message.block)

    @property
    def quiet(self) -> bool:
        return all(it.is_quiet() for it in self.account.slices)

    def word(self, word: int) -> int | None:
        return self.account.word(word)


def setting_of(config: Any) -> Setting:
    """Returns a configuration of the library as the account has it."""
    return Setting(**{it: getattr(config, it) for it in SHAPE}, policy=("lru", "fifo", "random")[config.policy],
                   misses=("explicit", "inverted")[config.misses])


# ---- drawn calls

def drawn(draw: random.Random, machine: Any) -> tuple:
    """Returns a call and its numbers; most deliveries are of a message that waits."""
    config, kind = machine.config, draw.randrange(20)
    core, line, slice = (draw.randrange(it) for it in (config.cores, config.lines, config.slices))
    if kind < 7:
        op = draw.randrange(4)
        word = draw.randrange(8 * config.lines) if draw.randrange(40) else 8 * config.lines
        operands = [draw.randrange(3)] * (op > 0) + [draw.randrange(3)] * (op > 2)
        return "issue", core, draw.randrange(8) if draw.randrange(40) else 64, op, word, *operands
    if kind < 14:
        waiting = machine.messages()
        if waiting and draw.randrange(8):
            return "deliver", *waiting[draw.randrange(len(waiting))][:4]
        return "deliver", draw.randrange(5), line, core, draw.randrange(config.cores)
    if kind < 16:
        return "deliver_next", slice, draw.randrange(6)
    return ("evict", core, line) if kind < 17 else ("hand", core, slice)


def held(board: Any, design: Any, call: tuple) -> Any:
    """Makes a call of both."""
    name, *numbers = call
    expected = getattr(board, "expect_next" if name == "deliver_next" else f"expect_{name}")
    return expected(*numbers, answered=getattr(design, name)(*numbers))


SETTINGS = {
    "defaults": {}, "one core": {"cores": 1, "lines": 8, "sets": 2, "mshrs": 2, "targets": 2, "writebacks": 1},
    "exclusive": {"cores": 3, "lines": 4, "sets": 2, "ways": 1, "mshrs": 1, "targets": 3, "writebacks": 1, "exclusive": 1},
    "two slices": {"cores": 3, "slices": 2, "lines": 8, "sets": 2, "ways": 1, "mshrs": 2, "targets": 2, "writebacks": 1},
    "inverted": {"cores": 2, "lines": 6, "sets": 1, "ways": 2, "misses": 1, "policy": 1},
    "random victims": {"cores": 3, "lines": 8, "sets": 1, "ways": 3, "policy": 2, "seed": 7},
}


def second_machine(board: Any) -> Any:
    return board.machine.clone()


def account(board: Any) -> Any:
    return Design(setting_of(board.machine.config))


@seconds(10)
@each(lambda: [(f"{name}, {design.__name__}", name, design) for name in SETTINGS for design in (second_machine, account)])
def test_agrees(_: str, name: str, begun: Any) -> None:
    """.. with a machine, whose answers and looks are compared in each field, and with the account; then `lockup test` has
    nothing to say of the script."""
    draw, answers = random.Random(name), set()
    with module().Scoreboard(**SETTINGS[name], coverage=True) as board:
        design = begun(board)
        for number in range(CALLS):
            answers.add(held(board, design, drawn(draw, board.machine)) is None)
            if number % LOOKS == 0:
                board.compare(design)
        script = board.script(answers=True)
        covered = lockup("script", "--coverage", "-", text=board.script())
        same("coverage", (0, board.coverage_text()), (covered.status, covered.out))
        want(sum(it > 0 for it in board.coverage) > 12, f"few cells are met: {board.coverage}")
    same("replies were handed out, and there were none", {True, False}, answers)
    want_tested(script, 1)


def want_tested(script: str, least: int) -> None:
    """The machine's answers are those of `lockup test`, and there are so many."""
    wanted = [line.partition(" = ")[2] for line in script.splitlines() if " = " in line]
    with tempfile.TemporaryDirectory() as room:
        ran = lockup("test", write(f"{room}/script.txt", script))
    same("lockup test", (0, f"as wanted: {len(wanted)} lines\n", ""), tuple(ran))
    want(len(wanted) >= least, f"the script has {len(wanted)} commands")
    return wanted


def test_script() -> None:
    """A script has the configuration, what words begin with, counters, the commands with their answers, and what the design
    answered."""
    library = module()
    with library.Scoreboard(cores=2, lines=4, policy=2, seed=9, init={9: 7, 3: 1}, counters=[16]) as board:
        board.expect_issue(0, 3, 3, 9, 7, 8, answered=(1, 0, 0))
        board.expect_next(answered=(0, 0, 1, 0, 0))
        board.expect_next(channel=0, answered=(2, None, 0, 0, 0))
        board.expect_deliver(2, 1, 0, answered=0)
        board.expect_evict(1, 1, answered=1)
        board.expect_issue(1, 64, 0, 9, answered=(3, 2, None))
        raised(library, lambda: board.expect_hand(0, answered=(0, 3, 8)))
    rows = board.script(answers=True).splitlines()
    same("configuration", ["policy random 9", "misses explicit", "exclusive off", "init 3 1", "init 9 7", "counter 16"],
         rows[8:14])
    same("calls", ["issue 0 3 cas 9 7 8 = pending 0", "deliver req 1 0 = moved", "# next delivery of slice 0: nothing",
                   "deliver data 1 0 = moved", "evict 1 1 = not held", "issue 1 64 load 9 = refused 2 TagRange",
                   "hand 0 0 = receipt 0 tag 3 reply 7", "# the design answered: receipt 0 tag 3 reply 8"],
         [" ".join(it.split()) for it in rows[14:]])
    want_tested(board.script(answers=True), 6)


def test_after_a_difference() -> None:
    """.. each call raises it again, and makes nothing. What a design answers may be no number of 64 bits."""
    library = module()
    with library.Scoreboard(cores=1) as board:
        board.expect_issue(0, 0, 2, 0, 1, answered=(1, 0, None))
        board.machine.settle()
        first = raised(library, lambda: board.expect_hand(0, answered=(0, 0, 1 << 64)))
        same("text", f"hand 0 0: reply is 0, and the design's is {1 << 64}", str(first))
        script = board.script()
        for call in (lambda: board.expect_issue(0, 1, 0, 0, answered=(0, 0, 0)), lambda: board.compare(SimpleNamespace()),
                     lambda: board.expect_next(answered=(2, None, 0, 0, 0))):
            same("again", True, raised(library, call) is first)
        same("script", script, board.script())
    with library.Scoreboard(cores=1) as board:
        differs = raised(library, lambda: board.expect_next(answered=(0, 9, 1, 2, 3)))
        same("no such channel", "answer is NOTHING, and the design's is MOVED", str(differs).partition(": ")[2])


def test_sharers_are_a_set() -> None:
    with module().Scoreboard(cores=9) as board:
        for core in (8, 1):
            board.machine.load(core, 0, 0)
            board.machine.settle()
        entry = board.machine.directory(0)
        board.compare(SimpleNamespace(directory=lambda line: entry._replace(sharers={8, 1}) if line == 0
                                      else board.machine.directory(line)))


def test_without_a_record() -> None:
    library = module()
    with library.Scoreboard(record=False) as board:
        board.expect_issue(0, 0, 0, 0, answered=(1, None, None))
        differs = raised(library, lambda: board.expect_issue(0, 0, 0, 0, answered=(0, 0, 0)))
        same("text", "issue 0 0 load 0: answer is REFUSED, and the design's is DONE", str(differs))
        try:
            board.script(answers=True)
        except ValueError as error:
            same("error", "the calls aren't recorded", str(error))
        else:
            raise Different("it has a script")
        try:
            board.coverage_text()
        except ValueError as error:
            same("error", "cells aren't counted", str(error))
        else:
            raise Different("it has counts")


def test_replies_to_stores() -> None:
    """.. aren't compared, nor is the order in which lines are written back."""
    with module().Scoreboard(cores=1, lines=8) as board:
        for line in range(2):
            board.expect_issue(0, line, 1, 8 * line, 5, answered=(1, None, 7))
            board.machine.settle()
            board.expect_hand(0, answered=(line, line, 9))
        board.expect_issue(0, 2, 1, 8, 6, answered=(0, 2, 5))
        board.expect_evict(0, 0, answered=0)
        board.expect_evict(0, 1, answered=0)
        board.compare(SimpleNamespace(writebacks=lambda core, slice: [1, 0]))
        same("written back", (0, 1), board.machine.writebacks(0))


def test_what_is_refused() -> None:
    """A call that the machine refuses isn't in the script, and neither is one whose answer is no answer."""
    library = module()
    with library.Scoreboard(cores=1) as board:
        before = board.script(answers=True)
        for call, kind in ((lambda: board.expect_issue(1, 0, 0, 0, answered=(1, 0, 0)), library.OutOfRange),
                           (lambda: board.expect_deliver(0, 99, answered=2), library.OutOfRange),
                           (lambda: board.expect_evict(0, 1.5, answered=1), TypeError),
                           (lambda: board.compare(SimpleNamespace(copy=lambda core, line: 5)), TypeError)):
            try:
                call()
            except kind:
                continue
            raise Different("it isn't refused")
        same("script", before, board.script(answers=True))


# ---- differences

def raised(library: ModuleType, call: Any) -> Any:
    """Returns what a call raises."""
    try:
        call()
    except library.Differs as differs:
        return differs
    raise Different("nothing differs")


# Calls of a machine of one core with one register, which has replied to tag 5 of word 8, and waits for word 16 with a load
# in front of its request channel: the call, what the design answers, and how that differs.
ANSWERS = [
    ("issue", (0, 1, 1, 8, 7), (0, 2, 0), ("answer", "STALL", "DONE")),
    ("issue", (0, 1, 0, 8), (0, 2, 9), ("reply", 6, 9)),
    ("issue", (0, 1, 0, 8), (0, 1, 6), ("number", 2, 1)),
    ("issue", (0, 1, 0, 8), (9, 1, 6), ("answer", "DONE", 9)),
    ("issue", (0, 1, 0, 17), (1, 4, None), ("number", 3, 4)),
    ("issue", (0, 1, 0, 24), (2, 2, None), ("reason", "NO_REGISTER", "NO_TARGET")),
    ("issue", (0, 1, 0, 24), (3, 2, None), ("answer", "STALL", "REFUSED")),
    ("issue", (0, 5, 0, 24), (3, 1, None), ("reason", "TAG_BUSY", "OUT_OF_RANGE")),
    ("evict", (0, 1), 2, ("answer", "EVICTING", "BUSY")),
    ("evict", (0, 3), 0, ("answer", "NOT_HELD", "EVICTING")),
    ("deliver", (0, 2, 0), 1, ("answer", "MOVED", "BLOCKED")),
    ("deliver", (2, 2, 0), 0, ("answer", "NOTHING", "MOVED")),
    ("deliver_next", (), (2, None, 0, 0, 0), ("answer", "MOVED", "NOTHING")),
    ("deliver_next", (), (0, 2, 2, 0, 0), ("channel", "REQ", "DATA")),
    ("deliver_next", (), (0, 0, 3, 0, 0), ("line", 2, 3)),
    ("deliver_next", (), (0, 0, 2, 1, 0), ("core", 0, 1)),
    ("deliver_next", (0, 2), (0, 2, 2, 0, 0), ("answer", "NOTHING", "MOVED")),
    ("issue", (0, 1, 1, 25), (3, 4, None), ("answer", "STALL", "REFUSED")),
    ("hand", (0,), None, ("handed", True, False)),
    ("hand", (0,), (2, 5, 0), ("number", 0, 2)),
    ("hand", (0,), (0, 4, 0), ("tag", 5, 4)),
    ("hand", (0,), (None, None, 3), ("reply", 6, 3)),
]


def begun(library: ModuleType) -> Any:
    board = library.Scoreboard(cores=1, mshrs=1, init={8: 6})
    board.expect_issue(0, 5, 0, 8, answered=(1, None, None))
    board.expect_deliver(0, 1, answered=0)
    board.expect_deliver(2, 1, answered=0)
    board.expect_issue(0, 6, 0, 9, answered=(0, 1, 0))
    board.expect_issue(0, 7, 0, 16, answered=(1, 2, None))
    return board


def shown(value: object) -> object:
    return getattr(value, "name", value)


@each(lambda: [(f"{number} {row[0]}", *row) for number, row in enumerate(ANSWERS)])
def test_answers(_: str, name: str, numbers: tuple, answered: Any, wanted: tuple) -> None:
    """.. and the script has the machine's answer, and after it the design's."""
    library = module()
    with begun(library) as board:
        call = getattr(board, {"deliver_next": "expect_next"}.get(name, f"expect_{name}"))
        differs = raised(library, lambda: call(*numbers, answered=answered))
    same("difference", wanted, (differs.field, shown(differs.wanted), shown(differs.came)))
    again = pickle.loads(pickle.dumps(differs))
    same("pickled", (type(differs), str(differs), vars(differs)), (type(again), str(again), vars(again)))
    *_, command, answer = board.script(answers=True).splitlines()
    want(answer.startswith("# the design answered: "), answer)
    same("call", differs.call, command.partition(" = ")[0].rstrip())
    want_tested(board.script(answers=True), 6)


def busy(library: ModuleType) -> Any:
    """A machine whose line 0 is written back, 1 waits for data that weren't asked for yet, 2 for an acknowledgement, and 3
    for data that are under way."""
    board = library.Scoreboard(cores=2, lines=4, init={16: 5})
    machine = board.machine
    machine.store(0, 0, 0, 7)
    machine.load(0, 1, 16)
    machine.load(1, 1, 16)
    machine.settle()
    machine.evict(0, 0)
    machine.load(0, 2, 8)
    machine.store(1, 2, 16, 3)
    machine.cas(1, 3, 17, 1, 2)
    machine.deliver(0, 2, 1)
    machine.deliver(2, 2, 1)
    machine.load(0, 3, 24)
    machine.deliver(0, 3, 0)
    return board


def places(machine: Any) -> Iterator[tuple[str, tuple]]:
    lines, cores = range(4), range(2)
    for name in ("copy", "targets", "ways", "state"):
        yield from ((name, (core, line)) for core in cores for line in lines)
    for name in ("registers", "writebacks", "counts"):
        yield from ((name, (core, 0)) for core in cores)
    for name in ("directory", "messages"):
        yield from ((name, (line,)) for line in lines)
    yield "message_counts", (0,)


def other(value: Any) -> Any:
    """Returns another value of its kind."""
    if isinstance(value, tuple):
        return (value[0] + 1, *value[1:]) if value else (9,)
    return 0 if value is None else not value if isinstance(value, bool) else int(value) + 1


def unmeant(found: Any) -> set[str]:
    """Returns the fields of a record that mean nothing, as lockup.h has it."""
    kind = type(found).__name__
    if kind == "Copy":
        state = found.state.name
        fields = {"wants"} if state not in ("IM_A", "SM_A") else set()
        fields |= {"counted"} if state not in ("IM_AD", "SM_AD", "IM_A", "SM_A") else set()
        return fields | ({"block"} if state in ("I", "IS_D", "IM_AD", "II_A") else set())
    if kind == "Directory":
        state = found.state.name
        fields = {"owner"} if state != "M" else set()
        fields |= {"sharers"} if state not in ("S", "S_D") else set()
        return fields | ({"home"} if state not in ("I", "S") else set())
    if kind == "Register" and found.kind.name == "GETS":
        return {"needed", "counted"}
    if kind == "Target":
        return {"LOAD": {"operand", "replacement"}, "CAS": set()}.get(found.op.name, {"replacement"})
    if kind == "Message":
        name = found.kind.name
        fields = {"sender"} if found.channel.name != "ACK" else set()
        fields |= {"acks"} if name != "DATA" else set()
        fields |= {"block"} if name not in ("PUTM", "DATA", "DATA_E", "HOME") else set()
        return fields | ({"requester"} if name not in ("FWD_GETS", "FWD_GETM", "INV") else set())
    return set()


def spoiled(machine: Any, name: str, place: tuple) -> Iterator[tuple[str, Any, bool]]:
    """Returns what is shown in a place with one field changed, for each; which, and whether it has a meaning."""
    found = getattr(machine, name)(*place)
    if hasattr(found, "_fields"):
        yield from ((field, found._replace(**{field: other(getattr(found, field))}), field not in unmeant(found))
                    for field in found._fields)
    elif isinstance(found, tuple) and found and hasattr(found[0], "_fields"):
        for nth, it in enumerate(found):
            for field in it._fields:
                changed = it._replace(**{field: other(getattr(it, field))})
                yield field, (*found[:nth], changed, *found[nth + 1:]), field not in unmeant(it)
        yield "", found[1:], True
    else:
        yield "", other(found), True


# fields by which a record of a list is found: where another is there, the list is told
NAMING = {"registers": ("line",), "messages": ("channel", "line", "core", "sender")}


def again(library: ModuleType, board: Any, call: Any) -> Any:
    """Returns the difference that a call raises, and lets the board go on."""
    differs = raised(library, call)
    board._differs = None
    return differs


def test_looks() -> None:
    """Each field of each look is compared where it means something, and only there."""
    library = module()
    with busy(library) as board:
        machine, told, quiet = board.machine, 0, 0
        for name, place in places(machine):
            for field, value, has_meaning in spoiled(machine, name, place):
                at = f"{name}({', '.join(map(str, place))})"
                design = SimpleNamespace(**{name: lambda *its: value if its == place else getattr(machine, name)(*its)})
                if not has_meaning:
                    quiet += 1
                    board.compare(design)
                    continue
                told += 1
                differs = again(library, board, lambda: board.compare(design))
                want(differs.field.startswith(at), f"{at} {field}: {differs}")
                ends = "" if field in NAMING.get(name, ()) else f".{field}" if field else ""
                want(differs.field.endswith(ends), f"{at} {field}: {differs}")
                want(ends or "." not in differs.field, f"{at} {field}: {differs}")
        want(told > 100 and quiet > 20, f"{told} fields with a meaning, and {quiet} without")
        same("a line that isn't asked for", None, board.compare(SimpleNamespace(state=lambda *its: 99), lines=[]))
        differs = again(library, board, lambda: board.compare(SimpleNamespace(writebacks=lambda *its: [3])))
        same("written back", ("writebacks(0, 0)", (0,), (3,)), (differs.field, differs.wanted, differs.came))
        differs = again(library, board, lambda: board.compare(SimpleNamespace(ways=lambda *its: [3]), lines=[2]))
        same("ways", ("ways(0, 2)", (2,), (3,)), (differs.field, differs.wanted, differs.came))
        differs = again(library, board, lambda: board.compare(SimpleNamespace(registers=lambda *its: [])))
        same("registers", ("registers(0, 0)", ("line 1", "line 3"), ()), (differs.field, differs.wanted, differs.came))
        same("quiet", "quiet", again(library, board, lambda: board.compare(SimpleNamespace(quiet=True))).field)
        same("no word where it isn't quiet", None, board.compare(SimpleNamespace(word=lambda word: 99)))
    with library.Scoreboard(lines=1, init={3: 8}) as board:
        differs = again(library, board, lambda: board.compare(SimpleNamespace(ways=lambda *its: [4])))
        same("no ways", ("ways(0, 0)", (), (4,)), (differs.field, differs.wanted, differs.came))
        differs = again(library, board, lambda: board.compare(SimpleNamespace(word=lambda word: 9 * (word == 3))))
        same("word", ("", "word(3)", 8, 9), (differs.call, differs.field, differs.wanted, differs.came))
        same("text", "before any call: word(3) is 8, and the design's is 9", str(differs))
        same("script", f"# {differs}", board.script(answers=True).splitlines()[-1])
