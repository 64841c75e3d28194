"""An account of a machine, written from docs/PROTOCOL.md, docs/TRUST.md and, for the order of the ring and the choice of
victims, the definitions in specs/: what each call answers and leaves.

It is another machine than the one under test and shares nothing with it: lists and dictionaries, a
row of the tables a line. Answers are tuples of the words of docs/TEXTS.md (`("done", 3, 7)`,
`("stall", "NoWay")`, `("moved",)`). After each call it looks whether the line is coherent.
"""
from dataclasses import dataclass, field
from typing import Callable, NamedTuple

from .compare import want
from .generator import MASK, Generator

WORDS = 8
TAGS = 64
WAITING = ("IS_D", "IM_AD", "IM_A", "SM_AD", "SM_A")
READABLE = ("S", "SM_AD", "SM_A", "M", "E")
WRITERS = ("M", "E")
MAY_LEAVE = ("S", "M", "E")
LEAVES_AS = {"S": ("PutS", "SI_A"), "M": ("PutM", "MI_A"), "E": ("PutM", "MI_A")}
CLASSES = ("home", "data", "ack", "fwd", "req")


@dataclass
class Setting:
    """A configuration, by the names of docs/TEXTS.md."""

    cores: int = 2
    slices: int = 1
    lines: int = 16
    sets: int = 4
    ways: int = 2
    mshrs: int = 4
    targets: int = 4
    writebacks: int = 2
    policy: str = "lru"
    seed: int = 0
    misses: str = "explicit"
    exclusive: bool = False
    init: list[tuple[int, int]] = field(default_factory=list)
    counters: list[int] = field(default_factory=list)

    def script(self) -> list[str]:
        """Returns the lines of a script that configure the same machine."""
        names = "cores slices lines sets ways mshrs targets writebacks misses".split()
        rows = [f"{name} {getattr(self, name)}" for name in names]
        rows.append(f"policy {self.policy} {self.seed}" if self.policy == "random" else f"policy {self.policy}")
        rows.append(f"exclusive {'on' if self.exclusive else 'off'}")
        return rows + [f"init {word} {value}" for word, value in self.init] + [f"counter {it}" for it in self.counters]


class Access(NamedTuple):
    """An access: `load`, `store`, `add` or `cas`, its word, and its one or two operands (else 0)."""

    kind: str
    word: int
    one: int = 0
    two: int = 0

    def writes(self) -> bool:
        return self.kind != "load"

    def performed(self, value: int) -> tuple[int, int]:
        """Returns the reply, and the word afterwards."""
        after = {"load": value, "store": self.one, "add": (value + self.one) & MASK,
                 "cas": self.two if value == self.one else value}[self.kind]
        return 0 if self.kind == "store" else value, after


class Target(NamedTuple):
    """An access that waits in a miss register."""

    access: Access
    tag: int
    seq: int
    since: int


class Entry(NamedTuple):
    """A performed access, as a log has it."""

    core: int
    seq: int
    tag: int
    access: Access
    reply: int
    since: int


class Message(NamedTuple):
    """A message: its name in docs/PROTOCOL.md, the core that it is for or of, acknowledgements to await, its block."""

    name: str
    core: int = 0
    acks: int = 0
    block: tuple[int, ...] = ()


@dataclass
class Copy:
    """A core's copy of a line."""

    state: str
    block: tuple[int, ...] = (0,) * WORDS
    wanted: int = 0
    counted: int = 0


class Directory:
    """A line's directory entry."""

    def __init__(self, block: tuple[int, ...]) -> None:
        self.state, self.owner, self.sharers, self.home = "I", None, set(), block


class Line:
    """A line of a slice: its entry, its channels by their names, and what was performed last on it."""

    def __init__(self, block: tuple[int, ...]) -> None:
        self.entry, self.newest = Directory(block), list(block)
        # ("req", core), ("fwd", core), ("data", core), ("ack", to, from), ("home",); each oldest first
        self.channels: dict[tuple, list[Message]] = {}

    def send(self, channel: tuple, message: Message) -> None:
        self.channels.setdefault(channel, []).append(message)
        want(len(self.channels[channel]) <= (2 if channel[0] == "fwd" else 1), f"no room in {channel}")

    def front(self, channel: tuple) -> Message | None:
        return self.channels[channel][0] if channel in self.channels else None

    def take(self, channel: tuple) -> None:
        self.channels[channel].pop(0)
        if not self.channels[channel]:
            del self.channels[channel]

    def waiting(self) -> list[tuple]:
        """Returns the channels with messages, in the order of `waiting`."""
        return sorted(self.channels, key=lambda it: (CLASSES.index(it[0]), it[1:]))


class Core:
    """One core's part of a slice."""

    def __init__(self, setting: Setting, slice_number: int, number: int) -> None:
        self.setting, self.accepted = setting, 0
        self.sets: list[list[int]] = [[] for _ in range(setting.sets)]
        self.copies: dict[int, Copy] = {}
        self.registers: dict[int, list[Target]] = {}
        self.buffer: dict[int, Copy] = {}
        # what becomes of a tag: None while it waits, then its entry's number
        self.tags: dict[int, int | None] = {}
        self.generator = Generator((setting.seed + 64 * slice_number + number) & MASK)

    def slots(self, line: int) -> list[int]:
        """The lines of a line's set, in the order that the policy keeps."""
        return self.sets[line // self.setting.slices % self.setting.sets]

    def copy(self, line: int) -> Copy:
        return self.copies.get(line) or self.buffer.get(line) or Copy("I")

    def use(self, line: int) -> None:
        if self.setting.policy == "lru":
            self.slots(line).remove(line)
            self.slots(line).append(line)

    def insert(self, line: int, copy: Copy) -> None:
        self.slots(line).append(line)
        self.copies[line] = copy

    def remove(self, line: int) -> Copy:
        self.slots(line).remove(line)
        return self.copies.pop(line)

    def candidates(self, line: int) -> list[int]:
        return [it for it in self.slots(line) if self.copies[it].state in MAY_LEAVE]

    def victim(self, line: int) -> int:
        """Chooses the line that leaves, and draws a word where the policy does."""
        may_leave = self.candidates(line)
        return may_leave[self.generator.word() % len(may_leave) if self.setting.policy == "random" else 0]

    def can_open(self) -> bool:
        return self.setting.misses == "inverted" or len(self.registers) < self.setting.mshrs

    def can_join(self, line: int) -> bool:
        return self.setting.misses == "inverted" or len(self.registers[line]) < self.setting.targets

    def has_room(self) -> bool:
        return len(self.buffer) < self.setting.writebacks

    def access(self, line: int, access: Access) -> str:
        """Returns what an access is: `hit`, `secondary`, `primary`, or why it stalls."""
        if line in self.registers:
            return "secondary" if self.can_join(line) else "NoTarget"
        if line in self.buffer:
            return "WriteBackBusy"
        state = self.copy(line).state
        if state in WRITERS or state == "S" and not access.writes():
            return "hit"
        if not self.can_open():
            return "NoRegister"
        if state == "S" or len(self.slots(line)) < self.setting.ways:
            return "primary"
        if not self.candidates(line):
            return "NoWay"
        return "primary" if self.has_room() else "WriteBackFull"


def block_with(block: tuple[int, ...], offset: int, value: int) -> tuple[int, ...]:
    return (*block[:offset], value, *block[offset + 1:])


class Slice:
    """A slice: the lines that are its own, its cores' caches, log, counts and ring."""

    def __init__(self, setting: Setting, number: int) -> None:
        words = dict(setting.init)
        self.setting, self.number, self.log, self.ring = setting, number, [], []
        self.lines = {line: Line(tuple(words.get(line * WORDS + it, 0) for it in range(WORDS)))
                      for line in range(number, setting.lines, setting.slices)}
        self.cores = [Core(setting, number, it) for it in range(setting.cores)]
        columns = "hits primary secondary NoRegister NoTarget NoWay WriteBackFull WriteBackBusy evict silent".split()
        self.counts = [dict.fromkeys(columns, 0) for _ in self.cores]
        self.delivered = dict.fromkeys(CLASSES, 0)

    # ---- requests

    def refusal(self, core: int, tag: int, access: Access) -> str | None:
        if access.word >= self.setting.lines * WORDS:
            return "OutOfRange"
        if tag >= TAGS:
            return "TagRange"
        if tag in self.cores[core].tags:
            return "TagBusy"
        return "CounterStore" if access.kind in ("store", "cas") and access.word in self.setting.counters else None

    def decide(self, core: int, tag: int, access: Access) -> tuple:
        """Returns what an access would be: a refusal, a hit, a miss or a stall."""
        refused = self.refusal(core, tag, access)
        if refused:
            return "refused", refused
        kind = self.cores[core].access(access.word // WORDS, access)
        return (kind,) if kind in ("hit", "primary", "secondary") else ("stall", kind)

    def issue(self, core: int, tag: int, access: Access) -> tuple:
        decided = self.decide(core, tag, access)
        if decided[0] == "refused":
            return decided
        cache, line = self.cores[core], access.word // WORDS
        self.counts[core][{"hit": "hits", "stall": decided[-1]}.get(decided[0], decided[0])] += 1
        if decided[0] == "stall":
            return decided
        seq, cache.accepted = cache.accepted, cache.accepted + 1
        if decided[0] == "hit":
            return self.hit(core, tag, seq, access)
        if decided[0] == "primary":
            self.open(core, line, access)
        cache.registers[line].append(Target(access, tag, seq, len(self.log)))
        cache.tags[tag] = None
        return "pending", seq

    def hit(self, core: int, tag: int, seq: int, access: Access) -> tuple:
        line = access.word // WORDS
        copy = self.cores[core].copies[line]
        if copy.state == "E" and access.writes():
            copy.state, self.counts[core]["silent"] = "M", self.counts[core]["silent"] + 1
        reply = self.perform(core, copy, Target(access, tag, seq, len(self.log)))
        self.cores[core].use(line)
        return "done", len(self.log) - 1, reply

    def open(self, core: int, line: int, access: Access) -> None:
        """Opens a register: the copy has its way, or takes a free one, or a victim's."""
        cache = self.cores[core]
        if line not in cache.copies and len(cache.slots(line)) >= self.setting.ways:
            self.leave(core, cache.victim(line))
        if line in cache.copies:
            cache.copies[line].state = "SM_AD"
        else:
            cache.insert(line, Copy("IM_AD" if access.writes() else "IS_D"))
        cache.registers[line] = []
        self.send(line, ("req", core), Message("GetM" if access.writes() else "GetS"))

    def leave(self, core: int, line: int) -> None:
        copy = self.cores[core].remove(line)
        put, copy.state = LEAVES_AS[copy.state]
        self.cores[core].buffer[line] = copy
        self.counts[core]["evict"] += 1
        self.send(line, ("req", core), Message(put, block=copy.block if put == "PutM" else ()))

    def evict(self, core: int, line: int) -> str:
        cache = self.cores[core]
        if line in cache.registers or line in cache.buffer:
            return "busy"
        if line not in cache.copies:
            return "not held"
        if not cache.has_room():
            return "buffer full"
        self.leave(core, line)
        return "evicting"

    def perform(self, core: int, copy: Copy, target: Target) -> int:
        """Performs an access on a copy, and logs it. Returns its reply."""
        word, offset = target.access.word, target.access.word % WORDS
        reply, after = target.access.performed(copy.block[offset])
        if target.access.writes():
            copy.block = block_with(copy.block, offset, after)
            self.lines[word // WORDS].newest[offset] = after
        self.log.append(Entry(core, target.seq, target.tag, target.access, reply, target.since))
        return reply

    def hand(self, core: int) -> tuple | None:
        """Returns number, tag and reply of the core's reply of least number, which is handed out."""
        tags = self.cores[core].tags
        number, tag = min(((it, tag) for tag, it in tags.items() if it is not None), default=(None, None))
        if number is None:
            return None
        del tags[tag]
        return number, tag, self.log[number].reply

    # ---- messages

    def send(self, line: int, channel: tuple, message: Message) -> None:
        self.lines[line].send(channel, message)
        if line not in self.ring:
            self.ring.append(line)

    def plan(self, line: int, channel: tuple) -> str:
        """Returns what a delivery would come to: `moved`, `blocked` or `nothing`."""
        message = self.lines[line].front(channel)
        if not message:
            return "nothing"
        if channel[0] == "req":
            return "blocked" if self.lines[line].entry.state == "S_D" and message.name.startswith("Get") else "moved"
        if channel[0] == "fwd" and message.name != "Put-Ack":
            return self.plan_forwarded(self.cores[channel[1]].copy(line).state, message.name)
        return "moved"

    @staticmethod
    def plan_forwarded(state: str, name: str) -> str:
        if name == "Inv":
            return "blocked" if state == "IS_D" else "moved"
        return "blocked" if state in WAITING else "moved"

    def deliver(self, line: int, channel: tuple) -> str:
        if line not in self.lines:
            return "nothing"
        planned = self.plan(line, channel)
        if planned == "moved":
            message = self.lines[line].front(channel)
            self.lines[line].take(channel)
            {"req": self.request, "fwd": self.forwarded, "data": self.data, "ack": self.acknowledgement,
             "home": self.block_home}[channel[0]](line, channel, message)
            self.delivered[channel[0]] += 1
            self.judge(line)
        return planned

    def next(self, asked: str) -> tuple[str, int | None, tuple | None, int]:
        """Returns what the next delivery of a class comes to, its line and channel, and how many lines are looked at."""
        found = "nothing", None, None
        for place, line in enumerate(self.ring):
            for channel in self.lines[line].waiting():
                if asked in ("any", channel[0]):
                    planned = self.plan(line, channel)
                    if planned == "moved":
                        return "moved", line, channel, place + 1
                    found = found if found[0] == "blocked" else (planned, line, channel)
        return *found, len(self.ring)

    def deliver_next(self, asked: str) -> tuple[str, int | None, tuple | None]:
        answer, line, channel, looked = self.next(asked)
        if answer == "moved":
            self.deliver(line, channel)
        turned = [it for it in self.ring[:looked] if self.lines[it].channels]
        self.ring = self.ring[looked:] + turned
        return answer, line, channel

    def request(self, line: int, channel: tuple, message: Message) -> None:
        row: Callable = {"GetS": self.get_shared, "GetM": self.get_modified}.get(message.name, self.put)
        row(line, channel[1], message)

    def get_shared(self, line: int, core: int, _: Message) -> None:
        entry = self.lines[line].entry
        if entry.state == "M":
            self.send(line, ("fwd", entry.owner), Message("Fwd-GetS", core))
            entry.state, entry.sharers, entry.owner = "S_D", {entry.owner, core}, None
        elif entry.state == "I" and self.setting.exclusive:
            self.send(line, ("data", core), Message("Data-E", block=entry.home))
            entry.state, entry.owner = "M", core
        else:
            self.send(line, ("data", core), Message("Data", block=entry.home))
            entry.state, entry.sharers = "S", entry.sharers | {core}

    def get_modified(self, line: int, core: int, _: Message) -> None:
        entry = self.lines[line].entry
        if entry.state == "M":
            self.send(line, ("fwd", entry.owner), Message("Fwd-GetM", core))
        else:
            others = sorted(entry.sharers - {core})
            self.send(line, ("data", core), Message("Data", acks=len(others), block=entry.home))
            for other in others:
                self.send(line, ("fwd", other), Message("Inv", core))
        entry.state, entry.owner, entry.sharers = "M", core, set()

    def put(self, line: int, core: int, message: Message) -> None:
        entry = self.lines[line].entry
        if entry.state == "M" and entry.owner == core:
            want(message.name == "PutM", f"the owner of line {line} sends {message.name}")
            entry.state, entry.owner, entry.home = "I", None, message.block
        elif entry.state in ("S", "S_D"):
            entry.sharers = entry.sharers - {core}
            if entry.state == "S" and not entry.sharers:
                entry.state = "I"
        self.send(line, ("fwd", core), Message("Put-Ack"))

    def block_home(self, line: int, _: tuple, message: Message) -> None:
        entry = self.lines[line].entry
        want(entry.state == "S_D", f"a block of line {line} comes home in {entry.state}")
        entry.state, entry.home = "S" if entry.sharers else "I", message.block

    def forwarded(self, line: int, channel: tuple, message: Message) -> None:
        core, copy = channel[1], self.cores[channel[1]].copy(line)
        rows = {
            ("S", "Inv"): "I", ("SM_AD", "Inv"): "IM_AD", ("SI_A", "Inv"): "II_A",
            ("M", "Fwd-GetS"): "S", ("E", "Fwd-GetS"): "S", ("MI_A", "Fwd-GetS"): "SI_A",
            ("M", "Fwd-GetM"): "I", ("E", "Fwd-GetM"): "I", ("MI_A", "Fwd-GetM"): "II_A",
            ("MI_A", "Put-Ack"): "I", ("SI_A", "Put-Ack"): "I", ("II_A", "Put-Ack"): "I",
        }
        want((copy.state, message.name) in rows, f"{message.name} comes to {copy.state}")
        if message.name == "Inv":
            self.send(line, ("ack", message.core, core), Message("Inv-Ack"))
        elif message.name != "Put-Ack":
            self.send(line, ("data", message.core), Message("Data", block=copy.block))
            if message.name == "Fwd-GetS":
                self.send(line, ("home",), Message("Data home", block=copy.block))
        self.advance(core, line, copy, rows[copy.state, message.name])

    def advance(self, core: int, line: int, copy: Copy, state: str) -> None:
        cache, copy.state = self.cores[core], state
        if state == "I" and line in cache.copies:
            cache.remove(line)
        elif state == "I":
            del cache.buffer[line]

    def data(self, line: int, channel: tuple, message: Message) -> None:
        core, copy = channel[1], self.cores[channel[1]].copy(line)
        want(copy.state in ("IS_D", "IM_AD", "SM_AD"), f"{message.name} comes to {copy.state}")
        copy.block, copy.wanted = message.block, message.acks
        if copy.state == "IS_D":
            writes = any(it.access.writes() for it in self.cores[core].registers[line])
            copy.state = "S" if message.name == "Data" else "M" if writes else "E"
        else:
            want(message.name == "Data", f"{message.name} comes to {copy.state}")
            copy.state = "M" if copy.counted == copy.wanted else copy.state.replace("_AD", "_A")
        self.settle(core, line, copy)

    def acknowledgement(self, line: int, channel: tuple, _: Message) -> None:
        core, copy = channel[1], self.cores[channel[1]].copy(line)
        want(copy.state in ("IM_AD", "IM_A", "SM_AD", "SM_A"), f"Inv-Ack comes to {copy.state}")
        copy.counted += 1
        if copy.state in ("IM_A", "SM_A") and copy.counted == copy.wanted:
            copy.state = "M"
            self.settle(core, line, copy)

    def settle(self, core: int, line: int, copy: Copy) -> None:
        """Performs what the copy allows of its register's accesses, in their order."""
        cache = self.cores[core]
        if copy.state not in (*WRITERS, "S"):
            return
        copy.wanted = copy.counted = 0
        targets = cache.registers[line]
        count = len(targets)
        if copy.state == "S":
            count = next((place for place, it in enumerate(targets) if it.access.writes()), count)
        for target in targets[:count]:
            cache.tags[target.tag] = len(self.log)
            self.perform(core, copy, target)
        if count:
            cache.use(line)
        cache.registers[line] = targets[count:]
        if count == len(targets):
            del cache.registers[line]
        else:
            copy.state = "SM_AD"
            self.send(line, ("req", core), Message("GetM"))

    # ---- looks

    def is_quiet(self) -> bool:
        busy = any(core.registers or core.buffer or core.tags for core in self.cores)
        return not busy and not any(line.channels for line in self.lines.values())

    def judge(self, number: int) -> None:
        """One writer or only readers; and what may be read, and what home is served from, is what was performed last."""
        line, newest = self.lines[number], tuple(self.lines[number].newest)
        copies = [core.copy(number) for core in self.cores]
        writers = sum(it.state in WRITERS for it in copies)
        readers = [it for it in copies if it.state in READABLE]
        want(writers == 0 or writers == 1 == len(readers), f"line {number}: {[it.state for it in copies]}")
        want(all(it.block == newest for it in readers), f"line {number}: a copy isn't the newest")
        want(line.entry.state not in ("I", "S") or line.entry.home == newest, f"line {number}: home isn't the newest")


class Account:
    """A machine of several slices."""

    def __init__(self, setting: Setting) -> None:
        self.setting = setting
        self.slices = [Slice(setting, number) for number in range(setting.slices)]

    def of_line(self, line: int) -> Slice:
        return self.slices[line % self.setting.slices]

    def of_word(self, word: int) -> Slice:
        return self.of_line(word // WORDS) if word < self.setting.lines * WORDS else self.slices[0]

    def decide(self, core: int, tag: int, access: Access) -> tuple:
        return self.of_word(access.word).decide(core, tag, access)

    def issue(self, core: int, tag: int, access: Access) -> tuple:
        return self.of_word(access.word).issue(core, tag, access)

    def evict(self, core: int, line: int) -> str:
        return self.of_line(line).evict(core, line)

    def plan(self, line: int, channel: tuple) -> str:
        return self.of_line(line).plan(line, channel)

    def deliver(self, line: int, channel: tuple) -> str:
        return self.of_line(line).deliver(line, channel)

    def word(self, word: int) -> int | None:
        """Returns a word's value where its slice is quiet."""
        place = self.of_word(word)
        return place.lines[word // WORDS].newest[word % WORDS] if place.is_quiet() else None

    def state(self, line: int) -> str:
        """Returns what `state` prints of a line."""
        held = self.of_line(line)
        entry = held.lines[line].entry
        owner = "-" if entry.owner is None else entry.owner
        sharers = ",".join(map(str, sorted(entry.sharers))) or "-"
        states = " ".join(core.copy(line).state for core in held.cores)
        home = " ".join(map(str, entry.home))
        return f"line {line} dir {entry.state} owner {owner} sharers {sharers} home {home} cores {states}"
