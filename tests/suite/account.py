"""Makes random calls through the library, and predicts each by an account in Python that shares
nothing with it (tests/harness/account.py): each decision (hit, primary and secondary miss, each
stall and refusal), each reply with its number, each delivery moved or blocked and which comes next,
each reply handed out; now and then before the call, as `decide`, `plan` and `next` tell it; and what
can be seen of the machine: states, blocks, entries, miss registers with their targets, lines that
are written back, sets in the order of the policy, messages, counts, logs, words at rest. Over
settings with both miss files, each policy, one to four ways, with and without E, 1, 2 and 4 slices,
1 to 64 cores. In each setting the account sees that each line is coherent. Together the settings
meet each stall, each refusal, each answer."""
import random
from collections import Counter
from types import ModuleType

from harness import each, same, seconds, want
from harness.account import CLASSES, LEAVES_AS, TAGS, WORDS, Access, Account, Copy, Entry, Message, Setting
from harness.generator import MASK
from harness.library import module

CALLS = 12_000
LOOKS = 50
KINDS = ("load", "store", "add", "cas")
STALLS = ("NoRegister", "NoTarget", "NoWay", "WriteBackFull", "WriteBackBusy")
EVICTED = ("evicting", "not held", "busy", "buffer full")
DELIVERED = ("moved", "blocked", "nothing")
CHANNELS = ("req", "fwd", "data", "ack", "home")
REFUSED = {"OutOfRange": "OUT_OF_RANGE", "TagRange": "TAG_RANGE", "TagBusy": "TAG_BUSY",
           "CounterStore": "COUNTER_STORE"}
SEEN = 300


def of_eight_cores(ways: int, **fields: object) -> Setting:
    """Returns a machine so small that everything collides, with words that begin with values of their own, and
    counters."""
    init = [(word, (word + 1) * 0x9E3779B97F4A7C15 & MASK) for word in range(0, 32 * ways, 4)]
    return Setting(cores=8, slices=2, lines=4 * ways, sets=1, ways=ways, mshrs=2, writebacks=ways, init=init,
                   counters=[7, 15, 23, 31], **fields)


SETTINGS = {
    "defaults": Setting(),
    "one core": Setting(cores=1, lines=8, sets=2, mshrs=2, targets=2, writebacks=1),
    "one way": Setting(cores=2, lines=4, sets=1, ways=1, mshrs=2, targets=1, writebacks=1),
    "exclusive": Setting(cores=3, lines=4, sets=2, ways=1, mshrs=1, targets=3, writebacks=1, exclusive=True),
    "inverted": Setting(cores=3, lines=8, sets=1, ways=4, mshrs=1, targets=1, writebacks=2, misses="inverted"),
    "inverted, exclusive": Setting(cores=2, lines=6, sets=1, ways=2, writebacks=1, misses="inverted", exclusive=True),
    "fifo": Setting(cores=2, lines=12, sets=2, ways=3, mshrs=3, targets=2, writebacks=2, policy="fifo"),
    "random victims": Setting(cores=3, lines=16, sets=2, ways=4, policy="random", seed=7, writebacks=2),
    "random victims of the last seed": Setting(cores=2, slices=2, lines=16, sets=1, ways=3, policy="random",
                                               seed=(1 << 64) - 1, exclusive=True),
    "two slices": Setting(cores=3, slices=2, lines=8, sets=2, ways=1, mshrs=2, targets=2, writebacks=1),
    "four slices": Setting(cores=2, slices=4, lines=16, sets=2, ways=2, mshrs=1, targets=1, exclusive=True),
    "counters": Setting(cores=2, lines=4, sets=1, ways=2, counters=[0, 9, 31], init=[(0, 5), (9, (1 << 64) - 2)]),
    "eight cores, one line": Setting(cores=8, lines=1, sets=1, ways=1, mshrs=1, targets=4, writebacks=1),
    "eight cores": of_eight_cores(1, targets=2),
    "eight cores, exclusive": of_eight_cores(2, targets=3, policy="random", seed=5, exclusive=True),
    "eight cores, inverted": of_eight_cores(2, policy="fifo", misses="inverted"),
    "eight cores, inverted, exclusive": of_eight_cores(1, misses="inverted", exclusive=True),
    "64 cores": Setting(cores=64, lines=2, sets=1, ways=1, mshrs=2, targets=2, writebacks=1),
}


def issued_of(told: tuple) -> tuple:
    """Returns the library's answer to an access in the account's words."""
    answer, number, reply = told
    if answer.name == "STALL":
        return "stall", STALLS[number - 1]
    if answer.name == "REFUSED":
        return "refused", next(it for it, name in REFUSED.items() if name == told.reason.name)
    return ("done", number, reply) if answer.name == "DONE" else ("pending", number)


class Run:
    """A machine of the library and the account of it, and the calls that are made of both."""

    def __init__(self, lockup: ModuleType, name: str) -> None:
        setting = SETTINGS[name]
        fields = {it: getattr(setting, it) for it in "cores slices lines sets ways mshrs targets writebacks".split()}
        fields |= {"policy": lockup.Policy[setting.policy.upper()], "seed": setting.seed,
                   "misses": lockup.Misses[setting.misses.upper()], "exclusive": setting.exclusive}
        self.lockup, self.setting, self.account = lockup, setting, Account(setting)
        self.machine = lockup.Machine(init=dict(setting.init), counters=setting.counters, **fields)
        self.random, self.met, self.call = random.Random(name), Counter(), 0
        # the line that was touched last, and what each counter comes to once all accepted adds are performed
        self.line, self.totals = 0, {word: dict(setting.init).get(word, 0) for word in setting.counters}

    def agree(self, what: str, wanted: object, got: object) -> None:
        if wanted != got:
            same(f"call {self.call}: {what}", wanted, got)

    # ---- calls

    def step(self) -> None:
        drawn = self.random.random()
        if drawn < 0.4:
            self.issue()
        elif drawn < 0.45:
            self.evict()
        elif drawn < 0.7:
            self.deliver()
        elif drawn < 0.85:
            self.deliver_next()
        else:
            self.hand()

    def issue(self) -> None:
        draw = self.random.randrange
        core, tag = draw(self.setting.cores), draw(TAGS) if draw(100) else 64 + draw(192)
        kind = KINDS[draw(4)]
        word = draw(self.setting.lines * 8) if draw(100) else self.setting.lines * 8 + draw(1 << 40)
        access = Access(kind, word, self.operand() if kind != "load" else 0, self.operand() if kind == "cas" else 0)
        words = core, tag, KINDS.index(kind), word, access.one, access.two
        told = self.decide(core, tag, access, words) if not draw(4) else None
        wanted = self.account.issue(core, tag, access)
        self.met[wanted[:1] if wanted[0] in ("done", "pending") else wanted] += 1
        self.line = word // WORDS % self.setting.lines
        if word in self.totals and kind == "add" and wanted[0] in ("done", "pending"):
            self.totals[word] = (self.totals[word] + access.one) & MASK
        self.agree(f"issue {core} {tag} {access}", wanted, issued_of(self.machine.issue(*words)))
        if told and told.next is not None:
            state = self.account.of_word(word).cores[core].copy(word // WORDS).state
            self.agree("the next state by decide", state, told.next.name)

    def operand(self) -> int:
        """Draws a number: most often a small one, so that compare-exchanges match."""
        return self.random.randrange(4) if self.random.randrange(8) else self.random.randrange(1 << 64)

    def decide(self, core: int, tag: int, access: Access, words: tuple) -> tuple:
        """Compares what `decide` tells, and returns it."""
        names = {"hit": "HIT", "primary": "PRIMARY_MISS", "secondary": "SECONDARY_MISS"}
        decided, told = self.account.decide(core, tag, access), self.machine.decide(*words)
        self.met["decide", *decided] += 1
        if decided[0] in names:
            cache, line = self.account.of_word(access.word).cores[core], access.word // WORDS
            victim = decided[0] == "primary" and line not in cache.copies and len(cache.slots(line)) >= self.setting.ways
            self.agree("decide", (names[decided[0]], None, victim), (told.kind.name, told.reason, told.victim))
            self.agree("decide has a next state", decided[0] != "secondary", told.next is not None)
        else:
            number = STALLS.index(decided[1]) + 1 if decided[0] == "stall" else [*REFUSED].index(decided[1]) + 1
            self.agree("decide", (decided[0].upper(), number), (told.kind.name, told.reason))
        return told

    def evict(self) -> None:
        core, line = self.random.randrange(self.setting.cores), self.random.randrange(self.setting.lines)
        wanted = self.account.evict(core, line)
        self.met[wanted] += 1
        self.line = line
        self.agree(f"evict {core} {line}", wanted, EVICTED[self.machine.evict(core, line)])

    def channel(self) -> tuple[int, tuple]:
        """Draws a line and one of its channels, most often one with a message."""
        draw = self.random.randrange
        line, cores = draw(self.setting.lines), self.setting.cores
        waiting = self.account.of_line(line).lines[line].waiting()
        if waiting and draw(8):
            return line, waiting[draw(len(waiting))]
        kind = CLASSES[draw(5)]
        return line, (kind, *(draw(cores) for _ in range({"home": 0, "ack": 2}.get(kind, 1))))

    def deliver(self) -> None:
        line, channel = self.channel()
        words = CHANNELS.index(channel[0]), line, *channel[1:]
        told = self.machine.plan(*words) if not self.random.randrange(4) else None
        if told:
            self.agree("plan", self.account.plan(line, channel), DELIVERED[told.answer])
        wanted = self.account.deliver(line, channel)
        self.met[channel[0], wanted] += 1
        self.line = line
        self.agree(f"deliver {channel} {line}", wanted, DELIVERED[self.machine.deliver(*words)])
        if told and wanted == "moved":
            self.look_back(line, channel, told)

    def look_back(self, line: int, channel: tuple, told: tuple) -> None:
        """Compares what `plan` told with what the delivery has come to."""
        place = self.account.of_line(line)
        if channel[0] in ("req", "home"):
            entry = place.lines[line].entry
            wanted = entry.state, entry.owner, tuple(sorted(entry.sharers))
        else:
            state = place.cores[channel[1]].copy(line).state
            # of data the next state is S also where the copy goes on at once, because a write is next in the register
            wanted = "S" if channel[0] == "data" and state == "SM_AD" else state, None, ()
        self.agree(f"plan {channel} {line}", wanted, (told.next.name, told.owner, told.sharers))

    def deliver_next(self) -> None:
        number, kind = self.random.randrange(self.setting.slices), self.random.randrange(6)
        name = (*CHANNELS, "any")[kind]
        if not self.random.randrange(4):
            wanted = self.account.slices[number].next(name)[:3]
            self.agree(f"next {number} {name}", self.moved(wanted), self.told(self.machine.next(number, kind)))
        wanted = self.account.slices[number].deliver_next(name)
        self.met["next", wanted[0]] += 1
        self.line = wanted[1] if wanted[0] == "moved" else self.line
        self.agree(f"deliver_next {number} {name}", self.moved(wanted),
                   self.told(self.machine.deliver_next(number, kind)))

    @staticmethod
    def moved(found: tuple) -> tuple:
        return found if found[0] == "moved" else found[:1]

    @staticmethod
    def told(delivery: tuple) -> tuple:
        answer, channel, line, core, sender = delivery
        if answer:
            return DELIVERED[answer],
        name = CHANNELS[channel]
        return "moved", line, (name, *((core, sender)[:{"home": 0, "ack": 2}.get(name, 1)]))

    def hand(self) -> None:
        core, number = self.random.randrange(self.setting.cores), self.random.randrange(self.setting.slices)
        told = self.machine.hand(core, number)
        self.agree(f"hand {core} {number}", self.account.slices[number].hand(core), told and tuple(told))

    # ---- looks

    def look(self) -> None:
        for line in range(self.setting.lines):
            self.look_at_line(line)
        for number in range(self.setting.slices):
            self.look_at_misses(number)
        word = self.random.randrange(self.setting.lines * 8)
        self.agree(f"word {word}", self.account.word(word), self.machine.word(word))
        self.agree("quiet", all(it.is_quiet() for it in self.account.slices), self.machine.quiet)

    def look_at_line(self, line: int) -> None:
        place = self.account.of_line(line)
        entry, told = place.lines[line].entry, self.machine.directory(line)
        self.agree(f"directory {line}", (entry.state, entry.owner, tuple(sorted(entry.sharers)), entry.home),
                   (told.state.name, *told[1:]))
        for core, cache in enumerate(place.cores):
            copy, told = cache.copy(line), self.machine.copy(core, line)
            self.agree(f"copy {core} {line}", copy.state, told.state.name)
            if copy.state in ("S", "SM_AD", "SM_A", "M", "E", *(it for _, it in LEAVES_AS.values())):
                self.agree(f"block {core} {line}", copy.block, told.block)
            if copy.state in ("IM_A", "SM_A"):
                self.agree(f"wants {core} {line}", (copy.wanted, copy.counted), (told.wants, told.counted))
        waiting = [self.message_of(line, it, place.lines[line].front(it)) for it in place.lines[line].waiting()]
        told = [(it.channel.name.lower(), *it[1:4], it.kind.name, *it[5:]) for it in self.machine.messages(line)]
        self.agree(f"messages {line}", waiting, told)

    @staticmethod
    def message_of(line: int, channel: tuple, message: Message) -> tuple:
        core, sender = (*channel[1:], 0, 0)[:2]
        kind = "HOME" if message.name == "Data home" else message.name.upper().replace("-", "_")
        requester = message.core if kind in ("FWD_GETS", "FWD_GETM", "INV") else None
        return channel[0], line, core, sender, kind, requester, message.acks, message.block or None

    def look_at_misses(self, number: int) -> None:
        """Compares what each core waits for and writes back, and its sets. Registers are in no certain order."""
        sets = range(min(self.setting.sets, self.setting.lines // self.setting.slices))
        for core, cache in enumerate(self.account.slices[number].cores):
            registers = [(line, *self.needs(cache.copy(line)), len(it)) for line, it in cache.registers.items()]
            told = [(it.line, it.kind.name, *it[2:]) for it in self.machine.registers(core, number)]
            self.agree(f"registers {core} {number}", sorted(registers), sorted(told))
            for line, targets in cache.registers.items():
                wanted = [(it.tag, KINDS.index(it.access.kind), *it.access[1:], it.seq, it.since) for it in targets]
                self.agree(f"targets {core} {line}", wanted, [tuple(it) for it in self.machine.targets(core, line)])
            self.agree(f"written back {core} {number}", tuple(cache.buffer), self.machine.writebacks(core, number))
            ways = [self.machine.ways(core, it * self.setting.slices + number) for it in sets]
            self.agree(f"sets {core} {number}", [tuple(it) for it in cache.sets[:len(sets)]], ways)

    @staticmethod
    def needs(copy: Copy) -> tuple[str, int | None, int]:
        """Returns what a waiting copy asked for, and its acknowledgements: needed, if that is known, and counted."""
        needed = None if copy.state in ("IM_AD", "SM_AD") else copy.wanted
        return "GETS" if copy.state == "IS_D" else "GETM", needed, copy.counted

    def look_at_all(self) -> None:
        """Compares the logs and all counts."""
        for number, place in enumerate(self.account.slices):
            log = [Entry(it.core, it.seq, it.tag, Access(KINDS[it.op], it.word, it.operand, it.replacement), it.reply,
                         it.since) for it in self.machine.log(number)]
            self.agree(f"log {number}", place.log, log)
            told = self.machine.message_counts(number)._asdict()
            self.agree(f"delivered in {number}", place.delivered, {it: told[it] for it in place.delivered})
            for core, counts in enumerate(place.counts):
                it = self.machine.counts(core, number)
                got = [it.hits, it.primary, it.secondary, *it.stalls, it.evictions, it.silent]
                self.agree(f"counts {core} {number}", [*counts.values()], got)

    def come_to_rest(self) -> None:
        """Delivers and hands out all that waits, and looks at each word."""
        self.machine.settle()
        for number, place in enumerate(self.account.slices):
            while place.deliver_next("any")[0] == "moved":
                pass
            for core in range(self.setting.cores):
                receipts = [tuple(it) for it in self.machine.replies(core, number)]
                wanted = [it for it in iter(lambda: place.hand(core), None)]
                self.agree(f"replies {core} {number}", wanted, receipts)
        self.agree("quiet at the end", True, self.machine.quiet)
        words = range(self.setting.lines * 8)
        self.agree("words", [self.account.word(it) for it in words], [self.machine.word(it) for it in words])
        self.agree("counters", self.totals, {it: self.machine.word(it) for it in self.totals})


@seconds(20)
@each(lambda: SETTINGS)
def test_account(name: str) -> None:
    run = Run(module(), name)
    with run.machine:
        for run.call in range(CALLS):
            run.step()
            run.look_at_line(run.line)
            if run.call % LOOKS == 0:
                run.look()
        run.look_at_all()
        run.come_to_rest()
        run.look_at_all()
    seen = sum(run.met[it] for it in run.met if it[0] in ("done", "pending"))
    want(seen > SEEN, f"too little was met: {run.met}")


# where each answer is surely met
MEETS = {
    "two slices": [("stall", it) for it in STALLS],
    "counters": [("refused", it) for it in REFUSED],
    "exclusive": [*EVICTED, ("fwd", "blocked"), ("req", "blocked"), ("ack", "moved"), ("home", "moved"),
                  ("data", "moved"), ("next", "blocked"), ("next", "nothing"), ("decide", "secondary")],
}


@seconds(20)
@each(lambda: MEETS)
def test_each_answer_is_met(name: str) -> None:
    run = Run(module(), name)
    with run.machine:
        for run.call in range(CALLS):
            run.step()
    same("answers that weren't met", [], [it for it in MEETS[name] if not run.met[it]])
