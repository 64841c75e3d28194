"""What the calls return: tuples with names, whose numbers are members of the enums of `names`.

Each reads the words that the library wrote for its struct of lockup.h.
"""
from typing import NamedTuple, Optional, Sequence, Tuple, Union

from .names import (
    NO_CORE, UNKNOWN, Answer, Channel, Coherence, CopyState, Delivered, DirectoryState, Kind, MessageKind, Op, Refused, Stall,
    Verdict, Why,
)

Block = Tuple[int, ...]
Cause = Union[Stall, Refused, None]

# messages with a block
CARRIERS = (MessageKind.PUTM, MessageKind.DATA, MessageKind.DATA_E, MessageKind.HOME)
ANSWERS, CHANNELS, DELIVERED, KINDS, OPS = tuple(Answer), tuple(Channel), tuple(Delivered), tuple(sorted(Kind)), tuple(Op)


def cores_of(mask: int) -> Tuple[int, ...]:
    """Returns the cores of a set of them, ascending."""
    return tuple(core for core in range(64) if mask >> core & 1)


def owner_of(number: int) -> Optional[int]:
    return None if number == NO_CORE else number


def reason_of(answer: int, number: int) -> Cause:
    return Stall(number) if answer == Answer.STALL else Refused(number) if answer == Answer.REFUSED else None


class Issued(NamedTuple):
    """What became of an access.

    `number` is its place in the slice's log (DONE), its number among the core's requests of the slice
    (PENDING), or the reason (STALL, REFUSED). `reply` is that of one that is DONE.
    """

    answer: Answer
    number: int
    reply: int

    @property
    def reason(self) -> Cause:
        """Why it stalled or was refused, else None."""
        return reason_of(self.answer, self.number)

    def __repr__(self) -> str:
        if self.answer == Answer.DONE:
            return f"<done {self.number} reply {self.reply}>"
        if self.answer == Answer.PENDING:
            return f"<pending {self.number}>"
        reason = self.reason
        return f"<{self.answer.name.lower()} {reason.name if reason else None}>"


class Decision(NamedTuple):
    """What an access would be. A hit and a primary miss have the copy's next state, a miss whether a line has to leave."""

    kind: Kind
    reason: Cause
    next: Optional[CopyState]
    victim: bool

    @classmethod
    def of(cls, words: Sequence[int]) -> "Decision":
        kind, reason, state, victim = words
        has_next = kind in (Kind.HIT, Kind.PRIMARY_MISS)
        return cls(Kind(kind), reason_of(kind, reason), CopyState(state) if has_next else None, bool(victim))


class Planned(NamedTuple):
    """What a delivery would do: the next state of the receiver, and of an entry its next owner and sharers."""

    answer: Delivered
    next: Union[CopyState, DirectoryState, None]
    owner: Optional[int]
    sharers: Tuple[int, ...]

    @classmethod
    def of(cls, words: Sequence[int], channel: int) -> "Planned":
        answer, state, owner, sharers = words
        if answer != Delivered.MOVED:
            return cls(Delivered(answer), None, None, ())
        if channel in (Channel.REQ, Channel.HOME):
            return cls(Delivered.MOVED, DirectoryState(state), owner_of(owner), cores_of(sharers))
        return cls(Delivered.MOVED, CopyState(state), None, ())


class Delivery(NamedTuple):
    """What a next delivery did, or would do: where it moved a message, the names of its channel."""

    answer: Delivered
    channel: Optional[Channel]
    line: int
    core: int
    sender: int

    @classmethod
    def of(cls, words: Sequence[int]) -> "Delivery":
        answer, channel, line, core, sender = words
        return cls(DELIVERED[answer], CHANNELS[channel] if answer == 0 else None, line, core, sender)

    def __repr__(self) -> str:
        if self.channel is None:
            return f"<{self.answer.name.lower()}>"
        return f"<moved {place_of(self.channel, self.line, self.core, self.sender)}>"


class Receipt(NamedTuple):
    """A reply that was handed out: its number in the slice's log, its tag, which is free again, and its value."""

    number: int
    tag: int
    reply: int


class Copy(NamedTuple):
    """A core's copy of a line: its state, its acknowledgements wanted and counted, its block."""

    state: CopyState
    wants: int
    counted: int
    block: Block

    @classmethod
    def of(cls, words: Sequence[int]) -> "Copy":
        return cls(CopyState(words[0]), words[1], words[2], tuple(words[3:]))


class Directory(NamedTuple):
    """The directory's entry of a line."""

    state: DirectoryState
    owner: Optional[int]
    sharers: Tuple[int, ...]
    home: Block

    @classmethod
    def of(cls, words: Sequence[int]) -> "Directory":
        return cls(DirectoryState(words[0]), owner_of(words[1]), cores_of(words[2]), tuple(words[3:]))


def place_of(channel: int, line: int, core: int, sender: int) -> str:
    """Returns the words of a script that name a channel."""
    named = [CHANNELS[channel].name.lower(), str(line)]
    if channel != Channel.HOME:
        named.append(str(core))
    return " ".join(named + [str(sender)] * (channel == Channel.ACK))


class Register(NamedTuple):
    """A miss register: a line that a core waits for, and what it asked for (GETS or GETM).

    `needed` is how many acknowledgements it needs, or None before its data have said so; `counted` have come. `targets`
    is how many accesses wait in it.
    """

    line: int
    kind: MessageKind
    needed: Optional[int]
    counted: int
    targets: int

    @classmethod
    def of(cls, words: Sequence[int]) -> "Register":
        line, kind, needed, counted, targets = words
        return cls(line, MessageKind(kind), None if needed == UNKNOWN else needed, counted, targets)

    def __repr__(self) -> str:
        needed = "?" if self.needed is None else self.needed
        return f"<line {self.line}: {self.kind.name}, acks {self.counted} of {needed}, targets {self.targets}>"


class Target(NamedTuple):
    """A target of a miss register: an access that waits, its number among the core's requests of the slice, and the
    log's length when it was accepted."""

    tag: int
    op: Op
    word: int
    operand: int
    replacement: int
    seq: int
    since: int

    @classmethod
    def of(cls, words: Sequence[int]) -> "Target":
        tag, op, *rest = words
        return cls(tag, OPS[op], *rest)

    def __repr__(self) -> str:
        operands = [str(self.operand)] * (self.op != Op.LOAD) + [str(self.replacement)] * (self.op == Op.CAS)
        return f"<tag {self.tag}: {' '.join([self.op.name.lower(), str(self.word), *operands])}>"


class Message(NamedTuple):
    """A message in front of its channel, which is named as for `deliver`.

    `requester` is whom a forwarded message is answered to, `acks` how many acknowledgements the receiver of DATA needs,
    and `block` what a message carries: None where it names nobody or carries none.
    """

    channel: Channel
    line: int
    core: int
    sender: int
    kind: MessageKind
    requester: Optional[int]
    acks: int
    block: Optional[Block]

    @classmethod
    def of(cls, words: Sequence[int]) -> "Message":
        channel, line, core, sender, kind, requester, acks, *block = words
        return cls(CHANNELS[channel], line, core, sender, MessageKind(kind), owner_of(requester), acks,
                   tuple(block) if kind in CARRIERS else None)

    def __repr__(self) -> str:
        more = f" for core {self.requester}" if self.requester is not None else ""
        more += f" acks {self.acks}" if self.kind == MessageKind.DATA else ""
        return f"<{place_of(self.channel, self.line, self.core, self.sender)}: {self.kind.name}{more}>"


class CoreCounts(NamedTuple):
    """What a core has counted in a slice. `stalls` are by reason, NO_REGISTER first."""

    hits: int
    primary: int
    secondary: int
    stalls: Tuple[int, ...]
    evictions: int
    silent: int

    @classmethod
    def of(cls, words: Sequence[int]) -> "CoreCounts":
        hits, primary, secondary, *stalls, evictions, silent = words
        return cls(hits, primary, secondary, tuple(stalls), evictions, silent)


class MessageCounts(NamedTuple):
    """The messages that a slice has delivered."""

    req: int
    fwd: int
    data: int
    ack: int
    home: int


class Entry(NamedTuple):
    """An entry of a log: an access that was performed."""

    core: int
    seq: int
    tag: int
    op: Op
    word: int
    operand: int
    replacement: int
    reply: int
    since: int = 0

    @classmethod
    def of(cls, words: Sequence[int]) -> "Entry":
        core, seq, tag, op, *rest = words
        return cls(core, seq, tag, OPS[op], *rest)


class Reason(NamedTuple):
    """A reason of a contradiction: in every order the `first` access comes before the `last`, and of which other access
    that tells. Accesses go by their numbers among all that were given, from 0."""

    why: Why
    first: int
    last: int
    other: int


class Judgement(NamedTuple):
    """What histories come to: of which word this was found, and of an incoherent one the contradiction. It is true where
    they are coherent."""

    verdict: Coherence
    word: Optional[int]
    reasons: Tuple[Reason, ...]

    def __bool__(self) -> bool:
        return self.verdict == Coherence.COHERENT


class Judged(NamedTuple):
    """What a trace comes to so far. `entry` is the number of entries of a legal one, else that of the first wrong one."""

    verdict: Verdict
    entry: int

    def __bool__(self) -> bool:
        """Whether it is legal."""
        return self.verdict == Verdict.LEGAL
