"""A machine: a directory in slices, and cores with a private cache each."""
import ctypes
import struct
from ctypes import c_uint64
from html import escape
from operator import index
from typing import Iterator, List, Mapping, NoReturn, Optional, Sequence, Tuple, Type, TypeVar, Union, overload

from .cells import CELLS
from .errors import OutOfRange, error_of
from .handle import Owner
from .library import NOT_SMALL, WORDS, library, number, words as words_of
from .names import Channel, CopyState, Delivered, Evicted, Misses, Policy
from .picture import picture_of
from .values import (
    ANSWERS, Copy, CoreCounts, Decision, Delivery, Directory, Entry, Issued, Message, MessageCounts, Planned, Receipt,
    Register, Target,
)

FIELDS = "cores slices lines sets ways mshrs targets writebacks policy seed misses exclusive".split()
# the words of the largest struct
MOST_WORDS = 16
_words = {count: struct.Struct(f"={count}Q").unpack_from for count in range(1, MOST_WORDS)}
_three = _words[3]
_new = tuple.__new__
_NONE = WORDS[0]
_Its = TypeVar("_Its", bound="Machine")


class Config:
    """The configuration that a script has that says nothing, with other values for some fields.

    The fields are those of `lockup_config`: cores, slices, lines, sets, ways, mshrs, targets, writebacks, policy, seed,
    misses, exclusive. A configuration is immutable; `replace` makes another.
    """

    __slots__ = ("_values",)
    _values: Tuple[int, ...]

    def __init__(self, **fields: int) -> None:
        usual = (c_uint64 * len(FIELDS))()
        library().defaults(ctypes.addressof(usual))
        object.__setattr__(self, "_values", _with(list(usual), fields))

    def replace(self, **fields: int) -> "Config":
        """Returns the configuration with other values for some fields.

        >>> Config(cores=4).replace(ways=8).ways
        8
        """
        return type(self)(**{**dict(zip(FIELDS, self._values)), **fields})

    def __getattr__(self, name: str) -> int:
        if name not in FIELDS:
            raise AttributeError(name)
        return self._values[FIELDS.index(name)]

    def __setattr__(self, name: str, value: object) -> NoReturn:
        raise AttributeError(f"a configuration is immutable: replace({name}=..) makes another")

    def __eq__(self, other: object) -> bool:
        return isinstance(other, Config) and self._values == other._values

    def __hash__(self) -> int:
        return hash(self._values)

    def __reduce__(self) -> Tuple[object, ...]:
        return _config_of, (type(self), self._values)

    def __repr__(self) -> str:
        return f"Config({', '.join(f'{name}={value}' for name, value in zip(FIELDS, self._values))})"

    def script(self) -> str:
        """Returns the lines of a script that configure the same machine."""
        rows = [f"{name} {getattr(self, name)}" for name in FIELDS[:8]]
        policy = Policy(self.policy).name.lower()
        rows.append(f"policy {policy} {self.seed}" if self.policy == Policy.RANDOM else f"policy {policy}")
        rows += [f"misses {Misses(self.misses).name.lower()}", f"exclusive {'on' if self.exclusive else 'off'}"]
        return "".join(f"{row}\n" for row in rows)


def _with(usual: Sequence[int], fields: Mapping[str, int]) -> Tuple[int, ...]:
    """Returns the values of a configuration's fields: these, and else the usual ones."""
    for name in fields:
        if name not in FIELDS:
            raise TypeError(f"a machine has no {name}: {', '.join(FIELDS)}")
    return tuple(number(fields.get(name, value)) for name, value in zip(FIELDS, usual))


def _config_of(kind: Type[Config], values: Tuple[int, ...]) -> Config:
    return kind(**dict(zip(FIELDS, values)))


class Machine(Owner):
    """A machine, step by step. Nothing happens by itself: each call makes one step, and the order is the caller's.

    >>> with Machine(cores=2, exclusive=True, init={0: 5}) as machine:
    ...     machine.load(0, tag=0, word=0)
    ...     machine.settle()
    ...     machine.hand(0)
    <pending 0>
    2
    Receipt(number=0, tag=0, reply=5)

    A call that can't be made raises an exception of `errors`, and has changed nothing. A machine is closed by `close`, at
    the end of a `with`, or when it isn't used any more. It takes part in one call at a time: threads share none.
    """

    _free = "free"

    def __init__(self, config: Optional[Config] = None, init: Optional[Mapping[int, int]] = None,
                 counters: Sequence[int] = (), **fields: int) -> None:
        """Makes a machine of a configuration, or of some fields of one. `init` maps words to the values with which they
        begin; `counters` are words that are never stored to."""
        if config is not None and fields:
            raise TypeError("a configuration, or fields of one")
        self._begin_with(config or Config(**fields))
        self._make(dict(init or {}), counters)

    def _begin_with(self, config: Config) -> None:
        """Begins with a handle that has nothing."""
        self._begin()
        self._config = config
        # outputs are read out of bytes, which costs less than out of an array of ctypes
        self._buffer = bytearray(8 * MOST_WORDS)
        self._out = ctypes.byref((c_uint64 * MOST_WORDS).from_buffer(self._buffer))
        # what an access needs, found once: it is asked for most
        self._calls, self._issue = self._library.bare, self._library.bare["issue"]

    @property
    def config(self) -> Config:
        """The configuration, which stays as it is."""
        return self._config

    def _make(self, init: Mapping[int, int], counters: Sequence[int]) -> None:
        pairs = [number(it) for pair in sorted(init.items()) for it in pair]
        # an array of none still has an address
        first = (c_uint64 * max(len(pairs), 1))(*pairs)
        second = (c_uint64 * max(len(counters), 1))(*map(number, counters))
        fields = (c_uint64 * len(FIELDS))(*self.config._values)
        config, initial, counted = (ctypes.addressof(it) for it in (fields, first, second))
        code = self._library.make_with(self._at, config, initial, len(pairs) // 2, counted, len(counters))
        if code:
            raise error_of(code)

    def clone(self: _Its) -> _Its:
        """Returns the same machine once more: what is tried with one of them leaves the other as it is. Other attributes
        are shared.

        >>> with Machine() as machine, machine.clone() as other:
        ...     other.load(0, tag=0, word=0), machine.quiet, other.quiet
        (<pending 0>, True, False)
        """
        other = object.__new__(type(self))
        # but not whose handle it is, so that nobody frees the machine twice
        other.__dict__.update({name: it for name, it in self.__dict__.items() if name not in ("_handle", "_at")})
        other._begin_with(self.config)
        code = self._library.clone(self._at, other._at)
        if code:
            raise error_of(code)
        return other

    __copy__ = clone

    def __repr__(self) -> str:
        if not self._handle:
            return "<lockup.Machine: closed>"
        config = self.config
        return f"<lockup.Machine: {config.cores} cores, {config.slices} slices of {config.lines // config.slices} lines>"

    def _repr_html_(self) -> str:
        """Returns the picture that a notebook shows."""
        return picture_of(self) if self._handle else f"<p>{escape(repr(self))}</p>"

    def _ask(self, name: str, count: int, *words: int) -> Tuple[int, ...]:
        """Calls a function, and returns the words of its output."""
        code = self._calls[name](self._at, *words_of(words), self._out)
        if code:
            raise error_of(code)
        return _words[count](self._buffer)

    def _count(self, name: str, *words: int) -> int:
        return self._ask(name, 1, *words)[0]

    def _each(self, count: str, at: str, width: int, *words: int) -> Iterator[Tuple[int, ...]]:
        """Returns the words of each of a list, whose functions these two are."""
        return (self._ask(at, width, *words, nth) for nth in range(self._count(count, *words)))

    # ---- steps

    def issue(self, core: int, tag: int, op: int, word: int, operand: int = 0, replacement: int = 0) -> Issued:
        """The core asks for a word under a tag from 0 to 63 that it hasn't in use in the word's slice.

        `operand` is what is stored or added, or what CAS expects; `replacement` is what CAS then writes.
        """
        code = self._issue(self._at, *words_of((core, tag, op, word, operand, replacement)), self._out)
        if code:
            raise error_of(code)
        answer, number, reply = _three(self._buffer)
        return _new(Issued, (ANSWERS[answer], number, reply))

    def load(self, core: int, tag: int, word: int) -> Issued:
        """The core asks for the value of a word."""
        # as issue does, without a call in between: it is what is asked for most
        found = None
        try:
            if core | tag | word >= 0:
                found = WORDS[core], WORDS[tag], WORDS[word]
        except NOT_SMALL:
            pass
        who, which, where = found or words_of((core, tag, word))
        code = self._issue(self._at, who, which, _NONE, where, _NONE, _NONE, self._out)
        if code:
            raise error_of(code)
        answer, number, reply = _three(self._buffer)
        return _new(Issued, (ANSWERS[answer], number, reply))

    def store(self, core: int, tag: int, word: int, value: int) -> Issued:
        """The core writes a word."""
        return self.issue(core, tag, 1, word, value)

    def add(self, core: int, tag: int, word: int, value: int) -> Issued:
        """The core adds to a word, modulo 2^64."""
        return self.issue(core, tag, 2, word, value)

    def cas(self, core: int, tag: int, word: int, expected: int, new: int) -> Issued:
        """The core writes a word where its value is the expected one."""
        return self.issue(core, tag, 3, word, expected, new)

    def evict(self, core: int, line: int) -> Evicted:
        """The core evicts its copy of a line."""
        return Evicted(self._count("evict", core, line))

    def deliver(self, channel: int, line: int, core: int = 0, sender: int = 0) -> Delivered:
        """Delivers the message in front of a channel: REQ from a core, FWD and DATA to it, ACK to it from a sender, HOME."""
        return Delivered(self._count("deliver", channel, line, core, sender))

    def deliver_next(self, slice: int = 0, channel: int = Channel.ANY) -> Delivery:
        """Delivers the next message of a slice that can be moved. Lines are served in turn."""
        return Delivery.of(self._ask("deliver_next", 5, slice, channel))

    def settle(self) -> int:
        """Delivers whatever can be moved, until nothing can. Returns how many messages were moved."""
        moved, slices, still = 0, range(self.config.slices), True
        while still:
            still = False
            for number in slices:
                while self._moves(number):
                    moved, still = moved + 1, True
        return moved

    def _moves(self, slice: int) -> bool:
        """Delivers the next message of a slice, if one can be moved."""
        return self._ask("deliver_next", 5, slice, Channel.ANY)[0] == Delivered.MOVED

    def hand(self, core: int, slice: int = 0) -> Optional[Receipt]:
        """Hands out the core's next reply of a slice, or None where it has none."""
        handed, *receipt = self._ask("hand", 4, core, slice)
        return Receipt(*receipt) if handed else None

    def replies(self, core: int, slice: int = 0) -> Iterator[Receipt]:
        """Hands out the core's replies of a slice, one after another."""
        while (receipt := self.hand(core, slice)) is not None:
            yield receipt

    def begin_log(self, slice: int = 0) -> bool:
        """Begins a new log of a slice where the slice is quiet, and returns whether it is.

        Copies and the values of words stay. Entries, requests and all that is counted are numbered from 0 again, so a
        long run that does so now and then takes no more memory the longer it runs."""
        return bool(self._count("begin_log", slice))

    # ---- what a step would do

    def decide(self, core: int, tag: int, op: int, word: int, operand: int = 0, replacement: int = 0) -> Decision:
        """Returns what `issue` would do."""
        return Decision.of(self._ask("decide", 4, core, tag, op, word, operand, replacement))

    def plan(self, channel: int, line: int, core: int = 0, sender: int = 0) -> Planned:
        """Returns what `deliver` would do."""
        return Planned.of(self._ask("plan", 4, channel, line, core, sender), channel)

    def cell_of_issue(self, core: int, tag: int, op: int, word: int, operand: int = 0,
                      replacement: int = 0) -> Optional[int]:
        """Returns the number of the cell of the protocol's tables that `issue` would meet, whose name is in `CELLS`, or
        None where it meets none.

        >>> with Machine() as machine:
        ...     CELLS[machine.cell_of_issue(0, 0, Op.LOAD, 8)]
        'cache I load IS_D'
        """
        return self._cell("cell_of_issue", core, tag, op, word, operand, replacement)

    def cell_of_evict(self, core: int, line: int) -> Optional[int]:
        """.. that `evict` would, where the write-back buffer has room: an eviction that is answered BUFFER_FULL meets none."""
        return self._cell("cell_of_evict", core, line)

    def cell_of_deliver(self, channel: int, line: int, core: int = 0, sender: int = 0) -> Optional[int]:
        """.. that `deliver` would."""
        return self._cell("cell_of_deliver", channel, line, core, sender)

    def _cell(self, name: str, *words: int) -> Optional[int]:
        cell = self._count(name, *words)
        return cell if cell < len(CELLS) else None

    def next(self, slice: int = 0, channel: int = Channel.ANY) -> Delivery:
        """Returns what `deliver_next` would deliver."""
        return Delivery.of(self._ask("next", 5, slice, channel))

    # ---- what there is

    def copy(self, core: int, line: int) -> Copy:
        """Returns a core's copy of a line, also one that is being written back."""
        return Copy.of(self._ask("copy_at", 11, core, line))

    def state(self, core: int, line: int) -> CopyState:
        """Returns the state of a core's copy."""
        return CopyState(self._ask("copy_at", 11, core, line)[0])

    def directory(self, line: int) -> Directory:
        """Returns the directory's entry of a line."""
        return Directory.of(self._ask("directory_at", 11, line))

    def registers(self, core: int, slice: int = 0) -> Tuple[Register, ...]:
        """Returns the miss registers that a core holds in a slice, in their order."""
        return tuple(map(Register.of, self._each("registers", "register_at", 5, core, slice)))

    def targets(self, core: int, line: int) -> Tuple[Target, ...]:
        """Returns the accesses of a core that wait for a line, the oldest first."""
        return tuple(map(Target.of, self._each("targets", "target_at", 7, core, line)))

    def writebacks(self, core: int, slice: int = 0) -> Tuple[int, ...]:
        """Returns the lines that a core is writing back in a slice, the latest last."""
        return tuple(line for line, in self._each("writebacks", "writeback_at", 1, core, slice))

    def ways(self, core: int, line: int) -> Tuple[int, ...]:
        """Returns the lines that a core has in the set of a line, in the order of the policy: last is the line that was
        used last under LRU, else the one that came last."""
        return tuple(found for found, in self._each("ways", "way_at", 1, core, line))

    def messages(self, line: Optional[int] = None) -> Tuple[Message, ...]:
        """Returns the messages in front of a line's channels, or of all lines'."""
        lines = range(self.config.lines) if line is None else (line,)
        return tuple(Message.of(words) for it in lines for words in self._each("messages", "message_at", 15, it))

    @property
    def quiet(self) -> bool:
        """Whether no message waits, no register is held, no write-back is pending, and each reply was handed out."""
        return bool(self._count("quiet"))

    def word(self, word: int) -> Optional[int]:
        """Returns the value of a word, or None where its slice isn't quiet."""
        quiet, value = self._ask("word_at", 2, word)
        return value if quiet else None

    def counts(self, core: int, slice: int = 0) -> CoreCounts:
        """Returns what a core has counted in a slice."""
        return CoreCounts.of(self._ask("counts_of_core", 10, core, slice))

    def message_counts(self, slice: int = 0) -> MessageCounts:
        """Returns the messages that a slice has delivered."""
        return MessageCounts(*self._ask("counts_of_messages", 5, slice))

    def log(self, slice: int = 0) -> "Log":
        """Returns what a slice has performed: a sequence that grows with it."""
        return Log(self, slice)


class Log(Sequence[Entry]):
    """The log of a slice, in the order in which its accesses were performed."""

    def __init__(self, machine: Machine, slice: int) -> None:
        self._machine, self._slice = machine, slice

    def __len__(self) -> int:
        return self._machine._count("entries", self._slice)

    @overload
    def __getitem__(self, nth: int) -> Entry: ...

    @overload
    def __getitem__(self, nth: slice) -> List[Entry]: ...

    def __getitem__(self, nth: Union[int, slice]) -> Union[Entry, List[Entry]]:
        if isinstance(nth, slice):
            return [self[it] for it in range(*nth.indices(len(self)))]
        place = index(nth) + len(self) if nth < 0 else index(nth)
        if place < 0:
            raise OutOfRange(2, "out of range")
        return Entry.of(self._machine._ask("entry_at", 9, self._slice, place))

    def __repr__(self) -> str:
        return f"<lockup.Log of slice {self._slice}: {len(self)} entries>"
