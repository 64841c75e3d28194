"""Scripts as data: read, played on a machine or on what answers like one, and written again (docs/TEXTS.md)."""
from typing import Callable, Dict, Iterator, List, NamedTuple, Optional, Protocol, Sequence, Tuple

from .errors import OutOfRange, error_of
from .library import number as number_of
from .machine import FIELDS, Config, Machine
from .names import Channel, Delivered, Misses, Op, Policy
from .texts import Hand, Issue, deliver_text, evict_text, hand_text, issue_text, row_of
from .values import Directory, place_of

# what the words of each command are; of an access its operands follow
FORMS = {"issue": ("core", "tag", "op", "word"), "evict": ("core", "line"), "deliver": ("channel", "line"),
         "pump": ("count",), "hand": ("core", "slice"), "word": ("word",), "state": ("line",)}
# what only shows something, in several lines
LOOKS = ("waiting", "show", "stats", "log")
OPERANDS = {Op.LOAD: 0, Op.STORE: 1, Op.ADD: 1, Op.CAS: 2}
CORES = {Channel.HOME: 0, Channel.ACK: 2}
# numbers that have names
NAMES: Dict[str, Dict[str, int]] = {"op": {it.name.lower(): it for it in Op},
                                    "channel": {it.name.lower(): it for it in Channel if it != Channel.ANY}}
# fields of a configuration whose values have names
SETTINGS: Dict[str, Sequence[str]] = {"policy": [it.name.lower() for it in Policy],
                                      "misses": [it.name.lower() for it in Misses], "exclusive": ["off", "on"]}


class Caches(Protocol):
    """What plays commands: a machine, or a design whose answers may be None in part."""

    def issue(self, core: int, tag: int, op: int, word: int, operand: int = 0, replacement: int = 0) -> Issue: ...
    def evict(self, core: int, line: int) -> int: ...
    def deliver(self, channel: int, line: int, core: int = 0, sender: int = 0) -> int: ...
    def hand(self, core: int, slice: int = 0) -> Optional[Hand]: ...


class Command(NamedTuple):
    """A command: its verb, and its numbers with what each is."""

    verb: str
    kinds: Tuple[str, ...]
    numbers: Tuple[int, ...]

    def __str__(self) -> str:
        words = [[*NAMES[kind]][it] if kind in NAMES else str(it) for kind, it in zip(self.kinds, self.numbers)]
        return " ".join([self.verb, *words])


class Script(NamedTuple):
    """A machine's configuration, what its words begin with, its counters, and commands."""

    config: Config
    init: Tuple[Tuple[int, int], ...]
    counters: Tuple[int, ...]
    commands: Tuple[Command, ...]

    @classmethod
    def of(cls, text: str) -> "Script":
        """Reads a script. What is wanted of answers is left out, and so are looks, which change nothing."""
        fields: Dict[str, int] = {}
        init: List[Tuple[int, int]] = []
        counters: List[int] = []
        commands: List[Command] = []
        for number, line in enumerate(text.split("\n"), 1):
            words = [] if line.startswith("#") else line.partition("=")[0].split()
            try:
                if words and (commands or not configures(words, fields, init, counters)) and not is_look(words):
                    commands.append(command_of(words))
            except (ValueError, LookupError, TypeError):
                raise ValueError(f"line {number}: not a command: {line.strip()}") from None
        return cls(Config(**fields), tuple(init), tuple(counters), tuple(commands))

    def make(self) -> Machine:
        for code, words in ((109, [word for word, _ in self.init]), (110, list(self.counters))):
            if any(one >= next for one, next in zip(words, words[1:])):
                raise error_of(code)
        return Machine(self.config, dict(self.init), self.counters)

    def head(self) -> str:
        rows = [*(f"init {word} {value}" for word, value in self.init), *(f"counter {it}" for it in self.counters)]
        return self.config.script() + "".join(f"{row}\n" for row in rows)

    def text(self) -> str:
        return self.head() + "".join(f"{it}\n" for it in self.commands)

    def wanting(self, answers: Sequence[str]) -> str:
        """Returns a text that wants these answers."""
        return self.head() + "".join(f"{row_of(str(it), answer)}\n" for it, answer in zip(self.commands, answers))

    def answers(self, of: Callable[[Machine], Caches] = lambda it: it) -> List[str]:
        """Returns what a machine answers, or what is before one."""
        with self.make() as machine:
            caches = of(machine)
            return [answer_of(caches, it) for it in self.commands]

    def without_pumps(self) -> "Script":
        """Returns the same with the deliveries that each pump makes in its place."""
        with self.make() as machine:
            return self._replace(commands=tuple(it for command in self.commands for it in played(machine, command)))


# ---- reading

def configures(words: Sequence[str], fields: Dict[str, int], init: List[Tuple[int, int]], counters: List[int]) -> bool:
    """Takes a line that configures. Returns whether it is one."""
    name, *rest = words
    if name == "init":
        word, value = map(number, rest)
        init.append((word, value))
    elif name == "counter":
        counters.append(number(*rest))
    elif name in SETTINGS:
        fields[name] = SETTINGS[name].index(rest[0])
        if rest[0] == "random":
            fields["seed"] = number(*rest[1:])
        elif rest[1:]:
            raise ValueError(name)
    elif name in FIELDS and name != "seed":
        fields[name] = number(*rest)
    else:
        return False
    return True


def is_look(words: Sequence[str]) -> bool:
    """Whether a line only shows something, in several lines."""
    name, *rest = words
    if name == "log":
        number(*rest)
    elif name in LOOKS and rest:
        raise ValueError(name)
    return name in LOOKS


def number(word: str) -> int:
    if not (word.isascii() and word.isdigit()):
        raise ValueError(word)
    return number_of(int(word))


def command_of(words: Sequence[str]) -> Command:
    """Reads a command."""
    verb, *rest = words
    kinds = FORMS[verb]
    numbers = [NAMES[kind][word] if kind in NAMES else number(word) for kind, word in zip(kinds, rest)]
    if verb == "issue":
        kinds += ("value",) * OPERANDS[Op(numbers[2])]
    elif verb == "deliver":
        kinds += ("core",) * CORES.get(Channel(numbers[0]), 1)
    if len(kinds) != len(rest):
        raise ValueError(verb)
    return Command(verb, kinds, (*numbers, *map(number, rest[len(numbers):])))


# ---- playing

def answer_of(caches: Caches, command: Command) -> str:
    """Plays a command. Returns its answer, which is `?` where the design has no such call."""
    verb, _, numbers = command
    if verb == "issue":
        return issue_text(caches.issue(*numbers))
    if verb == "evict":
        return evict_text(caches.evict(*numbers))
    if verb == "deliver":
        return deliver_text(caches.deliver(*numbers))
    if verb == "hand":
        return hand_text(caches.hand(*numbers))
    machine = caches.machine if isinstance(caches, Compared) else caches
    return look_of(machine, verb, *numbers) if isinstance(machine, Machine) else "?"


class Compared:
    """A machine whose answers lack what isn't compared: the replies to stores."""

    def __init__(self, machine: Machine) -> None:
        self.machine, self.evict, self.deliver = machine, machine.evict, machine.deliver

    def issue(self, core: int, tag: int, op: int, word: int, operand: int = 0, replacement: int = 0) -> Issue:
        answer, number, reply = self.machine.issue(core, tag, op, word, operand, replacement)
        return answer, number, None if op == Op.STORE else reply

    def hand(self, core: int, slice: int = 0) -> Optional[Hand]:
        found = self.machine.hand(core, slice)
        is_store = found is not None and self.machine.log(slice)[found.number].op == Op.STORE
        return (found.number, found.tag, None) if found and is_store else found


def look_of(machine: Machine, verb: str, place: int) -> str:
    if verb == "word":
        value = machine.word(place)
        return "not quiet" if value is None else str(value)
    return state_of(machine, place)


def state_of(machine: Machine, line: int) -> str:
    """Returns what `state` prints."""
    entry: Directory = machine.directory(line)
    owner = "-" if entry.owner is None else entry.owner
    states = " ".join(machine.state(core, line).name for core in range(machine.config.cores))
    return (f"line {line} dir {entry.state.name} owner {owner} sharers {','.join(map(str, entry.sharers)) or '-'} "
            f"home {' '.join(map(str, entry.home))} cores {states}")


def played(machine: Machine, command: Command) -> Iterator[Command]:
    """Plays a command. Returns it, or the deliveries that it made."""
    if command.verb == "pump":
        yield from pumped(machine, *command.numbers)
        return
    try:
        answer_of(machine, command)
    except OutOfRange:
        raise OutOfRange(2, f"{command}: out of range") from None
    yield command


def pumped(machine: Machine, most: int) -> Iterator[Command]:
    """Makes the deliveries of a pump, up to a round of all slices that moves nothing, and returns them."""
    moved = False
    for call in range(most):
        slice = call % machine.config.slices
        found = machine.deliver_next(slice)
        moved = (slice > 0 and moved) or found.answer == Delivered.MOVED
        if found.channel is not None:
            yield command_of(["deliver", *place_of(*found[1:]).split()])  # type: ignore[arg-type]
        if slice + 1 == machine.config.slices and not moved:
            return
