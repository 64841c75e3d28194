"""Makes the script of a fault short: `python -m lockup.shrink FILE`, or from Python `shrink_design`, `shrink_script`
and `shrink`.

    python -m lockup.shrink counterexample.txt --against 'PROGRAM {}' --to short.txt

PROGRAM drives a design: it is given a script's file in place of {}, and prints the design's answers, a line for each
command, as `lockup script` prints them; a word `?` stands for what the design doesn't count, and isn't compared. Commands
are left out while the design still answers one of them otherwise than the model. Without --against they are left out while
the last command still meets the same cell of the protocol's tables. Then the machine and its numbers are made smaller.
"""
import argparse
import shlex
import subprocess
import sys
import tempfile
from pathlib import Path
from typing import Callable, Iterator, List, NamedTuple, Optional, Sequence, Set, Tuple, TypeVar

from .errors import LockupError, differs_text
from .looks import differences
from .machine import FIELDS, Machine
from .names import Channel, Op
from .script import Caches, Command, Compared, Script, answer_of
from .texts import MESSAGES

__all__ = ["DesignFailed", "NoFault", "shrink", "shrink_design", "shrink_script"]

Its = TypeVar("Its")
Answers = Callable[[str], Sequence[str]]
Find = Callable[["Script"], "Optional[Fault]"]
# how long PROGRAM may take, in seconds: the first time it may have to be compiled
LONGEST = 600
# the least numbers, which are tried in place of others
LEAST = 4
# what may become smaller: those first that say most
PARTS = ("core", "slice", "line", "place", "tag", "value")


class NoFault(ValueError):
    """There is nothing to keep while commands are left out."""


class DesignFailed(Exception):
    """The program that drives the design couldn't be started, ended with a status, or printed something else."""


# ---- the core, which knows nothing of scripts

def shrink(commands: Sequence[Its], still_fails: Callable[[List[Its]], bool]) -> List[Its]:
    """Returns commands that still fail, of which none can be left out. These must fail."""
    kept, size = list(commands), max(len(commands) // 2, 1)
    while kept:
        count = len(kept)
        kept = without_chunks(kept, size, still_fails)
        if size == 1 and len(kept) == count:
            break
        size = max(size // 2, 1)
    return kept


def without_chunks(commands: List[Its], size: int, still_fails: Callable[[List[Its]], bool]) -> List[Its]:
    """Leaves out each chunk of this size without which the rest fails, the last ones first."""
    kept = commands
    for begin in reversed(range(0, len(commands), size)):
        rest = kept[:begin] + kept[begin + size:]
        if still_fails(rest):
            kept = rest
    return kept


# ---- faults

class Fault(NamedTuple):
    """A fault of a script: the number of the command that shows it, and what is said of it."""

    command: int
    said: str


def same_words(wanted: str, came: str) -> bool:
    """Whether an answer is the wanted one, as far as the design counts."""
    words, found = wanted.split(), came.split()
    pairs = zip(words, found)
    return found == ["?"] or len(words) == len(found) and all(it == word or "?" in (it, word) for word, it in pairs)


def difference(answers: Answers) -> Find:
    """Returns what finds the first answer of a design that isn't the model's."""
    def found(script: Script) -> Optional[Fault]:
        wanted, came = script.answers(Compared), list(answers(script.text()))
        if len(came) != len(wanted):
            raise DesignFailed(f"{len(wanted)} commands have {len(came)} answers, the last of them {''.join(came[-1:])!r}")
        pairs = enumerate(zip(wanted, came))
        return next((Fault(at, f"the design answered: {its}") for at, (one, its) in pairs if not same_words(one, its)), None)
    return found


def design_difference(make: Callable[[Script], Caches]) -> Find:
    """Returns what finds the first answer of a design in Python that isn't the model's, else what it shows otherwise in the
    end."""
    def found(script: Script) -> Optional[Fault]:
        design = make(script)
        with script.make() as machine:
            compared = Compared(machine)
            for at, command in enumerate(script.commands):
                wanted, came = answer_of(compared, command), answer_of(design, command)
                if not same_words(wanted, came):
                    return Fault(at, f"the design answered: {came}")
            shows = next(differences(machine, design, range(machine.config.lines)), None)
        return Fault(len(script.commands) - 1, differs_text(*shows)) if shows else None
    return found


def last_cell(script: Script) -> Optional[str]:
    """Returns the cell of the protocol's tables that the last command meets: who, state and event, what came of it."""
    with script.make() as machine:
        for command in script.commands[:-1]:
            answer_of(machine, command)
        return cell_of(machine, script.commands[-1])


def cell_of(machine: Machine, command: Command) -> Optional[str]:
    """Plays a command. Returns the cell that it meets, if it meets one."""
    before = looked_at(machine, command)
    answer = answer_of(machine, command)
    if before is None or answer.split()[0] in ("nothing", "refused"):
        return None
    who, state, event = before
    words = answer if answer.startswith("stall") else answer.split()[0] if command.verb == "issue" else answer
    return f"{who} ({state}, {event}): {words}, to {looked_at(machine, command, event)[1]}"  # type: ignore[index]


def looked_at(machine: Machine, command: Command, event: str = "") -> Optional[Tuple[str, str, str]]:
    """Returns who is asked, its state, and the event: of a delivery that of the message in front, or what it was."""
    _, kinds, numbers = command
    if command.verb == "issue":
        line = numbers[3] // 8
        if line >= machine.config.lines:
            return None
        return "core", machine.state(numbers[0], line).name, "load" if numbers[2] == Op.LOAD else "write"
    if command.verb == "evict":
        return "core", machine.state(*numbers).name, "eviction"
    if command.verb != "deliver":
        return None
    channel, line, *cores = numbers
    front = (it for it in machine.messages(line) if it.channel == channel and [it.core, it.sender][:len(cores)] == cores)
    name = event or next((MESSAGES[it.kind] for it in front), "")
    if not name:
        return None
    if channel in (Channel.REQ, Channel.HOME):
        return "directory", directory_of(machine, line, *cores), name
    return "core", machine.state(cores[0], line).name, name


def directory_of(machine: Machine, line: int, requester: int = -1) -> str:
    """Returns the directory's state, and what its guards ask of the requester."""
    entry = machine.directory(line)
    others = len([it for it in entry.sharers if it != requester])
    who = ["requester owns"] * (entry.owner == requester) + ["requester shares"] * (requester in entry.sharers)
    return " ".join([entry.state.name, *who, *["others share"] * (others > 0)])


def same_cell(script: Script) -> Find:
    """Returns what finds whether the last command meets the cell that this script's does."""
    cell = last_cell(script) if script.commands else None
    if cell is None:
        raise NoFault("the last command meets no cell of the tables")

    def found(script: Script) -> Optional[Fault]:
        met = bool(script.commands) and last_cell(script) == cell
        return Fault(len(script.commands) - 1, f"it meets {cell}") if met else None
    return found


# ---- scripts

class Shrinker:
    """Makes scripts smaller that have a fault, and counts those that it tried."""

    def __init__(self, find: Find) -> None:
        self.find, self.tried = find, 0
        self.sound: Set[str] = set()

    def shrunk(self, script: Script) -> Script:
        """Returns a script whose last command shows a fault, and which lacks it without any one of its commands."""
        fault = self.find(script)
        if fault is None:
            raise NoFault("nothing differs")
        kept = self.without_commands(script._replace(commands=script.commands[:fault.command + 1]), False)
        kept = kept._replace(init=tuple(shrink(kept.init, lambda it: self.fails(kept._replace(init=tuple(it))))))
        kept = kept._replace(counters=tuple(shrink(kept.counters, lambda it: self.fails(kept._replace(counters=tuple(it))))))
        return self.without_commands(self.smaller(self.smaller(kept, numbered), configured))

    def without_commands(self, script: Script, may_refuse: bool = True) -> Script:
        def still_fails(commands: List[Command]) -> bool:
            return self.fails(script._replace(commands=tuple(commands)), may_refuse)
        return script._replace(commands=tuple(shrink(script.commands, still_fails)))

    def smaller(self, script: Script, candidates: Callable[[Script], Iterator[Script]]) -> Script:
        """Takes a candidate that still fails, and of that another, until none does."""
        while True:
            found = next((it for it in candidates(script) if self.fails(it)), None)
            if found is None:
                return script
            script = found

    def fails(self, script: Script, may_refuse: bool = True) -> bool:
        """Whether a script has a fault. One that no machine can play has none, nor one that the design may refuse."""
        text = script.text()
        if not script.commands or text in self.sound:
            return False
        self.tried += 1
        try:
            fails = self.find(script) is not None
        except LockupError:
            fails = False
        except DesignFailed:
            if not may_refuse:
                raise
            fails = False
        self.sound |= set() if fails else {text}
        return fails


def numbered(script: Script) -> Iterator[Script]:
    """Returns the script with a smaller number in place of one, everywhere."""
    pairs = [(kind, it) for command in script.commands for kind, it in zip(command.kinds, command.numbers)]
    pairs += [pair for word, value in script.init for pair in (("word", word), ("value", value))]
    parts = {(part, it) for kind, number in pairs for part, it in parts_of(kind, number)}
    for part, old in sorted(parts, key=lambda it: (PARTS.index(it[0]), -it[1])):
        for new in range(min(old, LEAST)):
            yield with_number(script, part, old, new)


def parts_of(kind: str, number: int) -> Iterator[Tuple[str, int]]:
    """Returns what of a number may become smaller: of a word its line, and its place there."""
    if kind == "word":
        yield "line", number // 8
        yield "place", number % 8
    elif kind in PARTS:
        yield kind, number


def with_number(script: Script, part: str, old: int, new: int) -> Script:
    def put(kind: str, number: int) -> int:
        parts = {name: new if (name, it) == (part, old) else it for name, it in parts_of(kind, number)}
        return 8 * parts["line"] + parts["place"] if kind == "word" else parts.get(kind, number)
    commands = (it._replace(numbers=tuple(map(put, it.kinds, it.numbers))) for it in script.commands)
    init = sorted((put("word", word), put("value", value)) for word, value in script.init)
    counters = sorted(put("word", it) for it in script.counters)
    return Script(script.config, tuple(init), tuple(counters), tuple(commands))


def configured(script: Script) -> Iterator[Script]:
    """Returns the script with a smaller number in place of one of its configuration."""
    for name in FIELDS:
        now = int(getattr(script.config, name))
        for value in sorted({*range(LEAST + 1), *(now >> shift for shift in range(1, 64))}):
            if value < now:
                yield script._replace(config=script.config.replace(**{name: value}))


def shrink_script(script: str, answers_of: Optional[Answers] = None, answers: bool = False) -> str:
    """Returns a short script that shows a fault, with answers as one of `lockup test`, which wants what the model answers.

    `answers_of` gives a design's answers to a script, one a command. Without it the last command meets the same cell of the
    protocol's tables as before.
    """
    whole = Script.of(script).without_pumps()
    return shrunk_of(whole, difference(answers_of) if answers_of else same_cell(whole), answers)[0]


def shrink_design(script: str, make: Callable[[Script], Caches], answers: bool = False) -> str:
    """Returns the same for a design in Python. `make` makes one for a script, as its `config`, `init` and `counters` say,
    with the calls `issue`, `evict`, `deliver` and `hand` of `Machine`; what it shows by others is compared in the end, as
    `Scoreboard.compare` does."""
    return shrunk_of(Script.of(script).without_pumps(), design_difference(make), answers)[0]


def shrunk_of(script: Script, find: Find, answers: bool) -> Tuple[str, int, int]:
    """Returns the shrunk script, how many commands it has, and how many scripts were tried."""
    shrinker = Shrinker(find)
    kept = shrinker.shrunk(script)
    fault = find(kept)
    assert fault is not None
    text = kept.wanting(kept.answers()) if answers else kept.text()
    return f"{text}# {fault.said}\n", len(kept.commands), shrinker.tried


# ---- the command

class Program:
    """A program that drives a design."""

    def __init__(self, command: str, room: str) -> None:
        self.file = Path(room, "script.txt")
        self.words = [it.replace("{}", str(self.file)) for it in shlex.split(command)]

    def __call__(self, text: str) -> List[str]:
        self.file.write_text(text, encoding="utf-8")
        try:
            ran = subprocess.run(self.words, stdin=subprocess.DEVNULL, stdout=subprocess.PIPE, stderr=subprocess.PIPE,
                                 timeout=LONGEST, encoding="utf-8", errors="replace", check=False)
        except OSError as error:
            raise DesignFailed(f"{self.words[0]} can't be started: {error.strerror}") from None
        except subprocess.TimeoutExpired:
            raise DesignFailed(f"{self.words[0]} doesn't end in {LONGEST} seconds") from None
        if ran.returncode:
            said = f"{ran.stdout}{ran.stderr}".rstrip()
            raise DesignFailed(f"{self.words[0]} ends with status {ran.returncode}, and printed:\n{said}")
        return ran.stdout.splitlines()


def options_of(words: Optional[Sequence[str]]) -> argparse.Namespace:
    parser = argparse.ArgumentParser("lockup-shrink", description=(__doc__ or "").partition("\n\n")[2],
                                     formatter_class=argparse.RawDescriptionHelpFormatter)
    parser.add_argument("file", metavar="FILE", help="a script; - is standard input")
    parser.add_argument("--against", metavar="'PROGRAM {}'", help="what drives the design")
    parser.add_argument("--answers", action="store_true", help="write what the model answers, too, for lockup test")
    parser.add_argument("--to", metavar="FILE", type=Path, help="write the short script here, not to standard output")
    options = parser.parse_args(words)
    if options.against is not None and "{}" not in options.against:
        parser.error("--against: the command has no {}, in whose place the script's file is put")
    return options


def main(words: Optional[Sequence[str]] = None) -> int:
    options = options_of(words)
    try:
        text = sys.stdin.read() if options.file == "-" else Path(options.file).read_text(encoding="utf-8")
        script = Script.of(text).without_pumps()
        with tempfile.TemporaryDirectory() as room:
            find = difference(Program(options.against, room)) if options.against else same_cell(script)
            short, left, tried = shrunk_of(script, find, options.answers)
        if options.to:
            options.to.write_text(short, encoding="utf-8")
        else:
            sys.stdout.write(short)
    except NoFault as error:
        print(f"lockup-shrink: {error}", file=sys.stderr)
        return 1
    except (DesignFailed, LockupError, OSError, ValueError) as error:
        print(f"lockup-shrink: {error}", file=sys.stderr)
        return 2
    print(f"lockup-shrink: {left} of {len(script.commands)} commands are left; {tried} scripts were tried", file=sys.stderr)
    return 0


if __name__ == "__main__":
    sys.exit(main())
