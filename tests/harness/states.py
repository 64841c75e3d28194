"""What pages and waves have to show of a script: after each command, what `state`, `waiting` and
`show` print.

It comes from a script of its own: the script with `state` of each line named so far, `waiting` and
`show` after each command.
"""
from typing import NamedTuple

from .processes import lockup
from .scripts import example, examples, is_trace, split

# Lines with the same words and other blanks. None begins as those by which `states_of` asks.
SAME_WORDS = ("cores 1\nstate 0\nstate 0 \nstate  0\n state 0\n"
              "issue 0 0 load 0\nissue 0 0  load 0\nstate\t0\nstate 0\n")

# An acknowledgement comes before the data that tell how many come, to a copy without a block and to
# a shared one; and a block that was given up to another core leaves none behind.
EARLY_ACKS = """cores 3
issue 1 0 load 0
pump 9
issue 2 0 load 0
pump 9
issue 0 0 store 0 5
deliver req 0 0
deliver fwd 0 1
deliver ack 0 0 1
deliver data 0 0
deliver fwd 0 2
deliver ack 0 0 2
issue 1 1 load 0
pump 9
issue 0 1 store 0 6
deliver req 0 0
deliver fwd 0 1
deliver ack 0 0 1
pump 9
evict 0 0
issue 2 1 store 0 7
deliver req 0 2
deliver fwd 0 0
"""


class States(NamedTuple):
    """What is there after a command: the states of the lines named so far, the messages in flight,
    and what isn't at rest."""

    lines: list[str]
    messages: list[str]
    held: list[str]


def named_by(command: str) -> int | None:
    """Returns the line that a command is about, if it is about one."""
    words = command.split()
    if words[0] in ("issue", "word"):
        return int(words[4 if words[0] == "issue" else 1]) // 8
    if words[0] in ("evict", "deliver", "state"):
        return int(words[1 if words[0] == "state" else 2])
    return None


class Reader:
    """Reads the output of an echoed script from one of its commands to another."""

    def __init__(self, text: str) -> None:
        self.lines, self.at = text.split("\n"), 0

    def state(self) -> str:
        while not self.lines[self.at].startswith("  state "):
            self.at += 1
        self.at += 2
        return self.lines[self.at - 1]

    def between(self, first: str, last: str) -> list[str]:
        begin = self.lines.index(first, self.at)
        self.at = self.lines.index(last, begin)
        return self.lines[begin + 1:self.at]


def states_of(script: str) -> tuple[list[str], list[States]]:
    """Returns the script's commands, and the states after each."""
    config, commands = split(script)
    size = next((int(it.split()[1]) for it in config if it.split()[0] == "lines"), 16)
    named, asked, counts = [], list(config), []
    for command in commands:
        line = named_by(command)
        if line is not None and line < size and line not in named:
            named.append(line)
        # the blanks before them tell these from the script's own commands
        asked += [command, *(f"  state {it}" for it in named), "  waiting", "   waiting", "  show", "   show"]
        counts.append(len(named))
    reader = Reader(lockup("script", "--echo", "-", text="\n".join(asked) + "\n").out)
    found = []
    for count in counts:
        lines = [reader.state() for _ in range(count)]
        messages = [it for it in reader.between("  waiting", "   waiting") if it != "none"]
        found.append(States(lines, messages, reader.between("  show", "   show")))
    return commands, found


def shown_scripts() -> dict[str, str]:
    """Returns the scripts that are looked at, by their names."""
    found = {name: example(name) for name in examples()}
    found = {name: script for name, script in found.items() if not is_trace(script)}
    return {"lines_with_the_same_words": SAME_WORDS, "acknowledgements_before_data": EARLY_ACKS, **found}
