"""A machine as a table of HTML, for a notebook: the lines that are held or on their way, with what each core has of them."""
from html import escape
from typing import TYPE_CHECKING, Iterable, List

from .names import CopyState, DirectoryState

if TYPE_CHECKING:
    from .machine import Machine

# how many lines are shown at most
MOST_LINES = 32


def picture_of(machine: "Machine") -> str:
    """Returns the table: a row for each line, with the directory's entry, each core's state and the messages in front of
    the line's channels."""
    cores = range(machine.config.cores)
    held = {it.line for core in cores for slice in range(machine.config.slices) for it in machine.registers(core, slice)}
    lines = [line for line in range(machine.config.lines) if line in held or is_busy(machine, line)]
    rows = [row_of(machine, line) for line in lines[:MOST_LINES]]
    left = f"<p>and {len(lines) - MOST_LINES} lines more</p>" if len(lines) > MOST_LINES else ""
    head = cells("th", ["line", "directory", *(f"core {core}" for core in cores), "messages"])
    return f"<p>{escape(repr(machine))}</p><table>{head}{''.join(rows)}</table>{left}"


def is_busy(machine: "Machine", line: int) -> bool:
    """Whether the directory knows of a copy, or a message waits."""
    return machine.directory(line).state != DirectoryState.I or bool(machine.messages(line))


def row_of(machine: "Machine", line: int) -> str:
    entry = machine.directory(line)
    who = [f"owner {entry.owner}"] if entry.owner is not None else []
    who += [f"sharers {', '.join(map(str, entry.sharers))}"] if entry.sharers else []
    states = [machine.state(core, line) for core in range(machine.config.cores)]
    messages = [repr(it).strip("<>") for it in machine.messages(line)]
    return cells("td", [str(line), " ".join([entry.state.name, *who]),
                        *("" if it == CopyState.I else it.name for it in states), "; ".join(messages)])


def cells(kind: str, texts: Iterable[str]) -> str:
    told: List[str] = [f"<{kind}>{escape(it)}</{kind}>" for it in texts]
    return f"<tr>{''.join(told)}</tr>"
