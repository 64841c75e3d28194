"""Holds a design against a machine, call by call, and writes the calls so far as a script."""
from types import TracebackType
from typing import Callable, Iterable, List, Mapping, Optional, Sequence, Tuple, Type

from .cells import CELLS, coverage_text
from .errors import Differs, OutOfRange
from .looks import differences
from .machine import Config, Machine
from .names import Answer, Channel, Delivered, Evicted, Op, Refused, Stall
from .texts import (
    Hand, Issue, deliver_command, deliver_text, evict_text, hand_text, issue_command, issue_text, known, member, moved_text, row_of,
)
from .values import Delivery, Issued, Receipt

# what a next delivery did: its answer, and where it moved a message its channel, line, core and sender
Next = Tuple[int, Optional[int], int, int, int]
# a field of an answer, what the machine answered there, and what the design did
Field = Tuple[str, object, object]


class Scoreboard:
    """A machine of its own, of which each call is made that a design was asked, and what the design answered.

    A call makes the same of the machine, and returns what that answered. Where the design answered otherwise it raises
    `Differs`, and from then on each call raises that and makes nothing. What a design doesn't count is None in its answer, and isn't compared; nor are replies to stores.

    >>> with Scoreboard(cores=2) as board:
    ...     board.expect_issue(0, 0, Op.LOAD, 8, answered=(Answer.PENDING, None, None))
    ...     try:
    ...         board.expect_deliver(Channel.REQ, 1, 0, answered=Delivered.BLOCKED)
    ...     except Differs as differs:
    ...         print(differs)
    <pending 0>
    deliver req 1 0: answer is MOVED, and the design's is BLOCKED
    """

    def __init__(self, config: Optional[Config] = None, init: Optional[Mapping[int, int]] = None,
                 counters: Sequence[int] = (), *, record: bool = True, coverage: bool = False, **fields: int) -> None:
        """Makes the machine as `Machine` does. Where calls aren't recorded there is no script, and a long run takes no
        memory for it. With `coverage` each call adds 1 to the count of the cell of the protocol's tables that it meets."""
        self._machine = Machine(config, init, counters, **fields)
        self._counts: Optional[List[int]] = [0] * len(CELLS) if coverage else None
        self._differs: Optional[Differs] = None
        # what is in the script, and after a command its answer
        self._rows: Optional[List[Tuple[str, str]]] = None
        self._last = ""
        if record:
            begins = [f"init {known(word)} {known(value)}" for word, value in sorted((init or {}).items())]
            counted = [f"counter {known(it)}" for it in counters]
            self._rows = [(row, "") for row in (*self._machine.config.script().splitlines(), *begins, *counted)]

    @property
    def machine(self) -> Machine:
        """The machine, to look at. Calls of it that aren't made here aren't in the script."""
        return self._machine

    @property
    def coverage(self) -> List[int]:
        """How often the calls met each cell, by its number; `CELLS` has their names."""
        if self._counts is None:
            raise ValueError("cells aren't counted")
        return list(self._counts)

    def coverage_text(self) -> str:
        """Returns the counts as `lockup coverage` reads them."""
        return coverage_text(self.coverage, bool(self._machine.config.exclusive))

    def close(self) -> None:
        """Frees the machine. The script and the counts stay."""
        self._machine.close()

    def __enter__(self) -> "Scoreboard":
        return self

    def __exit__(self, kind: Optional[Type[BaseException]], error: Optional[BaseException],
                 trace: Optional[TracebackType]) -> None:
        self.close()

    def __repr__(self) -> str:
        return f"<lockup.Scoreboard of {self._machine!r}>"

    # ---- calls

    def expect_issue(self, core: int, tag: int, op: int, word: int, operand: int = 0, replacement: int = 0, *,
                     answered: Issue) -> Issued:
        """A core asked for a word: `answered` is what became of that, its number (or its reason), and its reply."""
        machine = self._open()
        cell = self._cell(machine.cell_of_issue, core, tag, op, word, operand, replacement)
        wanted = machine.issue(core, tag, op, word, operand, replacement)
        self._cover(cell)
        self._note(issue_command(core, tag, op, word, operand, replacement), issue_text(wanted))
        answer, number, reply = answered
        fields: List[Field] = [("answer", wanted.answer, member(Answer, answer))]
        if wanted.answer in (Answer.STALL, Answer.REFUSED):
            kind = Stall if wanted.answer == Answer.STALL else Refused
            fields.append(("reason", wanted.reason, None if number is None else member(kind, number)))
        else:
            fields.append(("number", wanted.number, number))
        if wanted.answer == Answer.DONE and op != Op.STORE:
            fields.append(("reply", wanted.reply, reply))
        self._agree(fields, issue_text(answered))
        return wanted

    def expect_evict(self, core: int, line: int, *, answered: int) -> Evicted:
        """A core was asked to evict its copy of a line."""
        machine = self._open()
        cell = self._cell(machine.cell_of_evict, core, line)
        wanted = machine.evict(core, line)
        self._cover(None if wanted == Evicted.BUFFER_FULL else cell)
        self._note(f"evict {known(core)} {known(line)}", evict_text(wanted))
        self._agree([("answer", wanted, member(Evicted, answered))], evict_text(answered))
        return wanted

    def expect_deliver(self, channel: int, line: int, core: int = 0, sender: int = 0, *, answered: int) -> Delivered:
        """The message in front of a channel was to be delivered."""
        machine = self._open()
        cell = self._cell(machine.cell_of_deliver, channel, line, core, sender)
        wanted = machine.deliver(channel, line, core, sender)
        self._cover(cell)
        self._note(deliver_command(channel, line, core, sender), deliver_text(wanted))
        self._agree([("answer", wanted, member(Delivered, answered))], deliver_text(answered))
        return wanted

    def expect_next(self, slice: int = 0, channel: int = Channel.ANY, *, answered: Next) -> Delivery:
        """The next message of a slice that can be moved was to be delivered: `answered` is the answer, and where a message
        was moved its channel, line, core and sender."""
        machine = self._open()
        cell = self._cell_of_next(slice, channel)
        wanted = machine.deliver_next(slice, channel)
        self._cover(cell)
        self._note_next(slice, wanted, answered)
        fields: List[Field] = [("answer", wanted.answer, member(Delivered, answered[0]))]
        if wanted.channel is not None:
            fields += zip(Delivery._fields[1:], named_of(wanted), named_of(answered))
        self._agree(fields, next_text(answered))
        return wanted

    def _cell_of_next(self, slice: int, channel: int) -> Optional[int]:
        """Returns the cell that the next delivery would meet, where one can be made and cells are counted."""
        if self._counts is None:
            return None
        next = self._machine.next(slice, channel)
        if next.channel is None:
            return None
        return self._machine.cell_of_deliver(next.channel, next.line, next.core, next.sender)

    def _note_next(self, slice: int, wanted: Delivery, answered: Next) -> None:
        """Takes down a next delivery, which a script has by its channel alone: what the machine moved, or where it has moved
        nothing what the design did."""
        moved, command = moved_by(wanted), moved_by(answered)
        planned = None if moved else self._planned(answered)
        if moved or (command and planned is not None):
            self._note(moved or str(command), deliver_text(wanted.answer if planned is None else planned))
            return
        self._last = f"next delivery of slice {known(slice)}"
        self._write(f"# {self._last}: {deliver_text(wanted.answer)}")

    def _planned(self, answered: Next) -> Optional[Delivered]:
        """Returns why the machine doesn't move what the design did; None where it has no such channel, or would move it."""
        _, channel, line, core, sender = answered
        try:
            planned = self._machine.plan(channel or 0, line, core, sender).answer
        except OutOfRange:
            return None
        return None if planned == Delivered.MOVED else planned

    def expect_hand(self, core: int, slice: int = 0, *, answered: Optional[Hand]) -> Optional[Receipt]:
        """A core's next reply of a slice was to be handed out: `answered` is its number, its tag and its value, or None."""
        wanted = self._open().hand(core, slice)
        self._note(f"hand {known(core)} {known(slice)}", hand_text(wanted))
        if wanted is None or answered is None:
            fields: List[Field] = [("handed", wanted is not None, answered is not None)]
        else:
            is_store = self._machine.log(slice)[wanted.number].op == Op.STORE
            fields = list(zip(Receipt._fields[:2] if is_store else Receipt._fields, wanted, answered))
        self._agree(fields, hand_text(answered))
        return wanted

    def compare(self, design: object, lines: Optional[Iterable[int]] = None) -> None:
        """Compares what the design shows of these lines, or of all, by methods with the names of `Machine`'s: `state`,
        `copy`, `directory`, `registers`, `targets`, `writebacks`, `ways`, `messages`, `counts`, `message_counts`, `word` and
        `quiet`. What it lacks, and what has no meaning, isn't compared."""
        chosen = range(self._machine.config.lines) if lines is None else list(lines)
        for field, wanted, came in differences(self._open(), design, chosen):
            self._differs = Differs(self._last, field, wanted, came)
            self._write(f"# {self._differs}")
            raise self._differs

    def script(self, answers: bool = False) -> str:
        """Returns the calls so far as a script, with answers as one of `lockup test`, which wants what the machine answered."""
        if self._rows is None:
            raise ValueError("the calls aren't recorded")
        return "".join(f"{row_of(row, answer) if answer and answers else row}\n" for row, answer in self._rows)

    # ---- what the calls share

    def _open(self) -> Machine:
        """Returns the machine, unless the design has differed."""
        if self._differs is not None:
            raise self._differs
        return self._machine

    def _cell(self, of: Callable[..., Optional[int]], *numbers: int) -> Optional[int]:
        """Returns the cell that a call would meet, where cells are counted."""
        return None if self._counts is None else of(*numbers)

    def _cover(self, cell: Optional[int]) -> None:
        """Counts the cell that a call has met."""
        if self._counts is not None and cell is not None:
            self._counts[cell] += 1

    def _write(self, row: str, answer: str = "") -> None:
        if self._rows is not None:
            self._rows.append((row, answer))

    def _note(self, command: str, answer: str) -> None:
        """Takes down a call, and what the machine answered."""
        self._last = command
        self._write(command, answer)

    def _agree(self, fields: Iterable[Field], answered: str) -> None:
        """Raises `Differs` for the first field in which the design answered otherwise."""
        for field, wanted, came in fields:
            if came is not None and wanted != came:
                self._write(f"# the design answered: {answered}")
                self._differs = Differs(self._last, field, wanted, came)
                raise self._differs


def named_of(told: Next) -> List[object]:
    """Returns what a delivery names: None where there is nothing, or where the channel has no such name."""
    answer, channel, line, core, sender = told
    if answer != Delivered.MOVED or channel is None:
        return [None] * 4
    of_core, of_sender = channel != Channel.HOME, channel == Channel.ACK
    return [member(Channel, channel), line, core if of_core else None, sender if of_sender else None]


def moved_by(told: Next) -> Optional[str]:
    """Returns the command that moves the same message, if one was moved."""
    answer, channel, line, core, sender = told
    return moved_text(channel, line, core, sender) if answer == Delivered.MOVED and channel is not None else None


def next_text(told: Next) -> str:
    moved = moved_by(told)
    return f"{moved}: moved" if moved else deliver_text(told[0])
