"""Commands of scripts and their answers, as docs/TEXTS.md has them. What isn't known of an answer is None, in texts `?`."""
from enum import IntEnum
from typing import Optional, Tuple, Type

from .library import number as number_of
from .names import Answer, Channel, Delivered, Evicted, Op, Refused, Stall
from .values import place_of

# an answer to an access: what became of it, its number or reason, and its reply
Issue = Tuple[int, Optional[int], Optional[int]]
# a reply that is handed out: its number, its tag, and its value
Hand = Tuple[Optional[int], Optional[int], Optional[int]]

# messages, by their numbers
MESSAGES = ("GetS", "GetM", "PutS", "PutM", "Fwd-GetS", "Fwd-GetM", "Inv", "Put-Ack", "Data", "Data-E", "Inv-Ack",
            "Data home")


def member(kind: Type[IntEnum], number: int) -> int:
    """Returns the member of an enum that a number is, or the number."""
    return kind(number) if number in kind._value2member_map_ else number


def named(kind: Type[IntEnum], number: int) -> str:
    found = member(kind, number)
    return found.name.lower().replace("_", " ") if isinstance(found, IntEnum) else f"answer {number}"


def known(number: Optional[int]) -> str:
    return "?" if number is None else str(number_of(number))


def told(number: object) -> str:
    """Returns a number of an answer, which may be any: what a design answers may be wrong."""
    return "?" if number is None else str(number)


# ---- commands

def issue_command(core: int, tag: int, op: int, word: int, operand: int = 0, replacement: int = 0) -> str:
    operands = [operand] * (op != Op.LOAD) + [replacement] * (op == Op.CAS)
    return " ".join(["issue", known(core), known(tag), Op(op).name.lower(), known(word), *map(known, operands)])


def deliver_command(channel: int, line: int, core: int = 0, sender: int = 0) -> str:
    return f"deliver {place_of(channel, number_of(line), number_of(core), number_of(sender))}"


def moved_text(channel: int, line: object, core: object, sender: object) -> str:
    """Returns which message a design says that it moved."""
    if channel in Channel._value2member_map_:
        return f"deliver {place_of(channel, line, core, sender)}"  # type: ignore[arg-type]
    return f"channel {channel} {line} {core} {sender}"


# ---- answers

def reason_text(answer: int, reason: Optional[int]) -> str:
    """Returns a reason's number and name."""
    kind = Stall if answer == Answer.STALL else Refused
    found = None if reason is None else member(kind, reason)
    name = found.name.title().replace("_", "") if isinstance(found, IntEnum) else "?"
    return f"{told(reason)} {name}"


def issue_text(became: Issue) -> str:
    answer, number, reply = became
    if answer == Answer.DONE:
        return f"done {told(number)} reply {told(reply)}"
    if answer == Answer.PENDING:
        return f"pending {told(number)}"
    if answer in (Answer.STALL, Answer.REFUSED):
        return f"{Answer(answer).name.lower()} {reason_text(answer, number)}"
    return f"answer {answer}"


def evict_text(answer: int) -> str:
    return named(Evicted, answer)


def deliver_text(answer: int) -> str:
    return named(Delivered, answer)


def hand_text(handed: Optional[Hand]) -> str:
    if handed is None:
        return "none"
    number, tag, reply = map(told, handed)
    return f"receipt {number} tag {tag} reply {reply}"


def row_of(command: str, answer: str) -> str:
    """Returns a line of a script that wants this answer."""
    return f"{command:<39} = {answer}"
