"""An exception for each code that a call can return, those of the program, and one for a design that differs from the
machine."""
from enum import Enum
from typing import Dict, Optional, Tuple, Type

FIELDS = ("cores", "slices", "lines", "sets", "ways", "mshrs", "targets", "writebacks", "init", "counters")


class LockupError(Exception):
    """A call that was not made; nothing has changed. `code` is what the library returned, or the program's exit status."""

    def __init__(self, code: int, said: str) -> None:
        super().__init__(said)
        self.code = code

    def __reduce__(self) -> "Tuple[Type[LockupError], Tuple[int, str]]":
        return type(self), (self.code, str(self))


class NoMachine(LockupError):
    """The machine was closed."""


class OutOfRange(LockupError, IndexError):
    """The machine has no such core, slice, line or word, or there is no such number."""


class NoMemory(LockupError, MemoryError):
    """An allocation failed."""


class InUse(LockupError):
    """The handle has a machine already."""


class NotAllowed(LockupError, ValueError):
    """A configuration isn't allowed; `field` is the first field at fault."""

    def __init__(self, code: int, said: str) -> None:
        super().__init__(code, said)
        self.field = FIELDS[code - 101]


class NoProgram(LockupError):
    """There is no program `lockup`, or it can't be started; `code` is what a shell returns then."""


class ProgramFailed(LockupError):
    """The program `lockup` ended with an error, which is the exception's text; `code` is its exit status."""


class NotAdded(LockupError, ValueError):
    """Rounds that aren't those of one walk, or that have a seed twice; `code` is the exit status of `lockup merge`."""


class NoOutcome(LockupError):
    """A round of a litmus test has no outcome: that of this `seed` was given up after so many `moves`, or is stuck, where
    `moves` is None."""

    def __init__(self, seed: int, moves: Optional[int]) -> None:
        super().__init__(1, f"the round of seed {seed} {'is stuck' if moves is None else f'was given up after {moves} moves'}")
        self.seed, self.moves = seed, moves

    def __reduce__(self) -> "Tuple[Type[NoOutcome], Tuple[int, Optional[int]]]":  # type: ignore[override]
        return type(self), (self.seed, self.moves)


class Differs(AssertionError):
    """A design came to something else than the machine: at which `call`, as a script has it, in which `field`, what was
    `wanted`, and what `came`."""

    def __init__(self, call: str, field: str, wanted: object, came: object) -> None:
        super().__init__(f"{call or 'before any call'}: {differs_text(field, wanted, came)}")
        self.call, self.field, self.wanted, self.came = call, field, wanted, came

    def __reduce__(self) -> "Tuple[Type[Differs], Tuple[str, str, object, object]]":
        return type(self), (self.call, self.field, self.wanted, self.came)


def differs_text(field: str, wanted: object, came: object) -> str:
    return f"{field} is {shown(wanted)}, and the design's is {shown(came)}"


def shown(value: object) -> str:
    return value.name if isinstance(value, Enum) else str(value)


_KINDS: Dict[int, Tuple[Type[LockupError], str]] = {
    1: (NoMachine, "there is no machine: it was closed"),
    2: (OutOfRange, "out of range"),
    3: (NoMemory, "no memory"),
    4: (InUse, "the handle has a machine already"),
}


def error_of(code: int) -> LockupError:
    """Returns the exception for a code other than 0."""
    if code in _KINDS:
        kind, said = _KINDS[code]
        return kind(code, said)
    if 101 <= code <= 110:
        return NotAllowed(code, f"config {code - 100} {FIELDS[code - 101]}")
    return LockupError(code, f"code {code}")
