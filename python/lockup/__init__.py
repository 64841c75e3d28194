"""lockup: lockup-free private caches with explicitly addressed miss registers, kept coherent by a directory.

`Machine` is the proved machine, call by call; `Scoreboard` holds a design against one, and `lockup.shrink` makes the script
of a fault short. `Judge` judges the trace of any cache, entry by entry, and `Histories` what its cores asked for and were
answered, in no known order. Each call does what the same line of a script does (docs/TEXTS.md); docs/LIBRARY.md says what is
proved. `rounds` and `rows` walk litmus tests and run sweeps by the program `lockup`.
"""
from .campaigns import Outcome, Rounds, rounds, rows
from .cells import CELLS, coverage_text
from .errors import (
    Differs, InUse, LockupError, NoMachine, NoMemory, NoOutcome, NoProgram, NotAdded, NotAllowed, OutOfRange, ProgramFailed,
)
from .histories import Histories
from .judge import Judge
from .library import library as _library
from .machine import Config, Log, Machine
from .names import (
    Answer, Channel, Coherence, CopyState, Delivered, DirectoryState, Evicted, Kind, MessageKind, Misses, Op, Policy,
    Refused, Stall, Verdict, Why,
)
from .scoreboard import Scoreboard
from .values import (
    Copy, CoreCounts, Decision, Delivery, Directory, Entry, Issued, Judged, Judgement, Message, MessageCounts, Planned,
    Reason, Receipt, Register, Target,
)

__version__ = "0.3.0"

__all__ = [
    "Answer", "CELLS", "Channel", "Coherence", "Config", "Copy", "CopyState", "CoreCounts", "Decision", "Delivered",
    "Delivery", "Differs", "Directory", "DirectoryState", "Entry", "Evicted", "Histories", "InUse", "Issued",
    "Judge", "Judged", "Judgement", "Kind", "LockupError", "Log", "Machine", "Message", "MessageCounts",
    "MessageKind", "Misses", "NoMachine", "NoMemory", "NoOutcome", "NoProgram", "NotAdded", "NotAllowed", "Op",
    "OutOfRange", "Outcome", "Planned", "Policy", "ProgramFailed", "Reason", "Receipt", "Refused", "Register",
    "Rounds", "Scoreboard", "Stall", "Target", "Verdict", "Why", "coverage_text", "library_version", "rounds",
    "rows",
]


def library_version() -> str:
    """Returns the version of the shared object."""
    number = _library().version()
    return f"{number // 10000}.{number // 100 % 100}.{number % 100}"
