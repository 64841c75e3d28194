"""Compares what a design shows with what a machine does.

A design shows what it has by methods with the names of `Machine`'s. What they return has fields with the names of
`values`; a method or a field that it lacks isn't compared, and neither is what has no meaning (lockup.h says what).
"""
from typing import Any, Dict, Iterator, Sequence, Tuple

from .machine import Machine
from .names import CopyState, DirectoryState, MessageKind, Op
from .values import CARRIERS, Copy, Directory, Message, Register, Target, place_of

# where it is, what the machine has there, and what the design has
Difference = Tuple[str, object, object]

COUNTING = (CopyState.IM_AD, CopyState.IM_A, CopyState.SM_AD, CopyState.SM_A)
NAMED = (CopyState.IM_A, CopyState.SM_A)
SHARED = (DirectoryState.S, DirectoryState.S_D)
WITHOUT_BLOCK = (CopyState.I, CopyState.IS_D, CopyState.IM_AD, CopyState.II_A)


def differences(machine: Machine, design: object, lines: Sequence[int]) -> Iterator[Difference]:
    """Returns where the design differs from the machine in these lines, their words, or what isn't a line's."""
    cores, slices = range(machine.config.cores), range(machine.config.slices)
    of_line = [(line,) for line in lines]
    of_copy = [(core, line) for core in cores for line in lines]
    of_core = [(core, slice) for core in cores for slice in slices]
    looks: Dict[str, Sequence[Tuple[int, ...]]] = {
        "state": of_copy, "copy": of_copy, "directory": of_line, "registers": of_core, "targets": of_copy,
        "writebacks": of_core, "ways": of_copy, "messages": of_line, "counts": of_core,
        "message_counts": [(slice,) for slice in slices],
        "word": [(word,) for line in lines for word in range(8 * line, 8 * line + 8)]}
    for name, places in looks.items():
        if hasattr(design, name):
            for place in places:
                where = f"{name}({', '.join(map(str, place))})"
                yield from of_look(where, getattr(machine, name)(*place), getattr(design, name)(*place))
    if hasattr(design, "quiet"):
        yield from of_value("quiet", machine.quiet, design.quiet)


def of_look(where: str, wanted: Any, came: Any) -> Iterator[Difference]:
    """Compares a look: a record, a list of them, a list of lines, or a value."""
    if hasattr(wanted, "_fields"):
        yield from of_record(where, wanted, came)
    elif where.startswith("writebacks"):
        # their order means nothing
        yield from of_value(where, tuple(sorted(wanted)), sorted(came))
    elif isinstance(wanted, tuple) and not is_plain(wanted or tuple(came)):
        yield from of_list(where, wanted, tuple(came))
    # a word has no value where its slice isn't quiet
    elif wanted is not None:
        yield from of_value(where, wanted, came)


def is_plain(values: Sequence[object]) -> bool:
    return bool(values) and isinstance(values[0], int)


def of_value(where: str, wanted: object, came: Any) -> Iterator[Difference]:
    found = tuple(came) if isinstance(wanted, tuple) and came is not None else came
    if wanted != found:
        yield where, wanted, found


def of_record(where: str, wanted: Any, came: object) -> Iterator[Difference]:
    """Compares the fields that the design has, and that have a meaning."""
    if not any(hasattr(came, name) for name in wanted._fields):
        raise TypeError(f"{where} of the design, {came!r}, has none of the fields {', '.join(wanted._fields)}")
    for name in fields_of(wanted):
        if hasattr(came, name):
            its = getattr(came, name)
            # sharers are a set
            yield from of_value(f"{where}.{name}", getattr(wanted, name), sorted(its) if name == "sharers" and its else its)


def fields_of(wanted: Any) -> Sequence[str]:
    """Returns the fields of a record that have a meaning."""
    unmeant: Tuple[str, ...] = ()
    if isinstance(wanted, Directory):
        # the home copy is current where no core may write, and no block is on its way home
        unmeant = ("owner",) * (wanted.state != DirectoryState.M) + ("sharers",) * (wanted.state not in SHARED)
        unmeant += ("home",) * (wanted.state not in (DirectoryState.I, DirectoryState.S))
    elif isinstance(wanted, Register):
        unmeant = ("needed", "counted") * (wanted.kind == MessageKind.GETS)
    elif isinstance(wanted, Copy):
        unmeant = ("wants",) * (wanted.state not in NAMED) + ("counted",) * (wanted.state not in COUNTING)
        unmeant += ("block",) * (wanted.state in WITHOUT_BLOCK)
    elif isinstance(wanted, Target):
        unmeant = ("operand",) * (wanted.op == Op.LOAD) + ("replacement",) * (wanted.op != Op.CAS)
    elif isinstance(wanted, Message):
        # its place is named already
        unmeant = ("channel", "line", "core", "sender", *("requester",) * (wanted.requester is None),
                   *("acks",) * (wanted.kind != MessageKind.DATA), *("block",) * (wanted.kind not in CARRIERS))
    return [name for name in wanted._fields if name not in unmeant]


def of_list(where: str, wanted: Sequence[Any], came: Sequence[Any]) -> Iterator[Difference]:
    """Compares a list of records, which have names that say which is which."""
    named, found = names_of(wanted), names_of(came)
    if sorted(named) != sorted(found):
        yield where, tuple(named), tuple(found)
        return
    for name, one in zip(named, wanted):
        yield from of_record(f"{where}[{name}]", one, came[found.index(name)])


def names_of(records: Sequence[Any]) -> Sequence[str]:
    """Returns what names each of a list of records: a message its channel, a register its line, a target its place."""
    return [place_of(it.channel, it.line, it.core, getattr(it, "sender", 0)) if hasattr(it, "channel")
            else f"line {it.line}" if hasattr(it, "line") else str(nth) for nth, it in enumerate(records)]
