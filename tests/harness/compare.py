"""Compares what is wanted with what came, and shows how they differ."""
import difflib
import pprint
from typing import Any

LINES_SHOWN = 40
COLUMNS_SHOWN = 200


class Different(Exception):
    """Something else came than what is wanted; the text says what."""


class Skipped(Exception):
    """Something that a test needs is missing; the text says what."""


def difference(wanted: str, got: str) -> str:
    """Returns the lines that differ, as `diff -u` shows them; a last line without its end is
    marked."""
    lines = difflib.unified_diff(shown(wanted), shown(got), "wanted", "got", lineterm="", n=3)
    cut = [line[:COLUMNS_SHOWN] for line in list(lines)[2:]]
    return "\n".join(cut[:LINES_SHOWN] + ["..."] * (len(cut) > LINES_SHOWN))


def shown(text: str) -> list[str]:
    """Returns the lines of a text, with the bytes that aren't printed as escapes."""
    lines = text.split("\n")
    last = lines.pop()
    if last:
        lines.append(f"{last} (no line feed)")
    return ["".join(it if it.isprintable() else ascii(it)[1:-1] for it in line) for line in lines]


def same(what: str, wanted: Any, got: Any) -> None:
    """Raises `Different`, with the difference, where the two aren't equal."""
    if wanted != got:
        raise Different(f"{what} (wanted: -, got: +)\n{described(wanted, got)}")


def described(wanted: Any, got: Any) -> str:
    """Returns how two values differ: texts by their lines, tuples by those of their members that
    do."""
    if isinstance(wanted, str) and isinstance(got, str):
        return difference(wanted, got)
    if isinstance(wanted, tuple) and isinstance(got, tuple) and len(wanted) == len(got):
        return "\n".join(described(one, other) for one, other in zip(wanted, got) if one != other)
    return difference(*(f"{pprint.pformat(it, width=100)}\n" for it in (wanted, got)))


def want(holds: Any, what: str) -> None:
    """Raises `Different`, with this text, where something doesn't hold."""
    if not holds:
        raise Different(what)
