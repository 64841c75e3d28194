r"""Reads and runs the cases of tests/cases, each of which is one file, NAME.case:

    # what it is for, if its name doesn't say it all
    $ lockup script --echo {script}
    === script
    state 0
    === output
    state 0
    line 0 dir I owner - sharers - home 0 0 0 0 0 0 0 0 cores I I
    === error
    lockup: line 2: not a command
    === status 2

The line `$ lockup` has the arguments, with quotes as in a shell. A section is the lines after `=== NAME`:

- `input`: what standard input has; without it, nothing.
- `output`, `error`, `status N`: what is wanted; without them no output, no error text and status 0.
- `output to FILE`: standard output is this file, in place of being compared.
- any other name: a file, which is there while the case runs, and whose path stands for {NAME} in the arguments.

Words after a comma say how the section's text comes of its lines:

- `, escaped`: \r, \t, \\, and \xHH for the byte HH. A line that ends in `\` has no line feed, as a last line may.
- `, by bash`: it is what `bash` prints for these lines.
"""
import os
import re
import shlex
import tempfile
from contextlib import suppress
from dataclasses import dataclass, field
from functools import cache
from pathlib import Path

from .compare import Different, difference
from .processes import ROOT, Ran, bytes_of, lockup, read, run, text_of

FOLDER = ROOT / "tests/cases"
MARK = "=== "
NAMED = {"\\": "\\", "r": "\r", "t": "\t"}
ESCAPE = re.compile(r"\\(?:x([0-9a-f]{2})|(\n)|(.))")


@dataclass
class Part:
    """A text, and how it is written: `plain`, `escaped`, or `by bash`, which prints it."""

    lines: str = ""
    how: str = "plain"

    def text(self) -> str:
        if self.how == "by bash":
            return run(["bash", "-c", self.lines]).out
        return unescaped(self.lines) if self.how == "escaped" else self.lines


@dataclass
class Case:
    """A case: arguments, files, and what is wanted."""

    words: list[str]
    files: dict[str, Part] = field(default_factory=dict)
    input: Part = field(default_factory=Part)
    output: Part = field(default_factory=Part)
    error: Part = field(default_factory=Part)
    status: int = 0
    to: str | None = None


def unescaped(lines: str) -> str:
    def byte(found: re.Match) -> str:
        if found[1]:
            return text_of(bytes.fromhex(found[1]))
        return "" if found[2] else NAMED[found[3]]
    return text_of(bytes_of(ESCAPE.sub(byte, lines)))


def parsed(text: str) -> Case:
    """Returns the case that a file holds."""
    head, *sections = re.split(rf"^{MARK}", text, flags=re.M)
    lines = [line for line in head.splitlines() if line.strip() and not line.startswith("#")]
    if len(lines) != 1 or not lines[0].startswith("$ lockup"):
        raise Different("a case has one line `$ lockup ARGUMENT..` before its sections")
    case = Case(shlex.split(lines[0])[2:])
    for section in sections:
        title, _, lines = section.partition("\n")
        name, _, how = title.partition(", ")
        if how not in ("", "escaped", "by bash"):
            raise Different(f"`{MARK}{title}`: a section may be escaped or by bash")
        take(case, name, Part(lines, how or "plain"))
    return case


def take(case: Case, name: str, part: Part) -> None:
    """Puts a section into its case."""
    if name in ("input", "output", "error"):
        setattr(case, name, part)
    elif name.startswith("status "):
        case.status = int(name.removeprefix("status "))
    elif name.startswith("output to "):
        case.to = name.removeprefix("output to ")
    elif re.fullmatch(r"\w+", name) and name not in case.files and f"{{{name}}}" in " ".join(case.words):
        case.files[name] = part
    else:
        raise Different(f"`{MARK}{name}` is no section, or a file that the arguments don't name as {{{name}}}")


def names() -> list[str]:
    return sorted(path.stem for path in FOLDER.glob("*.case"))


@cache
def case_of(name: str) -> Case:
    return parsed(read(FOLDER / f"{name}.case"))


@cache
def all_cases() -> dict[str, Case]:
    """Returns the cases, by their names. One that can't be read isn't among them: its own test says
    so."""
    found = {}
    for name in names():
        with suppress(Different, ValueError):
            found[name] = case_of(name)
    return found


def placed(case: Case, room: str) -> list[str]:
    """Writes the case's files into a folder, and returns its arguments."""
    words = case.words
    for name, part in case.files.items():
        path = Path(room) / name
        path.write_bytes(bytes_of(part.text()))
        words = [word.replace(f"{{{name}}}", str(path)) for word in words]
    return words


def ran(case: Case) -> Ran:
    """Runs a case."""
    with tempfile.TemporaryDirectory() as room, open(case.to or os.devnull, "wb") as to:
        return lockup(*placed(case, room), text=case.input.text(), **({"stdout": to} if case.to else {}))


def differences(case: Case, got: Ran) -> str:
    """Returns how what came differs from what is wanted; nothing where it doesn't."""
    rows = [("output", case.output.text(), got.out), ("error", case.error.text(), got.err),
            ("status", f"{case.status}\n", f"{got.status}\n")]
    return "\n".join(f"{what} (wanted: -, got: +)\n{difference(wanted, came)}"
                     for what, wanted, came in rows if wanted != came)
