"""Runs each command that the documents show with its output, and compares: a line '$ COMMAND' in a
block of code, and the lines after it, in which '..' stands for lines that are left out. The
commands run at the top of the repository, with the program under test for './lockup'."""
import re
from typing import Iterator

from harness import ROOT, each, program, read, run, want


def shown_in(text: str) -> Iterator[tuple[str, list[str]]]:
    """The commands of a document, each with the lines that follow it."""
    for block in re.findall(r"^```[a-z]*\n(.*?)^```$", text, flags=re.M | re.S):
        for part in re.split(r"^(?=\$ )", block, flags=re.M):
            if part.startswith("$ "):
                command, *lines = part.rstrip("\n").split("\n")
                yield command[2:], lines


def is_shown(lines: list[str], printed: list[str]) -> bool:
    """Whether the lines are those printed, but for the gaps."""
    runs: list[list[str]] = [[]]
    for line in lines:
        if line == "..":
            runs.append([])
        else:
            runs[-1].append(line)
    at = 0
    for number, part in enumerate(runs):
        last = number == len(runs) - 1
        starts = [at] if number == 0 else [len(printed) - len(part)] if last and part else range(at, len(printed) + 1)
        found = [start for start in starts if start >= at and printed[start:start + len(part)] == part]
        if not found:
            return False
        at = found[0] + len(part)
    return at == len(printed) or not runs[-1]


def commands() -> Iterator[tuple]:
    for path in [ROOT / "README.md", ROOT / "CONTRIBUTING.md", *sorted((ROOT / "docs").glob("*.md"))]:
        for number, (command, lines) in enumerate(shown_in(read(path)), 1):
            yield f"{path.relative_to(ROOT)} {number}", command, lines


@each(commands)
def test_command(_: str, command: str, lines: list[str]) -> None:
    ran = run(["bash", "-c", command.replace("./lockup", str(program()))])
    printed = ran.out + ran.err
    shown = "".join(f"{line}\n" for line in lines)
    want(is_shown(lines, printed.splitlines()), f"$ {command}\nprints\n{printed}and this is shown:\n{shown}")


def test_there_are_commands() -> None:
    want(list(commands()), "the documents show no command")
