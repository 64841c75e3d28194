"""Takes scripts apart, as docs/TEXTS.md has their lines."""
import re
from functools import cache

from .cases import all_cases
from .processes import ROOT, read

# by how many lines they answer with: one, or as many as there is to show
ANSWERED = "issue evict deliver pump hand word state".split()
LONG_ANSWERS = "waiting show stats log".split()
COMMANDS = [*ANSWERED, *LONG_ANSWERS]
FIELDS = "cores slices lines sets ways mshrs targets writebacks policy misses exclusive init counter".split()


def first_word(line: str) -> str:
    return re.match(r"[ \t]*([^ \t\r]*)", line)[1]


def is_command(line: str) -> bool:
    return first_word(line) in COMMANDS


def split(script: str) -> tuple[list[str], list[str]]:
    """Returns the lines that configure the machine, and those that are commands."""
    lines = [line for line in script.split("\n") if line.split() and not line.startswith("#")]
    return [line for line in lines if not is_command(line)], [line for line in lines if is_command(line)]


def examples() -> list[str]:
    """Returns the names of the examples that are scripts, and of the one that is a trace."""
    return sorted(path.stem for path in (ROOT / "examples").glob("*.txt"))


def is_trace(text: str) -> bool:
    """Returns whether a text is a trace or a history, and no script."""
    return any(line.startswith(("lockup-trace", "lockup-history")) for line in text.split("\n"))


def example(name: str) -> str:
    return read(ROOT / f"examples/{name}.txt")


@cache
def files_of_cases(kind: str) -> dict[str, str]:
    """Returns the files {kind} of all cases, by the names of these. Those that bash prints aren't
    among them."""
    parts = {name: case.files.get(kind) for name, case in all_cases().items()}
    return {name: part.text() for name, part in parts.items() if part and part.how != "by bash"}


def remark_of(test: str) -> str:
    """What is said of a litmus test that ran, on standard error: that nothing is forbidden, where no line of it is `forbid`."""
    forbids = any(line.split()[:1] == ["forbid"] for line in test.splitlines())
    return "" if forbids else "lockup: nothing is forbidden: the test has no line 'forbid'\n"
