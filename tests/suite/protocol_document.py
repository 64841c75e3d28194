"""Compares the tables of docs/PROTOCOL.md, row by row, with those that the program prints from its
code."""
import re

from harness import ROOT, lockup, read, same


def rows_of(text: str) -> str:
    return "".join(f"{line}\n" for line in text.splitlines() if line.startswith("|"))


def test_tables() -> None:
    printed = [lockup("table", name, "--exclusive") for name in ("cache", "directory")]
    same("statuses", [0, 0], [ran.status for ran in printed])
    shown = re.findall(r"^<!-- tables:.*?^<!-- end of tables", read(ROOT / "docs/PROTOCOL.md"), re.M | re.S)
    same("docs/PROTOCOL.md", rows_of("".join(ran.out for ran in printed)), rows_of("".join(shown)))
