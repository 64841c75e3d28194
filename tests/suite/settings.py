"""Runs the cases that end without an error once more with each setting that may not change an
answer: `exclusive off`, which is the default, and `misses inverted`, where no case of an explicit
file stalls for a register or a target. Cases that have the setting themselves are left out."""
import re

from harness import each, lockup, same
from harness.cases import all_cases
from harness.scripts import files_of_cases


def cases_without(word: str, answer: str | None = None) -> list[str]:
    """Returns the cases whose scripts have no line of this word, and whose answers have none of
    these."""
    found = []
    for name, script in files_of_cases("script").items():
        case = all_cases()[name]
        answers = case.output.text()
        has = re.search(rf"^ *{word}", script, re.M) or answer and re.search(answer, answers, re.M)
        if answers and case.status == 0 and not has:
            found.append(name)
    return found


def judge(name: str, line: str) -> None:
    case = all_cases()[name]
    ran = lockup("script", "-", text=f"{line}\n{case.files['script'].text()}")
    same(f"output with the line '{line}' before it", case.output.text(), ran.out)
    same("status", 0, ran.status)


@each(lambda: cases_without("exclusive"))
def test_exclusive_off(name: str) -> None:
    judge(name, "exclusive off")


@each(lambda: cases_without("misses", r"^stall [12] "))
def test_misses_inverted(name: str) -> None:
    judge(name, "misses inverted")
