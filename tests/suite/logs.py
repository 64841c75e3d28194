"""Checks each trace that a case or an example prints: what the machine performs is always legal."""
import re

from harness import ROOT, each, lockup, same, want
from harness.cases import all_cases
from harness.scripts import example, examples, is_trace

TRACE = re.compile(r"^lockup-trace .*\n(?:(?:init|entry) .*\n)*", re.M)


def judge(answers: str) -> None:
    for trace in TRACE.findall(answers):
        ran = lockup("check", "-", text=trace)
        want(ran.status == 0, f"it prints a trace that isn't legal: {ran.out}{ran.err}\n{trace}")


def cases_with_traces() -> list[str]:
    return [name for name, case in all_cases().items() if TRACE.search(case.output.text())]


@each(cases_with_traces)
def test_case(name: str) -> None:
    judge(all_cases()[name].output.text())


@each(lambda: [name for name in examples() if not is_trace(example(name))])
def test_example(name: str) -> None:
    ran = lockup("script", ROOT / f"examples/{name}.txt")
    same("status and error", (0, ""), (ran.status, ran.err))
    judge(ran.out)


def test_there_are_traces() -> None:
    want(cases_with_traces(), "no case prints a trace")
