"""Runs each case of tests/cases: the bytes that the program prints and accepts, answers, traces,
errors, help and exit statuses. harness/cases.py says how a case is written."""
from harness import Different, each
from harness.cases import case_of, differences, names, ran


@each(names)
def test_prints(name: str) -> None:
    case = case_of(name)
    told = differences(case, ran(case))
    if told:
        raise Different(told)
