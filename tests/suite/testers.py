"""Runs the testers of tests/testers, which are built without a proof from the sources that are proved: the programs, whose
output stands beside each, optimised, with AddressSanitizer's checks, and with ThreadSanitizer's, which looks for races; and
the unit tests. And slice_bench of bench/, which measures, and alone says here what it can measure."""
from harness import each, needs, run, same, seconds, want
from harness.testers import expected, tester, unit_tests

# they are built and run while the gate proves
NEEDS_PROGRAM = False
PROGRAMS = ("lock_tester", "core_tester")


@seconds(100)
@each(lambda: (*PROGRAMS, "slice_bench"))
def test_prints(name: str) -> None:
    ran = run([tester(name)])
    same("status and output", (0, expected(name)), (ran.status, ran.out))


@seconds(100)
@each(lambda: PROGRAMS)
def test_prints_under_address_sanitizer(name: str) -> None:
    ran = run([tester(name, "checked")])
    same("status and output", (0, expected(name)), (ran.status, ran.out))


@seconds(100)
@each(lambda: PROGRAMS)
def test_has_no_race(name: str) -> None:
    needs("cc")
    ran = run([tester(name, "races")])
    if "unexpected memory mapping" in ran.err:
        # where the system scatters addresses further than ThreadSanitizer knows
        ran = run(["setarch", "-R", tester(name, "races")])
    same("status, output and error", (0, expected(name), ""), (ran.status, ran.out, ran.err))


@each(unit_tests)
def test_unit(name: str) -> None:
    ran = run([tester("unit_tests"), name])
    want(ran.status == 0, ran.out + ran.err)
