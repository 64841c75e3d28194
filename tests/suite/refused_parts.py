"""Runs the unit tests of the parts of a slice with each of their allocations refused in turn: a test
that meets it says that memory was refused (AllocError), and nothing else. The calls that make a part
take all its memory: an array of two sets makes three allocations, a table of miss registers two, a
slice's channels four, however many lines it has."""
from harness import Ran, each, each_refused, same, tester
from harness.testers import unit_tests

# it is run while the gate proves
NEEDS_PROGRAM = False

PARTS = ("arrays::", "miss_registers::", "channels::")
# tests that make one part, and how many allocations that takes
MAKING = {
    "arrays::a_line_has_its_own_set": 3,
    "miss_registers::a_register_has_two_targets": 2,
    "channels::picks_go_round_from_the_start_line": 4,
}


def tests_of_parts() -> list[str]:
    return sorted({*MAKING, *(name for name in unit_tests() if name.startswith(PARTS))})


def what_came(ran: Ran) -> str:
    """Returns `passed`, or `refused` where a test says that and no more, or all that it says."""
    if ran.status == 0:
        return "passed"
    if ran.status > 0 and not ran.out and ran.err.startswith("error: AllocError\n"):
        return "refused"
    return f"status {ran.status}\n{ran.out}{ran.err}"


@each(tests_of_parts)
def test_refused(name: str) -> None:
    came = [what_came(ran) for _, ran in each_refused([tester("unit_tests"), name])]
    count = came.count("refused")
    # with ample memory, then each allocation of the test, and those that print that it passed
    wanted = ["passed", *["refused"] * count, *["passed"] * (len(came) - count - 1)]
    same(f"{name} with none and then each allocation refused", wanted, came)
    same(f"allocations of {name}", MAKING.get(name, count), count)
