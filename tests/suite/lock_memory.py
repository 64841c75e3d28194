"""Asks a slice behind its lock, through a port, for a hundred words, once with ample memory and
then once with each of the allocations refused in turn. A request for which memory is refused, be it
for one of the port's lists or for the log, changes nothing, and when it is made again it is
accepted: lock_tester says so, and how many there were. Or the slice can't be built, and then the
program ends with status 1 and prints nothing but why, on standard error."""
from collections import Counter

from harness import Different, Ran, each_refused, same, seconds, tester, want

# it is run while the gate proves
NEEDS_PROGRAM = False

# The port's list of receipts and the log grow from 4 places to 128, each time to twice as many, so
# each of the two grows six times. The port's list of requests grows once: but for the first, which
# misses, all are done at once, and in a row.
GROWTHS = 13
SAID = "all accepted, and {} of them made again for want of memory\n"


def what_came(ran: Ran) -> str:
    outcomes = {(0, SAID.format(1)): "again", (0, SAID.format(0)): "without", (1, ""): "unbuilt"}
    if (ran.status, ran.out) not in outcomes:
        raise Different(f"status {ran.status}, and it printed:\n{ran.out}{ran.err}")
    return outcomes[ran.status, ran.out]


@seconds(5)
def test_refused() -> None:
    came: Counter = Counter()
    for refused, ran in each_refused([tester("lock_tester"), "memory"]):
        if refused == 0:
            same("with ample memory", (0, SAID.format(0)), (ran.status, ran.out))
        else:
            came[what_came(ran)] += 1
    want(came["again"] >= GROWTHS, f"fewer than {GROWTHS} growths of the port's lists and the log were met: {came}")
