"""Lets two cores add to four counters in threads, and drains and audits their machine, once with
ample memory and then once with each of the allocations refused in turn. core_tester says what came
of it: the machine can't be built; or a request was refused memory, or a thread couldn't be started,
and what was left is done again; or the audit wanted memory, gave the cores back, and was made
again; or it did without. In each case but the first the sums are right at the end. Then it does the
same with ample memory, and with each of its threads refused in turn."""
import tempfile
from collections import Counter

from harness import Different, each_refused, preloaded, read, run, same, seconds, tester

# it is run while the gate proves
NEEDS_PROGRAM = False

ROW = "two threads in want of memory"
CAME = {
    (0, f"{ROW}: as wanted\n"): "without",
    (0, f"a request is refused\n{ROW}: as wanted\n"): "requests",
    (0, f"a thread isn't started\n{ROW}: as wanted\n"): "threads",
    (0, f"an audit is made again\n{ROW}: as wanted\n"): "audits",
    (1, ""): "unbuilt",
    (1, f"{ROW}: no memory\n"): "unbuilt",
}
# what has to be met: the cores' lists and the logs grow, the first thread is started before any
# other asks for memory, and the audit's two lists grow
LEAST = {"unbuilt": 1, "requests": 8, "threads": 2, "audits": 2}
# how often a port's list grows hangs on the order of the threads, so an allocation of one run may
# be another in the next
TURNS = 8


def refuse_each(came: Counter) -> None:
    for refused, ran in each_refused([tester("core_tester"), "memory"]):
        if refused == 0:
            same("with ample memory", (0, f"{ROW}: as wanted\n"), (ran.status, ran.out))
        elif (ran.status, ran.out) in CAME:
            came[CAME[ran.status, ran.out]] += 1
        else:
            raise Different(f"with allocation {refused} refused: status {ran.status}, "
                            f"and it printed:\n{ran.out}{ran.err}")


@seconds(10)
def test_refused() -> None:
    came: Counter = Counter()
    for _ in range(TURNS):
        refuse_each(came)
        if all(came[what] >= least for what, least in LEAST.items()):
            return
    raise Different(f"some of {LEAST} weren't met: {dict(came)}")


# the jobs are run twice, first with nothing to do, each time in two threads beside one that moves messages
THREADS = 6


def test_refused_threads() -> None:
    with tempfile.TemporaryDirectory() as room:
        told = f"{room}/told"
        for refused in range(THREADS + 1):
            ran = run([tester("core_tester"), "memory"], env=preloaded("started_threads", REFUSED=refused, TOLD=told))
            came = "a thread isn't started\n" if refused else ""
            same(f"with thread {refused} refused", (0, f"{came}{ROW}: as wanted\n"), (ran.status, ran.out))
            if refused == 0:
                same("threads", THREADS, len(read(told)))
