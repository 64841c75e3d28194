"""Makes a hundred thousand random calls on a slice behind its lock and on the cores of a system,
each on a reference copy too: lock_tester says whether nothing differs. And lets four threads add to
four counters a hundred times, and 64 threads four times, each time on a new machine that is then
drained and audited: core_tester says whether all came out as wanted."""
from harness import run, same, seconds, tester

# it is run while the gate proves
NEEDS_PROGRAM = False


@seconds(15)
def test_random_calls() -> None:
    ran = run([tester("lock_tester"), "twins", "25"])
    same("status and output", (0, "twins: 100000 calls: nothing differs\n"), (ran.status, ran.out))


@seconds(15)
def test_threads_that_add() -> None:
    ran = run([tester("core_tester"), "again"])
    same("status and output", (0, "100 runs of four threads: all equal\n"), (ran.status, ran.out))
