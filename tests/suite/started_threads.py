"""Counts the threads that a litmus test starts: in each round one for each thread of the test, and
one for each of its movers, of which there is one where the test says nothing."""
import tempfile

from harness import each, is_plain, lockup, preloaded, read, same, write

ROUNDS, THREADS = 3, 2
TEST = """lockup-litmus 1
cores 2
rounds 3
{}thread 0
store 0 1
load 8 a
thread 1
store 8 1
load 0 b
forbid b=2
"""
MOVERS = [("one", "", 1), *((str(count), f"movers {count}\n", count) for count in range(5))]


@each(lambda: MOVERS)
def test_movers(_: str, line: str, movers: int) -> None:
    is_plain()
    with tempfile.TemporaryDirectory() as room:
        told = f"{room}/told"
        test = write(f"{room}/test.txt", TEST.format(line))
        ran = lockup("litmus", test, env=preloaded("started_threads", TOLD=told))
        same("status and error", (0, ""), (ran.status, ran.err))
        same("threads", ROUNDS * (THREADS + movers), len(read(told)))
