"""Refuses each of the program's allocations in turn: of a script from its file and from standard
input, explained, drawn, beside its answers and as waves, of an exercise, of a trace, of a litmus
test over threads, on random schedules and as a script, and of programs, also as a script and as
rows that are made side by side. Each of those runs prints the first
of the answers and nothing else, then the error 'no memory', with status 3: no answer may change in
place of the error. Or it does without that allocation, and prints all answers, with status 0."""
import tempfile

from harness import ROOT, Ran, each, each_refused, is_plain, program, read, same, seconds, want, write

SCRIPT = "examples/shared_line.txt"
# a trace of two lines and a late word, so that what is kept of it grows
TRACE = "lockup-trace 2\nentry 0 0 0 add 0 5 0 0\nentry 63 0 0 load 8 0 0\nentry 0 1 1 load 70000 0 0\n"
# one core whose replies are known, so that threads print one table alone
TEST = "lockup-litmus 1\nrounds 2\ninit 0 7\ncounter 8\nthread 0\nload 0 a\nadd 8 1 b\nstore 16 2\nforbid a=0 b=1\n"
PROGRAMS = "cores 2\nlines 4\noutstanding 2\ncore 0\nload 0..15\ncore 1\nadd 3 1\n"
# the words of a run, in which a name stands for a file
RUNS = [
    f"script {SCRIPT}", f"chart {SCRIPT}", "script --echo -", "script --explain -", "script --beside -",
    "script --beside --explain -", "script --vcd -", "test examples/exercises/first_miss.txt", "check TRACE",
    "litmus TEST", "walk TEST", "walk --seed 5 --script TEST", "run PROGRAMS", "run PROGRAMS --json",
    "run PROGRAMS --script", "run PROGRAMS --csv", "run PROGRAMS --set ways=1,2 --set misses=explicit,inverted --seeds 1..2",
]


def judge(refused: int, wanted: str, ran: Ran) -> None:
    what = f"with allocation {refused} refused: "
    if ran.status == 0:
        same(f"{what}status, output and error", (0, wanted, ""), tuple(ran))
        return
    same(f"{what}status and error", (3, "lockup: no memory\n"), (ran.status, ran.err))
    whole_lines = not ran.out or ran.out.endswith("\n")
    want(whole_lines and wanted.startswith(ran.out), f"{what}these aren't the first of the answers:\n{ran.out}")


@seconds(20)
@each(lambda: RUNS)
def test_refused(run: str) -> None:
    is_plain()
    with tempfile.TemporaryDirectory() as room:
        files = {"TRACE": write(f"{room}/trace", TRACE), "TEST": write(f"{room}/test", TEST),
                 "PROGRAMS": write(f"{room}/programs", PROGRAMS)}
        words, wanted, refused = [files.get(word, word) for word in run.split()], None, 0
        for refused, ran in each_refused([program(), *words], read(ROOT / SCRIPT)):
            if refused == 0:
                same("status and error with ample memory", (0, ""), (ran.status, ran.err))
                wanted = ran.out
            else:
                judge(refused, wanted, ran)
    want(refused, "no allocation was refused")
