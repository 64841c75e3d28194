"""Runs what examples/cosim shows: a cache that agrees with the golden model over 100,000 calls, and
the same with a planted bug, which is found at the first answer or state that differs. The
counterexample is a script: the program answers it as the golden model did, and it can be drawn.

In SystemVerilog under Verilator (each of four wrong rows), in C++ (each of three bugs of its miss
registers), and as a trace that is judged as it comes. From what the caches in SystemVerilog answer
alone `lockup judge` finds three of the wrong rows, one of them also without times."""
import os
import re
import sys
import tempfile
from pathlib import Path

from harness import ROOT, Ran, each, lockup, needs, read, run, same, seconds, want, write
from harness.library import shared
from suite.histories import Access
from suite.judged import is_sound
from suite.library_scoreboard import LISTS, PLANTS, SEEDS, script_of, twin

FOLDER = ROOT / "examples/cosim"
AGREE = "agree: 100000 calls\n"
DIFFER = re.compile(r"((?:after )?call (\d+), (.*?): .* is (.*), and the design's is (.*))\n  the calls that lead there: (.*)\n")


def cosim(*words: str | Path) -> Ran:
    return run([FOLDER / words[0], *words[1:]], env={**os.environ, "LOCKUP_LIBRARY": str(shared())})


def judge_difference(ran: Ran, script: Path) -> None:
    same("status and error", (1, ""), (ran.status, ran.err))
    told = DIFFER.fullmatch(ran.out)
    want(told, f"it says no difference: {ran.out}")
    want(told[4] != told[5], "the two answers are the same")
    *_, command, comment = read(script).splitlines()
    same("the last command", told[3], command)
    same("the comment", f"# {told[1]}", comment)
    played = lockup("script", script)
    same("status and error of the script", (0, ""), (played.status, played.err))
    chart = lockup("chart", script)
    same("status and error of its chart", (0, ""), (chart.status, chart.err))
    want(chart.out.startswith("sequenceDiagram\n"), "it has no chart")


def needs_verilator() -> None:
    shared()
    needs("verilator", "c++", "make")


@seconds(60)
def test_systemverilog() -> None:
    needs_verilator()
    same("status and output", (0, AGREE), cosim("systemverilog")[:2])


SHAPES = """module lists;
  import lockup_pkg::*;
  chandle machine = null;
  longint unsigned shape[12], pairs[128], counters[8], value[2];
  initial begin
    void'(lockup_defaults(shape));
    foreach (pairs[it]) pairs[it] = it % 2 == 0 ? longint'(it) / 2 : longint'(it);
    counters[0] = 3;
    $display("%0d", lockup_make_with(machine, shape, pairs, 65, counters, 0));
    $display("%0d", lockup_make_with(machine, shape, pairs, 64'd100000000, counters, 0));
    $display("%0d", lockup_make_with(machine, shape, pairs, 0, counters, 9));
    $display("%0d", machine == null);
    $display("%0d", lockup_make_with(machine, shape, pairs, 64, counters, 1));
    $display("%0d", lockup_word_at(machine, 63, value));
    $display("%0d", value[1]);
    $finish;
  end
endmodule
"""


@seconds(60)
def test_lists_of_systemverilog() -> None:
    """More initial values and counters than the lists have are refused, and not read."""
    needs_verilator()
    with tempfile.TemporaryDirectory() as room:
        made = run(["verilator", "--binary", "--Mdir", room, "--top-module", "lists", ROOT / "systemverilog/lockup_pkg.sv",
                    write(f"{room}/lists.sv", SHAPES), shared(), "-LDFLAGS", f"-Wl,-rpath,{shared().parent}"])
        same("status of verilator", 0, made.status)
        told = [it for it in run([f"{room}/Vlists"]).out.splitlines() if not it.startswith("- ")]
        same("codes and values", ["2", "2", "2", "1", "0", "0", "127"], told)


@seconds(60)
@each(lambda: "1234")
def test_wrong_row(row: str) -> None:
    needs_verilator()
    with tempfile.TemporaryDirectory() as room:
        script = Path(room, "counterexample.txt")
        judge_difference(cosim("systemverilog", row, f"+script={script}"), script)


@seconds(60)
def test_wrong_answers() -> None:
    """Answers alone find row 2 too, and the caches answer the script otherwise than the program."""
    needs_verilator()
    with tempfile.TemporaryDirectory() as room:
        script = Path(room, "counterexample.txt")
        ran = cosim("systemverilog", "2", "+answers", f"+script={script}")
        judge_difference(ran, script)
        want(ran.out.startswith("call "), f"a state differs: {ran.out}")
        wanted, told = lockup("script", script).out.splitlines(), cosim("systemverilog", "2", "--script", script)
        same("status and answers", (0, len(wanted)), (told.status, len(told.out.splitlines())))
        want(wanted[-1] != told.out.splitlines()[-1], f"both answer {wanted[-1]}")


# by row, what the history comes to, with its times and without. A copy that is stale for a while is one that was read
# earlier, as far as a word's accesses tell, until a store is known to have ended before. A row that lets another message
# wait changes no answer.
JUDGED = [("0", "coherent", "coherent"), ("1", "incoherent", "coherent"), ("2", "incoherent", "coherent"),
          ("3", "incoherent", "incoherent"), ("4", "coherent", "coherent")]
# what the caches with these rows owe at the end: a message without a row stays in front of its channel
STUCK = "23"


def accesses_of(text: str, word: str) -> dict[int, Access]:
    """Returns the accesses of a word, by the lines of a history."""
    found = {}
    for number, line in enumerate(text.splitlines(), 1):
        words = line.split()
        if words[3:4] == [word]:
            during = [int(it) for it in words.pop()[1:].split("..")] if "@" in line else []
            values = [int(it) for it in words[4:]]
            reply = 0 if words[2] == "store" else values.pop()
            found[number] = Access(int(words[1]), words[2], tuple(values), reply, *during)
    return found


@seconds(60)
@each(lambda: JUDGED)
def test_answers_alone(row: str, timed: str, untimed: str) -> None:
    needs("verilator", "c++", "make")
    ran = run([FOLDER / "history", row])
    same("status", 0, ran.status)
    want(re.fullmatch(r"[1-9]\d* accesses were never answered\n" if row in STUCK else "", ran.err), ran.err)
    for text, wanted in (ran.out, timed), (re.sub(r" @\S+", "", ran.out), untimed):
        said = lockup("judge", "-", text=text)
        first, *steps = said.out.splitlines()
        same("verdict and status", (wanted, int(wanted != "coherent")), (first.split()[0], said.status))
        if row == "2" and steps:
            want(f"{ran.err}{said.out}```" in read(FOLDER / "README.md"), f"the page shows something else than {said.out}")
        if steps:
            want(is_sound(steps, 0, accesses_of(text, first.split()[2])), said.out)


@seconds(10)
def test_cpp() -> None:
    shared()
    needs("c++")
    same("status, output and error", (0, AGREE, ""), tuple(cosim("cpp")))


@seconds(10)
@each(lambda: "123")
def test_wrong_registers(bug: str) -> None:
    shared()
    needs("c++")
    with tempfile.TemporaryDirectory() as room:
        script = Path(room, "counterexample.txt")
        judge_difference(cosim("cpp", bug, "100000", "1", script), script)


def judged(trace: str) -> Ran:
    environment = {**os.environ, "LOCKUP_LIBRARY": str(shared())}
    return run([sys.executable, FOLDER / "judge_trace.py"], trace, env=environment)


@each(lambda: ["agrees", "lost update"])
def test_trace(name: str) -> None:
    """The verdict is that of `lockup check`, and a wrong trace is read no further."""
    words = ["--lost-update"] * (name == "lost update")
    trace = run([sys.executable, FOLDER / "toy_simulator.py", *words]).out
    wanted, ran = lockup("check", "-", text=trace), judged(trace)
    same("status", wanted.status, ran.status)
    want(ran.out.startswith(wanted.out.rstrip("\n")), f"check says {wanted.out}, the judge {ran.out}")
    same("it is as planted", int(bool(words)), ran.status)


def twin_of_systemverilog(room: str) -> str:
    sources = [*(ROOT / "systemverilog" / it for it in ("lockup_pkg.sv", "lockup_scoreboard.sv")), ROOT / "tests/harness/twin.sv"]
    made = run(["verilator", "--binary", "-O3", "-j", "2", "--Mdir", room, "--top-module", "twin", *sources, shared(),
                "-LDFLAGS", f"-Wl,-rpath,{shared().parent}"])
    want(made.status == 0, made.err)
    return f"{room}/Vtwin"


@seconds(90)
def test_scoreboards() -> None:
    """The class says of each planted change what the scoreboard in C says, and writes the same script. One that is done can
    start again."""
    needs_verilator()
    with tempfile.TemporaryDirectory() as room:
        made, script = twin_of_systemverilog(room), f"{room}/script.txt"
        uncounted = [("uncounted", it, 0, "") for it in LISTS]
        for what, place, key, where in [("none", 0, 0, ""), ("reverse", "registers", 0, ""), *uncounted, *PLANTS]:
            words = {"place": place, "key": key} if isinstance(place, int) else {"planted": place}
            # the first seeds that show it, as in C
            for seed in SEEDS:
                ran = run([twin(), str(seed), "1000", "1", what, str(place), str(key)])
                if ran.status or not where:
                    break
            told = run([made, f"+seed={seed}", "+calls=1000", f"+script={script}", f"+plant={what}",
                        *(f"+{name}={value}" for name, value in words.items())])
            _, *said = ran.out.partition("cores ")[0].splitlines() if ran.status else ("", "agree", "")
            same(f"what it says of {what} {place} {key}", said[0], told.out.splitlines()[0])
            same(f"script of {what} {place} {key}", script_of(ran), read(script))
        for seed in range(6):
            counts, wanted = f"{room}/counts", f"{room}/wanted"
            run([made, f"+seed={seed}", "+calls=1000", f"+script={script}", f"+coverage={counts}"])
            run([twin(), str(seed), "1000", "1"], env={**os.environ, "COVERAGE": wanted})
            same(f"counts of seed {seed}", read(wanted), read(counts))
        told = run([made, "+seed=0", "+calls=150", f"+script={script}", "+plant=issue", "+place=0", "+key=1", "+again",
                    f"+coverage={counts}"])
        first, second = told.out.splitlines()[:2]
        want(first.startswith("call "), first)
        same("what it says again", "agree", second)
        again = run([twin(), "0", "150", "1"], env={**os.environ, "COVERAGE": wanted})
        same("script of the second", script_of(again), read(script))
        same("counts of the second", read(wanted), read(counts))
