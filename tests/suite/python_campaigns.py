"""`lockup.rounds` and `lockup.rows` of the Python package: shares of a walk that the processes of a pool walked, and those of
a Dask cluster where that is installed, added up in any order, are one walk field by field, and its text byte by byte; rows
are those of `lockup run`. What can't be added or run is an exception with the reason, which comes through a pool as it is;
and a wheel takes the program along where it is built."""
import csv
import io
import itertools
import json
import os
import pickle
import random
import shutil
import sys
import tempfile
import warnings
from contextlib import contextmanager
from pathlib import Path
from typing import Callable, Iterator

from harness import ROOT, Different, Skipped, each, lockup, program, run, same, seconds, want, write
from harness.library import module, part_of
from suite.library import pip_in

TEST = ROOT / "examples/litmus/sb.txt"
OTHER = ROOT / "examples/litmus/mp.txt"
PROGRAMS = ROOT / "examples/programs/histogram_shared.txt"
NAMES = ("sb", "iriw", "counter", "false_sharing")
# a program of its own, since each process of the pool begins with the whole of it
POOL = """import json, pickle, sys
from itertools import repeat
import lockup

PARTS = [(1, 700), (701, 300), (1001, 1), (1002, 999)]


def walked(pool, path):
    # text and path, and what comes last first
    text = open(path, encoding="utf-8").read()
    early = pool.map(lockup.rounds, repeat(path), *zip(*PARTS[:2]))
    late = pool.map(lockup.rounds, repeat(text), *zip(*PARTS[2:]))
    return list(late) + list(early)


def main(pool):
    parts = walked(pool, sys.argv[1])
    total = lockup.Rounds.merge(parts)
    one = lockup.rounds(sys.argv[1], 1, 2000, jobs=None)
    print(total == one, total == parts[1] + parts[3] + parts[0] + parts[2], total.seed, total.rounds, total.missing)
    print(total, end="")
    ran = list(pool.map(lockup.rows, repeat(sys.argv[2]), repeat({"ways": [1, 2]}), [range(1, 4), range(4, 6)]))
    print(json.dumps(ran[0] + ran[1]))
    try:
        list(pool.map(lockup.rounds, repeat(sys.argv[1]), *zip(*PARTS), repeat(0)))
    except TypeError as error:
        print(type(error).__name__)
    try:
        list(pool.map(few_moves, *zip(*PARTS)))
    except lockup.NoOutcome as error:
        print(error.seed, error.moves, error)


def few_moves(seed, rounds):
    return lockup.rounds(sys.argv[1], seed, rounds, limit=24)

"""
EXECUTOR = """
if __name__ == "__main__":
    import concurrent.futures, multiprocessing
    with concurrent.futures.ProcessPoolExecutor(4, mp_context=multiprocessing.get_context("spawn")) as pool:
        main(pool)
"""


def package():
    """Returns the package, which calls the program under test."""
    os.environ["LOCKUP_PROGRAM"] = str(program())
    return module()


def told() -> dict[str, str]:
    package()
    return {**os.environ, "PYTHONPATH": str(ROOT / "python")}


def raised(kind: type, call: Callable[[], object]) -> Exception:
    """Wants the call to raise this, which pickles to what it is. Returns it."""
    try:
        came = call()
    except kind as error:
        again = pickle.loads(pickle.dumps(error))
        same("pickled", (type(error), str(error), vars(error)), (type(again), str(again), vars(again)))
        return error
    raise Different(f"no {kind.__name__}, but {came}")


# ---- rounds

@seconds(5)
@each(lambda: NAMES)
def test_is_what_the_program_says(name: str) -> None:
    """Each field, and the text."""
    library, test = package(), ROOT / f"examples/litmus/{name}.txt"
    for seed, count in ((1, 500), (10**12, 77), (2**64 - 5, 5)):
        words = ("walk", test, "--seed", str(seed), "--rounds", str(count))
        came, wanted = library.rounds(test, seed, count), json.loads(lockup(*words, "--json").out)
        same("text", lockup(*words).out, str(came))
        rows = [{"rounds": it.rounds, "values": list(it.values.values()), "seed": it.seed} for it in came.outcomes]
        same("outcomes", [{**it, "seed": int(it["seed"])} for it in wanted["outcomes"]], rows)
        names = [*wanted["names"], *(f"[{word}]" for word in wanted["counters"])]
        same("names", {tuple(names)}, {tuple(it.values) for it in came.outcomes})
        head = lockup(*words, "--part").out.splitlines()[0]
        limit = "none" if came.limit is None else came.limit
        same("what a part says of it", head, f"lockup-part 1 {came.version} test {came.test} limit {limit} seed {came.seed} "
                                             f"rounds {came.rounds}")
        same("forbidden, stretches and gaps", (wanted["forbidden"], ((seed, count),), ()),
             (came.forbidden, came.stretches, came.missing))
        same("pickled", came, pickle.loads(pickle.dumps(came)))


def test_forbidden_rounds_add_up() -> None:
    library = package()
    text = TEST.read_text(encoding="utf-8") + "forbid a=1 b=1\n"
    parts = [library.rounds(text, 1 + 50 * it, 50) for it in range(4)]
    total = library.Rounds.merge(parts)
    same("sum", lockup("walk", "-", "--rounds", "200", text=text).out, str(total))
    want(total.forbidden > max(it.forbidden for it in parts) > 0, f"{total}")


@seconds(5)
@each(lambda: range(4))
def test_shares_in_any_order(number: int) -> None:
    """Stretches that are drawn, added up in an order that is, with gaps until the last is there."""
    library, draws = package(), random.Random(number)
    cuts = [0, *sorted(draws.sample(range(1, 1000), 8)), 1000]
    parts = [library.rounds(TEST, 5 + low, high - low) for low, high in zip(cuts, cuts[1:])]
    draws.shuffle(parts)
    total = parts[0]
    for count, it in enumerate(parts[1:], 2):
        total = total + it
        there = {5 + low for part in parts[:count] for low in range(part.seed - 5, part.seed - 5 + part.rounds)}
        gaps = {seed + nth for seed, count in total.missing for nth in range(count)}
        same("counted and missing", (len(there), set(range(min(there), max(there) + 1)) - there), (total.rounds, gaps))
    same("one walk", library.rounds(TEST, 5, 1000), total)
    same("merged at once", total, library.Rounds.merge(iter(parts)))


def test_what_is_not_added() -> None:
    library = package()
    first, rounds = library.rounds(TEST, 1, 100), library.rounds
    for other, said in ((rounds(OTHER, 101, 10), "another test"), (rounds(TEST, 101, 10, limit=1000), "another limit"),
                        (rounds(TEST, 100, 10), "seed 100 is counted twice"), (first, "seed 1 is counted twice")):
        for parts in ([first, other], [other, first]):
            error = raised(library.NotAdded, lambda: library.Rounds.merge(parts))
            want(said in str(error) and isinstance(error, ValueError), f"no '{said}' in: {error}")
    later = library.rounds(TEST, 101, 10)
    object.__setattr__(later, "version", "0.0.1")
    want("another version" in str(raised(library.NotAdded, lambda: first + later)), "the version")
    raised(library.NotAdded, lambda: library.Rounds.merge([]))
    raised(TypeError, lambda: first + 1)


def test_errors_of_the_program() -> None:
    library = package()
    for call, said in (
            (lambda: library.rounds("lockup-litmus 1\nthread 0\njump 0\n", 1, 10), "lockup: line 3: not a command"),
            (lambda: library.rounds(TEST, 1, 0), "error: invalid value '0' for '--rounds <N>': 0 is not in 1..184467440737"),
            (lambda: library.rows(PROGRAMS, {"walls": 1}), "lockup: --set walls: there is no such setting"),
            (lambda: library.rows("core 0\nload 0\n", {"lines": 1, "slices": [1, 2]}), "lockup: lines=1 slices=2 seed 1: config 3"),
            (lambda: library.rows(ROOT / "none.txt"), f"lockup: cannot read {ROOT / 'none.txt'}")):
        error = raised(library.ProgramFailed, call)
        want(str(error).startswith(said) and "\n" not in str(error) and error.code == 2, f"{error} {error.code}")
    raised(library.OutOfRange, lambda: library.rounds(TEST, 2**64 - 1, 2))
    raised(library.OutOfRange, lambda: library.rounds(TEST, -1, 2))
    raised(TypeError, lambda: library.rounds(TEST, 1.5, 2))
    raised(FileNotFoundError, lambda: library.rounds(ROOT / "none.txt", 1, 2))


def test_a_round_without_an_outcome() -> None:
    library = package()
    for limit in (20, 24, 28):
        said = lockup("walk", TEST, "--seed", "9", "--rounds", "400", "--limit", str(limit), "--jobs", "1", "--json").out
        wanted = json.loads(said)
        error = raised(library.NoOutcome, lambda: library.rounds(TEST, 9, 400, limit=limit))
        same("round", (9 + wanted["gave_up_round"], wanted["moves"], 1), (error.seed, error.moves, error.code))


@contextmanager
def program_that_prints(text: str, status: int) -> Iterator[None]:
    """Has the package call a program that prints this in the place of each walk."""
    library = package()
    with tempfile.TemporaryDirectory() as room:
        it = write(f"{room}/lockup", f"#!/bin/sh\n[ \"$1\" = --version ] && echo lockup 9 && exit\ncat >/dev/null\n"
                                     f"printf '%s' '{text}'\nexit {status}\n")
        it.chmod(0o755)
        os.environ["LOCKUP_PROGRAM"] = str(it)
        try:
            yield library
        finally:
            os.environ["LOCKUP_PROGRAM"] = str(program())


def test_what_no_run_shows() -> None:
    """A stuck round, no memory, a program that is killed, and numbers that JSON has as strings."""
    with program_that_prints('{"stuck_round":7}\n', 1) as library:
        error = raised(library.NoOutcome, lambda: library.rounds(TEST, 10, 20))
        same("stuck", (17, None, "the round of seed 17 is stuck"), (error.seed, error.moves, str(error)))
    with program_that_prints("", 3) as library:
        raised(library.NoMemory, lambda: library.rounds(TEST, 10, 20))
    with program_that_prints("", 0) as library:
        raised(library.ProgramFailed, lambda: library.rounds(TEST, 10, 20))
    large = '{"names":["a"],"counters":[8],"outcomes":[{"rounds":2,"values":["18446744073709551615",3],"seed":"12345678901234567"}],"forbidden":0}'
    with program_that_prints(large, 0) as library:
        came = library.rounds(TEST, 1, 2)
        same("numbers", ({"a": 2**64 - 1, "[8]": 3}, 2, 12345678901234567), tuple(came.outcomes[0]))


# ---- rows

@seconds(5)
def test_rows() -> None:
    library = package()
    settings = {"ways": [1, 2], "policy": ("lru", "random 7"), "exclusive": True, "misses": library.Misses.INVERTED}
    words = ["--set", "ways=1,2", "--set", "policy=lru,random 7", "--set", "exclusive=on", "--set", "misses=inverted"]
    for more, options in (({}, []), ({"outstanding": 3, "pace": 2}, ["--outstanding", "3", "--pace", "2"])):
        ran = lockup("run", PROGRAMS, *words, "--seeds", "3..5", *options, "--csv")
        wanted = list(csv.DictReader(io.StringIO(ran.out)))
        with warnings.catch_warnings(record=True) as told_of:
            warnings.simplefilter("always")
            came = library.rows(PROGRAMS, settings, range(3, 6), **more)
        same("warnings", ran.err.splitlines(), [str(it.message) for it in told_of])
        same("columns", list(wanted[0]), list(came[0]))
        same("rows", wanted, [{name: "" if value is None else str(value) for name, value in row.items()} for row in came])
        kinds = {name: type(value) for name, value in came[0].items()}
        same("columns of words", ["program", "policy", "miss_file", "exclusive"], [it for it in kinds if kinds[it] is str])


def test_seeds_of_rows() -> None:
    library, text = package(), "core 0\nload 0\n"
    same("one", [(9, "-")], [(it["seed"], it["program"]) for it in library.rows(text, seeds=9)])
    same("large", [2**64 - 2, 2**64 - 1], [it["seed"] for it in library.rows(text, seeds=range(2**64 - 2, 2**64))])
    same("none", [], library.rows(text, seeds=range(5, 5)))
    raised(ValueError, lambda: library.rows(text, seeds=range(1, 9, 2)))
    shares = [library.rows(PROGRAMS, {"ways": [1, 2]}, range(low, low + 4)) for low in (1, 5)]
    whole = library.rows(PROGRAMS, {"ways": [1, 2]}, range(1, 9))
    same("shares", whole, sorted(itertools.chain(*shares), key=lambda it: (it["ways"], it["seed"])))


# ---- pools

def check_pool(ran) -> None:
    """What the program over a pool prints is what the program under test does."""
    same("status", (0, ""), (ran.status, ran.err))
    lines = ran.out.splitlines(keepends=True)
    same("equal, seed, rounds and gaps", "True True 1 2000 ()\n", lines[0])
    table = lockup("walk", TEST, "--rounds", "2000").out
    same("table", table, "".join(lines[1:1 + table.count("\n")]))
    rows = json.loads(lines[-3])
    wanted = json.loads(lockup("run", PROGRAMS, "--set", "ways=1,2", "--seeds", "1..5", "--json").out)
    same("rows", wanted, sorted(rows, key=lambda it: (it["ways"], it["seed"])))
    same("an exception of Python's own", "TypeError\n", lines[-2])
    given_up = json.loads(lockup("walk", TEST, "--rounds", "2000", "--limit", "24", "--json").out)
    seed, moves = given_up["gave_up_round"] + 1, given_up["moves"]
    same("an exception", f"{seed} {moves} the round of seed {seed} was given up after {moves} moves\n", lines[-1])


@seconds(20)
def test_processes() -> None:
    with tempfile.TemporaryDirectory() as room:
        it = write(f"{room}/pool.py", POOL + EXECUTOR)
        check_pool(run([sys.executable, it, TEST, PROGRAMS], env=told(), cwd=room))


DASK = """
class Mapped:
    def __init__(self, client):
        self.client = client

    def map(self, function, *lists):
        lists = [list(it) for it in map_lists(lists)]
        return [it.result() for it in self.client.map(function, *lists, pure=False)]


def map_lists(lists):
    # Dask knows no list without an end
    count = min(len(it) for it in lists if not isinstance(it, repeat))
    return [[next(it) for _ in range(count)] if isinstance(it, repeat) else it for it in lists]


if __name__ == "__main__":
    import logging
    import distributed
    with distributed.LocalCluster(2, threads_per_worker=1, dashboard_address=None, silence_logs=logging.CRITICAL) as cluster:
        with distributed.Client(cluster) as client:
            main(Mapped(client))
"""


def python_with(name: str) -> str:
    """Returns a Python that has this package: the one that runs the tests, or the system's."""
    for it in (sys.executable, "/usr/bin/python3"):
        if os.path.exists(it) and run([it, "-c", f"import {name}"]).status == 0:
            return it
    raise Skipped(f"Python's '{name}' isn't there")


@seconds(40)
def test_dask() -> None:
    python = python_with("distributed")
    with tempfile.TemporaryDirectory() as room:
        it = write(f"{room}/pool.py", POOL + DASK)
        ran = run([python, "-W", "ignore", it, TEST, PROGRAMS], env={**told(), "TMPDIR": room, "HOME": room}, cwd=room)
        # its workers say there what they were asked to do
        check_pool(ran._replace(err=""))


# ---- the program

CALL = "import lockup, sys; print(lockup.rounds(sys.argv[1], 1, 100), end='')"


def called(code: str, environment: dict[str, str], **how):
    return run([sys.executable, "-c", code, TEST], env=environment, **how)


def test_finds_the_program() -> None:
    """By LOCKUP_PROGRAM, beside the package, in a prefix above it, and by PATH; where it is nowhere, it says so."""
    part_of("library")
    wanted = (0, lockup("walk", TEST, "--rounds", "100").out, "")
    with tempfile.TemporaryDirectory() as room:
        at = Path(f"{room}/share/lockup/python/lockup")
        shutil.copytree(ROOT / "python/lockup", at, ignore=shutil.ignore_patterns("__pycache__", "lockup"))
        plain = {"PATH": "/nowhere", "PYTHONPATH": str(at.parent), "HOME": room}
        ran = called(CALL, plain)
        want(ran.status == 1 and "NoProgram: there is no program lockup: ./build makes it" in ran.err, f"{ran}")
        ran = called(CALL, {**plain, "LOCKUP_PROGRAM": f"{room}/none"})
        want(ran.status == 1 and f"NoProgram: LOCKUP_PROGRAM is no program: {room}/none" in ran.err, f"{ran}")
        same("LOCKUP_PROGRAM", wanted, tuple(called(CALL, {**plain, "LOCKUP_PROGRAM": str(program())})))
        os.mkdir(f"{room}/path")
        os.symlink(program(), f"{room}/path/lockup")
        same("PATH", wanted, tuple(called(CALL, {**plain, "PATH": f"{room}/path"})))
        for place in (f"{room}/bin/lockup", f"{at}/lockup"):
            os.makedirs(os.path.dirname(place), exist_ok=True)
            shutil.copy(program(), place)
            same(place, wanted, tuple(called(CALL, plain)))
            os.unlink(place)
        library = package()
        raised(library.NoProgram, lambda: raise_(part_of("program").no_program()))


def raise_(error: Exception) -> None:
    raise error


def installed(what: str, room: str, environment: dict[str, str], *words: str) -> None:
    made = run([sys.executable, "-m", "pip", "install", "-q", "--target", f"{room}/to", *words, what], cwd=room, env=environment)
    same("pip", (0, ""), (made.status, made.err))


@seconds(20)
@each(lambda: ["folder", "archive"])
def test_pip_install(kind: str) -> None:
    """With the program inside, which is a command then."""
    with pip_in() as (room, environment):
        environment["LOCKUP_PROGRAM"] = str(program())
        what = f"{room}/python"
        if kind == "archive":
            code = f"import backend; print(backend.build_sdist('{room}'))"
            what = f"{room}/{run([sys.executable, '-c', code], cwd=what, env=environment).out.strip()}"
            shutil.rmtree(f"{room}/python")
            del environment["LOCKUP_PROGRAM"], environment["LOCKUP_LIBRARY"]
        installed(what, room, environment)
        plain = {"PATH": "/nowhere", "PYTHONPATH": f"{room}/to", "HOME": room}
        same("rounds", (0, lockup("walk", TEST, "--rounds", "100").out, ""), tuple(called(CALL, plain, cwd=room)))
        words = [f"{room}/to/bin/lockup", "walk", TEST, "--rounds", "100"]
        same("the command", tuple(lockup(*words[1:])), tuple(run(words, env=plain)))
        same("its status", lockup("walk", "none").status, run([*words[:2], "none"], env=plain).status)


@seconds(20)
def test_pip_install_without_the_program() -> None:
    """There is no command then, and the package says why; a LOCKUP_PROGRAM that isn't there is an error."""
    with pip_in() as (room, environment):
        code = f"import backend; backend.build_wheel('{room}')"
        ran = run([sys.executable, "-c", code], cwd=f"{room}/python", env=environment)
        want(ran.status == 0 and "lockup: without the program" in ran.err, f"{ran}")
        installed(f"{room}/python", room, environment)
        same("the command", False, os.path.exists(f"{room}/to/bin/lockup"))
        ran = called(CALL, {"PATH": "/nowhere", "PYTHONPATH": f"{room}/to"}, cwd=room)
        want("NoProgram: there is no program lockup" in ran.err, f"{ran}")
        environment["LOCKUP_PROGRAM"] = f"{room}/none"
        ran = run([sys.executable, "-c", code], cwd=f"{room}/python", env=environment)
        want(ran.status == 1 and f"LOCKUP_PROGRAM is no program: {room}/none" in ran.err, f"{ran}")
