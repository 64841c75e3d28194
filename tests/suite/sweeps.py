"""Runs sweeps: each row has the program's name, all settings, the seed, and the numbers that `lockup
run --json` prints of the run of the text with these settings and the seed; the rows are in their
order, and what can't be run is refused: an error names the line of the text, as `lockup run` does,
after the row's settings and seed. Rows are run by several threads at once, each of which runs many
where they are short, and are written as they are made. And generates each workload: `lockup run`
takes it."""
import csv
import io
import itertools
import json
import os
import subprocess
import tempfile
import time
from pathlib import Path

from harness import (
    Skipped, each, is_plain, lockup, preloaded, program, read, same, seconds, want, write,
)
from suite.programs import FURTHER, KEYS

TEXT = "# two cores, one line\n\ncores 2\nways 1\n\ncore 0\nrepeat 4\nadd 0 1\nload 8..40\nend\ncore 1\nrepeat 4\nadd 1 1\nend\n"
BEFORE = "# two cores, one line\n\ncores 2\nways 1\n\n"
SIZES = {"matmul": 6, "histogram": 9, "ring": 20, "lock": 5, "chase": 33, "uniform": 40, "zipf": 40, "stencil": 7}
# what a text has that says nothing of it
DEFAULTS = {"cores": "2", "slices": "1", "lines": "16", "sets": "4", "ways": "2", "mshrs": "4", "targets": "4",
            "writebacks": "2", "policy": "lru", "miss_file": "explicit", "exclusive": "off", "outstanding": "", "pace": ""}
COUNTS = list(KEYS.values())
FURTHER_COUNTS = [*FURTHER.values(), "moves", "moves_delivered", "registers_most", "registers_sum", "targets_most",
                  "targets_sum"]
MESSAGES = [name for name in COUNTS if name.startswith("messages_")]
COLUMNS = ["program", *DEFAULTS, "seed", *COUNTS, *FURTHER_COUNTS]
WORDS = ("policy", "miss_file", "exclusive")
REFUSED = {
    "--set walls=1": "--set walls: there is no such setting",
    "--set ways": "--set ways: not NAME=VALUE,VALUE..",
    "--set ways=": "--set ways=: not NAME=VALUE,VALUE..",
    "--set ways=1,two": "--set ways: 'two' is none of its values",
    "--set ways=1,": "--set ways: '' is none of its values",
    "--set ways=1,17": "--set ways: '17' is none of its values",
    "--set ways=1,02": "--set ways: '02' is none of its values",
    "--set ways=1 --set ways=2": "--set ways: given twice",
    "--set ways=1,1": "--set ways: '1' is given twice",
    "--set ways=2,1,4,2": "--set ways: '2' is given twice",
    "--set misses=explicit,inverted,explicit": "--set misses: 'explicit' is given twice",
    "--set outstanding=3,3": "--set outstanding: '3' is given twice",
    "--set outstanding=1,65": "--set outstanding: '65' is none of its values",
    "--set outstanding=0": "--set outstanding: '0' is none of its values",
    "--set outstanding=2 --outstanding 3": "--set outstanding: given twice",
    "--set pace=0,65": "--set pace: '65' is none of its values",
    "--set pace=00": "--set pace: '00' is none of its values",
    "--set pace=2 --pace 3": "--set pace: given twice",
    "--set counter=8": "--set counter: its lines add up, so none replaces another",
    "--set slices=1,2 --set lines=9 --seeds 3..4": "slices=2 lines=9 seed 3: config 3 Lines",
    "--set cores=1": "cores=1 seed 1: line 11: out of range",
    "--seeds 5..1": "--seeds 5..1: runs backwards",
    "--seeds x": "--seeds x: not FIRST..LAST",
    "--seeds 1..1000001": "more than 1000000 rows",
}


def with_settings(settings: dict[str, str]) -> str:
    return BEFORE + "".join(f"{name} {value}\n" for name, value in settings.items()) + TEXT[len(BEFORE):]


def rows_of(text: str, *words: str) -> list[dict[str, str]]:
    ran = lockup("run", text, *words)
    same("status and error", (0, ""), (ran.status, ran.err))
    return list(csv.DictReader(io.StringIO(ran.out)))


def value_of(name: str, cell: str) -> object:
    """A cell of CSV as JSON has it."""
    if name == "program" or name in WORDS:
        return cell
    return int(cell) if cell else None


def row_of(file: str, settings: dict[str, str], seed: str, counts: dict[str, int]) -> dict[str, str]:
    """The row of a text with these settings, where its run counts so much."""
    delivered = sum(counts[name] for name in MESSAGES)
    cells = {"program": file, **DEFAULTS, **settings, "seed": seed, "moves_delivered": str(delivered)}
    return {name: cells[name] if name in cells else str(counts.get(name, "")) for name in COLUMNS}


def counts_of(text: str, *words: str) -> dict[str, int]:
    return json.loads(lockup("run", "-", *words, "--json", text=text).out)["all"]


def test_rows() -> None:
    with tempfile.TemporaryDirectory() as room:
        text = str(write(f"{room}/text", TEXT))
        words = ("--set", "ways=1,2", "--set", "policy=lru,random 7", "--seeds", "3..5")
        rows = rows_of(text, *words, "--csv")
        wanted = []
        for ways, policy, seed in itertools.product(["1", "2"], ["lru", "random 7"], ["3", "4", "5"]):
            settings = {"ways": ways, "policy": policy}
            wanted.append(row_of(text, settings, seed, counts_of(with_settings(settings), "--seed", seed)))
        same("rows", wanted, rows)
        same("columns", COLUMNS, list(rows[0]))
        listed = json.loads(lockup("run", text, *words, "--json").out)
        same("rows of JSON", [{name: value_of(name, row[name]) for name in COLUMNS} for row in rows], listed)
        same("columns of JSON", COLUMNS, list(listed[0]))


def test_each_setting_has_a_column() -> None:
    """The text says another value of each than a text that says nothing, and the command line a third."""
    lines = {"cores": "3", "slices": "2", "lines": "24", "sets": "2", "ways": "3", "mshrs": "2", "targets": "3",
             "writebacks": "1", "policy": "fifo", "misses": "inverted", "exclusive": "on", "outstanding": "5",
             "pace": "3"}
    others = {"cores": "4", "slices": "4", "lines": "32", "sets": "8", "ways": "1", "mshrs": "1", "targets": "2",
              "writebacks": "3", "policy": "random 18446744073709551615", "misses": "explicit", "exclusive": "off",
              "outstanding": "7", "pace": "0"}
    text = "".join(f"{name} {value}\n" for name, value in lines.items()) + "core 0\nload 0..99\ncore 2\nadd 9 1\n"
    with tempfile.TemporaryDirectory() as room:
        file = str(write(f"{room}/text", text))
        said = {"miss_file" if name == "misses" else name: value for name, value in lines.items()}
        same("the text's", [row_of(file, said, "1", counts_of(text))], rows_of(file, "--csv"))
        for name, value in others.items():
            column = "miss_file" if name == "misses" else name
            changed = text.replace(f"{name} {lines[name]}\n", f"{name} {value}\n", 1)
            row = row_of(file, {**said, column: value}, "1", counts_of(changed))
            same(name, [row], rows_of(file, "--set", f"{name}={value}"))


@each(lambda: ["plain", "two, parts", 'a "quoted" one', "a\nb", "a\\b\tc", "ä"])
def test_the_name_of_the_program(name: str) -> None:
    """It is FILE, as the command line has it, so that rows of several files can be put together."""
    with tempfile.TemporaryDirectory() as room:
        file = str(write(f"{room}/{name}", "core 0\nload 0\n"))
        same("CSV", [file], [row["program"] for row in rows_of(file, "--csv")])
        same("JSON", [file], [row["program"] for row in json.loads(lockup("run", file, "--seeds", "1", "--json").out)])
    ran = lockup("run", "-", "--csv", text="core 0\nload 0\n")
    same("standard input", ["-"], [row["program"] for row in csv.DictReader(io.StringIO(ran.out))])


def test_rows_put_together() -> None:
    """After one heading, whatever the texts count."""
    with tempfile.TemporaryDirectory() as room:
        one, other = str(write(f"{room}/one", "core 0\nload 0\n")), str(write(f"{room}/other", TEXT))
        head, *rows = lockup("run", one, "--set", "ways=1,2").out.splitlines()
        same("heading", head, lockup("run", other, "--set", "outstanding=4").out.splitlines()[0])
        rows += lockup("run", other, "--set", "outstanding=4").out.splitlines()[1:]
        found = [(row["program"], row["ways"], row["outstanding"]) for row in csv.DictReader([head, *rows])]
        same("rows", [(one, "1", ""), (one, "2", ""), (other, "1", "4")], found)


def test_long_numbers_of_json() -> None:
    """A number of more than 15 digits is a string of them."""
    with tempfile.TemporaryDirectory() as room:
        text = str(write(f"{room}/text", "core 0\nload 0\n"))
        for seed, wanted in ((999999999999999, 999999999999999), (1000000000000000, "1000000000000000"),
                             ((1 << 53) - 1, str((1 << 53) - 1)), ((1 << 64) - 1, str((1 << 64) - 1))):
            rows = json.loads(lockup("run", text, "--seeds", str(seed), "--json").out)
            same("row", wanted, rows[0]["seed"])
            same("report", wanted, json.loads(lockup("run", text, "--seed", str(seed), "--json").out)["seed"])
            same("CSV", str(seed), rows_of(text, "--seeds", str(seed), "--csv")[0]["seed"])


def test_accesses_under_way() -> None:
    """The setting is the option, whatever the text says, and stands beside others."""
    with tempfile.TemporaryDirectory() as room:
        for line in "", "outstanding 3\n":
            text = str(write(f"{room}/text", TEXT.replace("\ncore 0", f"\n{line}core 0", 1)))
            rows = rows_of(text, "--set", "outstanding=1,8", "--set", "ways=1,2", "--csv")
            wanted = []
            for outstanding, ways in itertools.product(["1", "8"], ["1", "2"]):
                counts = counts_of(with_settings({"ways": ways}), "--outstanding", outstanding)
                wanted.append(row_of(text, {"outstanding": outstanding, "ways": ways}, "1", counts))
            same("rows", wanted, rows)


def test_the_pace() -> None:
    """The setting is the option, whatever the text says, with and without accesses under way."""
    with tempfile.TemporaryDirectory() as room:
        for line in "", "pace 9\n":
            text = str(write(f"{room}/text", TEXT.replace("\ncore 0", f"\n{line}core 0", 1)))
            for words in (), ("--outstanding", "4"):
                rows = rows_of(text, *words, "--set", "pace=0,1,64", "--csv")
                wanted = []
                for pace in "0", "1", "64":
                    counts = counts_of(TEXT, *words, "--pace", pace)
                    settings = {"ways": "1", "outstanding": "4" if words else "", "pace": pace}
                    wanted.append(row_of(text, settings, "1", counts))
                    want(counts["moves_delivered"] == sum(counts[name] for name in MESSAGES), "moves that delivered")
                same("rows", wanted, rows)


def test_rows_by_hand() -> None:
    # One core loads a word twice: a cold miss and a hit, with one request and one block.
    head = ("program,cores,slices,lines,sets,ways,mshrs,targets,writebacks,policy,miss_file,exclusive,outstanding,pace,seed,"
            "requests,hits,misses,misses_cold,misses_replaced,misses_upgrade,misses_true_sharing,misses_false_sharing,"
            "evictions,messages_request,messages_forwarded,messages_data,messages_acknowledgement,messages_home,"
            "misses_primary,misses_secondary,stalls,stalls_register,stalls_target,stalls_way,stalls_write_back_full,"
            "stalls_write_back_busy,moves,moves_delivered,registers_most,registers_sum,targets_most,targets_sum\n")
    with tempfile.TemporaryDirectory() as room:
        text = str(write(f"{room}/text", "core 0\nload 0\nload 0\n"))
        ran = lockup("run", text, "--set", "ways=2,1", "--seeds", "7..8")
        rows = "".join(f"{text},2,1,16,4,{ways},4,4,2,lru,explicit,off,,,{seed},2,1,1,1,0,0,0,0,0,1,0,1,0,0,,,,,,,,,,2,,,,\n"
                       for ways in (2, 1) for seed in (7, 8))
        same("rows", (0, "", head + rows), (ran.status, ran.err, ran.out))
        # Where the second may wait with the first, the register is open while two or three moves are made.
        ran = lockup("run", text, "--outstanding", "1", "--csv")
        row = f"{text},2,1,16,4,2,4,4,2,lru,explicit,off,1,,1,2,1,1,1,0,0,0,0,0,1,0,1,0,0,1,0,0,0,0,0,0,0,4,2,1,2,1,2\n"
        same("one row", (0, "", head + row), (ran.status, ran.err, ran.out))
        ran = lockup("run", text, "--json", "--seeds", "4")
        row = ('"cores":2,"slices":1,"lines":16,"sets":4,"ways":2,"mshrs":4,"targets":4,"writebacks":2,"policy":"lru",'
               '"miss_file":"explicit","exclusive":"off","outstanding":null,"pace":null,"seed":4,"requests":2,"hits":1,"misses":1,'
               '"misses_cold":1,"misses_replaced":0,"misses_upgrade":0,"misses_true_sharing":0,"misses_false_sharing":0,'
               '"evictions":0,"messages_request":1,"messages_forwarded":0,"messages_data":1,"messages_acknowledgement":0,'
               '"messages_home":0,' + ",".join(f'"{name}":{2 if name == "moves_delivered" else "null"}' for name in FURTHER_COUNTS))
        same("JSON", (0, "", f'[\n{{"program":"{text}",{row}}}\n]\n'), (ran.status, ran.err, ran.out))


@each(lambda: list(REFUSED))
def test_refused(words: str) -> None:
    with tempfile.TemporaryDirectory() as room:
        text = str(write(f"{room}/text", TEXT))
        ran = lockup("run", text, *words.split())
        same("status and error", (2, f"lockup: {REFUSED[words]}\n"), (ran.status, ran.err))


HEAD = "# two cores\n\ncores 2\nlines 4\n\ncore 0\nadd 8 1\nload 9\n"
FAULTY = {
    "no command": (HEAD + "\nlode 9\n", "line 10: not a command"),
    "a bad number": (HEAD + "load 9x\n", "line 9: bad number"),
    "a late line": (HEAD + "# late\nways 2\n", "line 10: configuration after a command"),
    "a word that isn't there": (HEAD + "load 32\n", "line 9: out of range"),
    "a core that has a program": (HEAD + "core 0\n", "line 9: out of range"),
    "an open block": (HEAD + "repeat 3\nload 1\n", "line 9: not a command"),
    "too many accesses": (HEAD + "repeat 1000000\nload 1\nend\n", "line 11: out of range"),
    "a store to a counter": (HEAD.replace("cores 2", "cores 2\ncounter 8") + "store 8 1\n", "line 10: store to a counter"),
    "blanks and returns": (HEAD.replace("\n", "\r\n") + " \t\r\n\r\nload\r\n", "line 11: not a command"),
    "the first line": ("lines\n", "line 1: not a command"),
}


@each(lambda: list(FAULTY))
def test_an_error_names_a_line(what: str) -> None:
    """It is the one that `lockup run` names, whatever lines the settings add."""
    with tempfile.TemporaryDirectory() as room:
        text, fault = FAULTY[what]
        file = str(write(f"{room}/text", text))
        same("run", (2, f"lockup: {fault}\n"), (lockup("run", file).status, lockup("run", file).err))
        for words in ("--csv", "--json"):
            ran = lockup("run", file, "--set", "ways=1,2", "--set", "policy=lru,fifo", "--seeds", "7..9", words)
            same(words, (2, f"lockup: ways=1 policy=lru seed 7: {fault}\n"), (ran.status, ran.err))
            want(len(ran.out.splitlines()) <= 1, f"a row is printed: {ran.out}")


def test_an_error_of_a_later_row() -> None:
    """Rows before it are printed, and no other."""
    settings = (("cores=2,1", "cores", "cores=1", "line 9"), ("lines=4,2,1,8", "lines", "lines=1", "line 7"))
    for setting, name, at, line in settings:
        with tempfile.TemporaryDirectory() as room:
            file = str(write(f"{room}/text", HEAD + "core 1\nload 3\n"))
            values = setting.partition("=")[2].split(",")
            values = values[:values.index(at[-1])]
            for words in ("--csv", "--json"):
                ran = lockup("run", file, "--set", setting, "--seeds", "1..3", words)
                same(words, (2, f"lockup: {at} seed 1: {line}: out of range\n"), (ran.status, ran.err))
                if words == "--csv":
                    rows = [(row[name], row["seed"]) for row in csv.DictReader(io.StringIO(ran.out))]
                else:
                    rows = [(str(row[name]), str(row["seed"])) for row in json.loads(ran.out.rstrip().rstrip(",") + "]")]
                same("rows before it", [(value, seed) for value in values for seed in "123"], rows)


def needs_processors() -> None:
    if len(os.sched_getaffinity(0)) < 2:
        raise Skipped("there is one processor alone")


def spent(number: int) -> dict[str, int]:
    """How long each thread of a process has run, in the system's ticks."""
    found = {}
    for task in Path(f"/proc/{number}/task").glob("*"):
        try:
            fields = read(task / "stat").rpartition(")")[2].split()
        except OSError:
            continue
        found[task.name] = int(fields[11]) + int(fields[12])
    return found


@seconds(4)
def test_rows_are_run_side_by_side() -> None:
    """Several threads are started, and while rows are run several of them make headway at once. One row alone needs no
    further thread."""
    needs_processors()
    is_plain()
    text = "cores 1\nlines 2\nsets 1\nways 1\ncore 0\nrepeat 30000\nload 0\nload 8\nend\n"
    with tempfile.TemporaryDirectory() as room:
        file, told = str(write(f"{room}/text", text)), f"{room}/told"
        words = [program(), "run", file, "--seeds", "1..24", "--csv"]
        with subprocess.Popen(words, stdout=subprocess.PIPE, env=preloaded("started_threads", TOLD=told)) as ran:
            at_once, before = 0, spent(ran.pid)
            while ran.poll() is None:
                time.sleep(0.05)
                now = spent(ran.pid)
                at_once += sum(ticks > before.get(task, 0) for task, ticks in now.items()) > 1
                before = now
            rows = list(csv.reader(io.TextIOWrapper(ran.stdout)))
        same("status and rows", (0, 25), (ran.returncode, len(rows)))
        want(len(read(told)) > 1, f"{len(read(told))} threads are started")
        want(at_once > 3, f"several threads made headway in {at_once} moments alone")
        same("status of one row", 0, lockup("run", file, "--csv", env=preloaded("started_threads", TOLD=told)).status)
        want(len(read(told)) <= 1, f"one row starts {len(read(told))} threads")


@seconds(4)
def test_rows_are_written_as_they_are_made() -> None:
    """The first is there while later ones are still run, and a long row waits for those alone that are run beside it."""
    needs_processors()
    is_plain()
    processors = len(os.sched_getaffinity(0))
    count = 12 * processors
    text = "cores 1\nlines 2\nsets 1\nways 1\ncore 0\nrepeat 20000\nload 0\nload 8\nend\n"
    with tempfile.TemporaryDirectory() as room:
        file = str(write(f"{room}/file", text))
        with subprocess.Popen([program(), "run", file, "--seeds", f"1..{count}", "--csv"], stdout=subprocess.PIPE) as ran:
            lines, first = [ran.stdout.readline() for _ in range(2)], time.monotonic()
            runs_on = ran.poll() is None
            # the last of these is run once the first ones are written
            lines += [ran.stdout.readline() for _ in range(processors)]
            second = time.monotonic()
            lines += ran.stdout.readlines()
            last = time.monotonic()
        same("status and lines", (0, count + 1), (ran.returncode, len(lines)))
        want(runs_on, "it had ended once the first row was there")
        want(last - second > second - first, "later rows come all at once")


@seconds(2)
def test_a_thread_makes_many_short_rows() -> None:
    is_plain()
    with tempfile.TemporaryDirectory() as room:
        file, told = str(write(f"{room}/text", "core 0\nload 0\nload 0\n")), f"{room}/told"
        ran = lockup("run", file, "--seeds", "1..5001", "--csv", env=preloaded("started_threads", TOLD=told))
        same("status and lines", (0, 5002), (ran.status, len(ran.out.splitlines())))
        want(len(read(told)) < 500, f"5,001 rows start {len(read(told))} threads")


def test_blanks_around_a_value_are_refused() -> None:
    with tempfile.TemporaryDirectory() as room:
        text = str(write(f"{room}/text", TEXT))
        for value in " 2", "2 ", "\t2":
            ran = lockup("run", text, "--set", f"ways=1,{value}")
            same("status and error", (2, f"lockup: --set ways: '{value}' is none of its values\n"), (ran.status, ran.err))


@each(lambda: list(SIZES))
def test_workload(name: str) -> None:
    with tempfile.TemporaryDirectory() as room:
        words = ("generate", name, "--cores", "3", "--size", str(SIZES[name]), "--seed", "5")
        made = lockup(*words)
        same("status and error", (0, ""), (made.status, made.err))
        same("again", made.out, lockup(*words).out)
        ran = lockup("run", str(write(f"{room}/text", made.out)), "--json")
        same("status and error of the run", (0, ""), (ran.status, ran.err))
        want(json.loads(ran.out)["all"]["requests"] > 0, "no access")


def test_workloads_by_hand() -> None:
    machine = "cores 1\nlines 2\nsets 16\nways 4\ncore 0\n"
    lock = "repeat 2\n  cas 0 0 1\n  load 8\n  store 8 0\n  store 0 0\nend\n"
    same("lock", machine + lock, lockup("generate", "lock", "--cores", "1", "--size", "2").out)
    row = "load 0..1\nload 8\nload 10\nload 16\nstore 16 1\n"
    matmul = lockup("generate", "matmul", "--cores", "1", "--size", "2").out
    want(matmul.startswith("cores 1\nlines 3\nsets 16\nways 4\ncore 0\n" + row), "matmul")


def test_refused_workloads() -> None:
    for words, told in {
        "nothing": "no such workload (matmul, histogram, ring, lock, chase, uniform, zipf, stencil)",
        "lock --cores 0": "--cores takes 1 to 64",
        "lock --cores 65": "--cores takes 1 to 64",
        "matmul --size 65": "--size takes 1 to 64 here",
        "lock --cores 4 --size 62501": "--size takes 1 to 62500 here",
        "ring --cores 1 --size 1000000": "--size takes 1 to 333333 here",
        "uniform --cores 64 --size 15626": "--size takes 1 to 15625 here",
        "chase --cores 64 --size 15626": "--size takes 1 to 15625 here",
        "chase --cores 1 --size 65537": "--size takes 1 to 65536 here",
        "histogram --cores 64 --size 4097": "--size takes 1 to 4096 here",
    }.items():
        ran = lockup("generate", *words.split())
        same(words, (2, "", f"lockup: {told}\n"), (ran.status, ran.out, ran.err))


@each(lambda: ["lock --cores 64 --size 3906", "ring --cores 64 --size 5208", "chase --cores 64 --size 15625"])
def test_largest_workloads(words: str) -> None:
    ran = lockup("generate", *words.split())
    same("status and error", (0, ""), (ran.status, ran.err))
