"""Runs each program of examples/programs: `lockup run examples/programs/NAME.txt` prints NAME.out,
byte for byte, and no error. In each report the rows of the cores and those of the lines come to the
same sums, which the last row has; requests are hits and misses; and misses are the sum of their
causes.

A core with several accesses under way has as many stalls for want of a miss register as a small
simulation counts, which is written here. What `run --script` prints is run by `lockup script`: its
answers come to the counts of the report, and what waits after each of its moves to the most and the
mean of registers and targets. What `run --page` prints is that script's page. What `run --json` prints
has each number of the tables under its name. Where slices make deliveries after each access, the moves
that delivered are the script's deliveries that were answered so."""
import csv
import json
import tempfile
from collections import Counter
from itertools import takewhile
from pathlib import Path

from harness import ROOT, each, lockup, read, same, want, write
from suite.draws import Generator

FOLDER = ROOT / "examples/programs"
COLUMNS = range(2, 15)
# the columns of the tables, with what each is called in JSON and in rows
KEYS = {
    "requests": "requests", "hits": "hits", "misses": "misses", "cold": "misses_cold", "replaced": "misses_replaced",
    "upgrade": "misses_upgrade", "true": "misses_true_sharing", "false": "misses_false_sharing", "evict": "evictions",
    "req": "messages_request", "fwd": "messages_forwarded", "data": "messages_data", "ack": "messages_acknowledgement",
    "home": "messages_home",
}
FURTHER = {
    "primary": "misses_primary", "secondary": "misses_secondary", "stalls": "stalls", "register": "stalls_register",
    "target": "stalls_target", "way": "stalls_way", "wb-full": "stalls_write_back_full",
    "wb-busy": "stalls_write_back_busy",
}


def names() -> list[str]:
    return [path.stem for path in sorted(FOLDER.glob("*.txt"))]


def check_sums(report: str) -> None:
    part, sums = "", Counter()
    for row in report.splitlines():
        # as in awk, fields count from 1
        fields = ["", *row.split()]
        if fields[1:2] in (["core"], ["line"]):
            part = "further" if "primary" in fields else "usage" if "regs-most" in fields else fields[1]
        elif part == "usage":
            want(all(float(fields[at + 1]) <= int(fields[at]) for at in (2, 4)), f"row {row}: means")
        elif part == "further":
            want(int(fields[4]) == sum(map(int, fields[5:])), f"row {row}: stalls")
        elif fields[1:2] != ["seed"]:
            count = {at: int(fields[at]) for at in COLUMNS}
            want(count[2] == count[3] + count[4], f"row {row}: requests")
            want(count[4] == sum(count[at] for at in range(5, 10)), f"row {row}: misses")
            for at in COLUMNS:
                sums_to = (sums["core", at], sums["line", at]) == (count[at], count[at])
                want(fields[1] != "all" or sums_to, f"column {at}: sums")
                sums[part, at] += count[at]


@each(names)
def test_report(name: str) -> None:
    ran = lockup("run", FOLDER / f"{name}.txt")
    same("status and error", (0, unused(read(FOLDER / f"{name}.txt"))), (ran.status, ran.err))
    same("report", read(FOLDER / f"{name}.out"), ran.out)
    check_sums(ran.out)
    want(f"(../examples/programs/{name}.txt)" in read(ROOT / "docs/EXAMPLES.md"), "docs/EXAMPLES.md doesn't name it")


def stalls(registers: int, most: int, loads: int, seed: int) -> int:
    """How many of so many loads of a core, each from a line of its own, find no register. The line
    that asked first is served until its data are there."""
    generator, lines, asked, stalled, count = Generator(seed), [], 0, False, 0
    while True:
        is_full = len(lines) >= registers
        asks = asked < loads and len(lines) < most and not (is_full and stalled)
        moves = ["ask"] * asks + ["deliver"] * bool(lines)
        if not moves:
            return count
        move = moves[generator.word() % len(moves)]
        if move == "deliver":
            lines[0] -= 1
            lines = [left for left in lines if left]
        elif is_full:
            count, stalled = count + 1, True
        else:
            # a request and its data
            lines, asked, stalled = [*lines, 2], asked + 1, False


def unused(text: str, *words: str) -> str:
    """What is said of the lines of a text that change nothing of its run."""
    lines = [line.split() for line in text.splitlines()]
    lines = list(takewhile(lambda line: line[:1] != ["core"], lines))
    said = {line[0]: line[1] for line in lines if len(line) > 1}
    given = words[words.index("--outstanding") + 1] if "--outstanding" in words else None
    told = []
    for number, line in enumerate(lines, 1):
        if line and line[0] in ("outstanding", "pace") and f"--{line[0]}" in words:
            told.append(f"lockup: line {number}: {line[0]} changes nothing: --{line[0]} stands in its place\n")
        if line and line[0] in ("mshrs", "targets", "misses") and (given or said.get("outstanding", "1")) == "1":
            told.append(f"lockup: line {number}: {line[0]} changes nothing: each core has one access under way\n")
    return "".join(told)


@each(lambda: list(range(6)))
def test_what_changes_nothing(seed: int) -> None:
    """Where a core has one access under way, registers, targets and their kind change no count."""
    generator = Generator(seed)
    text = f"cores 3\nlines 8\nsets {1 + seed % 2}\nways 1\nwritebacks 1\n{'outstanding 1' * (seed % 2)}\n"
    for core in range(3):
        steps = (("load {}", "store {} 1", "add {} 3", "cas {} 0 5")[generator.word() % 4] for _ in range(40))
        text += f"core {core}\n" + "".join(step.format(generator.word() % 64) + "\n" for step in steps)
    with tempfile.TemporaryDirectory() as room:
        file = write(f"{room}/text.txt", text)
        words = ("--set", "mshrs=1,8", "--set", "targets=1,4", "--set", "misses=explicit,inverted", "--seeds", "1..3")
        ran = lockup("run", file, *words)
    rows = list(csv.DictReader(ran.out.splitlines()))
    told = [f"lockup: --set {name} changes nothing: each core has one access under way\n" for name in ("mshrs", "targets", "misses")]
    same("error", "".join([unused(text), *told]), ran.err)
    same("rows", 24, len(rows))
    for row in rows:
        first = next(it for it in rows if it["seed"] == row["seed"])
        same("counts of a seed", *({key: it[key] for key in [*KEYS.values(), *FURTHER.values()]} for it in (first, row)))


def parallel(registers: int, most: int | None, loads: int) -> str:
    limit = "" if most is None else f"outstanding {most}\n"
    asks = "".join(f"load {8 * line}\n" for line in range(loads))
    return f"cores 1\nlines {loads}\nsets {loads}\nways 1\nmshrs {registers}\n{limit}core 0\n{asks}"


def ran_on(text: str, *words: str) -> list[list[str]]:
    with tempfile.TemporaryDirectory() as room:
        ran = lockup("run", write(f"{room}/text.txt", text), *words)
    same("status and error", (0, unused(text, *words)), (ran.status, ran.err))
    return [row.split() for row in ran.out.splitlines()]


@each(lambda: [(f"{registers} registers, {most} under way", registers, most)
               for registers in (1, 2, 4, 8) for most in (1, 3, 8, 64)])
def test_stalls(_: str, registers: int, most: int) -> None:
    for seed in range(1, 6):
        wanted = str(stalls(registers, most, 16, seed))
        row = ran_on(parallel(registers, most, 16), "--seed", str(seed))[-3]
        same(f"seed {seed}: misses, secondary ones, stalls and their reason",
             ["16", "0", wanted, wanted, "0", "0", "0", "0"], row[1:])


def test_more_registers_stall_less() -> None:
    few = [stalls(registers, 8, 8, 1) for registers in (1, 2, 4, 8)]
    want(few == sorted(few, reverse=True) and few[0] > few[1] > few[2] > few[3] == 0, f"stalls: {few}")


def test_the_option_and_the_line() -> None:
    """The option is the line, and stands for it."""
    line, option = parallel(2, 5, 16), parallel(2, None, 16)
    same("report", ran_on(line), ran_on(option, "--outstanding", "5"))
    same("report", ran_on(line), ran_on(parallel(2, 7, 16), "--outstanding", "5"))
    want(all("primary" not in row for row in ran_on(option)), "counted where no number is given")


@each(lambda: [(f"{registers} registers", registers) for registers in (1, 2, 8)])
def test_the_pace(_: str, registers: int) -> None:
    """After each access its request and its data are delivered, so that none stalls. The option is the line, and stands
    for it; 0 is as if none were given."""
    option = parallel(registers, 8, 16)
    line = option.replace("outstanding", "pace 2\noutstanding")
    rows = ran_on(line)
    same("misses and stalls", ["16", "0", "0", "0", "0", "0", "0", "0"], rows[-5][1:])
    same("moves", [["moves", "delivered"], ["48", "32"]], rows[-2:])
    same("the option", rows, ran_on(option, "--pace", "2"))
    same("the option in place of the line", rows, ran_on(line.replace("pace 2", "pace 0"), "--pace", "2"))
    none = ran_on(option, "--pace", "0")
    same("none", ran_on(option), none[:-2])
    want(none[-2] == ["moves", "delivered"] and int(none[-1][0]) > int(none[-1][1]), f"moves: {none[-1]}")


def played(file: Path, *words: str) -> list[tuple[list[str], list[str]]]:
    """The script of a run: each command with its answer, both as words."""
    script = lockup("run", file, *words, "--script")
    same("status and error", (0, unused(read(file), *words)), (script.status, script.err))
    with tempfile.TemporaryDirectory() as room:
        file = write(f"{room}/script.txt", script.out)
        ran = lockup("script", file)
        same("status and error of the script", (0, ""), (ran.status, ran.err))
        for form in ("chart", "page"):
            same(f"status of its {form}", 0, lockup(form, file).status)
    commands = [line.split() for line in script.out.splitlines()]
    commands = [command for command in commands if command[0] in ("issue", "deliver", "hand")]
    return list(zip(commands, [answer.split() for answer in ran.out.splitlines()], strict=True))


def report_of(*words: object) -> dict:
    return json.loads(lockup("run", *words, "--json").out)


def tables_of(report: str) -> dict[str, dict[str, dict[str, int]]]:
    """What the tables show of each core and line, under the keys of JSON. A row of sums is the line `all`."""
    found, kind, keys = {"core": {}, "line": {}}, "", []
    for words in map(str.split, report.splitlines()[1:]):
        if words[0] in found:
            kind, keys = words[0], [{**KEYS, **FURTHER}.get(word) for word in words[1:]]
        elif None not in keys:
            found[kind].setdefault(words[0], {}).update(zip(keys, map(int, words[1:]), strict=True))
    return found


@each(names)
def test_report_as_json(name: str) -> None:
    """Each count stands under its name: what a column of the tables shows, and the sums."""
    for words in ((), ("--outstanding", "4", "--seed", "5")):
        value = report_of(FOLDER / f"{name}.txt", *words)
        tables = tables_of(lockup("run", FOLDER / f"{name}.txt", *words).out)
        limited = "stalls" in tables["core"]["0"]
        keys = {*KEYS.values(), *(FURTHER.values() if limited else ())}
        for kind in ("core", "line"):
            told = {str(row[kind]): {key: row[key] for key in keys & {*row}} for row in value[f"{kind}s"]}
            same(f"each {kind}", {row: counts for row, counts in tables[kind].items() if row != "all"}, told)
        lines = {key: value["all"][key] for key in KEYS.values()}
        same("all lines", tables["line"]["all"], lines)
        if limited:
            sums = {key: sum(counts[key] for counts in tables["core"].values()) for key in FURTHER.values()}
            same("all cores", sums, {key: value["all"][key] for key in sums})


@each(names)
def test_schedule(name: str) -> None:
    for words in ((), ("--seed", "7"), ("--outstanding", "4"), ("--pace", "1"), ("--outstanding", "8", "--pace", "3")):
        counts, count, blocked = report_of(FOLDER / f"{name}.txt", *words)["all"], Counter(), 0
        for command, answer in played(FOLDER / f"{name}.txt", *words):
            count[command[1] if command[0] == "deliver" else command[0], answer[0]] += answer[0] != "blocked"
            blocked += answer[0] == "blocked"
        wanted = {(kind, "moved"): counts[KEYS[kind]] for kind in ("req", "fwd", "data", "ack", "home")}
        wanted["issue", "done"] = counts["hits"]
        wanted["issue", "pending"] = wanted["hand", "receipt"] = counts["misses"] + counts.get("misses_secondary", 0)
        wanted["issue", "stall"] = counts.get("stalls", 0)
        same("answers", +Counter(wanted), +count)
        if "--pace" in words:
            moved = sum(number for (_, answer), number in count.items() if answer == "moved")
            same("moves that delivered", moved, counts["moves_delivered"])
        else:
            same("blocked deliveries", 0, blocked)


@each(lambda: ["ping_pong", "parallel_misses"])
def test_page(name: str) -> None:
    """The page of a run is that of its script, after its name and seed."""
    words = ("run", FOLDER / f"{name}.txt", "--seed", "3", "--outstanding", "2")
    script, page = lockup(*words, "--script"), lockup(*words, "--page")
    same("status and error", (script.status, script.err), (page.status, page.err))
    same("error", unused(read(words[1]), *words[2:]), page.err)
    same("page", lockup("page", "-", text=f"# {name}, seed 3\n{script.out}").out, page.out)


@each(lambda: [f"{one} {other}" for one in ("--script", "--page")
               for other in ("--json", "--csv", "--seeds 1..2", "--set ways=1")] + ["--script --page"])
def test_a_schedule_is_printed_alone(words: str) -> None:
    ran = lockup("run", FOLDER / "ping_pong.txt", *words.split())
    same("status and output", (2, ""), (ran.status, ran.out))
    want("cannot be used with" in ran.err, ran.err)


def in_use(calls: list[tuple[list[str], list[str]]], cores: int, slices: int) -> list[dict[str, int]]:
    """What waits after each move of a script: an access, or a delivery with the replies that it brings."""
    lines, usages = {}, [Counter() for _ in range(cores)]
    for at, (command, answer) in enumerate(calls):
        core = int(command[1]) if command[0] != "deliver" else None
        if answer[0] == "pending":
            line = int(command[4]) // 8
            lines[core, line % slices, int(command[2])] = line
        elif command[0] == "hand":
            del lines[core, int(command[2]), int(answer[3])]
        if at + 1 < len(calls) and calls[at + 1][0][0] == "hand":
            continue
        for core, usage in enumerate(usages):
            waiting = [line for (of, _, _), line in lines.items() if of == core]
            for name, now in ("registers", len(set(waiting))), ("targets", len(waiting)):
                usage[f"{name}_most"] = max(usage[f"{name}_most"], now)
                usage[f"{name}_sum"] += now
            usage["moves"] += 1
    return [dict(usage) for usage in usages]


def mean(total: int, moves: int) -> str:
    return f"{total // moves}.{total % moves * 100 // moves:02}"


# One core loads the words of a line, so they share its register; two cores of two slices, where lines leave.
USES = {
    "an example": (read(FOLDER / "parallel_misses.txt"), 1, 1),
    "targets of a line": ("cores 1\nlines 2\noutstanding 8\ncore 0\nload 0..15\n", 1, 1),
    "two slices": ("cores 2\nslices 2\nlines 16\nsets 2\nways 1\noutstanding 5\ncore 0\nrepeat 9\nadd 0..127 1\nend\n"
                   "core 1\nrepeat 9\nload 3..90\nend\n", 2, 2),
    "few targets": ("cores 2\nlines 4\nmshrs 2\ntargets 2\noutstanding 6\ncore 0\nrepeat 20\nadd 0..31 1\nend\n"
                    "core 1\nrepeat 20\nstore 0..31 2\nend\n", 2, 1),
    "inverted": ("cores 2\nlines 4\nmisses inverted\noutstanding 64\ncore 1\nload 0..31\ncore 0\nadd 0..31 7\n", 2, 1),
}


@each(lambda: list(USES))
def test_what_is_in_use(what: str) -> None:
    text, cores, slices = USES[what]
    with tempfile.TemporaryDirectory() as room:
        file = write(f"{room}/text.txt", text)
        for seed in ("1", "2", "3"):
            usages = in_use(played(file, "--seed", seed), cores, slices)
            report = report_of(file, "--seed", seed)
            told = report["cores"]
            same(f"seed {seed}", usages, [{name: core[name] for name in usage} for core, usage in zip(told, usages)])
            of_all = {name: (sum if name.endswith("_sum") else max)(usage[name] for usage in usages) for name in usages[0]}
            same(f"all of seed {seed}", of_all, {name: report["all"][name] for name in of_all})
            rows = [[str(core), str(usage["registers_most"]), mean(usage["registers_sum"], usage["moves"]),
                     str(usage["targets_most"]), mean(usage["targets_sum"], usage["moves"])]
                    for core, usage in enumerate(usages)]
            same(f"rows of seed {seed}", rows, ran_on(text, "--seed", seed)[-cores:])
