"""What changed cells of the tables break. Each change of examples/what_if breaks the promise that is named here, in a short
run whose steps are rows of the given tables, or none; our tables, and what `lockup table` prints of them, break none. A
table that can't be read is refused by the line and the cell. What Rumur finds in the model of the same tables is replayed.
Under our tables the steps are those of the machine, row by row, in runs that are drawn."""
import json
import random
import re
import tempfile
import time
import xml.etree.ElementTree as ElementTree

from harness import ROOT, each, lockup, read, same, seconds, want, write
from harness.rumur import searched
from harness.schema import fits
from suite.json_values import schema

FOLDER = ROOT / "examples/what_if"
ENDS = "each miss and each eviction ends, once no core asks any more"
ONE_WRITER = "one writer, or only readers"
NEWEST = "a copy that may be read is the newest block"
NEWEST_HOME = "the home copy is the newest block in I and S"
ROW = "each message has a row"
# which promises each change may break first, as the rows say by hand; in the model of each of them Rumur finds an error
GALLERY = [
    ("acknowledged_before_the_data", ONE_WRITER, NEWEST),
    ("directory_that_does_not_wait", NEWEST, ONE_WRITER),
    ("evicted_owner_that_is_silent", ENDS),
    ("late_put_that_comes_home", NEWEST_HOME),
    ("no_invalidation", ONE_WRITER, NEWEST),
    ("owner_that_keeps_writing", ONE_WRITER, NEWEST_HOME),
    ("owner_that_sends_nothing_home", ENDS),
    ("reader_that_stays", ONE_WRITER, NEWEST),
    ("silent_eviction", ROW, ENDS),
    ("silent_eviction_acknowledged", ENDS),
    ("upgrade_that_still_reads", ONE_WRITER, NEWEST),
    ("writer_that_does_not_wait", ONE_WRITER, NEWEST, ROW),
]
HARMLESS = ["late_put_in_m", "readers_that_never_ask"]
ALL = re.compile(r"nothing broke in the (\d+) states of (\d+) cores, by (\d+) steps\n")
NOTHING = re.compile(r"nothing broke in (\d+) steps, in (\d+) states and (\d+) rounds on (\d+) cores\n")
# states of our tables that Rumur finds in the model, in which each core is another one (tests/suite/murphi.py)
STATES = {(2, ""): 678, (3, ""): 25811, (2, "--exclusive"): 835, (3, "--exclusive"): 31088}


def option_of(text: str) -> str:
    return "--directory" if "| Directory" in text else "--cache"


def played(name: str, *words: str) -> tuple[int, str, str]:
    file = FOLDER / f"{name}.txt"
    return tuple(lockup("what-if", option_of(read(file)), file, *words))


def test_each_is_named() -> None:
    names = {path.stem for path in FOLDER.glob("*.txt")}
    same("the folder", {*HARMLESS, *(name for name, *_ in GALLERY)}, names)
    told = read(ROOT / "docs/PROTOCOL.md")
    for name in names:
        want(f"(../examples/what_if/{name}.txt)" in told, f"docs/PROTOCOL.md doesn't name {name}")


def test_the_document_shows_a_run() -> None:
    """The table of docs/PROTOCOL.md with its one cell changed breaks as is shown there."""
    told = read(ROOT / "docs/PROTOCOL.md").partition("\n## What if a cell were another\n")[2].split("\n```\n")
    lines = lockup("table", "cache").out.splitlines(keepends=True)
    mine = [re.sub(r"Inv-Ack; I \|", "Inv-Ack; S |", line) if line.startswith("| S |") else line for line in lines]
    want(mine != lines, "no cell is changed")
    same("run", (1, told[3] + "\n", ""), tuple(lockup("what-if", "--cache", "-", text="".join(mine))))


def test_the_document_says_what_breaks() -> None:
    """Of each change docs/PROTOCOL.md names the promise that the program shows where it is given no seed."""
    rows = re.findall(r"^\| \[.*?what_if/(\w+)\.txt\)[^|]* \| ([^|]*) \|", read(ROOT / "docs/PROTOCOL.md"), re.M)
    same("changes", len(GALLERY) + len(HARMLESS), len(rows))
    for name, promise in rows:
        first = played(name)[1].splitlines()[0]
        want(first.startswith("nothing broke" if promise == "nothing" else f"broken: {promise}"), f"{name}: {first}")


@each(lambda: GALLERY)
def test_what_breaks(name: str, *promises: str) -> None:
    """Each change is found within a second, in at most 15 steps, of which one is a changed row."""
    for seed in ("1", "2", "3"):
        began = time.monotonic()
        status, out, err = played(name, "--seed", seed)
        took = time.monotonic() - began
        first, *rest = out.splitlines()
        same("status and error", (1, ""), (status, err))
        want(first.removeprefix("broken: ") in promises, out)
        steps = [line for line in rest if re.match(r" *\d+  ", line)]
        want(0 < len(steps) <= 15 and took < 1, f"{len(steps)} steps in {took} s: {out}")
        want(any(line.endswith("changed") for line in steps), out)
        same("no step more", [str(it) for it in range(1, len(steps) + 1)], [line.split()[0] for line in steps])


@each(lambda: [(name,) for name in HARMLESS])
def test_what_breaks_nothing(name: str) -> None:
    status, out, err = played(name)
    want((status, err) == (0, "") and ALL.match(out), out + err)
    status, out, err = played(name, "--states", "0", "--rounds", "2000")
    want((status, err) == (0, "") and NOTHING.match(out), out + err)


@each(lambda: [(f"{cores}{exclusive}", cores, exclusive) for cores, exclusive in STATES])
def test_all_states(_: str, cores: int, exclusive: str) -> None:
    """As many states as Rumur finds, but those count once that differ only in which core is which: at least one in N! of
    them, and fewer than all. With four times as many steps as states there are still all."""
    ran = lockup("what-if", "--cores", str(cores), *exclusive.split())
    told = ALL.match(ran.out)
    want(ran.status == 0 and told and int(told[2]) == cores, ran.out)
    found, ways = int(told[1]), 2 if cores == 2 else 6
    want(STATES[cores, exclusive] / ways <= found < STATES[cores, exclusive] / ways * 1.1, f"{found} states")
    few = lockup("what-if", "--cores", str(cores), "--states", str(found - 1), "--rounds", "1", *exclusive.split())
    want(few.status == 0 and NOTHING.match(few.out), few.out)


@seconds(60)
@each(lambda: [(f"{cores}{exclusive}", cores, exclusive) for cores in (2, 3, 4, 8) for exclusive in ("", "--exclusive")])
def test_our_tables(_: str, cores: int, exclusive: str) -> None:
    """They pass a million steps in all, as they are and as `lockup table` prints them."""
    words = [*exclusive.split(), "--cores", str(cores), "--states", "0", "--rounds", "8000"]
    plain = lockup("what-if", *words)
    told = NOTHING.match(plain.out)
    want(plain.status == 0 and told and int(told[1]) >= 8000 * 10 and int(told[4]) == cores, plain.out)
    with tempfile.TemporaryDirectory() as room:
        for table in ("cache", "directory"):
            write(f"{room}/{table}", lockup("table", table, *exclusive.split()).out)
        same("printed", tuple(plain), tuple(lockup("what-if", *words, "--cache", f"{room}/cache", "--directory", f"{room}/directory")))


@seconds(20)
@each(lambda: GALLERY)
def test_what_rumur_finds(name: str, *promises: str) -> None:
    """The run that Rumur prints of an error in the model of the changed tables breaks a promise under them, at its end."""
    file = FOLDER / f"{name}.txt"
    model = lockup("export", "murphi", "--cores", "2", option_of(read(file)), file).out
    found = searched(model, trace=True)
    want(found.status, f"no error: {found.said[-500:]}")
    with tempfile.TemporaryDirectory() as room:
        trace = write(f"{room}/found", found.said)
        status, out, err = played(name, "--from-murphi", trace)
        want((status, err) == (1, "") and out.splitlines()[0].startswith("broken: "), out + err)
        fired = len(re.findall(r"^Rule .* fired\.$", found.said, re.M))
        steps = [line for line in out.splitlines() if re.match(r" *\d+  ", line)]
        want(len(steps) == fired and any(line.endswith("changed") for line in steps), f"{fired} rules: {out}")
        ours = lockup("what-if", "--from-murphi", trace)
        want(ours.status in (0, 2), f"under our tables it breaks {ours.out}")


def test_what_can_not_be_replayed() -> None:
    trace = 'Rule "I, load: GetS; IS_D", c: 0 fired.\nRule "I, load: GetS; IS_D", c: 0 fired.\n'
    for text, said in ((trace, "-: rule 2 can't happen under these tables"), ("no rule\n", "line 1: not a trace")):
        same(said, (2, "", f"lockup: {said}\n"), tuple(lockup("what-if", "--from-murphi", "-", text=text)))
    ran = lockup("what-if", "--from-murphi", "-", text=trace.splitlines(keepends=True)[0])
    want(ran.status == 0 and ran.out.startswith("nothing broke in these 1 steps\n"), ran.out)


def test_a_message_that_a_changed_cell_blocks() -> None:
    """It is told after the steps, with the cell at which it waits."""
    table = "| Directory | PutS of r |\n| S, sharers r | blocked |\n"
    plain = lockup("what-if", "--directory", "-", text=table)
    want(plain.status == 1 and plain.out.startswith(f"broken: {ENDS}\n"), plain.out)
    waits = [line for line in plain.out.splitlines() if line.startswith("  -  ")]
    want(len(waits) == 1 and re.search(r"directory +S, sharers \d, PutS of \d +blocked +changed$", waits[0]), plain.out)
    value = json.loads(lockup("what-if", "--directory", "-", "--json", text=table).out)
    fits(value, schema("what_if"))
    same("blocked", [("directory", "blocked", True)], [(it["actor"], it["row"], it["changed"]) for it in value["blocked"]])
    same("messages", [("PutS", "directory")], [(it["message"], it["to"]) for it in value["messages"]])


# ---- the picture

SVG = "{http://www.w3.org/2000/svg}"
SENT = re.compile(r"Fwd-Get[SM]|Get[SM]|Put-Ack|Put[SM]|Inv-Ack|Inv|Data-E|Data home|Data\(\d+\)")


def names_sent(row: str) -> list[str]:
    """The messages that a row sends: an Inv for each core that it names."""
    told, invs = re.subn(r", Inv to ([\d, ]+|nobody)", "", row.rpartition("; ")[0])
    names = SENT.findall(told)
    if invs:
        names += ["Inv"] * len(re.findall(r"\d+", re.search(r"Inv to ([\d, ]+|nobody)", row)[1]))
    return names


@each(lambda: [(name,) for name, *_ in GALLERY])
def test_pictures(name: str) -> None:
    """A picture has a row for each step, an arrow for each message that a row sends, dashed for those that are on their way in
    the end, a ring at each changed cell, and the promise below; a page has the same picture, and the text."""
    value, svg = json.loads(played(name, "--json")[1]), played(name, "--svg")[1]
    picture = ElementTree.fromstring(svg)
    texts = ["".join(it.itertext()) for it in picture.iter(f"{SVG}text")]
    same("rows", len(value["steps"]), sum(it.get("class") == "row" for it in picture.iter(f"{SVG}text")))
    arrows = [it for it in picture.iter(f"{SVG}line") if it.get("marker-end")]
    rows = [row for step in value["steps"] for row in (step["row"], step.get("write", {}).get("row", ""))]
    same("messages", sum(len(names_sent(row)) for row in rows), len(arrows))
    same("on their way", len(value["messages"]), sum("flight" in it.get("class") for it in arrows))
    same("changed", sum(step["changed"] for step in value["steps"]), sum(it.get("class") == "ring" for it in picture.iter(f"{SVG}circle")))
    want(texts[-1] == value["broken"], f"{texts[-1]} isn't {value['broken']}")
    page = played(name, "--page")[1]
    want(svg in page and played(name)[1].replace("<", "&lt;") in page and page.startswith("<!doctype html>"), page[:200])


# ---- the machine's steps

HAPPENED = re.compile(r"(core|dir) (\d+) \((\w+), (Data home|[\w-]+)[^)]*(?:\(\d+\))?[^)]*\): (.*)")


def drawn_script(draw: random.Random, cores: int, exclusive: bool) -> str:
    """Draws commands of a script on one line; most of them do nothing."""
    lines = [f"cores {cores}"] + (["exclusive on"] if exclusive else [])
    for _ in range(2000):
        core, other, tag = draw.randrange(cores), draw.randrange(cores), draw.randrange(64)
        asked = [f"issue {core} {tag} load 0", f"issue {core} {tag} add 0 1", f"evict {core} 0", f"hand {core} 0", f"hand {core} 0"]
        taken = [f"deliver {it}" for it in (f"req 0 {core}", f"fwd 0 {core}", f"data 0 {core}", f"ack 0 {core} {other}", "home 0")]
        lines.append(draw.choice(asked + taken * 2))
    return "\n".join([*lines, "state 0", ""])


def steps_of(values: list[dict]) -> tuple[list[str], list[tuple]]:
    """Returns the steps that a script's answers tell of, as lines of a model's trace, and for each who met which cell, what was
    sent, and to which states the row led. Accesses that join a miss do nothing, but for the first write that joins a load's."""
    rules, met, joined = [], [], set()
    for value in values:
        answer, call = value["answer"][0], value["call"]
        if answer.get("status") not in ("pending", "done", "moved", "evicting"):
            continue
        kind, number, state, event, does = HAPPENED.fullmatch(answer["happened"]).groups()
        if does == "secondary miss; joins":
            if (state, event) != ("IS_D", "write") or number in joined:
                continue
            joined.add(number)
            met.append(("core " + number, state, event, [], ["joins"]))
        else:
            joined -= {number} if kind == "core" and state == "IS_D" else set()
            sent = [it.split(" to ")[0] for sends in re.findall(r"sends ([^;]*)", does) for it in sends.split(", ")]
            led = [it.replace(", ", ",") for it in re.findall(r"to ([A-Z]\w*(?:, (?:owner|sharers) [\d,]+)*)(?:;|$)", does)]
            met.append(("directory" if kind == "dir" else "core " + number, state, event, sorted(sent), led))
        if kind == "dir":
            name = f'"directory {state}; {event}' + (f" of {call['core']}" if "core" in call else "") + ': x"'
        else:
            name = f'"{state}, {event}: x", c: {number}' + (f", f: {call['from']}" if "from" in call else "")
        rules.append(f"Rule {name} fired.")
    return rules, met


@seconds(30)
@each(lambda: [(f"{cores}{exclusive}", cores, exclusive) for cores in (2, 3, 4) for exclusive in ("", "--exclusive")])
def test_the_machine_makes_these_steps(_: str, cores: int, exclusive: str) -> None:
    """Of a drawn script each step that happens is one of the line under our tables: who meets which cell, what is sent, the
    next state, and the copies and the entry in the end."""
    for seed in range(8):
        script = drawn_script(random.Random(seed), cores, bool(exclusive))
        values = [json.loads(line) for line in lockup("script", "--json", "-", text=script).out.splitlines()]
        rules, met = steps_of(values)
        want(len(rules) > 40, f"only {len(rules)} steps")
        ran = lockup("what-if", "--json", "--cores", str(cores), *exclusive.split(), "--from-murphi", "-", text="\n".join(rules) + "\n")
        want(ran.status == 0, ran.out + ran.err)
        told = json.loads(ran.out)
        for step, wanted in zip(told["steps"], met, strict=True):
            rows = [step["row"], *([step["write"]["row"]] if "write" in step else [])]
            shown = (step["actor"] if step["actor"] == "directory" else f"core {step['actor']}", step["state"].split(",")[0],
                     re.split(r",| of ", step["event"])[0], sorted(it for row in rows for it in names_sent(row)),
                     [row.rpartition("; ")[2].replace(", ", ",") for row in rows])
            same(f"seed {seed}", wanted, shown)
        words = values[-1]["answer"][0]["words"]
        same("copies", words[words.index("cores") + 1:], [it["state"] for it in told["copies"]])
        same("entry", words[3], told["directory"]["state"])


def test_values_of_json() -> None:
    for name in (*HARMLESS, *(name for name, *_ in GALLERY)):
        (status, out, _), plain = played(name, "--json"), played(name)[1]
        value = json.loads(out)
        fits(value, schema("what_if"))
        same("status", int(value["broken"] is not None), status)
        if status:
            same("promise", plain.splitlines()[0], f"broken: {value['broken']}")
            steps = [line for line in plain.splitlines() if re.match(r" *\d+  ", line)]
            same("changed rows", [line.endswith("changed") for line in steps], [it["changed"] for it in value["steps"]])
            for line, step in zip(steps, value["steps"], strict=True):
                want(step["row"] in line and step["state"] in line, f"{step} isn't {line}")


@each(lambda: [
    ("no_table", "load\n", "no line is a heading of the table"),
    ("a_state", "| Cache | Inv |\n| Q | Inv-Ack; S |\n",
     "line 2, cell 2: there is no such line in the table: row 'Q', column 'Inv': 'Inv-Ack; S'"),
    ("a_word", "| Cache | load | Inv |\n| S | hit; S | gone |\n", "line 2, cell 3: the next state isn't known: row 'S', column 'Inv': 'gone'"),
])
def test_faults(_: str, text: str, said: str) -> None:
    same("what-if", (2, "", f"lockup: -: {said}\n"), tuple(lockup("what-if", "--cache", "-", text=text)))
