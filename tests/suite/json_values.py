"""Compares what `--json` prints with what is printed without it, for each example, and validates it
against docs/schema. The validator refuses values that don't fit."""
import json
import re
import tempfile
from pathlib import Path

from harness import ROOT, Different, each, lockup, read, same, want, write
from harness.schema import faults, fits
from harness.scripts import COMMANDS, remark_of
from suite.programs import unused

EXAMPLES = ROOT / "examples"


def schema(name: str) -> dict:
    return json.loads(read(ROOT / f"docs/schema/{name}.json"))


def value_of(name: str, *words: object, status: int = 0, err: str = "") -> object:
    """What the command prints, which is one line of JSON and fits the schema of this name."""
    ran = lockup(*words, "--json")
    same("status and error", (status, err), (ran.status, ran.err))
    value = json.loads(ran.out)
    fits(value, schema(name))
    return value


def names(folder: Path) -> list[str]:
    return sorted(path.stem for path in folder.glob("*.txt"))


def scripts() -> list[str]:
    return [name for name in names(EXAMPLES) if name not in ("illegal_trace", "incoherent_history")]


# what a command names, by the words of its line
NAMES = {"evict": ("core", "line"), "pump": ("calls",), "hand": ("core", "slice"), "word": ("word",), "state": ("line",),
         "log": ("slice",)}
OPERANDS = {"load": (), "store": ("value",), "add": ("value",), "cas": ("expect", "value")}
ENDS = {"ack": ("to", "from"), "home": ()}


def number(text: str) -> int | str:
    """A number of JSON: a string of its digits where it has more than 15."""
    return int(text) if int(text) < 10 ** 15 else str(int(text))


def call_of(line: str) -> dict:
    """A command as data."""
    name, *words = line.split()
    if name == "issue":
        core, tag, op, word, *operands = words
        return {"name": name, "core": int(core), "tag": int(tag), "word": int(word), "op": op,
                **dict(zip(OPERANDS[op], map(number, operands), strict=True))}
    if name == "deliver":
        kind, at, *cores = words
        return {"name": name, "line": int(at), "class": kind,
                **dict(zip(ENDS.get(kind, ("core",)), map(int, cores), strict=True))}
    return {"name": name, **dict(zip(NAMES.get(name, ()), map(number, words), strict=True))}


# the answers that docs/TEXTS.md lists, with the fields of each
ANSWERS = [
    (r"done (?P<number>\d+) reply (?P<reply>\d+)", "done"), (r"pending (?P<number>\d+)", "pending"),
    (r"stall (?P<number>\d+) (?P<reason>\w+)", "stall"), (r"refused (?P<number>\d+) (?P<reason>\w+)", "refused"),
    (r"receipt (?P<number>\d+) tag (?P<tag>\d+) reply (?P<reply>\d+)", "receipt"), (r"(?P<value>\d+)", None),
    *((text, text) for text in ("evicting", "not held", "busy", "buffer full", "moved", "blocked", "nothing", "none",
                                "not quiet")),
]


def fields_of(answer: str) -> dict:
    """What an answer says."""
    for form, status in ANSWERS:
        found = re.fullmatch(form, answer)
        if found:
            fields = {name: told if name == "reason" else number(told) for name, told in found.groupdict().items()}
            return fields if status is None else {"status": status, **fields}
    raise Different(f"docs/TEXTS.md has no answer {answer}")


# what `waiting` prints of a message besides its name
NUMBERED = {"Data": lambda it: f"Data({it['acks']})"}
ENDS_OF = {"req": ("from",), "fwd": ("to",), "data": ("to",), "ack": ("to", "from"), "home": ()}
# the states of a copy in which it has no block
WITHOUT_BLOCK = ("I", "IS_D", "IM_AD", "II_A")


def shape_of(script: str) -> dict[str, int]:
    """How many cores and slices a script's machine has: one where it doesn't say."""
    return {"cores": 1, "slices": 1,
            **{name: int(number) for name, number in re.findall(r"^(cores|slices) +(\d+)", script, re.M)}}


def waiting_of(held: dict) -> list[str]:
    """What `waiting` prints of a line."""
    line, told = held["line"], []
    states = {copy["core"]: copy["state"] for copy in held["copies"]}
    for it in line["messages"]:
        ends = [str(it[name]) for name in ENDS_OF[it["class"]]]
        name = NUMBERED.get(it["kind"], lambda it: it["kind"])(it) + (f" for core {it['for']}" if "for" in it else "")
        state = line["dir"] if it["to"] == "directory" else states.get(it["to"], "I")
        fate = f"blocked: {state}" if it["fate"] == "blocked" else it["fate"]
        told.append(f"{' '.join(['deliver', it['class'], str(line['line']), *ends])}   {name}   {fate}")
    return told


def copy_of(copy: dict) -> list[str]:
    """What `show` prints of a copy. Where it has no block the block isn't data, and nothing is said of it here."""
    core, line = f"core {copy['core']}", copy["line"]
    needed = copy["needed"] or 0
    acks = f" acks {copy['got']} of {needed}" if copy["got"] or needed else ""
    same("a block", copy["state"] in WITHOUT_BLOCK, copy["block"] is None)
    block = " ".join([" block", *(copy["block"] or "?" * 8)])
    told = [f"{core} line {line} {copy['state']}{acks}{block}"]
    for it in copy["targets"]:
        op = " ".join([it["op"], str(8 * line + it["offset"]), *(it[name] for name in OPERANDS[it["op"]])])
        told.append(f"{core} tag {it['tag']} awaits {op} seq {it['seq']} since {it['since']}")
    return told


def line_of(held: dict, cores: int) -> list[str]:
    """What `show` prints of a line."""
    line = held["line"]
    states = {copy["core"]: copy["state"] for copy in held["copies"]}
    owner = "-" if line["owner"] is None else line["owner"]
    sharers = ",".join(map(str, line["sharers"])) or "-"
    told = [f"line {line['line']} dir {line['dir']} owner {owner} sharers {sharers} home {' '.join(line['home'])} "
            f"cores {' '.join(states.get(core, 'I') for core in range(cores))}"]
    return told + [row for copy in held["copies"] for row in copy_of(copy)]


def shown_of(items: list[dict], shape: dict[str, int]) -> list[str]:
    """What `show` prints: of each slice the lines, the replies and the ring."""
    told = []
    for number, it in enumerate(items[:shape["slices"]]):
        same("slice", number, it["slice"])
        for held in items[shape["slices"]:]:
            told += line_of(held, shape["cores"]) if held["line"]["line"] % shape["slices"] == number else []
        told += [f"core {each['core']} tag {each['tag']} entry {each['number']}" for each in it["replies"]]
        told.append(" ".join([f"slice {number} ring", *map(str, it["ring"])]))
    return told


def answer_of(value: dict, shape: dict[str, int]) -> list[str]:
    """The lines of an answer as `--explain` prints them."""
    name, items = value["call"]["name"], value["answer"]
    if name == "show":
        return shown_of(items, shape)
    if name == "waiting":
        items = sorted(items, key=lambda it: it["line"]["line"] % shape["slices"])
        return [row for it in items for row in waiting_of(it)] or ["none"]
    told = []
    for line in items:
        words = " ".join(map(str, line["words"]))
        fields = fields_of(words) if name in ("issue", "evict", "deliver", "hand", "word") else {}
        same("fields", fields, {name: it for name, it in line.items() if name not in ("words", "happened")})
        told.append(f"{words}   {line['happened']}" if "happened" in line else words)
    return told


@each(scripts)
def test_script(name: str) -> None:
    file, fitting = EXAMPLES / f"{name}.txt", schema("script")
    ran, told = lockup("script", file, "--json"), lockup("script", file, "--explain")
    same("status and error", (told.status, told.err), (ran.status, ran.err))
    values = [json.loads(line) for line in ran.out.splitlines()]
    lines = dict(enumerate(read(file).splitlines(), 1))
    wanted = [number for number, line in lines.items() if line.split()[:1] and line.split()[0] in COMMANDS]
    same("lines", wanted, [value["line"] for value in values])
    answers = []
    for value in values:
        fits(value, fitting)
        same("command", lines[value["line"]], value["command"])
        same("call", call_of(value["command"]), value["call"])
        answers += answer_of(value, shape_of(read(file)))
    # blanks part the columns of a report, and stand before its first one
    wanted = [" ".join(it.split()) if it.startswith(" ") else it for it in told.out.splitlines()]
    # .. and a block that isn't data is one of zeros or of what was there
    wanted = [re.sub(rf"^(core \d+ line \d+ (?:{'|'.join(WITHOUT_BLOCK)}) (?:acks .* )?block).*", r"\1" + " ?" * 8, it)
              for it in wanted]
    same("answers", wanted, answers)


@each(scripts)
def test_page(name: str) -> None:
    """The value in a page, also where a line can't be taken."""
    for text in (read(EXAMPLES / f"{name}.txt"), read(EXAMPLES / f"{name}.txt") + "pump 99\nword\n"):
        page = lockup("page", "-", text=text).out
        fits(json.loads(re.search(r'id="run">\n(.*?)</script>', page, re.S).group(1)), schema("page"))


def test_script_with_a_fault() -> None:
    """The values before the fault are printed."""
    with tempfile.TemporaryDirectory() as room:
        file = write(f"{room}/script.txt", "\tword\t 0 \nword 1\nload 2\n")
        ran = lockup("script", "--json", file)
        same("status and error", (2, "lockup: line 3: not a command\n"), (ran.status, ran.err))
        first, second = map(json.loads, ran.out.splitlines())
        call = {"name": "word", "word": 0}
        answer = [{"words": [0], "value": 0}]
        same("the first", {"line": 1, "command": "\tword\t 0 ", "call": call, "answer": answer}, first)
        call = {"name": "word", "word": 1}
        same("the second", {"line": 2, "command": "word 1", "call": call, "answer": answer}, second)


LONG, SHORT = str((1 << 64) - 1), 999999999999999


def test_long_numbers_of_scripts() -> None:
    text = (f"cores 1\nlines 1\ninit 0 {LONG}\ninit 1 {SHORT}\nword 0\nword 1\nissue 0 0 cas 0 {LONG} {SHORT + 1}\n"
            f"issue 0 1 store 1 {SHORT}\ndeliver req 0 0\ndeliver data 0 0\nhand 0 0\npump {LONG}\n")
    ran = lockup("script", "--json", "-", text=text)
    same("status and error", (0, ""), (ran.status, ran.err))
    values = [json.loads(line) for line in ran.out.splitlines()]
    for value in values:
        fits(value, schema("script"))
    same("words", [[{"words": [LONG], "value": LONG}], [{"words": [SHORT], "value": SHORT}]],
         [value["answer"] for value in values[:2]])
    same("operands", [(LONG, str(SHORT + 1)), SHORT],
         [(values[2]["call"]["expect"], values[2]["call"]["value"]), values[3]["call"]["value"]])
    same("reply", (LONG, LONG), (values[6]["answer"][0]["reply"], values[6]["answer"][0]["words"][-1]))
    same("calls", LONG, values[7]["call"]["calls"])


def test_long_numbers_of_litmus_tests() -> None:
    with tempfile.TemporaryDirectory() as room:
        for value in LONG, str(1 << 53), str(SHORT + 1), SHORT:
            file = write(f"{room}/test.txt", f"lockup-litmus 1\nrounds 1\ninit 0 {value}\nthread 0\nload 0 a\nforbid a=7\n")
            for words, seed in (["litmus", file], {}), (["walk", file, "--seed", LONG], {"seed": LONG}):
                outcome = {"rounds": 1, "values": [value], **seed}
                same(words[0], [outcome], value_of(words[0], *words)["outcomes"])


@each(lambda: ["script first_add.txt --explain", "script first_add.txt --vcd", "walk litmus/sb.txt --script",
               "walk litmus/sb.txt --page"])
def test_json_alone(words: str) -> None:
    command, file, option = words.split()
    ran = lockup(command, EXAMPLES / file, option, "--json")
    same("status and output", (2, ""), (ran.status, ran.out))
    want("cannot be used with" in ran.err, ran.err)


def rows_of(value: dict) -> list[str]:
    """The lines of the table that has these outcomes."""
    labels = [*value["names"], *(f"[{word}]" for word in value["counters"])]
    rows = []
    for row in value["outcomes"]:
        cells = [f"{label}={told}" for label, told in zip(labels, row["values"], strict=True)]
        seed = [f"seed {row['seed']}"] if "seed" in row else []
        rows.append(" ".join([f"{row['rounds']:>8}", *cells, *seed]))
    return [*rows, f"forbidden {value['forbidden']}"]


@each(lambda: names(EXAMPLES / "litmus"))
def test_walk(name: str) -> None:
    file = EXAMPLES / f"litmus/{name}.txt"
    words = ("walk", file, "--rounds", "50", "--seed", "3")
    value = value_of("walk", *words, err=remark_of(read(file)))
    same("outcomes", lockup(*words).out.splitlines(), rows_of(value))


def test_walk_with_counters() -> None:
    with tempfile.TemporaryDirectory() as room:
        text = write(f"{room}/test.txt", "lockup-litmus 1\ncores 2\ncounter 0\nthread 0\nadd 0 3 x\nthread 1\nadd 0 4 y\n"
                                         "forbid x=4\n")
        words = ("walk", text, "--rounds", "30")
        value = value_of("walk", *words, status=1)
        same("names and counters", (["x", "y"], [0]), (value["names"], value["counters"]))
        same("outcomes", lockup(*words).out.splitlines(), rows_of(value))


@each(lambda: ["sb", "mp", "iriw"])
def test_litmus(name: str) -> None:
    file = EXAMPLES / f"litmus/{name}.txt"
    value = value_of("litmus", "litmus", file, err=remark_of(read(file)))
    table = lockup("litmus", EXAMPLES / f"litmus/{name}.txt").out.splitlines()
    same("rounds", sum(int(row.split()[0]) for row in table[:-1]), sum(row["rounds"] for row in value["outcomes"]))
    same("names", [cell.split("=")[0] for cell in table[0].split()[1:]], value["names"])
    same("forbidden", table[-1], f"forbidden {value['forbidden']}")


def test_gave_up() -> None:
    file = EXAMPLES / "litmus/mp.txt"
    same("value", {"gave_up_round": 0, "moves": 2}, value_of("walk", "walk", file, "--limit", "2", status=1))


def test_stuck() -> None:
    """A thread that may take one turn alone is stuck."""
    file = EXAMPLES / "litmus/mp.txt"
    same("text", (1, "stuck round 0\n"), (lockup("litmus", file, "--limit", "1").status,
                                         lockup("litmus", file, "--limit", "1").out))
    same("value", {"stuck_round": 0}, value_of("litmus", "litmus", file, "--limit", "1", status=1))


# how the table says in a word what has a word of its own as data
SENT = {"other sharers": "x", "owner": "o"}
SHARERS = {("nobody", False, False): "", ("nobody", True, False): ", sharers r", ("nobody", False, True): ", sharers x",
           ("nobody", True, True): ", sharers r, x", ("requester", False, False): ", owner r",
           ("other", False, False): ", owner o"}


def said_of(effect: dict) -> str:
    """An effect in the table's words."""
    if "do" in effect:
        return {"count": "k + 1"}.get(effect["do"], effect["do"])
    name, to = effect["send"], effect["to"]
    if name == "Data":
        return "Data home" if to == "directory" else "Data(x)" if effect["acknowledgements"] == "other sharers" else "Data(0)"
    return f"{name} to {SENT[to]}" if to in SENT else name


def entry_of(cell: dict) -> str:
    """A directory's entry after a row, in the table's words."""
    owner, sharers = cell["next"]["owner"], cell["next"]["sharers"]
    before = cell["guard"]
    asks, others = before["requester_shares"], before["others_share"]
    asks = {"nobody": False, "same": asks, "same but requester": False}.get(sharers, True)
    kept = sharers in ("same", "same and requester", "same but requester")
    names = ["o"] * (sharers == "owner and requester") + ["r"] * asks + ["x"] * (others and kept)
    owns = {"requester": "r", "nobody": "", "same": {"other": "o", "requester": "r", "nobody": ""}[before["owner"]]}[owner]
    return (cell["next"]["state"] + (f", owner {owns}" if owns else "")
            + (f", sharers {', '.join(names)}" if names else ""))


def cell_of(cell: dict) -> tuple[str, str, str]:
    """A cell as the printed table has it: its line, its column, and its text."""
    guard = cell["guard"]
    is_cache = cell["table"] == "cache"
    if is_cache:
        line = cell["state"]
        column = ", ".join([cell["event"], *guard.values()])
    else:
        line = cell["state"] + SHARERS[(guard["owner"], guard["requester_shares"], guard["others_share"])]
        column = cell["event"] if cell["event"] == "Data home" else f"{cell['event']} of r"
    if cell["row"] != "go":
        return line, column, {"never": "-"}.get(cell["row"], cell["row"])
    does = [said_of(effect) for effect in cell["effects"]]
    sent = ", ".join(it for it in does if it != "block home")
    parts = [sent, *(it for it in does if it == "block home"), cell["next"]["state"] if is_cache else entry_of(cell)]
    return line, column, "; ".join(it for it in parts if it)


def of_sample(line: str, column: str, text: str) -> tuple[str, str, str]:
    """A printed cell, with x for all further sharers: the table has the last owner for one of them in S_D, and counts."""
    line, column = line.replace(" (exclusive on)", ""), column.replace(" (exclusive on)", "")
    if line.startswith("S_D"):
        line, text = (it.replace("o, r", "r, x").replace("o, x", "x").replace("sharers o", "sharers x")
                      for it in (line, text))
    return line, column, re.sub(r"Data\(\d\), Inv to (x|nobody)", "Data(x), Inv to x", text)


@each(lambda: [(f"{table}, {option}", table, option) for table in ("cache", "directory") for option in ("", "--exclusive")])
def test_table(_: str, table: str, option: str) -> None:
    words = ("table", table, *option.split())
    printed, heading = set(), []
    for row in (line.strip("|").split("|") for line in lockup(*words).out.splitlines() if line.startswith("| ")):
        line, *cells = (cell.strip() for cell in row)
        if line in ("Cache", "Directory"):
            heading = cells
        elif line != "I (exclusive off)":
            printed.update(of_sample(line, column, text) for column, text in zip(heading, cells, strict=True))
    ran = lockup(*words, "--json")
    same("status and error", (0, ""), (ran.status, ran.err))
    values = [json.loads(line) for line in ran.out.splitlines()]
    for value in values:
        fits(value, schema("table"))
    same("tables", {table}, {value["table"] for value in values})
    same("each once", len(values), len(set(map(cell_of, values))))
    same("cells", sorted(printed), sorted(map(cell_of, values)))


def test_check() -> None:
    same("illegal", {"legal": False, "entry": 1, "reason": "reply", "line": 5, "expected": "5", "written_by": 0},
         value_of("check", "check", EXAMPLES / "illegal_trace.txt", status=1))
    with tempfile.TemporaryDirectory() as room:
        trace = write(f"{room}/trace.txt", "lockup-trace 1\nentry 0 0 0 add 0 5 0 0\nentry 0 1 0 load 0 5 1\n")
        same("legal", {"legal": True, "entries": 2}, value_of("check", "check", trace))


@each(lambda: names(EXAMPLES / "programs"))
def test_run(name: str) -> None:
    file = EXAMPLES / f"programs/{name}.txt"
    for words in ((), ("--outstanding", "4"), ("--pace", "2"), ("--outstanding", "4", "--pace", "0")):
        value_of("run", "run", file, *words, err=unused(read(file), *words))
        value_of("run_rows", "run", file, *words, "--seeds", "1..2", "--set", "ways=1,2", "--set", "policy=random 7",
                 err=unused(read(file), *words))
    value_of("run_rows", "run", file, "--set", "outstanding=1,2", "--set", "misses=explicit,inverted")


def test_names_are_whole_words() -> None:
    """Of counts, in snake case, and none is a word that JSON or a language of its readers has."""
    file = EXAMPLES / "programs/parallel_misses.txt"
    report = value_of("run", "run", file, err=unused(read(file)))
    rows = value_of("run_rows", "run", file, "--seeds", "1")
    for each_of in report["all"], report["cores"][0], report["lines"][0], rows[0]:
        for name in each_of:
            want(re.fullmatch("[a-z]+(_[a-z]+)*", name) and name not in ("true", "false", "null"), f"{name} is a name")


@each(lambda: ["--script", "--page"])
def test_rounds_of_one_round(option: str) -> None:
    """It is one round that is printed, so no number of them can be asked for."""
    for words in (option, "--rounds", "5"), ("--rounds", "5", "--seed", "2", option):
        ran = lockup("walk", EXAMPLES / "litmus/sb.txt", *words)
        same("status and output", (2, ""), (ran.status, ran.out))
        want("cannot be used with" in ran.err, ran.err)


@each(lambda: sorted(path.stem for path in (ROOT / "docs/schema").glob("*.json")))
def test_schema(name: str) -> None:
    """Each is named by the document of formats, and refuses what it is no schema of."""
    want(f"schema/{name}.json" in read(ROOT / "docs/TEXTS.md"), "docs/TEXTS.md doesn't name it")
    for value in ({}, {"seed": "1"}, 5, {"legal": 1, "entries": 2}, {"legal": True, "entries": 2, "more": 1}, [{}]):
        want(faults(value, schema(name)), f"it fits {value}")


def test_validator() -> None:
    for value, other in ((1, "integer"), ("x", "string"), (True, "boolean"), ({}, "object"), ([], "array"), (None, "null")):
        fits(value, {"type": other})
        for wrong in {"integer", "string", "boolean", "object", "array", "null"} - {other}:
            want(faults(value, {"type": wrong}), f"{value} is taken as {wrong}")
    for value, other in (({"a": 1}, {"required": ["b"]}), ({"a": 1}, {"properties": {}, "additionalProperties": False}),
                         ([1, "x"], {"items": {"type": "integer"}}), (1, {"enum": [True, 2]}), (-1, {"minimum": 0}),
                         (1, {"oneOf": [{}, {"type": "integer"}]}), (1, {"maximum": 3}), ("1x", {"pattern": "^[0-9]+$"}),
                         (1, {"$ref": "#/$defs/a", "$defs": {"a": {"type": "string"}}})):
        try:
            fits(value, other)
        except Different:
            continue
        raise Different(f"{value} fits {other}")
