"""The queries of `lockup export smt`, and what tools/second-opinion makes of them.

- Each cell of the tables that the program prints has its query, or is a comment where it is blocked.
- All queries are unsat in z3 and in cvc5, without the exclusive state and with it; and that nothing
  is lost, in cvc5.
- They aren't unsat for want of states: within the invariant there is a state with a writer, one with
  two readers, and one where each row is taken, but for the rows that are never taken.
- 25 changed cells, each of which breaks the part of the invariant that is written here, in
  both solvers; and one as the tool shows it.
- The rows, run for two and three cores by what the text of the queries says alone, reach as many
  states as Rumur finds of the exported model without its blocks, and keep the invariant in each.
- What the tool prints and returns: of solvers that say unsat, unknown or sat, and without any."""
import re
import sys
import tempfile
from functools import cache
from pathlib import Path

from harness import ROOT, Skipped, each, lockup, needs, read, run, same, seconds, want, write
from harness.rumur import searched
from harness.smt_states import reached

sys.path.insert(0, str(ROOT / "tools"))
import smt

TOOL = ROOT / "tools/second-opinion"
SETTINGS = {"off": [], "on": ["--exclusive"]}
LIMIT = 120


@cache
def printed(setting: str) -> str:
    ran = lockup("export", "smt", *SETTINGS[setting])
    same("status and error of the queries", (0, ""), (ran.status, ran.err))
    return ran.out


def cells_of(table: str, setting: str) -> dict[str, str]:
    """Returns the cells of a table that is printed, by their names in the queries."""
    cells, heading = {}, []
    for line in lockup("table", table, *SETTINGS[setting]).out.splitlines():
        row = [cell.strip() for cell in line.strip("|").split("|")]
        if not line.startswith("| "):
            continue
        if row[0] in ("Cache", "Directory"):
            heading = [cell.replace(" (exclusive on)", "") for cell in row]
        elif row[0] != f"I (exclusive {'off' if setting == 'on' else 'on'})":
            state = row[0].replace(" (exclusive on)", "")
            cells.update({f"{state}, {event}": cell for event, cell in zip(heading[1:], row[1:])})
    return cells


@each(lambda: SETTINGS)
def test_the_text(setting: str) -> None:
    """It says how many answers there are, and no line is longer than 100."""
    counts = [printed(it).count("(check-sat)") for it in SETTINGS]
    said = re.findall(r"([0-9]+) answers without the state E, ([0-9]+) with it", printed(setting))
    same("answers", [tuple(map(str, counts))], said)
    same("long lines", [], [line for line in printed(setting).splitlines() if len(line) > 100])


# what isn't of the table: the access joins, stalls or is refused
BEFORE_THE_TABLE = ("joins", "stalls", "busy", "not held")


@each(lambda: SETTINGS)
def test_each_cell_of_a_cache(setting: str) -> None:
    wanted = {name: cell for name, cell in cells_of("cache", setting).items() if cell not in BEFORE_THE_TABLE}
    # what follows the cells is asked once more, in other words
    found = dict(reversed(re.findall(r"^; ([A-Z_]+, [^:\n]+): (.*)\n(?=\n|\(push)", printed(setting), re.M)))
    if setting == "off":
        # blocked where there is the exclusive state: these have a query after the others
        for name in ("IS_D, Fwd-GetS", "IS_D, Fwd-GetM"):
            same(name, "blocked", found.pop(name))
            same(f"{name} in the table", "-", wanted.pop(name))
    same("cells", wanted, {name: found.get(name) for name in wanted})


def of_directory(cell: str) -> str:
    """Returns what a cell of a directory does, up to its next state."""
    said = re.sub(r"Data\(\d\), Inv to (x|nobody)", "Data(as many as x), Inv to x", cell)
    return said if said in ("-", "blocked") else re.sub(r"(^|; )([IM]|S|S_D)(, (owner|sharers) [^;]*)?$", r"\1\2", said)


@each(lambda: SETTINGS)
def test_each_cell_of_a_directory(setting: str) -> None:
    """In S_D the table has o, the last owner, where the queries have x, another sharer."""
    wanted = {}
    for name, cell in cells_of("directory", setting).items():
        entry, event = re.match(r"(.*), ((?:GetS|GetM|PutS|PutM) of r|Data home)$", name).groups()
        seen = entry.replace("S_D, sharers o, x", "S_D, sharers x").replace("S_D, sharers o, r", "S_D, sharers r, x")
        wanted[f"{seen}; {event}"] = of_directory(cell)
    found = dict(reversed(re.findall(r"^; directory ([^;\n]+; [^:\n]+): (.*)\n(?=\n|\(push)", printed(setting), re.M)))
    same("cells", wanted, found)


def judged(text: str, *words: str) -> tuple[int, str]:
    """Returns the tool's status and what it prints of a text."""
    with tempfile.TemporaryDirectory() as room:
        ran = run([TOOL, "--jobs", "1", *words, write(Path(room, "queries.smt2"), text)])
    return ran.status, ran.out + ran.err


@seconds(300)
@each(lambda: SETTINGS)
def test_all_are_unsat(setting: str) -> None:
    needs("z3", "cvc5")
    text = printed(setting)
    count = text.count("(check-sat)")
    status, said = judged(text)
    same("status", (0, said), (status, said))
    want(f"{count} of {count} queries are unsat in z3 " in said and " and in cvc5 " in said, said[-500:])


@seconds(900)
@each(lambda: SETTINGS)
def test_nothing_is_lost(setting: str) -> None:
    needs("cvc5")
    status, said = judged(printed(setting), "--nothing-lost")
    same("status", (0, said), (status, said))


# How each solver looks for states, query by query.
FINDERS = {"z3": ["z3"], "cvc5": ["cvc5", "--incremental", "--finite-model-find"]}
WITHIN = {
    "a writer": "(exists ((c Core)) (writer before c))",
    "two readers": "(exists ((c Core) (d Core)) (and (readable before c) (readable before d) (not (= c d))))",
}
# The last queries say of these cells that their rows are never taken.
NEVER_TAKEN = {"IS_D, Data, k < n", "IS_D, Data, k > n", "directory S, sharers r; GetS of r",
               "directory S, sharers r, x; GetS of r"}


def answers(solver: str, head: str, asked: dict[str, str]) -> dict[str, str]:
    """Returns a solver's answers to these assertions, by their names."""
    text = head + "".join(f"(push 1)\n{asserts}(check-sat)\n(pop 1)\n" for asserts in asked.values())
    with tempfile.TemporaryDirectory() as room:
        ran = run([*FINDERS[solver], write(Path(room, "states.smt2"), text)])
    said = (ran.out + ran.err).splitlines()
    same(f"lines that {solver} prints", len(asked), len(said))
    return dict(zip(asked, said))


@seconds(60)
@each(lambda: SETTINGS)
def test_states_within_the_invariant(setting: str) -> None:
    needs("z3", "cvc5")
    head, _ = smt.read(printed(setting))
    asked = {name: f"(assert (invariant before))\n(assert {what})\n" for name, what in WITHIN.items()}
    for solver in FINDERS:
        same(f"answers of {solver}", {name: "sat" for name in WITHIN}, answers(solver, head, asked))


@seconds(60)
@each(lambda: SETTINGS)
def test_each_row_is_taken(setting: str) -> None:
    needs("z3", "cvc5")
    head, queries = smt.read(printed(setting))
    asked = {it.name: it.asserts.replace(smt.KEPT, "") for it in queries if "-row " in it.asserts}
    wanted = {name: "unsat" if name.split(": ")[0] in NEVER_TAKEN else "sat" for name in asked}
    same("rows that are never taken", len(NEVER_TAKEN), list(wanted.values()).count("unsat"))
    for solver in FINDERS:
        same(f"answers of {solver}", wanted, answers(solver, head, asked))


# A cell, a word of its row and what is in its place, and the part of the invariant that breaks. Each was thought
# of beforehand: why it breaks follows it.
CHANGED = [
    # an invalidated copy stays readable
    ("S, Inv", "send-Inv-Ack I", "send-Inv-Ack S", "reader-fits"),
    ("SM_AD, Inv", "send-Inv-Ack IM_AD", "send-Inv-Ack SM_AD", "reader-fits"),
    # an acknowledgement isn't sent: the writer awaits one of which nothing is under way
    ("S, Inv", "send-Inv-Ack", "nothing", "balance"),
    ("SI_A, Inv", "send-Inv-Ack", "nothing", "balance"),
    # a reader that waits is blocked at an Inv: here it acknowledges, and then reads
    ("IS_D, Inv", None, "(cache-row IS_D take-Inv send-Inv-Ack IS_D)", "reader-fits"),
    # the last owner keeps its right to write
    ("M, Fwd-GetS", "home S", "home M", "holder-fits"),
    ("M, Fwd-GetM", "send-Data I", "send-Data M", "holder-once"),
    # the block doesn't go home: nobody knows of the reader
    ("M, Fwd-GetS", "send-Data-and-home", "send-Data", "reader-fits"),
    # a writer serves before it has the block
    ("IM_AD, Fwd-GetM", None, "(cache-row IM_AD take-Fwd-GetM send-Data I)", "data-are-newest"),
    # a core writes before all have acknowledged
    ("IM_AD, Data, k < n", "nothing IM_A", "nothing M", "debt-fits"),
    ("IM_A, Inv-Ack, k + 1 < n", "nothing IM_A", "nothing M", "debt-fits"),
    # the wrong request
    ("I, load", "send-GetS", "send-GetM", "request-fits"),
    ("M, eviction", "send-PutM", "send-PutS", "request-fits"),
    # a shared copy is written at once
    ("S, write", "send-GetM SM_AD", "nothing S", "hit-may-write"),
    # a copy leaves unseen
    ("S, eviction", "send-PutS", "nothing", "put-fits"),
    # a reader writes
    ("IS_D, Data, k = n", "nothing S", "nothing M", "holder-fits"),
    # the directory forgets the owner, or keeps one
    ("directory I; GetM of r", "p-owns", "nobody-owns", "m-has-owner"),
    ("directory M, owner o; GetM of r", "p-owns", "owner-stays", "owner-fits"),
    ("directory M, owner o; GetS of r", "nobody-owns", "owner-stays", "owner-in-m"),
    # .. or who shares the line
    ("directory M, owner o; GetS of r", "p-and-q-share", "p-shares", "server-and-asker-share"),
    ("directory S_D, sharers x; Data home", "D_S ", "D_I ", "sharer-in-s"),
    ("directory S, sharers r; PutS of r", "D_I ", "D_S ", "s-has-sharer"),
    # it doesn't invalidate the others
    ("directory S, sharers x; GetM of r", "reply-Data-and-Inv", "reply-Data", "reader-fits"),
    # a late PutM is copied home, and the owner's isn't
    ("directory I; PutM of r", "false", "true", "home-copy-is-newest"),
    ("directory M, owner r; PutM of r", "true", "false", "home-copy-is-newest"),
]


def changed(cell: str, old: str | None, new: str) -> tuple[str, str]:
    """Returns what is before the queries, and the assertions of a cell whose row is changed. A cell that is blocked
    gets a row."""
    text = printed("off")
    head, queries = smt.read(text)
    if old is None:
        want(f"\n; {cell}: blocked\n" in text, f"{cell} isn't blocked")
        return head, f"(assert (invariant before))\n(assert {new})\n{smt.KEPT}\n"
    (query,) = [it for it in queries if it.name.startswith(f"{cell}: ")]
    rows = re.findall(r"^\(assert \((?:cache|directory)-row .*$", query.asserts, re.M)
    same("rows, and where the word stands", (1, 1), (len(rows), rows[0].count(old)))
    return head, query.asserts.replace(rows[0], rows[0].replace(old, new))


@seconds(5)
@each(lambda: [(f"{cell}: {old} -> {new}", cell, old, new, part) for cell, old, new, part in CHANGED])
def test_changed(_: str, cell: str, old: str | None, new: str, part: str) -> None:
    solvers = smt.present()
    if not solvers:
        raise Skipped("neither 'z3' nor 'cvc5' is on the PATH")
    head, asserts = changed(cell, old, new)
    for solver in solvers:
        same(f"what {solver} finds broken", [part], smt.broken(solver, head, asserts, [part], LIMIT))


@seconds(60)
def test_a_changed_cell_is_shown() -> None:
    """A sharer acknowledges the Inv and keeps its copy, beside a writer."""
    needs("z3")
    row = "(cache-row S take-Inv send-Inv-Ack {})"
    text = printed("off")
    same("rows", 1, text.count(row.format("I")))
    status, said = judged(text.replace(row.format("I"), row.format("S")), "--only", "S, Inv: ")
    same("status", (1, said), (status, said))
    parts = re.search(r"^    breaks (.*)$", said, re.M)
    want(parts and "reader-fits" in parts[1].split(", "), said)
    for line in (r"    before: directory M, owner \d", r"      core \d \(p\): S; an Inv of \d waits",
                 r"    after: directory M, owner \d", r"      core \d \(p\): S; its Inv-Ack waits for \d"):
        want(re.search(rf"^{line}", said, re.M), f"no line {line} in\n{said}")


def without_blocks(model: str) -> str:
    """Leaves out of Rumur's model whether a block is the newest, and that a write joins a read: the queries have the one
    as blocks of any kind, and no miss registers."""
    model = re.sub(r"if !copies\[c\]\.newest then\s*error [^;]*;\s*end;", "", model)
    model = re.sub(r"newest := [^;]*;", "newest := false;", model)
    model = model.replace("copies[c].state = C_IS_D & !copies[c].joined & open", "false")
    return re.sub(r"invariant \"[^\"]*newest[^\"]*\"\s[^;]*?(end;|;)", "", model)


@seconds(60)
@each(lambda: [(f"{cores} {setting}", cores, setting) for cores in (2, 3) for setting in SETTINGS])
def test_states(_: str, cores: int, setting: str) -> None:
    ran = lockup("export", "murphi", "--cores", str(cores), *SETTINGS[setting])
    said = searched(without_blocks(ran.out), trace=False).said
    counted = re.search(r"^[^0-9]*([0-9]+) states, ", said, re.M)
    want(counted and "No error found" in said, f"Rumur: {said[-1000:]}")
    head, queries = smt.read(printed(setting))
    states, wrong = reached(head, [it.asserts for it in queries if smt.KEPT in it.asserts and "-row " in it.asserts], cores)
    same("what is wrong", [], wrong)
    same("states", int(counted[1]), states)


# ---- the tool, with solvers that always say the same

SOLVER = """#!/bin/sh
case $1 in
--version) echo "This is {name} version 1.2.3" ;;
*) echo "{answer}" ;;
esac
"""
QUERIES = """(define-fun with-nothing-lost () Bool false)
(define-fun invariant ((t Moment)) Bool (and
  (one t) (two t)))

; the first query
(push 1)
(assert (invariant before))
(check-sat)
(pop 1)

; the second
(push 1)
(assert (not kept))
(check-sat)
(pop 1)
"""


def told(solvers: dict[str, str], *words: str, text: str = QUERIES) -> tuple[int, str, str]:
    """Returns what the tool comes to where these solvers are there, each with its answer."""
    with tempfile.TemporaryDirectory() as room:
        for name, answer in solvers.items():
            write(Path(room, name), SOLVER.format(name=name, answer=answer)).chmod(0o755)
        file = write(Path(room, "queries.smt2"), text)
        ran = run([sys.executable, TOOL, "--jobs", "1", *words, file], env={"PATH": f"{room}"})
        said = re.sub(r"after \d+ seconds", "after N seconds", re.sub(r" +\d+\.\d\d  ", " T  ", ran.out))
        return ran.status, said.replace(str(file), "FILE"), ran.err


def test_answers_that_are_all_unsat() -> None:
    status, out, err = told({"z3": "unsat", "cvc5": "unsat"})
    same("status and error", (0, ""), (status, err))
    same("output", "FILE\nz3      cvc5    seconds  query\nunsat   unsat T  the first query\nunsat   unsat T  the second\n"
         "2 of 2 queries are unsat in z3 1.2.3 and in cvc5 1.2.3, after N seconds\n\n", out)


def test_answers_that_are_unknown() -> None:
    status, out, _ = told({"z3": "unsat", "cvc5": "unknown"})
    same("status", 1, status)
    want("\nunsat   unknown T  the second\n0 of 2 queries are unsat in z3 1.2.3 and in cvc5 1.2.3" in out, out)


def test_an_error_of_a_solver_is_no_answer() -> None:
    same("status", 1, told({"z3": "(error line 1)"})[0])


def test_answers_that_are_sat() -> None:
    status, out, _ = told({"z3": "sat"}, "--only", "second")
    same("status", 1, status)
    want("\nsat T  the second\n    breaks one, two, room, counted-once, hit-is-newest, hit-may-write\n" in out, out)
    want("first" not in out, out)


def test_no_solver() -> None:
    same("neither", (2, "", "second-opinion: z3 or cvc5 is missing (apt install z3 cvc5)\n"), told({}))
    same("of nothing lost", (2, "", "second-opinion: cvc5 is missing (apt install z3 cvc5)\n"),
         told({"z3": "unsat"}, "--nothing-lost"))


def test_no_query() -> None:
    same("status", 1, told({"z3": "unsat"}, "--only", "nothing of this name")[0])


def test_nothing_lost_is_asked_of_cvc5_alone() -> None:
    status, out, _ = told({"z3": "sat", "cvc5": "unsat"}, "--nothing-lost")
    same("status", 0, status)
    want("z3" not in out, out)


def test_the_tool_says_what_it_does() -> None:
    ran = run([TOOL, "--help"])
    same("status and error", (0, ""), (ran.status, ran.err))
    for option in re.findall(r'add_argument\("(--[a-z-]+)"', read(TOOL)):
        want(f"  {option} " in ran.out, f"--help doesn't name {option}")


def test_what_export_refuses() -> None:
    wanted = "error: export murphi needs --cores <N>, and export smt takes --exclusive alone\n"
    for words in (["murphi"], ["murphi", "--closed"], ["smt", "--cores", "2"], ["smt", "--closed"],
                  ["smt", "--exclusive", "--closed"], ["smt", "--cache", "-"], ["smt", "--directory", "-"]):
        ran = lockup("export", *words)
        same(" ".join(words), (2, "", wanted), (ran.status, ran.out, ran.err.splitlines(keepends=True)[0]))
