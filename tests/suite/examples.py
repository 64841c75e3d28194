"""Runs each example whose answers are beside it: examples/NAME.txt prints examples/NAME.out, byte
for byte, and no error. With --echo it prints the same, and each command before its answer; with
--beside the rows of examples/beside, which shows all its answers. An example without answers is
named by a case of tests/cases, which says what is wanted. Each stands in docs/EXAMPLES.md. Together they meet each cell of
both tables that can be met."""
import json
import re

from harness import ROOT, each, lockup, read, run, same, want
from harness.cases import all_cases
from harness.scripts import COMMANDS, FIELDS, is_trace

FOLDER = ROOT / "examples"
COMMAND = re.compile(rf"[ \t]*({'|'.join(COMMANDS)})([ \t]|$)")
# a row of a line that configures the machine, or has no words; further lines of an answer have more
# blanks in front
QUIET = re.compile(rf"[ \t]{{0,39}}({'|'.join(FIELDS)})([ \t]|$)|#|[ \t]*$")


def names() -> list[str]:
    return sorted({path.stem for path in FOLDER.iterdir() if path.suffix in (".txt", ".out")})


def with_answers() -> list[str]:
    return [path.stem for path in sorted(FOLDER.glob("*.out"))]


def lines_of(text: str) -> list[str]:
    return text.splitlines(keepends=True)


@each(names)
def test_is_known(name: str) -> None:
    want((FOLDER / f"{name}.txt").exists(), "there are answers to no script")
    want(f"(../examples/{name}.txt)" in read(ROOT / "docs/EXAMPLES.md"), "docs/EXAMPLES.md doesn't name it")
    named = any(f"examples/{name}.txt" in case.words for case in all_cases().values())
    want((FOLDER / f"{name}.out").exists() or named, "nothing says what it has to print")


@each(with_answers)
def test_answers(name: str) -> None:
    same("answers", (0, read(FOLDER / f"{name}.out"), ""), lockup("script", FOLDER / f"{name}.txt"))


@each(with_answers)
def test_echo(name: str) -> None:
    """The commands come in their order, and all else as without them."""
    commands = [line for line in read(FOLDER / f"{name}.txt").splitlines() if COMMAND.match(line)]
    ran = lockup("script", "--echo", FOLDER / f"{name}.txt")
    answers = []
    for line in lines_of(ran.out):
        if commands and line.rstrip("\n") == commands[0]:
            commands.pop(0)
        else:
            answers.append(line)
    same("commands that aren't echoed", [], commands)
    same("answers", read(FOLDER / f"{name}.out"), "".join(answers) + ran.err)


@each(with_answers)
def test_beside(name: str) -> None:
    script, wanted = FOLDER / f"{name}.txt", read(FOLDER / f"{name}.out")
    rows = lines_of(run([FOLDER / "beside", script], wanted).out)
    shown = [row[40:] for row in rows if not row.startswith("#")]
    same("the answers of examples/beside", wanted, "".join(row for row in shown if row.strip("\n")))
    ran = lockup("script", "--beside", script)
    same("script --beside", "".join(row for row in rows if not QUIET.match(row.rstrip("\n"))), ran.out + ran.err)


# what a step meets, in its explained answer, and the words there for what the tables have in one
CASE = re.compile(r"   (core|dir) \d+ \((\w+), ([\w-]+(?: home)?)[^:]*\): (?:(?:hit; |primary miss; )?to (\w+)|(.*))")
SAID = {"secondary miss; joins": "joins", "no copy": "not held"}


def met_by(script: str) -> set[tuple[str, str, str, str]]:
    """The cells that a script's steps meet: a table, a state, what comes to it, and the next state or what is done."""
    found = set()
    for case in CASE.finditer(lockup("script", "--explain", "-", text=script).out):
        table, state, event, to, words = case.groups()
        waits = {"eviction": "busy", "load": "stalls", "write": "stalls"}.get(event, "blocked")
        found.add(({"core": "cache", "dir": "directory"}[table], state, event, to or SAID.get(words, waits)))
    return found


def cells() -> set[tuple[str, str, str, str]]:
    """The cells of both tables, with the exclusive state and without, as far as the next state tells them apart."""
    values = [json.loads(line) for table in ("cache", "directory") for option in ([], ["--exclusive"])
              for line in lockup("table", table, "--json", *option).out.splitlines()]
    return {(it["table"], it["state"], it["event"], it["next"]["state"] if it["row"] == "go" else it["row"])
            for it in values if it["row"] != "never"}


def test_each_cell_is_met() -> None:
    scripts = [read(FOLDER / f"{name}.txt") for name in with_answers()]
    met = set().union(*(met_by(script) for script in scripts if not is_trace(script)))
    same("cells that no example meets", [], sorted(cells() - met))
