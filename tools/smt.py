"""The queries that `lockup export smt` prints: asking SMT solvers for their answers, and showing a state that one finds."""
import re
import shutil
import subprocess
import tempfile
import time
from typing import Iterator, NamedTuple

# How each solver is called, with a limit in seconds for one answer: the first way proves, and where it comes to no
# answer the next looks for a state.
SOLVERS = {
    "z3": lambda limit: [["z3", f"-T:{limit}"]],
    "cvc5": lambda limit: [["cvc5", f"--tlimit={limit * 1000}", it] for it in ("--full-saturate-quant",
                                                                              "--finite-model-find")],
}
NOTHING_LOST = "(define-fun with-nothing-lost () Bool {})"
KEPT = "(assert (not kept))"
# What a row has to keep besides the invariant.
OWED = ["room", "counted-once", "hit-is-newest", "hit-may-write"]
# A counterexample is shown for as few cores as it takes, up to so many.
MOST_CORES = 4


class Query(NamedTuple):
    """A query: its row and what the row does, as the comment before it says, and its assertions."""

    name: str
    asserts: str


class Answer(NamedTuple):
    said: str
    seconds: float


def read(text: str) -> tuple[str, list[Query]]:
    """Returns what is before the queries, and the queries."""
    head, *rest = text.split("(push 1)\n")
    queries, before = [], head
    for part in rest:
        asserts, before_next = part.split("(check-sat)\n(pop 1)\n")
        queries.append(Query(before.rstrip().splitlines()[-1].removeprefix("; "), asserts))
        before = before_next
    return head, queries


def with_nothing_lost(head: str) -> str:
    """Has the invariant say that nothing is lost, too."""
    off, on = NOTHING_LOST.format("false"), NOTHING_LOST.format("true")
    if head.count(off) != 1:
        raise ValueError(f"the queries have no line {off}")
    return head.replace(off, on)


def present() -> dict[str, str]:
    """Returns the solvers that are there, with their versions."""
    found = {}
    for name in filter(shutil.which, SOLVERS):
        said = subprocess.run([name, "--version"], capture_output=True, text=True, check=False).stdout
        version = re.search(r"version ([0-9.]+)", said)
        found[name] = version[1] if version else "of an unknown version"
    return found


def run(solver: str, text: str, limit: int) -> Iterator[str]:
    """Returns the lines that a solver prints."""
    lines: list[str] = []
    with tempfile.NamedTemporaryFile("w", suffix=".smt2") as file:
        file.write(text)
        file.flush()
        for words in SOLVERS[solver](limit):
            ran = subprocess.run([*words, file.name], capture_output=True, text=True, check=False)
            lines = (ran.stdout + ran.stderr).splitlines()
            if lines and lines[0].strip() in ("sat", "unsat"):
                break
    return iter(lines)


def ask(solver: str, head: str, asserts: str, limit: int) -> Answer:
    """Returns a solver's answer: sat, unsat, unknown (also where the time is up), or what it says is wrong."""
    began = time.monotonic()
    said = next(run(solver, f"{head}{asserts}(check-sat)\n", limit), "").strip()
    if said == "timeout" or "interrupted by timeout" in said or not said:
        said = "unknown"
    return Answer(said, time.monotonic() - began)


def goals_of(head: str) -> dict[str, str]:
    """Returns the parts of what a row has to keep: for each name how it is written after the row."""
    invariant = re.search(r"^\(define-fun invariant .*?\)\)\)$", head, re.M | re.S)
    parts = re.findall(r"\(([a-z0-9-]+) t\)", invariant[0])
    return {**{name: f"({name} after)" for name in parts}, **{name: name for name in OWED}}


def broken(solver: str, head: str, asserts: str, names: list[str], limit: int) -> list[str]:
    """Returns which of these parts a row breaks."""
    goals = goals_of(head)
    return [name for name in names
            if ask(solver, head, asserts.replace(KEPT, f"(assert (not {goals[name]}))"), limit).said == "sat"]


# ---- a state in our words

OF_CORE = ["state", "request", "data", "inv", "forward", "put-ack"]
OF_PAIR = ["inv-names", "forward-names", "ack", "need", "got"]
OF_DIRECTORY = ["directory", "home"]


def few_cores(count: int) -> str:
    """Says that there are so many cores."""
    names = [f"core{number}" for number in range(count)]
    same = " ".join(f"(= c {name})" for name in names)
    return ("".join(f"(declare-const {name} Core)\n" for name in names)
            + f"(assert (distinct {' '.join(names)}))\n(assert (forall ((c Core)) (or {same})))\n")


def terms_of(count: int, moment: str) -> list[str]:
    """Returns what is asked of the state of so many cores."""
    cores = [f"core{number}" for number in range(count)]
    terms = [f"({name} {moment})" for name in OF_DIRECTORY]
    terms += [f"(= (home-copy {moment}) (newest {moment}))"]
    for one in cores:
        terms += [f"({name} {moment} {one})" for name in [*OF_CORE, "owner", "sharer"]]
        terms += [f"(= ({name} {moment} {one}) (newest {moment}))" for name in ("block", "data-block")]
        terms += [f"({name} {moment} {one} {other})" for name in OF_PAIR for other in cores]
        terms += [f"(= p {one})", f"(= q {one})"]
    return terms


def values_of(lines: Iterator[str], terms: list[str]) -> dict[str, str]:
    """Reads what a solver says of terms: ((TERM VALUE) ..), in the order in which it was asked."""
    said = " ".join(" ".join(lines).split())
    found = {}
    for term in terms:
        value = re.search(rf"\({re.escape(term)} ([^() ]+)\)", said)
        found[term] = value[1] if value else "?"
    return found


def counterexample(solver: str, head: str, asserts: str, limit: int) -> list[str]:
    """Returns a state that makes the assertions true, and the one after the row, for as few cores as it takes."""
    moments = ("before", "after") if "-row " in asserts else ("before",)
    for count in range(2, MOST_CORES + 1):
        terms = [term for moment in moments for term in terms_of(count, moment)]
        text = (f"(set-option :produce-models true)\n{head}{asserts}{few_cores(count)}(check-sat)\n"
                f"(get-value ({' '.join(terms)}))\n")
        lines = run(solver, text, limit)
        if next(lines, "") == "sat":
            values = values_of(lines, terms)
            return [line for moment in moments for line in shown(values, count, moment)]
    return [f"no state of up to {MOST_CORES} cores"]


def shown(values: dict[str, str], count: int, moment: str) -> list[str]:
    """Returns a state in the words of docs/PROTOCOL.md, a line for the directory and one for each core."""
    cores = [f"core{number}" for number in range(count)]

    def holds(term: str) -> bool:
        return values[term] == "true"

    def named(name: str, one: str) -> str:
        numbers = [other.removeprefix("core") for other in cores if holds(f"({name} {moment} {one} {other})")]
        return ", ".join(numbers) or "nobody"

    entry = values[f"(directory {moment})"].removeprefix("D_")
    for name in ("owner", "sharer"):
        which = [one.removeprefix("core") for one in cores if holds(f"({name} {moment} {one})")]
        entry += f", {name}{'s' if name == 'sharer' else ''} {', '.join(which)}" if which else ""
    entry += "; a block is on its way home" if holds(f"(home {moment})") else ""
    entry += "" if holds(f"(= (home-copy {moment}) (newest {moment}))") else "; the home copy is old"
    lines = [f"{moment}: directory {entry}"]
    for one in cores:
        roles = [role for role in "pq" if holds(f"(= {role} {one})")]
        said = values[f"(state {moment} {one})"]
        said += "" if holds(f"(= (block {moment} {one}) (newest {moment}))") else " (an old block)"
        request, data, forward = (values[f"({name} {moment} {one})"] for name in ("request", "data", "forward"))
        said += f"; its {request} waits" if request != "no-request" else ""
        if data != "no-data":
            said += f"; {data} wait, naming {named('need', one)}" if data == "Data" else f"; {data} waits"
            said += "" if holds(f"(= (data-block {moment} {one}) (newest {moment}))") else " (an old block)"
        said += f"; an Inv of {named('inv-names', one)} waits" if holds(f"(inv {moment} {one})") else ""
        said += f"; a {forward} of {named('forward-names', one)} waits" if forward != "no-forward" else ""
        said += "; a Put-Ack waits" if holds(f"(put-ack {moment} {one})") else ""
        said += f"; has counted {named('got', one)}" if named("got", one) != "nobody" else ""
        said += f"; its Inv-Ack waits for {named('ack', one)}" if named("ack", one) != "nobody" else ""
        lines.append(f"  core {one.removeprefix('core')}{' (' + ', '.join(roles) + ')' if roles else ''}: {said}")
    return lines
