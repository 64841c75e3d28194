"""Draws each script of examples/ and tests/cases, and checks the chart against what the script
answers:

- each line is one of the few forms below, which Mermaid's grammar of sequence diagrams has, and all
  who take part are declared before anything else;
- an error is the script's;
- there is an arrow for each message that the script's machine counts, and a cross for each that is
  blocked;
- all other answers are in notes and crosses, word for word, in order, beside the core that they
  are for;
- data come from the core that was asked for them, or else from the directory;
- the notes of changes lead from state to state, and to what `state` shows.

Where a text in Mermaid has a `;`, a `#` or a line's end, it ends there: the forms have none.
"""
import re
import tempfile
from functools import cache
from itertools import zip_longest
from typing import Iterator

from harness import ROOT, each, lockup, read, same, want, write
from harness.scripts import ANSWERED, LONG_ANSWERS, example, examples, files_of_cases, first_word, is_trace

WHO = "(?:dir[0-3]|core[0-9]+)"
MESSAGE = (r"(?:GetS|GetM|PutS|PutM|Put-Ack|(?:Fwd-GetS|Fwd-GetM|Inv) for core [0-9]+|Data\([0-9]+\)|Data-E|Data home"
           "|Inv-Ack)")
COPY = "(?:I|IS_D|IM_AD|IM_A|S|SM_AD|SM_A|M|E|MI_A|SI_A|II_A)"
ENTRY = "(?:I|S|M|S_D)"
CORES = "[0-9]+(?:,[0-9]+)*"
FORMS = [re.compile(form) for form in (
    "    participant dir[0-3] as (?:slice [0-3] )?directory",
    "    participant core[0-9]+ as core [0-9]+",
    f"    {WHO}->>{WHO}: {MESSAGE}, line [0-9]+",
    rf"    {WHO}-x{WHO}: {MESSAGE}, line [0-9]+ \((?:blocked|broken (?:entry|full|early))\)",
    r"    (core[0-9]+)-x\1: issue [0-9a-z ]+: (?:stall|refused) [0-9]+ [A-Za-z]+",
    f"    Note over core[0-9]+: line [0-9]+: {COPY} to {COPY}",
    f"    Note over dir[0-3]: line [0-9]+: {ENTRY} to {ENTRY}(?:, owner [0-9]+)?(?:, sharers {CORES})?",
    "    Note over core[0-9]+: (?:issue|evict|hand) [0-9a-z ]+: [0-9a-z ]+",
    f"    Note over {WHO}: deliver [0-9a-z ]+: nothing",
    "    Note over dir0,core[0-9]+: pump [0-9]+: (?:empty|left)",
    "    Note over dir[0-3]: word [0-9]+: (?:[0-9]+|not quiet)",
    "    Note over dir[0-3]: state [0-9]+: line [-0-9A-Za-z_, ]+",
)]


def check_forms(chart: list[str]) -> None:
    """Each line has a form, and names nobody who isn't declared by then."""
    same("first line", "sequenceDiagram", chart[0])
    declared, begun = set(), False
    for line in chart[1:]:
        want(any(form.fullmatch(line) for form in FORMS), f"a line of no form: {line}")
        if first_word(line) == "participant":
            want(not begun, f"declared late: {line}")
            declared.add(line.split()[1])
        else:
            begun = True
            names = re.sub(":.*", "", re.sub("^ *(Note over )?", "", line))
            unknown = set(re.split("->>|-x|,", names)) - declared
            want(not unknown, f"{unknown} isn't declared: {line}")


def told_in(chart: list[str]) -> Iterator[str]:
    """Returns the answers that a chart has as they are, with the words of their commands."""
    for line in chart:
        for_core = re.fullmatch(
            r"    (?:Note over core|core[0-9]+-xcore)([0-9]+): ((?:issue|evict|hand) 0*\1 .*)", line)
        other = re.fullmatch(r"    Note over [^:]*: ((?:deliver|pump|word|state) .*)", line)
        if for_core or other:
            yield for_core[2] if for_core else other[1]


def told_by(script: str, answers: list[str]) -> Iterator[str]:
    """Returns the same of a script whose commands have one line of answer each."""
    commands = [line.split() for line in script.replace("\r", "").split("\n") if first_word(line) in ANSWERED]
    for words, answer in zip_longest(commands, answers, fillvalue=""):
        is_message = answer in ("moved", "blocked") or answer.startswith("broken ")
        if not (words and words[0] == "deliver" and is_message):
            yield f"{' '.join(words)}: {answer}"


def check_changes(chart: list[str]) -> None:
    """The notes of changes lead from one state to the next, and a line is shown as they leave it."""
    states, owners, sharers = {}, {}, {}
    for number, line in enumerate(chart, 1):
        # as in awk, fields count from 1
        it = ["", *line.split()]
        if it[1:2] != ["Note"]:
            continue
        who, seen = it[3].removesuffix(":"), []
        if it[4] == "line":
            at = it[5].rstrip(":")
            seen = [(states.get((who, at), "I"), it[6])]
            states[who, at] = it[8].rstrip(",")
            if who.startswith("dir"):
                rest = [*it[9:11], "", ""]
                owners[at] = rest[1].rstrip(",") if rest[0] == "owner" else "-"
                sharers[at] = rest[1] if rest[0] == "sharers" else "-"
        elif it[4] == "state":
            at = it[7]
            seen = [(states.get((who, at), "I"), it[9])]
            seen += [(owners.get(at, "-"), it[11]), (sharers.get(at, "-"), it[13])]
            seen += [(states.get((f"core{core}", at), "I"), copy) for core, copy in enumerate(it[24:])]
        for wanted, got in seen:
            want(got == wanted, f"line {number}: {got} for {wanted}: {line}")


def check_senders(chart: list[str]) -> None:
    """Data come from the core that was forwarded the request, or else from the directory."""
    asked = {}
    for line in chart:
        arrow = re.fullmatch(f"    ({WHO})->>({WHO}): (.*), line ([0-9]+)", line)
        if not arrow:
            continue
        sender, receiver, message, at = arrow.groups()
        if message.startswith("Fwd-"):
            asked[f"core{message.split()[-1]}", at] = receiver
            if message.startswith("Fwd-GetS"):
                asked["home", at] = receiver
        elif message.startswith("Data"):
            wanted = asked.pop(("home" if message == "Data home" else receiver, at), "dir")
            want(sender == wanted or wanted == "dir" and sender.startswith("dir"), f"not from {wanted}: {line}")


def check_counts(script: str, answers: list[str], chart: list[str]) -> None:
    """There is an arrow for each message that is counted, and a cross for each that is blocked."""
    stats = [line.split() for line in lockup("script", "-", text=f"{script}stats\n").out.splitlines()]
    counted = sum(int(row[at]) for row in stats if row[0] == "messages" for at in (2, 4, 6, 8, 10))
    same("arrows", counted, sum("->>" in line for line in chart))
    same("crosses of blocked messages", answers.count("blocked"), sum(line.endswith("(blocked)") for line in chart))


@cache
def scripts() -> dict[str, str]:
    """Returns the scripts that are drawn. A trace is no script."""
    found = {f"examples/{name}.txt": example(name) for name in examples()}
    found.update(files_of_cases("script"))
    found.update({name: text for name, text in files_of_cases("text").items() if name.startswith("chart_")})
    return {name: script for name, script in found.items() if not is_trace(script)}


@each(scripts)
def test_chart(name: str) -> None:
    script = scripts()[name]
    with tempfile.TemporaryDirectory() as room:
        file = write(f"{room}/script", script)
        answered, drawn = lockup("script", "--explain", file), lockup("chart", file)
    same("status and error", (answered.status, answered.err), (drawn.status, drawn.err))
    # nothing is drawn of a configuration at fault
    want(drawn.out or drawn.status, "there is no chart")
    chart = drawn.out.removesuffix("\n").split("\n")
    if drawn.out:
        check_forms(chart)
    check_changes(chart)
    check_senders(chart)
    if answered.status == 0:
        lines = script.replace("\r", " ").removesuffix("\n").split("\n")
        asking = "".join(f"{line}\n" for line in lines if first_word(line) not in LONG_ANSWERS)
        answers = lockup("script", "-", text=asking).out.splitlines()
        same("answers", "\n".join(told_by(asking, answers)), "\n".join(told_in(chart)))
        check_counts(asking, answers, chart)


def test_the_chart_of_the_tutorial() -> None:
    shown = re.findall(r"^```mermaid\n(.*?)^```$", read(ROOT / "docs/TUTORIAL.md"), re.M | re.S)
    script = files_of_cases("text")["chart_of_a_write_miss"]
    same("docs/TUTORIAL.md", lockup("chart", "-", text=script).out, "".join(shown))


def test_the_style_of_a_picture() -> None:
    """What is in flight is dashed; a reader's dark system gets a dark ground, and print black arrows."""
    picture = lockup("chart", "--svg", "-", text="issue 0 0 load 0\n").out
    style = re.search(r"<style>\n(.*?)</style>", picture, re.S)[1]
    blocks = dict(re.findall(r"^@media (.+?)\{\n(.*?)^\}$", style, re.M | re.S))
    want(re.search(r"^\.flight\{stroke-dasharray:\d+ \d+\}$", style, re.M), "what is in flight isn't dashed")
    ground = re.search(r"^svg\{background:#(..)(..)(..);", blocks["(prefers-color-scheme:dark)"])
    want(sum(int(part, 16) for part in ground.groups()) < 3 * 64, "the ground isn't dark")
    want(".req,.fwd,.data,.ack,.home{stroke:#000}" in blocks["print"], "arrows aren't black in print")
