"""Reads every word of a page's drawing and of what is beside it in a real browser, and compares it with the
explained answers of the script (`lockup script --explain`):

- the letters of each bar are its state, and stand beside it; the label of each arrow is its message, with the words that
  the run names where there is room, and stands at it;
- at a ring is what the message waits for, at a cross the answer, and at what was performed its number in the log, the
  access, and what it read or what its word was and is, each at the row of its step and the lifeline of who did it, and
  in less where there is less room;
- at the left edge stand the commands, numbered, each with its answer, and those of other lines are dim;
- beside each step stand the comments before it, its command and answer, who met which case in which state, and what was
  done, in words; the same is said to those who listen; and what a pump would deliver next;
- the list of all lines has of each line named so far what `state` prints.

The scripts are chosen so that each kind of row, mark and word occurs, which a test of its own asks for.
"""
import json
import re
from functools import cache
from typing import Any, Iterator, NamedTuple

from harness import each, lockup, same, seconds, want
from harness.scripts import is_command, split
from harness.states import named_by, shown_scripts, states_of
from suite.page import READERS, read_in_a_browser, step_by_step, steps_of, value_of

NAMES = ("two_upgrades_at_once", "late_put_behind_a_reader", "no_room_for_write_backs", "messages_in_flight",
         "silent_write", "write_behind_loads", "victim_under_lru", "compare_exchange", "first_add")
WORDS = {"k + 1": "counts an acknowledgement", "joins": "joins the accesses in its miss register",
         "block home": "the block is the home copy now"}
MOST = 24

READ = READERS + """
<script>
const near = it => [it.getAttribute('data-who'), it.textContent, number(it, 'x'), number(it, 'y')];
const bar = it => ({ who: it.dataset.who, state: it.dataset.state, x: number(it, 'x'), width: number(it, 'width'),
    y: number(it, 'y'), height: number(it, 'height') });
const letters = it => ({ who: it.dataset.who, state: it.dataset.state, text: it.textContent, box: it.getBBox() });
const boxed = ({ box, ...it }) => ({ ...it, x: box.x, width: box.width, y: box.y, height: box.height });
const labelOf = it => document.querySelector(`.label[data-of="${it.dataset.of}"]`);
const names = ascending.map(String);
const read = { steps: [], lines: [] };
for (let step = 0; step <= steps.length; step++) {
    show(step);
    read.steps.push({ caption: at('caption').textContent, command: texts('#now .command')[0],
        answer: texts('pre.answer')[0] || '', words: all('#now .words').map(it => it.firstChild.textContent)[0] || '',
        done: texts('#now .words li'),
        said: at('said').textContent, rest: texts('#cores .rest'), hidden: at('many').hidden,
        many: all('#lines tr').map(it => [...it.children].map(cell => [cell.textContent, cell.className])) });
}
document.body.style.height = '12000px';
for (const line of names) {
    follow(line);
    show(steps.length);
    const heights = Object.fromEntries(all('.row').map(it => [it.dataset.step, number(it.querySelector('line'), 'y1')]));
    read.lines.push({ line, heights, bars: all('.bar').map(bar),
        letters: all('.letters:not([data-chip])').map(it => boxed(letters(it))),
        heads: Object.fromEntries(all('[data-chip]').map(it => [it.dataset.chip, number(it, 'x')])),
        labels: all('[data-channel]').map(it => [it.dataset.name, labelOf(it) ? near(labelOf(it)).slice(1) : null,
            ['x1', 'y1', 'x2', 'y2'].map(name => number(it.querySelector('line'), name))]),
        marks: all('.mark').map(it => [it.dataset.step, ...near(it)]),
        performed: all('.performed').map(it => [it.dataset.step, ...near(it)]),
        rows: all('.row').map(it => [it.dataset.step, it.getAttribute('class').split(' ').includes('other'),
            it.querySelector('title').textContent, texts('.text', it)[0], texts('.reply', it)[0],
            number(it.querySelector('.text'), 'x')]) });
}
tell(read);
</script>
"""


# ---- what is expected


class Case(NamedTuple):
    """Who met which event in which state, and what was done."""

    who: str
    state: str
    event: str
    done: list[str]


class Step(NamedTuple):
    """A command, or a delivery of a pump: its line of the script, its answer, and the case that was met, if one was."""

    command: str
    at: int
    is_in_pump: bool
    answer: str
    case: Case | None

    @property
    def said(self) -> str:
        return "moved" if self.is_in_pump else self.answer.split("   ")[0]

    @property
    def line(self) -> int | None:
        return named_by(self.command)


def case_of(command: str, answer: str) -> Case | None:
    found = re.search(r"   (core|dir) (\d+) \((\S+), (.*?)\): (.*)", answer.split("\n")[0])
    if not found or command.split()[0] not in ("issue", "evict", "deliver"):
        return None
    who = "directory" if found[1] == "dir" else f"core {found[2]}"
    return Case(who, found[3], found[4], found[5].split("; "))


def answers_of(script: str) -> Iterator[tuple[int, str, list[str]]]:
    """Returns each command, with the number of its line and the lines of its explained answer."""
    numbered = [(number, line.rstrip("\r")) for number, line in enumerate(script.split("\n"), 1) if is_command(line)]
    rest = lockup("script", "--echo", "--explain", "-", text=script).out.split("\n")[:-1]
    for place, (number, command) in enumerate(numbered):
        same("an echoed command", command, rest[0])
        following = numbered[place + 1][1] if place + 1 < len(numbered) else None
        end = rest.index(following, 1) if following is not None else len(rest)
        yield number, command.strip(), rest[1:end]
        rest = rest[end:]


@cache
def expected(script: str) -> list[Step]:
    steps = []
    for number, command, lines in answers_of(script):
        if command.startswith("pump"):
            for line in lines[:-1]:
                delivery = line.split("   ")[0]
                steps.append(Step(delivery, number, True, line, case_of(delivery, line)))
            lines = lines[-1:]
        answer = "\n".join(lines)
        steps.append(Step(command, number, False, answer, case_of(command, answer)))
    return steps


def captions_of(script: str) -> dict[int, str]:
    """Returns the comments before each command, by its line."""
    found, said = {}, []
    for number, line in enumerate(script.split("\n"), 1):
        if line.startswith("#"):
            said.append(line[1:].strip())
        elif is_command(line):
            found[number], said = " ".join(said), []
    return found


def logs_of(script: str) -> list[list[str]]:
    """Returns what each slice performed: the access, and what it read, or what its word was and is."""
    slices = next((int(it.split()[1]) for it in split(script)[0] if it.split()[0] == "slices"), 1)
    looks = "".join(f"log {number}\n" for number in range(slices))
    out = lockup("script", "-", "--echo", text=f"{script.rstrip()}\n{looks}").out.splitlines()
    logs: list[list[str]] = [[] for _ in range(slices)]
    for number in range(slices):
        for line in out[len(out) - out[::-1].index(f"log {number}"):]:
            words = line.split()
            if words[0] == "log":
                break
            if words[0] == "entry":
                logs[number].append(performed_as(words[4:-2], words[-2]))
    return logs


def performed_as(access: list[str], reply: str) -> str:
    operands = list(map(int, access[2:]))
    effect = {"load": reply, "store": "", "add": f"{reply} to {sum(operands, int(reply)) % 2**64}"}
    if access[0] == "cas":
        effect["cas"] = f"{reply} to {operands[1]}" if int(reply) == operands[0] else f"{reply} stays"
    return ": ".join(filter(None, (" ".join(access), effect[access[0]])))


def performed_by(step: Step, logs: list[list[str]]) -> list[tuple[int, str]]:
    """Returns the numbers that a step performs, each with its access."""
    found = re.search(r"performs numbers? (\d+)(?: to (\d+))?|^done (\d+)", step.answer)
    if not found or step.line is None:
        return []
    first, last = int(found[1] or found[3]), int(found[2] or found[1] or found[3])
    return [(number, logs[step.line % len(logs)][number]) for number in range(first, last + 1)]


def in_words(part: str, done: list[tuple[int, str]]) -> str:
    if part.startswith("performs"):
        return "performs " + ", ".join(f"{access} (number {number})" for number, access in done)
    return "becomes " + part.removeprefix("to ") if part.startswith("to ") else WORDS.get(part, part)


# ---- beside the steps


def check_step(number: int, count: int, step: Step, done: list[tuple[int, str]], got: dict[str, Any]) -> None:
    at = f"step {number}"
    words = [in_words(part, done) for part in step.case.done] if step.case else []
    head = f"{step.case.who} in {step.case.state}, {step.case.event}" if step.case else ""
    same(f"words at {at}", (head + ":" if head else "", words), (got["words"], got["done"]))
    same(f"command and answer at {at}", (step.command, step.said if step.case else step.answer),
         (got["command"].strip(), got["answer"] if step.command != "stats" else step.answer))
    said = "; ".join([f"step {number} of {count}: {step.command}: {step.said}", *([head] if head else []), *words])
    # of an answer of several lines only the first counts here
    same(f"what is said at {at}", said.split("\n")[0], got["said"].split("\n")[0])


def check_lines(number: int, states: list[str], got: dict[str, Any]) -> None:
    """Compares the list of lines with what `state` prints of those named so far."""
    shown = [[cell[0] for cell in row] for row in got["many"]]
    for line in states:
        name, entry, cores = re.fullmatch(r"(line \d+) dir (\S+) .* cores (.*)", line).groups()
        want([name, entry, *cores.split()] in shown or got["hidden"], f"step {number}: no {line} among {shown}")
    want(not got["hidden"] or len(states) < 2, f"step {number}: the list of lines isn't shown")
    lines = [int(row[0].split()[1]) for row in shown]
    same(f"the order of lines at step {number}", sorted(set(lines)), lines)
    for row in got["many"]:
        same(f"colours of {row[0][0]} at step {number}", [f"cell state-{text}" for text, _ in row[1:]],
             [kind for _, kind in row[1:]])


# ---- the drawing


def check_bars(got: dict[str, Any]) -> None:
    for it in got["letters"]:
        same(f"letters of {it['who']}", it["state"], it["text"])
    for bar in got["bars"]:
        def is_beside(it: dict[str, Any]) -> bool:
            away = max(bar["x"] - it["x"] - it["width"], it["x"] - bar["x"] - bar["width"])
            return 0 < away < 10 and -1 < it["y"] - bar["y"] < 10
        own = [it["text"] for it in got["letters"] if it["who"] == bar["who"] and is_beside(it)]
        same(f"letters of {bar['who']} at {bar['y']}", [bar["state"]], own)


def check_labels(got: dict[str, Any]) -> None:
    for name, label, (x1, y1, x2, y2) in got["labels"]:
        want(label, f"'{name}' stands nowhere")
        text, x, y = label
        same("the label of an arrow", name if ":" in text or text == name else name.split()[0], text.split(":")[0])
        way = y1 + (y2 - y1) * (x - x1) / (x2 - x1)
        want(min(x1, x2) <= x <= max(x1, x2) and -20 < y - way < 30, f"'{text}' stands at {x}, {y}, its arrow at {way}")


def check_marks(steps: list[Step], logs: list[list[str]], got: dict[str, Any]) -> None:
    own = [(number, step) for number, step in enumerate(steps, 1) if str(step.line) == got["line"]]
    about = {str(number) for number, _ in own}
    marks, performed = [], []
    for number, step in own:
        if step.case and step.answer.startswith("blocked"):
            marks.append((str(number), step.case.who, [f"blocked: {step.case.done[0]}", "blocked"]))
        elif step.case and re.match("stall|busy|buffer full", step.answer):
            marks.append((str(number), step.case.who, [step.said, step.said.split()[0]]))
        for entry, access in performed_by(step, logs):
            value = access.split(": ")[-1].split()[-1] if access.startswith("store") else access.split(": ")[-1]
            texts = [f"#{entry} {access}", access, f"#{entry}: {value}", value, f"#{entry}"]
            performed.append((str(number), step.case.who, texts))
    for what, wanted in (("marks", marks), ("performed", performed)):
        found = sorted(((it[0], it[1], it[2]) for it in got[what] if it[0] in about), key=lambda it: int(it[0]))
        same(f"{what} of line {got['line']}", [it[:2] for it in wanted], [it[:2] for it in found])
        for (step_number, _, texts), (_, _, text) in zip(wanted, found):
            want(text in texts, f"'{text}' stands at step {step_number} for {texts}")
    want(all(it[0] in about for it in got["performed"]), f"something else is performed on line {got['line']}")
    for step, who, text, x, y in got["marks"] + got["performed"]:
        want(abs(x - got["heads"][who]) < 25, f"'{text}' doesn't stand at {who}")
        want(-10 < y - got["heights"][step] < 30 + 13 * len(got["performed"]), f"'{text}' doesn't stand at step {step}")


def check_rows(steps: list[Step], got: dict[str, Any]) -> None:
    same("steps at the left edge", [str(number) for number in range(1, len(steps) + 1)], [it[0] for it in got["rows"]])
    for (number, other, title, text, reply, x), step in zip(got["rows"], steps):
        whole = f"{number}{' · ' if step.is_in_pump else ' '}{step.command}"
        same("a command's title", f"{whole}: {step.said}".split("\n")[0], title.split("\n")[0])
        same("a command", whole if len(whole) <= MOST else whole[:MOST - 1] + "…", text)
        same(f"whether {whole} is dim", step.line is not None and str(step.line) != got["line"], other)
        want(x < 20, f"'{whole}' stands at {x}")
        if step.case and not step.is_in_pump or step.command.split()[0] in ("pump", "hand"):
            same(f"the answer to {whole}", step.said[:MOST], reply)
        else:
            want(reply in ("", step.said[:MOST]), f"'{reply}' stands at {whole}")


@seconds(4)
@each(lambda: list(NAMES))
def test_words(name: str) -> None:
    script = shown_scripts()[name]
    steps, logs, captions = expected(script), logs_of(script), captions_of(script)
    got = read_in_a_browser(script, READ, "--window-size=1400,900")
    value = steps_of(json.loads(value_of(lockup("page", "-", text=script).out)))
    states = states_of(step_by_step(script, value))[1]
    same("steps", len(steps) + 1, len(got["steps"]))
    same("before the first command", captions[steps[0].at], got["steps"][0]["caption"])
    nexts: dict[int, dict] = {}
    for number, (step, shown, told) in enumerate(zip(steps, got["steps"][1:], value), 1):
        check_step(number, len(steps), step, performed_by(step, logs), shown)
        first = number == 1 or steps[number - 2].at != step.at
        same(f"the comments at step {number}", captions[step.at] if first else "", shown["caption"])
        check_lines(number, states[number - 1].lines, shown)
        if told["performed"]:
            nexts[told["performed"]["slice"]] = told["next"]
        wanted = [f"slice {it} next {channel_of(told)}" for it, told in sorted(nexts.items()) if told]
        same(f"what a pump delivers next at step {number}", wanted, [it for it in shown["rest"] if " next " in it])
    for line in got["lines"]:
        check_bars(line)
        check_labels(line)
        check_marks(steps, logs, line)
        check_rows(steps, line)


def channel_of(told: dict[str, Any]) -> str:
    ends = {"req": ["from"], "ack": ["to", "from"], "home": []}.get(told["class"], ["to"])
    return " ".join(map(str, ["deliver", told["class"], told["line"], *(told[end] for end in ends)]))


def test_scripts_tell_enough() -> None:
    """Among the scripts is each kind of answer that a picture marks, and each part of an explained answer that is told
    in other words."""
    steps = [step for name in NAMES for step in expected(shown_scripts()[name])]
    for what in ("blocked", "stall", "done", "moved", "pending", "evicting", "receipt"):
        want(any(step.said.startswith(what) for step in steps), f"no step answers {what}")
    parts = {part for step in steps if step.case for part in step.case.done}
    for part in (*WORDS, "primary miss", "hit"):
        want(part in parts, f"no step does '{part}'")
    want(any(part.startswith("performs numbers") for part in parts), "no step performs several")
    want(any(step.is_in_pump for step in steps), "no pump")
