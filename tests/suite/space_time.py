"""Draws each example's first line as `lockup chart --svg` does, and compares the picture with what `--explain` tells.

The picture is taken apart by its lifelines and rows: each arrow's ends are the sender and the receiver, and the rows of
its sending and its delivery; each bar is a state and the row from which it holds; a ring is a message that was blocked,
or an access in vain. What is expected is worked out from the explained answers, message by message.

So is each word of it: the letters of a bar are its state; an arrow's label is its message, with the requester of a
forwarded one; a ring has the state for which the message waits, or the answer; what was performed follows its
row, as the log has it; and at the left edge stand the commands, numbered.
"""
import re
import xml.etree.ElementTree as xml
from collections import namedtuple

from harness import each, lockup, same, want
from harness.scripts import example, examples, is_trace

Arrow = namedtuple("Arrow", "kind sender receiver sent taken")
SVG = "{http://www.w3.org/2000/svg}"
KINDS = {"req": ("GetS", "GetM", "PutS", "PutM"), "fwd": ("Fwd-GetS", "Fwd-GetM", "Inv", "Put-Ack"),
         "data": ("Data", "Data-E"), "ack": ("Inv-Ack",), "home": ("Data home",)}


def kind_of(message: str) -> str:
    name = re.sub(r"\(.*", "", message)
    return next(kind for kind, names in KINDS.items() if name in names)


# the picture

class Picture:
    def __init__(self, text: str):
        root = xml.fromstring(text)
        rows = [it for it in root.iter(f"{SVG}text") if it.get("class") == "row"]
        self.rows = [" ".join(it.text.split()[1:]) for it in rows]
        self.heights = {int(it.get("y")) - 4: number for number, it in enumerate(rows)}
        self.numbers = [it.text.split()[0] for it in rows]
        self.edge = {it.get("x") for it in rows}
        self.names = {int(it.get("x")): it.text for it in root.iter(f"{SVG}text") if it.get("class") == "name"}
        self.arrows = sorted(self.arrow(it) for it in root.iter(f"{SVG}line") if it.get("marker-end"))
        self.bars = sorted(self.bar(it) for it in root.iter(f"{SVG}rect"))
        self.rings = [(self.names[int(it.get("cx"))], self.heights[int(it.get("cy"))])
                      for it in root.iter(f"{SVG}circle")]
        self.reasons = [(int(it.get("x")), it.text) for it in root.iter(f"{SVG}text")
                        if it.get("class").split()[0] == "wait"]
        self.width = int(root.get("width"))
        self.title = root.find(f"{SVG}title").text
        self.read_words(list(root))

    def read_words(self, parts: list) -> None:
        """Reads the text after each arrow, bar and ring, and those of what was performed."""
        self.labels, self.letters, self.waits, self.performed = [], [], [], []
        for it, text in zip(parts, [*parts[1:], None]):
            if it.tag == f"{SVG}line" and it.get("marker-end"):
                self.labels.append((*self.arrow(it), self.word(text, "label")))
                way = sorted(int(it.get(name)) for name in ("x1", "x2"))
                want(way[0] < int(text.get("x")) < way[1], f"'{text.text}' doesn't stand at its arrow")
                way = sorted(int(it.get(name)) for name in ("y1", "y2"))
                want(way[0] - 9 < int(text.get("y")) < way[1] + 9, f"'{text.text}' doesn't stand at its arrow")
            elif it.tag == f"{SVG}rect":
                self.letters.append((*self.bar(it)[:2], self.word(text, "state")))
                same("the height of letters", int(it.get("y")) + 14, int(text.get("y")))
                self.beside(text, self.bar(it)[0])
            elif it.tag == f"{SVG}circle":
                at = self.names[int(it.get("cx"))], self.heights[int(it.get("cy"))]
                self.waits.append((*at, self.word(text, "wait")))
                want(abs(int(it.get("cy")) - int(text.get("y"))) < 12, f"'{text.text}' doesn't stand at its ring")
            elif it.get("class", "").startswith("did "):
                who = next(name for at, name in self.names.items() if abs(at - int(it.get("x"))) == 14)
                self.performed.append((who, int(it.get("y")), it.text))
                self.beside(it, who)

    def word(self, it, kind: str) -> str:
        want(it is not None and it.tag == f"{SVG}text" and it.get("class").split()[0] == kind, f"no {kind} stands there")
        return it.text

    def beside(self, it, who: str) -> None:
        """A text is beside its lifeline: left of the directory's, and right of a core's."""
        life = next(at for at, name in self.names.items() if name == who)
        side = "left" if who == "directory" else "right"
        same(f"where '{it.text}' stands", (side, life + (14 if side == "right" else -14)),
             (it.get("class").split()[1], int(it.get("x"))))

    def near(self, x: int) -> str:
        return next(name for at, name in self.names.items() if abs(at - x) == 10)

    def arrow(self, it) -> Arrow:
        kind, *flight = it.get("class").split()
        ends = [int(it.get(name)) for name in ("x1", "y1", "x2", "y2")]
        sent = self.heights[ends[1] - 4]
        if flight:
            return Arrow(kind, self.near(ends[0]), "?", sent, -1)
        return Arrow(kind, self.near(ends[0]), self.near(ends[2]), sent, self.heights[ends[3]])

    def bar(self, it) -> tuple:
        return self.names[int(it.get("x")) + 10], self.heights[int(it.get("y"))], it.get("class").split()[1]


# what is expected

def steps_of(script: str) -> list[tuple[str, str]]:
    """Returns each command, and each delivery of a pump, with its explained answer."""
    out = lockup("script", "-", "--explain", "--echo", text=script).out.splitlines()
    steps, command = [], ""
    for line in out:
        words = line.split()
        if words and words[0] in ("issue", "evict", "hand", "word", "state", "pump") or re.fullmatch("deliver [^(]*", line):
            if "   " not in line:
                command = line
                continue
        delivery = re.match(r"(deliver (?:[a-z0-9]+ ?)+)   (.*)", line)
        if command.startswith("pump") and delivery:
            steps.append((delivery[1].strip(), delivery[2]))
        elif command and not command.startswith("pump"):
            steps.append((" ".join(command.split()), line))
            command = ""
    return steps


def line_of(command: str) -> int | None:
    words = command.split()
    if words[0] == "issue":
        return int(words[4]) // 8
    if words[0] == "evict":
        return int(words[2])
    return int(words[2]) if words[0] == "deliver" else None


def channel_of(command: str) -> tuple[str, str]:
    """Returns the kind of a delivery's channel, and who takes from it."""
    _, kind, _, *ends = command.split()
    return kind, "directory" if kind in ("req", "home") else f"core {ends[0]}"


def named(who: str) -> str:
    return "directory" if who.startswith("dir") else who


def logs_of(script: str) -> list[list[str]]:
    """Returns what each slice performed, as a picture has it: the access, and its reply if it has one."""
    slices = next((int(it.split()[1]) for it in script.splitlines() if it.split()[:1] == ["slices"]), 1)
    looks = "".join(f"log {number}\n" for number in range(slices))
    out = lockup("script", "-", "--echo", text=f"{script.rstrip()}\n{looks}").out.splitlines()
    logs = []
    for number in range(slices):
        begin = len(out) - out[::-1].index(f"log {number}")
        logs.append([])
        for words in (line.split() for line in out[begin:]):
            if words[0] == "log":
                break
            if words[0] == "entry":
                logs[-1].append(" ".join(words[4:-2]) + ("" if words[4] == "store" else f" = {words[-2]}"))
    return logs


class Account:
    """What an explained run does to the line that it names first."""

    def __init__(self, script: str):
        self.rows, self.arrows, self.bars, self.rings, self.line = [], [], [], [], None
        self.open, self.states, self.labels, self.waits, self.performed = [], {}, [], [], []
        self.logs = logs_of(script)
        for command, told in steps_of(script):
            at = line_of(command)
            if at is not None:
                self.line = at if self.line is None else self.line
                self.step(command, told, at == self.line)
        for kind, sender, _, sent, name in self.open:
            self.arrows.append(Arrow(kind, sender, "?", sent, -1))
            self.labels.append((*self.arrows[-1], name))
        self.arrows.sort()
        self.bars.sort()

    def step(self, command: str, told: str, is_own: bool) -> None:
        leaves = re.search(rf"; line {self.line} to (\w+)", told)
        if not is_own:
            if command.startswith("issue") and leaves:
                core = f"core {command.split()[1]}"
                row = self.row(command)
                self.send("req", core, "directory", row, {"SI_A": "PutS", "MI_A": "PutM"}[leaves[1]])
                self.state(core, leaves[1], row)
            return
        row = self.row(command)
        if re.match("blocked|nothing|stall|refused|broken", told):
            who = channel_of(command)[1] if command.startswith("deliver") else f"core {command.split()[1]}"
            self.rings.append((who, row))
            state = re.search(r"(?:dir|core) \d+ \((\S+),", told)
            answer, *why = told.split("   ")
            self.waits.append((who, row, f"blocked: {state[1]}" if answer == "blocked" else
                               why[0] if answer == "nothing" else answer))
            return
        actor = re.search(r"(dir|core) \d+ \(", told)
        if not actor:
            return
        who = named(actor[0].removesuffix(" ("))
        if command.startswith("deliver"):
            self.take(*channel_of(command), row, command)
        for sent in re.findall(r"sends ([^;]*)", told):
            for message, to in re.findall(r"([A-Z][\w-]*(?:\(\d+\))?(?: home)?) to ((?:core|dir) \d+)", sent):
                # the directory forwards for the core whose request it took
                forwarded = message in ("Fwd-GetS", "Fwd-GetM", "Inv")
                name = f"{message} for core {command.split()[-1]}" if forwarded else message
                self.send(kind_of(message), who, named(to), row, name)
        states = re.findall(r"(?:: |; )to (\w+)", told)
        if states:
            self.state(who, states[-1], row)
        numbers = re.search(r"performs numbers? (\d+)(?: to (\d+))?|^done (\d+)", told)
        if numbers:
            first, last = int(numbers[1] or numbers[3]), int(numbers[2] or numbers[1] or numbers[3])
            self.performed += [(who, row, text) for text in self.logs[line_of(command) % len(self.logs)][first:last + 1]]

    def row(self, command: str) -> int:
        self.rows.append(command)
        return len(self.rows) - 1

    def send(self, kind: str, sender: str, receiver: str, row: int, name: str) -> None:
        self.open.append((kind, sender, receiver, row, name))

    def take(self, kind: str, receiver: str, row: int, command: str) -> None:
        sender = f"core {command.split()[-1]}" if kind in ("req", "ack") else None
        for it in self.open:
            if it[0] == kind and it[2] == receiver and sender in (None, it[1]):
                self.open.remove(it)
                self.arrows.append(Arrow(kind, it[1], receiver, it[3], row))
                self.labels.append((*self.arrows[-1], it[4]))
                return
        want(False, f"a delivery of nothing that was sent: {command}")

    def state(self, who: str, state: str, row: int) -> None:
        if self.states.get(who, "I") != state:
            self.states[who] = state
            self.bars.append((who, row, state))


def check(script: str) -> None:
    ran = lockup("chart", "--svg", "-", text=script)
    same("status", 0, ran.status)
    picture, account = Picture(ran.out), Account(script)
    same("rows", account.rows, picture.rows)
    same("arrows", account.arrows, picture.arrows)
    same("bars", account.bars, picture.bars)
    same("rings", account.rings, picture.rings)
    same("numbers of rows", [str(number + 1) for number in range(len(account.rows))], picture.numbers)
    want(len(picture.edge) <= 1 and all(int(x) < 20 for x in picture.edge), f"the commands stand at {picture.edge}")
    same("title", None if account.line is None else f"line {account.line}", picture.title)
    same("letters", account.bars, sorted(picture.letters))
    same("labels", sorted(account.labels), sorted(picture.labels))
    same("words at rings", account.waits, picture.waits)
    same("what was performed", [(who, text) for who, _, text in account.performed],
         [(who, text) for who, _, text in picture.performed])
    heights = {row: height for height, row in picture.heights.items()}
    for place, ((_, row, text), (_, y, _)) in enumerate(zip(account.performed, picture.performed)):
        order = sum(other[1] == row for other in account.performed[:place])
        want(0 < y - heights[row] < 36 * (order + 1), f"'{text}' doesn't stand behind its row")
    # a reason stands right of its ring, where no command stands, and within the picture
    for at, reason in picture.reasons:
        want(any(0 < at - life < 20 for life in picture.names), f"'{reason}' doesn't stand right of a lifeline")
        want(at + 7 * len(reason) < picture.width, f"'{reason}' is cut")


def scripts() -> list[str]:
    return [name for name in examples() if not is_trace(example(name))]


@each(scripts)
def test_space_time_is_what_is_told(name: str) -> None:
    check(example(name))


VICTIM = """cores 2
lines 8
sets 1
ways 1
issue 0 0 store 0 1
pump 9
issue 0 1 load 8
pump 9
issue 1 0 load 0
issue 1 1 store 0 4
deliver req 0 1
deliver fwd 0 0
deliver data 0 1
"""


def test_space_time_of_a_victim_and_of_a_write_behind_a_load() -> None:
    check(VICTIM)


def test_space_time_of_a_line_that_is_asked_for() -> None:
    for words in (["--svg", "--line", "1"], ["--line", "1"]):
        picture = Picture(lockup("chart", *words, "-", text=VICTIM).out)
        same("rows", ["issue 0 1 load 8", "deliver req 1 0", "deliver data 1 0"], picture.rows)


def test_space_time_up_to_a_fault() -> None:
    ran = lockup("chart", "--svg", "-", text="issue 0 0 load 0\nnonsense\n")
    same("status", 2, ran.status)
    same("rows", ["issue 0 0 load 0"], Picture(ran.out).rows)
