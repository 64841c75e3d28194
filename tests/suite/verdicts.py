"""What `check --explain` prints after `illegal`, and the members that `check --json` has of it: the
line of the wrong entry, the reply that was expected and the entry that wrote it, or what is out of
order. Traces by hand, and drawn ones of which one entry is spoiled; what is wanted of these is
found by a plain model of memory, which goes forward through the lines."""
import json
import random
import tempfile

from harness import each, each_refused, is_plain, lockup, program, same, seconds, want, write
from harness.schema import fits
from suite.json_values import schema

MASK = (1 << 64) - 1
BY_HAND = [
    ("a_wrong_load", "lockup-trace 1\nentry 0 0 0 add 0 5 0 0\nentry 0 1 0 load 0 6 1\n",
     "entry 1: reply   line 3: expected reply 5, written by entry 0 in line 2",
     {"entry": 1, "reason": "reply", "line": 3, "expected": "5", "written_by": 0}),
    ("an_initial_value", "lockup-trace 1\n# words\ninit 3 1\ninit 8 7\n\nentry 0 0 0 load 8 0 0\n",
     "entry 0: reply   line 6: expected reply 7, the initial value in line 4",
     {"entry": 0, "reason": "reply", "line": 6, "expected": "7", "written_by": None}),
    ("no_initial_value", "lockup-trace 1\ninit 8 7\nentry 0 0 0 add 9 1 4 0\n",
     "entry 0: reply   line 3: expected reply 0, the initial value",
     {"entry": 0, "reason": "reply", "line": 3, "expected": "0", "written_by": None}),
    ("a_store", "lockup-trace 1\ninit 8 7\nentry 0 0 0 store 8 1 7 0\n",
     "entry 0: reply   line 3: expected reply 0, as of any store",
     {"entry": 0, "reason": "reply", "line": 3, "expected": "0"}),
    ("sums", "lockup-trace 1\nentry 0 0 0 store 0 18446744073709551615 0 0\nentry 1 0 0 add 0 3 18446744073709551615 0\n"
     "entry 1 1 0 load 0 2 0\nentry 0 1 0 load 0 3 0\n",
     "entry 3: reply   line 5: expected reply 2, written by entry 1 in line 3",
     {"entry": 3, "reason": "reply", "line": 5, "expected": "2", "written_by": 1}),
    ("a_value_of_64_bits", "lockup-trace 1\nentry 0 0 0 store 0 18446744073709551615 0 0\nentry 1 0 0 load 0 1 0\n",
     "entry 1: reply   line 3: expected reply 18446744073709551615, written by entry 0 in line 2",
     {"entry": 1, "reason": "reply", "line": 3, "expected": "18446744073709551615", "written_by": 0}),
    ("compare_exchanges", "lockup-trace no-since\nentry 0 0 0 cas 0 0 9 0\nentry 0 1 0 cas 0 8 1 9\nentry 0 2 0 load 0 1\n",
     "entry 2: reply   line 4: expected reply 9, written by entry 0 in line 2",
     {"entry": 2, "reason": "reply", "line": 4, "expected": "9", "written_by": 0}),
    ("order", "lockup-trace 1\nentry 0 1 0 load 0 0 0\nentry 0 7 0 load 8 0 0\nentry 1 9 0 load 0 0 0\nentry 0 0 1 load 0 0 0\n",
     "entry 3: order   line 5: SEQ 0 isn't above 1, the SEQ of entry 0 in line 2",
     {"entry": 3, "reason": "order", "line": 5, "earlier_entry": 0}),
    ("the_same_seq", "lockup-trace 1\nentry 0 1 0 load 0 0 0\nentry 0 2 0 load 7 0 0\nentry 0 2 1 load 1 0 0\n",
     "entry 2: order   line 4: SEQ 2 isn't above 2, the SEQ of entry 1 in line 3",
     {"entry": 2, "reason": "order", "line": 4, "earlier_entry": 1}),
    ("since", "lockup-trace 1\nentry 0 0 0 load 0 0 0\nentry 0 1 0 load 0 0 2\n",
     "entry 1: since   line 3: SINCE 2 is above 1, the number of entries before it",
     {"entry": 1, "reason": "since", "line": 3}),
]


def judge(what: str, text: str, wanted: str, value: dict) -> None:
    """Compares the verdict as text, explained and as JSON."""
    with tempfile.TemporaryDirectory() as room:
        file = write(f"{room}/trace", text)
        bare = wanted.partition("   ")[0]
        status = 0 if value["legal"] else 1
        same(f"{what}: check", (status, f"{bare}\n", ""), tuple(lockup("check", file)))
        same(f"{what}: check --explain", (status, f"{wanted}\n", ""), tuple(lockup("check", "--explain", file)))
        for words in ("--json",), ("--json", "--explain"):
            ran = lockup("check", *words, file)
            same(f"{what}: status and error of check {words}", (status, ""), (ran.status, ran.err))
            same(f"{what}: check {words}", value, json.loads(ran.out))
            fits(json.loads(ran.out), schema("check"))
            same(f"{what}: check {words} of standard input", ran, lockup("check", *words, "-", text=text))


@each(lambda: BY_HAND)
def test_by_hand(name: str, text: str, wanted: str, value: dict) -> None:
    judge(name, text, f"illegal {wanted}", {"legal": False, **value})


def test_nothing_is_explained_of_a_legal_trace() -> None:
    judge("a legal trace", "lockup-trace 1\nentry 0 0 0 load 0 0 0\n", "legal 1 entries", {"legal": True, "entries": 1})


def test_refused_allocations() -> None:
    """Each is followed by the whole verdict, or by the error alone."""
    is_plain()
    _, text, wanted, _ = BY_HAND[4]
    with tempfile.TemporaryDirectory() as room:
        refusals = list(each_refused([program(), "check", "--explain", write(f"{room}/trace", text)]))
        for refused, ran in refusals:
            came = (1, f"illegal {wanted}\n", ""), (3, "", "lockup: no memory\n")
            want(tuple(ran) in came[:1 if refused == 0 else 2], f"with allocation {refused} refused: {tuple(ran)}")
    want(len(refusals) > 5, "no allocation was refused")


def after(op: str, operands: list[int], old: int) -> int:
    """The value that an access leaves in a word."""
    if op == "store":
        return operands[0]
    if op == "add":
        return (old + operands[0]) & MASK
    return operands[1] if op == "cas" and operands[0] == old else old


class Trace:
    """A legal trace that is drawn, as the numbers and words of its lines."""

    def __init__(self, seed: int) -> None:
        self.draw = random.Random(seed)
        self.version = self.draw.choice(["1", "2", "no-since"])
        self.values = {word: self.draw.choice([1, 5, MASK]) for word in range(0, 20) if self.draw.random() < 0.3}
        self.init = [["init", word, value] for word, value in self.values.items()]
        self.asked = [0] * 4
        self.entries = [self.entry(number) for number in range(self.draw.randrange(3, 40))]

    def entry(self, number: int) -> list:
        draw, word = self.draw, self.draw.randrange(20)
        core, old = draw.randrange(4), self.values.get(word, 0)
        seq, self.asked[core] = self.asked[core], self.asked[core] + draw.randrange(1, 3)
        op = draw.choice(["load", "store", "add"] + ["cas"] * (self.version != "1"))
        operands = {"load": [], "store": [draw.randrange(9)], "add": [draw.choice([0, 1, 5, MASK])],
                    "cas": [draw.choice([old, 3]), draw.randrange(9)]}[op]
        self.values[word] = after(op, operands, old)
        reply = 0 if op == "store" else old
        return ["entry", core, seq, draw.randrange(64), op, word, *operands, reply, draw.randrange(number + 1)]

    def spoil(self) -> None:
        """Spoils one entry, or several, or none where the one that is drawn can't be spoiled so."""
        for entry in self.draw.sample(self.entries, self.draw.choice([1, 1, 1, 2])):
            number, place = self.entries.index(entry), self.draw.choice([2, -2, -2, -1])
            earlier = [it[2] for it in self.entries[:number] if it[1] == entry[1] and it[5] // 8 == entry[5] // 8]
            if place == 2 and earlier:
                entry[2] = self.draw.randrange(earlier[-1] + 1)
            elif place == -2:
                entry[-2] = (entry[-2] + self.draw.choice([1, 7, MASK])) & MASK
            elif place == -1:
                entry[-1] = number + self.draw.randrange(1, 3)

    def lines(self) -> list[str]:
        """The text's lines, with comments and empty lines among them."""
        lines = [f"lockup-trace {self.version}"]
        for words in self.init + self.entries:
            lines += self.draw.choice([[], [], [], ["# a remark"], ["", "\t"]])
            cut = words[:-1] if self.version == "no-since" and words[0] == "entry" else words
            lines.append(" ".join(map(str, cut)))
        return lines


def wanted_of(lines: list[str]) -> tuple[str, dict]:
    """The verdict of a trace, found line by line: what each word has, and who gave it that."""
    has_since = lines[0] != "lockup-trace no-since"
    values: dict[int, tuple[int, str, int | None]] = {}
    last: dict[tuple[int, int], tuple[int, int, int]] = {}
    number = 0
    for line, text in enumerate(lines, 1):
        kind, *words = text.split() or ["#"]
        if kind == "init":
            values[int(words[0])] = int(words[1]), f"the initial value in line {line}", None
        if kind != "entry":
            continue
        op = words.pop(3)
        core, seq, _, word, *operands = map(int, words)
        since = operands.pop() if has_since else 0
        reply = operands.pop()
        value, source, writer = values.get(word, (0, "the initial value", None))
        head = {"legal": False, "entry": number, "reason": "reply", "line": line}
        if op == "store" and reply:
            return f"reply   line {line}: expected reply 0, as of any store", {**head, "expected": "0"}
        if op != "store" and reply != value:
            return (f"reply   line {line}: expected reply {value}, {source}",
                    {**head, "expected": str(value), "written_by": writer})
        if (core, word // 8) in last and last[core, word // 8][0] >= seq:
            before, entry, at = last[core, word // 8]
            return (f"order   line {line}: SEQ {seq} isn't above {before}, the SEQ of entry {entry} in line {at}",
                    {**head, "reason": "order", "earlier_entry": entry})
        if since > number:
            return (f"since   line {line}: SINCE {since} is above {number}, the number of entries before it",
                    {**head, "reason": "since"})
        last[core, word // 8] = seq, number, line
        if op in ("store", "add") or op == "cas" and operands[0] == value:
            values[word] = after(op, operands, value), f"written by entry {number} in line {line}", number
        number += 1
    return "", {"legal": True, "entries": number}


@seconds(20)
@each(lambda: range(8))
def test_spoiled(part: int) -> None:
    """Each part draws 60 traces. All reasons have to occur, and the legal ones."""
    met = set()
    for seed in range(60 * part, 60 * part + 60):
        trace = Trace(seed)
        same(f"trace {seed} as drawn", {"legal": True, "entries": len(trace.entries)}, wanted_of(trace.lines())[1])
        trace.spoil()
        lines = trace.lines()
        told, value = wanted_of(lines)
        wanted = f"illegal entry {value['entry']}: {told}" if told else f"legal {value['entries']} entries"
        judge(f"trace {seed}", "\n".join(lines) + "\n", wanted, value)
        met.add(told.partition(" ")[0])
    same("reasons", {"", "reply", "order", "since"}, met)
