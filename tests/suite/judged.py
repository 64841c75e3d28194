"""What `judge` says of histories, and of traces whose entries of several cores stand in any order: of several words,
drawn and spoiled, a word is incoherent exactly where a search through all orders finds none; each step of a
contradiction is tried against the text; logs of runs with their cores' lines mixed are coherent; and a trace is refused
as `check` refuses it, a history at the first line that can't be read."""
import json
import random
import re
from dataclasses import replace
from typing import Callable

from harness import ROOT, each, lockup, read, run, same, seconds, want
from harness.schema import fits
from suite.histories import Access, History, check, drawn, judged, lost, spoiled, stale
from suite.json_values import schema

BY_HAND = [
    ("nothing", "lockup-trace 2\n", 0, "coherent 0 entries\n"),
    ("a_load_before_its_store", "lockup-trace no-since\nentry 1 0 0 load 9 5\nentry 0 0 0 store 9 5 0\n", 0, "coherent 2 entries\n"),
    ("an_initial_value", "lockup-trace no-since\ninit 9 3\nentry 1 0 0 load 9 3\nentry 0 0 0 add 8 1 0\n", 0, "coherent 2 entries\n"),
    ("a_value_of_nobody", "lockup-trace no-since\nentry 1 0 0 load 9 5\nentry 2 0 0 load 9 6\nentry 0 0 0 store 9 5 0\n", 1,
     "incoherent word 9\nline 3: got 6, which no access left\n"),
    ("two_adds", "lockup-trace no-since\n# both find 0\nentry 0 0 0 add 9 1 0\nentry 1 0 0 add 9 1 0\n", 1,
     "incoherent word 9\nline 3 before line 4: line 3 got 0, which the word began with, and line 4 changed it\n"
     "line 4 before line 3: line 4 got 0, which the word began with, and line 3 changed it\nso line 3 before itself\n"),
    ("a_word_that_goes_back", "lockup-trace no-since\nentry 0 0 0 store 9 1 0\nentry 1 0 0 load 9 1\nentry 1 1 0 load 9 0\n", 1,
     "incoherent word 9\nline 4 before line 2: line 4 got 0, which the word began with, and line 2 changed it\n"
     "line 2 before line 3: line 3 got 1, which line 2 alone left\nline 3 before line 4: core 1 asked for both\n"
     "so line 4 before itself\n"),
    # its own store is the core's first, so a stale load is incoherent though another core's value would fit
    ("another_word_is_coherent", "lockup-trace no-since\nentry 0 0 0 store 8 1 0\nentry 0 1 0 store 9 7 0\nentry 0 2 0 load 9 0\n", 1,
     "incoherent word 9\nline 4 before line 3: line 4 got 0, which the word began with, and line 3 changed it\n"
     "line 3 before line 4: core 0 asked for both\nso line 4 before itself\n"),
    ("a_history", "lockup-history 1\n# of two cores\ninit 9 3\ncore 1 load 9 7\ncore 0 add 9 4 3\ncore 0 cas 9 7 8 7\ncore 1 load 9 8\n"
     "core 0 store 1 5\n", 0, "coherent 5 entries\n"),
    # without times the load may have come first, and with times that touch too
    ("a_stale_load", "lockup-history 1\ncore 0 store 9 5\ncore 1 load 9 0\n", 0, "coherent 2 entries\n"),
    ("a_stale_load_in_time", "lockup-history 1\ncore 0 store 9 5 @1..4\ncore 1 load 9 0 @4..9\n", 0, "coherent 2 entries\n"),
    ("a_stale_load_too_late", "lockup-history 1\ncore 0 store 9 5 @1..4\ncore 1 load 9 0 @5..9\n", 1,
     "incoherent word 9\nline 3 before line 2: line 3 got 0, which the word began with, and line 2 changed it\n"
     "line 2 before line 3: the one had ended when the other began\nso line 3 before itself\n"),
    ("times_of_one_core", "lockup-history 1\ncore 1 load 9 5 @18446744073709551615..18446744073709551615\ncore 0 store 9 5 @0..0\n", 0,
     "coherent 2 entries\n"),
    ("words_of_a_history", "lockup-history 1\ncore 63 store 524287 1\ncore 63 load 524287 2\n", 1,
     "incoherent word 524287\nline 3: got 2, which no access left\n"),
    # what SEQ says means nothing: the lines are the core's order
    ("a_seq_that_goes_back", "lockup-trace no-since\nentry 0 9 0 store 9 1 0\nentry 0 3 0 load 9 1\n", 0, "coherent 2 entries\n"),
]


@each(lambda: BY_HAND)
def test_by_hand(_: str, text: str, status: int, wanted: str) -> None:
    same("judge", (status, wanted, ""), tuple(lockup("judge", "-", text=text)))


# ---- drawn traces

def entry(word: int, access: Access) -> str:
    values = " ".join(map(str, access.words))
    return f"entry {access.core} 0 0 {access.kind} {word} {values + ' ' if values else ''}{access.reply}"


def text_of(words: dict[int, History], lines: list[tuple[int, Access]]) -> str:
    init = [f"init {word} {history.initial}" for word, history in sorted(words.items()) if history.initial]
    return "\n".join(["lockup-trace no-since", *init, *(entry(word, access) for word, access in lines), ""])


def history_of(words: dict[int, History], lines: list[tuple[int, Access]]) -> str:
    init = [f"init {word} {history.initial}" for word, history in words.items() if history.initial]
    return "\n".join(["lockup-history 1", *init, *(replace(access, word=word).line() for word, access in lines), ""])


def shuffled(draw: random.Random, words: dict[int, History]) -> list[tuple[int, Access]]:
    """Returns the accesses of all words, each word's in its order."""
    turns = [word for word, history in words.items() for _ in history.accesses]
    draw.shuffle(turns)
    queues = {word: iter(history.accesses) for word, history in words.items()}
    return [(word, next(queues[word])) for word in turns]


STEP = re.compile(r"line (\d+) before line (\d+): (?:"
                  r"(?P<core>core (\d+) asked for both)|"
                  r"(?P<interval>the one had ended when the other began)|"
                  r"(?P<shown>as was shown)|"
                  r"(?P<source>line (\d+) got (\d+), which line (\d+) alone left)|"
                  r"(?P<initial>line (\d+) got (\d+), which the word began with, and line (\d+) changed it)|"
                  r"(?P<raised>line (\d+) got (\d+), which line (\d+) left and line (\d+) overwrote)|"
                  r"(?P<far>line (\d+) got (\d+), which goes back to line (\d+) through (\d+) access(?:es)?)|"
                  r"(?P<far_raised>line (\d+) got (\d+), which goes back to line (\d+) through (\d+) access(?:es)?, "
                  r"and line (\d+) overwrote)|"
                  r"(?P<far_lowered>line (\d+) got (\d+), which goes back to line (\d+) through (\d+) access(?:es)?, "
                  r"and line (\d+) was not between)|"
                  r"(?P<lowered>line (\d+) got (\d+), which line (\d+) left, and line (\d+) was not between))")


class Contradiction:
    """Follows the lines of a contradiction about a word of a trace, or about the words of a line."""

    def __init__(self, initial: int, accesses: dict[int, Access]) -> None:
        self.initial, self.accesses, self.before, self.shown = initial, accesses, set(), set()

    def writers(self, reader: int, value: int) -> list[int]:
        """Returns who left a value in the word of the access that found it."""
        word = self.accesses[reader].word
        return [line for line, it in self.accesses.items()
                if it.word == word and self.changes(line) and it.left(it.reply) == value]

    def overwrites(self, line: int, reader: int) -> bool:
        return self.changes(line) and self.accesses[line].word == self.accesses[reader].word

    def changes(self, line: int) -> bool:
        it = self.accesses[line]
        return it.kind == "store" or it.left(it.reply) != it.reply

    def got(self, line: int) -> int | None:
        it = self.accesses[line]
        return None if it.kind == "store" else it.reply

    def follows(self, said: str) -> bool:
        """Whether the step follows, from the trace and from those before it."""
        end = re.fullmatch(r"so line (\d+) before line (\d+)", said)
        if end:
            pair = int(end[1]), int(end[2])
            sound, self.before = pair in self.before, set()
            self.shown.add(pair)
            return sound
        match = STEP.fullmatch(said)
        if match is None:
            return False
        one, other = int(match[1]), int(match[2])
        a, b = self.accesses[one], self.accesses[other]
        numbers = [int(it) for it in re.findall(r"\d+", said.split(": ", 1)[1])]
        if match["core"]:
            sound = a.core == b.core == numbers[0] and one < other
        elif match["interval"]:
            sound = a.end < b.begin
        elif match["shown"]:
            sound = (one, other) in self.shown
        elif match["source"]:
            sound = numbers == [other, self.got(other), one] and self.reads(other, numbers[1], one)
        elif match["initial"]:
            sound = (numbers == [one, self.initial, other] and self.got(one) == self.initial
                     and not self.writers(one, self.initial) and self.overwrites(other, one))
        elif match["raised"]:
            reader, value, source, _ = numbers
            sound = (reader, numbers[3]) == (one, other) and (source, other) in self.before and self.reads(reader, value, source)
            sound = sound and self.overwrites(other, reader)
        elif match["far"]:
            sound = numbers[:3] == [other, self.got(other), one] and self.goes_back(other, numbers[3]) == one
        elif match["far_raised"]:
            source = numbers[2]
            sound = (numbers[0], numbers[1], numbers[4]) == (one, self.got(one), other) and (source, other) in self.before
            sound = sound and self.goes_back(one, numbers[3]) == source and self.overwrites(other, one)
        elif match["far_lowered"]:
            reader, source = numbers[0], numbers[2]
            sound = (numbers[1], source, numbers[4]) == (self.got(reader), other, one) and (one, reader) in self.before
            sound = sound and self.goes_back(reader, numbers[3]) == source and self.overwrites(one, reader)
        else:
            reader, value, source, between = numbers
            sound = (source, between) == (other, one) and (one, reader) in self.before and self.reads(reader, value, source)
            sound = sound and self.overwrites(one, reader)
        self.before |= {(one, other)} | {(x, other) for x, y in self.before if y == one}
        return sound

    def reads(self, reader: int, value: int, source: int) -> bool:
        return self.got(reader) == value and value != self.initial and self.writers(reader, value) == [source]


    def goes_back(self, line: int, through: int) -> int | None:
        """Returns the access whose value came to this one through so many others."""
        for _ in range(through + 1):
            value = self.got(line)
            if value is None or value == self.initial or len(self.writers(line, value)) != 1:
                return None
            line, = self.writers(line, value)
        return line


def is_sound(said: list[str], initial: int, accesses: dict[int, Access]) -> bool:
    alone = re.fullmatch(r"line (\d+): got (\d+), which no access left", said[0])
    if alone:
        line, value = int(alone[1]), int(alone[2])
        told = Contradiction(initial, accesses)
        return len(said) == 1 and told.got(line) == value != initial and not told.writers(line, value)
    told = Contradiction(initial, accesses)
    end = re.fullmatch(r"so line (\d+) before itself", said[-1])
    return all([told.follows(it) for it in said[:-1]]) and end is not None and (int(end[1]), int(end[1])) in told.before


def swapped(draw: random.Random, history: History) -> History:
    """Returns the history with the answers of two accesses exchanged."""
    accesses = list(history.accesses)
    one, other = draw.sample([i for i, it in enumerate(accesses) if it.kind != "store"], 2)
    replies = accesses[one].reply, accesses[other].reply
    accesses[one], accesses[other] = replace(accesses[one], reply=replies[1]), replace(accesses[other], reply=replies[0])
    return replace(history, accesses=tuple(accesses))


def twice(draw: random.Random, history: History) -> History:
    """Returns the history with an answer that is given once more, later."""
    accesses = list(history.accesses)
    at = draw.randrange(len(accesses) // 2)
    accesses.insert(draw.randrange(at + 1, len(accesses) + 1), accesses[at])
    return replace(history, accesses=tuple(accesses))


# what is planted, and in how many words of a line
PLANTED: list[tuple[str, Callable[[random.Random, History], History], int]] = [
    ("a_stale_load", stale, 1), ("a_lost_add", lost, 1), ("a_swapped_pair", swapped, 1), ("a_duplicated_answer", twice, 1),
    ("a_torn_line", stale, 3),
]


@seconds(120)
@each(lambda: PLANTED)
def test_contradictions_of_planted_errors(
        name: str, spoil: Callable[[random.Random, History], History], words: int) -> None:
    """Each line follows from those before it; where an order is found, it explains the spoiled history too. At most six
    accesses are named of all but a few, which have no shorter contradiction of their kind (as the next test's)."""
    draw, sizes = random.Random(name), []
    for _ in range(200):
        history = spoil(draw, drawn(draw, 400, draw.choice([2, 8, 64]), True, draw.random() < .5, words))
        ran = lockup("judge", *(["--line"] if words > 1 else []), "-", text=history.text())
        first, *said = ran.out.splitlines()
        if first.startswith("incoherent"):
            lines = {line: it for line, it in enumerate(history.accesses, 2 + len(history.words()))}
            want(is_sound(said, history.initial, lines), f"{ran.out}\n{history.text()}")
            sizes.append(len({it for line in said for it in re.findall(r"line (\d+)", line)}))
            want(sizes[-1] <= 12, f"{sizes[-1]} are named: {ran.out}")
        elif first.startswith("coherent"):
            check(history, judged(history), True)
        else:
            want(words > 1 or not history.has_known_sources(), ran.out)
    want(len(sizes) >= 100, f"only {len(sizes)} of 200 were found")
    want(sum(it <= 6 for it in sizes) >= (1 if words == 1 else 0.97) * len(sizes), f"the sizes are {sorted(sizes)}")


def ran_here(draw: random.Random, words: list[int], cores: int) -> History:
    """Returns the history of a run of our own, of random accesses whose values are stored once."""
    lines, new = [f"cores {cores}", "outstanding 4"], 0
    for core in range(cores):
        lines.append(f"core {core}")
        for _ in range(max(3, 400 // cores)):
            new += 1000
            said = draw.choices(["load {}", "store {} {}", "add {} {}", "cas {} 0 {}"], [9, 6, 4, 1])[0]
            lines.append(said.format(draw.choice(words), draw.randrange(1, 50) if said.startswith("add") else new))
    seed = str(draw.randrange(1, 1 << 32))
    ran = lockup("run", "--trace", "--seed", seed, "-", text="\n".join([*lines, ""]))
    accesses = []
    for _, core, _, _, kind, word, *values, reply, _ in map(str.split, ran.out.splitlines()[1:]):
        accesses.append(Access(int(core), kind, tuple(map(int, values)), int(reply), word=int(word)))
    return History(0, tuple(accesses))


@seconds(120)
@each(lambda: PLANTED)
def test_errors_planted_in_runs_of_ours(
        name: str, spoil: Callable[[random.Random, History], History], words: int) -> None:
    draw, sizes = random.Random(f"ours {name}"), []
    for _ in range(60):
        history = spoil(draw, ran_here(draw, [9, 10, 11][:words], draw.choice([2, 8, 64])))
        ran = lockup("judge", *(["--line"] if words > 1 else []), "-", text=history.text())
        first, *said = ran.out.splitlines()
        if first.startswith("incoherent"):
            lines = {line: it for line, it in enumerate(history.accesses, 2 + len(history.words()))}
            want(is_sound(said, 0, lines), f"{ran.out}\n{history.text()}")
            sizes.append(len({it for line in said for it in re.findall(r"line (\d+)", line)}))
    want(len(sizes) >= 30 and max(sizes) <= 12, f"{len(sizes)} of 60 were found, of the sizes {sorted(sizes)}")
    want(sum(it <= 6 for it in sizes) >= 0.95 * len(sizes), f"the sizes are {sorted(sizes)}")


def test_a_contradiction_that_needs_many() -> None:
    """Four stores, and four cores of which each read two: the last one's second answer is stale, and each access is needed:
    without any one of them there is an order."""
    stores = [Access(core, "store", (core + 1,), 0) for core in range(4)]
    readers = [Access(4 + core, "load", (), value) for core in range(4) for value in (core + 1, (core + 1) % 4 + 1)]
    whole = History(0, (*stores, *readers))
    want(not whole.is_coherent(), "there is an order")
    for place, access in enumerate(whole.accesses):
        rest = whole.accesses[:place] + whole.accesses[place + 1:]
        if access.kind == "store":
            # who found its value is then free to have found anything
            rest = tuple(it for it in rest if it.reply != access.words[0])
        want(History(0, rest).is_coherent(), f"it is incoherent without {access}")
    first, *said = lockup("judge", "-", text=whole.text()).out.splitlines()
    accesses = dict(enumerate(whole.accesses, 3))
    want(first == "incoherent word 9" and is_sound(said, 0, accesses), "\n".join(said))
    same("named", set(accesses), {int(it) for line in said for it in re.findall(r"line (\d+)", line)})


@seconds(60)
@each(lambda: [("traces", False), ("histories", True)])
def test_drawn(name: str, is_history: bool) -> None:
    draw = random.Random(name)
    counts = {"coherent": 0, "incoherent": 0, "undecided": 0}
    for _ in range(400):
        words = {}
        for word in draw.sample(range(40), draw.randrange(1, 4)):
            history = drawn(draw, draw.randrange(1, 8), draw.randrange(1, 5), draw.random() < .7, is_history and draw.random() < .7)
            words[word] = spoiled(draw, history) if draw.random() < .4 else history
        lines = shuffled(draw, words)
        text = (history_of if is_history else text_of)(words, lines)
        ran = lockup("judge", "-", text=text)
        first, *said = ran.out.splitlines()
        verdict = first.split()[0]
        counts[verdict] += 1
        wrong = [word for word, history in words.items() if not history.is_coherent()]
        what = f"{ran.out}of\n{text}"
        if verdict == "coherent":
            want(not wrong and (ran.status, first) == (0, f"coherent {len(lines)} entries"), what)
        elif verdict == "incoherent":
            word = int(first.split()[2])
            behind = text.count("\n") - len(lines) + 1
            accesses = {number: it for number, (of, it) in enumerate(lines, behind) if of == word}
            want(word in wrong and ran.status == 1 and is_sound(said, words[word].initial, accesses), what)
            want(word == min(wrong) or not all(words[it].has_known_sources() for it in wrong), what)
        else:
            want(ran.status == 1 and any(not words[word].has_known_sources() for word in words), what)
    want(min(counts["coherent"], counts["incoherent"]) > 100, f"too few of one kind: {counts}")


def test_a_limit() -> None:
    """Where values repeat, orders are tried: in too few steps nothing is found, and in more an order is."""
    text = "lockup-trace no-since\n" + "".join(f"entry {core} 0 0 store 9 {value} 0\n" for core in range(6) for value in (1, 2))
    text += "".join(f"entry {core} 0 0 load 9 2\n" for core in range(6))
    same("few steps", (1, "undecided word 9\n", ""), tuple(lockup("judge", "--limit", "3", "-", text=text)))
    twice = text + text.replace(" 9 ", " 8 ").partition("\n")[2]
    same("the last of two words", (1, "undecided word 9\n", ""), tuple(lockup("judge", "--limit", "3", "-", text=twice)))
    same("many", (0, "coherent 18 entries\n", ""), tuple(lockup("judge", "-", text=text)))


# ---- runs of our own

def log_of(workload: str, cores: int) -> str:
    """Returns the log of a run of a workload on a machine of one slice, as a trace."""
    programs = lockup("generate", workload, "--cores", str(cores), "--size", "12").out
    script = lockup("run", "-", "--outstanding", "4", "--script", text=programs).out
    said = lockup("script", "-", text=f"{script}log 0\n").out
    return said[said.index("lockup-trace"):]


@each(lambda: [(f"{workload}_{cores}", workload, cores) for workload in ("lock", "ring", "histogram", "zipf") for cores in (2, 8)])
def test_runs(_: str, workload: str, cores: int) -> None:
    draw = random.Random(f"{workload} {cores}")
    head, *lines = log_of(workload, cores).splitlines()
    init = [line for line in lines if line.startswith("init")]
    entries = [line for line in lines if line.startswith("entry")]
    by_core = {}
    for line in entries:
        by_core.setdefault(line.split()[1], []).append(line)
    turns = [line.split()[1] for line in entries]
    draw.shuffle(turns)
    queues = {core: iter(it) for core, it in by_core.items()}
    text = "\n".join([head, *init, *(next(queues[core]) for core in turns), ""])
    ran = lockup("judge", "-", text=text)
    want(ran.out.startswith(("coherent", "undecided")), ran.out)
    if workload in ("lock", "histogram"):
        return
    same("judge", (0, f"coherent {len(entries)} entries\n", ""), tuple(ran))


@seconds(60)
def test_witnesses() -> None:
    """The order of a word is one of its accesses, and legal in each core's order."""
    draw = random.Random("witness")
    for _ in range(60):
        words = {word: drawn(draw, draw.randrange(1, 20), draw.randrange(1, 5), True, False) for word in draw.sample(range(40), 2)}
        lines = shuffled(draw, words)
        text = text_of(words, lines)
        if lockup("judge", "-", text=text).status:
            continue
        for word in words:
            ran = lockup("judge", "--witness", str(word), "-", text=text)
            mine = [entry(of, it) for of, it in lines if of == word]
            told = [line.split() for line in ran.out.splitlines() if line.startswith("entry")]
            same("entries", sorted(mine), sorted(" ".join([*it[:2], "0", "0", *it[4:]]) for it in told))
            for it in told:
                same("place", mine[int(it[2])], " ".join([*it[:2], "0", "0", *it[4:]]))
            same("check", (0, f"legal {len(mine)} entries\n", ""), tuple(lockup("check", "-", text=ran.out)))
    same("no such word", (0, "lockup-trace no-since\n", ""), tuple(lockup("judge", "--witness", "4", "-", text="lockup-trace 2\n")))


LINES = {"core": "core {core} asked for both", "interval": "the one had ended when the other began", "source": "line {last} got {value}, which line {first} alone left",
         "initial": "line {first} got {value}, which the word began with, and line {last} changed it",
         "overwritten": "line {first} got {value}, which line {source} left and line {last} overwrote",
         "not_between": "line {reader} got {value}, which line {last} left, and line {first} was not between"}


@seconds(60)
def test_values_of_json() -> None:
    """JSON says what the text says, and fits its schema."""
    draw = random.Random("json")
    reasons = set()
    for _ in range(150):
        history = spoiled(draw, drawn(draw, draw.randrange(2, 10), draw.randrange(1, 5), draw.random() < .7, draw.random() < .5))
        text = history.text()
        plain, ran = lockup("judge", "-", text=text), lockup("judge", "--json", "-", text=text)
        value = json.loads(ran.out)
        fits(value, schema("judge"))
        first, *said = plain.out.splitlines()
        steps = value.get("contradiction", [])
        head = f"entries {value['entries']}" if "entries" in value else f"word {value['word']}"
        same("verdict", first.split()[:1] + sorted(first.split()[1:]), [value["verdict"], *sorted(head.split())])
        same("status", plain.status, ran.status)
        reasons |= {it["reason"] for it in steps}
        told = [f"line {it['line']}: got {it['value']}, which no access left" if it["reason"] == "unwritten" else
                f"line {it['first']} before line {it['last']}: {LINES[it['reason']].format(**it)}" for it in steps]
        same("contradiction", said if not told or "line" in steps[0] else said[:-1], told)
    same("reasons", {*LINES, "unwritten"}, reasons)


def test_the_log_of_another_machine() -> None:
    """Core 1 reads 11, 12 and 11 again, which were stored once each. With the second 11 as 12 the log is coherent."""
    folder = ROOT / "examples/judge"
    log = read(folder / "log.txt")
    for text, status in (log, 1), (log.replace("131 1 0x80001040 load - 11", "131 1 0x80001040 load - 12"), 0):
        history = run(["awk", "-f", folder / "to_history.awk"], text=text).out
        ran = lockup("judge", "-", text=history)
        same("status", status, ran.status)
        first, *said = ran.out.splitlines()
        if status:
            same("verdict", ("incoherent word 0", read(folder / "log.out")), (first, ran.out))
            accesses = {2: Access(0, "store", (11,), 0), 3: Access(1, "load", (), 11), 6: Access(2, "store", (12,), 0),
                        7: Access(1, "load", (), 12), 9: Access(1, "load", (), 11)}
            want(is_sound(said, 0, accesses), ran.out)
        else:
            same("verdict", "coherent 9 entries", first)


HEAD = "lockup-history 1, lockup-trace 1, lockup-trace 2 or lockup-trace no-since, the first line"


@each(lambda: [("a_bad_number", "lockup-trace 1\nentry 0 0 0 load 0 x 0\n"), ("a_core", "lockup-trace 1\nentry 16 0 0 load 0 0 0\n"),
               ("a_late_init", "lockup-trace 1\nentry 0 0 0 load 0 0 0\ninit 1 1\n"), ("nothing", ""), ("a_script", "cores 2\nevict 0 0\n")])
def test_errors_of_traces(_: str, text: str) -> None:
    checked = lockup("check", "--explain", "-", text=text)
    same("judge", (2, "", checked.err), tuple(lockup("judge", "--explain", "-", text=text)))


@each(lambda: [
    ("no_head", "store 0 1\n", 1, "not a trace", f"'store': {HEAD}"),
    ("a_version", "lockup-history 2\n", 1, "not a trace", "'2': 1"),
    ("no_version", "lockup-history\n", 1, "not a trace", "end of the line: 1"),
    ("a_version_of_a_trace", "lockup-trace 3\n", 1, "not a trace", "'3': 1, 2 or no-since"),
    ("a_name", "lockup-history 1\nentry 0 load 1 1\n", 2, "not a command", "'entry': init or core"),
    ("no_access", "lockup-history 1\ncore 1\n", 2, "not a command", "end of the line: load, store, add or cas"),
    ("another_access", "lockup-history 1\ncore 1 swap 1 2\n", 2, "not a command", "'swap': load, store, add or cas"),
    ("no_reply", "lockup-history 1\ncore 1 load 7\n", 2, "not a command", "end of the line: a number"),
    ("a_reply_to_a_store", "lockup-history 1\ncore 1 store 7 1 0\n", 2, "not a command", "'0': the end of the line"),
    ("a_number", "lockup-history 1\n\ncore 1 cas 7 1 2 y\n", 3, "bad number", "'y': a number"),
    ("a_core", "lockup-history 1\ncore 64 load 0 0\n", 2, "out of range", "'64': a core, 0 to 63"),
    ("a_word", "lockup-history 1\ncore 0 add 524288 1 0\n", 2, "out of range", "'524288': a word, 0 to 524287"),
    ("a_word_to_begin_with", "lockup-history 1\ninit 524288 1\n", 2, "out of range", "'524288': a word, 0 to 524287"),
    ("times", "lockup-history 1\ncore 0 load 1 0 @5\n", 2, "bad number", "'@5': @BEGIN..END, the first not above the last"),
    ("times_with_a_word", "lockup-history 1\ncore 0 load 1 0 @5..x\n", 2, "bad number",
     "'@5..x': @BEGIN..END, the first not above the last"),
    ("times_that_go_back", "lockup-history 1\ncore 0 load 1 0 @5..4\n", 2, "out of range",
     "'@5..4': @BEGIN..END, the first not above the last"),
    ("times_before", "lockup-history 1\ncore 0 @1..2 load 1 0\n", 2, "not a command", "'@1..2': load, store, add or cas"),
    ("a_value_twice", "lockup-history 1\ninit 3 1\ninit 2 1\ncore 0 load 3 1\ninit 3 1\n", 5, "name used twice",
     "'3': another word than that in line 2"),
    ("after_a_value_twice", "lockup-history 1\ninit 3 1\ninit 3 1\nx\n", 3, "name used twice", "'3': another word than that in line 2"),
])
def test_errors(_: str, text: str, line: int, fault: str, hint: str) -> None:
    same("judge", (2, "", f"lockup: line {line}: {fault}\n"), tuple(lockup("judge", "-", text=text)))
    same("with a hint", (2, "", f"lockup: line {line}: {fault}   {hint}\n"), tuple(lockup("judge", "--explain", "-", text=text)))


def test_check_reads_no_history() -> None:
    same("check", (2, "", "lockup: line 1: not a trace   the text is a history: 'lockup judge' reads it\n"),
         tuple(lockup("check", "--explain", "-", text="lockup-history 1\n")))
