"""Runs random scripts, and checks all that they print by docs/TEXTS.md and docs/TRUST.md alone.

Eight cores meet on four lines of two slices, and each core's array of a slice has room for one
line. Scripts of twenty seeds with 5000 calls each run with both kinds of miss registers, with and
without the exclusive state. After each call the script shows the state of each line. What is
looked for:

- at any time one core may write a line and no other may read it, or none may write it;
- a home copy that the directory has in I or S holds what was performed last, as far as answers tell
  what that is: the log's length is known where a request is accepted, by the SINCE of its entry;
- each reply is what the word had by the entries before it, and each word is at the end what all
  entries leave;
- each request that was accepted is an entry of the log, once, and its reply comes once: from
  `issue` or from `hand`;
- a core's requests of a line are performed in the order in which they were asked for;
- `stats` counts what was answered; no answer is `broken`; `lockup check` finds each log legal.

It sees the program as a user does, and shares no code with it; `account` predicts each call through
the library.
"""
import itertools
import random
from typing import Iterator

from harness import Different, each, lockup, seconds, want

CORES, SLICES, LINES, WORDS, TAGS = 8, 2, 4, 8, 12
MODULUS = 1 << 64
WRITERS = {"M", "E"}
READERS = WRITERS | {"S", "SM_AD", "SM_A"}
STALLS = 5
SEEDS, CALLS = 20, 5000


def settings_of(misses: str, exclusive: str, seed: int) -> str:
    policy = ("lru", "fifo", f"random {seed}")[seed % 3]
    counts = f"cores {CORES}\nslices {SLICES}\nlines {LINES}\nsets 1\nways 1\nmshrs 2\ntargets {2 + seed % 2}\n"
    counts += f"writebacks {1 + seed // 2 % 2}\npolicy {policy}\nmisses {misses}\nexclusive {exclusive}\n"
    return counts + "".join(f"init {WORDS * line} {100 + line}\n" for line in range(LINES))


def initial_values() -> list[int]:
    return [100 + word // WORDS if word % WORDS == 0 else 0 for word in range(WORDS * LINES)]


def draw_access(draw: random.Random, line: int) -> str:
    word = WORDS * line + draw.randrange(WORDS)
    kind = draw.randrange(8)
    if kind < 4:
        return f"load {word}"
    if kind < 5:
        return f"store {word} {draw.getrandbits(64)}"
    if kind < 7:
        return f"add {word} {draw.getrandbits(64)}"
    # words that nobody wrote are 0, so that some compare-exchanges match
    return f"cas {word} 0 {draw.getrandbits(64)}"


def deliveries(draw: random.Random, line: int, core: int) -> list[str]:
    """Asks for a line's messages of one class: those of all cores, or all acknowledgements for one,
    in any order."""
    others = draw.sample(range(CORES), CORES)
    kind = draw.choice(("req", "fwd", "data", "ack", "home"))
    if kind == "home":
        return [f"deliver home {line}"]
    if kind == "ack":
        return [f"deliver ack {line} {core} {other}" for other in others]
    return [f"deliver {kind} {line} {other}" for other in others]


def draw_calls(seed: int) -> Iterator[str]:
    """Commands that change something. Half of the time the line and the core that were drawn last
    are drawn again."""
    draw = random.Random(seed)
    core = line = 0
    # where few messages are delivered, they and the targets pile up; where many are, copies are
    # there to hit
    pace = 8 * (seed % 5)
    while True:
        if draw.randrange(2):
            core = draw.randrange(CORES)
        if draw.randrange(2):
            line = draw.randrange(LINES)
        kind = draw.randrange(40 + pace)
        if kind < 16:
            yield f"issue {core} {draw.randrange(TAGS)} {draw_access(draw, line)}"
        elif kind < 18:
            yield f"evict {core} {line}"
        elif kind < 27:
            yield f"hand {draw.randrange(CORES)} {draw.randrange(SLICES)}"
        elif kind < 32:
            yield from deliveries(draw, line, core)
        else:
            yield "pump 1"


def commands_of(seed: int, calls: int) -> Iterator[str]:
    """The calls, each with a look at all lines after it, then all that is still under way, and all
    there is to see."""
    states = [f"state {line}" for line in range(LINES)]
    for call in itertools.islice(draw_calls(seed), calls):
        yield call
        yield from states
    yield "pump 100000"
    for core in range(CORES):
        for slice_number in range(SLICES):
            yield from [f"hand {core} {slice_number}"] * (TAGS + 1)
    yield from states
    yield from (f"word {word}" for word in range(WORDS * LINES))
    yield "stats"
    yield from (f"log {slice_number}" for slice_number in range(SLICES))


def after(access: list[str], value: int) -> int:
    """What an access leaves of a word's value."""
    kind, numbers = access[0], [int(it) for it in access[2:]]
    if kind == "load":
        return value
    if kind == "store":
        return numbers[0]
    if kind == "add":
        return (value + numbers[0]) % MODULUS
    return numbers[1] if value == numbers[0] else value


class Entry:
    """A line of a log: `entry CORE SEQ TAG ACCESS.. REPLY SINCE`."""

    def __init__(self, text: str) -> None:
        words = text.split(" ")
        self.core, self.seq, self.tag = int(words[1]), int(words[2]), int(words[3])
        self.access = words[4:-2]
        self.word = int(self.access[1])
        self.reply, self.since = int(words[-2]), int(words[-1])


def entries_of(text: list[str]) -> list[Entry]:
    return [Entry(line) for line in text if line.startswith("entry ")]


class Line:
    """What a line's words were, by the length of its slice's log: a row for each entry that writes
    one of them."""

    def __init__(self, number: int, values: list[int]) -> None:
        self.number = number
        self.rows = [(0, tuple(values[WORDS * number : WORDS * number + WORDS]))]
        self.at = 0

    def write(self, length: int, word: int, value: int) -> None:
        words = list(self.rows[-1][1])
        words[word % WORDS] = value
        self.rows.append((length, tuple(words)))

    def is_newest(self, words: tuple[int, ...], least: int, most: int) -> bool:
        """Whether the words may be the newest, where the log has so many entries at least and at
        most. `least` and `most` never decrease from one call to the next."""
        while self.at + 1 < len(self.rows) and self.rows[self.at + 1][0] <= least:
            self.at += 1
        while self.at < len(self.rows) and self.rows[self.at][0] <= most:
            if self.rows[self.at][1] == words:
                return True
            self.at += 1
        return False


def replay(logs: list[list[Entry]]) -> tuple[list[int], list[Line]]:
    """Checks the replies and the order of the logs. Returns what the words are in the end, and what
    each line was."""
    values = initial_values()
    lines = [Line(number, values) for number in range(LINES)]
    for slice_number, log in enumerate(logs):
        last = {}
        for number, entry in enumerate(log):
            line = entry.word // WORDS
            before = values[entry.word]
            want(line % SLICES == slice_number, f"entry {number} is another slice's")
            want(entry.reply == (0 if entry.access[0] == "store" else before), f"reply of entry {number}")
            want(entry.since <= number, f"since of entry {number}")
            want(last.get((entry.core, line), -1) < entry.seq, f"order of entry {number}")
            last[entry.core, line] = entry.seq
            values[entry.word] = after(entry.access, before)
            if values[entry.word] != before:
                lines[line].write(number + 1, entry.word, values[entry.word])
    return values, lines


class Judge:
    """Goes through a script's commands with their answers."""

    def __init__(self, logs: list[list[Entry]]) -> None:
        self.logs = logs
        self.values, self.lines = replay(logs)
        self.by_seq = [{(it.core, it.seq): number for number, it in enumerate(log)} for log in logs]
        self.accepted = [[0] * CORES for _ in range(SLICES)]
        self.answered = [set() for _ in range(SLICES)]
        self.tags = {}
        self.counts = [[0] * 8 for _ in range(CORES)]
        # how long each log is at least, and what is known of it later on, the last first
        self.least = [0] * SLICES
        self.known = [[] for _ in range(SLICES)]
        self.seen = {}

    def look_ahead(self, pairs: list[tuple[str, str]]) -> None:
        """How long the logs were where requests were accepted."""
        taken = [[0] * CORES for _ in range(SLICES)]
        for place, (command, answer) in enumerate(pairs):
            if not command.startswith("issue ") or not answer.startswith(("done ", "pending ")):
                continue
            words = command.split(" ")
            core, slice_number = int(words[1]), int(words[4]) // WORDS % SLICES
            seq = taken[slice_number][core]
            taken[slice_number][core] += 1
            want((core, seq) in self.by_seq[slice_number], f"request {seq} of core {core} is in no log")
            entry = self.logs[slice_number][self.by_seq[slice_number][core, seq]]
            self.known[slice_number].append((place, entry.since))
        for known in self.known:
            known.reverse()

    def judge(self, place: int, command: str, answer: str) -> None:
        want(not answer.startswith("broken"), "broken")
        words, answers = command.split(" "), answer.split(" ")
        for slice_number, known in enumerate(self.known):
            while known and known[-1][0] <= place:
                self.least[slice_number] = max(self.least[slice_number], known.pop()[1])
        getattr(self, words[0], self.nothing)(words, answers)

    def nothing(self, words: list[str], answers: list[str]) -> None:
        pass

    def issue(self, words: list[str], answers: list[str]) -> None:
        core, tag, access = int(words[1]), int(words[2]), words[3:]
        slice_number = int(access[1]) // WORDS % SLICES
        key = (slice_number, core, tag)
        if answers[0] == "stall":
            self.counts[core][2 + int(answers[1])] += 1
            return
        if answers[0] == "refused":
            want(answers[1] == "3" and key in self.tags, "a request is refused")
            return
        want(key not in self.tags, "a tag is taken twice")
        seq = self.accepted[slice_number][core]
        self.accepted[slice_number][core] += 1
        number = self.by_seq[slice_number][core, seq]
        entry = self.logs[slice_number][number]
        want(entry.tag == tag and entry.access == access, "the log has another request")
        if answers[0] == "done":
            want(answers[1:] == [str(number), "reply", str(entry.reply)] and entry.since == number, "done")
            self.answer(slice_number, number)
            self.counts[core][0] += 1
        else:
            want(answers == ["pending", str(seq)], "pending")
            self.tags[key] = number
            self.counts[core][1] += 1

    def answer(self, slice_number: int, number: int) -> None:
        want(number not in self.answered[slice_number], "a reply comes twice")
        self.answered[slice_number].add(number)
        self.least[slice_number] = max(self.least[slice_number], number + 1)

    def hand(self, words: list[str], answers: list[str]) -> None:
        if answers == ["none"]:
            return
        core, slice_number = int(words[1]), int(words[2])
        number, tag, reply = int(answers[1]), int(answers[3]), int(answers[5])
        want(self.tags.pop((slice_number, core, tag), None) == number, "a receipt of another request")
        want(self.logs[slice_number][number].reply == reply, "the reply of a receipt")
        self.answer(slice_number, number)

    def state(self, words: list[str], answers: list[str]) -> None:
        line = int(words[1])
        slice_number = line % SLICES
        text = " ".join(answers)
        if self.seen.get(line, (None,))[0] != text:
            home = answers.index("home")
            copies = answers[answers.index("cores") + 1 :]
            want(len(copies) == CORES, "copies")
            readers = sum(it in READERS for it in copies)
            writers = sum(it in WRITERS for it in copies)
            want(writers == 0 or readers == 1, f"{writers} writers and {readers} readers: {text}")
            is_home = answers[answers.index("dir") + 1] in ("I", "S")
            self.seen[line] = (text, is_home and tuple(int(it) for it in answers[home + 1 : home + 1 + WORDS]))
        words_at_home = self.seen[line][1]
        if words_at_home:
            known = self.known[slice_number]
            most = known[-1][1] if known else len(self.logs[slice_number])
            want(
                self.lines[line].is_newest(words_at_home, self.least[slice_number], most),
                f"the home copy isn't the newest: {text}",
            )

    def word(self, words: list[str], answers: list[str]) -> None:
        want(answers == [str(self.values[int(words[1])])], f"word {words[1]}")

    def end(self, report: list[str]) -> None:
        want(not self.tags, "requests were lost")
        for slice_number, log in enumerate(self.logs):
            want(self.answered[slice_number] == set(range(len(log))), "replies were lost")
        for core, row in enumerate(report[1 : 1 + CORES]):
            numbers = [int(it) for it in row.split()]
            hits, pending, stalls = numbers[1], numbers[2] + numbers[3], numbers[4 : 4 + STALLS]
            want([hits, pending] == self.counts[core][:2] and stalls == self.counts[core][3:], f"counts of core {core}")


def answers_of(settings: str, commands: list[str]) -> list[str]:
    ran = lockup("script", "-", text=settings + "\n".join(commands) + "\n")
    want(ran.status == 0 and ran.err == "", f"status {ran.status}: {ran.err}")
    return ran.out.split("\n")


def traces_of(answers: list[str]) -> list[list[str]]:
    """The trace of each slice."""
    traces, slice_number = [[] for _ in range(SLICES)], -1
    for line in answers:
        slice_number += line.startswith("lockup-trace ")
        traces[slice_number].append(line)
    return traces


def settings() -> Iterator[tuple]:
    for misses, exclusive, seed in itertools.product(("explicit", "inverted"), ("off", "on"), range(SEEDS)):
        yield f"misses {misses}, exclusive {exclusive}, seed {seed}", misses, exclusive, seed


@seconds(3)
@each(settings)
def test_script(_: str, misses: str, exclusive: str, seed: int) -> None:
    commands = list(commands_of(seed, CALLS))
    answers = answers_of(settings_of(misses, exclusive, seed), commands)
    plain = len(commands) - SLICES - 1
    report = answers[plain : plain + CORES + 2]
    traces = traces_of(answers[plain + len(report) : -1])
    judge = Judge([entries_of(trace) for trace in traces])
    pairs = list(zip(commands[:plain], answers))
    judge.look_ahead(pairs)
    for place, (command, answer) in enumerate(pairs):
        try:
            judge.judge(place, command, answer)
        except Different as difference:
            raise Different(f"command {place}, `{command}`, answered `{answer}`: {difference}") from None
    judge.end(report)
    for trace, log in zip(traces, judge.logs):
        checked = lockup("check", "-", text="\n".join(trace) + "\n")
        want(checked.out == f"legal {len(log)} entries\n", f"check says {checked.out}{checked.err}")
