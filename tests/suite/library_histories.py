"""The judge of histories in the library, through Python and C: histories by hand, and drawn ones of several words, which
are incoherent exactly where a search through all orders finds none; each reason of a contradiction follows; each code,
which changes nothing; handles of another kind; and with each allocation refused in turn histories aren't begun, or end, or
stay as they are."""
import ctypes
import os
import random
import sys
import tempfile
from types import ModuleType

from harness import ROOT, each, each_refused, needs, run, same, seconds, want, write
from harness.library import INCLUDE, module, shared
from suite.histories import Access, History, drawn, spoiled
from suite.judged import LINES, is_sound, shuffled
from suite.library import IN_USE, NO_MACHINE, OK, OUT_OF_RANGE, Raw

NEVER = (1 << 64) - 1
FIELDS = ("core", "op", "word", "operand", "replacement", "reply", "begin", "end")
KINDS = ("load", "store", "add", "cas")


def accessed(**fields: int) -> ctypes.Array:
    return (ctypes.c_uint64 * 8)(*({"end": NEVER, **fields}.get(it, 0) for it in FIELDS))


def added(raw: Raw, **fields: int) -> int:
    words = accessed(**fields)
    return raw("judge_access", ctypes.addressof(words))[0]


# ---- what histories come to

def judged(library: ModuleType, init: dict[int, int], lines: list[tuple[int, Access]], limit: int = 1_000_000) -> tuple:
    with library.Histories(init) as histories:
        for word, it in lines:
            operand, replacement = (*it.words, 0, 0)[:2]
            histories.add(it.core, KINDS.index(it.kind), word, operand, replacement, it.reply, (it.begin, it.end))
        return histories.judge(limit)


# by hand: a store that is answered before a load begins comes first, and then the load finds 5
STORE, STALE = Access(0, "store", (5,), 0, 1, 4), Access(1, "load", (), 0, 5, 9)
BY_HAND = [
    ("nothing", {}, [], ("COHERENT", None, [])),
    ("what a word begins with", {7: 3}, [(7, Access(2, "load", (), 3))], ("COHERENT", None, [])),
    ("in time", {}, [(9, STORE), (9, Access(1, "load", (), 0, 4, 9))], ("COHERENT", None, [])),
    ("too late", {}, [(9, STORE), (8, STALE), (9, STALE)],
     ("INCOHERENT", 9, [("INITIAL", 2, 0, 0), ("INTERVAL", 0, 2, 2)])),
    ("of nobody", {1: 2}, [(1, Access(0, "load", (), 2)), (1, Access(3, "load", (), 4))],
     ("INCOHERENT", 1, [("UNWRITTEN", 1, 1, 1)])),
    ("both from 2", {6: 1}, [(6, Access(0, "store", (2,), 0)), (6, Access(0, "add", (5,), 2)), (6, Access(1, "add", (9,), 2))],
     ("INCOHERENT", 6, None)),
]  # None: which of several contradictions is told is left open


@each(lambda: BY_HAND)
def test_by_hand(_: str, init: dict, lines: list, wanted: tuple) -> None:
    verdict, word, reasons = judged(module(), init, lines)
    told = [(it.why.name, *it[1:]) for it in reasons]
    same("judgement", wanted[:2], (verdict.name, word))
    if wanted[2] is not None:
        same("reasons", wanted[2], told)


def said_of(reasons: tuple, accesses: dict[int, Access]) -> list[str]:
    """Returns the reasons in the words of `lockup judge`, with the accesses' numbers for lines."""
    said = []
    for why, first, last, other in reasons:
        if why.name == "UNWRITTEN":
            return [f"line {first}: got {accesses[first].reply}, which no access left"]
        value = accesses[{"SOURCE": last, "NOT_BETWEEN": other}.get(why.name, first)].reply
        form = {"first": first, "last": last, "core": accesses[first].core, "value": value, "source": other, "reader": other}
        said.append(f"line {first} before line {last}: {LINES[why.name.lower()].format(**form)}")
    return [*said, f"so line {reasons[-1].last} before itself"]


@seconds(20)
def test_drawn() -> None:
    library, draw = module(), random.Random("library")
    counts = {"COHERENT": 0, "INCOHERENT": 0, "UNDECIDED": 0}
    for _ in range(1500):
        words = {}
        for word in draw.sample(range(524_288) if draw.random() < .02 else range(40), draw.randrange(1, 4)):
            history = drawn(draw, draw.randrange(1, 8), draw.randrange(1, 5), draw.random() < .7, draw.random() < .7)
            words[word] = spoiled(draw, history) if draw.random() < .4 else history
        lines = shuffled(draw, words)
        init = {word: it.initial for word, it in words.items() if it.initial or draw.random() < .3}
        verdict, word, reasons = judged(library, init, lines)
        counts[verdict.name] += 1
        wrong = [it for it, history in words.items() if not history.is_coherent()]
        what = f"{verdict} {word} {reasons} of {init} and {lines}"
        if verdict.name == "COHERENT":
            want(not wrong and word is None and not reasons, what)
        elif verdict.name == "INCOHERENT":
            accesses = {number: it for number, (of, it) in enumerate(lines) if of == word}
            want(word in wrong and is_sound(said_of(reasons, accesses), words[word].initial, accesses), what)
        else:
            want(not words[word].has_known_sources() and not reasons, what)
    want(min(counts["COHERENT"], counts["INCOHERENT"]) > 300, f"too few of one kind: {counts}")


def test_a_limit() -> None:
    """Where values repeat, orders are tried: in too few steps nothing is found, and in more an order is."""
    lines = [(9, Access(core, "store", (value,), 0)) for core in range(6) for value in (1, 2)]
    lines += [(9, Access(core, "load", (), 2)) for core in range(6)]
    for limit, wanted in (3, ("UNDECIDED", 9, ())), (1_000_000, ("COHERENT", None, ())):
        verdict, *rest = judged(module(), {}, lines, limit)
        same(f"limit {limit}", wanted, (verdict.name, *rest))


def test_judged_again() -> None:
    """Accesses may come after a judgement, and the reasons are those of the last."""
    raw = Raw()
    same("new", OK, raw("judge_new")[0])
    same("a store of 5", OK, added(raw, core=0, op=1, word=3, operand=5))
    same("no reason yet", (OUT_OF_RANGE, [0] * 4), raw("judge_reason", 0, out=4))
    same("coherent", (OK, [0, 0, 0]), raw("judge_verdict", 9, out=3))
    same("a load of 6", OK, added(raw, core=1, word=3, reply=6))
    same("no reason before it is judged", (OUT_OF_RANGE, [0] * 4), raw("judge_reason", 0, out=4))
    same("incoherent", (OK, [1, 3, 1]), raw("judge_verdict", 9, out=3))
    same("no access left 6", (OK, [0, 1, 1, 1]), raw("judge_reason", 0, out=4))
    for nth in (1, NEVER):
        same(f"reason {nth}", (OUT_OF_RANGE, [0] * 4), raw("judge_reason", nth, out=4))
    same("a store of 6", OK, added(raw, core=2, op=1, word=3, operand=6))
    same("the reason stays", (OK, [0, 1, 1, 1]), raw("judge_reason", 0, out=4))
    same("coherent again", (OK, [0, 0, 0]), raw("judge_verdict", 9, out=3))
    same("and has none", (OUT_OF_RANGE, [0] * 4), raw("judge_reason", 0, out=4))
    same("free", [OK, None], [raw("judge_free")[0], raw.handle.value])


# ---- codes

def test_codes() -> None:
    raw = Raw()
    same("no histories", (NO_MACHINE, [0] * 3), raw("judge_verdict", 0, out=3))
    same("nothing to free", NO_MACHINE, raw("judge_free")[0])
    same("new", [OK, IN_USE], [raw("judge_new")[0] for _ in range(2)])
    same("words", [OK, OK, OUT_OF_RANGE, OUT_OF_RANGE], [raw("judge_begin", it, 7)[0] for it in (5, 524_287, 524_288, NEVER)])
    same("a word that has a value", OUT_OF_RANGE, raw("judge_begin", 5, 8)[0])
    for fields in ({"core": 64}, {"core": NEVER}, {"op": 4}, {"word": 524_288}, {"begin": 5, "end": 4}, {"begin": 1, "end": 0},
                   {"op": NEVER}, {"word": NEVER}):
        same(f"{fields}", OUT_OF_RANGE, added(raw, reply=99, **fields))
    same("nothing is there yet", (OK, [0, 0, 0]), raw("judge_verdict", 0, out=3))
    for fields in ({"core": 63, "word": 524_287, "reply": 7}, {"begin": 4, "end": 4}, {"begin": NEVER}):
        same(f"{fields}", OK, added(raw, **fields))
    same("a store's reply means nothing", OK, added(raw, op=1, word=5, operand=1, reply=9))
    same("a beginning behind accesses", OK, raw("judge_begin", 6, 8)[0])
    same("a load of the first value", OK, added(raw, core=1, word=5, reply=7))
    same("all is coherent", (OK, [0, 0, 0]), raw("judge_verdict", 0, out=3))
    same("free", [OK, None], [raw("judge_free")[0], raw.handle.value])


def test_handles_of_the_other_kinds() -> None:
    raw, words = Raw(), accessed()
    calls = [("judge_begin", [0, 7], 0), ("judge_access", [ctypes.addressof(words)], 0), ("judge_verdict", [9], 3),
             ("judge_reason", [0], 4)]
    for name, made, freed in (("nothing", None, None), ("a machine", raw.make, "free"),
                              ("a trace", lambda: raw("check_new")[0], "check_free")):
        if made:
            same(f"{name} is made", OK, made())
            same(f"histories in the place of {name}", IN_USE, raw("judge_new")[0])
        for call, numbers, out in calls:
            same(f"{call} of {name}", (NO_MACHINE, [0] * out), raw(call, *numbers, out=out))
        if freed:
            same(f"{name} is freed", OK, raw(freed)[0])
    same("new", OK, raw("judge_new")[0])
    entry = (ctypes.c_uint64 * 9)()
    for call, numbers, out in (("quiet", [], 1), ("check_begin", [0, 7], 0), ("check_entry", [ctypes.addressof(entry)], 0),
                               ("check_verdict", [], 2), ("evict", [0, 0], 1)):
        same(f"{call} of histories", (NO_MACHINE, [0] * out), raw(call, *numbers, out=out))
    same("a machine in their place", IN_USE, raw.make())
    same("they are there", (OK, [0, 0, 0]), raw("judge_verdict", 9, out=3))
    same("free", OK, raw("judge_free")[0])


def test_errors_of_python() -> None:
    library = module()
    with library.Histories({3: 1}) as histories:
        for call in (lambda: histories.begin(3, 2), lambda: histories.add(64, 0, 0),
                     lambda: histories.add(0, 0, 0, during=(2, 1))):
            try:
                call()
                want(False, "nothing was raised")
            except library.OutOfRange:
                pass
        same("they are there", library.Coherence.COHERENT, histories.judge().verdict)
    try:
        histories.judge()
        want(False, "closed histories are judged")
    except library.NoMachine:
        pass


WITHOUT_MEMORY = """
#include "lockup.h"
#include <stdio.h>
#include <stdlib.h>
static void ended(lockup_judge *judge) {
    lockup_judgement judgement = {7, 7, 7};
    uint32_t code = lockup_judge_verdict(judge, 9, &judgement);
    printf("ended %d %u\\n", judge->at == NULL, code);
    exit(lockup_judge_free(judge) != LOCKUP_NO_MACHINE);
}
int main(void) {
    lockup_judge judge = {0};
    lockup_judgement judgement = {7, 7, 7};
    uint32_t code = lockup_judge_new(&judge);
    if (code == LOCKUP_NO_MEMORY) return printf("none %d\\n", judge.at == NULL) < 0;
    for (uint64_t word = 0; word < 40; word++)
        if (lockup_judge_begin(&judge, 3 * word, word + 1)) ended(&judge);
    for (uint64_t number = 0; number < 300; number++) {
        uint64_t word = number % 40;
        uint64_t op = number < 40 ? LOCKUP_LOAD : LOCKUP_STORE;
        lockup_access access = {number % 64, op, 3 * word, number, 0, word + 1, number, number};
        if (lockup_judge_access(&judge, &access)) ended(&judge);
    }
    lockup_access stale = {1, LOCKUP_LOAD, 9, 0, 0, 4, 400, 400};
    if (lockup_judge_access(&judge, &stale)) ended(&judge);
    uint32_t first = lockup_judge_verdict(&judge, 9, &judgement);
    if (first == LOCKUP_NO_MEMORY && (judgement.verdict || judgement.word || judgement.reasons)) return 3;
    if (first && lockup_judge_verdict(&judge, 9, &judgement)) return 4;
    printf("%s %d %d ", first ? "once more" : "whole", (int)judgement.verdict, (int)judgement.word);
    printf("%d\\n", judgement.reasons > 1);
    return lockup_judge_free(&judge) != LOCKUP_OK;
}
"""


@seconds(5)
def test_without_memory() -> None:
    """With each allocation refused in turn histories aren't begun, or end, or are judged by the next call."""
    needs("cc")
    with tempfile.TemporaryDirectory() as room:
        source, made = write(f"{room}/histories.c", WITHOUT_MEMORY), f"{room}/histories"
        library = shared()
        words = ["cc", "-Wall", "-Wextra", "-Werror", f"-I{INCLUDE}", source, library, f"-Wl,-rpath,{library.parent}"]
        same("the compiler", (0, "", ""), tuple(run([*words, "-o", made])))
        told = []
        for refused, ran in each_refused([made]):
            same(f"status with allocation {refused} refused", (0, ""), (ran.status, ran.err))
            told.append(ran.out)
        same("with ample memory", "whole 1 9 1\n", told[0])
        same("what is said", {"whole 1 9 1\n", "once more 1 9 1\n", "none 1\n", f"ended 1 {NO_MACHINE}\n"}, set(told))


# ---- a window at a time

WINDOWS = """
import random, resource, sys
from lockup import Histories, Op
words, begins, time, wrong = dict.fromkeys(range(16), 0), dict.fromkeys(range(16), 0), 0, int(sys.argv[1])
draw, lost = random.Random(3), None
for window in range(24):
    with Histories(init=begins) as histories:
        for nth in range(10_000):
            time, word = time + 2, draw.randrange(16)
            histories.add(draw.randrange(4), Op.ADD, word, operand=1, reply=words[word], during=(time, time + 1))
            is_lost = window == wrong and nth == (9_999 if wrong % 2 else 0)
            words[word] += not is_lost
            lost = word if is_lost else lost
        for word in words:
            time += 2
            histories.add(0, Op.LOAD, word, reply=words[word], during=(time, time + 1))
        begins = dict(words)
        judged = histories.judge()
        print(judged.verdict.name, judged.word, lost)
    if window == 3:
        had = resource.getrusage(resource.RUSAGE_SELF).ru_maxrss
print(resource.getrusage(resource.RUSAGE_SELF).ru_maxrss - had)
"""


@seconds(30)
@each(lambda: ["-1", "0", "11", "23"])
def test_windows(wrong: str) -> None:
    """A lost add, the first or the last of a window, is found there and nowhere else, and memory is that of one window."""
    module()
    ran = run([sys.executable, "-c", WINDOWS, wrong], env={**os.environ, "PYTHONPATH": str(ROOT / "python")})
    *told, grown = ran.out.splitlines()
    same("windows", (24, ""), (len(told), ran.err))
    for window, (verdict, word, lost) in enumerate(map(str.split, told)):
        same(f"window {window}", ("INCOHERENT", lost) if str(window) == wrong else ("COHERENT", "None"), (verdict, word))
    want(int(grown) < 8 * 1024, f"memory grows by {grown} KB")
