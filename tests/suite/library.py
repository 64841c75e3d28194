"""The C library, and what stands on it.

- The first page of lockup.h compiles with one command, over the archive alone, as C and as C++.
- Each example script is played through C calls (tests/harness/player.c) to the answers that stand
  beside it, which were worked out by hand; 100,000 random calls, with both miss files and with E, to
  those of `lockup script`, `waiting` and `show` among them; valgrind finds no error, and two threads
  with a machine each the same.
- With each allocation refused in turn the call says so once, and made again all goes on as before.
- Each code is met, changes nothing, and leaves zeros; a configuration is refused for its first field;
  each pointer of each function that is NULL is caught. A trace ends where it lacks memory.
- A machine of 64 cores that all share lines, and its copy; each place of each list of the largest
  machine; a trace of 6,000 entries, whose verdict is right after each.
- The Python module: its own examples, errors, what it refuses, the judge of traces beside `check`,
  and `pip install` without the network.
- The prototypes of the Python module and of the SystemVerilog package are those of lockup.h, and so
  are their numbers.
"""
import copy
import ctypes
import doctest
import os
import pickle
import random
import re
import shutil
import sys
import tempfile
from contextlib import contextmanager
from pathlib import Path
from typing import Iterator

from harness import (
    ROOT, Ran, Skipped, each, each_refused, lockup, needs, program, read, run, same, seconds, want, write,
)
from harness.library import FIRST_SAYS, INCLUDE, archive, module, part_of, player, shared
from harness.scripts import example, examples, is_trace

FIRST = ROOT / "examples/library/first.c"
CALLS = 100_000
HEADER = INCLUDE / "lockup.h"


def played(script: str, *words: str, under: tuple[str, ...] = ()) -> Ran:
    """Plays a script through the C library."""
    return run([*under, player(), *words], script)


# ---- C

@each(lambda: ["c89", "c99", "c11", "c++98", "c++11", "c++17"])
def test_dialects(dialect: str) -> None:
    """The headers are a program's in each dialect, with every warning."""
    kind = "c++" if "+" in dialect else "cc"
    needs(kind)
    with tempfile.TemporaryDirectory() as room:
        file = write(f"{room}/only{'.cc' if '+' in dialect else '.c'}", '#include "lockup_scoreboard.h"\nint main(void) { '
                     "lockup_machine machine = {0};\n    return (int)lockup_free(&machine) + LOCKUP_VERSION_MAJOR; }\n")
        made = run([kind, f"-std={dialect}", "-pedantic-errors", "-Wall", "-Wextra", "-Werror", "-I", INCLUDE, "-c", file,
                    "-o", f"{room}/only.o"])
        same("what the compiler says", (0, "", ""), tuple(made))


# by the names of their lists, the enums of the module whose members they name
NAMED = {"op": "Op", "channel": "Channel", "answer": "Answer", "stall": "Stall", "refused": "Refused", "evicted": "Evicted",
         "delivered": "Delivered", "message": "MessageKind", "copy_state": "CopyState", "directory_state": "DirectoryState",
         "policy": "Policy", "misses": "Misses", "verdict": "Verdict", "judgement": "Coherence"}
NAMES = """#include "lockup_names.h"
#include <stdio.h>
#define SHOW(kind) for (number = 0; number < 128; number++) { \\
    const char *name = LOCKUP_NAME(kind, number); \\
    if (strcmp(name, "?")) printf("%s %d %d %s\\n", #kind, (int)number, LOCKUP_NUMBER(kind, name) == number, name); }
int main(void) {
    uint64_t number;
    KINDS
    return LOCKUP_NUMBER(op, "jump") == LOCKUP_NO_NUMBER ? 0 : 1;
}
"""


def in_words(kind: str, name: str) -> str:
    """The name of an enum's member as texts have it."""
    if kind in ("CopyState", "DirectoryState"):
        return name
    if kind in ("Stall", "Refused"):
        return name.title().replace("_", "")
    if kind == "MessageKind":
        part = {"GETS": "GetS", "GETM": "GetM", "PUTS": "PutS", "PUTM": "PutM"}
        return "Data home" if name == "HOME" else "-".join(part.get(it, it.title()) for it in name.split("_"))
    return name.lower().replace("_", " ")


def test_names() -> None:
    """Each number has the name that texts have, both ways: that of the module's enums, and of the reader of a configuration."""
    needs("cc")
    library = module()
    with tempfile.TemporaryDirectory() as room:
        kinds = "\n    ".join(f"SHOW({kind})" for kind in [*NAMED, "code"])
        file = write(f"{room}/names.c", NAMES.replace("KINDS", kinds))
        made = run(["cc", "-Wall", "-Wextra", "-Werror", "-I", INCLUDE, file, archive(), "-o", f"{room}/names"])
        same("what the compiler says", (0, "", ""), tuple(made))
        ran = run([f"{room}/names"])
    same("status", 0, ran.status)
    told = [line.split(maxsplit=3) for line in ran.out.splitlines()]
    same("both ways", {"1"}, {both for _, _, both, _ in told})
    found = {(kind, int(number), name) for kind, number, _, name in told}
    wanted = {(kind, int(it), in_words(enum, it.name)) for kind, enum in NAMED.items() for it in getattr(library, enum)}
    same("names", wanted - {("channel", 5, "any")}, {it for it in found if it[0] != "code"})
    error_of = sys.modules["lockup.errors"].error_of
    codes = {number: name for kind, number, name in found if kind == "code"}
    same("codes", [*range(9), *range(101, 111)], sorted(codes))
    for number in range(101, 111):
        same(f"code {number}", str(error_of(number)), codes[number])


def test_version() -> None:
    parts = dict(re.findall(r"#define LOCKUP_VERSION_(\w+) (\d+)", read(HEADER)))
    library = module()
    same("version", ".".join(parts[it] for it in ("MAJOR", "MINOR", "PATCH")), library.library_version())
    same("version of the module", library.library_version(), library.__version__)


@each(lambda: ["c", "c++"])
def test_first_page(language: str) -> None:
    """With the archive alone, and nothing else on the command."""
    needs("cc")
    with tempfile.TemporaryDirectory() as room:
        words = ["cc", "-x", language, FIRST, "-x", "none", f"-I{INCLUDE}", archive(), "-o", f"{room}/first"]
        made = run([*words, "-Wall", "-Wextra", "-Wpedantic", "-Werror"])
        same("the compiler", (0, "", ""), tuple(made))
        same("output", (0, FIRST_SAYS, ""), tuple(run([f"{room}/first"])))


@seconds(70)
def test_an_unproved_library() -> None:
    """What tools/library --unproved builds has the functions of the header, and does what the first page says."""
    needs("rt", "cc", "nm")
    with tempfile.TemporaryDirectory() as room:
        made = run([ROOT / "tools/library", "--unproved", room], timeout=None)
        same("tools/library --unproved", (0, ""), (made.status, made.err))
        built, linked = map(Path, made.out.split())
        named = {line.split()[-1] for line in run(["nm", "-D", "--defined-only", linked]).out.splitlines()}
        same("the functions", set(re.findall(r"^uint32_t (lockup_\w+)\(", read(HEADER), re.M)), named)
        for library in (built, linked):
            words = ["cc", FIRST, f"-I{INCLUDE}", library, f"-Wl,-rpath,{linked.parent}", "-o", f"{room}/first"]
            same("the compiler", (0, "", ""), tuple(run(words)))
            same(library.name, (0, FIRST_SAYS, ""), tuple(run([f"{room}/first"])))


def without_rings(answers: str) -> str:
    """Returns answers without what the player doesn't print of `show`: replies that wait, and rings."""
    return re.sub(r"^(core \d+ tag \d+ entry \d+|slice \d+ ring.*)\n", "", answers, flags=re.M)


def scripts() -> list[str]:
    return [name for name in examples() if not is_trace(example(name))]


@each(scripts)
def test_worked(name: str) -> None:
    wanted = without_rings(read(ROOT / f"examples/{name}.out"))
    same("answers", (0, wanted, ""), tuple(played(example(name))))


def access_of(draw: random.Random, words: int) -> str:
    kind = draw.choice(("load", "store", "add", "cas"))
    numbers = {"load": 0, "cas": 2}.get(kind, 1)
    word = draw.randrange(words) if draw.randrange(50) else words + draw.randrange(9)
    return " ".join([kind, str(word), *(str(draw.randrange(4)) for _ in range(numbers))])


def command_of(draw: random.Random, cores: int, slices: int, lines: int) -> str:
    core, other, line = draw.randrange(cores), draw.randrange(cores), draw.randrange(lines)
    kinds = {
        f"issue {core} {draw.choice((*range(12), 63, 64, 255))} {access_of(draw, lines * 8)}": 20,
        f"deliver {draw.choice(('req', 'fwd', 'data'))} {line} {core}": 50,
        f"deliver ack {line} {core} {other}": 8,
        f"deliver home {line}": 4,
        f"pump {draw.randrange(1, 2 * slices + 1)}": 2,
        f"hand {core} {draw.randrange(slices)}": 12,
        f"evict {core} {line}": 4,
        f"word {draw.randrange(lines * 8)}": 2,
        f"state {line}": 2,
        "stats": 1,
        "waiting": 1,
        "show": 1,
    }
    return draw.choices([*kinds], [*kinds.values()])[0]


def random_script(seed: int, count: int) -> str:
    """Returns random commands; odd seeds have an inverted file, every second two of them E."""
    draw = random.Random(seed)
    cores, slices, lines = draw.choice((2, 3, 4)), draw.choice((1, 2, 4)), 4
    rows = [f"cores {cores}", f"slices {slices}", f"lines {lines}", "sets 1", f"ways {draw.choice((1, 2))}",
            f"mshrs {draw.choice((1, 2))}", "targets 2", "writebacks 1", f"misses {('explicit', 'inverted')[seed % 2]}",
            f"policy {draw.choice(('lru', 'fifo', 'random 5'))}", f"exclusive {('off', 'on')[seed // 2 % 2]}",
            "init 3 9", f"init 17 {(1 << 64) - 1}", "counter 8"]
    rows += [command_of(draw, cores, slices, lines) for _ in range(count)]
    return "".join(f"{row}\n" for row in [*rows, *(f"log {it}" for it in range(slices))])


def answers_of(script: str) -> tuple[int, str, str]:
    ran = lockup("script", "-", text=script)
    return ran.status, without_rings(ran.out), ran.err


@seconds(30)
@each(lambda: [(f"seed {seed}", seed) for seed in range(4)])
def test_random_calls(_: str, seed: int) -> None:
    script = random_script(seed, CALLS // 4)
    ran = played(script)
    same("answers", answers_of(script), tuple(ran))
    # enough came of them
    for answer in ("done", "pending", "stall", "moved", "blocked", "receipt", "refused 3", "left",
                   r"deliver .*   moves", r"deliver .*   blocked: ", r"core \d+ tag \d+ awaits "):
        want(len(re.findall(f"^{answer}", ran.out, re.M)) > 5, f"few answers are {answer}")


@seconds(5)
def test_two_threads() -> None:
    script = random_script(5, 20_000)
    same("answers", tuple(played(script)), tuple(played(script, "2")))


@seconds(30)
def test_valgrind() -> None:
    needs("valgrind")
    script = random_script(6, 3_000)
    valgrind = ("valgrind", "-q", "--error-exitcode=9", "--leak-check=full", "--show-leak-kinds=all",
                "--main-stacksize=16777216")
    same("answers under valgrind", answers_of(script), tuple(played(script, under=valgrind)))


@seconds(20)
@each(lambda: [("explicit", 8), ("inverted", 9)])
def test_refused_allocations(_: str, seed: int) -> None:
    """The player makes a call once more that lacked memory: nothing else may differ. A call may do without an
    allocation."""
    script, wanted, told = random_script(seed, 400), None, 0
    for refused, ran in each_refused([player()], script):
        wanted = wanted if refused else ran.out
        told += ran.err == "no memory 1\n"
        same(f"with allocation {refused} refused", (0, wanted), (ran.status, ran.out))
        want(ran.err in ("", "no memory 1\n"), f"with allocation {refused} refused: {ran.err}")
    want(told > 5, f"{told} calls lacked memory")


# ---- codes

def fields_of(**fields: int) -> ctypes.Array:
    """Returns the fields of a configuration, as the library takes them."""
    values = module().Config(**fields)._values
    return (ctypes.c_uint64 * len(values))(*values)


class Raw:
    """The functions of the shared object, on a handle and a buffer of its own."""

    def __init__(self) -> None:
        module()
        self.functions = part_of("library").library()
        self.handle, self.buffer = ctypes.c_void_p(), (ctypes.c_uint64 * 16)()

    def __call__(self, name: str, *words: int, out: int = 0) -> tuple[int, list[int]]:
        """Calls a function whose output has `out` words. Returns its code and these."""
        for place in range(16):
            self.buffer[place] = 77
        buffer = [ctypes.addressof(self.buffer)] * (out > 0)
        code = getattr(self.functions, name)(ctypes.byref(self.handle), *words, *buffer)
        want(all(it == 77 for it in self.buffer[out:]), f"{name} writes behind its {out} words")
        return code, list(self.buffer[:out])

    def make(self, **fields: int) -> int:
        values = fields_of(**fields)
        return self("make", ctypes.addressof(values))[0]


OK, NO_MACHINE, OUT_OF_RANGE, NO_MEMORY, IN_USE, NULL = range(6)
# each function with a handle: words that are right on a machine of 2 cores, 1 slice and 16 lines, and of its output
FUNCTIONS = {
    "issue": ([0, 0, 0, 0, 0, 0], 3), "evict": ([0, 0], 1), "deliver": ([0, 0, 0, 0], 1), "deliver_next": ([0, 5], 5),
    "hand": ([0, 0], 4), "begin_log": ([0], 1), "decide": ([0, 0, 0, 0, 0, 0], 4), "plan": ([0, 0, 0, 0], 4),
    "next": ([0, 5], 5),
    "cell_of_issue": ([0, 0, 0, 0, 0, 0], 1), "cell_of_evict": ([0, 0], 1), "cell_of_deliver": ([0, 0, 0, 0], 1),
    "copy_at": ([0, 0], 11), "directory_at": ([0], 11), "quiet": ([], 1), "registers": ([0, 0], 1),
    "register_at": ([0, 0, 0], 5), "targets": ([0, 1], 1), "target_at": ([0, 1, 0], 7), "writebacks": ([0, 0], 1),
    "writeback_at": ([0, 0, 0], 1), "ways": ([0, 0], 1), "way_at": ([0, 0, 0], 1), "messages": ([1], 1),
    "message_at": ([1, 0], 15),
    "word_at": ([0], 2), "counts_of_core": ([0, 0], 10), "counts_of_messages": ([0], 5), "entries": ([0], 1),
    "entry_at": ([0, 0], 9),
}
# words that are out of range: the function, the place of the word, and the least that is
PAST = [
    ("issue", 0, 2), ("issue", 1, 256), ("issue", 2, 4), ("evict", 0, 2), ("evict", 1, 16), ("deliver", 0, 5),
    ("deliver", 1, 16), ("deliver", 2, 2), ("deliver_next", 0, 1), ("deliver_next", 1, 6), ("hand", 0, 2), ("hand", 1, 1), ("begin_log", 0, 1),
    ("decide", 0, 2), ("decide", 1, 256), ("decide", 2, 4), ("plan", 0, 5), ("plan", 1, 16), ("plan", 2, 2),
    ("cell_of_issue", 0, 2), ("cell_of_issue", 1, 256), ("cell_of_issue", 2, 4), ("cell_of_evict", 0, 2),
    ("cell_of_evict", 1, 16), ("cell_of_deliver", 0, 5), ("cell_of_deliver", 1, 16), ("cell_of_deliver", 2, 2),
    ("next", 0, 1), ("next", 1, 6), ("copy_at", 0, 2), ("copy_at", 1, 16), ("directory_at", 0, 16),
    ("word_at", 0, 128), ("counts_of_core", 0, 2), ("counts_of_core", 1, 1), ("counts_of_messages", 0, 1),
    ("entries", 0, 1), ("entry_at", 0, 1), ("entry_at", 1, 1),
    *((name, place, least) for name in ("registers", "register_at", "writebacks", "writeback_at")
      for place, least in ((0, 2), (1, 1))),
    *((name, place, least) for name in ("targets", "target_at", "ways", "way_at")
      for place, least in ((0, 2), (1, 16))),
    ("messages", 0, 16), ("message_at", 0, 16), ("register_at", 2, 1), ("target_at", 2, 1), ("writeback_at", 2, 0),
    ("way_at", 2, 1), ("message_at", 1, 1),
]


def seen(raw: Raw) -> list:
    """Returns what can be seen of a machine of 2 cores."""
    looks = [("entries", 0), ("entry_at", 0, 0), ("copy_at", 1, 0), ("next", 0, 5), ("counts_of_core", 0, 0),
             ("counts_of_messages", 0), ("copy_at", 0, 0), ("directory_at", 0), ("quiet",), ("register_at", 0, 0, 0),
             ("target_at", 0, 1, 0), ("writebacks", 0, 0), ("way_at", 0, 0, 0), ("message_at", 1, 0)]
    return [raw(name, *words, out=FUNCTIONS[name][1]) for name, *words in looks]


def nothing(name: str) -> list[int]:
    """Returns the output of a function that has nothing to say."""
    return [header_numbers()["LOCKUP_NO_CELL"]] if name.startswith("cell_of_") else [0] * FUNCTIONS[name][1]


def test_no_machine() -> None:
    raw = Raw()
    for name, (words, out) in FUNCTIONS.items():
        same(name, (NO_MACHINE, nothing(name)), raw(name, *words, out=out))
    same("free", (NO_MACHINE, []), raw("free"))
    same("the handle", None, raw.handle.value)


def test_out_of_range() -> None:
    """.. on a machine with one access that waits, and with 2^64 - 1 too."""
    raw = Raw()
    same("make", OK, raw.make())
    same("an access", (OK, [1, 0, 0]), raw("issue", 0, 0, 2, 0, 5, 0, out=3))
    same("its data", OK, raw("deliver", 0, 0, 0, 0, out=1)[0])
    same("performed", OK, raw("deliver", 2, 0, 0, 0, out=1)[0])
    same("another access", (OK, [1, 1, 0]), raw("issue", 0, 1, 0, 8, 0, 0, out=3))
    before = seen(raw)
    for name, place, least in PAST:
        words, out = FUNCTIONS[name]
        for number in (least, (1 << 64) - 1):
            changed = [*words[:place], number, *words[place + 1:]]
            same(f"{name} {changed}", (OUT_OF_RANGE, nothing(name)), raw(name, *changed, out=out))
    for words in ([3, 0, 0, 2], [3, 0, 2, 0]):
        same(f"an acknowledgement {words}", (OUT_OF_RANGE, [0]), raw("deliver", *words, out=1))
    same("what is seen afterwards", before, seen(raw))
    same("free", (OK, []), raw("free"))


def null_calls() -> Iterator[str]:
    """Returns a call for each pointer of each function, in which it is NULL and all others are fine."""
    places = {"lockup_machine": "&machine", "lockup_check": "&check", "lockup_judge": "&judge", "lockup_config": "&config"}
    for name, rows in header_parameters().items():
        fine = [f"({it.rpartition('*')[0]}*)buffer" if "*" in it else "0" for it in rows]
        fine = [places.get(it.replace("const ", "").split()[0], value) for it, value in zip(rows, fine)]
        # a list has one element, and so has to be there
        fine = ["1" if it.startswith("size_t") else value for it, value in zip(rows, fine)]
        for place in (it for it, row in enumerate(rows) if "*" in row):
            yield f"lockup_{name}({', '.join([*fine[:place], 'NULL', *fine[place + 1:]])})"


@each(lambda: ["c", "c++"])
def test_null(language: str) -> None:
    """.. is caught, where any pointer is NULL, and nothing is changed or written."""
    needs("cc")
    calls = [*null_calls()]
    want(len(calls) > 60, f"{len(calls)} calls alone")
    tries = "".join(f"    if ({call} != LOCKUP_NULL) bad += puts(\"{call}\") >= 0;\n" for call in calls)
    source = f"""#include <lockup.h>
#include <stdio.h>
static uint64_t buffer[16];
int main(void) {{
    lockup_machine machine = {{0}};
    lockup_check check = {{0}};
    lockup_judge judge = {{0}};
    lockup_config config;
    uint64_t entries = 77;
    int bad = 0;
    lockup_defaults(&config);
    if (lockup_make_with(&machine, &config, NULL, 0, NULL, 0) || lockup_check_new(&check)) return 3;
    if (lockup_judge_new(&judge)) return 3;
    for (int at = 0; at < 16; at++) buffer[at] = 77;
{tries}    for (int at = 0; at < 16; at++) bad += buffer[at] != 77;
    if (lockup_entries(&machine, 0, &entries) || entries != 0) return 4;
    return lockup_free(&machine) || lockup_check_free(&check) || lockup_judge_free(&judge) ? 5 : bad;
}}
"""
    with tempfile.TemporaryDirectory() as room:
        words = ["cc", "-x", language, "-", "-x", "none", f"-I{INCLUDE}", archive(), "-o", f"{room}/null"]
        same("the compiler", (0, "", ""), tuple(run([*words, "-Wall", "-Wextra", "-Wpedantic", "-Werror"], source)))
        same("output", (0, "", ""), tuple(run([f"{room}/null"])))


def test_null_from_elsewhere() -> None:
    """.. and a program that includes no header."""
    buffer, functions = (ctypes.c_uint64 * 16)(*[77] * 16), ctypes.CDLL(shared())
    for name, rows in header_parameters().items():
        pointers = ["*" in it for it in rows]
        function = getattr(functions, f"lockup_{name}")
        function.argtypes = [ctypes.c_void_p if it else ctypes.c_uint64 for it in pointers]
        fine = [ctypes.addressof(buffer) if it else int(row.startswith("size_t")) for it, row in zip(pointers, rows)]
        for place in (at for at, it in enumerate(pointers) if it):
            same(f"{name} {place}", NULL, function(*fine[:place], None, *fine[place + 1:]))
    same("nothing is written", [77] * 16, [*buffer])


def test_in_use() -> None:
    raw = Raw()
    same("make", OK, raw.make(cores=3))
    held = raw.handle.value
    same("make again", IN_USE, raw.make(cores=5))
    same("the handle", held, raw.handle.value)
    same("core 2 is there", OK, raw("copy_at", 2, 0, out=11)[0])
    same("core 3 isn't", OUT_OF_RANGE, raw("copy_at", 3, 0, out=11)[0])
    same("free", (OK, []), raw("free"))
    same("the handle is empty", None, raw.handle.value)
    same("made anew", OK, raw.make())
    raw("free")


def test_codes_of_copies() -> None:
    raw, other = Raw(), Raw()
    to = ctypes.byref(other.handle)
    same("of nothing", (NO_MACHINE, []), raw("clone", to))
    same("no copy", None, other.handle.value)
    same("make", OK, raw.make())
    held = raw.handle.value
    same("clone", (OK, []), raw("clone", to))
    want(other.handle.value not in (None, held), "it has the same machine")
    given = other.handle.value
    same("clone again", (IN_USE, []), raw("clone", to))
    same("the handles", (held, given), (raw.handle.value, other.handle.value))
    same("the first is freed", (OK, []), raw("free"))
    same("the other is there", (OK, [1]), other("quiet", out=1))
    same("of nothing, to one in use", (IN_USE, []), raw("clone", to))
    same("free", (OK, []), other("free"))


def shown(machine) -> list:
    """Returns all that a machine shows."""
    cores, lines, slices = (range(getattr(machine.config, it)) for it in ("cores", "lines", "slices"))
    of_lines = [machine.directory, machine.messages]
    of_copies = [machine.copy, machine.targets, machine.ways]
    of_cores = [machine.registers, machine.writebacks, machine.counts]
    of_slices = [machine.next, machine.message_counts, lambda slice: list(machine.log(slice))]
    return [
        *(look(line) for look in of_lines for line in lines), *(look(slice) for look in of_slices for slice in slices),
        *(look(core, line) for look in of_copies for core in cores for line in lines),
        *(look(core, slice) for look in of_cores for core in cores for slice in slices),
    ]


def stirred(machine, draw: random.Random, count: int) -> list:
    """Makes random calls, and returns their answers."""
    config, told = machine.config, []
    for _ in range(count):
        core, word = draw.randrange(config.cores), draw.randrange(8 * config.lines)
        kind, slice = draw.randrange(8), draw.randrange(config.slices)
        if kind < 3:
            told.append(machine.issue(core, draw.randrange(16), draw.randrange(4), word, draw.randrange(3), 5))
        elif kind == 3:
            told.append(machine.evict(core, word // 8))
        elif kind == 4:
            told.append(machine.hand(core, slice))
        elif kind == 5:
            told.append(machine.deliver(draw.randrange(5), word // 8, core, draw.randrange(config.cores)))
        else:
            told.append(machine.deliver_next(slice))
    return told


@each(lambda: ["explicit", "inverted"])
def test_copies(misses: str) -> None:
    """A copy answers as the machine does, with random victims too, and neither changes the other."""
    fields = {"cores": 4, "slices": 2, "sets": 2, "mshrs": 2, "targets": 2, "writebacks": 1, "policy": 2, "seed": 9}
    fields |= {"exclusive": 1, "misses": int(misses == "inverted")}
    with module().Machine(init={3: 7}, counters=[40], **fields) as machine:
        stirred(machine, random.Random(misses), 3000)
        with machine.clone() as other:
            before = shown(machine)
            same("the copy", before, shown(other))
            answers = stirred(other, random.Random(1), 3000)
            want(shown(other) != before, "nothing happened")
            same("the machine meanwhile", before, shown(machine))
            same("the same calls", answers, stirred(machine, random.Random(1), 3000))
            after = shown(other)
            same("the machine and its copy", after, shown(machine))
        same("the machine behind its copy", after, shown(machine))


# fields that aren't allowed, the first of which is told, as docs/TEXTS.md has them
NOT_ALLOWED = [
    ({"cores": 0}, 101), ({"cores": 65}, 101), ({"slices": 3}, 102), ({"slices": 0}, 102), ({"lines": 0}, 103),
    ({"lines": 65537}, 103), ({"lines": 3, "slices": 2}, 103), ({"sets": 3}, 104), ({"sets": 512}, 104),
    ({"ways": 0}, 105), ({"ways": 17}, 105), ({"mshrs": 0}, 106), ({"mshrs": 33}, 106), ({"targets": 33}, 107),
    ({"writebacks": 0}, 108), ({"writebacks": 17}, 108), ({"cores": 0, "ways": 0}, 101), ({"ways": 0, "mshrs": 0}, 105),
    ({"policy": 3}, 2), ({"misses": 2}, 2), ({"exclusive": 2}, 2), ({"cores": (1 << 64) - 1}, 101),
    ({"sets": (1 << 32) + 1}, 104),
]


def test_configurations() -> None:
    raw = Raw()
    for fields, code in NOT_ALLOWED:
        same(f"{fields}", (code, None), (raw.make(**fields), raw.handle.value))
    for fields in ({"cores": 64, "lines": 65536, "slices": 4, "sets": 256, "ways": 16}, {"cores": 1, "lines": 1}):
        same(f"{fields}", OK, raw.make(**fields))
        raw("free")


def made_with(raw: Raw, pairs: list[int], counters: list[int]) -> int:
    values = fields_of()
    initial = (ctypes.c_uint64 * max(len(pairs), 1))(*pairs)
    counted = (ctypes.c_uint64 * max(len(counters), 1))(*counters)
    words = (ctypes.addressof(values), ctypes.addressof(initial), len(pairs) // 2, ctypes.addressof(counted),
             len(counters))
    return raw("make_with", *words)[0]


def test_lists() -> None:
    """Words that begin with values, and counters: ascending, and of the memory."""
    raw = Raw()
    for pairs, counters, code in (([128, 1], [], 109), ([3, 1, 3, 2], [], 109), ([4, 1, 3, 1], [], 109), ([], [128], 110),
                                  ([], [5, 5], 110), ([], [*range(9)], 110), ([128, 0], [128], 109)):
        same(f"{pairs} {counters}", (code, None), (made_with(raw, pairs, counters), raw.handle.value))
    same("allowed", OK, made_with(raw, [0, 7, 127, 9], [*range(0, 64, 8)]))
    same("word 127", (OK, [1, 9]), raw("word_at", 127, out=2))
    same("a store to a counter", (OK, [3, 4, 0]), raw("issue", 0, 0, 1, 8, 5, 0, out=3))
    raw("free")


def test_codes_of_the_judge() -> None:
    raw = Raw()
    same("no trace", (NO_MACHINE, [0, 0]), raw("check_verdict", out=2))
    same("nothing to free", NO_MACHINE, raw("check_free")[0])
    same("new", [OK, IN_USE], [raw("check_new")[0], raw("check_new")[0]])
    same("a word past all", OUT_OF_RANGE, raw("check_begin", 524288, 0)[0])
    same("ascending", [OK, OK, OUT_OF_RANGE], [raw("check_begin", it, 7)[0] for it in (0, 524287, 5)])
    for place, least in ((0, 64), (2, 64), (3, 4), (4, 524288)):
        entry = (ctypes.c_uint64 * 9)(*(least if it == place else 0 for it in range(9)))
        same(f"word {place} of an entry", OUT_OF_RANGE, raw("check_entry", ctypes.addressof(entry))[0])
    same("verdict", (OK, [0, 0]), raw("check_verdict", out=2))
    entry = (ctypes.c_uint64 * 9)(0, 0, 0, 0, 0, 0, 0, 7, 0)
    same("an entry", OK, raw("check_entry", ctypes.addressof(entry))[0])
    same("verdict on it", (OK, [0, 1]), raw("check_verdict", out=2))
    same("a beginning behind an entry", OUT_OF_RANGE, raw("check_begin", 524287, 0)[0])
    same("free", [OK, None], [raw("check_free")[0], raw.handle.value])


def test_handles_of_the_other_kind() -> None:
    """A machine is no trace, nor a trace a machine: both are as they were."""
    raw, entry = Raw(), (ctypes.c_uint64 * 9)()
    calls = [("check_begin", [0, 7], 0), ("check_entry", [ctypes.addressof(entry)], 0), ("check_verdict", [], 2)]
    for name, words, out in calls:
        same(f"{name} of nothing", (NO_MACHINE, [0] * out), raw(name, *words, out=out))
    same("make", OK, raw.make())
    for name, words, out in calls:
        same(f"{name} of a machine", (NO_MACHINE, [0] * out), raw(name, *words, out=out))
    same("a trace in its place", IN_USE, raw("check_new")[0])
    same("the machine is there", (OK, [1]), raw("quiet", out=1))
    same("free", OK, raw("free")[0])
    same("new", OK, raw("check_new")[0])
    for name, (words, out) in FUNCTIONS.items():
        same(f"{name} of a trace", (NO_MACHINE, nothing(name)), raw(name, *words, out=out))
    same("a machine in its place", IN_USE, raw.make())
    same("the trace is there", (OK, [0, 0]), raw("check_verdict", out=2))
    same("free", OK, raw("check_free")[0])


TRACE_WITHOUT_MEMORY = """
#include "lockup.h"
#include <stdio.h>
static uint32_t ended(lockup_check *check, uint32_t code) {
    lockup_verdict verdict = {7, 7};
    if (code != LOCKUP_NO_MEMORY) return code;
    printf("ended %d %u\\n", check->at == NULL, lockup_check_verdict(check, &verdict));
    return 9;
}
int main(void) {
    lockup_check check = {0};
    uint32_t code = lockup_check_new(&check);
    if (code == LOCKUP_NO_MEMORY) return printf("none %d\\n", check.at == NULL) < 0;
    for (uint64_t word = 0; word < 300 && !code; word++) code = ended(&check, lockup_check_begin(&check, 1000 * word, word));
    for (uint64_t number = 0; number < 300 && !code; number++) {
        lockup_entry entry = {number % 64, number / 64, number % 64, LOCKUP_LOAD, 1000 * number, 0, 0, number, 0};
        code = ended(&check, lockup_check_entry(&check, &entry));
    }
    lockup_verdict verdict = {7, 7};
    if (!code && !lockup_check_verdict(&check, &verdict)) printf("whole %d %d\\n", (int)verdict.verdict, (int)verdict.entry);
    return lockup_check_free(&check) != (code ? LOCKUP_NO_MACHINE : LOCKUP_OK);
}
"""


@seconds(3)
def test_traces_without_memory() -> None:
    """With each allocation refused in turn a trace isn't begun, or ends, or does without the allocation."""
    needs("cc")
    with tempfile.TemporaryDirectory() as room:
        source, made = write(f"{room}/trace.c", TRACE_WITHOUT_MEMORY), f"{room}/trace"
        library = shared()
        words = ["cc", "-Wall", "-Wextra", "-Werror", f"-I{INCLUDE}", source, library, f"-Wl,-rpath,{library.parent}"]
        same("the compiler", (0, "", ""), tuple(run([*words, "-o", made])))
        told = []
        for refused, ran in each_refused([made]):
            same(f"status with allocation {refused} refused", (0, ""), (ran.status, ran.err))
            told.append(ran.out)
        same("with ample memory", "whole 0 300\n", told[0])
        want(set(told) <= {"whole 0 300\n", "none 1\n", f"ended 1 {NO_MACHINE}\n"}, f"it says {set(told)}")
        want("none 1\n" in told and f"ended 1 {NO_MACHINE}\n" in told, f"no trace ended: {set(told)}")


@seconds(3)
@each(lambda: ["explicit", "inverted"])
def test_64_cores(misses: str) -> None:
    """All cores read some lines, with a copy of the machine in between; then the last one writes them, in the copy alone."""
    fields = {"cores": 64, "lines": 64, "slices": 2, "sets": 4, "ways": 8, "mshrs": 16, "misses": int(misses == "inverted")}
    library = module()
    with library.Machine(init={word: word + 1 for word in range(512)}, **fields) as machine:
        for core in range(64):
            for tag in range(16):
                want(machine.load(core, tag=tag, word=8 * tag).answer.name == "PENDING", f"load {tag} of core {core}")
            machine.settle()
            for tag in range(16):
                got = machine.hand(core, tag % 2)
                same(f"reply of core {core}", 8 * got.tag + 1, got.reply)
        with machine.clone() as other:
            same("the copy", shown(machine), shown(other))
            other.store(63, tag=0, word=8, value=7)
            other.settle()
            other.hand(63, 1)
            states = [[it.copy(core, 1).state.name for core in range(64)] for it in (machine, other)]
            same("states", [["S"] * 64, ["I"] * 63 + ["M"]], states)
            entries = [sum(len(list(it.log(slice))) for slice in range(2)) for it in (machine, other)]
            same("entries", [1024, 1025], entries)


LARGEST = {"cores": 64, "slices": 4, "lines": 65536, "sets": 256, "ways": 16, "mshrs": 32, "targets": 32, "writebacks": 16}


@seconds(4)
def test_each_place() -> None:
    """Of the largest machine each line and word, each core's part of each slice, and each place of each list that is
    full."""
    raw, last, place = Raw(), 63, 3
    same("make", OK, raw.make(**LARGEST))
    for line in range(65536):
        same(f"line {line}", (OK, [0, 64, *[0] * 9]), raw("directory_at", line, out=11))
    for word in range(3, 8 * 65536, 61):
        same(f"word {word}", (OK, [1, 0]), raw("word_at", word, out=2))
    for core in range(64):
        for number in range(4):
            same(f"core {core}, slice {number}", (OK, [0]), raw("registers", core, number, out=1))
        for line in range(core, 65536, 641):
            same(f"copy {core} {line}", (OK, [0] * 11), raw("copy_at", core, line, out=11))

    def issue(core: int, tag: int, line: int, answer: list[int]) -> None:
        same(f"core {core} loads line {line}", (OK, answer), raw("issue", core, tag, 0, 8 * line, 0, 0, out=3))

    # all registers, and all targets of the last
    lines = [4 * number + place for number in range(32)]
    for number, line in enumerate(lines):
        issue(last, number, line, [1, number, 0])
    for number in range(1, 32):
        issue(last, 31 + number, lines[-1], [1, 31 + number, 0])
    same("registers", (OK, [32]), raw("registers", last, place, out=1))
    found = [raw("register_at", last, place, number, out=5) for number in range(32)]
    same("their lines", (32 * [OK], lines), ([code for code, _ in found], sorted(it[0] for _, it in found)))
    same("targets", (OK, [32]), raw("targets", last, lines[-1], out=1))
    found = [raw("target_at", last, lines[-1], number, out=7) for number in range(32)]
    same("their tags", (32 * [OK], list(range(31, 63))), ([code for code, _ in found], [it[0] for _, it in found]))
    same("behind them", OUT_OF_RANGE, raw("target_at", last, lines[-1], 32, out=7)[0])

    # a request of each core for one line
    shared = 65535 - 4
    for core in range(63):
        issue(core, 0, shared, [1, 0, 0])
    same("messages", (OK, [63]), raw("messages", shared, out=1))
    found = [raw("message_at", shared, number, out=15) for number in range(63)]
    same("their cores", (63 * [OK], list(range(63))), ([code for code, _ in found], [it[2] for _, it in found]))

    # a full set, and a full buffer
    lines = [4 * 256 * number + 2 for number in range(1, 33)]
    for number, line in enumerate(lines):
        if number == 16:
            same("ways", (OK, [16]), raw("ways", 5, lines[0], out=1))
            found = [raw("way_at", 5, lines[0], way, out=1) for way in range(16)]
            same("their lines", [(OK, [line]) for line in lines[:16]], found)
        issue(5, 1, line, [1, number, 0])
        same("its request", (OK, [0]), raw("deliver", 0, line, 5, 0, out=1))
        same("its data", (OK, [0]), raw("deliver", 2, line, 5, 0, out=1))
        same("its reply", (OK, [1, number, 1, 0]), raw("hand", 5, 2, out=4))
    same("write-backs", (OK, [16]), raw("writebacks", 5, 2, out=1))
    same("their lines", [(OK, [line]) for line in lines[:16]], [raw("writeback_at", 5, 2, nth, out=1) for nth in range(16)])

    # a long log
    for number in range(6000):
        issue(5, 1, lines[-1], [0, 32 + number, 0])
    same("entries", (OK, [6032]), raw("entries", 2, out=1))
    for number in range(6032):
        line = lines[min(number, 31)]
        entry = [5, number, 1, 0, 8 * line, 0, 0, 0, number]
        same(f"entry {number}", (OK, entry), raw("entry_at", 2, number, out=9))
    same("free", (OK, []), raw("free"))


# ---- the judge of traces

# traces and their verdicts, worked out by hand in docs/TEXTS.md
TRACES = {
    "legal": ([("init", 0, 7), ("entry", 0, 0, 0, "load", 0, 7, 0), ("entry", 1, 0, 0, "cas", 0, 7, 9, 7, 0)], "legal", 2),
    "reply": ([("entry", 0, 0, 0, "add", 0, 5, 0, 0), ("entry", 0, 1, 0, "load", 0, 6, 1)], "reply", 1),
    "order": ([("entry", 0, 1, 0, "load", 0, 0, 0), ("entry", 0, 0, 1, "load", 0, 0, 0)], "order", 1),
    "since": ([("entry", 0, 0, 0, "load", 0, 0, 1)], "since", 0),
}
OPERANDS = {"load": 0, "store": 1, "add": 1, "cas": 2}


def verdict_of(rows: list[tuple]) -> tuple[str, int]:
    """Gives the judge these rows of a trace."""
    library, init = module(), {it[1]: it[2] for it in rows if it[0] == "init"}
    with library.Judge(init=init) as judge:
        for _, core, seq, tag, name, word, *rest in (it for it in rows if it[0] == "entry"):
            count = OPERANDS[name]
            operand, replacement = (*rest[:count], 0, 0)[:2]
            reply, since = rest[count:]
            judge.add(core, seq, library.Op[name.upper()], word, operand, replacement, reply, tag, since)
        return judge.verdict.verdict.name.lower(), judge.verdict.entry


@each(lambda: TRACES)
def test_judge(name: str) -> None:
    rows, verdict, entry = TRACES[name]
    same("verdict", (verdict, entry), verdict_of(rows))


@seconds(2)
def test_a_long_trace() -> None:
    """After each of 6,000 entries of 64 cores on a line each the verdict is legal, and after a wrong one it stays."""
    library = module()
    with library.Judge(init={8 * number: number for number in range(6000)}) as judge:
        for number in range(6000):
            verdict = judge.add(number % 64, number // 64, library.Op.ADD, 8 * number, 3, 0, number, number % 64, number)
            same(f"entry {number}", ("LEGAL", number + 1), (verdict.verdict.name, verdict.entry))
        for reply in (5998, 6002, 6005):
            verdict = judge.add(1, 9000 + reply, library.Op.LOAD, 8 * 5999, 0, 0, reply, 0, 0)
            wanted = ("REPLY", 6000)
            same(f"a load of {reply}", wanted, (verdict.verdict.name, verdict.entry))


def spoiled_log(seed: int) -> str:
    """Returns what `lockup script` logs of random commands, with one number changed."""
    trace = lockup("script", "-", text=random_script(seed, 2_000)).out.partition("lockup-trace")[2]
    rows = trace.partition("lockup-trace")[0].split("\n")[1:]
    rows = [row for row in rows if row.startswith(("init", "entry"))]
    draw = random.Random(seed)
    if seed % 4:
        place = draw.randrange(len(rows) // 2, len(rows))
        words = rows[place].split()
        at = draw.choice((2, len(words) - 2, len(words) - 1)) if words[0] == "entry" else 2
        words[at] = str(int(words[at]) + draw.choice((1, 3)))
        rows[place] = " ".join(words)
    return "".join(f"{row}\n" for row in ["lockup-trace 2", *rows])


@seconds(5)
@each(lambda: [(f"seed {seed}", seed) for seed in range(12)])
def test_judge_beside_check(_: str, seed: int) -> None:
    trace = spoiled_log(seed)
    told = re.match(r"legal (\d+) entries|illegal entry (\d+): (\w+)", lockup("check", "-", text=trace).out)
    want(told, "check has no verdict")
    rows = [tuple(int(it) if it.isdigit() else it for it in row.split()) for row in trace.split("\n")[1:-1]]
    wanted = ("legal", int(told[1])) if told[1] else (told[3], int(told[2]))
    same("verdict", wanted, verdict_of(rows))


# ---- Python

@each(lambda: ["machine", "judge", "histories", "scoreboard"])
def test_examples_of_the_module(part: str) -> None:
    library = module()
    tested = doctest.testmod(part_of(part), extraglobs={it: getattr(library, it) for it in library.__all__})
    same("failed", 0, tested.failed)
    want(tested.attempted, "it has no examples")


def test_shown_python() -> None:
    """What docs/LIBRARY.md shows prints what follows its prints."""
    module()
    blocks = re.findall(r"```python\n(.*?)```", read(ROOT / "docs/LIBRARY.md"), re.S)
    same("blocks", 6, len(blocks))
    environment = {**os.environ, "PYTHONPATH": str(ROOT / "python"), "LOCKUP_PROGRAM": str(program())}
    for block in blocks:
        windows = int((re.findall(r"^for window in range\((\d+)\)", block, re.M) or ["1"])[0])
        wanted = windows * "".join(f"{it}\n" for it in re.findall(r"^ *print\(.*\) +# (.*)$", block, re.M))
        code = run([sys.executable, "-c", block], env=environment)
        same("what it prints", (0, wanted, ""), tuple(code))


def missed(ways: int, uses: bool) -> int:
    """Returns the misses of examples/library/misses_against_ways.py, counted with lists: LRU where a use counts, else
    FIFO."""
    sets, count = [[] for _ in range(4)], 0
    for line in random.Random(1).choices(range(256), [1 / (place + 1) for place in range(256)], k=2000):
        held = sets[line % 4]
        if line in held:
            if uses:
                held.append(held.pop(held.index(line)))
            continue
        count += 1
        held.append(line)
        if len(held) > ways:
            held.pop(0)
    return count


@seconds(5)
def test_misses_against_ways() -> None:
    environment = {**os.environ, "LOCKUP_LIBRARY": str(shared()), "PYTHONPATH": str(ROOT / "python")}
    ran = run([sys.executable, ROOT / "examples/library/misses_against_ways.py"], env=environment)
    told = [[int(it) for it in re.findall(r"ways +(\d+)", part)] for part in re.split("^[A-Z]+\n", ran.out, flags=re.M)]
    wanted = [[missed(ways, uses) for ways in (1, 2, 4, 8, 16)] for uses in (True, False)]
    same("misses under LRU and FIFO", wanted, told[1:3])


def test_errors_of_the_module() -> None:
    library = module()
    closed = library.Machine()
    closed.close()
    closed.close()
    machine, judge, histories = library.Machine(cores=2), library.Judge(), library.Histories()
    cases = [
        (lambda: closed.load(0, 0, 0), library.NoMachine, 1), (lambda: machine.load(2, 0, 0), library.OutOfRange, 2),
        (lambda: machine.log()[0], IndexError, 2), (lambda: machine.log(1), None, None),
        (lambda: library.Machine(ways=99), library.NotAllowed, 105),
        (lambda: library.Machine(ways=99), ValueError, 105), (lambda: copy.copy(closed), library.NoMachine, 1),
        (lambda: library.Machine(way=1), TypeError, None), (lambda: pickle.dumps(machine), TypeError, None),
        *((call, library.OutOfRange, 2) for call in (
            lambda: machine.load(1 << 64, 0, 0), lambda: machine.load(1023, 0, 0), lambda: machine.load(1024, 0, 0),
            *(call for it in (-1, -2, -1023, -1024, -1025, -2047, -2048, -2049, -(1 << 64)) for call in (
                lambda it=it: machine.load(it, 0, 0), lambda it=it: machine.load(0, it, 0),
                lambda it=it: machine.load(0, 0, it), lambda it=it: machine.store(0, 0, 0, it),
                lambda it=it: machine.evict(it, 0))),
            lambda: library.Machine(cores=-1), lambda: judge.add(0, 0, library.Op.LOAD, 0, reply=-1),
            lambda: histories.add(0, library.Op.LOAD, 0, reply=1 << 64), lambda: histories.begin(-1, 0))),
        *((call, TypeError, None) for call in (
            lambda: machine.load(1.0, 0, 0), lambda: machine.load(0, 2.7, 0), lambda: machine.evict(0, 3.0),
            lambda: machine.store(0, 0, 0, "7"), lambda: machine.log()[0.0], lambda: library.Machine(ways=2.0),
            lambda: library.Machine(counters=[8.0]), lambda: judge.add(0, 0, library.Op.LOAD, 0.0),
            lambda: histories.add(0, library.Op.LOAD, 0, during=(0.5, 1)), lambda: histories.judge(limit=1e6),
            lambda: copy.copy(judge), lambda: copy.deepcopy(histories), lambda: pickle.dumps(judge))),
        (lambda: setattr(machine.config, "cores", 4), AttributeError, None),
        (lambda: setattr(machine, "config", library.Config()), AttributeError, None),
    ]
    for call, kind, code in cases:
        raised = None
        try:
            call()
        except Exception as error:
            raised = error
        want(isinstance(raised, kind) if kind else raised is None, f"{raised!r} isn't {kind}")
        same("code", code, getattr(raised, "code", None))
    same("what the calls left", (0, True), (len(machine.log()), machine.quiet))
    same("field", "ways", raised_by(library))


def test_values_of_the_module() -> None:
    """Errors and configurations are pickled, a clone of a subclass has its attributes, a large number is passed."""
    library = module()
    config = library.Config(cores=3, exclusive=1)
    same("configuration", [config] * 2, [pickle.loads(pickle.dumps(config)), copy.deepcopy(config)])
    same("another", (5, 3, 1), (config.replace(cores=5).cores, config.cores, config.replace(cores=5).exclusive))
    for number, kind in ((1, library.NoMachine), (2, library.OutOfRange), (3, library.NoMemory), (105, library.NotAllowed)):
        error = sys.modules["lockup.errors"].error_of(number)
        again = pickle.loads(pickle.dumps(error))
        same("error", (kind, error.code, str(error), vars(error)), (type(again), again.code, str(again), vars(again)))

    class Named(library.Machine):
        name = "none"

    with Named(config) as machine:
        machine.name = "first"
        with machine.clone() as other:
            same("clone", (Named, "first", config), (type(other), other.name, other.config))
        for word, value in enumerate([(1 << 64) - 1, 1023, 1024, 1025, 1 << 63, True, False]):
            machine.settle()
            list(machine.replies(0))
            machine.store(0, 0, word, value)
        same("values", ((1 << 64) - 1, 1023, 1024, 1025, 1 << 63, 1, 0, 0), machine.copy(0, 0).block)


def test_picture_of_a_machine() -> None:
    library = module()
    with library.Machine(cores=2) as machine:
        machine.load(0, 0, 8)
        machine.settle()
        machine.store(1, 0, 8, 5)
        picture = machine._repr_html_()
    rows = [re.findall(r"<t[hd]>(.*?)</t[hd]>", row) for row in re.findall(r"<tr>(.*?)</tr>", picture)]
    same("rows", [["line", "directory", "core 0", "core 1", "messages"],
                  ["1", "S sharers 0", "S", "IM_AD", "req 1 1: GETM"]], rows)
    same("closed", "<p>&lt;lockup.Machine: closed&gt;</p>", machine._repr_html_())


def raised_by(library) -> str:
    try:
        library.Machine(ways=0)
    except library.NotAllowed as error:
        return error.field
    return "nothing"


def test_texts_of_the_module() -> None:
    library = module()
    with library.Machine(cores=2) as machine:
        said = [repr(machine.load(0, 0, 0)), repr(machine.store(0, 0, 0, 1)),
                repr(machine.next()), repr(machine), repr(machine.log())]
        machine.cas(0, 1, 3, 5, 6)
        said += [repr(it) for it in (machine.registers(0), machine.targets(0, 0), machine.messages())]
        machine.deliver_next()
        machine.store(1, 0, 0, 7)
        machine.deliver_next(channel=0)
        looks = machine.registers(1), machine.messages(0), machine.ways(1, 4), machine.writebacks(0)
        said += map(repr, looks)
    said.append(repr(machine))
    same("texts", ["<pending 0>", "<refused TAG_BUSY>", "<moved req 0 0>",
                   "<lockup.Machine: 2 cores, 1 slices of 16 lines>", "<lockup.Log of slice 0: 0 entries>",
                   "(<line 0: GETS, acks 0 of 0, targets 2>,)", "(<tag 0: load 0>, <tag 1: cas 3 5 6>)",
                   "(<req 0 0: GETS>,)", "(<line 0: GETM, acks 0 of ?, targets 1>,)",
                   "(<data 0 0: DATA acks 0>, <data 0 1: DATA acks 1>, <fwd 0 0: INV for core 1>)", "(0,)", "()",
                   "<lockup.Machine: closed>"], said)


@contextmanager
def pip_in() -> Iterator[tuple[str, dict[str, str]]]:
    """A folder with a copy of python/, the licences beside it, and the environment that pip is to have there."""
    if run([sys.executable, "-m", "pip", "--version"]).status:
        raise Skipped("'pip' isn't there")
    with tempfile.TemporaryDirectory() as room:
        shutil.copytree(ROOT / "python", f"{room}/python", ignore=shutil.ignore_patterns("__pycache__"))
        for it in ROOT.glob("LICENSE*"):
            shutil.copy(it, room)
        yield room, {"PATH": os.environ["PATH"], "LOCKUP_LIBRARY": str(shared()), "HOME": room, "PIP_NO_INDEX": "1",
                     "PIP_ROOT_USER_ACTION": "ignore", "PIP_DISABLE_PIP_VERSION_CHECK": "1"}


def want_installed(room: str, at: str, environment: dict[str, str]) -> None:
    """What is installed in the folder `to` runs, and stands at `at`."""
    code = (f"import site\nsite.addsitedir('{room}/to')\nimport lockup\nwith lockup.Machine() as machine:\n"
            "    machine.add(0, 0, 0, 5)\n    machine.settle()\n"
            "    print(machine.word(0), machine.hand(0).reply, machine.word(0))\n    print(lockup.__file__)")
    ran = run([sys.executable, "-c", code], cwd=room, env=environment)
    same("output", (0, f"None 0 5\n{at}/lockup/__init__.py\n", ""), tuple(ran))


@seconds(20)
@each(lambda: ["folder", "archive"])
def test_pip_install(kind: str) -> None:
    """Without the network, and with the shared object inside: from the folder, and from the archive of the sources."""
    with pip_in() as (room, environment):
        what = f"{room}/python"
        if kind == "archive":
            code = f"import backend; print(backend.build_sdist('{room}'))"
            what = f"{room}/{run([sys.executable, '-c', code], cwd=what, env=environment).out.strip()}"
            shutil.rmtree(f"{room}/python")
            environment.pop("LOCKUP_LIBRARY")
        made = run([sys.executable, "-m", "pip", "install", "-q", "--target", f"{room}/to", what], cwd=room, env=environment)
        same("pip", (0, ""), (made.status, made.err))
        environment.pop("LOCKUP_LIBRARY", None)
        want_installed(room, f"{room}/to", environment)
        ran = run([f"{room}/to/bin/lockup-shrink", "-"], "issue 0 0 load 0\n", env={**environment, "PYTHONPATH": f"{room}/to"})
        same("lockup-shrink", (0, "lockup-shrink: 1 of 1 commands are left"), (ran.status, ran.err.partition(";")[0]))
        told = next(Path(f"{room}/to").glob("*.dist-info"))
        same("licences", sorted(it.name for it in ROOT.glob("LICENSE*")), sorted(it.name for it in (told / "licenses").iterdir()))
        want(re.search(r"^Tag: py3-none-manylinux_2_\d+_\w+$", read(told / "WHEEL"), re.M), read(told / "WHEEL"))


@seconds(20)
def test_pip_install_of_a_folder_that_changes() -> None:
    with pip_in() as (room, environment):
        made = run([sys.executable, "-m", "pip", "install", "-q", "--target", f"{room}/to", "-e", f"{room}/python"],
                   cwd=room, env=environment)
        same("pip", (0, ""), (made.status, made.err))
        want_installed(room, f"{room}/python", environment)


@seconds(20)
def test_pip_install_without_a_library() -> None:
    with pip_in() as (room, environment):
        environment["LOCKUP_LIBRARY"] = f"{room}/none.so"
        made = run([sys.executable, "-m", "pip", "install", "-q", "--target", f"{room}/to", f"{room}/python"],
                   cwd=room, env=environment)
        want(made.status and "there is no liblockup.so; tools/library builds it" in made.err, made.err)
        same("what it leaves", False, os.path.exists(f"{room}/to/lockup"))


# ---- what is written more than once

def header_numbers() -> dict[str, int]:
    """Returns the numbers that lockup.h names."""
    found, text = {}, re.sub(r"/\*.*?\*/", "", read(HEADER), flags=re.S)
    for body in re.findall(r"enum \{(.*?)\};", text, re.S):
        found |= {name: int(number) for name, number in re.findall(r"(LOCKUP_\w+) = (\d+)", body)}
    return found


def systemverilog_numbers() -> Iterator[tuple[str, int]]:
    text = re.sub(r"//.*", "", read(ROOT / "systemverilog/lockup_pkg.sv"))
    for body in re.findall(r"typedef enum (?:int|longint) unsigned \{(.*?)\}", text, re.S):
        number = -1
        for name, given in re.findall(r"(LOCKUP_\w+)(?: = (\d+))?", body):
            number = int(given) if given else number + 1
            yield name, number


def test_numbers_of_systemverilog() -> None:
    same("numbers", header_numbers(), dict(systemverilog_numbers()))


# where the module names a number otherwise than lockup.h
RENAMED = {
    "REFUSED_OUT_OF_RANGE": "NO_WORD",
    "VERDICT_REPLY": "WRONG_REPLY", "VERDICT_ORDER": "WRONG_ORDER", "VERDICT_SINCE": "WRONG_SINCE",
    **{f"WHY_{it}": f"WHY_{it}" for it in ("UNWRITTEN", "CORE", "INTERVAL", "SOURCE", "INITIAL", "OVERWRITTEN",
                                          "NOT_BETWEEN")},
    **{f"DIRECTORYSTATE_{it}": f"DIR_{it}" for it in ("I", "S", "M", "S_D")},
    **{f"MESSAGEKIND_{it}": f"MSG_{it}" for it in ("GETS", "GETM", "PUTS", "PUTM", "FWD_GETS", "FWD_GETM", "INV",
                                                  "PUT_ACK", "DATA", "DATA_E", "INV_ACK", "HOME")},
}


def test_numbers_of_python() -> None:
    library, numbers = module(), header_numbers()
    kinds = [it for it in vars(library).values() if isinstance(it, type) and it.__module__ == "lockup.names"]
    for kind in kinds:
        for member in kind:
            name = RENAMED.get(f"{kind.__name__.upper()}_{member.name}", member.name)
            same(f"{kind.__name__}.{member.name}", numbers.get(f"LOCKUP_{name}"), int(member))
    named = {f"LOCKUP_{RENAMED.get(f'{kind.__name__.upper()}_{it.name}', it.name)}" for kind in kinds for it in kind}
    codes = re.compile(r"LOCKUP_(OK|NO_MACHINE|OUT_OF_RANGE|NO_MEMORY|IN_USE|NULL|DIFFERS|NOT_RECORDED|NOT_WRITTEN|CONFIG_\w+"
                       r"|NO_CORE|UNKNOWN|CELLS|NO_CELL)$")
    same("numbers without a name in Python", [], [it for it in numbers if it not in named and not codes.match(it)])


def header_parameters() -> dict[str, list[str]]:
    """Returns the functions of lockup.h, each with its parameters."""
    text = re.sub(r"/\*.*?\*/", "", read(HEADER), flags=re.S)
    found = {}
    for name, body in re.findall(r"uint32_t lockup_(\w+)\((.*?)\);", text, re.S):
        rows = [" ".join(it.split()) for it in body.split(",")]
        found[name] = [it for it in rows if it != "void"]
    return found


def header_functions() -> dict[str, list[str]]:
    """Returns the same with the kinds of the parameters: a handle, a number, an output."""
    return {name: [kind_of(it) for it in rows] for name, rows in header_parameters().items()}


HANDLES = ("lockup_machine", "lockup_check", "lockup_judge")


def header_words() -> dict[str, int]:
    """Returns of how many numbers each struct of lockup.h is."""
    text = re.sub(r"/\*.*?\*/", "", read(HEADER), flags=re.S)
    found = {"uint64_t": 1}
    for body, name in re.findall(r"typedef struct \{([^}]*)\} (\w+);", text):
        fields = re.findall(r"(\w+)(?:\[(\d+)\])?\s*[,;]", body)
        found[name] = sum(int(count or 1) for _, count in fields)
    return found


def kind_of(parameter: str) -> str:
    if parameter.removeprefix("const ").split()[0] in HANDLES:
        return "handle"
    return "buffer" if "*" in parameter else "number"


def test_functions_of_python() -> None:
    module()
    part = part_of("library")
    kinds = {part.HANDLE: "handle", part.WORD: "number", ctypes.c_size_t: "number", part.BUFFER: "buffer"}
    told = {name: [kinds[it] for it in takes] for name, takes in part.PROTOTYPES.items()}
    same("functions", header_functions(), told)


def test_functions_of_systemverilog() -> None:
    text = " ".join(re.sub(r"//.*", "", read(ROOT / "systemverilog/lockup_pkg.sv")).split())
    # an import under another name stands for the function of C that it names
    imports = re.findall(r'import "DPI-C" (?:lockup_(\w+) = )?function int unsigned lockup_(\w+)\((.*?)\);', text)
    imported = [(name or local, body) for name, local, body in imports]
    found = {}
    for name, body in imported:
        rows = [it.strip() for it in body.split(",") if it.strip()]
        found[name] = ["handle" if "chandle" in it else "buffer" if it.startswith("output") or "[" in it else "number"
                       for it in rows]
    same("functions", header_functions(), found)
    outputs = {name: [int(it or 1) for it in re.findall(r"output longint unsigned \w+(?:\[(\d+)\])?", body)]
               for name, body in imported}
    words = header_words()
    wanted = {name: [words[it.split()[0]] for it in rows if "*" in it and it.split()[0] not in ("const", *HANDLES)]
              for name, rows in header_parameters().items()}
    same("words of outputs", wanted, outputs)


