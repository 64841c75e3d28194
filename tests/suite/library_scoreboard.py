"""The scoreboard (include/lockup_scoreboard.h): a machine and a scoreboard beside it, of which each call is made
(tests/harness/twin.c), as C of 1990 and as C++ of 1998. They agree, also where what has no meaning is junk; each planted
change is found as the field that was changed, the sentence says so, and `lockup test` plays the script up to the call that
differs. Sentences by hand, also the longest, each code, `NULL`, and each allocation refused in turn."""
import os
import re
import tempfile
from functools import cache
from pathlib import Path

from harness import ROOT, Ran, each, each_refused, lockup, needs, read, run, same, seconds, want, write
from harness.library import INCLUDE, module, shared

TWIN = ROOT / "tests/harness/twin.c"
STRICT = ["-pedantic-errors", "-Wall", "-Wextra", "-Werror", "-O1", f"-I{INCLUDE}"]
SEEDS = range(12)
LISTS = "registers targets writebacks ways messages".split()
CALLS = 2000
NONE, ALL, CHANGES = "012"


def compiled(source: Path, dialect: str, made: str, *options: str) -> str:
    """Compiles a program over the shared object."""
    kind, library = ("c++", shared()) if "+" in dialect else ("cc", shared())
    needs(kind)
    words = [kind, "-x", "c++" if "+" in dialect else "c", f"-std={dialect}", *STRICT, *options, source, "-x", "none"]
    same("the compiler", (0, "", ""), tuple(run([*words, library, f"-Wl,-rpath,{library.parent}", "-o", f"{made}.new"])))
    os.rename(f"{made}.new", made)
    return made


@cache
def twin(dialect: str = "c89") -> str:
    made = f"{tempfile.gettempdir()}/twin-{os.getpid()}-{dialect}"
    return compiled(TWIN, dialect, made)


def commands_of(script: str) -> list[str]:
    """Returns the commands of a script, and the comments that stand for a next delivery."""
    return [row for row in script.splitlines() if " = " in row]


def played(script: str) -> None:
    wanted = [row for row in commands_of(script) if not row.startswith("#")]
    ran = lockup("test", "-", text=script)
    same("lockup test", (0, f"as wanted: {len(wanted)} lines\n", ""), tuple(ran))


def script_of(ran: Ran) -> str:
    return ran.out[ran.out.index("cores "):]


def judge_agreement(seed: int, ran: Ran, calls: int = CALLS) -> None:
    same(f"of seed {seed}", (0, "agree", ""), (ran.status, ran.out.partition("\n")[0], ran.err))
    script = script_of(ran)
    same("calls", calls, len(commands_of(script)))
    played(script)


SAYS = re.compile(r"(?:(after) )?call (\d+), (.*?): (?:(.*): )?([\w\[\]]+) is (.+), and the design's is (.+)")


def judge_difference(where: str, ran: Ran) -> None:
    """Compares what is said with the field that was changed, and the script with what is said."""
    same("error", "", ran.err)
    found, said = ran.out.splitlines()[:2]
    at, wanted, came = found.split()
    same("where", where, at)
    if at not in ("target.tag", "directory.sharers", "next.answer"):
        want(abs(int(wanted) - int(came)) in (1, (1 << 64) - 1), found)
    told = SAYS.fullmatch(said)
    want(told, f"no sentence: {said}")
    same("field", where.split(".")[1], told[5].partition("[")[0])
    same("a look", where.split(".")[0], (told[4] or told[3]).split()[0])
    want(told[6] != told[7], f"both are {told[6]}")
    script = script_of(ran)
    rows = commands_of(script)
    same("calls", int(told[2]) + 1, len(rows))
    same("the last line", f"# {said}", script.splitlines()[-1])
    if not told[3].startswith("next"):
        same("the last command", told[3], rows[-1].partition(" = ")[0])
    played(script)


@seconds(10)
@each(lambda: ["c89", "c++98"])
def test_agreement(dialect: str) -> None:
    for seed in SEEDS:
        judge_agreement(seed, run([twin(dialect), str(seed), str(CALLS), ALL]))


@seconds(5)
@each(lambda: ["junk", "unseen", "reverse registers", "reverse writebacks", "reverse messages",
               *(f"uncounted {what}" for what in LISTS)])
def test_without_meaning(plant: str) -> None:
    """.. it may be anything: what has none in its place, the order of lists without one, numbers that a design lacks, and
    the places of a list that it doesn't count."""
    for seed in SEEDS:
        judge_agreement(seed, run([twin(), str(seed), str(CALLS), ALL, *plant.split()]))


# what is changed: a struct, the place of its word, and its answer, state or kind; and as what it is found
PLANTS = [
    *(("issue", 0, key, "issue.answer") for key in range(4)), ("issue", 1, 0, "issue.number"), ("issue", 1, 1, "issue.number"),
    ("issue", 1, 2, "issue.reason"), ("issue", 1, 3, "issue.reason"), ("issue", 2, 0, "issue.reply"),
    *(("evict", 0, key, "evict.answer") for key in range(4)), *(("deliver", 0, key, "deliver.answer") for key in range(3)),
    *(("next", 0, key, "next.answer") for key in range(3)), ("next", 1, 0, "next.channel"), ("next", 2, 0, "next.line"),
    ("next", 3, 0, "next.core"), ("next", 4, 0, "next.from"),
    ("hand", 0, 0, "hand.handed"), ("hand", 0, 1, "hand.handed"), ("hand", 1, 1, "hand.number"), ("hand", 2, 1, "hand.tag"),
    ("hand", 3, 1, "hand.reply"), ("hand store", 2, 1, "hand.tag"),
    # of an answer with several the first is found: the number comes before the tag and the reply
    ("all", "issue", -1, "issue.number"), ("all", "hand", -1, "hand.number"), ("moves", 0, -1, "next.answer"),
    *(("copy", 0, key, "copy.state") for key in range(12)), *(("copy", 1, key, "copy.wants") for key in (3, 6)),
    *(("copy", 2, key, "copy.counted") for key in (2, 3, 5, 6)),
    *(("copy", 10, key, "copy.block") for key in (3, 4, 5, 6, 7, 8, 9, 11)),
    *(("directory", 0, key, "directory.state") for key in range(4)), ("directory", 1, 2, "directory.owner"),
    *(("directory", 2, key, "directory.sharers") for key in (1, 3)), *(("directory", 3, key, "directory.home") for key in (0, 1)),
    ("sharers", 0, -1, "directory.sharers"),
    ("registers", 0, -1, "registers.count"), ("lost", "registers", -1, "registers.count"),
    *(("register", place, 1, f"register.{it}") for place, it in enumerate(("count", "kind", "needed", "counted", "targets"))),
    ("targets", 0, -1, "targets.count"), ("targets", 0, 0, "targets.count"), ("lost", "targets", -1, "targets.count"),
    ("reverse", "targets", -1, "target.tag"),
    *(("target", place, 3, f"target.{field}")
      for place, field in enumerate(("tag", "op", "word", "operand", "replacement", "seq", "since"))),
    ("writebacks", 0, -1, "writebacks.count"), ("lost", "writebacks", -1, "writebacks.count"),
    ("writeback", 0, -1, "writeback.count"),
    ("ways", 0, -1, "ways.count"), ("lost", "ways", -1, "ways.count"), ("way", 0, -1, "way.line"),
    ("messages", 0, -1, "messages.count"), ("lost", "messages", -1, "messages.count"), ("message", 0, 11, "message.count"),
    *(("message", 2, key, "message.count") for key in (0, 1, 8, 9, 10)), ("message", 3, 10, "message.count"),
    *(("message", 4, key, "message.kind") for key in range(12)), *(("message", 5, key, "message.requester") for key in (4, 5, 6)),
    ("message", 6, 8, "message.acks"), *(("message", 14, key, "message.block") for key in (3, 8, 9, 11)),
]


@seconds(1)
@each(lambda: [(f"{what} {place} {key}", what, place, key, where) for what, place, key, where in PLANTS])
def test_difference(_: str, what: str, place: int | str, key: int, where: str) -> None:
    for seed in SEEDS:
        ran = run([twin(), str(seed), str(CALLS), ALL, what, str(place), str(key)])
        if ran.status:
            judge_difference(where, ran)
            return
    want(False, "no run differs")


def test_recorded_changes() -> None:
    """Calls that change nothing are left out, but the last: the script is shorter, and answers the same."""
    unchanged = re.compile(r"= (stall|refused|not held|busy|buffer full|blocked|nothing|none)")
    for seed in range(3):
        whole, short = (script_of(run([twin(), str(seed), str(CALLS), kept])) for kept in (ALL, CHANGES))
        rows = commands_of(whole)
        wanted = [row for row in rows[:-1] if not unchanged.search(row)] + rows[-1:]
        same("calls", wanted, commands_of(short))
        played(short)
    ran = run([twin(), "0", str(CALLS), CHANGES, "issue", "1", "2"])
    said = SAYS.fullmatch(ran.out.splitlines()[1])
    same("the last command is the one that differs", said[3], commands_of(script_of(ran))[-1].partition(" = ")[0])


def counted(script: str) -> str:
    """Returns the counts of a script that wants answers."""
    ran = lockup("script", "--coverage", "-", text=re.sub("(?m) = .*$", "", script))
    same("status and error of its coverage", (0, ""), (ran.status, ran.err))
    return ran.out


@seconds(5)
@each(lambda: ["c89", "c++98"])
def test_coverage(dialect: str) -> None:
    """The cells that calls meet are those that the script meets; all of a setting are met by some seed, blocked ones too."""
    met: dict[str, int] = {}
    with tempfile.TemporaryDirectory() as room:
        for seed in SEEDS:
            ran = run([twin(dialect), str(seed), str(CALLS), ALL], env={**os.environ, "COVERAGE": f"{room}/counts"})
            counts = read(f"{room}/counts")
            same(f"counts of seed {seed}", counted(script_of(ran)), counts)
            for cell, times in (row.rsplit(" ", 1) for row in counts.splitlines()[1:]):
                met[cell] = met.get(cell, 0) + int(times)
    want(any(times and cell.endswith(" blocked") for cell, times in met.items()), "no call was blocked")
    same("cells", [*module().CELLS], sorted(met, key=module().CELLS.index))
    want(sum(times > 0 for times in met.values()) > 80, f"few cells are met: {met}")


def test_names_of_cells() -> None:
    """In C, Python and SystemVerilog they are those that the program prints, in its order."""
    printed = [lockup("script", "--coverage", "-", text=f"exclusive {it}\nstats\n").out.splitlines()[1:] for it in ("off", "on")]
    listed = [[row.rpartition(" ")[0] for row in rows] for rows in printed]
    cells = module().CELLS
    same("cells", set(cells), {*listed[0], *listed[1]})
    for exclusive in (0, 1):
        same("in order", listed[exclusive], [it for it in cells if it in listed[exclusive]])
        text = module().coverage_text([0] * len(cells), bool(exclusive))
        same("of a setting", listed[exclusive], [row.rpartition(" ")[0] for row in text.splitlines()[1:]])
    shown = of_program(CELLS)
    same("in C", (0, "".join(f"{it}\n" for it in cells)), (shown.status, shown.out))
    text = read(ROOT / "systemverilog/lockup_scoreboard.sv")
    rows = re.search(r"CELLS = \{(.*?)\};", text, re.S)[1]
    same("in SystemVerilog", [*cells], "".join(re.findall('"(.*)"', rows)).split(","))


CELLS = """#include "lockup_scoreboard.h"
int main(void) {
    uint64_t cell;
    for (cell = 0; cell < LOCKUP_CELLS; cell++) puts(LOCKUP_NAME(cell, cell));
    return LOCKUP_NUMBER(cell, "cache E load E") == 52 ? 0 : 1;
}
"""


def test_not_recorded() -> None:
    ran = run([twin(), "0", str(CALLS), NONE, "issue", "2", "0"])
    same("status", 1, ran.status)
    same("the last line", "not all calls were kept", ran.out.splitlines()[-1])
    want(ran.out.startswith("issue.reply "), ran.out)


@seconds(20)
def test_refused_allocations() -> None:
    """A call that lacked memory is made once more: nothing else may differ."""
    lacked, wanted = 0, None
    for refused, ran in each_refused([twin(), "3", "80", ALL, "rarely"]):
        same(f"status with allocation {refused} refused", (0, ""), (ran.status, ran.err))
        first, said, *rest = ran.out.splitlines()
        lacked += said == "lacked 1"
        want(said in ("lacked 0", "lacked 1"), said)
        wanted = wanted if refused else [first, *rest]
        same(f"with allocation {refused} refused", wanted, [first, *rest])
    want(lacked > 5, f"{lacked} calls lacked memory")


@seconds(10)
def test_valgrind() -> None:
    needs("valgrind")
    for words in (["none"], ["message", "4", "8"]):
        ran = run(["valgrind", "-q", "--error-exitcode=9", "--leak-check=full", "--show-leak-kinds=all", twin(), "4", "400",
                   ALL, *words])
        same("status and error", (int(words[0] != "none"), ""), (ran.status, ran.err))


# ---- by hand

BY_HAND = r"""
#include "lockup_scoreboard.h"
static lockup_scoreboard board;
static lockup_issued issued(uint64_t answer, uint64_t number, uint64_t reply) {
    lockup_issued it;
    it.answer = answer;
    it.number = number;
    it.reply = reply;
    return it;
}
static void say(uint32_t code) {
    char text[LOCKUP_TEXT];
    if (lockup_difference_text(&board, text, sizeof text)) exit(3);
    printf("%s: %s\n", LOCKUP_NAME(code, code), text);
    if (board.difference.found) board.difference.found = 0;
}
static uint32_t shared_copy(void *of, uint64_t core, uint64_t line, lockup_copy *it) {
    it->state = core == 1 && line == 2 ? *(uint64_t *)of : (uint64_t)LOCKUP_I;
    return core == 1 && line == 3 ? LOCKUP_IN_USE : LOCKUP_OK;
}
static uint32_t no_sharer(void *of, uint64_t line, lockup_directory *it) {
    it->state = line == 0 ? LOCKUP_DIR_S : LOCKUP_DIR_I;
    it->sharers = *(uint64_t *)of;
    return LOCKUP_OK;
}
static uint32_t no_message(void *of, uint64_t line, uint64_t *count) {
    *count = *(uint64_t *)of + (line == 99);
    return LOCKUP_OK;
}
int main(void) {
    lockup_config config;
    lockup_issued it = issued(LOCKUP_PENDING, 0, 0);
    lockup_design design;
    lockup_receipt receipt;
    uint64_t shown = LOCKUP_S;
    memset(&design, 0, sizeof design);
    memset(&receipt, 0, sizeof receipt);
    lockup_defaults(&config);
    config.cores = 3;
    if (lockup_scoreboard_begin(&board, &config, NULL, 0, NULL, 0)) return 2;
    design.of = &shown;
    design.copy_at = shared_copy;
    say(lockup_compare(&board, &design));
    shown = LOCKUP_I;
    say(lockup_compare(&board, &design));
    design.copy_at = NULL;
    say(lockup_expect_issue(&board, 0, 5, LOCKUP_LOAD, 3, 0, 0, &it));
    it.number = LOCKUP_TAG_RANGE;
    it.answer = LOCKUP_REFUSED;
    say(lockup_expect_issue(&board, 0, 5, LOCKUP_CAS, 3, 1, 2, &it));
    say(lockup_expect_issue(&board, 4, 5, LOCKUP_LOAD, 3, 0, 0, &it));
    say(lockup_expect_evict(&board, 0, 0, LOCKUP_NOT_HELD));
    design.messages = no_message;
    shown = 0;
    say(lockup_compare(&board, &design));
    say(lockup_expect_deliver(&board, LOCKUP_REQ, 0, 0, 0, LOCKUP_MOVED));
    say(lockup_expect_deliver(&board, LOCKUP_DATA, 0, 0, 0, LOCKUP_MOVED));
    design.messages = NULL;
    design.directory_at = no_sharer;
    shown = 6;
    say(lockup_compare(&board, &design));
    receipt.handed = 1;
    receipt.tag = 5;
    receipt.reply = LOCKUP_UNSEEN;
    say(lockup_expect_hand(&board, 0, 0, &receipt));
    if (lockup_write_script(&board, stdout, 1)) return 4;
    return (int)lockup_scoreboard_end(&board);
}
"""
# core 0 misses with a load, its tag is then in use, a copy that waits can't be evicted; its request is taken, its data come
SAYS_BY_HAND = """the design differs: before the first call: copy of core 1, line 2: state is I, and the design's is S
the handle has a machine already: 
ok: 
the design differs: call 1, issue 0 5 cas 3 1 2: reason is TagBusy, and the design's is TagRange
out of range: 
the design differs: call 2, evict 0 0: answer is busy, and the design's is not held
the design differs: after call 2, evict 0 0: messages of line 0: count is 1, and the design's is 0
ok: 
ok: 
the design differs: after call 4, deliver data 0 0: directory of line 0: sharers is core 0, and the design's is core 1,2
the design differs: call 5, hand 0 0: reply is 0, and the design's is 9223372036854775808
"""
SCRIPT_BY_HAND = """issue 0 5 load 3 = pending 0
issue 0 5 cas 3 1 2 = refused 3 TagBusy
evict 0 0 = busy
deliver req 0 0 = moved
deliver data 0 0 = moved
hand 0 0 = receipt 0 tag 5 reply 0
"""


def of_program(source: str) -> Ran:
    with tempfile.TemporaryDirectory() as room:
        return run([compiled(write(f"{room}/it.c", source), "c89", f"{room}/it")])


@seconds(2)
def test_by_hand() -> None:
    ran = of_program(BY_HAND)
    same("status and error", (0, ""), (ran.status, ran.err))
    said, settings, script = ran.out.partition("cores 3\n")
    same("what it says", SAYS_BY_HAND, said)
    same("the script", SCRIPT_BY_HAND, script[script.index("issue"):])
    played(f"{settings}{script}")


LONG = r"""
#include "lockup_scoreboard.h"
static uint64_t sharers;
static uint32_t directory_at(void *of, uint64_t line, lockup_directory *it) {
    it->state = line == 0 && of ? LOCKUP_DIR_S : LOCKUP_DIR_I;
    it->sharers = sharers;
    return LOCKUP_OK;
}
int main(void) {
    lockup_scoreboard board = {0};
    lockup_config config;
    lockup_design design;
    lockup_issued any;
    char text[LOCKUP_TEXT];
    uint64_t core;
    memset(&design, 0, sizeof design);
    memset(&any, 0, sizeof any);
    any.answer = any.number = LOCKUP_UNSEEN;
    lockup_defaults(&config);
    config.cores = 64;
    if (lockup_scoreboard_begin(&board, &config, NULL, 0, NULL, 0)) return 2;
    for (core = 0; core < 63; core++)
        if (lockup_expect_issue(&board, core, 0, LOCKUP_LOAD, 0, 0, 0, &any)
            || lockup_expect_deliver(&board, LOCKUP_REQ, 0, core, 0, LOCKUP_MOVED)
            || lockup_expect_deliver(&board, LOCKUP_DATA, 0, core, 0, LOCKUP_MOVED)) return 3;
    if (lockup_expect_issue(&board, 63, 255, LOCKUP_CAS, UINT64_MAX, UINT64_MAX, UINT64_MAX, &any)) return 4;
    design.of = &config;
    design.directory_at = directory_at;
    for (core = 0; core < 2; core++) {
        sharers = core ? UINT64_MAX : (uint64_t)1 << 63;
        if (lockup_compare(&board, &design) != LOCKUP_DIFFERS) return 5;
        if (lockup_difference_text(&board, text, sizeof text)) return 6;
        printf("%s\n", text);
        board.difference.found = 0;
    }
    return (int)lockup_scoreboard_end(&board);
}
"""


@seconds(2)
def test_64_cores() -> None:
    """Core 63 is a sharer as any other, and the longest sentence has room."""
    ran = of_program(LONG)
    same("status and error", (0, ""), (ran.status, ran.err))
    most, cores = (1 << 64) - 1, ",".join(map(str, range(63)))
    said = f"after call 189, issue 63 255 cas {most} {most} {most}: directory of line 0: sharers is core {cores}"
    same("what it says", [f"{said}, and the design's is core {it}" for it in ("63", f"{cores},63")], ran.out.splitlines())


NEXT = r"""
#include "lockup_scoreboard.h"
int main(int count, char **words) {
    lockup_scoreboard board = {0};
    lockup_config config;
    lockup_issued pending;
    lockup_next_delivery came;
    memset(&pending, 0, sizeof pending);
    memset(&came, 0, sizeof came);
    pending.answer = LOCKUP_PENDING;
    came.channel = LOCKUP_NUMBER(channel, words[count - 2]);
    came.line = (uint64_t)atol(words[count - 1]);
    came.from = 99;
    lockup_defaults(&config);
    if (lockup_scoreboard_begin(&board, &config, NULL, 0, NULL, 0)) return 2;
    board.record = count - 3;
    if (lockup_expect_issue(&board, 0, 5, LOCKUP_LOAD, 0, 0, 0, &pending)) return 3;
    if (lockup_expect_next(&board, 0, LOCKUP_DATA, &came) != LOCKUP_DIFFERS) return 4;
    if (lockup_write_script(&board, stdout, 1)) return 5;
    return (int)lockup_scoreboard_end(&board);
}
"""


@seconds(2)
def test_next_of_the_design() -> None:
    """Where the model moves nothing the script has what the design moved, if the model has such a channel and doesn't move
    it: core 0 asks for line 0, and no data are there."""
    says = "# call 1, next 0 data: answer is nothing, and the design's is moved"
    with tempfile.TemporaryDirectory() as room:
        made = compiled(write(f"{room}/it.c", NEXT), "c89", f"{room}/it")
        for channel, line, row in (("data", "0", "deliver data 0 0"), ("data", "999", "# next 0 data"),
                                   ("req", "0", "# next 0 data"), ("any", "0", "# next 0 data")):
            for recorded in ["all"], ["only", "changes"]:
                ran = run([made, *recorded, channel, line])
                same("status", 0, ran.status)
                same("the script", ["issue 0 5 load 0 = pending 0", f"{row} = nothing", says], ran.out.splitlines()[-3:])
                played(ran.out)


CODES = r"""
#include "lockup_scoreboard.h"
static lockup_scoreboard board;
static void say(uint32_t code) { printf("%d ", (int)code); }
int main(void) {
    lockup_config config, none;
    lockup_issued issued;
    lockup_receipt receipt;
    lockup_next_delivery next;
    lockup_design design;
    lockup_call call;
    char text[8];
    FILE *full = fopen("/dev/full", "w");
    memset(&issued, 0, sizeof issued);
    memset(&receipt, 0, sizeof receipt);
    memset(&next, 0, sizeof next);
    memset(&design, 0, sizeof design);
    memset(&call, 0, sizeof call);
    lockup_defaults(&config);
    none = config;
    none.ways = 17;
    say(lockup_scoreboard_begin(NULL, &config, NULL, 0, NULL, 0));
    say(lockup_scoreboard_begin(&board, NULL, NULL, 0, NULL, 0));
    say(lockup_scoreboard_begin(&board, &config, NULL, 1, NULL, 0));
    say(lockup_scoreboard_begin(&board, &config, NULL, 0, NULL, 1));
    say(lockup_expect_issue(NULL, 0, 0, 0, 0, 0, 0, &issued));
    say(lockup_expect_issue(&board, 0, 0, 0, 0, 0, 0, NULL));
    say(lockup_expect_evict(NULL, 0, 0, 0));
    say(lockup_expect_deliver(NULL, 0, 0, 0, 0, 0));
    say(lockup_expect_next(NULL, 0, 0, &next));
    say(lockup_expect_next(&board, 0, 0, NULL));
    say(lockup_expect_hand(NULL, 0, 0, &receipt));
    say(lockup_expect_hand(&board, 0, 0, NULL));
    say(lockup_compare(NULL, &design));
    say(lockup_compare(&board, NULL));
    say(lockup_difference_text(NULL, text, sizeof text));
    say(lockup_difference_text(&board, NULL, 8));
    say(lockup_issued_text(NULL, text, sizeof text));
    say(lockup_issued_text(&issued, NULL, 8));
    say(lockup_receipt_text(NULL, text, sizeof text));
    say(lockup_receipt_text(&receipt, NULL, 8));
    say(lockup_call_text(NULL, text, sizeof text));
    say(lockup_call_text(&call, NULL, 8));
    say(lockup_answer_text(NULL, text, sizeof text));
    say(lockup_answer_text(&call, NULL, 8));
    say(lockup_write_script(NULL, stdout, 1));
    say(lockup_write_script(&board, NULL, 1));
    say(lockup_scoreboard_end(NULL));
    puts("null");
    say(lockup_expect_issue(&board, 0, 0, 0, 0, 0, 0, &issued));
    say(lockup_expect_evict(&board, 0, 0, 0));
    say(lockup_expect_deliver(&board, 0, 0, 0, 0, 0));
    say(lockup_expect_next(&board, 0, 0, &next));
    say(lockup_expect_hand(&board, 0, 0, &receipt));
    say(lockup_compare(&board, &design));
    say(lockup_write_script(&board, stdout, 1));
    say(lockup_scoreboard_end(&board));
    puts("none");
    say(lockup_scoreboard_begin(&board, &none, NULL, 0, NULL, 0));
    say(board.machine.at != NULL);
    say(lockup_scoreboard_begin(&board, &config, NULL, 0, NULL, 0));
    say(lockup_scoreboard_begin(&board, &config, NULL, 0, NULL, 0));
    say(lockup_compare(&board, &design));
    say(lockup_write_script(&board, full, 1));
    say(lockup_expect_evict(&board, 2, 0, 0));
    say(lockup_expect_evict(&board, 0, 0, LOCKUP_BUSY));
    say(lockup_expect_evict(&board, 0, 0, LOCKUP_NOT_HELD));
    say(lockup_compare(&board, &design));
    say((uint32_t)board.calls);
    puts("begun");
    say(lockup_issued_text(&issued, text, sizeof text));
    puts(text);
    say(lockup_receipt_text(&receipt, text, sizeof text));
    puts(text);
    issued.answer = LOCKUP_PENDING;
    issued.number = LOCKUP_UNSEEN;
    say(lockup_issued_text(&issued, text, 0));
    say(lockup_issued_text(&issued, text, sizeof text));
    puts(text);
    call.kind = LOCKUP_CALL_NEXT;
    call.numbers[1] = LOCKUP_ANY;
    say(lockup_call_text(&call, text, sizeof text));
    puts(text);
    say(lockup_answer_text(&call, text, sizeof text));
    puts(text);
    call.kind = 5;
    say(lockup_call_text(&call, text, sizeof text));
    say(lockup_answer_text(&call, text, sizeof text));
    puts("texts");
    if (full) fclose(full);
    return (int)lockup_scoreboard_end(&board) || board.machine.at || board.made;
}
"""
SAYS_CODES = f"""{'5 ' * 27}null
{'1 ' * 8}none
105 0 0 4 0 8 2 6 6 6 1 begun
2 done 0 
0 none
2 2 pending
2 next 0 
0 moved
2 2 texts
"""


@seconds(2)
def test_codes() -> None:
    """Each code, and texts that a buffer of eight bytes cuts."""
    ran = of_program(CODES)
    same("what it says", (0, SAYS_CODES, ""), tuple(ran))


# ---- the field for which a configuration is refused

FAULTS = r"""
#include "lockup_names.h"
#include <stdio.h>
static void say(const lockup_config *config, int field) {
    lockup_machine machine = {0};
    const char *fault = lockup_config_fault(config);
    const int code = (int)lockup_make(&machine, config);
    if (!code) lockup_free(&machine);
    printf("%d %d %s\n", field, code, fault ? fault : "none");
}
int main(void) {
    static const uint64_t tried[] = {0, 1, 2, 3, 4, 5, 8, 12, 15, 16, 17, 31, 32, 33, 63, 64, 65, 128, 255, 256, 257, 512,
                                     65535, 65536, 65537, (uint64_t)1 << 32, UINT64_MAX};
    size_t field, other, at;
    lockup_config config;
    for (field = 0; field < 12; field++)
        for (at = 0; at < sizeof tried / sizeof *tried; at++) {
            lockup_defaults(&config);
            (&config.cores)[field] = tried[at];
            say(&config, (int)field);
        }
    for (field = 0; field < 12; field++)
        for (other = 0; other < 12; other++) {
            lockup_defaults(&config);
            (&config.cores)[field] = (&config.cores)[other] = UINT64_MAX;
            say(&config, -1);
        }
    return strcmp(lockup_config_fault(NULL), "config");
}
"""
FIELDS = "cores slices lines sets ways mshrs targets writebacks policy seed misses exclusive".split()


@seconds(2)
def test_faults_of_configurations() -> None:
    """lockup_config_fault names the field exactly where lockup_make refuses it."""
    ran = of_program(FAULTS)
    same("status and error", (0, ""), (ran.status, ran.err))
    rows = [row.split() for row in ran.out.splitlines()]
    same("rows", 12 * (27 + 12), len(rows))
    for field, code, fault in rows:
        codes = (0,) if fault == "none" else (2,) if fault in FIELDS[8:] else (101 + FIELDS.index(fault),)
        want(int(code) in codes, f"of {fault} the code is {code}")
        want(int(field) < 0 or fault in ("none", FIELDS[int(field)]), f"{fault} is named for {FIELDS[int(field)]}")
    want(10 < sum(fault == "none" for _, _, fault in rows) < len(rows) - 10, "all are alike")
