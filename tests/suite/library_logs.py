"""New logs of the library's slices: what they leave of a slice, when none is begun, and what memory a long run takes.

A slice that began a new log answers as one that didn't, but for the numbers of its entries and requests, which begin at 0
again: a machine is compared with its copy, call by call.
"""
import random
import tempfile
from typing import Any, Iterator

from harness import ROOT, each, each_refused, needs, run, same, seconds, want, write
from harness.library import INCLUDE, WARNINGS, module, shared

FIELDS = {"cores": 4, "slices": 2, "sets": 2, "mshrs": 2, "targets": 2, "writebacks": 1, "policy": 2, "seed": 9, "exclusive": 1}
CORES, SLICES, LINES = range(4), range(2), range(16)


def quieten(machine: Any) -> None:
    """Delivers and hands out whatever there is, until the machine is quiet."""
    while not machine.quiet:
        machine.settle()
        for core in CORES:
            for slice in SLICES:
                list(machine.replies(core, slice))


def stays(machine: Any) -> list:
    """Returns what a machine shows that a new log leaves as it is."""
    return [
        *(machine.directory(line) for line in LINES), *(machine.word(word) for word in range(128)),
        *(look(core, line) for look in (machine.copy, machine.ways) for core in CORES for line in LINES),
    ]


class Call:
    """A call of a machine, whose answer has numbers of a slice's log and of a core's requests there."""

    def __init__(self, draw: random.Random) -> None:
        self.core, self.slice, self.word = draw.randrange(4), draw.randrange(2), draw.randrange(128)
        self.kind, self.tag, self.op, self.operand = draw.randrange(8), draw.randrange(16), draw.randrange(4), draw.randrange(3)
        self.channel, self.sender = draw.randrange(5), draw.randrange(4)

    def made(self, machine: Any, entries: list[int], requests: list[list[int]]) -> Any:
        """Makes the call, and returns its answer, whose numbers count from these."""
        line = self.word // 8
        if self.kind < 3:
            told = machine.issue(self.core, self.tag, self.op, self.word, self.operand, 5)
            before = {"DONE": entries[line % 2], "PENDING": requests[line % 2][self.core]}.get(told.answer.name, 0)
            return told._replace(number=told.number - before)
        if self.kind == 3:
            return machine.evict(self.core, line)
        if self.kind == 4:
            handed = machine.hand(self.core, self.slice)
            return handed and handed._replace(number=handed.number - entries[self.slice])
        if self.kind == 5:
            return machine.deliver(self.channel, line, self.core, self.sender)
        return machine.deliver_next(self.slice)


NONE = [0, 0], [[0] * 4, [0] * 4]


def stir(machine: Any, draw: random.Random) -> None:
    for _ in range(1000):
        Call(draw).made(machine, *NONE)


@seconds(4)
@each(lambda: ["explicit", "inverted"])
def test_answers(misses: str) -> None:
    """A machine that begins new logs answers as its copy, which begins none."""
    draw = random.Random(misses)
    with module().Machine(init={3: 7}, counters=[40], misses=int(misses == "inverted"), **FIELDS) as machine:
        for _ in range(6):
            stir(machine, draw)
            quieten(machine)
            with machine.clone() as other:
                logs = [list(other.log(slice)) for slice in SLICES]
                entries = [len(log) for log in logs]
                requests = [[sum(it.core == core for it in log) for core in CORES] for log in logs]
                want(all(entries), "a slice has performed nothing")
                same("begun", [True, True], [machine.begin_log(slice) for slice in SLICES])
                same("the logs", [0, 0], [len(machine.log(slice)) for slice in SLICES])
                same("counts", {0}, {it for core in CORES for slice in SLICES for it in numbers(machine.counts(core, slice))})
                same("what stays", stays(other), stays(machine))
                for _ in range(1000):
                    call = Call(draw)
                    same("an answer", call.made(other, entries, requests), call.made(machine, *NONE))
                same("what there is then", stays(other), stays(machine))
                for slice in SLICES:
                    behind = [it._replace(seq=it.seq - requests[slice][it.core], since=it.since - entries[slice])
                              for it in list(other.log(slice))[entries[slice]:]]
                    same("the log", behind, list(machine.log(slice)))


def numbers(counts: Any) -> Iterator[int]:
    """Yields each number of what was counted."""
    for it in counts:
        yield from [it] if isinstance(it, int) else it


def test_a_slice_that_is_not_quiet() -> None:
    """A miss that waits, a message, a reply or a write-back each keeps a slice from it, and the other slice isn't kept."""
    with module().Machine(**FIELDS) as machine:
        def kept(what: str) -> None:
            with machine.clone() as other:
                same(what, False, machine.begin_log(0))
                same("nothing changes", shown(other), shown(machine))
                same("the other slice", True, machine.begin_log(1))
        machine.add(0, 0, 0, 5)
        kept("a request waits")
        machine.settle()
        kept("a reply waits")
        machine.hand(0)
        same("a quiet slice", True, machine.begin_log(0))
        machine.evict(0, 0)
        kept("a line leaves")
        machine.settle()
        same("quiet again", (True, 5), (machine.begin_log(0), machine.word(0)))


def shown(machine: Any) -> list:
    return [stays(machine), *(list(machine.log(slice)) for slice in SLICES), *(machine.registers(0, slice) for slice in SLICES),
            *(machine.counts(0, slice) for slice in SLICES)]


WITHOUT_MEMORY = """
#include "lockup.h"
#include <stdio.h>
int main(void) {
    lockup_machine machine = {0};
    lockup_config config = {0};
    lockup_issued issued = {0};
    lockup_next_delivery next = {0};
    lockup_receipt receipt = {0};
    uint64_t begun = 7, count = 7;
    lockup_defaults(&config);
    if (lockup_make(&machine, &config)) return printf("no machine\\n") < 0;
    if (lockup_issue(&machine, 0, 0, LOCKUP_ADD, 0, 5, 0, &issued)) return printf("no add\\n") < 0;
    do lockup_deliver_next(&machine, 0, LOCKUP_ANY, &next); while (next.answer == LOCKUP_MOVED);
    lockup_hand(&machine, 0, 0, &receipt);
    const uint32_t code = lockup_begin_log(&machine, 0, &begun);
    lockup_entries(&machine, 0, &count);
    printf("%u %d %d\\n", code, (int)begun, (int)count);
    return lockup_free(&machine) != LOCKUP_OK;
}
"""


@seconds(3)
def test_no_memory() -> None:
    """With each allocation refused in turn a log isn't begun, and the one before stays, or it does without the allocation."""
    needs("cc")
    with tempfile.TemporaryDirectory() as room:
        made = compiled(room, str(write(f"{room}/new_log.c", WITHOUT_MEMORY)))
        told = []
        for refused, ran in each_refused([made]):
            same(f"status with allocation {refused} refused", (0, ""), (ran.status, ran.err))
            told.append(ran.out)
        same("with ample memory", "0 1 0\n", told[0])
        same("otherwise", {"0 1 0\n", "3 0 1\n", "no add\n", "no machine\n"}, set(told))


def compiled(room: str, source: str) -> str:
    """Compiles a program over the shared object. Returns its path."""
    library = shared()
    words = ["cc", *WARNINGS, f"-I{INCLUDE}", source, library, f"-Wl,-rpath,{library.parent}", "-o", f"{room}/made"]
    same("the compiler", (0, "", ""), tuple(run(words)))
    return f"{room}/made"


@seconds(5)
def test_memory_of_a_long_run() -> None:
    """Sixteen times as many requests take no more memory, nor a copy more time, where new logs are begun."""
    needs("cc")
    with tempfile.TemporaryDirectory() as room:
        made = compiled(room, str(ROOT / "tests/harness/long_run.c"))
        most = []
        for requests in (500_000, 8_000_000):
            ran = run([made, str(requests), "10000"])
            same("its end", (0, ""), (ran.status, ran.err))
            most.append(int(ran.out.split()[0]))
        want(most[1] < most[0] + 1024, f"it takes {most} kB")
