"""How ./build orders its work (tools/lanes.py), with tasks that only wait: the longest chain comes
first, nothing begins before what it waits for, processors and memory are kept to, and after a
failure nothing more begins. And which sources it proves (tools/room.py)."""
import shutil
import sys
import tempfile
import threading
import time
from pathlib import Path
from typing import Any, Callable

from harness import ROOT, Skipped, read, same, want, write

sys.path.insert(0, str(ROOT / "tools"))
import kit
import lanes
import room

CHAIN = [("low", [], 5, 1), ("middle", ["low"], 5, 1), ("top", ["middle", "low"], 5, 1)]
ALONE = [(f"alone{number}", [], 4, 1) for number in range(6)]


class Quiet(lanes.Shown):
    def __init__(self) -> None:
        super().__init__("test", 0, 0)
        self.told = []

    def __enter__(self) -> "Quiet":
        return self

    def __exit__(self, *_: object) -> None:
        pass

    def tell(self, name: str) -> None:
        self.told.append(name)


class Work:
    """Tasks that note when they begin and end, how many processors they got, and how much is used
    at most."""

    def __init__(self, rows: list[tuple], bad: tuple = ()) -> None:
        self.lock, self.events, self.used, self.most, self.memory = threading.Lock(), [], 0, 0, 0
        self.most_memory = 0
        self.tasks = {name: lanes.Task(name, waits, seconds, memory, self.call(name, seconds, memory, name in bad))
                      for name, waits, seconds, memory in rows}

    def call(self, name: str, seconds: int, memory: int, is_bad: bool) -> Callable:
        def run(jobs: int) -> str | None:
            with self.lock:
                self.events.append(("begins", name))
                self.used, self.memory = self.used + jobs, self.memory + memory
                self.most, self.most_memory = max(self.most, self.used), max(self.most_memory, self.memory)
            time.sleep(seconds / 100)
            with self.lock:
                self.events.append(("ends", name))
                self.used, self.memory = self.used - jobs, self.memory - memory
            return "it is wrong" if is_bad else None
        return run

    def run(self, processors: int, memory: int = 100) -> Any:
        return lanes.run(self.tasks, processors, memory, Quiet())

    def begun(self) -> list[str]:
        return [name for what, name in self.events if what == "begins"]


def test_order() -> None:
    work = Work(ALONE + CHAIN)
    same("behind", {"low": 15, "middle": 10, "top": 5}, lanes.behind(Work(CHAIN).tasks))
    same("all are done", (None, 9), (work.run(2).failed, len(work.begun())))
    same("the longest chain first", "low", work.begun()[0])
    for name, waits in (("middle", ["low"]), ("top", ["low", "middle"])):
        at = work.events.index(("begins", name))
        same(f"{name} waits", True, all(("ends", it) in work.events[:at] for it in waits))
    same("two processors", 2, work.most)


def test_processors() -> None:
    """A task gets what the other ones leave idle, and no more than help it."""
    same("one of so many", [4, 2, 1, 1, 1], [lanes.jobs_for(4, ready) for ready in range(1, 6)])
    same("of many", 4, lanes.jobs_for(64, 1))


def test_one_processor() -> None:
    """The tasks go by the length of their chains."""
    work = Work(ALONE + CHAIN)
    work.run(1)
    same("chain", ["low", "middle", "top"], [it for it in work.begun() if not it.startswith("alone")])


def test_memory() -> None:
    work = Work([(f"big{number}", [], 3, 40) for number in range(5)])
    work.run(4)
    same("memory", 80, work.most_memory)
    work = Work([("first", [], 9, 60), ("second", [], 8, 60), ("third", [], 3, 30)])
    work.run(4)
    same("what fits doesn't wait for what doesn't", ["first", "third", "second"], work.begun())
    work = Work([("huge", [], 1, 1000)])
    work.run(4)
    same("more than there is, alone", ["huge"], work.begun())


def test_a_failure() -> None:
    work = Work([("first", [], 2, 1), ("second", ["first"], 2, 1), ("third", ["second"], 2, 1)], bad=("second",))
    ran = work.run(4)
    told = ran.failed.name, ran.failed.said, work.begun()
    same("a failure", ("second", "it is wrong", ["first", "second"]), told)
    same("no seconds of what failed", ["first"], sorted(ran.seconds))


def test_sources() -> None:
    """The folder has the crates below the program and the library, as they are here, and no others."""
    if not shutil.which("rt"):
        raise Skipped("rt isn't there")
    needs = {}
    for line in read(ROOT / "crates.txt").splitlines():
        name, colon, below = line.partition("#")[0].partition(":")
        if colon:
            needs[name.split()[0]] = [it for it in below.split() if (ROOT / "crates" / it).is_dir()]
    wanted, more = set(), ["lockup", "lockup_c"]
    while more:
        name = more.pop()
        wanted.add(name)
        more += [it for it in needs[name] if it not in wanted]
    with tempfile.TemporaryDirectory() as folder:
        stale = Path(folder, "crates/lockup/src/stale.rt")
        for path in (Path(folder, "crates/gone/src/lib.rt"), stale):
            path.parent.mkdir(parents=True)
            write(path, "")
        room.Room(kit.load_rt(), "test", folder).take_sources()
        same("crates", sorted(wanted), sorted(path.name for path in Path(folder, "crates").iterdir()))
        want(not stale.exists(), "a file that is no longer there")
        for name in wanted:
            for part in room.PARTS:
                want(files_of(ROOT / "crates" / name / part) == files_of(Path(folder, "crates", name, part)), f"{name}/{part}")


def files_of(folder: Path) -> dict[Path, bytes]:
    return {path.relative_to(folder): path.read_bytes() for path in folder.rglob("*") if path.is_file()}
