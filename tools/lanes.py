"""Runs tasks that wait for one another side by side, the longest chain first, and shows how far they are."""
import sys
import threading
import time
from concurrent.futures import FIRST_COMPLETED, ThreadPoolExecutor, wait
from dataclasses import dataclass, field
from typing import Callable


@dataclass
class Task:
    """A task: the names that it waits for, the processor seconds and the bytes of memory that it is likely to take, and
    its call, which gets how many processors it may use and returns what went wrong, or None."""

    name: str
    waits: list
    seconds: float
    memory: float
    call: Callable


@dataclass
class Failed:
    name: str
    said: str


@dataclass
class Ran:
    """What became of the tasks: the seconds of each that was done, and the one that failed, if one did."""

    seconds: dict = field(default_factory=dict)
    failed: Failed | None = None


def seconds_of(files):
    """Returns the seconds by name of the lines 'NAME SECONDS' of these files, those of later files over earlier ones."""
    found = {}
    for file in files:
        try:
            with open(file, encoding="utf-8") as it:
                for line in it:
                    name, _, number = line.partition(" ")
                    if name != "#":
                        found[name] = float(number)
        except (OSError, ValueError):
            pass
    return found


def note_seconds(file, seconds):
    with open(file, "w", encoding="utf-8") as it:
        it.writelines(f"{name} {number:.0f}\n" for name, number in sorted(seconds.items()))


def behind(tasks):
    """Returns of each task the seconds of the longest chain that begins with it."""
    waiting = {name: [it for it in tasks if name in tasks[it].waits] for name in tasks}
    found = {}

    def chain(name):
        if name not in found:
            found[name] = tasks[name].seconds + max(map(chain, waiting[name]), default=0)
        return found[name]

    for name in tasks:
        chain(name)
    return found


# By how much a crate is proved faster on so many processors.
GAIN = {1: 1.0, 2: 1.6, 3: 2.0, 4: 2.2}


def jobs_for(idle, ready):
    """Returns how many processors the first of `ready` tasks gets: more than one where the others leave them idle,
    since two tasks on one each get more done than one on two."""
    return max(1, min(max(GAIN), idle // ready))


def run(tasks, lanes, memory, shown):
    """Runs the tasks on so many processors within that memory. After one has failed no other is begun."""
    chains, left, running, ran = behind(tasks), dict(tasks), {}, Ran()
    with ThreadPoolExecutor(lanes) as pool, shown.watched(left, running, lanes):
        while left or running:
            done = set(tasks) - set(left) - {it[0].name for it in running.values()}
            ready = sorted((it for it in left.values() if set(it.waits) <= done), key=lambda it: -chains[it.name])
            while ready and not ran.failed:
                idle = lanes - sum(jobs for _, jobs, _ in running.values())
                room = memory - sum(task.memory for task, _, _ in running.values())
                fitting = [it for it in ready if it.memory <= room or not running]
                if idle < 1 or not fitting:
                    break
                task, jobs = left.pop(fitting[0].name), jobs_for(idle, len(fitting))
                ready.remove(task)
                running[pool.submit(task.call, jobs)] = (task, jobs, time.time())
            if ran.failed and not running:
                return ran
            for future in wait(running, return_when=FIRST_COMPLETED).done:
                task, jobs, since = running.pop(future)
                said = future.result()
                if said:
                    ran.failed = ran.failed or Failed(task.name, said)
                    continue
                ran.seconds[task.name] = (time.time() - since) * GAIN[jobs]
                shown.tell(task.name)
    return ran


class Shown:
    """Shows on standard error which tasks are done, which run, and about how long the rest takes."""

    def __init__(self, who, done, of):
        self.who, self.done, self.of, self.is_terminal = who, done, of, sys.stderr.isatty()
        self.began, self.ended, self.lock = time.time(), threading.Event(), threading.Lock()
        self.left, self.running, self.lanes = {}, {}, 1

    def watched(self, left, running, lanes):
        """Shows these tasks until the block ends."""
        self.left, self.running, self.lanes = left, running, lanes
        return self

    def __enter__(self):
        minutes = self.minutes_left()
        print(f"{self.who}: {self.of - self.done} of {self.of} crates to prove, about {minutes:.0f} minutes", file=sys.stderr)
        if self.is_terminal:
            threading.Thread(target=self.watch, daemon=True).start()

    def __exit__(self, *_):
        self.ended.set()
        with self.lock:
            self.clear()

    def minutes_left(self):
        """Returns about how many minutes are left: as long as the longest chain, or as all on all processors."""
        now, tasks = time.time(), dict(self.left)
        rests = []
        for task, jobs, since in list(self.running.values()):
            rests.append(max(task.seconds / GAIN[jobs] - (now - since), 5))
        chains = behind(tasks) if tasks else {}
        work = sum(it.seconds for it in tasks.values()) + sum(rests)
        chain = max(chains.values(), default=0) / GAIN[min(2, self.lanes)] + max(rests, default=0)
        return max(1, round(max(work / self.lanes, chain) / 60))

    def tell(self, name):
        with self.lock:
            self.done += 1
            self.clear()
            seconds, minutes = time.time() - self.began, self.minutes_left()
            rest = f"about {minutes} minutes left" if self.left or self.running else "all are proved"
            print(f"{self.who}: {self.done} of {self.of} proved: {name}, after {seconds:.0f} seconds; {rest}", file=sys.stderr)

    def watch(self):
        while not self.ended.wait(1):
            with self.lock:
                names = ", ".join(sorted(task.name for task, _, _ in list(self.running.values())))
                line = f"{self.who}: {self.done} of {self.of}, proving {names}; about {self.minutes_left()} minutes left"
                print(f"\r\x1b[K{line[:100]}", end="", file=sys.stderr, flush=True)

    def clear(self):
        if self.is_terminal:
            print("\r\x1b[K", end="", file=sys.stderr)
