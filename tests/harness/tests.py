"""Finds the tests of tests/suite by their names, and runs them side by side."""
import importlib
import inspect
import os
import pkgutil
import time
import traceback
from concurrent.futures import Future, ProcessPoolExecutor, as_completed
from concurrent.futures.process import BrokenProcessPool
from multiprocessing import get_context
from types import ModuleType
from typing import Iterable, Iterator, NamedTuple

import suite

from .compare import Different, Skipped

_queue: list["Test"] = []


class Test(NamedTuple):
    """A test: its function, by the names of its module and of itself, its arguments, about how many seconds it takes, and
    whether it runs the program under test."""

    module: str
    function: str
    arguments: tuple
    seconds: float
    needs_program: bool

    @property
    def name(self) -> str:
        argument = f"[{self.arguments[0]}]" if self.arguments else ""
        return f"{self.module}.{self.function.removeprefix('test_')}{argument}"


class Result(NamedTuple):
    """What came of a test: `passed`, `failed` or `skipped`, and what is said of it."""

    came: str
    said: str
    seconds: float


def tests_of(module: ModuleType) -> Iterator[Test]:
    """Returns a module's tests, in the order in which it has them."""
    name = module.__name__.removeprefix("suite.")
    for key, function in vars(module).items():
        if key.startswith("test_") and inspect.isfunction(function):
            takes = getattr(function, "seconds", 0)
            for argument in function.arguments() if hasattr(function, "arguments") else [()]:
                arguments = argument if isinstance(argument, tuple) else (argument,)
                yield Test(name, key, arguments, takes, getattr(module, "NEEDS_PROGRAM", True))


def found(names: Iterable[str]) -> list[Test]:
    """Returns the tests whose names contain one of these; all where none is given."""
    modules = [importlib.import_module(f"suite.{it.name}") for it in pkgutil.iter_modules(suite.__path__)]
    asked = list(names) or [""]
    return [test for module in modules for test in tests_of(module) if any(name in test.name for name in asked)]


def tried(test: Test) -> Result:
    """Runs a test."""
    began = time.monotonic()
    came, said = "passed", ""
    try:
        getattr(importlib.import_module(f"suite.{test.module}"), test.function)(*test.arguments)
    except Skipped as reason:
        came, said = "skipped", str(reason)
    except Different as difference:
        came, said = "failed", str(difference)
    except Exception:
        came, said = "failed", traceback.format_exc()
    return Result(came, said, time.monotonic() - began)


def run_all(tests: list[Test], jobs: int) -> Iterator[tuple[Test, Result]]:
    """Runs tests side by side, the longest first, and returns what comes of each as it does."""
    _queue[:] = sorted(tests, key=lambda it: -it.seconds)
    # processes are forked: they have the queue, whose arguments may be of any kind
    with ProcessPoolExecutor(jobs, get_context("fork")) as pool:
        places = {pool.submit(tried_at, place): place for place in range(len(_queue))}
        for future in as_completed(places):
            yield _queue[places[future]], result_of(future)


def tried_at(place: int) -> Result:
    return tried(_queue[place])


def result_of(future: Future) -> Result:
    """Returns what came of a test, be it that its process was killed."""
    try:
        return future.result()
    except BrokenProcessPool:
        return Result("failed", "a process of the tests was killed", 0)


def processors() -> int:
    return len(os.sched_getaffinity(0))
