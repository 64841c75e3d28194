"""The command line of ./test."""
import argparse
import os
import resource
import subprocess
import sys
import tempfile
import time
from collections import defaultdict
from pathlib import Path

from . import gate, processes
from .tests import Result, Test, found, processors, run_all

ABOUT = "Proves all and runs all tests: the gate (`rt ci`), then those of tests/suite on the program that it built."
END = "The last line is 'N passed, M failed', and the status is 0 only where M is 0."


def options_of(words: list[str]) -> argparse.Namespace:
    parser = argparse.ArgumentParser("test", description=ABOUT, epilog=END)
    parser.add_argument("--cases", action="store_true", help="leave the gate out, and run the program as it is built")
    parser.add_argument("--program", type=Path, metavar="FILE", help="test this program; it implies --cases")
    parser.add_argument("--jobs", type=int, default=processors(), help="tests at a time (default: one a processor)")
    parser.add_argument("--list", action="store_true", help="print the names of the tests alone")
    parser.add_argument("--times", action="store_true", help="print how long each test took")
    parser.add_argument("--log", type=Path, metavar="FILE", help="note what each call of the prover takes, for bench/gate")
    parser.add_argument("names", nargs="*", metavar="NAME",
                        help="with --cases: only tests whose names contain a NAME")
    options = parser.parse_args(words)
    options.cases = options.cases or options.list or options.program is not None
    if options.names and not options.cases:
        parser.error("a NAME needs --cases")
    return options


def find_program(options: argparse.Namespace) -> bool:
    """Sets the program under test. Returns whether it is there."""
    path = (options.program or processes.BUILT).resolve()
    if not options.cases and not os.access(path, os.X_OK):
        # the gate may have put its build aside again
        subprocess.run(["./build"], cwd=processes.ROOT, check=False)
    processes.use(path, after_gate=not options.cases)
    if not os.access(path, os.X_OK):
        print(f"test: there is no program to test: {path}", file=sys.stderr)
        return False
    return True


def show(test: Test, result: Result, times: bool) -> None:
    """Prints what there is to say of a test."""
    if result.came == "failed":
        print(f"FAILED {test.name}: {result.said.rstrip()}")
    if times:
        print(f"{result.seconds:7.2f} s {result.came} {test.name}")


def show_skipped(results: list[tuple[Test, Result]]) -> None:
    """Prints how many tests were skipped for each reason, and of which modules."""
    skipped: dict[str, list[Test]] = defaultdict(list)
    for test, result in results:
        if result.came == "skipped":
            skipped[result.said].append(test)
    for reason, tests in skipped.items():
        modules = ", ".join(sorted({test.module for test in tests}))
        print(f"skipped: {len(tests)} of {modules}: {reason}")


def run_tests(tests: list[Test], options: argparse.Namespace) -> gate.Counts:
    """Runs these tests. Returns how many passed and failed."""
    if any(test.needs_program for test in tests) and not find_program(options):
        return gate.Counts(0, 1)
    began, results = time.monotonic(), []
    for test, result in run_all(tests, options.jobs):
        show(test, result, options.times)
        results.append((test, result))
    show_skipped(results)
    print(f"{len(results)} tests took {(time.monotonic() - began) / 60:.1f} minutes, {options.jobs} at a time")
    return gate.Counts(*(sum(result.came == came for _, result in results) for came in ("passed", "failed")))


def run_all_and_gate(tests: list[Test], options: argparse.Namespace) -> gate.Counts:
    """Runs the gate, beside it the tests that don't need its program, and then the others. Returns how many passed and
    failed."""
    early = [test.name for test in tests if not test.needs_program]
    with tempfile.TemporaryFile("w+", errors="backslashreplace") as said:
        # in a process of its own, since tests are forked, which takes what processors the proofs leave
        beside = subprocess.Popen(["nice", "-n19", sys.executable, processes.ROOT / "test", "--cases", *early], stdout=said,
                                  stderr=subprocess.STDOUT)
        of_gate, calls = gate.run_gate(options.log)
        beside.wait()
        said.seek(0)
        lines = said.readlines()
    print(*lines[:-1], sep="", end="")
    counts = [of_gate, gate.counts_of(lines, beside.returncode)]
    counts.append(run_tests([test for test in tests if test.needs_program], options))
    gate.show_dearest(calls)
    return gate.Counts(*map(sum, zip(*counts)))


def main(words: list[str]) -> int:
    options, began = options_of(words), time.monotonic()
    sys.stdout.reconfigure(errors="backslashreplace", line_buffering=True)
    tests = found(options.names)
    if options.list:
        print(*(test.name for test in tests), sep="\n")
        return 0
    if not tests:
        print(f"test: no test has {' or '.join(options.names)} in its name", file=sys.stderr)
        print("0 passed, 1 failed")
        return 1
    with tempfile.TemporaryDirectory(prefix="lockup-test-", ignore_cleanup_errors=True) as room:
        # all folders of tests are in this one, so none is left, whatever becomes of a process
        tempfile.tempdir = room
        counts = run_tests(tests, options) if options.cases else run_all_and_gate(tests, options)
        tempfile.tempdir = None
    used = resource.getrusage(resource.RUSAGE_CHILDREN)
    minutes, spent = (time.monotonic() - began) / 60, (used.ru_utime + used.ru_stime) / 60
    print(f"all took {minutes:.1f} minutes and {spent:.1f} processor minutes")
    print(f"{counts.passed} passed, {counts.failed} failed")
    return 1 if counts.failed else 0
