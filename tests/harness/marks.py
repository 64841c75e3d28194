"""Marks of test functions: the arguments that one is run with, and how long it takes."""
from typing import Any, Callable, Iterable

Test = Callable[..., None]


def each(arguments: Callable[[], Iterable[Any]]) -> Callable[[Test], Test]:
    """Makes a function a test for each of these arguments. An argument is a string, which names the
    test, or a tuple whose first is."""
    def mark(function: Test) -> Test:
        function.arguments = arguments
        return function
    return mark


def seconds(count: float) -> Callable[[Test], Test]:
    """Says how long a test takes, about: the longest are started first, so that none is left alone
    at the end."""
    def mark(function: Test) -> Test:
        function.seconds = count
        return function
    return mark
