"""What the modules of tests/suite share: finding and running tests, running programs, comparing,
cases, and scripts.

A test is a function `test_WHAT` of a module MODULE of tests/suite, named MODULE.WHAT; one that
`each` gives arguments is a test for each of them, named MODULE.WHAT[ARGUMENT]. It returns where all
is well, raises `Different` with the difference where not, and `Skipped` with the reason where
something that it needs is missing. Tests share nothing: each runs in whichever process is free,
with folders of its own.
"""
from .compare import Different, Skipped, same, want
from .marks import each, seconds
from .preload import each_refused, preloaded
from .processes import (
    ROOT, Ran, bytes_of, is_plain, is_sanitized, lockup, needs, program, read, run, text_of, write,
)
from .testers import tester

__all__ = [
    "Different", "Skipped", "same", "want", "each", "seconds", "each_refused", "preloaded", "ROOT", "Ran", "bytes_of",
    "is_plain", "is_sanitized", "lockup", "needs", "program", "read", "run", "tester", "text_of", "write",
]
