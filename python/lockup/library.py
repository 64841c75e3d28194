"""Finds the shared object, and declares its functions."""
import ctypes
import os
from ctypes import POINTER, c_size_t, c_uint32, c_uint64, c_void_p
from operator import index
from pathlib import Path
from typing import Callable, Dict, Iterator, List, Optional, Sequence, SupportsIndex

from .errors import OutOfRange

NAME = "liblockup.so"
WORD = c_uint64
# how many numbers are made once
SMALL = 1024
# a handle is a pointer, and passed by a pointer to it
HANDLE = POINTER(c_void_p)
# an output is passed as the address of a buffer that is made once
BUFFER = c_void_p


def places() -> Iterator[Path]:
    """Returns where the shared object may stand: beside this package, in a prefix above it, or in the repository."""
    here = Path(__file__).resolve().parent
    yield here / NAME
    for folder in here.parents:
        yield folder / "lib" / NAME
        yield folder / "crates/lockup_c/out" / NAME


def found() -> str:
    """Returns the path of the shared object. LOCKUP_LIBRARY comes first; the loader's own search last."""
    asked = os.environ.get("LOCKUP_LIBRARY")
    if asked:
        return asked
    return next((str(it) for it in places() if it.is_file()), NAME)


PROTOTYPES = {
    "version": [],
    "defaults": [BUFFER],
    "make": [HANDLE, BUFFER],
    "make_with": [HANDLE, BUFFER, BUFFER, c_size_t, BUFFER, c_size_t],
    "clone": [HANDLE, HANDLE],
    "free": [HANDLE],
    "issue": [HANDLE, WORD, WORD, WORD, WORD, WORD, WORD, BUFFER],
    "evict": [HANDLE, WORD, WORD, BUFFER],
    "deliver": [HANDLE, WORD, WORD, WORD, WORD, BUFFER],
    "deliver_next": [HANDLE, WORD, WORD, BUFFER],
    "hand": [HANDLE, WORD, WORD, BUFFER],
    "begin_log": [HANDLE, WORD, BUFFER],
    "decide": [HANDLE, WORD, WORD, WORD, WORD, WORD, WORD, BUFFER],
    "plan": [HANDLE, WORD, WORD, WORD, WORD, BUFFER],
    "cell_of_issue": [HANDLE, WORD, WORD, WORD, WORD, WORD, WORD, BUFFER],
    "cell_of_evict": [HANDLE, WORD, WORD, BUFFER],
    "cell_of_deliver": [HANDLE, WORD, WORD, WORD, WORD, BUFFER],
    "next": [HANDLE, WORD, WORD, BUFFER],
    "copy_at": [HANDLE, WORD, WORD, BUFFER],
    "directory_at": [HANDLE, WORD, BUFFER],
    "registers": [HANDLE, WORD, WORD, BUFFER],
    "register_at": [HANDLE, WORD, WORD, WORD, BUFFER],
    "targets": [HANDLE, WORD, WORD, BUFFER],
    "target_at": [HANDLE, WORD, WORD, WORD, BUFFER],
    "writebacks": [HANDLE, WORD, WORD, BUFFER],
    "writeback_at": [HANDLE, WORD, WORD, WORD, BUFFER],
    "ways": [HANDLE, WORD, WORD, BUFFER],
    "way_at": [HANDLE, WORD, WORD, WORD, BUFFER],
    "messages": [HANDLE, WORD, BUFFER],
    "message_at": [HANDLE, WORD, WORD, BUFFER],
    "quiet": [HANDLE, BUFFER],
    "word_at": [HANDLE, WORD, BUFFER],
    "counts_of_core": [HANDLE, WORD, WORD, BUFFER],
    "counts_of_messages": [HANDLE, WORD, BUFFER],
    "entries": [HANDLE, WORD, BUFFER],
    "entry_at": [HANDLE, WORD, WORD, BUFFER],
    "check_new": [HANDLE],
    "check_begin": [HANDLE, WORD, WORD],
    "check_entry": [HANDLE, BUFFER],
    "check_verdict": [HANDLE, BUFFER],
    "check_free": [HANDLE],
    "judge_new": [HANDLE],
    "judge_begin": [HANDLE, WORD, WORD],
    "judge_access": [HANDLE, BUFFER],
    "judge_verdict": [HANDLE, WORD, BUFFER],
    "judge_reason": [HANDLE, WORD, BUFFER],
    "judge_free": [HANDLE],
}


def number(value: SupportsIndex) -> int:
    """Returns a number that the library can be given. One that is no integer is a TypeError."""
    found = int(index(value))
    if not 0 <= found < 1 << 64:
        raise OutOfRange(2, f"a number is from 0 to 2^64 - 1, and not {found}")
    return found


# Numbers as ctypes passes them, the small ones made once: to make one costs more than to find it. Whoever looks one up has
# seen that it isn't below 0.
WORDS: List[object] = [*map(WORD.from_param, range(SMALL))]
# what looking one up raises where it isn't one of the small ones, or is no number
NOT_SMALL = (IndexError, TypeError)


def word(value: SupportsIndex) -> object:
    """Returns a number as ctypes passes it."""
    found = number(value)
    return WORDS[found] if found < SMALL else WORD.from_param(found)


def words(values: Sequence[int]) -> List[object]:
    """Returns numbers as ctypes passes them."""
    try:
        return [WORDS[it] if it >= 0 else word(it) for it in values]
    except NOT_SMALL:
        pass
    return [word(it) for it in values]


class Bare(Dict[str, Callable[..., int]]):
    """The functions by their names without `lockup_`, to be called with WORDS and what `byref` makes: ctypes converts
    nothing then."""

    def __init__(self, loaded: ctypes.PyDLL) -> None:
        super().__init__()
        self.loaded = loaded

    def __missing__(self, name: str) -> Callable[..., int]:
        function = self.loaded[f"lockup_{name}"]
        function.restype = c_uint32
        self[name] = function
        return function


class Library:
    """The functions of the shared object, by their names without `lockup_`, each declared when it is first asked for."""

    def __init__(self, path: str) -> None:
        self.path = path
        # one that holds the interpreter during a call, which costs less, and lets no two threads into it
        self.loaded = ctypes.PyDLL(path)
        self.bare = Bare(self.loaded)

    def __getattr__(self, name: str) -> Callable[..., int]:
        if name not in PROTOTYPES:
            raise AttributeError(name)
        function = self.loaded[f"lockup_{name}"]
        function.argtypes = PROTOTYPES[name]  # type: ignore[assignment]
        function.restype = c_uint32
        setattr(self, name, function)
        return function


_opened: Optional[Library] = None


def library() -> Library:
    """Returns the shared object, loaded once."""
    global _opened
    if _opened is None:
        try:
            _opened = Library(found())
        except OSError as error:
            raise ImportError(f"{NAME} can't be loaded: {error}; LOCKUP_LIBRARY may name it") from None
    return _opened
