"""Judges histories: what the cores of any cache asked for and were answered, in no known order of several cores."""
import ctypes
import struct
from ctypes import c_uint64
from typing import Mapping, Optional, Tuple

from .handle import Owner
from .library import number, word as word_of
from .names import Coherence, Why
from .values import Judgement, Reason

_pack = struct.Struct("=8Q").pack_into
_unpack = struct.Struct("=4Q").unpack_from

# when an access began and ended of which neither is known
ALWAYS = (0, (1 << 64) - 1)


class Histories(Owner):
    """The histories of words, which begin as `init` says, and as 0 elsewhere.

    >>> with Histories() as histories:
    ...     histories.add(core=0, op=Op.STORE, word=9, operand=5, during=(1, 4))
    ...     histories.add(core=1, op=Op.LOAD, word=9, reply=0, during=(3, 8))
    ...     histories.judge()
    ...     histories.add(core=2, op=Op.LOAD, word=9, reply=0, during=(6, 7))
    ...     histories.judge().reasons[-1]
    Judgement(verdict=<Coherence.COHERENT: 0>, word=None, reasons=())
    Reason(why=<Why.INTERVAL: 2>, first=0, last=2, other=2)
    """

    _free = "judge_free"

    def __init__(self, init: Optional[Mapping[int, int]] = None) -> None:
        self._begin()
        self._buffer = (c_uint64 * 8)()
        self._out = ctypes.byref(self._buffer)
        self._call("judge_new")
        for named, value in (init or {}).items():
            self.begin(named, value)

    def begin(self, word: int, value: int) -> None:
        """Gives a word the value that it begins with, once."""
        self._call("judge_begin", word_of(word), word_of(value))

    def add(self, core: int, op: int, word: int, operand: int = 0, replacement: int = 0, reply: int = 0,
            during: Tuple[int, int] = ALWAYS) -> None:
        """Takes one more access, a core's of a word in its own order. `during` is when it was asked for and when it was
        answered, by a counter that all cores share. Of a store `reply` means nothing."""
        numbers = core, op, word, operand, replacement, reply, *during
        try:
            _pack(self._buffer, 0, *numbers)
        except struct.error:
            _pack(self._buffer, 0, *map(number, numbers))
        self._call("judge_access", self._out)

    def judge(self, limit: int = 1_000_000) -> Judgement:
        """Judges the accesses so far. Up to `limit` steps are taken to try orders of a word whose values repeat."""
        self._call("judge_verdict", word_of(limit), self._out)
        verdict, word, count, _ = _unpack(self._buffer)
        reasons = tuple(self._reason(nth) for nth in range(count))
        return Judgement(Coherence(verdict), None if verdict == Coherence.COHERENT else word, reasons)

    def _reason(self, nth: int) -> Reason:
        self._call("judge_reason", word_of(nth), self._out)
        why, *accesses = _unpack(self._buffer)
        return Reason(Why(why), *accesses)
