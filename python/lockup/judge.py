"""Judges a trace entry by entry, as it comes: of any cache, not only of a machine here."""
import ctypes
import struct
from ctypes import c_uint64
from typing import Iterable, Mapping, Optional

from .handle import Owner
from .library import number, word
from .names import Verdict
from .values import Entry, Judged

_pack = struct.Struct("=9Q").pack_into
_unpack = struct.Struct("=2Q").unpack_from


class Judge(Owner):
    """The judge of a trace whose words begin as `init` says, and as 0 elsewhere.

    >>> with Judge(init={0: 7}) as judge:
    ...     judge.add(core=0, seq=0, op=Op.LOAD, word=0, reply=7)
    ...     judge.add(core=1, seq=0, op=Op.LOAD, word=0, reply=8)
    Judged(verdict=<Verdict.LEGAL: 0>, entry=1)
    Judged(verdict=<Verdict.REPLY: 1>, entry=1)
    """

    _free = "check_free"

    def __init__(self, init: Optional[Mapping[int, int]] = None) -> None:
        self._begin()
        self._buffer = (c_uint64 * 9)()
        self._out = ctypes.byref(self._buffer)
        self._call("check_new")
        for named, value in sorted((init or {}).items()):
            self._call("check_begin", word(named), word(value))

    def __repr__(self) -> str:
        if not self._handle:
            return "<lockup.Judge: closed>"
        verdict, entry = self.verdict
        return f"<lockup.Judge: {'legal' if verdict == Verdict.LEGAL else 'wrong ' + verdict.name} {entry}>"

    @property
    def verdict(self) -> Judged:
        """What the entries come to so far."""
        self._call("check_verdict", self._out)
        verdict, entry = _unpack(self._buffer)
        return Judged(Verdict(verdict), entry)

    def add(self, core: int, seq: int, op: int, word: int, operand: int = 0, replacement: int = 0, reply: int = 0,
            tag: int = 0, since: int = 0) -> Judged:
        """Judges one more entry; returns what the entries come to. `since` may be 0 where it isn't known."""
        numbers = core, seq, tag, op, word, operand, replacement, reply, since
        try:
            _pack(self._buffer, 0, *numbers)
        except struct.error:
            _pack(self._buffer, 0, *map(number, numbers))
        self._call("check_entry", self._out)
        return self.verdict

    def add_all(self, entries: Iterable[Entry]) -> Judged:
        """Judges entries up to the first wrong one; returns what they come to."""
        judged = self.verdict
        for it in entries:
            judged = self.add(it.core, it.seq, it.op, it.word, it.operand, it.replacement, it.reply, it.tag, it.since)
            if not judged:
                break
        return judged
