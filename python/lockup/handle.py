"""What is behind a handle of the library: it has one owner, who frees it."""
import ctypes
from ctypes import c_void_p
from types import TracebackType
from typing import NoReturn, Optional, Type, TypeVar

from .errors import error_of
from .library import library

Its = TypeVar("Its", bound="Owner")


class Owner:
    """Owns a handle. It is freed by `close`, at the end of a `with`, or when it isn't used any more."""

    # how the function is called that frees the handle
    _free = ""
    _handle: c_void_p

    def _begin(self) -> None:
        """Begins with a handle that has nothing."""
        self._library = library()
        self._handle = c_void_p()
        self._at = ctypes.byref(self._handle)

    def _call(self, name: str, *words: object) -> None:
        code = self._library.bare[name](self._at, *words)
        if code:
            raise error_of(code)

    def close(self) -> None:
        """Frees what the handle has. Every other call then raises NoMachine."""
        if self._handle:
            self._library.bare[self._free](self._at)

    def __enter__(self: Its) -> Its:
        return self

    def __exit__(self, kind: Optional[Type[BaseException]], error: Optional[BaseException],
                 trace: Optional[TracebackType]) -> None:
        self.close()

    def __del__(self) -> None:
        if getattr(self, "_handle", None):
            self.close()

    def __copy__(self: Its) -> Its:
        raise TypeError(f"a {type(self).__name__} has one owner, and isn't copied")

    def __deepcopy__(self: Its, memo: object) -> Its:
        return self.__copy__()

    def __reduce__(self) -> NoReturn:
        raise TypeError(f"a {type(self).__name__} is no text, and isn't pickled")
