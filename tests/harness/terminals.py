"""Runs programs at a pseudo-terminal, and keeps what it shows."""
import os
import pty
import subprocess
import threading
from pathlib import Path
from typing import Mapping, Sequence

# what is written after the last byte of a program, none of which writes it
END = b"\0"


def shown_at_terminal(
        words: Sequence[str | Path], env: Mapping[str, str] | None = None, typed: bytes = b"", stdout: int | None = None
) -> tuple[bytes, int]:
    """Returns what a terminal shows of a program and of what is typed, and the program's status.

    Its end stays open until the mark after the last byte has been read: where a program's is the
    last to be closed, Linux may lose what was written just before.
    """
    ours, theirs = pty.openpty()
    ran = subprocess.Popen(words, env=env, stdin=theirs, stdout=theirs if stdout is None else stdout, stderr=theirs)

    def mark_the_end() -> None:
        ran.wait()
        os.write(theirs, END)

    marks = threading.Thread(target=mark_the_end)
    marks.start()
    os.write(ours, typed)
    told = b""
    while not told.endswith(END):
        told += os.read(ours, 65536)
    marks.join()
    os.close(theirs)
    os.close(ours)
    return told.removesuffix(END), ran.returncode
