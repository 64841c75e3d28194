"""What the program does at a terminal and with names of files: colors where answers are explained,
on a terminal alone and not where NO_COLOR is set; a prompt's mark; names with blanks, and names that aren't UTF-8."""
import os
import tempfile

from harness import lockup, program, same, text_of, write
from harness.terminals import shown_at_terminal

SCRIPT = "issue 0 0 load 0\nissue 1 0 store 0 1\ndeliver req 0 0\ndeliver req 0 1\ndeliver fwd 0 0\nrq\n"
# of the five answers the third and the fourth are moved, and the last one is blocked: the Inv
# overtook the Data
MOVED, BLOCKED, ERROR = "\x1b[32mmoved\x1b[0m", "\x1b[33mblocked\x1b[0m", "\x1b[1;31mlockup:\x1b[0m"


def at_terminal(*words: str, typed: bytes = b"", **env: str) -> tuple[str, int]:
    """Returns what a terminal shows of the program and of what is typed, and the program's status."""
    environment = {name: value for name, value in os.environ.items() if name != "NO_COLOR"} | env
    told, status = shown_at_terminal([program(), *words], environment, typed)
    return text_of(told).replace("\r\n", "\n"), status


def counts(text: str) -> list[int]:
    return [text.count(it) for it in (MOVED, BLOCKED, ERROR, "\x1b")]


def test_colors() -> None:
    with tempfile.TemporaryDirectory() as room:
        script = str(write(f"{room}/script.txt", SCRIPT))
        plain = lockup("script", "--explain", script)
        same("into a pipe", [0, 0, 0, 0], counts(plain.out + plain.err))
        same("into a pipe, moved and blocked", (2, 1), (plain.out.count("moved"), plain.out.count("blocked")))
        told, status = at_terminal("script", "--explain", script)
        same("explained at a terminal", ([2, 1, 1, 8], 2), (counts(told), status))
        for paint in ("\x1b[32m", "\x1b[33m", "\x1b[1;31m", "\x1b[0m"):
            told = told.replace(paint, "")
        same("but for the colors", plain.out + plain.err, told)
        same("NO_COLOR", [0, 0, 0, 0], counts(at_terminal("script", "--explain", script, NO_COLOR="1")[0]))
        same("an empty NO_COLOR", [2, 1, 1, 8], counts(at_terminal("script", "--explain", script, NO_COLOR="")[0]))
        same("answers alone", [0, 0, 1, 2], counts(at_terminal("script", script)[0]))


def test_pictures_have_no_colors() -> None:
    with tempfile.TemporaryDirectory() as room:
        script = str(write(f"{room}/script.txt", SCRIPT.removesuffix("rq\n") + "pump 1\n"))
        for form in ("page", "chart"):
            told, status = at_terminal(form, script)
            same(f"{form} at a terminal", ([0, 0, 0, 0], 0), (counts(told), status))


def test_a_prompt_has_a_mark() -> None:
    told, status = at_terminal("try", typed=b"load 0 0\nnext\nquit\n")
    same("a mark before each line that is read", (3, 0), (told.count("> "), status))
    same("into a pipe", 0, lockup("try", text="load 0 0\nnext\nquit\n").out.count("> "))


def test_a_name_with_a_blank() -> None:
    with tempfile.TemporaryDirectory(prefix="a folder ") as room:
        write(f"{room}/a script.txt", SCRIPT)
        ran = lockup("script", "a script.txt", cwd=room)
        same("status and answers", (2, 5), (ran.status, ran.out.count("\n")))


def test_a_name_that_is_not_utf8() -> None:
    ran = lockup("script", b"\xff.txt")
    wanted = "lockup: cannot read the command line: it isn't UTF-8 (FILE may be -, for standard input)\n"
    same("a name that isn't UTF-8", (2, "", wanted), tuple(ran))
