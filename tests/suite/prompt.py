"""What the prompt does that no case of tests/cases can say (`prompt_..` of these say what it
answers): scripts that it saves, scripts that begin none, and that each answer is there before the
next line is asked for."""
import subprocess
import tempfile

from harness import Ran, lockup, program, read, same, write
from harness.scripts import COMMANDS

READ_MISS = "issue 0 0 load 8\npending 0   core 0 (I, load): primary miss; to IS_D; sends GetS to dir 0\n"
STATE = "line 0 dir I owner - sharers - home 0 0 0 0 0 0 0 0 cores"


def answers(room: str, lines: str, *words: str) -> Ran:
    return lockup("try", *words, text=lines, cwd=room)


def test_a_script_to_begin_with() -> None:
    """Its last line has no line feed. What is saved is the script so far."""
    with tempfile.TemporaryDirectory() as room:
        write(f"{room}/begin", "# two cores\ncores 2\n\nissue 0 0 load 8")
        lines = ["next", "launch 0", "state 1", "save so_far", "save no_such_folder/so_far",
                 "undo", "undo", "undo", "save begun", "next"]
        wanted = READ_MISS + """\
deliver req 1 0
moved   dir 0 (I, GetS): to S, sharers 0; sends Data(0) to core 0
fault: not a command   help lists what can be asked
line 1 dir S owner - sharers 0 home 0 0 0 0 0 0 0 0 cores IS_D I
saved so_far
fault: cannot write no_such_folder/so_far
undone: state 1
undone: deliver req 1 0
undone: issue 0 0 load 8
saved begun
nothing   no message waits
"""
        asked = "".join(f"{line}\n" for line in lines)
        same("answers", (0, wanted, ""), tuple(answers(room, asked, "begin")))
        saved = "# two cores\ncores 2\n\nissue 0 0 load 8\ndeliver req 1 0\nstate 1\n"
        same("the script so far", saved, read(f"{room}/so_far"))
        same("the script without what was undone", "# two cores\ncores 2\n\n", read(f"{room}/begun"))


def test_lines_with_the_same_words() -> None:
    """They differ in their blanks, and each is shown and saved as it is written."""
    with tempfile.TemporaryDirectory() as room:
        write(f"{room}/begin", "cores 1\n state 0\nstate  0\n")
        lines = ["state 0", "\tstate 0 ", "word 0", "word  0"]
        undone = [f"undone: {line}" for line in [*reversed(lines), "state  0", " state 0"]]
        state = f"{STATE} I"
        wanted = [" state 0", state, "state  0", state, state, state, "0", "0", "saved so_far", *undone]
        asked = "".join(f"{line}\n" for line in [*lines, "save so_far", *["undo"] * 6])
        same("answers", (0, "".join(f"{it}\n" for it in wanted), ""), tuple(answers(room, asked, "begin")))
        saved = "cores 1\n state 0\nstate  0\n" + "".join(f"{line}\n" for line in lines)
        same("the saved script", saved, read(f"{room}/so_far"))


def test_files_that_are_there() -> None:
    """A file that is there already stays, and one whose name is no text is none."""
    with tempfile.TemporaryDirectory() as room:
        write(f"{room}/kept", "cores 1\n")
        lines = "state 0\nsave kept\nsave fresh\nstate 0\nsave fresh\nsave \udcff\n"
        state = f"{STATE} I I"
        wanted = [state, "fault: kept is there already", "saved fresh", state, "fault: fresh is there already",
                  "fault: cannot write a file of this name"]
        same("answers", (0, "".join(f"{it}\n" for it in wanted), ""), tuple(answers(room, lines)))
        same("a file that was there before", "cores 1\n", read(f"{room}/kept"))
        same("a file that was saved before", "state 0\n", read(f"{room}/fresh"))


def test_an_invalid_script() -> None:
    """It begins no prompt."""
    with tempfile.TemporaryDirectory() as room:
        write(f"{room}/begin", "issue 0 0 load 8\nlaunch 0\n")
        names = ", ".join(COMMANDS)
        error = f"lockup: line 2: not a command   'launch': {names}, or a field of the configuration\n"
        same("status, answers and error", (2, READ_MISS, error), tuple(answers(room, "state 0\n", "begin")))


def test_a_missing_script() -> None:
    with tempfile.TemporaryDirectory() as room:
        ran = answers(room, "state 0\n", "missing")
        same("status, answers and error", (2, "", "lockup: cannot read missing   there is no such file\n"), tuple(ran))


def test_an_answer_at_once() -> None:
    """It is there before the next line is written."""
    pipes = {"stdin": subprocess.PIPE, "stdout": subprocess.PIPE}
    with subprocess.Popen(["timeout", "20", program(), "try"], **pipes) as ran:
        ran.stdin.write(b"load 0 8\n")
        ran.stdin.flush()
        got = ran.stdout.readline() + ran.stdout.readline()
    same("answer", READ_MISS, got.decode())
