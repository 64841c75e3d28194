"""Runs each example as a script, and each trace of tests/cases as a check, once more from standard
input, which the name `-` stands for: from a file and from a pipe all is as it is from the file that
is named. And a text that comes in pieces, and standard inputs that can't be read."""
import subprocess
import tempfile
import time
from pathlib import Path

from harness import ROOT, Ran, each, lockup, program, read, run, same, text_of, write
from harness.scripts import examples, files_of_cases


def judge(file: Path, *words: str) -> None:
    """Compares runs of these words on a file by its name and from standard input."""
    wanted = lockup(*words, file)
    with open(file, "rb") as it:
        same(f"{' '.join(words)} - <FILE", wanted, lockup(*words, "-", text=it))
    same(f"cat FILE | {' '.join(words)} -", wanted, lockup(*words, "-", text=read(file)))


@each(examples)
def test_example(name: str) -> None:
    # one of them is a trace, which is no script
    judge(ROOT / f"examples/{name}.txt", "script")
    judge(ROOT / f"examples/{name}.txt", "script", "--echo")


@each(lambda: files_of_cases("trace"))
def test_trace(name: str) -> None:
    with tempfile.TemporaryDirectory() as room:
        judge(write(f"{room}/trace", files_of_cases("trace")[name]), "check")


@each(lambda: sorted(path.stem for path in (ROOT / "examples/exercises").glob("*.txt")))
def test_exercise(name: str) -> None:
    for words in ("test",), ("test", "--first"):
        judge(ROOT / f"examples/exercises/{name}.txt", *words)


def test_a_file_of_that_name() -> None:
    """As `./-` it is a file like others."""
    with tempfile.TemporaryDirectory() as room:
        write(f"{room}/-", "cores 1\nstate 0\n")
        answer = "line 0 dir I owner - sharers - home 0 0 0 0 0 0 0 0 cores I\n"
        same("script ./-", (0, answer, ""), tuple(lockup("script", "./-", text="no command\n", cwd=room)))


def test_a_text_in_pieces() -> None:
    """The text is longer than a pipe holds, and its first piece ends in a line."""
    text = b"cores 1\n" + b"state 0\n" * 20000
    pipe = {"stdin": subprocess.PIPE, "stdout": subprocess.PIPE, "stderr": subprocess.PIPE}
    with tempfile.TemporaryDirectory() as room, open(f"{room}/out", "w+b") as out:
        wanted = lockup("script", write(f"{room}/text", text_of(text)))
        with subprocess.Popen([program(), "script", "-"], **{**pipe, "stdout": out}) as ran:
            ran.stdin.write(text[:100003])
            ran.stdin.flush()
            time.sleep(0.1)
            ran.stdin.write(text[100003:])
            ran.stdin.close()
            said = ran.stderr.read()
        same("a text in pieces", wanted, Ran(ran.returncode, read(out.name), text_of(said)))


def test_a_folder_as_standard_input() -> None:
    with tempfile.TemporaryDirectory() as room:
        ran = run(["sh", "-c", 'exec "$0" script - <"$1"', program(), room])
        same("a folder", (2, "", "lockup: cannot read -\n"), tuple(ran))


def test_a_closed_standard_input() -> None:
    ran = run(["sh", "-c", 'exec "$0" check - <&-', program()])
    same("a closed input", (2, "", "lockup: cannot read -\n"), tuple(ran))
