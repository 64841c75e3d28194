"""Runs texts with an output that is refused from some byte on, for each byte in turn. What is there
afterwards is the first bytes of what the program prints otherwise, as many as were taken, and
nothing else. Then comes the error 'cannot write', with status 2, whatever the text itself comes to.
Where all is taken, if only a byte at a time, all is as it is otherwise, and so it is with each case
of tests/cases."""
import os
import subprocess
import tempfile
from typing import Iterator

from harness import Ran, each, is_plain, lockup, preloaded, program, same, seconds, text_of, want, write
from harness.cases import case_of, names, placed

ERROR = "lockup: cannot write\n"
# answers before an invalid line
FAULTY = "issue 0 0 add 0 5\ndeliver req 0 0\nstate 0\nissue 0 ad\n"
# more answers than are held back until the end
LONG = "cores 1\n" + "state 0\n" * 300
LEGAL = "lockup-trace 1\nentry 0 0 0 load 0 0 0\n"
FIRST_ADD = "examples/first_add.txt"
PROGRAM = "core 0\nload 0\nload 0\n"


def runs() -> Iterator[tuple]:
    """Returns runs: a name, arguments with TEXT for a file, its text, and of how many bytes one is
    refused."""
    for words in ("script", "script --echo", "script --beside", "script --vcd"):
        yield words, f"{words} {FIRST_ADD}", "", 1
    yield "script with an invalid line", "script TEXT", FAULTY, 1
    yield "chart with an invalid line", "chart TEXT", FAULTY, 3
    forbidden = case_of("litmus_forbidden_outcome").files["litmus"].text()
    two_steps = case_of("litmus_store_and_load").files["litmus"].text()
    yield "litmus", "litmus TEXT", forbidden, 1
    yield "walk", "walk TEXT", forbidden, 1
    yield "walk --script", "walk --script TEXT", two_steps, 3
    yield "check", "check TEXT", LEGAL, 1
    yield "check of an illegal trace", "check examples/illegal_trace.txt", "", 1
    yield "--help", "--help", "", 7
    yield "generate", "generate lock --cores 2 --size 3", "", 1
    yield "generate at random", "generate zipf --cores 2 --size 90", "", 7
    yield "run", "run TEXT", PROGRAM, 3
    yield "run --csv", "run TEXT --csv", PROGRAM, 1
    yield "run --set", "run TEXT --set ways=1,2 --seeds 7..8", PROGRAM, 1
    yield "run --set as JSON", "run TEXT --set ways=1,2 --json", PROGRAM, 1
    yield "script with many answers", "script TEXT", LONG, 997


def under(words: list[str], taken: object, at_once: object, refusal: str, text: str = "") -> Ran:
    """Runs the words with the output that these make (harness/refused_write.c)."""
    return lockup(*words, text=text, env=preloaded("refused_write", TAKEN=taken, AT_ONCE=at_once, REFUSAL=refusal))


def judge(what: str, ran: Ran, wanted: str, least: int) -> None:
    """The output was refused: so many bytes at least are there, and the error."""
    same(f"{what}: status and error", (2, ERROR), (ran.status, ran.err))
    want(len(ran.out) >= least and wanted.startswith(ran.out), f"{what}: {len(ran.out)} bytes are there:\n{ran.out}")


def in_bytes(words: list[str], text: str = "") -> Ran:
    """Compares a run whose output takes a byte at a time with a plain one, which it returns."""
    plain = lockup(*words, text=text)
    same("a byte at a time", tuple(plain), tuple(under(words, "", 1, "full", text)))
    return plain


def refuse_each(words: list[str], step: int) -> None:
    plain = in_bytes(words)
    want(plain.out.isascii(), "bytes are counted as characters")
    size = len(plain.out)
    same("no room behind the last byte", tuple(plain), tuple(under(words, size, "", "full")))
    for taken in range(0, size, step):
        first = plain.out[:taken]
        judge(f"byte {taken} refused, a byte at a time", under(words, taken, 1, "full"), first, taken)
        judge(f"byte {taken} not taken", under(words, taken, "", "nothing"), first, taken)
        judge(f"byte {taken} refused once", under(words, taken, "", "once"), plain.out, taken)
    with open("/dev/full", "wb") as full:
        judge("a full device", lockup(*words, stdout=full), "", 0)
    closed = subprocess.run(["sh", "-c", 'exec "$@" >&-', "sh", program(), *words], stderr=subprocess.PIPE)
    same("a closed output", (2, ERROR), (closed.returncode, text_of(closed.stderr)))


@seconds(30)
@each(runs)
def test_refused(_: str, words: str, text: str, step: int) -> None:
    is_plain()
    with tempfile.TemporaryDirectory() as room:
        file = write(f"{room}/text", text)
        refuse_each([str(file) if word == "TEXT" else word for word in words.split()], step)


@each(names)
def test_case_in_bytes(name: str) -> None:
    is_plain()
    case = case_of(name)
    with tempfile.TemporaryDirectory() as room:
        in_bytes(placed(case, room), case.input.text())


def test_a_reader_that_leaves() -> None:
    """It does before more than a pipe holds is written."""
    with tempfile.TemporaryDirectory() as room:
        file = write(f"{room}/text", "cores 1\n" + "state 0\n" * 5000)
        wanted = lockup("script", file).out
        with subprocess.Popen([program(), "script", file], stdout=subprocess.PIPE, stderr=subprocess.PIPE) as ran:
            taken = os.read(ran.stdout.fileno(), 10)
            ran.stdout.close()
            said = text_of(ran.stderr.read())
    same("what is read", wanted[:10], text_of(taken))
    same("status and error", (2, ERROR), (ran.returncode, said))
