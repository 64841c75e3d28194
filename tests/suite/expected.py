"""What follows an error where answers are explained: each row is an invalid line, the error,
and what the program says was expected, worked out by hand from docs/TEXTS.md."""
import tempfile

from harness import each, lockup, same, write
from harness.scripts import COMMANDS

NAMES = f"{', '.join(COMMANDS)}, or a field of the configuration"
BEHIND_A_COMMAND = [
    ("isue 0 0 load 8", "not a command", f"'isue': {NAMES}"),
    ("issue 0 0 laod 8", "not a command", "'laod': load, store, add or cas"),
    ("issue 0 0", "not a command", "end of the line: load, store, add or cas"),
    ("issue 0", "not a command", "end of the line: a tag, 0 to 255"),
    ("issue", "not a command", "end of the line: a core, 0 to 2"),
    ("issue 0 0 cas 8 1", "not a command", "end of the line: a number"),
    ("issue 0 0 load 8 1", "not a command", "'1': the end of the line"),
    ("issue 0 256 load 8", "bad number", "'256': a tag, 0 to 255"),
    ("issue 0 x load 8", "bad number", "'x': a tag, 0 to 255"),
    ("issue 9 0 load x", "bad number", "'x': a number"),
    ("issue 3 0 load 8", "out of range", "'3': a core, 0 to 2"),
    ("evict 0 12", "out of range", "'12': a line, 0 to 11"),
    ("evict x 12", "bad number", "'x': a core, 0 to 2"),
    ("deliver rq 0 0", "not a command", "'rq': req, fwd, data, ack or home"),
    ("deliver", "not a command", "end of the line: req, fwd, data, ack or home"),
    ("deliver ack 0 1", "not a command", "end of the line: a core, 0 to 2"),
    ("deliver home 0 0", "not a command", "'0': the end of the line"),
    ("deliver req 12 0", "out of range", "'12': a line, 0 to 11"),
    ("deliver data 11 7", "out of range", "'7': a core, 0 to 2"),
    ("hand 0 2", "out of range", "'2': a slice, 0 to 1"),
    ("log 2", "out of range", "'2': a slice, 0 to 1"),
    ("word 96", "out of range", "'96': a word, 0 to 95"),
    ("state -1", "bad number", "'-1': a line, 0 to 11"),
    ("pump 18446744073709551616", "bad number", "'18446744073709551616': a number"),
    ("stats 0", "not a command", "'0': the end of the line"),
    ("show 0", "not a command", "'0': the end of the line"),
    ("waiting 0", "not a command", "'0': the end of the line"),
    ("issue 0 0 store 8 x", "bad number", "'x': a number"),
    ("issue 0 0 add 8 x", "bad number", "'x': a number"),
    ("deliver fwd x 0", "bad number", "'x': a line, 0 to 11"),
    ("deliver home x", "bad number", "'x': a line, 0 to 11"),
    ("cores 2", "configuration after a command", "'cores': before the first command"),
    ("policy mru", "not a command", "'mru': lru, fifo or random"),
    ("st\udcc3te 0", "not a command", f"a word that isn't printed: {NAMES}"),
]
AT_THE_HEAD = [
    ("core 2", "not a command", f"'core': {NAMES}"),
    ("cores", "not a command", "end of the line: a number"),
    ("cores two", "bad number", "'two': a number"),
    ("policy mru", "not a command", "'mru': lru, fifo or random"),
    ("policy random", "not a command", "end of the line: a number"),
    ("misses none", "not a command", "'none': explicit or inverted"),
    ("exclusive yes", "not a command", "'yes': on or off"),
    ("exclusive on off", "not a command", "'off': the end of the line"),
    ("init 8", "not a command", "end of the line: a number"),
    ("init 8 x", "bad number", "'x': a number"),
    ("slices x", "bad number", "'x': a number"),
    ("lines x", "bad number", "'x': a number"),
    ("sets x", "bad number", "'x': a number"),
    ("ways x", "bad number", "'x': a number"),
    ("mshrs x", "bad number", "'x': a number"),
    ("targets x", "bad number", "'x': a number"),
    ("writebacks x", "bad number", "'x': a number"),
    ("policy random x", "bad number", "'x': a number"),
    ("misses explicit x", "not a command", "'x': the end of the line"),
    ("counter x", "bad number", "'x': a number"),
]


def complaint(text: str, *words: str) -> str:
    """Returns what the program says of a text on standard error."""
    with tempfile.TemporaryDirectory() as room:
        return lockup(*words, write(f"{room}/text", text)).err


@each(lambda: BEHIND_A_COMMAND)
def test_behind_a_command(line: str, error: str, expected: str) -> None:
    """The machine has 3 cores, 2 slices and 12 lines."""
    text = f"cores 3\nslices 2\nlines 12\nstats\n{line}\n"
    same("script --explain", f"lockup: line 5: {error}   {expected}\n", complaint(text, "script", "--explain"))
    same("script", f"lockup: line 5: {error}\n", complaint(text, "script"))
    same("try", f"lockup: line 5: {error}   {expected}\n", complaint(text, "try"))


@each(lambda: AT_THE_HEAD)
def test_at_the_head(line: str, error: str, expected: str) -> None:
    same("script --explain", f"lockup: line 1: {error}   {expected}\n", complaint(f"{line}\n", "script", "--explain"))
