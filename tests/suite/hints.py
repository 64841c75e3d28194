"""What follows an error of programs, litmus tests, traces, exercises and configurations where
`--explain` is given: each row is a text, the error, and the hint, worked out by hand from
docs/TEXTS.md. Without `--explain` the error is alone. Then why files can't be read, which
command reads a text of another kind, and the remark where nothing is forbidden."""
import os
import tempfile
from pathlib import Path

from harness import ROOT, Skipped, each, lockup, same, write

PROGRAM_NAMES = "core, load, store, add, cas, settle, repeat, end, outstanding, pace, or a field of the configuration"
TEST_NAMES = "thread, load, store, add, cas, settle, evict, forbid, rounds, movers, or a field of the configuration"
OLD_TEST_NAMES = (TEST_NAMES.replace("cas, ", "") + "; cas where the first line is lockup-litmus 2")
# after lines 1 to 5
PROGRAM = "cores 3\nlines 12\ncounter 9\ncore 0\nload 0\n"
PROGRAMS = [
    ("laod 0", "not a command", f"'laod': {PROGRAM_NAMES}"),
    ("load", "not a command", "end of the line: a word or FIRST..LAST, 0 to 95"),
    ("store 0", "not a command", "end of the line: a number"),
    ("cas 0 1", "not a command", "end of the line: a number"),
    ("settle 1", "not a command", "'1': the end of the line"),
    ("repeat", "not a command", "end of the line: a number"),
    ("end", "not a command", "'end': no 'repeat' is open"),
    ("load x", "bad number", "'x': a word or FIRST..LAST, 0 to 95"),
    ("load 0.7", "bad number", "'0.7': a word or FIRST..LAST, 0 to 95"),
    ("load 0..", "bad number", "'0..': a word or FIRST..LAST, 0 to 95"),
    ("add 0 -1", "bad number", "'-1': a number"),
    ("core x", "bad number", "'x': a core, 0 to 2"),
    ("load 96", "out of range", "'96': a word or FIRST..LAST, 0 to 95"),
    ("load 8..96", "out of range", "'8..96': a word or FIRST..LAST, 0 to 95"),
    ("load 8..4", "out of range", "'8..4': the last word is below the first"),
    ("core 3", "out of range", "'3': a core, 0 to 2"),
    ("core 0", "out of range", "'0': the core has a program, in line 4"),
    ("store 9 1", "store to a counter", "'9': a counter, by line 3"),
    ("store 8..15 1", "store to a counter", "'8..15': a counter, by line 3"),
    ("ways 4", "configuration after a command", "'ways': before 'outstanding', 'pace' and the first 'core'"),
    ("ways x", "bad number", "'x': a number"),
    ("outstanding 2", "configuration after a command", "'outstanding': once, before the first 'core'"),
    ("pace 2", "configuration after a command", "'pace': once, before the first 'core'"),
    ("l\udcc3ad 0", "not a command", f"a word that isn't printed: {PROGRAM_NAMES}"),
]
WHOLE_PROGRAMS = [
    ("load 0\n", 1, "not a command", "'load': after a line 'core C'"),
    ("repeat 2\n", 1, "not a command", "'repeat': after a line 'core C'"),
    ("end\n", 1, "not a command", "'end': after a line 'core C'"),
    ("outstanding 0\n", 1, "out of range", "'0': a number, 1 to 64"),
    ("outstanding 65\ncore 0\n", 1, "out of range", "'65': a number, 1 to 64"),
    ("outstanding x\n", 1, "bad number", "'x': a number, 1 to 64"),
    ("pace 65\n", 1, "out of range", "'65': a number, 0 to 64"),
    ("outstanding 4\npace x\n", 2, "bad number", "'x': a number, 0 to 64"),
    ("pace 0\noutstanding 4\npace 1\n", 3, "configuration after a command", "'pace': once, before the first 'core'"),
    ("pace 2\nways 1\n", 2, "configuration after a command", "'ways': before 'outstanding', 'pace' and the first 'core'"),
    ("core 0\nrepeat 2\nload 0\n", 2, "not a command", "'repeat': it has no 'end'"),
    ("core 0\nrepeat 2\nrepeat 3\nload 0\nend\n", 2, "not a command", "'repeat': it has no 'end'"),
    ("core 0\nrepeat 2\nrepeat 3\nend\n# more\nrepeat 4\ncore 1\n", 7, "not a command",
     "'core': after an 'end' of the 'repeat' in line 6"),
    ("core 0\n" + "repeat 1\n" * 9, 10, "out of range", "'repeat': at most 8 are open at once, the first since line 2"),
    ("core 0\nrepeat 1000000\nload 0\nload 0\nend\n", 5, "out of range",
     "'end': all programs together have at most 1000000 accesses"),
]
# after lines 1 to 7
TEST = "lockup-litmus 2\ncores 3\nlines 12\ncounter 9\nthread 0\nload 0 a\nadd 9 1 b\n"
TESTS = [
    ("laod 0 c", "not a command", f"'laod': {TEST_NAMES}"),
    ("load 0", "not a command", "end of the line: a name of 1 to 16 small letters and digits, a letter first"),
    ("load 0 C", "not a command", "'C': a name of 1 to 16 small letters and digits, a letter first"),
    ("load 0 c7890123456789012", "not a command",
     "'c7890123456789012': a name of 1 to 16 small letters and digits, a letter first"),
    ("add 0 1 2c", "not a command", "'2c': a name of 1 to 16 small letters and digits, a letter first"),
    ("store 0 1 c", "not a command", "'c': the end of the line"),
    ("cas 0 1", "not a command", "end of the line: a number"),
    ("forbid", "not a command", "end of the line: NAME=VALUE"),
    ("forbid a", "not a command", "'a': NAME=VALUE"),
    ("forbid a=1 =1", "not a command", "'=1': NAME=VALUE"),
    ("forbid" + " a=1" * 17, "not a command", "'a=1': the end of the line"),
    ("forbid a=1 b=", "bad number", "'b=': NAME=VALUE"),
    ("forbid a=1=2", "bad number", "'a=1=2': NAME=VALUE"),
    ("forbid a=1 c=1", "unknown name", "'c=1': no step has this name"),
    ("load x c", "bad number", "'x': a word, 0 to 95"),
    ("evict x", "bad number", "'x': a line, 0 to 11"),
    ("load 96 c", "out of range", "'96': a word, 0 to 95"),
    ("evict 12", "out of range", "'12': a line, 0 to 11"),
    ("thread 3", "out of range", "'3': a core, 0 to 2"),
    ("thread 0", "out of range", "'0': the core has a thread, in line 5"),
    ("load 0 a", "name used twice", "'a': the name of the step in line 6"),
    ("store 9 1", "store to a counter", "'9': a counter, by line 4"),
    ("rounds 5", "configuration after a command", "'rounds': before the first 'thread'"),
    ("ways 4", "configuration after a command", "'ways': before the first 'thread'"),
    ("ways", "not a command", "end of the line: a number"),
]
WHOLE_TESTS = [
    ("", 1, "not a litmus text", "the text is empty"),
    ("# nothing\n", 1, "not a litmus text", "the text is empty"),
    ("lockup-litmus 3\n", 1, "not a litmus text", "'3': 1 or 2"),
    ("lockup-litmus\n", 1, "not a litmus text", "end of the line: 1 or 2"),
    ("lockup-litmus 1 2\n", 1, "not a litmus text", "'2': the end of the line"),
    ("litmus 1\nthread 0\n", 1, "not a litmus text", "'litmus': lockup-litmus 1 or lockup-litmus 2, the first line"),
    ("lockup-litmus 1\nload 0 a\n", 2, "not a command", "'load': after a line 'thread C'"),
    ("lockup-litmus 1\nthread 0\nload 0 a\nforbid a=1\nthread 1\n", 5, "not a command", "'thread': before the first 'forbid'"),
    ("lockup-litmus 1\nthread 0\nload 0 a\nforbid a=1\nsettle\n", 5, "not a command", "'settle': before the first 'forbid'"),
    ("lockup-litmus 1\nthread 0\ncas 0 1 2 a\n", 3, "not a command", f"'cas': {OLD_TEST_NAMES}"),
    ("lockup-litmus 1\nrounds 0\n", 2, "out of range", "'0': a number, 1 to 10000"),
    ("lockup-litmus 1\nrounds 10001\n", 2, "out of range", "'10001': a number, 1 to 10000"),
    ("lockup-litmus 1\nmovers 5\n", 2, "out of range", "'5': a number, 0 to 4"),
    ("lockup-litmus 1\nthread 0\n" + "".join(f"load 0 a{number}\n" for number in range(17)), 19, "too many names",
     "'a16': a test has at most 16 names"),
    ("lockup-litmus 1\nthread 0\n" + "settle\n" * 4097, 4099, "out of range", "'settle': a thread has at most 4096 steps"),
]
# after lines 1 to 4
TRACE = "lockup-trace 1\ninit 8 1\ninit 10 1\nentry 0 0 0 load 8 1 0\n"
TRACES = [
    ("enty 0 1 0 load 0 0 0", "not a command", "'enty': init or entry"),
    ("entry 0 1 0 cas 0 0 0 0 0", "not a command",
     "'cas': load, store or add; cas where the first line is lockup-trace 2"),
    ("entry 0 1 0 load 0 0", "not a command", "end of the line: a number"),
    ("entry 0 1 0 load 0 0 0 0", "not a command", "'0': the end of the line"),
    ("entry 0 1", "not a command", "end of the line: a tag, 0 to 63"),
    ("entry 0 1 0 read 0 0 0", "not a command", "'read': load, store or add; cas where the first line is lockup-trace 2"),
    ("entry x 1 0 load 0 0 0", "bad number", "'x': a core, 0 to 15"),
    ("entry 0 1 0 load 0 0 -1", "bad number", "'-1': a number"),
    ("entry 16 1 0 load 0 0 0", "out of range", "'16': a core, 0 to 15"),
    ("entry 0 1 64 load 0 0 0", "out of range", "'64': a tag, 0 to 63"),
    ("entry 0 1 0 load 524288 0 0", "out of range", "'524288': a word, 0 to 524287"),
    ("init 11 1", "not a command", "'init': before the first entry"),
]
WHOLE_TRACES = [
    ("", 1, "not a trace", "the text is empty"),
    ("lockup-trace\n", 1, "not a trace", "end of the line: 1, 2 or no-since"),
    ("lockup-trace 3\n", 1, "not a trace", "'3': 1, 2 or no-since"),
    ("lockup-trace no-since 1\n", 1, "not a trace", "'1': the end of the line"),
    ("trace 1\n", 1, "not a trace", "'trace': lockup-trace 1, lockup-trace 2 or lockup-trace no-since, the first line"),
    ("lockup-trace 2\ninit 8 1\ninit 8 2\n", 3, "not a command", "'8': a word above that in line 2"),
    ("lockup-trace 2\ninit 1 1\ninit 9 1\ninit 4 2\n", 4, "not a command", "'4': a word above that in line 3"),
    ("lockup-trace 2\ninit 524288 1\n", 2, "out of range", "'524288': a word, 0 to 524287"),
    ("lockup-trace 2\nentry 64 0 0 load 0 0 0\n", 2, "out of range", "'64': a core, 0 to 63"),
    ("lockup-trace 2\nentry 0 0 0 cas 0 0 0 0\n", 2, "not a command", "end of the line: a number"),
    ("lockup-trace 2\nentry 0 0 0 swap 0 0 0 0\n", 2, "not a command", "'swap': load, store, add or cas"),
    ("lockup-trace no-since\nentry 0 0 0 load 0 0 0\n", 2, "not a command", "'0': the end of the line"),
]
EXERCISES = [
    ("cores 1\nisue 0 0 load 0 = pending 0\n", 2, "not a command",
     "'isue': issue, evict, deliver, pump, hand, word, state, waiting, show, stats, log, or a field of the configuration"),
    ("cores 1\nissue 1 0 load 0 = pending 0\n", 2, "out of range", "'1': a core, 0 to 0"),
    ("state 0\nstate 16 =\n= x\n", 2, "out of range", "'16': a line, 0 to 15"),
    ("ways x\n= y\n", 1, "bad number", "'x': a number"),
]
# the lines that configure, the error, and the hint; each of these also after the first line of a litmus test
CONFIGURATIONS = [
    ("cores 65\n", "1 Cores", "'65' in line {}: 1 to 64", 1),
    ("cores 3\ncores 0\n", "1 Cores", "'0' in line {}: 1 to 64", 2),
    ("slices 3\n", "2 Slices", "'3' in line {}: 1, 2 or 4", 1),
    ("slices 4\nlines 6\n", "3 Lines", "'6' in line {}: 1 to 65536, a multiple of the slices", 2),
    ("sets 6\n", "4 Sets", "'6' in line {}: a power of two, 1 to 256", 1),
    ("# ways\nways 17\n", "5 Ways", "'17' in line {}: 1 to 16", 2),
    ("mshrs 0\n", "6 Mshrs", "'0' in line {}: 1 to 32", 1),
    ("targets 33\n", "7 Targets", "'33' in line {}: 1 to 32", 1),
    ("writebacks 17\n", "8 Writebacks", "'17' in line {}: 1 to 16", 1),
    ("init 128 1\n", "9 Init", "'128' in line {}: a word, 0 to 127", 1),
    ("init 5 1\ninit 7 1\ninit 7 2\n", "9 Init", "'7' in line {}: a word above that in line {}", 3),
    ("init 9 1\nlines 1\n", "9 Init", "'9' in line {}: a word, 0 to 7", 1),
    ("counter 7\ncounter 3\n", "10 Counters", "'3' in line {}: a word above that in line {}", 2),
    ("".join(f"counter {word}\n" for word in range(9)), "10 Counters", "'8' in line {}: at most 8 counters", 9),
]
SCRIPT_TEXT = "issue 0 0 load 0\n"
OTHERS = [
    ("a_litmus_test_as_a_script", "script", "lockup-litmus 1\nthread 0\n", 1, "not a command",
     "the text is a litmus test: 'lockup litmus' and 'lockup walk' read it"),
    ("a_litmus_test_without_its_first_line", "script", "cores 2\nthread 0\nload 0 a\n", 2, "not a command",
     "the text is a litmus test: 'lockup litmus' and 'lockup walk' read it"),
    ("programs_as_a_script", "script", "cores 2\ncore 0\nload 0\n", 2, "not a command",
     "the text has programs: 'lockup run' reads it"),
    ("a_trace_as_a_script", "script", "lockup-trace 1\n", 1, "not a command", "the text is a trace: 'lockup check' and 'lockup judge' read it"),
    ("an_exercise_as_a_script", "script", "cores 1\nissue 0 0 load 0 = pending 0\n", 2, "not a command",
     "the text has wanted answers: 'lockup test' reads it"),
    ("a_script_as_programs", "run", f"cores 1\n{SCRIPT_TEXT}", 2, "not a command", "the text is a script: 'lockup script' reads it"),
    ("a_litmus_test_as_programs", "run", "lockup-litmus 1\n", 1, "not a command",
     "the text is a litmus test: 'lockup litmus' and 'lockup walk' read it"),
    ("an_exercise_as_programs", "run", "waiting\n= none\n", 1, "not a command", "the text has wanted answers: 'lockup test' reads it"),
    ("a_script_walked", "walk", SCRIPT_TEXT, 1, "not a litmus text", "the text is a script: 'lockup script' reads it"),
    ("programs_walked", "litmus", "cores 2\noutstanding 2\ncore 0\n", 1, "not a litmus text",
     "the text has programs: 'lockup run' reads it"),
    ("paced_programs_walked", "litmus", "pace 2\ncore 0\n", 1, "not a litmus text",
     "the text has programs: 'lockup run' reads it"),
    ("a_trace_walked", "walk", "lockup-trace 1\n", 1, "not a litmus text", "the text is a trace: 'lockup check' and 'lockup judge' read it"),
    ("a_script_checked", "check", SCRIPT_TEXT, 1, "not a trace", "the text is a script: 'lockup script' reads it"),
    ("a_litmus_test_checked", "check", "lockup-litmus 1\n", 1, "not a trace",
     "the text is a litmus test: 'lockup litmus' and 'lockup walk' read it"),
    ("programs_tested", "test", "core 0\nload 0\n", 1, "not a command", "the text has programs: 'lockup run' reads it"),
]
# commands that always explain, and those that do with --explain
ALWAYS, ASKED = ("try", "chart", "page"), ("script", "litmus", "walk", "run", "test", "check")


def complain(command: str, text: str, bare: str, hint: str) -> None:
    """Compares the error of a text with and without `--explain`."""
    with tempfile.TemporaryDirectory() as room:
        file = write(f"{room}/text", text)
        same(command, (2, "", f"lockup: {bare}\n"), tuple(lockup(command, file)))
        same(f"{command} --explain", (2, "", f"lockup: {bare}   {hint}\n"), tuple(lockup(command, "--explain", file)))


@each(lambda: PROGRAMS)
def test_programs(line: str, error: str, hint: str) -> None:
    complain("run", f"{PROGRAM}{line}\n", f"line 6: {error}", hint)


@each(lambda: WHOLE_PROGRAMS)
def test_whole_programs(text: str, line: int, error: str, hint: str) -> None:
    complain("run", text, f"line {line}: {error}", hint)


@each(lambda: TESTS)
def test_litmus_tests(line: str, error: str, hint: str) -> None:
    for command in "walk", "litmus":
        complain(command, f"{TEST}{line}\n", f"line 8: {error}", hint)


@each(lambda: WHOLE_TESTS)
def test_whole_litmus_tests(text: str, line: int, error: str, hint: str) -> None:
    complain("walk", text, f"line {line}: {error}", hint)


@each(lambda: TRACES)
def test_traces(line: str, error: str, hint: str) -> None:
    complain("check", f"{TRACE}{line}\n", f"line 5: {error}", hint)


@each(lambda: WHOLE_TRACES)
def test_whole_traces(text: str, line: int, error: str, hint: str) -> None:
    complain("check", text, f"line {line}: {error}", hint)


@each(lambda: EXERCISES)
def test_exercises(text: str, line: int, error: str, hint: str) -> None:
    complain("test", text, f"line {line}: {error}", hint)


def test_an_exercise_that_wants_nothing() -> None:
    complain("test", "state 0\n", "no answer is wanted: this is no test",
             "a wanted answer follows '=' at the end of its command's line")


@each(lambda: CONFIGURATIONS)
def test_configurations(text: str, error: str, hint: str, line: int) -> None:
    """A word that isn't above another is told with the line before."""
    for command, head in ("script", ""), ("run", ""), ("test", ""), ("walk", "lockup-litmus 1\nrounds 3\n"):
        at = line + head.count("\n")
        complain(command, head + text, f"config {error}", hint.format(at, at - 1))


@each(lambda: OTHERS)
def test_another_kind(_: str, command: str, text: str, line: int, error: str, hint: str) -> None:
    complain(command, text, f"line {line}: {error}", hint)


def test_a_page_and_a_chart_of_another_kind() -> None:
    """They always say which command reads the text."""
    for file, line, hint in ("litmus/mp", 3, "the text is a litmus test: 'lockup litmus' and 'lockup walk' read it"), \
            ("programs/false_sharing", None, "the text has programs: 'lockup run' reads it"):
        for command in "page", "chart":
            ran = lockup(command, ROOT / f"examples/{file}.txt")
            same(f"{command}: status", 2, ran.status)
            start = f"lockup: line {line}: " if line else "lockup: line "
            same(f"{command}: error", (True, f"not a command   {hint}\n"),
                 (ran.err.startswith(start), ran.err[ran.err.index("not a"):]))


@each(lambda: [("utf_8", "\udcef\udcbb\udcbf"), ("utf_16_of_windows", "\udcff\udcfe"), ("utf_16", "\udcfe\udcff")])
def test_a_byte_order_mark(_: str, mark: str) -> None:
    hint = "the text begins with a byte order mark: save it as UTF-8 without one"
    complain("script", f"{mark}cores 2\n", "line 1: not a command", hint)
    complain("run", f"{mark}core 0\n", "line 1: not a command", hint)
    complain("walk", f"{mark}lockup-litmus 1\n", "line 1: not a litmus text", hint)
    complain("check", f"{mark}lockup-trace 1\n", "line 1: not a trace", hint)
    complain("test", f"{mark}cores 1\n= x\n", "line 1: not a command", hint)


@each(lambda: ASKED)
def test_a_file_that_cannot_be_read(command: str) -> None:
    with tempfile.TemporaryDirectory() as room:
        missing, closed = f"{room}/missing", write(f"{room}/closed", "")
        closed.chmod(0)
        rows = [(missing, "there is no such file"), (room, "it is a folder"), (f"{closed}/text", "a part of its path is no folder")]
        for file, why in rows + [(closed, "permission is denied")] * (os.geteuid() != 0):
            same(command, (2, "", f"lockup: cannot read {file}\n"), tuple(lockup(command, file)))
            same(f"{command} --explain", (2, "", f"lockup: cannot read {file}   {why}\n"),
                 tuple(lockup(command, "--explain", file)))
        for option in ("--beside",) * (command == "script"):
            same("script --beside --explain", f"lockup: cannot read {missing}   there is no such file\n",
                 lockup(command, option, "--explain", missing).err)


@each(lambda: ALWAYS)
def test_a_file_that_is_missing(command: str) -> None:
    same(command, (2, "", "lockup: cannot read missing   there is no such file\n"), tuple(lockup(command, "missing")))


def test_permission() -> None:
    """Who may read everything has no file that can't be read: the program is run as nobody."""
    if os.geteuid() != 0:
        raise Skipped("not run as root")
    with tempfile.TemporaryDirectory() as room:
        closed = write(f"{room}/closed", "")
        closed.chmod(0)
        Path(room).chmod(0o755)
        try:
            ran = lockup("check", "--explain", closed, user="nobody", group="nogroup", extra_groups=[])
        except (PermissionError, LookupError, ValueError) as refused:
            raise Skipped(f"the program can't be run as nobody: {refused}") from None
        same("check --explain", (2, "", f"lockup: cannot read {closed}   permission is denied\n"), tuple(ran))


@each(lambda: ["walk", "litmus"])
def test_nothing_is_forbidden(command: str) -> None:
    """Only a table of outcomes is followed by the remark."""
    text = "lockup-litmus 1\nthread 0\nload 0 a\n"
    remark = "lockup: nothing is forbidden: the test has no line 'forbid'\n"
    table = "       1 a=0" + " seed 1" * (command == "walk") + "\nforbidden 0\n"
    with tempfile.TemporaryDirectory() as room:
        file = write(f"{room}/test", text)
        same(command, (0, table, remark), tuple(lockup(command, file)))
        same(f"{command} --json", (0, remark), (lockup(command, "--json", file).status, lockup(command, "--json", file).err))
        file = write(f"{room}/forbids", f"{text}forbid a=7\n")
        same(f"{command} of a test that forbids", (0, table, ""), tuple(lockup(command, file)))
    if command == "walk":
        for option in "--script", "--page":
            same(f"walk {option}", (0, ""), (lockup("walk", option, "-", text=text).status, lockup("walk", option, "-", text=text).err))
        same("a round that is given up", (1, ""),
             (lockup("walk", "--limit", "1", "-", text=text).status, lockup("walk", "--limit", "1", "-", text=text).err))


def test_a_line_that_the_machine_lacks() -> None:
    text = "lines 4\nissue 0 0 load 0\n"
    for words in ("--line",), ("--svg", "--line"):
        ran = lockup("chart", *words, "4", "-", text=text)
        same(f"chart {words}", (2, "", "lockup: --line 4: the machine has lines 0 to 3\n"), tuple(ran))
        same(f"chart {words} of the last line", 0, lockup("chart", *words, "3", "-", text=text).status)
    same("an empty script", (2, "", "lockup: --line 16: the machine has lines 0 to 15\n"),
         tuple(lockup("chart", "--line", "16", "-", text="")))
    same("an error of the configuration comes first", "lockup: config 3 Lines   '0' in line 1: 1 to 65536, a multiple of the slices\n",
         lockup("chart", "--line", "99", "-", text="lines 0\n").err)
    same("it comes before an error of a command", "lockup: --line 99: the machine has lines 0 to 15\n",
         lockup("chart", "--line", "99", "-", text="isue\n").err)


def test_options_that_do_not_go_together() -> None:
    for words in ("--csv",), ("--set", "ways=1"), ("--seeds", "1..2"):
        ran = lockup("run", "--explain", *words, ROOT / "examples/programs/false_sharing.txt")
        same(f"run --explain {words}", (2, ""), (ran.status, ran.out))
