"""Has Rumur search the models that the program prints (`lockup export murphi`), of two and of three
cores, without the exclusive state and with it: no error is found, and as many states are reached as
are written here; and the same as closed models, in which each miss is found to be completed. Then
models with one wrong cell each, in which an error is found; for each invariant, and each state of a
copy that may be read, one that begins in a state which breaks it, and two in which an old block is
about to be written: what is wrong is found by its name; and closed ones in which a message is lost,
and a miss so never completed."""
import re
from typing import Callable

from harness import Different, each, lockup, same, seconds, want
from harness.rumur import Search, searched

Edit = Callable[[str], str]
OLD_COPY, OLD_WRITE = "a copy that may be read is the newest block", "a write to an old block"


def model(*words: str) -> str:
    """Returns the model that the program prints of so many cores."""
    ran = lockup("export", "murphi", "--cores", *words)
    same("status and error of the model", (0, ""), (ran.status, ran.err))
    return ran.out


def found_in(search: Search, wanted: str) -> str:
    """Returns what was found, as `wanted` says it: a number of states, an invariant, `completed`
    and its like."""
    states = re.search(r"^[^0-9]*([0-9]*) states, ", search.said, re.M)
    if "State Space Explored" not in search.said:
        return "isn't searched"
    if wanted == "uncompleted" and re.search(r"liveness property .* violated|^\s*deadlock", search.said, re.M):
        return wanted
    if f'invariant "{wanted}" failed' in search.said or wanted == OLD_WRITE and f"\n\t{wanted}\n" in search.said:
        return wanted
    if search.status or "No error found" not in search.said:
        return "error"
    return "completed" if wanted == "completed" else states and states[1] or "no count of states"


def judge(text: str, wanted: str) -> None:
    search = searched(text, trace=False)
    found = found_in(search, wanted)
    if found != wanted:
        raise Different(f"found: {found}, wanted: {wanted}\n{search.said[-2000:]}")


WHOLE = [("three", "25811", "3"), ("three_exclusive", "31088", "3", "--exclusive"), ("two", "678", "2"),
         ("two_exclusive", "835", "2", "--exclusive"), ("two_closed", "completed", "2", "--closed"),
         ("two_closed_exclusive", "completed", "2", "--exclusive", "--closed"),
         ("three_closed", "completed", "3", "--closed"),
         ("three_closed_exclusive", "completed", "3", "--exclusive", "--closed")]


@seconds(60)
@each(lambda: WHOLE)
def test_whole(_: str, wanted: str, *words: str) -> None:
    judge(model(*words), wanted)


def test_only_a_closed_model_wants_misses_completed() -> None:
    for words in (["2"], ["3", "--exclusive"]):
        same(f"open: {words}", 0, model(*words).count("liveness "))
        same(f"closed: {words}", 1, model(*words, "--closed").count("liveness "))


@each(lambda: [(f"{cores} {exclusive} {closed}", cores, exclusive, closed)
               for cores in (2, 3, 4) for exclusive in ("", "--exclusive") for closed in ("", "--closed")])
def test_options(_: str, cores: int, exclusive: str, closed: str) -> None:
    """Each option is heeded beside each other."""
    text = model(str(cores), *f"{exclusive} {closed}".split())
    head = re.search(r"^const -- exclusive (on|off)\n  CORES: (\d+);\n  SETS: (\d+);$", text, re.M)
    same("head", ("on" if exclusive else "off", str(cores), str(2 ** cores)), head and head.groups())
    same("what is to be completed", int(bool(closed)), text.count("liveness "))


def in_lines(old: str, new: str) -> Edit:
    """Replaces what a pattern finds, once in each line."""
    return lambda text: "".join(re.sub(old, new, line, count=1, flags=re.S) for line in text.splitlines(keepends=True))


def between(first: str, last: str, edit: Edit) -> Edit:
    """Edits the lines from each that a pattern finds to the next that another does."""
    return lambda text: re.sub(rf"^[^\n]*{first}.*?{last}", lambda found: edit(found[0]), text, flags=re.M | re.S)


RULE = """ruleset c: Core do rule "{name}"
  copies[c].state = C_IS_D & forwarded[c][0].kind = {kind}
==> begin
  {send};
  TakeForwarded(c);
  Become(c, {state});
end; end;"""
INVALIDATED = RULE.format(name="IS_D, Inv: Inv-Ack; S", kind="Inv", state="C_S",
                          send="SendInvAck(forwarded[c][0].requester, c)")
SERVED = RULE.format(name="IS_D, Fwd-GetM: Data(0); I", kind="FwdGetM", state="C_I",
                     send="SendData(forwarded[c][0].requester, DataN, 0, copies[c].newest)")
OVERTAKEN = """  if kind = PutAck & forwarded[c][0].kind != NoForwarded then
    forwarded[c][1] := forwarded[c][0];
    forwarded[c][0].kind := PutAck;
    forwarded[c][0].requester := NOBODY;
  elsif forwarded[c][0].kind = NoForwarded then"""
END = r"^end;$"
WRONG: list[tuple] = [
    ("no_invalidation", in_lines(r"^  SendForwarded\([01], Inv, [01]\);\n$", "")),
    ("a_reader_that_waits_acknowledges", in_lines("^-- IS_D, Inv: blocked$", INVALIDATED)),
    ("an_acknowledgement_is_not_awaited", between('rule "IM_AD, Data, k < n: IM_A"', END, in_lines(
        r"Become\(c, C_IM_A\);", "Write(c); Become(c, C_M);"))),
    ("a_late_put_is_copied_home", between('^rule "directory I; PutM of ', END, in_lines(
        r"^(  TakeRequest\(([01])\);)$", r"  directory.newest := requests[\2].newest;\n\1"))),
    ("a_put_ack_overtakes", between("^procedure SendForwarded", END, in_lines(
        r"^  if forwarded\[c\]\[0\]\.kind = NoForwarded then$", OVERTAKEN))),
    ("a_reader_serves_what_it_awaits", in_lines("^-- IS_D, Fwd-GetM: blocked$", SERVED), "--exclusive"),
]


def begun(*edits: tuple[str, str]) -> Edit:
    """Makes the model begin in another state."""
    def edit(text: str) -> str:
        for old, new in edits:
            text = in_lines(re.escape(old), new)(text)
        return text
    return between("^startstate", END, edit)


def about_to_write(state: str, message: str) -> Edit:
    """Core 0 is about to write, once a message has come, and has an old block."""
    lines = [f"copies[0].state := C_{state};", "directory.state := D_M;", "directory.owner := 0;",
             "directory.newest := false;", message, "open := true;"]
    return begun(("  open := true;", "\n".join(f"  {line}" for line in lines)))


BEGUN = [
    ("two_writers", begun(("copies[c].state := C_I", "copies[c].state := C_M"),
                          ("copies[c].newest := false", "copies[c].newest := true")), "one writer, or only readers"),
    ("an_old_copy", begun(("copies[c].state := C_I", "copies[c].state := C_S")), OLD_COPY),
    *((f"an_old_copy_in_{state}", begun(("copies[c].state := C_I", "if c = 0 then copies[c].state := "
                                         f"C_{state}; else copies[c].state := C_I; end")), OLD_COPY)
      for state in ("SM_AD", "SM_A", "M", "E")),
    ("an_old_home_copy", begun(("directory.newest := true", "directory.newest := false")),
     "the home copy is the newest block in I and S"),
    ("an_owner_of_no_line", begun(("directory.owner := NOBODY", "directory.owner := 0")),
     "there is an owner in M, and else none"),
    ("no_owner_in_M", begun(("directory.state := D_I", "directory.state := D_M")),
     "there is an owner in M, and else none"),
    ("a_sharer_of_no_line", begun(("directory.sharers := 0", "directory.sharers := 1")),
     "there are sharers in S, and none in I and M"),
    ("no_sharer_in_S", begun(("directory.state := D_I", "directory.state := D_S")),
     "there are sharers in S, and none in I and M"),
    ("a_write_of_old_data", about_to_write("IM_AD", "data[0].kind := DataN;"), OLD_WRITE),
    ("a_write_of_an_old_copy", about_to_write("IM_A", "copies[0].n := 1; acknowledged[0][1] := true;"), OLD_WRITE),
]
# a message that is lost: no invariant fails, but some core waits for ever
LOST = [
    ("an_acknowledgement_is_lost", between("^procedure SendInvAck", END, in_lines(
        r"^  acknowledged\[c\]\[sender\] := true;$", ""))),
    ("a_put_ack_is_lost", in_lines(r"^  SendForwarded\([01], PutAck, NOBODY\);$", "")),
]


def judge_edit(edit: Edit, wanted: str, *words: str) -> None:
    """Edits the model of two cores."""
    right = model("2", *words)
    text = edit(right)
    want(text != right, "the edit changes nothing")
    judge(text, wanted)


@seconds(10)
@each(lambda: WRONG)
def test_wrong(_: str, edit: Edit, *words: str) -> None:
    judge_edit(edit, "error", *words)


@seconds(10)
@each(lambda: BEGUN)
def test_begun(_: str, edit: Edit, invariant: str) -> None:
    judge_edit(edit, invariant)


@seconds(10)
@each(lambda: LOST)
def test_lost(_: str, edit: Edit) -> None:
    judge_edit(edit, "uncompleted", "--closed")
