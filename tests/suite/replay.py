"""Replays what a model checker prints of a run of the protocol's model (`lockup script
--from-murphi`).

A trace written by hand becomes the script that is beside it, and a text that tells of no rule
is no trace. Then Rumur searches the models that the program prints for a state that a core can come
to: the way there, as a script, leads a machine to that state, and each of its messages is moved.
And it finds no state in which a sharer asks to read, as the legend of the directory's table says.
"""
from harness import each, lockup, same, seconds, want
from harness.rumur import Search, searched

TRACE = """The following is the error trace for the error:

	invariant "one writer, or only readers" failed

Startstate "no core has the line" fired.
copies[0].state:C_I
copies[1].state:C_I
----------

Rule "I, write: GetM; IM_AD", c: 0 fired.
copies[0].state:C_IM_AD
----------

Rule "directory I; GetM of 0: Data(0); M, owner 0" fired.
Rule "IM_AD, Data, k = n: M", c: 0 fired.
Rule "I, load: GetS; IS_D", c: 2 fired.
Rule "IS_D, write: joins", c: 2 fired.
Rule "directory M, owner 0; GetS of 2: Fwd-GetS to 0; S_D, sharers 0, 2" fired.
Rule "M, Fwd-GetS: Data(0), block home; S", c: 0 fired.
Rule "directory S_D, sharers 0, 2; Data home: S, sharers 0, 2" fired.
Rule "SM_AD, Inv-Ack, k + 1 < n: k + 1; SM_AD", c: 2, f: 0 fired.
Rule "S, eviction: PutS; SI_A", c: 0 fired.
Rule "SI_A, Put-Ack: I", c: 0 fired.
Rule "I, load: GetS; IS_D", c: 0 fired.
Rule "IS_D: a message without a row", c: 0, f: 0 fired.
----------

End of the error trace.
"""
SCRIPT = """cores 3
# I, write: GetM; IM_AD, c: 0
issue 0 0 add 0 1
# directory I; GetM of 0: Data(0); M, owner 0
deliver req 0 0
# IM_AD, Data, k = n: M, c: 0
deliver data 0 0
# I, load: GetS; IS_D, c: 2
issue 2 0 load 0
# IS_D, write: joins, c: 2
hand 2 0
issue 2 1 add 0 1
# directory M, owner 0; GetS of 2: Fwd-GetS to 0; S_D, sharers 0, 2
deliver req 0 2
# M, Fwd-GetS: Data(0), block home; S, c: 0
deliver fwd 0 0
# directory S_D, sharers 0, 2; Data home: S, sharers 0, 2
deliver home 0
# SM_AD, Inv-Ack, k + 1 < n: k + 1; SM_AD, c: 2, f: 0
deliver ack 0 2 0
# S, eviction: PutS; SI_A, c: 0
evict 0 0
# SI_A, Put-Ack: I, c: 0
deliver fwd 0 0
# I, load: GetS; IS_D, c: 0
hand 0 0
issue 0 1 load 0
"""
# A state that a core is to come to, and whether with the exclusive state.
SOUGHT = [("IM_A", False), ("SM_A", False), ("II_A", False), ("SI_A", True), ("E", True), ("MI_A", True), ("IM_A", True)]


# No sharer asks to read: a set of cores is a number, in which bit r is core r.
NEVER = """forall r: Core do !(requests[r].kind = GetS & (directory.state = D_S | directory.state = D_S_D)
  & ((r = 0 & directory.sharers % 2 = 1) | (r = 1 & directory.sharers / 2 % 2 = 1) | (r = 2 & directory.sharers / 4 % 2 = 1))) end"""


def test_by_hand() -> None:
    same("script", (0, SCRIPT, ""), tuple(lockup("script", "--from-murphi", "-", text=TRACE)))


# no line tells of a rule that fired: of a search that found nothing, and of nothing at all
NO_TRACES = [("nothing", ""), ("nothing found", "Status:\n\n\tNo error found.\n"),
             ("a start", 'Startstate "no core has the line" fired.\n')]


@each(lambda: NO_TRACES)
def test_no_trace(_: str, text: str) -> None:
    ran = lockup("script", "--from-murphi", "-", text=text)
    same("status, output and error", (2, "", "lockup: line 1: not a trace\n"), tuple(ran))


def search(invariant: str, exclusive: bool) -> Search:
    """Searches the model of three cores for a state in which this doesn't hold."""
    model = lockup("export", "murphi", "--cores", "3", *(["--exclusive"] if exclusive else [])).out
    return searched(f'{model}\ninvariant "sought" {invariant};\n', trace=True)


@seconds(20)
@each(lambda: [(f"{state}{' exclusive' if exclusive else ''}", state, exclusive) for state, exclusive in SOUGHT])
def test_way_to(_: str, state: str, exclusive: bool) -> None:
    trace = search(f"copies[0].state != C_{state}", exclusive).said
    made = lockup("script", "--from-murphi", "-", text=trace)
    same("status and error", (0, ""), (made.status, made.err))
    same("rules", trace.count(" fired.") - 1, made.out.count("# "))
    played = lockup("script", "--echo", "-", text=made.out + "state 0\n")
    want(not played.status, f"{played.err}\n{made.out}")
    lines = played.out.split("\n")
    for command, answer in zip(lines, lines[1:]):
        if command.startswith(("deliver ", "issue ", "evict ")):
            want(answer.startswith(("moved", "pending", "done", "evicting")), f"{command}: {answer}\n{made.out}")
    same("state", state, lines[-2].split(" cores ")[-1].split()[0])


@seconds(20)
@each(lambda: [("without the exclusive state", False), ("with the exclusive state", True)])
def test_no_sharer_asks_to_read(_: str, exclusive: bool) -> None:
    said = search(NEVER, exclusive).said
    want("No error found" in said, f"a sharer asks to read:\n{said}")
