"""The cells of the protocol's two tables, and counts of them as `lockup coverage` reads them."""
from typing import List, Sequence, Tuple

# the cells by their numbers: table, state, event, and what follows
CELLS: Tuple[str, ...] = (
    "cache I load IS_D", "cache I write IM_AD", "cache I eviction not-held", "cache IS_D load joins",
    "cache IS_D write joins", "cache IS_D eviction busy", "cache IS_D Fwd-GetS blocked", "cache IS_D Fwd-GetM blocked",
    "cache IS_D Inv blocked", "cache IS_D Data S", "cache IS_D Data-E E", "cache IS_D Data-E M",
    "cache IM_AD load joins", "cache IM_AD write joins", "cache IM_AD eviction busy", "cache IM_AD Fwd-GetS blocked",
    "cache IM_AD Fwd-GetM blocked", "cache IM_AD Data M", "cache IM_AD Data IM_A", "cache IM_AD Inv-Ack IM_AD",
    "cache IM_A load joins", "cache IM_A write joins", "cache IM_A eviction busy", "cache IM_A Fwd-GetS blocked",
    "cache IM_A Fwd-GetM blocked", "cache IM_A Inv-Ack M", "cache IM_A Inv-Ack IM_A", "cache S load S",
    "cache S write SM_AD", "cache S eviction SI_A", "cache S Inv I", "cache SM_AD load joins",
    "cache SM_AD write joins", "cache SM_AD eviction busy", "cache SM_AD Fwd-GetS blocked",
    "cache SM_AD Fwd-GetM blocked", "cache SM_AD Inv IM_AD", "cache SM_AD Data M", "cache SM_AD Data SM_A",
    "cache SM_AD Inv-Ack SM_AD", "cache SM_A load joins", "cache SM_A write joins", "cache SM_A eviction busy",
    "cache SM_A Fwd-GetS blocked", "cache SM_A Fwd-GetM blocked", "cache SM_A Inv-Ack M", "cache SM_A Inv-Ack SM_A",
    "cache M load M", "cache M write M", "cache M eviction MI_A", "cache M Fwd-GetS S", "cache M Fwd-GetM I",
    "cache E load E", "cache E write M", "cache E eviction MI_A", "cache E Fwd-GetS S", "cache E Fwd-GetM I",
    "cache MI_A load stalls", "cache MI_A write stalls", "cache MI_A eviction busy", "cache MI_A Fwd-GetS SI_A",
    "cache MI_A Fwd-GetM II_A", "cache MI_A Put-Ack I", "cache SI_A load stalls", "cache SI_A write stalls",
    "cache SI_A eviction busy", "cache SI_A Inv II_A", "cache SI_A Put-Ack I", "cache II_A load stalls",
    "cache II_A write stalls", "cache II_A eviction busy", "cache II_A Put-Ack I", "directory I GetS S",
    "directory I GetS M", "directory I GetM M", "directory I PutS I", "directory I PutM I", "directory S GetS S",
    "directory S GetM M", "directory S PutS S", "directory S PutS I", "directory S PutM S", "directory S PutM I",
    "directory M GetS S_D", "directory M GetM M", "directory M PutS M", "directory M PutM M", "directory M PutM I",
    "directory S_D GetS blocked", "directory S_D GetM blocked", "directory S_D PutS S_D", "directory S_D PutM S_D",
    "directory S_D Data-home S", "directory S_D Data-home I",
)
# those that a machine meets with the exclusive state alone, and that which it meets without it
WITH_EXCLUSIVE = frozenset((6, 7, 10, 11, 52, 53, 54, 55, 56, 73))
WITHOUT_EXCLUSIVE = frozenset((72,))


def cells_met(exclusive: bool) -> List[int]:
    """Returns the numbers of the cells that a machine can meet, with the exclusive state or without it."""
    never = WITHOUT_EXCLUSIVE if exclusive else WITH_EXCLUSIVE
    return [cell for cell in range(len(CELLS)) if cell not in never]


def coverage_text(counts: Sequence[int], exclusive: bool) -> str:
    """Returns the counts of all cells as `lockup coverage` reads them."""
    rows = [f"{CELLS[cell]} {counts[cell]}\n" for cell in cells_met(exclusive)]
    return "".join(["lockup-coverage 1\n", *rows])
