"""The numbers of the library by their names in docs/PROTOCOL.md and docs/TEXTS.md."""
from enum import IntEnum

NO_CORE = 64
UNKNOWN = 64


class Op(IntEnum):
    """What an access does."""

    LOAD = 0
    STORE = 1
    ADD = 2
    CAS = 3


class Channel(IntEnum):
    """Channels by what they carry; ANY is for next deliveries alone."""

    REQ = 0
    FWD = 1
    DATA = 2
    ACK = 3
    HOME = 4
    ANY = 5


class Answer(IntEnum):
    """What an access is answered."""

    DONE = 0
    PENDING = 1
    STALL = 2
    REFUSED = 3


class Kind(IntEnum):
    """What an access would be."""

    HIT = 0
    PRIMARY_MISS = 1
    STALL = 2
    REFUSED = 3
    SECONDARY_MISS = 4


class Stall(IntEnum):
    """Why an access stalls."""

    NO_REGISTER = 1
    NO_TARGET = 2
    NO_WAY = 3
    WRITE_BACK_FULL = 4
    WRITE_BACK_BUSY = 5


class Refused(IntEnum):
    """Why an access is refused."""

    OUT_OF_RANGE = 1
    TAG_RANGE = 2
    TAG_BUSY = 3
    COUNTER_STORE = 4


class Evicted(IntEnum):
    """What an eviction is answered."""

    EVICTING = 0
    NOT_HELD = 1
    BUSY = 2
    BUFFER_FULL = 3


class Delivered(IntEnum):
    """What a delivery comes to. It is proved that none is broken."""

    MOVED = 0
    BLOCKED = 1
    NOTHING = 2
    BROKEN_ENTRY = 3
    BROKEN_FULL = 4
    BROKEN_EARLY = 5


class MessageKind(IntEnum):
    """Messages, by their names in docs/PROTOCOL.md; HOME is a block on its way home to the directory."""

    GETS = 0
    GETM = 1
    PUTS = 2
    PUTM = 3
    FWD_GETS = 4
    FWD_GETM = 5
    INV = 6
    PUT_ACK = 7
    DATA = 8
    DATA_E = 9
    INV_ACK = 10
    HOME = 11


class CopyState(IntEnum):
    """States of a core's copy."""

    I = 0  # noqa: E741
    IS_D = 1
    IM_AD = 2
    IM_A = 3
    S = 4
    SM_AD = 5
    SM_A = 6
    M = 7
    MI_A = 8
    SI_A = 9
    II_A = 10
    E = 11


class DirectoryState(IntEnum):
    """States of a directory's entry."""

    I = 0  # noqa: E741
    S = 1
    M = 2
    S_D = 3


class Policy(IntEnum):
    """Which line of a full set is replaced."""

    LRU = 0
    FIFO = 1
    RANDOM = 2


class Misses(IntEnum):
    """Miss registers with targets, or an entry for each tag."""

    EXPLICIT = 0
    INVERTED = 1


class Verdict(IntEnum):
    """What a trace is, or why its first wrong entry is wrong."""

    LEGAL = 0
    REPLY = 1
    ORDER = 2
    SINCE = 3


class Coherence(IntEnum):
    """What histories are, or that nobody found out."""

    COHERENT = 0
    INCOHERENT = 1
    UNDECIDED = 2


class Why(IntEnum):
    """Why an access comes before another in every order."""

    UNWRITTEN = 0
    CORE = 1
    INTERVAL = 2
    SOURCE = 3
    INITIAL = 4
    OVERWRITTEN = 5
    NOT_BETWEEN = 6
