/* Names of the numbers of lockup.h, as docs/TEXTS.md and docs/PROTOCOL.md have them, to print and to read them:
 *
 *     printf("%s\n", LOCKUP_NAME(copy_state, copy.state));                 // SM_AD
 *     uint64_t state = LOCKUP_NUMBER(copy_state, "SM_AD");                 // LOCKUP_SM_AD, else LOCKUP_NO_NUMBER
 *     if (code) fprintf(stderr, "%s\n", LOCKUP_NAME(code, code));          // out of range
 *
 * The kinds are the names of the lists below without `lockup_` and `_names`. A number without a name has "?". */
#ifndef LOCKUP_NAMES_H
#define LOCKUP_NAMES_H

#include <string.h>
#include "lockup.h"

#define LOCKUP_NO_NUMBER UINT64_MAX
#define LOCKUP_NAME(kind, number) \
    lockup_name(lockup_##kind##_names, sizeof lockup_##kind##_names / sizeof *lockup_##kind##_names, number)
#define LOCKUP_NUMBER(kind, name) \
    lockup_number(lockup_##kind##_names, sizeof lockup_##kind##_names / sizeof *lockup_##kind##_names, name)

/* a number and its name */
typedef struct { uint64_t number; const char *name; } lockup_named;

LOCKUP_INLINE const char *lockup_name(const lockup_named *names, size_t count, uint64_t number) {
    size_t at;
    for (at = 0; at < count; at++) if (names[at].number == number) return names[at].name;
    return "?";
}

LOCKUP_INLINE uint64_t lockup_number(const lockup_named *names, size_t count, const char *name) {
    size_t at;
    for (at = 0; at < count; at++) if (!strcmp(names[at].name, name)) return names[at].number;
    return LOCKUP_NO_NUMBER;
}

static const lockup_named lockup_code_names[] = {
    {LOCKUP_OK, "ok"}, {LOCKUP_NO_MACHINE, "there is no machine"}, {LOCKUP_OUT_OF_RANGE, "out of range"},
    {LOCKUP_NO_MEMORY, "no memory"}, {LOCKUP_IN_USE, "the handle has a machine already"},
    {LOCKUP_NULL, "a pointer is NULL"},
    /* only lockup_scoreboard.h returns these three */
    {LOCKUP_DIFFERS, "the design differs"}, {LOCKUP_NOT_RECORDED, "not all calls were kept"},
    {LOCKUP_NOT_WRITTEN, "cannot write"}, {LOCKUP_CONFIG_CORES, "config 1 cores"},
    {LOCKUP_CONFIG_SLICES, "config 2 slices"}, {LOCKUP_CONFIG_LINES, "config 3 lines"},
    {LOCKUP_CONFIG_SETS, "config 4 sets"}, {LOCKUP_CONFIG_WAYS, "config 5 ways"},
    {LOCKUP_CONFIG_MSHRS, "config 6 mshrs"}, {LOCKUP_CONFIG_TARGETS, "config 7 targets"},
    {LOCKUP_CONFIG_WRITEBACKS, "config 8 writebacks"}, {LOCKUP_CONFIG_INIT, "config 9 init"},
    {LOCKUP_CONFIG_COUNTERS, "config 10 counters"}
};
static const lockup_named lockup_op_names[] = {
    {LOCKUP_LOAD, "load"}, {LOCKUP_STORE, "store"}, {LOCKUP_ADD, "add"}, {LOCKUP_CAS, "cas"}
};
static const lockup_named lockup_channel_names[] = {
    {LOCKUP_REQ, "req"}, {LOCKUP_FWD, "fwd"}, {LOCKUP_DATA, "data"}, {LOCKUP_ACK, "ack"}, {LOCKUP_HOME, "home"}
};
static const lockup_named lockup_answer_names[] = {
    {LOCKUP_DONE, "done"}, {LOCKUP_PENDING, "pending"}, {LOCKUP_STALL, "stall"}, {LOCKUP_REFUSED, "refused"}
};
static const lockup_named lockup_stall_names[] = {
    {LOCKUP_NO_REGISTER, "NoRegister"}, {LOCKUP_NO_TARGET, "NoTarget"}, {LOCKUP_NO_WAY, "NoWay"},
    {LOCKUP_WRITE_BACK_FULL, "WriteBackFull"}, {LOCKUP_WRITE_BACK_BUSY, "WriteBackBusy"}
};
static const lockup_named lockup_refused_names[] = {
    {LOCKUP_NO_WORD, "OutOfRange"}, {LOCKUP_TAG_RANGE, "TagRange"}, {LOCKUP_TAG_BUSY, "TagBusy"},
    {LOCKUP_COUNTER_STORE, "CounterStore"}
};
static const lockup_named lockup_evicted_names[] = {
    {LOCKUP_EVICTING, "evicting"}, {LOCKUP_NOT_HELD, "not held"}, {LOCKUP_BUSY, "busy"}, {LOCKUP_BUFFER_FULL, "buffer full"}
};
static const lockup_named lockup_delivered_names[] = {
    {LOCKUP_MOVED, "moved"}, {LOCKUP_BLOCKED, "blocked"}, {LOCKUP_NOTHING, "nothing"},
    {LOCKUP_BROKEN_ENTRY, "broken entry"}, {LOCKUP_BROKEN_FULL, "broken full"}, {LOCKUP_BROKEN_EARLY, "broken early"}
};
static const lockup_named lockup_message_names[] = {
    {LOCKUP_MSG_GETS, "GetS"}, {LOCKUP_MSG_GETM, "GetM"}, {LOCKUP_MSG_PUTS, "PutS"}, {LOCKUP_MSG_PUTM, "PutM"},
    {LOCKUP_MSG_FWD_GETS, "Fwd-GetS"}, {LOCKUP_MSG_FWD_GETM, "Fwd-GetM"}, {LOCKUP_MSG_INV, "Inv"},
    {LOCKUP_MSG_PUT_ACK, "Put-Ack"}, {LOCKUP_MSG_DATA, "Data"}, {LOCKUP_MSG_DATA_E, "Data-E"},
    {LOCKUP_MSG_INV_ACK, "Inv-Ack"}, {LOCKUP_MSG_HOME, "Data home"}
};
static const lockup_named lockup_copy_state_names[] = {
    {LOCKUP_I, "I"}, {LOCKUP_IS_D, "IS_D"}, {LOCKUP_IM_AD, "IM_AD"}, {LOCKUP_IM_A, "IM_A"}, {LOCKUP_S, "S"},
    {LOCKUP_SM_AD, "SM_AD"}, {LOCKUP_SM_A, "SM_A"}, {LOCKUP_M, "M"}, {LOCKUP_MI_A, "MI_A"}, {LOCKUP_SI_A, "SI_A"},
    {LOCKUP_II_A, "II_A"}, {LOCKUP_E, "E"}
};
static const lockup_named lockup_directory_state_names[] = {
    {LOCKUP_DIR_I, "I"}, {LOCKUP_DIR_S, "S"}, {LOCKUP_DIR_M, "M"}, {LOCKUP_DIR_S_D, "S_D"}
};
static const lockup_named lockup_policy_names[] = {{LOCKUP_LRU, "lru"}, {LOCKUP_FIFO, "fifo"}, {LOCKUP_RANDOM, "random"}};
static const lockup_named lockup_misses_names[] = {{LOCKUP_EXPLICIT, "explicit"}, {LOCKUP_INVERTED, "inverted"}};
static const lockup_named lockup_verdict_names[] = {
    {LOCKUP_LEGAL, "legal"}, {LOCKUP_WRONG_REPLY, "reply"}, {LOCKUP_WRONG_ORDER, "order"}, {LOCKUP_WRONG_SINCE, "since"}
};
static const lockup_named lockup_judgement_names[] = {
    {LOCKUP_COHERENT, "coherent"}, {LOCKUP_INCOHERENT, "incoherent"}, {LOCKUP_UNDECIDED, "undecided"}
};
/* the cells of the protocol's tables: table, state, event, and what follows */
static const lockup_named lockup_cell_names[] = {
    {0, "cache I load IS_D"}, {1, "cache I write IM_AD"}, {2, "cache I eviction not-held"},
    {3, "cache IS_D load joins"}, {4, "cache IS_D write joins"}, {5, "cache IS_D eviction busy"},
    {6, "cache IS_D Fwd-GetS blocked"}, {7, "cache IS_D Fwd-GetM blocked"}, {8, "cache IS_D Inv blocked"},
    {9, "cache IS_D Data S"}, {10, "cache IS_D Data-E E"}, {11, "cache IS_D Data-E M"}, {12, "cache IM_AD load joins"},
    {13, "cache IM_AD write joins"}, {14, "cache IM_AD eviction busy"}, {15, "cache IM_AD Fwd-GetS blocked"},
    {16, "cache IM_AD Fwd-GetM blocked"}, {17, "cache IM_AD Data M"}, {18, "cache IM_AD Data IM_A"},
    {19, "cache IM_AD Inv-Ack IM_AD"}, {20, "cache IM_A load joins"}, {21, "cache IM_A write joins"},
    {22, "cache IM_A eviction busy"}, {23, "cache IM_A Fwd-GetS blocked"}, {24, "cache IM_A Fwd-GetM blocked"},
    {25, "cache IM_A Inv-Ack M"}, {26, "cache IM_A Inv-Ack IM_A"}, {27, "cache S load S"}, {28, "cache S write SM_AD"},
    {29, "cache S eviction SI_A"}, {30, "cache S Inv I"}, {31, "cache SM_AD load joins"},
    {32, "cache SM_AD write joins"}, {33, "cache SM_AD eviction busy"}, {34, "cache SM_AD Fwd-GetS blocked"},
    {35, "cache SM_AD Fwd-GetM blocked"}, {36, "cache SM_AD Inv IM_AD"}, {37, "cache SM_AD Data M"},
    {38, "cache SM_AD Data SM_A"}, {39, "cache SM_AD Inv-Ack SM_AD"}, {40, "cache SM_A load joins"},
    {41, "cache SM_A write joins"}, {42, "cache SM_A eviction busy"}, {43, "cache SM_A Fwd-GetS blocked"},
    {44, "cache SM_A Fwd-GetM blocked"}, {45, "cache SM_A Inv-Ack M"}, {46, "cache SM_A Inv-Ack SM_A"},
    {47, "cache M load M"}, {48, "cache M write M"}, {49, "cache M eviction MI_A"}, {50, "cache M Fwd-GetS S"},
    {51, "cache M Fwd-GetM I"}, {52, "cache E load E"}, {53, "cache E write M"}, {54, "cache E eviction MI_A"},
    {55, "cache E Fwd-GetS S"}, {56, "cache E Fwd-GetM I"}, {57, "cache MI_A load stalls"},
    {58, "cache MI_A write stalls"}, {59, "cache MI_A eviction busy"}, {60, "cache MI_A Fwd-GetS SI_A"},
    {61, "cache MI_A Fwd-GetM II_A"}, {62, "cache MI_A Put-Ack I"}, {63, "cache SI_A load stalls"},
    {64, "cache SI_A write stalls"}, {65, "cache SI_A eviction busy"}, {66, "cache SI_A Inv II_A"},
    {67, "cache SI_A Put-Ack I"}, {68, "cache II_A load stalls"}, {69, "cache II_A write stalls"},
    {70, "cache II_A eviction busy"}, {71, "cache II_A Put-Ack I"}, {72, "directory I GetS S"},
    {73, "directory I GetS M"}, {74, "directory I GetM M"}, {75, "directory I PutS I"}, {76, "directory I PutM I"},
    {77, "directory S GetS S"}, {78, "directory S GetM M"}, {79, "directory S PutS S"}, {80, "directory S PutS I"},
    {81, "directory S PutM S"}, {82, "directory S PutM I"}, {83, "directory M GetS S_D"}, {84, "directory M GetM M"},
    {85, "directory M PutS M"}, {86, "directory M PutM M"}, {87, "directory M PutM I"},
    {88, "directory S_D GetS blocked"}, {89, "directory S_D GetM blocked"}, {90, "directory S_D PutS S_D"},
    {91, "directory S_D PutM S_D"}, {92, "directory S_D Data-home S"}, {93, "directory S_D Data-home I"}
};

/* Whether a machine can meet a cell, with the exclusive state or without it. */
LOCKUP_INLINE int lockup_cell_is_met(uint64_t cell, uint64_t exclusive) {
    static const uint64_t with[] = {6, 7, 10, 11, 52, 53, 54, 55, 56, 73}, without = 72;
    size_t at;
    for (at = 0; at < sizeof with / sizeof *with; at++) if (with[at] == cell) return exclusive != 0;
    return cell == without ? !exclusive : cell < LOCKUP_CELLS;
}

/* The first field for which lockup_make refuses a configuration, or NULL where it makes a machine. Of LOCKUP_OUT_OF_RANGE
 * it says which: "policy", "misses" and "exclusive" come first. (0 - 1 is past each bound.) */
LOCKUP_INLINE const char *lockup_config_fault(const lockup_config *config) {
    if (!config) return "config";
    if (config->policy > LOCKUP_RANDOM) return "policy";
    if (config->misses > LOCKUP_INVERTED) return "misses";
    if (config->exclusive > 1) return "exclusive";
    if (config->cores - 1 >= 64) return "cores";
    if (config->slices - 1 >= 4 || config->slices == 3) return "slices";
    if (config->lines - 1 >= 65536 || config->lines % config->slices) return "lines";
    if (config->sets - 1 >= 256 || (config->sets & (config->sets - 1))) return "sets";
    if (config->ways - 1 >= 16) return "ways";
    if (config->mshrs - 1 >= 32) return "mshrs";
    if (config->targets - 1 >= 32) return "targets";
    return config->writebacks - 1 >= 16 ? "writebacks" : NULL;
}

#endif
