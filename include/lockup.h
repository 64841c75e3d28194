/* lockup: lockup-free private caches with explicitly addressed miss registers, kept coherent by a directory.
 *
 * A machine is a directory and a last level in slices, and cores with a private cache each. Nothing happens by itself:
 * each call makes one step, and you choose the order. Accesses hit, miss or stall; messages are delivered one at a
 * time. Each call does what the proved machine does, and so what the same line of a script does (docs/TEXTS.md).
 *
 *     lockup_machine machine = {0};
 *     lockup_config config;
 *     lockup_issued issued;
 *     lockup_next_delivery next;
 *     lockup_receipt receipt;
 *     lockup_defaults(&config);
 *     if (lockup_make(&machine, &config) != LOCKUP_OK) return 1;
 *     lockup_issue(&machine, 0, 0, LOCKUP_ADD, 0, 5, 0, &issued);            // LOCKUP_PENDING: a primary miss
 *     do lockup_deliver_next(&machine, 0, LOCKUP_ANY, &next); while (next.answer == LOCKUP_MOVED);
 *     lockup_hand(&machine, 0, 0, &receipt);                                 // receipt.reply is 0
 *     lockup_free(&machine);
 *
 * Numbers. Each number is a uint64_t, in parameters, outputs and structs, so that a struct is an array of them; each
 * function returns a code, a uint32_t. Cores, slices, lines, words and tags are numbered from 0. A line has eight
 * words: word W is of line W / 8, and line L is of slice L modulo the slices.
 *
 * Codes. A function that returns LOCKUP_OK has made its call; what that came to stands in its outputs. With any other
 * code it has changed nothing, but for LOCKUP_NO_MEMORY of lockup_check_begin, lockup_check_entry, lockup_judge_begin and
 * lockup_judge_access, after which the trace or the histories are lost. Outputs are always written, with zeros where
 * there is nothing to say, or LOCKUP_NO_CELL for a cell.
 *
 * Ownership. A handle begins as {0}: it has nothing. lockup_make gives it a machine, and lockup_free takes it away
 * again and leaves {0}. A handle may be moved, but never copied: of two copies both would own the machine. Its field is
 * the library's. A pointer that is passed points to memory that was initialised and that no other argument shares, and
 * is used during the call alone. Where one is NULL the call returns LOCKUP_NULL, and has changed and written nothing; a
 * list of none may be NULL.
 *
 * Threads. A handle takes part in one call at a time, also in one that takes it as const: it may go from one thread to
 * another between calls. Different handles have nothing in common. No call may come from a signal handler, nor from a child of fork in a process with
 * threads.
 *
 * Memory comes from malloc and realloc, and goes to free. lockup_issue takes some where the log grows, before anything
 * is changed; a call without a LOCKUP_NO_MEMORY in its comment takes none.
 *
 * What is proved. Each call does to the handle's machine what the contract of the slice's call says, at what the
 * numbers name, and its outputs are the numbers of the answer. Nothing guards against C that copies a handle, makes one
 * up, passes one to two calls at once, or passes a pointer to memory that wasn't initialised. */
#ifndef LOCKUP_H
#define LOCKUP_H

#include <stddef.h>
#include <stdint.h>

/* the version of this header; lockup_version() is that of the library */
#define LOCKUP_VERSION_MAJOR 0
#define LOCKUP_VERSION_MINOR 3
#define LOCKUP_VERSION_PATCH 0

#ifdef __cplusplus
extern "C" {
#endif

/* ---- codes: what a function returns */

enum {
    LOCKUP_OK = 0,
    LOCKUP_NO_MACHINE = 1,   /* the handle has none */
    LOCKUP_OUT_OF_RANGE = 2, /* the machine has no such core, slice, line, .., or there is no such number */
    LOCKUP_NO_MEMORY = 3,
    LOCKUP_IN_USE = 4,       /* the handle has one already */
    LOCKUP_NULL = 5,         /* a pointer is NULL */
    /* lockup_scoreboard.h returns them, no function of the library */
    LOCKUP_DIFFERS = 6,      /* the design isn't as the model */
    LOCKUP_NOT_RECORDED = 7, /* not all calls were kept */
    LOCKUP_NOT_WRITTEN = 8,  /* the file can't be written */
    /* the configuration isn't allowed: the first field at fault */
    LOCKUP_CONFIG_CORES = 101,
    LOCKUP_CONFIG_SLICES = 102,
    LOCKUP_CONFIG_LINES = 103,
    LOCKUP_CONFIG_SETS = 104,
    LOCKUP_CONFIG_WAYS = 105,
    LOCKUP_CONFIG_MSHRS = 106,
    LOCKUP_CONFIG_TARGETS = 107,
    LOCKUP_CONFIG_WRITEBACKS = 108,
    LOCKUP_CONFIG_INIT = 109,
    LOCKUP_CONFIG_COUNTERS = 110
};

/* ---- names of numbers */

/* accesses */
enum { LOCKUP_LOAD = 0, LOCKUP_STORE = 1, LOCKUP_ADD = 2, LOCKUP_CAS = 3 };

/* channels, by what they carry; LOCKUP_ANY is for next deliveries alone */
enum {
    LOCKUP_REQ = 0,
    LOCKUP_FWD = 1,
    LOCKUP_DATA = 2,
    LOCKUP_ACK = 3,
    LOCKUP_HOME = 4,
    LOCKUP_ANY = 5
};

/* answers to an access */
enum { LOCKUP_DONE = 0, LOCKUP_PENDING = 1, LOCKUP_STALL = 2, LOCKUP_REFUSED = 3 };

/* what an access would be: one of these, LOCKUP_STALL or LOCKUP_REFUSED */
enum { LOCKUP_HIT = 0, LOCKUP_PRIMARY_MISS = 1, LOCKUP_SECONDARY_MISS = 4 };

/* why an access stalls */
enum {
    LOCKUP_NO_REGISTER = 1,
    LOCKUP_NO_TARGET = 2,
    LOCKUP_NO_WAY = 3,
    LOCKUP_WRITE_BACK_FULL = 4,
    LOCKUP_WRITE_BACK_BUSY = 5
};

/* why an access is refused */
enum { LOCKUP_NO_WORD = 1, LOCKUP_TAG_RANGE = 2, LOCKUP_TAG_BUSY = 3, LOCKUP_COUNTER_STORE = 4 };

/* answers to an eviction */
enum { LOCKUP_EVICTING = 0, LOCKUP_NOT_HELD = 1, LOCKUP_BUSY = 2, LOCKUP_BUFFER_FULL = 3 };

/* answers to a delivery. It is proved that no delivery is answered by one of the last three. */
enum {
    LOCKUP_MOVED = 0,
    LOCKUP_BLOCKED = 1,
    LOCKUP_NOTHING = 2,
    LOCKUP_BROKEN_ENTRY = 3,
    LOCKUP_BROKEN_FULL = 4,
    LOCKUP_BROKEN_EARLY = 5
};

/* messages, by their names in docs/PROTOCOL.md */
enum {
    LOCKUP_MSG_GETS = 0,
    LOCKUP_MSG_GETM = 1,
    LOCKUP_MSG_PUTS = 2,
    LOCKUP_MSG_PUTM = 3,
    LOCKUP_MSG_FWD_GETS = 4,
    LOCKUP_MSG_FWD_GETM = 5,
    LOCKUP_MSG_INV = 6,
    LOCKUP_MSG_PUT_ACK = 7,
    LOCKUP_MSG_DATA = 8,
    LOCKUP_MSG_DATA_E = 9,
    LOCKUP_MSG_INV_ACK = 10,
    LOCKUP_MSG_HOME = 11 /* a block on its way home to the directory */
};

/* states of a core's copy */
enum {
    LOCKUP_I = 0,
    LOCKUP_IS_D = 1,
    LOCKUP_IM_AD = 2,
    LOCKUP_IM_A = 3,
    LOCKUP_S = 4,
    LOCKUP_SM_AD = 5,
    LOCKUP_SM_A = 6,
    LOCKUP_M = 7,
    LOCKUP_MI_A = 8,
    LOCKUP_SI_A = 9,
    LOCKUP_II_A = 10,
    LOCKUP_E = 11
};

/* states of the directory's entry */
enum { LOCKUP_DIR_I = 0, LOCKUP_DIR_S = 1, LOCKUP_DIR_M = 2, LOCKUP_DIR_S_D = 3 };

/* replacement policies, and miss files */
enum { LOCKUP_LRU = 0, LOCKUP_FIFO = 1, LOCKUP_RANDOM = 2 };
enum { LOCKUP_EXPLICIT = 0, LOCKUP_INVERTED = 1 };

/* where a core is named, and there is none */
enum { LOCKUP_NO_CORE = 64 };

/* how many acknowledgements a miss needs, where its data haven't said so yet */
enum { LOCKUP_UNKNOWN = 64 };

/* how many cells the protocol's tables have, and what stands where a call meets none */
enum { LOCKUP_CELLS = 94, LOCKUP_NO_CELL = 94 };

/* verdicts on a trace: legal, or why its first wrong entry is wrong */
enum { LOCKUP_LEGAL = 0, LOCKUP_WRONG_REPLY = 1, LOCKUP_WRONG_ORDER = 2, LOCKUP_WRONG_SINCE = 3 };

/* judgements on histories */
enum { LOCKUP_COHERENT = 0, LOCKUP_INCOHERENT = 1, LOCKUP_UNDECIDED = 2 };

/* why an access comes before another in every order, as docs/TEXTS.md has it of `lockup judge` */
enum {
    LOCKUP_WHY_UNWRITTEN = 0,   /* it comes nowhere: it found a value that no access left */
    LOCKUP_WHY_CORE = 1,        /* one core asked for both, in this order */
    LOCKUP_WHY_INTERVAL = 2,    /* the first had ended when the last began */
    LOCKUP_WHY_SOURCE = 3,      /* the last found the value that the first alone left */
    LOCKUP_WHY_INITIAL = 4,     /* the first found the value that the word began with, and the last changed it */
    LOCKUP_WHY_OVERWRITTEN = 5, /* the first found the value that `other` left and the last overwrote */
    LOCKUP_WHY_NOT_BETWEEN = 6  /* `other` found the value that the last left, and the first was not between */
};

/* ---- structs, each of uint64_t alone */

/* a machine, or nothing: begins as {0} */
typedef struct { void *at; } lockup_machine;

/* a trace that is being judged, or nothing: begins as {0} */
typedef struct { void *at; } lockup_check;

/* histories that are judged, or nothing: begins as {0} */
typedef struct { void *at; } lockup_judge;

/* the shape of a machine, as the lines of a script configure it */
typedef struct {
    uint64_t cores;      /* 1 to 64 */
    uint64_t slices;     /* 1, 2 or 4 */
    uint64_t lines;      /* 1 to 65536, a multiple of the slices */
    uint64_t sets;       /* of a core's array in a slice: a power of two, 1 to 256 */
    uint64_t ways;       /* lines in a set: 1 to 16 */
    uint64_t mshrs;      /* miss registers of a core in a slice: 1 to 32 */
    uint64_t targets;    /* of a miss register: 1 to 32 */
    uint64_t writebacks; /* entries of a core's write-back buffer in a slice: 1 to 16 */
    uint64_t policy;     /* LOCKUP_LRU, LOCKUP_FIFO or LOCKUP_RANDOM */
    uint64_t seed;       /* of LOCKUP_RANDOM */
    uint64_t misses;     /* LOCKUP_EXPLICIT or LOCKUP_INVERTED */
    uint64_t exclusive;  /* 1: with the exclusive state; 0: without */
} lockup_config;

/* a word that begins with a value of its own */
typedef struct { uint64_t word, value; } lockup_initial;

/* what became of an access */
typedef struct {
    uint64_t answer; /* LOCKUP_DONE, LOCKUP_PENDING, LOCKUP_STALL or LOCKUP_REFUSED */
    uint64_t number; /* done: in the slice's log, as in the receipt of one that was pending; pending: among the core's
                        requests of the slice, which is the `seq` of its entry; stall, refused: the reason */
    uint64_t reply;  /* done: the value that the word had before; of a store 0 */
} lockup_issued;

/* what an access would be */
typedef struct {
    uint64_t kind;   /* LOCKUP_HIT, LOCKUP_PRIMARY_MISS, LOCKUP_SECONDARY_MISS, LOCKUP_STALL or LOCKUP_REFUSED */
    uint64_t reason; /* of a stall or a refusal */
    uint64_t next;   /* hit, primary miss: the copy's next state */
    uint64_t victim; /* primary miss: 1 where a line has to leave for it */
} lockup_decision;

/* what a delivery would do */
typedef struct {
    uint64_t answer;  /* LOCKUP_MOVED, .. */
    uint64_t next;    /* moved: the next state, of the entry for LOCKUP_REQ and LOCKUP_HOME, else of the copy */
    uint64_t owner;   /* moved by the directory: the next owner, or LOCKUP_NO_CORE */
    uint64_t sharers; /* moved by the directory: the next sharers, bit C is core C */
} lockup_planned;

/* what a next delivery did, or would do, and where */
typedef struct {
    uint64_t answer; /* LOCKUP_MOVED, .. */
    uint64_t channel; /* moved: the channel, as it is named for lockup_deliver */
    uint64_t line;
    uint64_t core;
    uint64_t from;
} lockup_next_delivery;

/* a reply that is handed out */
typedef struct {
    uint64_t handed; /* 1, or 0 where there is none */
    uint64_t number; /* in the slice's log */
    uint64_t tag;
    uint64_t reply;
} lockup_receipt;

/* a core's copy of a line */
typedef struct {
    uint64_t state;    /* LOCKUP_I, .. */
    uint64_t wants;    /* acknowledgements that its data named, 0 before; unspecified where none are waited for */
    uint64_t counted;  /* acknowledgements that have come; unspecified there too */
    uint64_t block[8]; /* unspecified in I, IS_D, IM_AD and II_A, in which a copy has none */
} lockup_copy;

/* the directory's entry of a line */
typedef struct {
    uint64_t state;   /* LOCKUP_DIR_I, .. */
    uint64_t owner;   /* a core, or LOCKUP_NO_CORE */
    uint64_t sharers; /* bit C is core C */
    uint64_t home[8]; /* the home copy */
} lockup_directory;

/* a word of a slice that is quiet */
typedef struct {
    uint64_t quiet; /* 1, or 0 where the slice isn't quiet */
    uint64_t value;
} lockup_word;

/* what a core has counted in a slice */
typedef struct {
    uint64_t hits;
    uint64_t primary;
    uint64_t secondary;
    uint64_t stalls[5]; /* LOCKUP_NO_REGISTER first */
    uint64_t evictions;
    uint64_t silent; /* hits that changed E to M */
} lockup_core_counts;

/* the messages that a slice has delivered */
typedef struct {
    uint64_t req;
    uint64_t fwd;
    uint64_t data;
    uint64_t ack;
    uint64_t home;
} lockup_message_counts;

/* an entry of a log: an access that was performed */
typedef struct {
    uint64_t core;
    uint64_t seq; /* number among the core's requests of the slice */
    uint64_t tag;
    uint64_t op; /* LOCKUP_LOAD, .. */
    uint64_t word;
    uint64_t operand;
    uint64_t replacement;
    uint64_t reply;
    uint64_t since; /* the log's length when it was accepted */
} lockup_entry;

/* a miss register: one line that a core waits for */
typedef struct {
    uint64_t line;
    uint64_t kind;    /* what it asked for: LOCKUP_MSG_GETS or LOCKUP_MSG_GETM */
    uint64_t needed;  /* acknowledgements that it needs: 0 of a GetS; of a GetM LOCKUP_UNKNOWN before its data */
    uint64_t counted; /* acknowledgements that have come */
    uint64_t targets; /* accesses that wait in it */
} lockup_register;

/* a target of a miss register: an access that waits */
typedef struct {
    uint64_t tag;
    uint64_t op; /* LOCKUP_LOAD, .. */
    uint64_t word;
    uint64_t operand;
    uint64_t replacement;
    uint64_t seq;   /* number among the core's requests of the slice */
    uint64_t since; /* the log's length when it was accepted */
} lockup_target;

/* a message in front of its channel */
typedef struct {
    uint64_t channel; /* its channel, as it is named for lockup_deliver */
    uint64_t line;
    uint64_t core;
    uint64_t from;
    uint64_t kind;      /* LOCKUP_MSG_GETS, .. */
    uint64_t requester; /* of what is forwarded, but LOCKUP_MSG_PUT_ACK: whom it is answered to; else LOCKUP_NO_CORE */
    uint64_t acks;      /* LOCKUP_MSG_DATA: how many acknowledgements its receiver needs; else 0 */
    uint64_t block[8];  /* the block that it carries, or zeros */
} lockup_message;

/* what the entries of a trace come to so far */
typedef struct {
    uint64_t verdict; /* LOCKUP_LEGAL, or why the first wrong entry is wrong */
    uint64_t entry;   /* legal: how many entries there are; else the number of the wrong one */
} lockup_verdict;

/* an access as its core saw it */
typedef struct {
    uint64_t core;
    uint64_t op; /* LOCKUP_LOAD, .. */
    uint64_t word;
    uint64_t operand;
    uint64_t replacement;
    uint64_t reply; /* of a store it means nothing */
    uint64_t begin; /* when it was asked for, by a counter that all cores share; 0 where it isn't known */
    uint64_t end;   /* when it was answered; UINT64_MAX where it isn't known */
} lockup_access;

/* what histories come to */
typedef struct {
    uint64_t verdict; /* LOCKUP_COHERENT, LOCKUP_INCOHERENT or LOCKUP_UNDECIDED */
    uint64_t word;    /* incoherent, undecided: of which word this was found */
    uint64_t reasons; /* incoherent: how many reasons the contradiction has; else 0 */
} lockup_judgement;

/* a reason of a contradiction, which names accesses by their numbers among all that were given, from 0 */
typedef struct {
    uint64_t why; /* LOCKUP_WHY_UNWRITTEN, .. */
    uint64_t first;
    uint64_t last;  /* it comes after the first in every order */
    uint64_t other; /* as `why` says, else the last */
} lockup_reason;

/* ---- the library */

/* The version: 10000 * MAJOR + 100 * MINOR + PATCH. */
uint32_t lockup_version(void);

/* ---- a machine is made and freed */

/* Writes the configuration that a script has that says nothing: 2 cores, 1 slice of 16 lines, 4 sets of 2 ways, 4 miss
 * registers of 4 targets, 2 write-back entries, LRU, explicit miss registers, no exclusive state. */
uint32_t lockup_defaults(lockup_config *config);

/* Makes a machine in which each word begins as 0. LOCKUP_CONFIG_.., LOCKUP_IN_USE, LOCKUP_NO_MEMORY;
 * LOCKUP_OUT_OF_RANGE for a policy, miss file or exclusive that has no name. */
uint32_t lockup_make(lockup_machine *machine, const lockup_config *config);

/* .. in which these words begin with values of their own, and these are counters, which are never stored to: both
 * strictly ascending, and at most 8 counters. */
uint32_t lockup_make_with(lockup_machine *machine, const lockup_config *config, const lockup_initial *initial,
                          size_t initial_count, const uint64_t *counters, size_t counter_count);

/* Gives `copy`, which has nothing, the same machine once more: what is tried with one of them leaves the other as it
 * is. It costs as much memory as the machine has touched. LOCKUP_IN_USE where `copy` has a machine already;
 * LOCKUP_NO_MEMORY. The two are different handles. */
uint32_t lockup_clone(const lockup_machine *machine, lockup_machine *copy);

/* Frees the machine, and leaves {0}. LOCKUP_NO_MACHINE where the handle has nothing. */
uint32_t lockup_free(lockup_machine *machine);

/* ---- steps */

/* The core asks for a word, under a tag from 0 to 63 that it has not in use in the word's slice. `operand` is the value
 * of LOCKUP_STORE, the addend of LOCKUP_ADD, and what LOCKUP_CAS expects; `replacement` is what LOCKUP_CAS then writes.
 * The tag of one that is done is free at once, that of one that is pending from lockup_hand on; one that stalls or is
 * refused takes none. Any word is allowed: one past the memory is refused; so is a tag from 64 to 255. LOCKUP_NO_MEMORY. */
uint32_t lockup_issue(lockup_machine *machine, uint64_t core, uint64_t tag, uint64_t op, uint64_t word,
                      uint64_t operand, uint64_t replacement, lockup_issued *issued);

/* The core evicts its copy of a line. */
uint32_t lockup_evict(lockup_machine *machine, uint64_t core, uint64_t line, uint64_t *answer);

/* Delivers the message in front of a channel: LOCKUP_REQ from `core`, LOCKUP_FWD and LOCKUP_DATA to it, LOCKUP_ACK to
 * it from `from`, or LOCKUP_HOME. What a channel doesn't name is ignored. */
uint32_t lockup_deliver(lockup_machine *machine, uint64_t channel, uint64_t line, uint64_t core, uint64_t from,
                        uint64_t *answer);

/* Delivers the next message of a slice that can be moved, of these channels or of LOCKUP_ANY. Lines take turns. */
uint32_t lockup_deliver_next(lockup_machine *machine, uint64_t slice, uint64_t channel, lockup_next_delivery *next);

/* Hands out the core's next reply of a slice. Its tag is then free. */
uint32_t lockup_hand(lockup_machine *machine, uint64_t core, uint64_t slice, lockup_receipt *receipt);

/* Begins a new log of a slice where the slice is quiet: `begun` is 1 then, and else 0, and nothing has changed. Copies,
 * the directory and the values of words stay. Entries and requests are numbered from 0 again, and so is all that is
 * counted: look at the log and the counts before. A long run that does so now and then takes no more memory the longer
 * it runs. LOCKUP_NO_MEMORY. */
uint32_t lockup_begin_log(lockup_machine *machine, uint64_t slice, uint64_t *begun);

/* ---- what a step would do. Nothing is changed. */

/* What lockup_issue would do. */
uint32_t lockup_decide(const lockup_machine *machine, uint64_t core, uint64_t tag, uint64_t op, uint64_t word,
                       uint64_t operand, uint64_t replacement, lockup_decision *decision);

/* What lockup_deliver would do. */
uint32_t lockup_plan(const lockup_machine *machine, uint64_t channel, uint64_t line, uint64_t core, uint64_t from,
                     lockup_planned *planned);

/* Which cell of the protocol's tables lockup_issue, lockup_evict or lockup_deliver would meet, by its number below
 * LOCKUP_CELLS, or LOCKUP_NO_CELL; LOCKUP_NAME(cell, number) is its name. What is refused, stalls for want of room or moves
 * nothing since no message waits meets none. An eviction for which the write-back buffer has no room meets none either,
 * which the answer to lockup_evict says: here it has the cell that it would meet with room. */
uint32_t lockup_cell_of_issue(const lockup_machine *machine, uint64_t core, uint64_t tag, uint64_t op, uint64_t word,
                              uint64_t operand, uint64_t replacement, uint64_t *cell);
uint32_t lockup_cell_of_evict(const lockup_machine *machine, uint64_t core, uint64_t line, uint64_t *cell);
uint32_t lockup_cell_of_deliver(const lockup_machine *machine, uint64_t channel, uint64_t line, uint64_t core,
                                uint64_t from, uint64_t *cell);

/* What lockup_deliver_next would deliver. */
uint32_t lockup_next(const lockup_machine *machine, uint64_t slice, uint64_t channel, lockup_next_delivery *next);

/* ---- what there is. Nothing is changed. */

/* A core's copy of a line, also one that is being written back. */
uint32_t lockup_copy_at(const lockup_machine *machine, uint64_t core, uint64_t line, lockup_copy *copy);

/* The directory's entry of a line. */
uint32_t lockup_directory_at(const lockup_machine *machine, uint64_t line, lockup_directory *directory);

/* How many miss registers a core holds in a slice, and one of them, in their order. LOCKUP_NO_MEMORY. */
uint32_t lockup_registers(const lockup_machine *machine, uint64_t core, uint64_t slice, uint64_t *count);
uint32_t lockup_register_at(const lockup_machine *machine, uint64_t core, uint64_t slice, uint64_t nth,
                            lockup_register *found);

/* How many accesses of a core wait for a line, and one of them, the oldest first. */
uint32_t lockup_targets(const lockup_machine *machine, uint64_t core, uint64_t line, uint64_t *count);
uint32_t lockup_target_at(const lockup_machine *machine, uint64_t core, uint64_t line, uint64_t nth,
                          lockup_target *target);

/* How many lines a core is writing back in a slice, and one of them, the latest last. LOCKUP_NO_MEMORY. */
uint32_t lockup_writebacks(const lockup_machine *machine, uint64_t core, uint64_t slice, uint64_t *count);
uint32_t lockup_writeback_at(const lockup_machine *machine, uint64_t core, uint64_t slice, uint64_t nth,
                             uint64_t *line);

/* How many lines a core has in the set of a line, and one of them, in the order of the policy: the line that was used
 * last is last under LOCKUP_LRU, else the one that came last. LOCKUP_NO_MEMORY. */
uint32_t lockup_ways(const lockup_machine *machine, uint64_t core, uint64_t line, uint64_t *count);
uint32_t lockup_way_at(const lockup_machine *machine, uint64_t core, uint64_t line, uint64_t nth, uint64_t *found);

/* How many channels of a line have a message, and the message in front of one of them: the block that comes home, data,
 * acknowledgements, what is forwarded, requests, and those of a kind by their cores. */
uint32_t lockup_messages(const lockup_machine *machine, uint64_t line, uint64_t *count);
uint32_t lockup_message_at(const lockup_machine *machine, uint64_t line, uint64_t nth, lockup_message *message);

/* Whether the machine is quiet: 1 where no message waits, no miss register is held, no write-back is pending, and each
 * reply was handed out. */
uint32_t lockup_quiet(const lockup_machine *machine, uint64_t *quiet);

/* The value of a word, where its slice is quiet. */
uint32_t lockup_word_at(const lockup_machine *machine, uint64_t word, lockup_word *value);

/* What was counted. A count stops at 2^64 - 1. */
uint32_t lockup_counts_of_core(const lockup_machine *machine, uint64_t core, uint64_t slice,
                               lockup_core_counts *counts);
uint32_t lockup_counts_of_messages(const lockup_machine *machine, uint64_t slice, lockup_message_counts *counts);

/* How many entries the log of a slice has. */
uint32_t lockup_entries(const lockup_machine *machine, uint64_t slice, uint64_t *count);

/* One of them, in the order in which they were performed. */
uint32_t lockup_entry_at(const lockup_machine *machine, uint64_t slice, uint64_t nth, lockup_entry *entry);

/* ---- a trace is judged as it comes: entries of any cache, not only of a machine here */

/* Begins a trace. LOCKUP_IN_USE, LOCKUP_NO_MEMORY. */
uint32_t lockup_check_new(lockup_check *check);

/* Gives a word the value that it begins with. Words are strictly ascending, below 524288, and come before the entries:
 * else LOCKUP_OUT_OF_RANGE. LOCKUP_NO_MEMORY ends the trace, and leaves {0}. */
uint32_t lockup_check_begin(lockup_check *check, uint64_t word, uint64_t value);

/* Judges one more entry. LOCKUP_OUT_OF_RANGE for a core or a tag above 63, a word above 524287, or an `op` without a
 * name. `since` may be 0 where it isn't known. LOCKUP_NO_MEMORY ends the trace, and leaves {0}. */
uint32_t lockup_check_entry(lockup_check *check, const lockup_entry *entry);

/* What the entries come to so far. */
uint32_t lockup_check_verdict(const lockup_check *check, lockup_verdict *verdict);

/* Ends the trace, and leaves {0}. */
uint32_t lockup_check_free(lockup_check *check);

/* ---- histories are judged: what cores asked for and were answered, where the order of several cores isn't known. A
 * word's accesses are coherent if some order of them explains each reply, keeps each core's own order, and has each
 * access that had ended before another began in front of that. */

/* Begins histories. LOCKUP_IN_USE, LOCKUP_NO_MEMORY. */
uint32_t lockup_judge_new(lockup_judge *judge);

/* Gives a word the value that it begins with, which else is 0. LOCKUP_OUT_OF_RANGE for a word above 524287, or one that
 * was given a value. LOCKUP_NO_MEMORY ends the histories, and leaves {0}. */
uint32_t lockup_judge_begin(lockup_judge *judge, uint64_t word, uint64_t value);

/* Takes one more access. A core's accesses of a word come in its own order, those of several cores in any order.
 * LOCKUP_OUT_OF_RANGE for a core above 63, a word above 524287, an `op` without a name, or an end before the begin.
 * LOCKUP_NO_MEMORY ends the histories, and leaves {0}. */
uint32_t lockup_judge_access(lockup_judge *judge, const lockup_access *access);

/* Judges the accesses so far; more may come. A word is decided at once where each value that is read was left by one
 * access alone and isn't the one that it began with; else up to `limit` steps are taken to try orders of it (`lockup
 * judge` takes a million). LOCKUP_NO_MEMORY: the histories stay, and the last reasons too. */
uint32_t lockup_judge_verdict(lockup_judge *judge, uint64_t limit, lockup_judgement *judgement);

/* One of the reasons of the last judgement: of each the first access comes before the last, and in the end one before
 * itself. */
uint32_t lockup_judge_reason(const lockup_judge *judge, uint64_t nth, lockup_reason *reason);

/* Ends the histories, and leaves {0}. */
uint32_t lockup_judge_free(lockup_judge *judge);

#ifdef __cplusplus
}
#endif

/* for the functions of the headers beside this one. C of 1990 has no word for it */
#if defined(__cplusplus) || (defined(__STDC_VERSION__) && __STDC_VERSION__ >= 199901L)
#define LOCKUP_INLINE static inline
#elif defined(__GNUC__)
#define LOCKUP_INLINE static __inline__
#else
#define LOCKUP_INLINE static
#endif

#endif
