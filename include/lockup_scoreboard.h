/* A scoreboard for a design of your own beside the machine of lockup.h, the model: each call that the design was given is
 * made of the model too, and answers and states are compared. The calls can be written as a script of `lockup test`.
 *
 *     lockup_scoreboard board = {0};
 *     lockup_issued answered;                                              // the design's, by the numbers of lockup.h
 *     char said[LOCKUP_TEXT];
 *     lockup_defaults(&config);
 *     lockup_scoreboard_begin(&board, &config, NULL, 0, NULL, 0);
 *     ..
 *     if (lockup_expect_issue(&board, 0, 3, LOCKUP_LOAD, 8, 0, 0, &answered) == LOCKUP_DIFFERS
 *         || lockup_compare(&board, &design) == LOCKUP_DIFFERS) {
 *         lockup_difference_text(&board, said, sizeof said);   // call 17, issue 0 3 load 8: reply is 5, and the design's is 4
 *         lockup_write_script(&board, file, 0);                // for lockup chart, page and script --explain
 *     }
 *     lockup_write_coverage(counts, config.exclusive, file);   // for lockup coverage, where board.coverage = counts
 *     lockup_scoreboard_end(&board);
 *
 * Codes are those of lockup.h, and LOCKUP_DIFFERS at the first difference, which is kept: from then on each call returns
 * LOCKUP_DIFFERS and makes nothing. With any other code but LOCKUP_OK nothing has changed either. A scoreboard is one
 * handle: it begins as {0}, in C++ as {}, and may be moved, but never copied.
 *
 * What isn't compared has no meaning in its place:
 *
 *   answers      the reply of a store, and of an access that isn't done; the channel of a next delivery that moved nothing;
 *                what a channel doesn't name (home no core, and only ack the core from which it comes)
 *   copies       the acknowledgements that have come but in IM_AD, SM_AD, IM_A and SM_A; those that the data named but in
 *                IM_A and SM_A; the block in I, IS_D, IM_AD and II_A
 *   directory    the owner but in M; the sharers but in S and S_D; the home copy but in I and S, where it is current
 *   registers    what acknowledgements a GetS needs and has; the order of registers and of write-backs
 *   targets      operands that the access doesn't have
 *   messages     the requester but of Fwd-GetS, Fwd-GetM and Inv; acknowledgements but of Data; the block but of PutM,
 *                Data, Data-E and Data home; their order
 *
 * and any number that a design doesn't have, which it gives as LOCKUP_UNSEEN. */
#ifndef LOCKUP_SCOREBOARD_H
#define LOCKUP_SCOREBOARD_H

#include <stdio.h>
#include <stdlib.h>
#include <string.h>
#include "lockup_names.h"

/* given by a design in place of a number that it doesn't have: it isn't compared. Values of words always are, and so are
 * sharers, of which it is core 63. Where it is how many places a list has, they aren't compared. */
#define LOCKUP_UNSEEN ((uint64_t)1 << 63)
/* room for each of the texts below */
#define LOCKUP_TEXT 1024

/* which calls are kept for the script: none, all, or those that changed something, and the last one */
enum { LOCKUP_RECORD_NONE = 0, LOCKUP_RECORD_ALL = 1, LOCKUP_RECORD_CHANGES = 2 };

/* calls, by their functions */
enum {
    LOCKUP_CALL_ISSUE = 0,
    LOCKUP_CALL_EVICT = 1,
    LOCKUP_CALL_DELIVER = 2,
    LOCKUP_CALL_NEXT = 3,
    LOCKUP_CALL_HAND = 4
};

/* a call, and what the model answered */
typedef struct {
    uint64_t kind;       /* LOCKUP_CALL_ISSUE, .. */
    uint64_t numbers[6]; /* in the order in which its function takes them */
    union {
        lockup_issued issued;
        uint64_t answer; /* of an eviction or a delivery */
        lockup_next_delivery next;
        lockup_receipt receipt;
    } told;
} lockup_call;

/* The first difference. A place that it doesn't have is LOCKUP_NO_NUMBER. */
typedef struct {
    uint64_t found;     /* 1, or 0 where there is none */
    uint64_t call;      /* the number of the last call, from 0 */
    int is_look;        /* whether lockup_compare found it, behind that call */
    const char *what;   /* "issue", "evict", "deliver", "next", "hand"; or "copy", "directory", "registers" of a core in a
                           slice, "register" of a line, "targets", "target", "writebacks", "writeback", "ways", "way",
                           "messages", "message" */
    const char *field;  /* as lockup.h names it; "reason" of a stall or a refusal; "count": how many there are */
    uint64_t wanted;    /* what the model has */
    uint64_t came;      /* what the design has */
    uint64_t core, line, slice;
    uint64_t nth;       /* of a target or a way */
    uint64_t channel, from; /* of a message */
    uint64_t word;      /* in a block, from 0 to 7 */
    const lockup_named *names; /* of the field's numbers, or NULL */
    size_t name_count;
} lockup_difference;

typedef struct {
    lockup_machine machine; /* the model. Look at it as you like; its calls are made by lockup_expect_issue and so on */
    lockup_config config;
    lockup_initial *initial;
    uint64_t *counters;
    size_t initial_count, counter_count;
    int record;     /* LOCKUP_RECORD_ALL; you may set another */
    int has_gaps;   /* whether a call was made under LOCKUP_RECORD_NONE */
    uint64_t calls; /* how many were made */
    lockup_call last;
    lockup_call *made; /* the calls that are kept, 96 bytes each */
    size_t made_count, made_room;
    /* LOCKUP_CELLS counts of yours, which you may set, or NULL: each call adds 1 to that of the cell which it meets */
    uint64_t *coverage;
    lockup_difference difference;
} lockup_scoreboard;

/* What a design shows: functions of yours, which have the prototypes of lockup.h with `of` in place of the machine. One
 * that is NULL isn't compared. Of a list only the count may be there. lockup_compare ends with any code but LOCKUP_OK. */
typedef struct {
    void *of;
    uint32_t (*copy_at)(void *of, uint64_t core, uint64_t line, lockup_copy *copy);
    uint32_t (*directory_at)(void *of, uint64_t line, lockup_directory *directory);
    uint32_t (*registers)(void *of, uint64_t core, uint64_t slice, uint64_t *count);
    uint32_t (*register_at)(void *of, uint64_t core, uint64_t slice, uint64_t nth, lockup_register *found);
    uint32_t (*targets)(void *of, uint64_t core, uint64_t line, uint64_t *count);
    uint32_t (*target_at)(void *of, uint64_t core, uint64_t line, uint64_t nth, lockup_target *target);
    uint32_t (*writebacks)(void *of, uint64_t core, uint64_t slice, uint64_t *count);
    uint32_t (*writeback_at)(void *of, uint64_t core, uint64_t slice, uint64_t nth, uint64_t *line);
    uint32_t (*ways)(void *of, uint64_t core, uint64_t line, uint64_t *count);
    uint32_t (*way_at)(void *of, uint64_t core, uint64_t line, uint64_t nth, uint64_t *found);
    uint32_t (*messages)(void *of, uint64_t line, uint64_t *count);
    uint32_t (*message_at)(void *of, uint64_t line, uint64_t nth, lockup_message *message);
} lockup_design;

/* ---- texts. Each ends with a zero byte; one that the buffer has no room for is cut, and LOCKUP_OUT_OF_RANGE returned. */

/* a text that is being written */
typedef struct { char *at; size_t size, length; } lockup_text;

LOCKUP_INLINE void lockup_put(lockup_text *text, const char *words) {
    for (; *words; words++, text->length++)
        if (text->length + 1 < text->size) text->at[text->length] = *words;
}

LOCKUP_INLINE void lockup_put_number(lockup_text *text, uint64_t number) {
    char digits[21];
    char *at = digits + 20;
    *at = 0;
    do *--at = (char)('0' + number % 10); while (number /= 10);
    lockup_put(text, at);
}

LOCKUP_INLINE void lockup_put_numbers(lockup_text *text, const uint64_t *numbers, size_t count) {
    size_t at;
    for (at = 0; at < count; at++) {
        lockup_put(text, " ");
        lockup_put_number(text, numbers[at]);
    }
}

LOCKUP_INLINE uint32_t lockup_put_end(lockup_text *text) {
    if (text->size) text->at[text->length < text->size ? text->length : text->size - 1] = 0;
    return text->length < text->size ? LOCKUP_OK : LOCKUP_OUT_OF_RANGE;
}

LOCKUP_INLINE lockup_text lockup_text_in(char *buffer, size_t size) {
    lockup_text text;
    text.at = buffer;
    text.size = size;
    text.length = 0;
    return text;
}

LOCKUP_INLINE void lockup_put_issued(lockup_text *text, const lockup_issued *issued) {
    lockup_put(text, LOCKUP_NAME(answer, issued->answer));
    if (issued->number == LOCKUP_UNSEEN) lockup_put(text, " ?");
    else lockup_put_numbers(text, &issued->number, 1);
    lockup_put(text, issued->answer == LOCKUP_PENDING ? "" : " ");
    if (issued->answer == LOCKUP_DONE) lockup_put(text, "reply ");
    if (issued->answer == LOCKUP_DONE) lockup_put_number(text, issued->reply);
    if (issued->answer == LOCKUP_STALL) lockup_put(text, LOCKUP_NAME(stall, issued->number));
    if (issued->answer == LOCKUP_REFUSED) lockup_put(text, LOCKUP_NAME(refused, issued->number));
}

LOCKUP_INLINE void lockup_put_receipt(lockup_text *text, const lockup_receipt *receipt) {
    lockup_put(text, receipt->handed ? "receipt" : "none");
    if (!receipt->handed) return;
    if (receipt->number == LOCKUP_UNSEEN) lockup_put(text, " ?");
    else lockup_put_numbers(text, &receipt->number, 1);
    lockup_put(text, " tag");
    lockup_put_numbers(text, &receipt->tag, 1);
    lockup_put(text, " reply");
    lockup_put_numbers(text, &receipt->reply, 1);
}

/* The names of a channel: its numbers are line, core and from. */
LOCKUP_INLINE void lockup_put_channel(lockup_text *text, uint64_t channel, const uint64_t *numbers) {
    lockup_put(text, LOCKUP_NAME(channel, channel));
    lockup_put_numbers(text, numbers, channel == LOCKUP_HOME ? 1 : channel == LOCKUP_ACK ? 3 : 2);
}

LOCKUP_INLINE void lockup_put_call(lockup_text *text, const lockup_call *call) {
    static const char *const verbs[] = {"issue", "evict", "deliver ", "next", "hand"};
    const uint64_t *numbers = call->numbers;
    lockup_put(text, verbs[call->kind]);
    if (call->kind == LOCKUP_CALL_DELIVER) {
        lockup_put_channel(text, numbers[0], numbers + 1);
        return;
    }
    lockup_put_numbers(text, numbers, call->kind == LOCKUP_CALL_NEXT ? 1 : 2);
    if (call->kind == LOCKUP_CALL_ISSUE) {
        lockup_put(text, " ");
        lockup_put(text, LOCKUP_NAME(op, numbers[2]));
        lockup_put_numbers(text, numbers + 3, numbers[2] == LOCKUP_LOAD ? 1 : numbers[2] == LOCKUP_CAS ? 3 : 2);
    }
    if (call->kind == LOCKUP_CALL_NEXT) {
        lockup_put(text, " ");
        lockup_put(text, numbers[1] == LOCKUP_ANY ? "any" : LOCKUP_NAME(channel, numbers[1]));
    }
}

LOCKUP_INLINE void lockup_put_answer(lockup_text *text, const lockup_call *call) {
    if (call->kind == LOCKUP_CALL_ISSUE) lockup_put_issued(text, &call->told.issued);
    else if (call->kind == LOCKUP_CALL_EVICT) lockup_put(text, LOCKUP_NAME(evicted, call->told.answer));
    else if (call->kind == LOCKUP_CALL_HAND) lockup_put_receipt(text, &call->told.receipt);
    else lockup_put(text, LOCKUP_NAME(delivered, call->kind == LOCKUP_CALL_NEXT ? call->told.next.answer : call->told.answer));
}

/* The answer to an access, as docs/TEXTS.md has it; a number that is LOCKUP_UNSEEN is "?". Those to an eviction and a
 * delivery are LOCKUP_NAME(evicted, answer) and LOCKUP_NAME(delivered, answer). */
LOCKUP_INLINE uint32_t lockup_issued_text(const lockup_issued *issued, char *buffer, size_t size) {
    lockup_text text = lockup_text_in(buffer, size);
    if (!issued || !buffer) return LOCKUP_NULL;
    lockup_put_issued(&text, issued);
    return lockup_put_end(&text);
}

/* The answer to a hand-out. */
LOCKUP_INLINE uint32_t lockup_receipt_text(const lockup_receipt *receipt, char *buffer, size_t size) {
    lockup_text text = lockup_text_in(buffer, size);
    if (!receipt || !buffer) return LOCKUP_NULL;
    lockup_put_receipt(&text, receipt);
    return lockup_put_end(&text);
}

/* A call as the command of a script. Scripts have none for a next delivery, which is "next SLICE CHANNEL". */
LOCKUP_INLINE uint32_t lockup_call_text(const lockup_call *call, char *buffer, size_t size) {
    lockup_text text = lockup_text_in(buffer, size);
    if (!call || !buffer) return LOCKUP_NULL;
    if (call->kind > LOCKUP_CALL_HAND) return LOCKUP_OUT_OF_RANGE;
    lockup_put_call(&text, call);
    return lockup_put_end(&text);
}

/* What the model answered to a call. */
LOCKUP_INLINE uint32_t lockup_answer_text(const lockup_call *call, char *buffer, size_t size) {
    lockup_text text = lockup_text_in(buffer, size);
    if (!call || !buffer) return LOCKUP_NULL;
    if (call->kind > LOCKUP_CALL_HAND) return LOCKUP_OUT_OF_RANGE;
    lockup_put_answer(&text, call);
    return lockup_put_end(&text);
}

/* ---- differences */

#define LOCKUP_NAMES(kind) lockup_##kind##_names, sizeof lockup_##kind##_names / sizeof *lockup_##kind##_names

static const lockup_named lockup_core_names[] = {{LOCKUP_NO_CORE, "none"}};
static const lockup_named lockup_needed_names[] = {{LOCKUP_UNKNOWN, "unknown"}};

/* Says at what the next comparisons look. */
LOCKUP_INLINE void lockup_look_at(lockup_scoreboard *board, const char *what, uint64_t core, uint64_t line,
                                  uint64_t slice) {
    lockup_difference *difference = &board->difference;
    difference->what = what;
    difference->core = core;
    difference->line = line;
    difference->slice = slice;
    difference->names = NULL;
    difference->nth = difference->channel = difference->from = difference->word = LOCKUP_NO_NUMBER;
}

/* Notes a difference of values of words, or of sets of cores. Returns whether there is one. */
LOCKUP_INLINE int lockup_differ_value(lockup_scoreboard *board, const char *field, uint64_t wanted, uint64_t came) {
    lockup_difference *difference = &board->difference;
    if (wanted == came) return 0;
    difference->found = 1;
    difference->call = board->calls - 1;
    difference->field = field;
    difference->wanted = wanted;
    difference->came = came;
    return 1;
}

/* .. of numbers, which a design may not have. */
LOCKUP_INLINE int lockup_differ(lockup_scoreboard *board, const char *field, uint64_t wanted, uint64_t came) {
    return came != LOCKUP_UNSEEN && lockup_differ_value(board, field, wanted, came);
}

/* .. of numbers with names. */
LOCKUP_INLINE int lockup_differ_named(lockup_scoreboard *board, const char *field, const lockup_named *names,
                                      size_t name_count, uint64_t wanted, uint64_t came) {
    board->difference.names = names;
    board->difference.name_count = name_count;
    if (lockup_differ(board, field, wanted, came)) return 1;
    board->difference.names = NULL;
    return 0;
}

LOCKUP_INLINE int lockup_differ_block(lockup_scoreboard *board, const char *field, const uint64_t *wanted,
                                      const uint64_t *came) {
    uint64_t word;
    for (word = 0; word < 8; word++)
        if (wanted[word] != came[word]) {
            board->difference.word = word;
            return lockup_differ_value(board, field, wanted[word], came[word]);
        }
    return 0;
}

/* The code where a difference was looked for. */
LOCKUP_INLINE uint32_t lockup_differ_code(int differ) { return differ ? LOCKUP_DIFFERS : LOCKUP_OK; }

/* ---- a scoreboard begins and ends */

LOCKUP_INLINE void *lockup_copied(const void *from, size_t size) {
    void *copy = malloc(size ? size : 1);
    if (copy && size) memcpy(copy, from, size);
    return copy;
}

/* Ends the scoreboard, frees its machine, and leaves {0}. LOCKUP_NO_MACHINE where it didn't begin. */
LOCKUP_INLINE uint32_t lockup_scoreboard_end(lockup_scoreboard *board) {
    uint32_t code;
    if (!board) return LOCKUP_NULL;
    code = lockup_free(&board->machine);
    if (code) return code;
    free(board->initial);
    free(board->counters);
    free(board->made);
    memset(board, 0, sizeof *board);
    return LOCKUP_OK;
}

/* Begins one, which is {0}, with a machine as lockup_make_with makes it: LOCKUP_CONFIG_.., LOCKUP_OUT_OF_RANGE,
 * LOCKUP_IN_USE, LOCKUP_NO_MEMORY. Lists of none may be NULL. */
LOCKUP_INLINE uint32_t lockup_scoreboard_begin(lockup_scoreboard *board, const lockup_config *config,
        const lockup_initial *initial, size_t initial_count, const uint64_t *counters, size_t counter_count) {
    static const lockup_initial none = {0, 0};
    lockup_machine machine = {0};
    uint32_t code;
    if (!board || !config || (!initial && initial_count) || (!counters && counter_count)) return LOCKUP_NULL;
    if (board->machine.at) return LOCKUP_IN_USE;
    code = lockup_make_with(&machine, config, initial ? initial : &none, initial_count, counters ? counters : &none.word,
                            counter_count);
    if (code) return code;
    memset(board, 0, sizeof *board);
    board->machine = machine;
    board->config = *config;
    board->record = LOCKUP_RECORD_ALL;
    board->initial = (lockup_initial *)lockup_copied(initial, initial_count * sizeof *initial);
    board->counters = (uint64_t *)lockup_copied(counters, counter_count * sizeof *counters);
    board->initial_count = initial_count;
    board->counter_count = counter_count;
    if (board->initial && board->counters) return LOCKUP_OK;
    lockup_scoreboard_end(board);
    return LOCKUP_NO_MEMORY;
}

/* ---- answers */

/* Whether a call changed anything of the model but its counts. */
LOCKUP_INLINE int lockup_changed(const lockup_call *call) {
    if (call->kind == LOCKUP_CALL_ISSUE) return call->told.issued.answer <= LOCKUP_PENDING;
    if (call->kind == LOCKUP_CALL_HAND) return call->told.receipt.handed != 0;
    if (call->kind == LOCKUP_CALL_NEXT) return call->told.next.answer == LOCKUP_MOVED;
    return call->told.answer == LOCKUP_EVICTING || call->told.answer == LOCKUP_MOVED;
}

/* Makes room for one more call. */
LOCKUP_INLINE uint32_t lockup_room_for_call(lockup_scoreboard *board) {
    size_t room = board->made_room ? 2 * board->made_room : 64;
    lockup_call *made;
    if (board->record == LOCKUP_RECORD_NONE || board->made_count < board->made_room) return LOCKUP_OK;
    if (room > (size_t)-1 / sizeof *made) return LOCKUP_NO_MEMORY;
    made = (lockup_call *)realloc(board->made, room * sizeof *made);
    if (!made) return LOCKUP_NO_MEMORY;
    board->made = made;
    board->made_room = room;
    return LOCKUP_OK;
}

/* Whether a scoreboard takes a call, and what the design answered. */
LOCKUP_INLINE uint32_t lockup_takes_call(lockup_scoreboard *board, const void *answered) {
    if (!board || !answered) return LOCKUP_NULL;
    if (!board->machine.at) return LOCKUP_NO_MACHINE;
    if (board->difference.found) return LOCKUP_DIFFERS;
    return lockup_room_for_call(board);
}

LOCKUP_INLINE lockup_call lockup_call_of(uint64_t kind, uint64_t first, uint64_t second, uint64_t third, uint64_t fourth,
                                         uint64_t fifth, uint64_t sixth) {
    lockup_call call;
    memset(&call, 0, sizeof call);
    call.kind = kind;
    call.numbers[0] = first;
    call.numbers[1] = second;
    call.numbers[2] = third;
    call.numbers[3] = fourth;
    call.numbers[4] = fifth;
    call.numbers[5] = sixth;
    return call;
}

/* Notes a call that was made. */
LOCKUP_INLINE void lockup_note(lockup_scoreboard *board, const lockup_call *call) {
    board->calls++;
    board->last = *call;
    board->difference.is_look = 0;
    if (board->record == LOCKUP_RECORD_NONE) board->has_gaps = 1;
    if (board->record == LOCKUP_RECORD_NONE) return;
    if (board->record == LOCKUP_RECORD_CHANGES && board->made_count && !lockup_changed(&board->made[board->made_count - 1]))
        board->made_count--;
    board->made[board->made_count++] = *call;
}

/* Counts the cell that a call has met, where cells are counted. */
LOCKUP_INLINE void lockup_cover(lockup_scoreboard *board, uint64_t cell) {
    if (board->coverage && cell < LOCKUP_CELLS) board->coverage[cell]++;
}

/* The cell that the next delivery would meet, where one can be made. */
LOCKUP_INLINE void lockup_cell_of_next(lockup_scoreboard *board, uint64_t slice, uint64_t channel, uint64_t *cell) {
    lockup_next_delivery next;
    memset(&next, 0, sizeof next);
    if (lockup_next(&board->machine, slice, channel, &next) || next.answer != LOCKUP_MOVED) return;
    lockup_cell_of_deliver(&board->machine, next.channel, next.line, next.core, next.from, cell);
}

LOCKUP_INLINE int lockup_issued_differ(lockup_scoreboard *board, uint64_t op, const lockup_issued *wanted,
                                       const lockup_issued *came) {
    if (lockup_differ_named(board, "answer", LOCKUP_NAMES(answer), wanted->answer, came->answer)) return 1;
    if (wanted->answer == LOCKUP_STALL)
        return lockup_differ_named(board, "reason", LOCKUP_NAMES(stall), wanted->number, came->number);
    if (wanted->answer == LOCKUP_REFUSED)
        return lockup_differ_named(board, "reason", LOCKUP_NAMES(refused), wanted->number, came->number);
    return lockup_differ(board, "number", wanted->number, came->number)
        || (wanted->answer == LOCKUP_DONE && op != LOCKUP_STORE
            && lockup_differ_value(board, "reply", wanted->reply, came->reply));
}

/* Makes an access of the model, and compares the design's answer with its. */
LOCKUP_INLINE uint32_t lockup_expect_issue(lockup_scoreboard *board, uint64_t core, uint64_t tag, uint64_t op,
        uint64_t word, uint64_t operand, uint64_t replacement, const lockup_issued *answered) {
    lockup_call call = lockup_call_of(LOCKUP_CALL_ISSUE, core, tag, op, word, operand, replacement);
    uint64_t cell = LOCKUP_NO_CELL;
    uint32_t code = lockup_takes_call(board, answered);
    if (!code && board->coverage)
        lockup_cell_of_issue(&board->machine, core, tag, op, word, operand, replacement, &cell);
    if (!code) code = lockup_issue(&board->machine, core, tag, op, word, operand, replacement, &call.told.issued);
    if (code) return code;
    lockup_cover(board, cell);
    lockup_note(board, &call);
    lockup_look_at(board, "issue", core, word / 8, LOCKUP_NO_NUMBER);
    return lockup_differ_code(lockup_issued_differ(board, op, &call.told.issued, answered));
}

/* .. an eviction */
LOCKUP_INLINE uint32_t lockup_expect_evict(lockup_scoreboard *board, uint64_t core, uint64_t line, uint64_t answered) {
    lockup_call call = lockup_call_of(LOCKUP_CALL_EVICT, core, line, 0, 0, 0, 0);
    uint64_t cell = LOCKUP_NO_CELL;
    uint32_t code = lockup_takes_call(board, &answered);
    if (!code && board->coverage) lockup_cell_of_evict(&board->machine, core, line, &cell);
    if (!code) code = lockup_evict(&board->machine, core, line, &call.told.answer);
    if (code) return code;
    if (call.told.answer != LOCKUP_BUFFER_FULL) lockup_cover(board, cell);
    lockup_note(board, &call);
    lockup_look_at(board, "evict", core, line, LOCKUP_NO_NUMBER);
    return lockup_differ_code(lockup_differ_named(board, "answer", LOCKUP_NAMES(evicted), call.told.answer, answered));
}

/* .. a delivery */
LOCKUP_INLINE uint32_t lockup_expect_deliver(lockup_scoreboard *board, uint64_t channel, uint64_t line, uint64_t core,
                                             uint64_t from, uint64_t answered) {
    lockup_call call = lockup_call_of(LOCKUP_CALL_DELIVER, channel, line, core, from, 0, 0);
    uint64_t cell = LOCKUP_NO_CELL;
    uint32_t code = lockup_takes_call(board, &answered);
    if (!code && board->coverage) lockup_cell_of_deliver(&board->machine, channel, line, core, from, &cell);
    if (!code) code = lockup_deliver(&board->machine, channel, line, core, from, &call.told.answer);
    if (code) return code;
    lockup_cover(board, cell);
    lockup_note(board, &call);
    lockup_look_at(board, "deliver", channel == LOCKUP_HOME ? LOCKUP_NO_NUMBER : core, line, LOCKUP_NO_NUMBER);
    return lockup_differ_code(lockup_differ_named(board, "answer", LOCKUP_NAMES(delivered), call.told.answer, answered));
}

LOCKUP_INLINE int lockup_next_differ(lockup_scoreboard *board, const lockup_next_delivery *wanted,
                                     const lockup_next_delivery *came) {
    if (lockup_differ_named(board, "answer", LOCKUP_NAMES(delivered), wanted->answer, came->answer)) return 1;
    if (wanted->answer != LOCKUP_MOVED) return 0;
    return lockup_differ_named(board, "channel", LOCKUP_NAMES(channel), wanted->channel, came->channel)
        || lockup_differ(board, "line", wanted->line, came->line)
        || (wanted->channel != LOCKUP_HOME && lockup_differ(board, "core", wanted->core, came->core))
        || (wanted->channel == LOCKUP_ACK && lockup_differ(board, "from", wanted->from, came->from));
}

/* Keeps the design's delivery in place of a next delivery with which the model moved nothing, and why it doesn't move that:
 * where it has such a channel, and doesn't move it. */
LOCKUP_INLINE void lockup_keep_delivery(lockup_scoreboard *board, const lockup_next_delivery *came) {
    lockup_call call = lockup_call_of(LOCKUP_CALL_DELIVER, came->channel, came->line, came->core, came->from, 0, 0);
    lockup_planned planned;
    memset(&planned, 0, sizeof planned);
    if (came->answer != LOCKUP_MOVED || board->record == LOCKUP_RECORD_NONE) return;
    if (lockup_plan(&board->machine, came->channel, came->line, came->core, came->from, &planned)) return;
    if (planned.answer == LOCKUP_MOVED) return;
    call.told.answer = planned.answer;
    board->made[board->made_count - 1] = call;
}

/* .. a next delivery: for a design whose lines take turns as the model's do. Any other calls lockup_expect_deliver. */
LOCKUP_INLINE uint32_t lockup_expect_next(lockup_scoreboard *board, uint64_t slice, uint64_t channel,
                                          const lockup_next_delivery *answered) {
    lockup_call call = lockup_call_of(LOCKUP_CALL_NEXT, slice, channel, 0, 0, 0, 0);
    uint64_t cell = LOCKUP_NO_CELL;
    uint32_t code = lockup_takes_call(board, answered);
    if (!code && board->coverage) lockup_cell_of_next(board, slice, channel, &cell);
    if (!code) code = lockup_deliver_next(&board->machine, slice, channel, &call.told.next);
    if (code) return code;
    lockup_cover(board, cell);
    lockup_note(board, &call);
    if (call.told.next.answer != LOCKUP_MOVED) lockup_keep_delivery(board, answered);
    lockup_look_at(board, "next", LOCKUP_NO_NUMBER, LOCKUP_NO_NUMBER, slice);
    return lockup_differ_code(lockup_next_differ(board, &call.told.next, answered));
}

LOCKUP_INLINE int lockup_receipts_differ(lockup_scoreboard *board, uint64_t op, const lockup_receipt *wanted,
                                         const lockup_receipt *came) {
    if (lockup_differ(board, "handed", wanted->handed, came->handed)) return 1;
    if (!wanted->handed) return 0;
    return lockup_differ(board, "number", wanted->number, came->number)
        || lockup_differ(board, "tag", wanted->tag, came->tag)
        || (op != LOCKUP_STORE && lockup_differ_value(board, "reply", wanted->reply, came->reply));
}

/* .. a hand-out */
LOCKUP_INLINE uint32_t lockup_expect_hand(lockup_scoreboard *board, uint64_t core, uint64_t slice,
                                          const lockup_receipt *answered) {
    lockup_call call = lockup_call_of(LOCKUP_CALL_HAND, core, slice, 0, 0, 0, 0);
    lockup_entry entry;
    uint32_t code = lockup_takes_call(board, answered);
    if (!code) code = lockup_hand(&board->machine, core, slice, &call.told.receipt);
    if (code) return code;
    lockup_note(board, &call);
    lockup_look_at(board, "hand", core, LOCKUP_NO_NUMBER, slice);
    memset(&entry, 0, sizeof entry);
    if (call.told.receipt.handed) lockup_entry_at(&board->machine, slice, call.told.receipt.number, &entry);
    return lockup_differ_code(lockup_receipts_differ(board, entry.op, &call.told.receipt, answered));
}

/* ---- states */

LOCKUP_INLINE int lockup_copies_differ(lockup_scoreboard *board, const lockup_copy *wanted, const lockup_copy *came) {
    const uint64_t state = wanted->state;
    const int has_data = state == LOCKUP_IM_A || state == LOCKUP_SM_A;
    const int counts = has_data || state == LOCKUP_IM_AD || state == LOCKUP_SM_AD;
    const int has_block = state != LOCKUP_I && state != LOCKUP_IS_D && state != LOCKUP_IM_AD && state != LOCKUP_II_A;
    return lockup_differ_named(board, "state", LOCKUP_NAMES(copy_state), state, came->state)
        || (has_data && lockup_differ(board, "wants", wanted->wants, came->wants))
        || (counts && lockup_differ(board, "counted", wanted->counted, came->counted))
        || (has_block && lockup_differ_block(board, "block", wanted->block, came->block));
}

LOCKUP_INLINE uint32_t lockup_compare_copies(lockup_scoreboard *board, const lockup_design *design) {
    const uint64_t lines = board->config.lines;
    uint32_t code = LOCKUP_OK;
    uint64_t at;
    if (!design->copy_at) return LOCKUP_OK;
    for (at = 0; at < board->config.cores * lines && !code; at++) {
        lockup_copy wanted, came;
        memset(&wanted, 0, sizeof wanted);
        memset(&came, 0, sizeof came);
        lockup_look_at(board, "copy", at / lines, at % lines, LOCKUP_NO_NUMBER);
        code = lockup_copy_at(&board->machine, at / lines, at % lines, &wanted);
        if (!code) code = design->copy_at(design->of, at / lines, at % lines, &came);
        if (!code) code = lockup_differ_code(lockup_copies_differ(board, &wanted, &came));
    }
    return code;
}

LOCKUP_INLINE int lockup_directories_differ(lockup_scoreboard *board, const lockup_directory *wanted,
                                            const lockup_directory *came) {
    const uint64_t state = wanted->state;
    const int is_shared = state == LOCKUP_DIR_S || state == LOCKUP_DIR_S_D;
    const int is_current = state == LOCKUP_DIR_I || state == LOCKUP_DIR_S;
    return lockup_differ_named(board, "state", LOCKUP_NAMES(directory_state), state, came->state)
        || (state == LOCKUP_DIR_M && lockup_differ_named(board, "owner", LOCKUP_NAMES(core), wanted->owner, came->owner))
        || (is_shared && lockup_differ_value(board, "sharers", wanted->sharers, came->sharers))
        || (is_current && lockup_differ_block(board, "home", wanted->home, came->home));
}

LOCKUP_INLINE uint32_t lockup_compare_directories(lockup_scoreboard *board, const lockup_design *design) {
    uint32_t code = LOCKUP_OK;
    uint64_t line;
    if (!design->directory_at) return LOCKUP_OK;
    for (line = 0; line < board->config.lines && !code; line++) {
        lockup_directory wanted, came;
        memset(&wanted, 0, sizeof wanted);
        memset(&came, 0, sizeof came);
        lockup_look_at(board, "directory", LOCKUP_NO_NUMBER, line, LOCKUP_NO_NUMBER);
        code = lockup_directory_at(&board->machine, line, &wanted);
        if (!code) code = design->directory_at(design->of, line, &came);
        if (!code) code = lockup_differ_code(lockup_directories_differ(board, &wanted, &came));
    }
    return code;
}

LOCKUP_INLINE int lockup_targets_differ(lockup_scoreboard *board, const lockup_target *wanted, const lockup_target *came) {
    const uint64_t op = wanted->op;
    return lockup_differ(board, "tag", wanted->tag, came->tag)
        || lockup_differ_named(board, "op", LOCKUP_NAMES(op), op, came->op)
        || lockup_differ(board, "word", wanted->word, came->word)
        || (op != LOCKUP_LOAD && lockup_differ_value(board, "operand", wanted->operand, came->operand))
        || (op == LOCKUP_CAS && lockup_differ_value(board, "replacement", wanted->replacement, came->replacement))
        || lockup_differ(board, "seq", wanted->seq, came->seq)
        || lockup_differ(board, "since", wanted->since, came->since);
}

LOCKUP_INLINE uint32_t lockup_compare_target(lockup_scoreboard *board, const lockup_design *design, uint64_t core,
                                             uint64_t line, uint64_t nth) {
    lockup_target wanted, came;
    uint32_t code;
    memset(&wanted, 0, sizeof wanted);
    memset(&came, 0, sizeof came);
    lockup_look_at(board, "target", core, line, LOCKUP_NO_NUMBER);
    board->difference.nth = nth;
    code = lockup_target_at(&board->machine, core, line, nth, &wanted);
    if (!code) code = design->target_at(design->of, core, line, nth, &came);
    return code ? code : lockup_differ_code(lockup_targets_differ(board, &wanted, &came));
}

LOCKUP_INLINE uint32_t lockup_compare_waiting(lockup_scoreboard *board, const lockup_design *design, uint64_t core,
                                              uint64_t line) {
    uint64_t count = 0, came = 0, nth;
    uint32_t code;
    lockup_look_at(board, "targets", core, line, LOCKUP_NO_NUMBER);
    code = lockup_targets(&board->machine, core, line, &count);
    if (!code) code = design->targets(design->of, core, line, &came);
    if (!code) code = lockup_differ_code(lockup_differ(board, "count", count, came));
    if (code || came == LOCKUP_UNSEEN || !design->target_at) return code;
    for (nth = 0; nth < count && !code; nth++) code = lockup_compare_target(board, design, core, line, nth);
    return code;
}

LOCKUP_INLINE uint32_t lockup_compare_targets(lockup_scoreboard *board, const lockup_design *design) {
    const uint64_t lines = board->config.lines;
    uint32_t code = LOCKUP_OK;
    uint64_t at;
    if (!design->targets) return LOCKUP_OK;
    for (at = 0; at < board->config.cores * lines && !code; at++)
        code = lockup_compare_waiting(board, design, at / lines, at % lines);
    return code;
}

/* Finds the design's register of the line, which keeps its `line` of LOCKUP_NO_NUMBER where there is none. */
LOCKUP_INLINE uint32_t lockup_find_register(const lockup_design *design, uint64_t core, uint64_t slice, uint64_t count,
                                            uint64_t line, lockup_register *found) {
    uint32_t code = LOCKUP_OK;
    uint64_t nth;
    for (nth = 0; nth < count && !code; nth++) {
        memset(found, 0, sizeof *found);
        code = design->register_at(design->of, core, slice, nth, found);
        if (!code && found->line == line) return LOCKUP_OK;
    }
    found->line = LOCKUP_NO_NUMBER;
    return code;
}

LOCKUP_INLINE int lockup_registers_differ(lockup_scoreboard *board, const lockup_register *wanted,
                                          const lockup_register *came) {
    const int counts = wanted->kind == LOCKUP_MSG_GETM;
    if (came->line != wanted->line) return lockup_differ(board, "count", 1, 0);
    return lockup_differ_named(board, "kind", LOCKUP_NAMES(message), wanted->kind, came->kind)
        || (counts && lockup_differ_named(board, "needed", LOCKUP_NAMES(needed), wanted->needed, came->needed))
        || (counts && lockup_differ(board, "counted", wanted->counted, came->counted))
        || lockup_differ(board, "targets", wanted->targets, came->targets);
}

/* Compares the nth register of the model. The design has `count` of them. */
LOCKUP_INLINE uint32_t lockup_compare_register(lockup_scoreboard *board, const lockup_design *design, uint64_t core,
                                               uint64_t slice, uint64_t nth, uint64_t count) {
    lockup_register wanted, came;
    uint32_t code;
    memset(&wanted, 0, sizeof wanted);
    code = lockup_register_at(&board->machine, core, slice, nth, &wanted);
    lockup_look_at(board, "register", core, wanted.line, slice);
    if (!code) code = lockup_find_register(design, core, slice, count, wanted.line, &came);
    return code ? code : lockup_differ_code(lockup_registers_differ(board, &wanted, &came));
}

LOCKUP_INLINE uint32_t lockup_compare_file(lockup_scoreboard *board, const lockup_design *design, uint64_t core,
                                           uint64_t slice) {
    uint64_t count = 0, came = 0, nth;
    uint32_t code;
    lockup_look_at(board, "registers", core, LOCKUP_NO_NUMBER, slice);
    code = lockup_registers(&board->machine, core, slice, &count);
    if (!code) code = design->registers(design->of, core, slice, &came);
    if (!code) code = lockup_differ_code(lockup_differ(board, "count", count, came));
    if (code || came == LOCKUP_UNSEEN || !design->register_at) return code;
    for (nth = 0; nth < count && !code; nth++) code = lockup_compare_register(board, design, core, slice, nth, came);
    return code;
}

LOCKUP_INLINE uint32_t lockup_compare_registers(lockup_scoreboard *board, const lockup_design *design) {
    const uint64_t slices = board->config.slices;
    uint32_t code = LOCKUP_OK;
    uint64_t at;
    if (!design->registers) return LOCKUP_OK;
    for (at = 0; at < board->config.cores * slices && !code; at++)
        code = lockup_compare_file(board, design, at / slices, at % slices);
    return code;
}

/* Whether the design writes the line back. */
LOCKUP_INLINE uint32_t lockup_find_writeback(const lockup_design *design, uint64_t core, uint64_t slice, uint64_t count,
                                             uint64_t line, uint64_t *found) {
    uint32_t code = LOCKUP_OK;
    uint64_t nth;
    *found = 0;
    for (nth = 0; nth < count && !code && !*found; nth++) {
        uint64_t came = LOCKUP_NO_NUMBER;
        code = design->writeback_at(design->of, core, slice, nth, &came);
        *found = came == line;
    }
    return code;
}

LOCKUP_INLINE uint32_t lockup_compare_buffer(lockup_scoreboard *board, const lockup_design *design, uint64_t core,
                                             uint64_t slice) {
    uint64_t count = 0, came = 0, line = 0, found = 0, nth;
    uint32_t code;
    lockup_look_at(board, "writebacks", core, LOCKUP_NO_NUMBER, slice);
    code = lockup_writebacks(&board->machine, core, slice, &count);
    if (!code) code = design->writebacks(design->of, core, slice, &came);
    if (!code) code = lockup_differ_code(lockup_differ(board, "count", count, came));
    if (code || came == LOCKUP_UNSEEN || !design->writeback_at) return code;
    for (nth = 0; nth < count && !code; nth++) {
        code = lockup_writeback_at(&board->machine, core, slice, nth, &line);
        lockup_look_at(board, "writeback", core, line, slice);
        if (!code) code = lockup_find_writeback(design, core, slice, came, line, &found);
        if (!code) code = lockup_differ_code(lockup_differ(board, "count", 1, found));
    }
    return code;
}

LOCKUP_INLINE uint32_t lockup_compare_writebacks(lockup_scoreboard *board, const lockup_design *design) {
    const uint64_t slices = board->config.slices;
    uint32_t code = LOCKUP_OK;
    uint64_t at;
    if (!design->writebacks) return LOCKUP_OK;
    for (at = 0; at < board->config.cores * slices && !code; at++)
        code = lockup_compare_buffer(board, design, at / slices, at % slices);
    return code;
}

/* Compares the set of a line. */
LOCKUP_INLINE uint32_t lockup_compare_set(lockup_scoreboard *board, const lockup_design *design, uint64_t core,
                                          uint64_t line) {
    uint64_t count = 0, came_count = 0, nth;
    uint32_t code;
    lockup_look_at(board, "ways", core, line, LOCKUP_NO_NUMBER);
    code = lockup_ways(&board->machine, core, line, &count);
    if (!code) code = design->ways(design->of, core, line, &came_count);
    if (!code) code = lockup_differ_code(lockup_differ(board, "count", count, came_count));
    if (code || came_count == LOCKUP_UNSEEN || !design->way_at) return code;
    for (nth = 0; nth < count && !code; nth++) {
        uint64_t wanted = 0, came = 0;
        lockup_look_at(board, "way", core, line, LOCKUP_NO_NUMBER);
        board->difference.nth = nth;
        code = lockup_way_at(&board->machine, core, line, nth, &wanted);
        if (!code) code = design->way_at(design->of, core, line, nth, &came);
        if (!code) code = lockup_differ_code(lockup_differ(board, "line", wanted, came));
    }
    return code;
}

LOCKUP_INLINE uint32_t lockup_compare_ways(lockup_scoreboard *board, const lockup_design *design) {
    /* the first lines, one of each set of each slice */
    const uint64_t all = board->config.sets * board->config.slices;
    const uint64_t sets = all < board->config.lines ? all : board->config.lines;
    uint32_t code = LOCKUP_OK;
    uint64_t at;
    if (!design->ways) return LOCKUP_OK;
    for (at = 0; at < board->config.cores * sets && !code; at++)
        code = lockup_compare_set(board, design, at / sets, at % sets);
    return code;
}

/* Whether two messages are in the same channel of a line. */
LOCKUP_INLINE int lockup_same_channel(const lockup_message *one, const lockup_message *other) {
    return one->channel == other->channel && (one->channel == LOCKUP_HOME || one->core == other->core)
        && (one->channel != LOCKUP_ACK || one->from == other->from);
}

/* Finds the design's message in the same channel. */
LOCKUP_INLINE uint32_t lockup_find_message(const lockup_design *design, uint64_t line, uint64_t count,
                                           const lockup_message *wanted, lockup_message *came, int *found) {
    uint32_t code = LOCKUP_OK;
    uint64_t nth;
    *found = 0;
    for (nth = 0; nth < count && !code && !*found; nth++) {
        memset(came, 0, sizeof *came);
        code = design->message_at(design->of, line, nth, came);
        *found = lockup_same_channel(wanted, came);
    }
    return code;
}

LOCKUP_INLINE int lockup_messages_differ(lockup_scoreboard *board, const lockup_message *wanted,
                                         const lockup_message *came) {
    const uint64_t kind = wanted->kind;
    const int has_requester = kind == LOCKUP_MSG_FWD_GETS || kind == LOCKUP_MSG_FWD_GETM || kind == LOCKUP_MSG_INV;
    const int has_block = kind == LOCKUP_MSG_PUTM || kind == LOCKUP_MSG_DATA || kind == LOCKUP_MSG_DATA_E
        || kind == LOCKUP_MSG_HOME;
    return lockup_differ_named(board, "kind", LOCKUP_NAMES(message), kind, came->kind)
        || (has_requester
            && lockup_differ_named(board, "requester", LOCKUP_NAMES(core), wanted->requester, came->requester))
        || (kind == LOCKUP_MSG_DATA && lockup_differ(board, "acks", wanted->acks, came->acks))
        || (has_block && lockup_differ_block(board, "block", wanted->block, came->block));
}

/* Compares the nth message of the model. The design has `count` of them. */
LOCKUP_INLINE uint32_t lockup_compare_message(lockup_scoreboard *board, const lockup_design *design, uint64_t line,
                                              uint64_t nth, uint64_t count) {
    lockup_message wanted, came;
    uint32_t code;
    int found = 0;
    memset(&wanted, 0, sizeof wanted);
    code = lockup_message_at(&board->machine, line, nth, &wanted);
    lockup_look_at(board, "message", wanted.channel == LOCKUP_HOME ? LOCKUP_NO_NUMBER : wanted.core, line,
                   LOCKUP_NO_NUMBER);
    board->difference.channel = wanted.channel;
    if (wanted.channel == LOCKUP_ACK) board->difference.from = wanted.from;
    if (!code) code = lockup_find_message(design, line, count, &wanted, &came, &found);
    if (code) return code;
    if (!found) return lockup_differ_code(lockup_differ(board, "count", 1, 0));
    return lockup_differ_code(lockup_messages_differ(board, &wanted, &came));
}

LOCKUP_INLINE uint32_t lockup_compare_channels(lockup_scoreboard *board, const lockup_design *design, uint64_t line) {
    uint64_t count = 0, came = 0, nth;
    uint32_t code;
    lockup_look_at(board, "messages", LOCKUP_NO_NUMBER, line, LOCKUP_NO_NUMBER);
    code = lockup_messages(&board->machine, line, &count);
    if (!code) code = design->messages(design->of, line, &came);
    if (!code) code = lockup_differ_code(lockup_differ(board, "count", count, came));
    if (code || came == LOCKUP_UNSEEN || !design->message_at) return code;
    for (nth = 0; nth < count && !code; nth++) code = lockup_compare_message(board, design, line, nth, came);
    return code;
}

LOCKUP_INLINE uint32_t lockup_compare_messages(lockup_scoreboard *board, const lockup_design *design) {
    uint32_t code = LOCKUP_OK;
    uint64_t line;
    if (!design->messages) return LOCKUP_OK;
    for (line = 0; line < board->config.lines && !code; line++) code = lockup_compare_channels(board, design, line);
    return code;
}

/* Compares what the model has with what the design shows: copies, the directory's entries, miss registers, targets,
 * write-backs, sets, and the messages in front of channels. LOCKUP_NO_MEMORY. */
LOCKUP_INLINE uint32_t lockup_compare(lockup_scoreboard *board, const lockup_design *design) {
    uint32_t code;
    if (!board || !design) return LOCKUP_NULL;
    if (!board->machine.at) return LOCKUP_NO_MACHINE;
    if (board->difference.found) return LOCKUP_DIFFERS;
    board->difference.is_look = 1;
    code = lockup_compare_copies(board, design);
    if (!code) code = lockup_compare_directories(board, design);
    if (!code) code = lockup_compare_registers(board, design);
    if (!code) code = lockup_compare_targets(board, design);
    if (!code) code = lockup_compare_writebacks(board, design);
    if (!code) code = lockup_compare_ways(board, design);
    if (!code) code = lockup_compare_messages(board, design);
    return code;
}

/* ---- what is said of a difference, and the script */

/* A word and a number, where there is one. */
LOCKUP_INLINE const char *lockup_put_part(lockup_text *text, const char *before, const char *word, uint64_t number) {
    if (number == LOCKUP_NO_NUMBER) return before;
    lockup_put(text, before);
    lockup_put(text, word);
    lockup_put_number(text, number);
    return ", ";
}

/* What was looked at: "copy of core 1, line 0". */
LOCKUP_INLINE void lockup_put_place(lockup_text *text, const lockup_difference *it) {
    const char *before = " of ";
    lockup_put(text, it->what);
    lockup_put_part(text, " ", "", it->nth);
    if (it->channel != LOCKUP_NO_NUMBER) lockup_put(text, " ");
    if (it->channel != LOCKUP_NO_NUMBER) lockup_put(text, LOCKUP_NAME(channel, it->channel));
    before = lockup_put_part(text, before, "core ", it->core);
    before = lockup_put_part(text, before, "from core ", it->from);
    before = lockup_put_part(text, before, "line ", it->line);
    lockup_put_part(text, before, "slice ", it->slice);
}

/* A set of cores. */
LOCKUP_INLINE void lockup_put_sharers(lockup_text *text, uint64_t sharers) {
    const char *before = "core ";
    uint64_t core;
    if (!sharers) lockup_put(text, "none");
    for (core = 0; core < 64; core++)
        if (sharers >> core & 1) {
            lockup_put(text, before);
            lockup_put_number(text, core);
            before = ",";
        }
}

LOCKUP_INLINE void lockup_put_value(lockup_text *text, const lockup_difference *it, uint64_t value) {
    const char *name = it->names ? lockup_name(it->names, it->name_count, value) : "?";
    if (!strcmp(it->field, "sharers")) lockup_put_sharers(text, value);
    else if (!strcmp(name, "?")) lockup_put_number(text, value);
    else lockup_put(text, name);
}

LOCKUP_INLINE void lockup_put_difference(lockup_text *text, const lockup_scoreboard *board) {
    const lockup_difference *it = &board->difference;
    if (it->is_look) lockup_put(text, board->calls ? "after " : "before the first call");
    if (board->calls) {
        lockup_put(text, "call ");
        lockup_put_number(text, it->call);
        lockup_put(text, ", ");
        lockup_put_call(text, &board->last);
    }
    lockup_put(text, ": ");
    if (it->is_look) lockup_put_place(text, it);
    if (it->is_look) lockup_put(text, ": ");
    lockup_put(text, it->field);
    lockup_put_part(text, "[", "", it->word);
    if (it->word != LOCKUP_NO_NUMBER) lockup_put(text, "]");
    lockup_put(text, " is ");
    lockup_put_value(text, it, it->wanted);
    lockup_put(text, ", and the design's is ");
    lockup_put_value(text, it, it->came);
}

/* The first difference as a sentence: "call 17, issue 1 0 load 3: reply is 5, and the design's is 4". Where there is none
 * the text is empty. */
LOCKUP_INLINE uint32_t lockup_difference_text(const lockup_scoreboard *board, char *buffer, size_t size) {
    lockup_text text = lockup_text_in(buffer, size);
    if (!board || !buffer) return LOCKUP_NULL;
    if (board->difference.found) lockup_put_difference(&text, board);
    return lockup_put_end(&text);
}

/* A row of a script: words, and numbers after them. */
LOCKUP_INLINE void lockup_write_row(FILE *file, const char *words, const uint64_t *numbers, size_t count) {
    char row[LOCKUP_TEXT];
    lockup_text text = lockup_text_in(row, sizeof row);
    lockup_put(&text, words);
    lockup_put_numbers(&text, numbers, count);
    lockup_put(&text, "\n");
    lockup_put_end(&text);
    fputs(row, file);
}

LOCKUP_INLINE void lockup_write_settings(const lockup_config *config, FILE *file) {
    static const char *const names[] = {"cores", "slices", "lines", "sets", "ways", "mshrs", "targets", "writebacks"};
    const uint64_t *numbers = &config->cores;
    size_t at;
    for (at = 0; at < sizeof names / sizeof *names; at++) lockup_write_row(file, names[at], numbers + at, 1);
    fprintf(file, "policy ");
    lockup_write_row(file, LOCKUP_NAME(policy, config->policy), &config->seed, config->policy == LOCKUP_RANDOM);
    fprintf(file, "misses %s\nexclusive %s\n", LOCKUP_NAME(misses, config->misses), config->exclusive ? "on" : "off");
}

/* A call, and its answer if that is asked for. A next delivery is the delivery that it made, or a comment where there is
 * none. */
LOCKUP_INLINE void lockup_write_call(const lockup_call *call, FILE *file, int has_answers) {
    char row[LOCKUP_TEXT];
    lockup_text text = lockup_text_in(row, sizeof row);
    const lockup_next_delivery *next = &call->told.next;
    lockup_call made = *call;
    if (call->kind == LOCKUP_CALL_NEXT && next->answer == LOCKUP_MOVED)
        made = lockup_call_of(LOCKUP_CALL_DELIVER, next->channel, next->line, next->core, next->from, 0, 0);
    else if (call->kind == LOCKUP_CALL_NEXT)
        lockup_put(&text, "# ");
    lockup_put_call(&text, &made);
    if (has_answers) lockup_put(&text, " = ");
    if (has_answers) lockup_put_answer(&text, &made);
    lockup_put(&text, "\n");
    lockup_put_end(&text);
    fputs(row, file);
}

/* Writes the calls as a script, with `has_answers` as one of `lockup test`, which wants the answers of the model; after
 * the call that differs a comment says what the design has. LOCKUP_NOT_RECORDED where a call was made under
 * LOCKUP_RECORD_NONE; LOCKUP_NOT_WRITTEN. */
LOCKUP_INLINE uint32_t lockup_write_script(const lockup_scoreboard *board, FILE *file, int has_answers) {
    char said[LOCKUP_TEXT];
    size_t at;
    if (!board || !file) return LOCKUP_NULL;
    if (!board->machine.at) return LOCKUP_NO_MACHINE;
    if (board->has_gaps) return LOCKUP_NOT_RECORDED;
    lockup_write_settings(&board->config, file);
    for (at = 0; at < board->initial_count; at++) lockup_write_row(file, "init", &board->initial[at].word, 2);
    for (at = 0; at < board->counter_count; at++) lockup_write_row(file, "counter", &board->counters[at], 1);
    for (at = 0; at < board->made_count; at++) lockup_write_call(&board->made[at], file, has_answers);
    lockup_difference_text(board, said, sizeof said);
    if (board->difference.found) fprintf(file, "# %s\n", said);
    return fflush(file) || ferror(file) ? LOCKUP_NOT_WRITTEN : LOCKUP_OK;
}

/* Writes the LOCKUP_CELLS counts of the cells, as `lockup coverage` reads them: those that a machine can meet with the
 * exclusive state, or without it. LOCKUP_NOT_WRITTEN. */
LOCKUP_INLINE uint32_t lockup_write_coverage(const uint64_t *counts, uint64_t exclusive, FILE *file) {
    uint64_t cell;
    if (!counts || !file) return LOCKUP_NULL;
    fputs("lockup-coverage 1\n", file);
    for (cell = 0; cell < LOCKUP_CELLS; cell++)
        if (lockup_cell_is_met(cell, exclusive)) lockup_write_row(file, LOCKUP_NAME(cell, cell), counts + cell, 1);
    return fflush(file) || ferror(file) ? LOCKUP_NOT_WRITTEN : LOCKUP_OK;
}

#endif
