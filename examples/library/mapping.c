/* Bytes at addresses of 64 bits, over a machine with few lines of words.
 *
 *   cc examples/library/mapping.c -Iinclude crates/lockup_c/out/liblockup.a -o mapping && ./mapping <ACCESSES
 *
 * ACCESSES are lines CORE load ADDRESS SIZE and CORE store ADDRESS SIZE VALUE; what is loaded is printed.
 *
 * An address's line of 64 bytes is given a line of the machine when it is first asked for. Where all were given out, one
 * that no core holds is given away, and what it held is kept aside. Its block stays in the machine: each word of it differs
 * from what is meant by `shift`, modulo 2^64, which loads, stores, adds and compare-exchanges all allow. */
#include <inttypes.h>
#include <stdio.h>
#include <stdlib.h>
#include <string.h>
#include "lockup.h"

/* more lines than the caches hold, so that there is always one that no core holds */
enum { CORES = 4, LINES = 64, TAGS = 4096 };

/* 64 bytes of addresses: the line that they have, or their words put aside. Your own may search them by a hash. */
typedef struct { uint64_t tag, aside[8]; int line; } page;

static lockup_machine machine = {0};
static page pages[TAGS];
static size_t count;
static page *page_of_line[LINES];
static uint64_t shift[LINES][8];

static void expect(int holds, const char *what) {
    if (holds) return;
    fprintf(stderr, "mapping: %s\n", what);
    exit(1);
}

static page *find(uint64_t tag) {
    size_t at;
    for (at = 0; at < count; at++)
        if (pages[at].tag == tag) return &pages[at];
    expect(count < TAGS, "too many tags");
    pages[count].tag = tag;
    pages[count].line = -1;
    return &pages[count++];
}

/* Returns a line that no core holds, the one first that was given out longest ago. */
static int unheld(void) {
    static int turn;
    int tries;
    for (tries = 0; tries < LINES; tries++) {
        int line = turn++ % LINES;
        lockup_directory entry = {0};
        uint64_t messages = 0;
        expect(lockup_directory_at(&machine, (uint64_t)line, &entry) == LOCKUP_OK
               && lockup_messages(&machine, (uint64_t)line, &messages) == LOCKUP_OK, "no such line");
        if (entry.state == LOCKUP_DIR_I && messages == 0) return line;
    }
    expect(0, "each line is held");
    return 0;
}

/* Gives a line to a page, and puts aside what it held for another. */
static void give(int line, page *to) {
    lockup_directory entry = {0};
    page *before = page_of_line[line];
    int at;
    expect(lockup_directory_at(&machine, (uint64_t)line, &entry) == LOCKUP_OK, "no such line");
    for (at = 0; at < 8; at++) {
        if (before) before->aside[at] = entry.home[at] + shift[line][at];
        shift[line][at] = to->aside[at] - entry.home[at];
    }
    if (before) before->line = -1;
    page_of_line[line] = to;
    to->line = line;
}

/* Makes an access of the whole word at an address, and returns what the word had before (not of a store). */
static uint64_t access_word(uint64_t core, uint64_t op, uint64_t address, uint64_t operand, uint64_t replacement) {
    page *its = find(address >> 6);
    const uint64_t at = address >> 3 & 7;
    lockup_issued issued = {0};
    lockup_next_delivery next = {0};
    lockup_receipt receipt = {0};
    uint64_t by;
    if (its->line < 0) give(unheld(), its);
    by = shift[its->line][at];
    expect(lockup_issue(&machine, core, 0, op, 8 * (uint64_t)its->line + at, op == LOCKUP_ADD ? operand : operand - by,
                        replacement - by, &issued) == LOCKUP_OK && issued.answer <= LOCKUP_PENDING, "no such access");
    if (issued.answer == LOCKUP_DONE) return issued.reply + by;
    do expect(lockup_deliver_next(&machine, 0, LOCKUP_ANY, &next) == LOCKUP_OK, "no such slice");
    while (next.answer == LOCKUP_MOVED);
    expect(lockup_hand(&machine, core, 0, &receipt) == LOCKUP_OK && receipt.handed, "no reply");
    return receipt.reply + by;
}

/* Where 1, 2, 4 or 8 bytes are in their word, at an address that they divide. */
static uint64_t mask_of(uint64_t address, uint64_t size) {
    return (size == 8 ? UINT64_MAX : (UINT64_C(1) << 8 * size) - 1) << 8 * (address % 8);
}

/* A load, of which the bytes are a part. */
static uint64_t load(uint64_t core, uint64_t address, uint64_t size) {
    return (access_word(core, LOCKUP_LOAD, address, 0, 0) & mask_of(address, size)) >> 8 * (address % 8);
}

/* A load, and a compare-exchange that leaves the other bytes as they are. */
static void store(uint64_t core, uint64_t address, uint64_t size, uint64_t value) {
    const uint64_t mask = mask_of(address, size), bytes = value << 8 * (address % 8) & mask;
    uint64_t before, found = access_word(core, LOCKUP_LOAD, address, 0, 0);
    do {
        before = found;
        found = access_word(core, LOCKUP_CAS, address, before, (before & ~mask) | bytes);
    } while (found != before);
}

int main(void) {
    lockup_config config;
    uint64_t core, address, size, value;
    char op[8];
    expect(lockup_defaults(&config) == LOCKUP_OK, "no configuration");
    config.cores = CORES;
    config.lines = LINES;
    config.sets = config.ways = 2;
    expect(lockup_make(&machine, &config) == LOCKUP_OK, "no machine");
    while (scanf("%" SCNu64 " %7s %" SCNu64 " %" SCNu64, &core, op, &address, &size) == 4)
        if (strcmp(op, "load") == 0) printf("%" PRIu64 "\n", load(core, address, size));
        else if (scanf("%" SCNu64, &value) == 1) store(core, address, size, value);
    return lockup_free(&machine) != LOCKUP_OK;
}
