/* Measured by bench/library: the calls of a load of slice_bench (bench/slice_bench/load.rattle, player.rattle), from C.
 *
 *     library LOAD     prints the load, how many requests were made, and the microseconds of all, as slice_bench does */
#include <lockup.h>
#include <stdio.h>
#include <stdlib.h>
#include <string.h>
#include <time.h>

typedef struct {
    const char *name;
    uint64_t cores, lines, sets, ways; /* of the machine */
    void (*play)(uint64_t cores, uint64_t lines, uint64_t requests);
    uint64_t asking, on_lines;   /* cores that ask, and the lines that they ask for */
    uint64_t requests, run;      /* how many, and how many on one machine */
} load;

static lockup_machine machine;

static void want(int holds) {
    if (!holds) exit(1);
}

static uint64_t issue(uint64_t core, uint64_t op, uint64_t word) {
    lockup_issued issued = {0};
    want(lockup_issue(&machine, core, 0, op, word, 1, 0, &issued) == LOCKUP_OK);
    want(issued.answer == LOCKUP_DONE || issued.answer == LOCKUP_PENDING);
    return issued.answer;
}

static uint64_t deliver(uint64_t channel, uint64_t line, uint64_t core) {
    uint64_t answer = 0;
    lockup_deliver(&machine, channel, line, core, 0, &answer);
    return answer;
}

static void deliver_all(void) {
    lockup_next_delivery next = {0};
    do lockup_deliver_next(&machine, 0, LOCKUP_ANY, &next);
    while (next.answer != LOCKUP_NOTHING);
}

static void hand(uint64_t core) {
    lockup_receipt receipt = {0};
    lockup_hand(&machine, core, 0, &receipt);
}

/* Core 0 fetches the lines, and then loads and adds on them, one after the other. */
static void hits(uint64_t cores, uint64_t lines, uint64_t requests) {
    uint64_t line = 0;
    (void)cores;
    for (uint64_t at = 0; at < lines; at++) {
        issue(0, LOCKUP_ADD, 8 * at);
        deliver_all();
        hand(0);
    }
    for (uint64_t number = 0; number < requests; number++) {
        want(issue(0, number & 3 ? LOCKUP_LOAD : LOCKUP_ADD, 8 * line + (number & 7)) == LOCKUP_DONE);
        line = line + 1 < lines ? line + 1 : 0;
    }
}

/* The cores add in turn to the lines, which go from one core to the next. */
static void turns(uint64_t cores, uint64_t lines, uint64_t requests) {
    uint64_t turn = 0, line = 0;
    for (uint64_t number = 0; number < requests; number++) {
        issue(turn, LOCKUP_ADD, 8 * line);
        deliver_all();
        hand(turn);
        turn = turn + 1 < cores ? turn + 1 : 0;
        if (turn == 0) line = line + 1 < lines ? line + 1 : 0;
    }
}

/* Two cores add in turn to one word; each delivery names its channel. */
static void picks(uint64_t cores, uint64_t lines, uint64_t requests) {
    (void)cores, (void)lines;
    for (uint64_t number = 0; number < requests; number++) {
        const uint64_t own = number & 1;
        issue(own, LOCKUP_ADD, 0);
        deliver(LOCKUP_REQ, 0, own);
        if (number > 0) deliver(LOCKUP_FWD, 0, own ^ 1);
        want(deliver(LOCKUP_DATA, 0, own) == LOCKUP_MOVED);
        hand(own);
    }
}

static const load LOADS[] = {
    {"hits-1-line-long", 1, 64, 16, 4, hits, 1, 1, 20000000, 1000000},
    {"hits-1-line", 1, 64, 16, 4, hits, 1, 1, 20000000, 5000},
    {"hits-32-lines", 1, 64, 16, 4, hits, 1, 32, 20000000, 5000},
    {"picks-2-cores", 2, 16, 4, 2, picks, 2, 1, 3000000, 300000},
    {"turns-2-cores", 2, 1, 4, 2, turns, 2, 1, 2000000, 200000},
    {"evictions", 1, 64, 1, 2, turns, 1, 64, 2000000, 200000},
};

static double now(void) {
    struct timespec time;
    clock_gettime(CLOCK_MONOTONIC, &time);
    return (double)time.tv_sec * 1e6 + (double)time.tv_nsec / 1e3;
}

static void measure(const load *it) {
    lockup_config config;
    const double began = now();
    for (uint64_t left = it->requests; left > 0; left -= it->run) {
        lockup_defaults(&config);
        config.cores = it->cores;
        config.lines = it->lines;
        config.sets = it->sets;
        config.ways = it->ways;
        want(lockup_make(&machine, &config) == LOCKUP_OK);
        it->play(it->asking, it->on_lines, it->run);
        want(lockup_free(&machine) == LOCKUP_OK);
    }
    printf("%s %llu %.0f\n", it->name, (unsigned long long)it->requests, now() - began);
}

int main(int count, char **words) {
    for (size_t at = 0; count == 2 && at < sizeof LOADS / sizeof *LOADS; at++)
        if (strcmp(LOADS[at].name, words[1]) == 0) {
            measure(&LOADS[at]);
            return 0;
        }
    return 2;
}
