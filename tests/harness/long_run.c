/* Makes many requests that hit, and begins a new log behind each so many of them.
 *
 *     long_run REQUESTS EVERY     prints the most memory in use in kB, and the nanoseconds of a request and of the fastest
 *                                 of 100 copies at the end */
#include "lockup.h"
#include <inttypes.h>
#include <stdio.h>
#include <stdlib.h>
#include <sys/resource.h>
#include <time.h>

static lockup_machine machine;

static void want(int holds, const char *what) {
    if (holds) return;
    fprintf(stderr, "long_run: %s\n", what);
    exit(1);
}

static double now(void) {
    struct timespec at;
    clock_gettime(CLOCK_MONOTONIC, &at);
    return (double)at.tv_sec * 1e9 + (double)at.tv_nsec;
}

static uint64_t add(void) {
    lockup_issued issued = {0};
    want(lockup_issue(&machine, 0, 0, LOCKUP_ADD, 0, 1, 0, &issued) == LOCKUP_OK, "an add");
    return issued.answer;
}

int main(int count, char **words) {
    want(count == 3, "it takes how many requests, and behind how many a log begins");
    const uint64_t requests = strtoull(words[1], NULL, 10), every = strtoull(words[2], NULL, 10);
    lockup_config config = {0};
    lockup_next_delivery next = {0};
    lockup_receipt receipt = {0};
    lockup_word word = {0};
    uint64_t begun = 0;
    lockup_defaults(&config);
    want(lockup_make(&machine, &config) == LOCKUP_OK, "a machine");
    want(add() == LOCKUP_PENDING, "the miss");
    do lockup_deliver_next(&machine, 0, LOCKUP_ANY, &next);
    while (next.answer == LOCKUP_MOVED);
    lockup_hand(&machine, 0, 0, &receipt);
    const double from = now();
    for (uint64_t number = 1; number < requests; number++) {
        want(add() == LOCKUP_DONE, "a hit");
        if (number % every == 0) want(lockup_begin_log(&machine, 0, &begun) == LOCKUP_OK && begun, "a new log");
    }
    const double each = (now() - from) / (double)requests;
    double fastest = 1e9;
    for (int at = 0; at < 100; at++) {
        lockup_machine copy = {0};
        const double began = now();
        want(lockup_clone(&machine, &copy) == LOCKUP_OK, "a copy");
        const double took = now() - began;
        if (took < fastest) fastest = took;
        lockup_free(&copy);
    }
    want(lockup_word_at(&machine, 0, &word) == LOCKUP_OK && word.quiet && word.value == requests, "the word's value");
    struct rusage used;
    getrusage(RUSAGE_SELF, &used);
    printf("%ld %.1f %.0f\n", used.ru_maxrss, each, fastest);
    return lockup_free(&machine) != LOCKUP_OK;
}
