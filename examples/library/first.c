// The first page of include/lockup.h: one core misses, its messages are delivered, and its reply is handed out.
//
//   cc examples/library/first.c -Iinclude crates/lockup_c/out/liblockup.a -o first && ./first
//   cc first.c $(pkg-config --cflags --libs lockup) -o first && ./first            installed
#include <inttypes.h>
#include <lockup.h>
#include <stdio.h>

int main(void) {
    lockup_machine machine = {0};
    lockup_config config;
    lockup_issued issued;
    lockup_next_delivery next;
    lockup_receipt receipt;

    lockup_defaults(&config);
    if (lockup_make(&machine, &config) != LOCKUP_OK) return 1;

    if (lockup_issue(&machine, 0, 0, LOCKUP_ADD, 0, 5, 0, &issued) != LOCKUP_OK) return 1;
    printf("add: %s\n", issued.answer == LOCKUP_PENDING ? "pending" : "done");

    do {
        lockup_deliver_next(&machine, 0, LOCKUP_ANY, &next);
        if (next.answer == LOCKUP_MOVED) printf("moved: channel %" PRIu64 ", line %" PRIu64 "\n", next.channel, next.line);
    } while (next.answer == LOCKUP_MOVED);

    lockup_hand(&machine, 0, 0, &receipt);
    printf("reply: %" PRIu64 "\n", receipt.reply);

    if (lockup_issue(&machine, 0, 0, LOCKUP_LOAD, 0, 0, 0, &issued) != LOCKUP_OK) return 1;
    printf("load: %s, %" PRIu64 "\n", issued.answer == LOCKUP_DONE ? "done" : "pending", issued.reply);
    return lockup_free(&machine) != LOCKUP_OK;
}
