/* Plays a script from standard input through the C library, and prints what `lockup script` prints of it, but of `show`
 * neither replies nor the ring: the library doesn't show them. A call that lacks memory is made once more, and counted.
 *
 *     player [THREADS]     THREADS plays it in so many threads at once, each on a machine of its own (default: 1)
 *
 * Its status is 2 where a thread's answers differ from the first's, or a code isn't expected. It allocates nothing itself. */
#include "lockup.h"
#include <inttypes.h>
#include <pthread.h>
#include <stdarg.h>
#include <stdio.h>
#include <stdlib.h>
#include <string.h>
#include <unistd.h>

enum { MOST_TEXT = 1 << 24, MOST_WORDS = 8, MOST_INIT = 64, MOST_THREADS = 4 };

static const char *const POLICIES[] = {"lru", "fifo", "random"};
static const char *const MISSES[] = {"explicit", "inverted"};
static const char *const SETTINGS[] = {"off", "on"};
static const char *const OPS[] = {"load", "store", "add", "cas"};
static const char *const CHANNELS[] = {"req", "fwd", "data", "ack", "home"};
static const char *const STALLS[] = {"", "NoRegister", "NoTarget", "NoWay", "WriteBackFull", "WriteBackBusy"};
static const char *const REFUSALS[] = {"", "OutOfRange", "TagRange", "TagBusy", "CounterStore"};
static const char *const EVICTED[] = {"evicting", "not held", "busy", "buffer full"};
static const char *const DELIVERED[] = {"moved", "blocked", "nothing", "broken entry", "broken full", "broken early"};
static const char *const ENTRIES[] = {"I", "S", "M", "S_D"};
static const char *const MESSAGES[] = {"GetS", "GetM", "PutS", "PutM", "Fwd-GetS", "Fwd-GetM", "Inv", "Put-Ack", "Data",
                                       "Data-E", "Inv-Ack", "Data home"};
static const char *const COPIES[] = {"I", "IS_D", "IM_AD", "IM_A", "S", "SM_AD", "SM_A", "M", "MI_A", "SI_A", "II_A", "E"};

static char text[MOST_TEXT];

typedef struct {
    lockup_machine machine;
    lockup_config config;
    lockup_initial initial[MOST_INIT];
    uint64_t counters[MOST_INIT];
    size_t initial_count, counter_count;
    char *word[MOST_WORDS + 1];
    int words;
    uint64_t refused;
    char out[MOST_TEXT];
    size_t length;
} player;

static player players[MOST_THREADS];

static void fail(const char *what, uint64_t number) {
    fprintf(stderr, "player: %s %" PRIu64 "\n", what, number);
    exit(2);
}

static void say(player *it, const char *form, ...) {
    va_list values;
    va_start(values, form);
    const int count = vsnprintf(it->out + it->length, MOST_TEXT - it->length, form, values);
    va_end(values);
    if (count < 0 || it->length + (size_t)count >= MOST_TEXT) fail("too much output", it->length);
    it->length += (size_t)count;
}

/* A call, once more where it lacked memory; any other code is unexpected. */
#define CALL(it, call)                                          \
    do {                                                        \
        uint32_t code = (call);                                 \
        if (code == LOCKUP_NO_MEMORY) {                         \
            (it)->refused++;                                    \
            code = (call);                                      \
        }                                                       \
        if (code != LOCKUP_OK) fail(#call " returns", code);    \
    } while (0)

static uint64_t place_of(const char *const *names, size_t count, const char *name) {
    for (size_t at = 0; at < count; at++)
        if (strcmp(names[at], name) == 0) return at;
    fail("no such word:", count);
    return 0;
}
#define PLACE(names, name) place_of(names, sizeof names / sizeof *names, name)

static uint64_t number(const player *it, int at) {
    if (at >= it->words) fail("a word is missing:", (uint64_t)at);
    return strtoull(it->word[at], NULL, 10);
}

static void split(player *it, char *line) {
    char *rest = NULL;
    it->words = 0;
    for (char *word = strtok_r(line, " \t\r", &rest); word; word = strtok_r(NULL, " \t\r", &rest))
        if (it->words < MOST_WORDS) it->word[it->words++] = word;
}

/* Returns whether the line configures. */
static int configure(player *it) {
    static const char *const names[] = {"cores", "slices", "lines", "sets", "ways", "mshrs", "targets", "writebacks"};
    uint64_t *const fields = &it->config.cores;
    for (size_t at = 0; at < sizeof names / sizeof *names; at++)
        if (strcmp(it->word[0], names[at]) == 0) {
            fields[at] = number(it, 1);
            return 1;
        }
    if (strcmp(it->word[0], "policy") == 0) {
        it->config.policy = PLACE(POLICIES, it->word[1]);
        it->config.seed = it->config.policy == LOCKUP_RANDOM ? number(it, 2) : 0;
    } else if (strcmp(it->word[0], "misses") == 0) {
        it->config.misses = PLACE(MISSES, it->word[1]);
    } else if (strcmp(it->word[0], "exclusive") == 0) {
        it->config.exclusive = PLACE(SETTINGS, it->word[1]);
    } else if (strcmp(it->word[0], "init") == 0) {
        it->initial[it->initial_count++] = (lockup_initial){number(it, 1), number(it, 2)};
    } else if (strcmp(it->word[0], "counter") == 0) {
        it->counters[it->counter_count++] = number(it, 1);
    } else {
        return 0;
    }
    return 1;
}

static void issue(player *it) {
    const uint64_t op = PLACE(OPS, it->word[3]);
    const uint64_t operand = op == LOCKUP_LOAD ? 0 : number(it, 5), other = op == LOCKUP_CAS ? number(it, 6) : 0;
    lockup_issued issued = {0};
    CALL(it, lockup_issue(&it->machine, number(it, 1), number(it, 2), op, number(it, 4), operand, other, &issued));
    if (issued.answer == LOCKUP_DONE) say(it, "done %" PRIu64 " reply %" PRIu64 "\n", issued.number, issued.reply);
    if (issued.answer == LOCKUP_PENDING) say(it, "pending %" PRIu64 "\n", issued.number);
    if (issued.answer == LOCKUP_STALL) say(it, "stall %" PRIu64 " %s\n", issued.number, STALLS[issued.number]);
    if (issued.answer == LOCKUP_REFUSED) say(it, "refused %" PRIu64 " %s\n", issued.number, REFUSALS[issued.number]);
}

static void deliver(player *it) {
    const uint64_t channel = PLACE(CHANNELS, it->word[1]);
    const uint64_t core = channel == LOCKUP_HOME ? 0 : number(it, 3), from = channel == LOCKUP_ACK ? number(it, 4) : 0;
    uint64_t answer = 0;
    CALL(it, lockup_deliver(&it->machine, channel, number(it, 2), core, from, &answer));
    say(it, "%s\n", DELIVERED[answer]);
}

/* Asks the slices in turn, up to a round that moves nothing. */
static void pump(player *it) {
    int moved = 0, waits = 0;
    for (uint64_t calls = 0; calls < number(it, 1); calls++) {
        lockup_next_delivery next = {0};
        const uint64_t slice = calls % it->config.slices;
        CALL(it, lockup_deliver_next(&it->machine, slice, LOCKUP_ANY, &next));
        moved = (slice != 0 && moved) || next.answer == LOCKUP_MOVED;
        waits = (slice != 0 && waits) || next.answer != LOCKUP_NOTHING;
        if (slice + 1 == it->config.slices && !moved) {
            say(it, waits ? "left\n" : "empty\n");
            return;
        }
    }
    say(it, "left\n");
}

static void hand(player *it) {
    lockup_receipt receipt = {0};
    CALL(it, lockup_hand(&it->machine, number(it, 1), number(it, 2), &receipt));
    if (receipt.handed == 0) say(it, "none\n");
    else say(it, "receipt %" PRIu64 " tag %" PRIu64 " reply %" PRIu64 "\n", receipt.number, receipt.tag, receipt.reply);
}

static void show_state(player *it, uint64_t line) {
    lockup_directory entry = {0};
    CALL(it, lockup_directory_at(&it->machine, line, &entry));
    say(it, "line %" PRIu64 " dir %s owner ", line, ENTRIES[entry.state]);
    if (entry.owner == LOCKUP_NO_CORE) say(it, "- sharers ");
    else say(it, "%" PRIu64 " sharers ", entry.owner);
    int some = 0;
    for (uint64_t core = 0; core < it->config.cores; core++)
        if (entry.sharers >> core & 1) say(it, some++ ? ",%" PRIu64 : "%" PRIu64, core);
    say(it, some ? " home" : "- home");
    for (int at = 0; at < 8; at++) say(it, " %" PRIu64, entry.home[at]);
    say(it, " cores");
    for (uint64_t core = 0; core < it->config.cores; core++) {
        lockup_copy copy = {0};
        CALL(it, lockup_copy_at(&it->machine, core, line, &copy));
        say(it, " %s", COPIES[copy.state]);
    }
    say(it, "\n");
}

static void show_word(player *it) {
    lockup_word word = {0};
    CALL(it, lockup_word_at(&it->machine, number(it, 1), &word));
    if (word.quiet) say(it, "%" PRIu64 "\n", word.value);
    else say(it, "not quiet\n");
}

/* The counts of a core over all slices. */
static void show_core(player *it, uint64_t core) {
    uint64_t sums[sizeof(lockup_core_counts) / sizeof(uint64_t)] = {0};
    const size_t columns = sizeof sums / sizeof *sums;
    for (uint64_t slice = 0; slice < it->config.slices; slice++) {
        lockup_core_counts counts = {0};
        CALL(it, lockup_counts_of_core(&it->machine, core, slice, &counts));
        for (size_t at = 0; at < columns; at++) sums[at] += (&counts.hits)[at];
    }
    say(it, "%10" PRIu64, core);
    for (size_t at = 0; at + !it->config.exclusive < columns; at++) say(it, "%10" PRIu64, sums[at]);
    say(it, "\n");
}

static void show_counts(player *it) {
    lockup_message_counts sums = {0};
    say(it, "      core      hits   primary secondary    stall1    stall2    stall3    stall4    stall5     evict%s\n",
        it->config.exclusive ? "    silent" : "");
    for (uint64_t core = 0; core < it->config.cores; core++) show_core(it, core);
    for (uint64_t slice = 0; slice < it->config.slices; slice++) {
        lockup_message_counts counts = {0};
        CALL(it, lockup_counts_of_messages(&it->machine, slice, &counts));
        for (int at = 0; at < 5; at++) (&sums.req)[at] += (&counts.req)[at];
    }
    say(it, "messages req %" PRIu64 " fwd %" PRIu64 " data %" PRIu64 " ack %" PRIu64 " home %" PRIu64 "\n", sums.req,
        sums.fwd, sums.data, sums.ack, sums.home);
}

static void show_entry(player *it, const lockup_entry *entry) {
    say(it, "entry %" PRIu64 " %" PRIu64 " %" PRIu64 " %s %" PRIu64, entry->core, entry->seq, entry->tag, OPS[entry->op],
        entry->word);
    if (entry->op != LOCKUP_LOAD) say(it, " %" PRIu64, entry->operand);
    if (entry->op == LOCKUP_CAS) say(it, " %" PRIu64, entry->replacement);
    say(it, " %" PRIu64 " %" PRIu64 "\n", entry->reply, entry->since);
}

static void show_log(player *it) {
    const uint64_t slice = number(it, 1);
    uint64_t count = 0, version = it->config.cores > 16 ? 2 : 1;
    lockup_entry entry = {0};
    CALL(it, lockup_entries(&it->machine, slice, &count));
    for (uint64_t nth = 0; nth < count; nth++) {
        CALL(it, lockup_entry_at(&it->machine, slice, nth, &entry));
        if (entry.op == LOCKUP_CAS) version = 2;
    }
    say(it, "lockup-trace %" PRIu64 "\n", version);
    for (size_t at = 0; at < it->initial_count; at++)
        if (it->initial[at].word / 8 % it->config.slices == slice)
            say(it, "init %" PRIu64 " %" PRIu64 "\n", it->initial[at].word, it->initial[at].value);
    for (uint64_t nth = 0; nth < count; nth++) {
        CALL(it, lockup_entry_at(&it->machine, slice, nth, &entry));
        show_entry(it, &entry);
    }
}

/* What a delivery of the message would do, and for which state it has to wait. */
static void show_plan(player *it, const lockup_message *message) {
    lockup_planned planned = {0};
    lockup_directory entry = {0};
    lockup_copy copy = {0};
    CALL(it, lockup_plan(&it->machine, message->channel, message->line, message->core, message->from, &planned));
    CALL(it, lockup_directory_at(&it->machine, message->line, &entry));
    CALL(it, lockup_copy_at(&it->machine, message->core, message->line, &copy));
    const int to_directory = message->channel == LOCKUP_REQ || message->channel == LOCKUP_HOME;
    if (planned.answer == LOCKUP_BLOCKED)
        say(it, "blocked: %s\n", to_directory ? ENTRIES[entry.state] : COPIES[copy.state]);
    else
        say(it, "%s\n", planned.answer == LOCKUP_MOVED ? "moves" : DELIVERED[planned.answer]);
}

static void show_message(player *it, uint64_t line, uint64_t nth) {
    lockup_message message = {0};
    CALL(it, lockup_message_at(&it->machine, line, nth, &message));
    say(it, "deliver %s %" PRIu64, CHANNELS[message.channel], message.line);
    if (message.channel != LOCKUP_HOME) say(it, " %" PRIu64, message.core);
    if (message.channel == LOCKUP_ACK) say(it, " %" PRIu64, message.from);
    say(it, "   %s", MESSAGES[message.kind]);
    if (message.requester != LOCKUP_NO_CORE) say(it, " for core %" PRIu64, message.requester);
    if (message.kind == LOCKUP_MSG_DATA) say(it, "(%" PRIu64 ")", message.acks);
    say(it, "   ");
    show_plan(it, &message);
}

static void show_waiting(player *it) {
    uint64_t all = 0, count = 0;
    for (uint64_t slice = 0; slice < it->config.slices; slice++)
        for (uint64_t line = slice; line < it->config.lines; line += it->config.slices) {
            CALL(it, lockup_messages(&it->machine, line, &count));
            for (uint64_t nth = 0; nth < count; nth++) show_message(it, line, nth);
            all += count;
        }
    if (all == 0) say(it, "none\n");
}

static void show_targets(player *it, uint64_t core, uint64_t line) {
    uint64_t count = 0;
    CALL(it, lockup_targets(&it->machine, core, line, &count));
    for (uint64_t nth = 0; nth < count; nth++) {
        lockup_target target = {0};
        CALL(it, lockup_target_at(&it->machine, core, line, nth, &target));
        say(it, "core %" PRIu64 " tag %" PRIu64 " awaits %s %" PRIu64, core, target.tag, OPS[target.op], target.word);
        if (target.op != LOCKUP_LOAD) say(it, " %" PRIu64, target.operand);
        if (target.op == LOCKUP_CAS) say(it, " %" PRIu64, target.replacement);
        say(it, " seq %" PRIu64 " since %" PRIu64 "\n", target.seq, target.since);
    }
}

/* A line that some core has, or that the directory has in another state than I. */
static void show_line(player *it, uint64_t line) {
    lockup_directory entry = {0};
    lockup_copy copies[64] = {0};
    int rests;
    CALL(it, lockup_directory_at(&it->machine, line, &entry));
    rests = entry.state == LOCKUP_DIR_I;
    for (uint64_t core = 0; core < it->config.cores; core++) {
        CALL(it, lockup_copy_at(&it->machine, core, line, &copies[core]));
        rests = rests && copies[core].state == LOCKUP_I;
    }
    if (rests) return;
    show_state(it, line);
    for (uint64_t core = 0; core < it->config.cores; core++) {
        const lockup_copy *const copy = &copies[core];
        if (copy->state == LOCKUP_I) continue;
        say(it, "core %" PRIu64 " line %" PRIu64 " %s", core, line, COPIES[copy->state]);
        if (copy->counted || copy->wants) say(it, " acks %" PRIu64 " of %" PRIu64, copy->counted, copy->wants);
        say(it, " block");
        for (int at = 0; at < 8; at++) say(it, " %" PRIu64, copy->block[at]);
        say(it, "\n");
        show_targets(it, core, line);
    }
}

/* Whether a copy is being written back. */
static int leaves(const lockup_copy *copy) {
    return copy->state == LOCKUP_MI_A || copy->state == LOCKUP_SI_A || copy->state == LOCKUP_II_A;
}

/* A register is that of a copy which waits. */
static void check_register(player *it, uint64_t core, uint64_t slice, uint64_t nth) {
    lockup_register found = {0};
    lockup_copy copy = {0};
    uint64_t targets = 0;
    CALL(it, lockup_register_at(&it->machine, core, slice, nth, &found));
    CALL(it, lockup_copy_at(&it->machine, core, found.line, &copy));
    CALL(it, lockup_targets(&it->machine, core, found.line, &targets));
    const int has_data = copy.state == LOCKUP_IM_A || copy.state == LOCKUP_SM_A;
    const int reads = copy.state == LOCKUP_IS_D, awaits_data = copy.state == LOCKUP_IM_AD || copy.state == LOCKUP_SM_AD;
    if (!has_data && !reads && !awaits_data) fail("a register of state", copy.state);
    if (found.kind != (reads ? LOCKUP_MSG_GETS : LOCKUP_MSG_GETM)) fail("a register is of kind", found.kind);
    if (found.needed != (has_data ? copy.wants : reads ? 0 : LOCKUP_UNKNOWN)) fail("a register needs", found.needed);
    if (found.counted != copy.counted) fail("a register counts", found.counted);
    if (found.targets != targets || targets == 0) fail("a register has targets:", found.targets);
}

/* A line that is written back isn't in its set, and one in the set is no other's. */
static void check_lines(player *it, uint64_t core, uint64_t slice, uint64_t held) {
    uint64_t count = 0, line = 0, found = 0;
    CALL(it, lockup_writebacks(&it->machine, core, slice, &count));
    for (uint64_t nth = 0; nth < count; nth++) {
        lockup_copy copy = {0};
        CALL(it, lockup_writeback_at(&it->machine, core, slice, nth, &line));
        CALL(it, lockup_copy_at(&it->machine, core, line, &copy));
        if (!leaves(&copy)) fail("written back:", line);
    }
    for (uint64_t set = 0, most = it->config.lines / it->config.slices; set < it->config.sets && set < most; set++) {
        const uint64_t first = set * it->config.slices + slice;
        CALL(it, lockup_ways(&it->machine, core, first, &count));
        if (count > it->config.ways) fail("more lines than ways:", count);
        for (uint64_t nth = 0; nth < count; nth++) {
            CALL(it, lockup_way_at(&it->machine, core, first, nth, &found));
            if (found % it->config.slices != slice || found / it->config.slices % it->config.sets != set)
                fail("of another set:", found);
        }
        held -= count;
    }
    if (held != 0) fail("lines in no set:", held);
}

/* How many lines of a slice the core has in its array. */
static uint64_t lines_held(player *it, uint64_t core, uint64_t slice) {
    uint64_t held = 0;
    for (uint64_t line = slice; line < it->config.lines; line += it->config.slices) {
        lockup_copy copy = {0};
        CALL(it, lockup_copy_at(&it->machine, core, line, &copy));
        held += copy.state != LOCKUP_I && !leaves(&copy);
    }
    return held;
}

static void show_all(player *it) {
    for (uint64_t slice = 0; slice < it->config.slices; slice++) {
        for (uint64_t line = slice; line < it->config.lines; line += it->config.slices) show_line(it, line);
        for (uint64_t core = 0; core < it->config.cores; core++) {
            uint64_t count = 0;
            CALL(it, lockup_registers(&it->machine, core, slice, &count));
            for (uint64_t nth = 0; nth < count; nth++) check_register(it, core, slice, nth);
            check_lines(it, core, slice, lines_held(it, core, slice));
        }
    }
}

static void evict(player *it) {
    uint64_t answer = 0;
    CALL(it, lockup_evict(&it->machine, number(it, 1), number(it, 2), &answer));
    say(it, "%s\n", EVICTED[answer]);
}

static void command(player *it) {
    const char *const verb = it->word[0];
    if (strcmp(verb, "issue") == 0) issue(it);
    else if (strcmp(verb, "evict") == 0) evict(it);
    else if (strcmp(verb, "deliver") == 0) deliver(it);
    else if (strcmp(verb, "pump") == 0) pump(it);
    else if (strcmp(verb, "hand") == 0) hand(it);
    else if (strcmp(verb, "word") == 0) show_word(it);
    else if (strcmp(verb, "state") == 0) show_state(it, number(it, 1));
    else if (strcmp(verb, "stats") == 0) show_counts(it);
    else if (strcmp(verb, "log") == 0) show_log(it);
    else if (strcmp(verb, "waiting") == 0) show_waiting(it);
    else if (strcmp(verb, "show") == 0) show_all(it);
    else fail("not a command of this player, of words:", (uint64_t)it->words);
}

static void *play(void *of) {
    player *const it = of;
    int made = 0;
    char line[256];
    CALL(it, lockup_defaults(&it->config));
    for (const char *at = text; *at; at += strcspn(at, "\n") + (at[strcspn(at, "\n")] != 0)) {
        const size_t length = strcspn(at, "\n");
        if (*at == '#' || length >= sizeof line) continue;
        memcpy(line, at, length);
        line[length] = 0;
        split(it, line);
        if (it->words == 0 || (!made && configure(it))) continue;
        if (!made++)
            CALL(it, lockup_make_with(&it->machine, &it->config, it->initial, it->initial_count, it->counters,
                                      it->counter_count));
        command(it);
    }
    if (made) CALL(it, lockup_free(&it->machine));
    return NULL;
}

static void read_text(void) {
    size_t length = 0;
    for (ssize_t count; (count = read(0, text + length, sizeof text - length - 1)) > 0;) length += (size_t)count;
}

static void write_text(const char *from, size_t length) {
    for (ssize_t count; length > 0 && (count = write(1, from, length)) > 0; length -= (size_t)count) from += count;
}

int main(int count, char **words) {
    const int threads = count > 1 ? atoi(words[1]) : 1;
    pthread_t started[MOST_THREADS];
    if (threads < 1 || threads > MOST_THREADS) fail("threads:", (uint64_t)threads);
    read_text();
    for (int at = 1; at < threads; at++)
        if (pthread_create(&started[at], NULL, play, &players[at])) fail("no thread", (uint64_t)at);
    play(&players[0]);
    for (int at = 1; at < threads; at++) pthread_join(started[at], NULL);
    for (int at = 1; at < threads; at++)
        if (players[at].length != players[0].length || memcmp(players[at].out, players[0].out, players[0].length) != 0)
            fail("another answer in thread", (uint64_t)at);
    write_text(players[0].out, players[0].length);
    if (players[0].refused) fprintf(stderr, "no memory %" PRIu64 "\n", players[0].refused);
    return 0;
}
