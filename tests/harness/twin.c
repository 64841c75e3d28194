/* Draws calls, makes each of a machine and of a scoreboard beside it, and compares all that both show. The machine is the
 * design; PLANT spoils what it answers or shows, from call 100 on:
 *
 *     twin SEED CALLS RECORD [none | STRUCT PLACE KEY | lost LIST | reverse LIST | uncounted LIST | all ANSWER
 *                             | moves | sharers | junk | unseen | rarely]
 *
 * STRUCT PLACE KEY adds 1 to a word of a struct whose key (its answer, state or kind) is KEY, or any where that is -1. lost
 * takes one from the count of a LIST, and reverse shows it from behind; uncounted has no count of it, and no places. all
 * adds 1 to each number of an ANSWER (issue or hand) that has a reply. moves answers a next delivery of data where there is
 * none. sharers shows core 63, of 64, as the only sharer. junk fills what has no meaning, unseen what a design may
 * not have; rarely compares states at every 60th call alone. It prints the difference, the sentence, how many calls lacked
 * memory, and the script; where COVERAGE names a file, the counts of the cells go there. A C89 program, and one of C++98. */
#include "lockup_scoreboard.h"

#define CHECK(call) check((call), #call)
#define ARRAY(it) (sizeof(it) / sizeof *(it))

static lockup_scoreboard board;
static lockup_machine machine;
static lockup_config config;
static uint64_t state;
static uint64_t now;
static const char *plant = "none", *planted = "";
static long place, key;
static int lacked;
static uint64_t counts[LOCKUP_CELLS];

static uint32_t check(uint32_t code, const char *call) {
    if (code == LOCKUP_OK || code == LOCKUP_DIFFERS || code == LOCKUP_NO_MEMORY) return code;
    fprintf(stderr, "%s returns %s\n", call, LOCKUP_NAME(code, code));
    exit(2);
}

/* A call, once more where it lacked memory. */
#define CALL(code, call) \
    do { \
        code = CHECK(call); \
        if (code == LOCKUP_NO_MEMORY) { \
            lacked++; \
            code = CHECK(call); \
        } \
        if (code == LOCKUP_NO_MEMORY) exit(3); \
    } while (0)

static uint64_t draw(uint64_t below) {
    state ^= state << 13;
    state ^= state >> 7;
    state ^= state << 17;
    return (state >> 33) % below;
}

static int is_planted(const char *kind) { return !strcmp(plant, kind); }

static int is(const char *kind, const char *what) {
    return now >= 100 && is_planted(kind) && (!what || !strcmp(planted, what));
}

/* Spoils a struct of the design, whose key stands at `at`. */
static void spoil(const char *what, void *words, int at) {
    uint64_t *const fields = (uint64_t *)words;
    if (now >= 100 && is_planted(what) && (key < 0 || fields[at] == (uint64_t)key)) fields[place]++;
}

static void spoil_count(const char *what, uint64_t *count) {
    if (is("lost", what) && *count) --*count;
    if (is("uncounted", what)) *count = LOCKUP_UNSEEN;
    spoil(what, count, 0);
}

/* ---- the design's answers */

static void answer_issue(uint64_t core, uint64_t tag, uint64_t op, uint64_t word, uint64_t operand, uint64_t other,
                         lockup_issued *it) {
    uint32_t code;
    CALL(code, lockup_issue(&machine, core, tag, op, word, operand, other, it));
    if (is("junk", NULL) && (it->answer != LOCKUP_DONE || op == LOCKUP_STORE)) it->reply = draw(9);
    if (is("unseen", NULL)) it->number = LOCKUP_UNSEEN;
    if (is("all", "issue") && it->answer == LOCKUP_DONE && op != LOCKUP_STORE) it->number++, it->reply++;
    spoil(op == LOCKUP_STORE ? "store" : "issue", it, 0);
    (void)code;
}

static void answer_next(uint64_t slice, uint64_t channel, lockup_next_delivery *it) {
    CHECK(lockup_deliver_next(&machine, slice, channel, it));
    if (is("junk", NULL) && it->answer != LOCKUP_MOVED) it->channel = it->line = it->core = it->from = 77;
    if (is("junk", NULL) && it->channel == LOCKUP_HOME) it->core = 77;
    if (is("junk", NULL) && it->channel != LOCKUP_ACK) it->from = 77;
    if (is("moves", NULL) && it->answer != LOCKUP_MOVED) {
        memset(it, 0, sizeof *it);
        it->channel = LOCKUP_DATA;
    }
    spoil("next", it, 0);
}

static void answer_hand(uint64_t core, uint64_t slice, lockup_receipt *it) {
    lockup_entry entry;
    memset(&entry, 0, sizeof entry);
    CHECK(lockup_hand(&machine, core, slice, it));
    if (it->handed) CHECK(lockup_entry_at(&machine, slice, it->number, &entry));
    if (is("junk", NULL) && !it->handed) it->number = it->tag = it->reply = 77;
    if (is("junk", NULL) && entry.op == LOCKUP_STORE) it->reply = 77;
    if (is("unseen", NULL)) it->number = LOCKUP_UNSEEN;
    if (is("all", "hand") && it->handed && entry.op != LOCKUP_STORE) it->number++, it->tag++, it->reply++;
    spoil(entry.op == LOCKUP_STORE ? "hand store" : "hand", it, 0);
}

/* ---- the design's states */

static uint32_t copy_at(void *of, uint64_t core, uint64_t line, lockup_copy *it) {
    const uint32_t code = lockup_copy_at((const lockup_machine *)of, core, line, it);
    const uint64_t is_in = it->state;
    const int data = is_in == LOCKUP_IM_A || is_in == LOCKUP_SM_A, none = is_in == LOCKUP_I || is_in == LOCKUP_II_A;
    if (is("junk", NULL) && !data) it->wants = 77;
    if (is("junk", NULL) && !data && is_in != LOCKUP_IM_AD && is_in != LOCKUP_SM_AD) it->counted = 77;
    if (is("junk", NULL) && (none || is_in == LOCKUP_IS_D || is_in == LOCKUP_IM_AD)) it->block[draw(8)] = 77;
    spoil("copy", it, 0);
    return code;
}

static uint32_t directory_at(void *of, uint64_t line, lockup_directory *it) {
    const uint32_t code = lockup_directory_at((const lockup_machine *)of, line, it);
    if (is("junk", NULL) && it->state != LOCKUP_DIR_M) it->owner = 1;
    if (is("junk", NULL) && (it->state == LOCKUP_DIR_M || it->state == LOCKUP_DIR_I)) it->sharers = 77;
    if (is("junk", NULL) && (it->state == LOCKUP_DIR_M || it->state == LOCKUP_DIR_S_D)) it->home[draw(8)] = 77;
    if (is("sharers", NULL)) it->sharers = (uint64_t)1 << 63;
    spoil("directory", it, 0);
    return code;
}

static uint64_t place_of(const char *what, uint64_t nth, uint64_t count) {
    if (is("uncounted", what)) return count;
    return is("reverse", what) ? count - 1 - nth : nth;
}

static uint32_t registers(void *of, uint64_t core, uint64_t slice, uint64_t *count) {
    const uint32_t code = lockup_registers((const lockup_machine *)of, core, slice, count);
    spoil_count("registers", count);
    return code;
}

static uint32_t register_at(void *of, uint64_t core, uint64_t slice, uint64_t nth, lockup_register *it) {
    uint64_t count = 0;
    uint32_t code = lockup_registers((const lockup_machine *)of, core, slice, &count);
    if (!code) code = lockup_register_at((const lockup_machine *)of, core, slice, place_of("registers", nth, count), it);
    if (is("junk", NULL) && it->kind == LOCKUP_MSG_GETS) it->needed = it->counted = 77;
    spoil("register", it, 1);
    return code;
}

static uint32_t targets(void *of, uint64_t core, uint64_t line, uint64_t *count) {
    const uint32_t code = lockup_targets((const lockup_machine *)of, core, line, count);
    spoil_count("targets", count);
    return code;
}

static uint32_t target_at(void *of, uint64_t core, uint64_t line, uint64_t nth, lockup_target *it) {
    uint64_t count = 0;
    uint32_t code = lockup_targets((const lockup_machine *)of, core, line, &count);
    if (!code) code = lockup_target_at((const lockup_machine *)of, core, line, place_of("targets", nth, count), it);
    if (is("junk", NULL) && it->op == LOCKUP_LOAD) it->operand = 77;
    if (is("junk", NULL) && it->op != LOCKUP_CAS) it->replacement = 77;
    if (is("unseen", NULL)) it->seq = it->since = it->tag = LOCKUP_UNSEEN;
    spoil("target", it, 1);
    return code;
}

static uint32_t writebacks(void *of, uint64_t core, uint64_t slice, uint64_t *count) {
    const uint32_t code = lockup_writebacks((const lockup_machine *)of, core, slice, count);
    spoil_count("writebacks", count);
    return code;
}

static uint32_t writeback_at(void *of, uint64_t core, uint64_t slice, uint64_t nth, uint64_t *line) {
    uint64_t count = 0;
    uint32_t code = lockup_writebacks((const lockup_machine *)of, core, slice, &count);
    if (!code) code = lockup_writeback_at((const lockup_machine *)of, core, slice, place_of("writebacks", nth, count), line);
    spoil("writeback", line, 0);
    return code;
}

static uint32_t ways(void *of, uint64_t core, uint64_t line, uint64_t *count) {
    const uint32_t code = lockup_ways((const lockup_machine *)of, core, line, count);
    spoil_count("ways", count);
    return code;
}

static uint32_t way_at(void *of, uint64_t core, uint64_t line, uint64_t nth, uint64_t *found) {
    uint64_t count = 0;
    uint32_t code = lockup_ways((const lockup_machine *)of, core, line, &count);
    if (!code) code = lockup_way_at((const lockup_machine *)of, core, line, place_of("ways", nth, count), found);
    spoil("way", found, 0);
    return code;
}

static uint32_t messages(void *of, uint64_t line, uint64_t *count) {
    const uint32_t code = lockup_messages((const lockup_machine *)of, line, count);
    spoil_count("messages", count);
    return code;
}

static uint32_t message_at(void *of, uint64_t line, uint64_t nth, lockup_message *it) {
    uint64_t count = 0;
    uint32_t code = lockup_messages((const lockup_machine *)of, line, &count);
    if (!code) code = lockup_message_at((const lockup_machine *)of, line, place_of("messages", nth, count), it);
    if (is("junk", NULL) && it->channel == LOCKUP_HOME) it->core = 77;
    if (is("junk", NULL) && it->channel != LOCKUP_ACK) it->from = 77;
    if (is("junk", NULL) && it->channel != LOCKUP_FWD) it->requester = 77;
    if (is("junk", NULL) && it->kind == LOCKUP_MSG_PUT_ACK) it->requester = 77;
    if (is("junk", NULL) && it->kind != LOCKUP_MSG_DATA) it->acks = 77;
    if (is("junk", NULL) && (it->kind < LOCKUP_MSG_PUTM || it->channel == LOCKUP_FWD || it->channel == LOCKUP_ACK))
        it->block[draw(8)] = 77;
    spoil("message", it, 4);
    return code;
}

/* ---- calls */

static uint32_t issue(void) {
    const uint64_t core = draw(config.cores), op = draw(4), low = draw(6), high = 62 + draw(4);
    const uint64_t tag = draw(9) ? low : high;
    const uint64_t inside = draw(8 * config.lines), past = 8 * config.lines + draw(9), word = draw(20) ? inside : past;
    const uint64_t operand = draw(3), other = draw(3);
    lockup_issued it;
    uint32_t code;
    memset(&it, 0, sizeof it);
    answer_issue(core, tag, op, word, operand, other, &it);
    CALL(code, lockup_expect_issue(&board, core, tag, op, word, operand, other, &it));
    return code;
}

static uint32_t evict(void) {
    const uint64_t core = draw(config.cores), line = draw(config.lines);
    uint64_t answer = 0;
    uint32_t code;
    CHECK(lockup_evict(&machine, core, line, &answer));
    spoil("evict", &answer, 0);
    CALL(code, lockup_expect_evict(&board, core, line, answer));
    return code;
}

/* Mostly of a channel with a message. */
static uint32_t deliver(void) {
    lockup_message it;
    uint64_t answer = 0, count = 0, nth;
    uint32_t code;
    memset(&it, 0, sizeof it);
    it.channel = draw(5);
    it.line = draw(config.lines);
    it.core = draw(config.cores);
    it.from = draw(config.cores);
    CHECK(lockup_messages(&machine, it.line, &count));
    nth = draw(count ? count : 1);
    if (count) CHECK(lockup_message_at(&machine, it.line, nth, &it));
    CHECK(lockup_deliver(&machine, it.channel, it.line, it.core, it.from, &answer));
    spoil("deliver", &answer, 0);
    CALL(code, lockup_expect_deliver(&board, it.channel, it.line, it.core, it.from, answer));
    return code;
}

static uint32_t next(void) {
    const uint64_t slice = draw(config.slices), one = draw(5), channel = draw(3) ? (uint64_t)LOCKUP_ANY : one;
    lockup_next_delivery it;
    uint32_t code;
    memset(&it, 0, sizeof it);
    answer_next(slice, channel, &it);
    CALL(code, lockup_expect_next(&board, slice, channel, &it));
    return code;
}

static uint32_t hand(void) {
    const uint64_t core = draw(config.cores), slice = draw(config.slices);
    lockup_receipt it;
    uint32_t code;
    memset(&it, 0, sizeof it);
    answer_hand(core, slice, &it);
    CALL(code, lockup_expect_hand(&board, core, slice, &it));
    return code;
}

static uint32_t drawn(void) {
    const uint64_t kind = draw(16);
    if (kind < 5) return issue();
    if (kind < 6) return evict();
    if (kind < 11) return deliver();
    return kind < 13 ? next() : hand();
}

/* ---- a run */

static void begin(uint64_t seed) {
    static const lockup_initial initial[] = {{3, 9}, {17, UINT64_MAX}};
    static const uint64_t counters[] = {8};
    uint32_t code;
    state = seed * 0x9E3779B9u + 1;
    CHECK(lockup_defaults(&config));
    config.cores = 2 + draw(3);
    if (is_planted("sharers")) config.cores = 64;
    config.slices = (uint64_t)1 << draw(3);
    config.lines = 4 * config.slices;
    config.sets = 1 + seed % 2;
    config.ways = 1 + draw(3);
    config.mshrs = 1 + draw(3);
    config.targets = 1 + draw(3);
    config.writebacks = 1 + draw(2);
    config.policy = seed % 3;
    config.seed = seed;
    config.misses = seed / 2 % 2;
    config.exclusive = seed / 4 % 2;
    CALL(code, lockup_make_with(&machine, &config, initial, ARRAY(initial), counters, ARRAY(counters)));
    CALL(code, lockup_scoreboard_begin(&board, &config, initial, ARRAY(initial), counters, ARRAY(counters)));
    (void)code;
}

static void say(void) {
    const lockup_difference *it = &board.difference;
    char text[LOCKUP_TEXT];
    uint32_t code;
    CHECK(lockup_difference_text(&board, text, sizeof text));
    if (it->found) printf("%s.%s %lu %lu\n", it->what, it->field, (unsigned long)it->wanted, (unsigned long)it->came);
    printf("%s\nlacked %d\n", it->found ? text : "agree", lacked);
    code = lockup_write_script(&board, stdout, 1);
    if (code) printf("%s\n", LOCKUP_NAME(code, code));
}

/* Writes the counts of the cells into a file. */
static void write_counts(const char *name) {
    FILE *const file = fopen(name, "w");
    if (!file) exit(2);
    CHECK(lockup_write_coverage(counts, config.exclusive, file));
    fclose(file);
}

int main(int count, char **words) {
    const char *const coverage = getenv("COVERAGE");
    lockup_design design;
    uint64_t calls, every;
    uint32_t code = LOCKUP_OK;
    if (count < 4) return 2;
    if (count > 4) plant = words[4];
    if (count > 5) planted = words[5];
    if (count > 6) place = atol(words[5]), key = atol(words[6]);
    memset(&design, 0, sizeof design);
    begin((uint64_t)atol(words[1]));
    design.of = &machine;
    design.copy_at = copy_at;
    design.directory_at = directory_at;
    design.registers = registers;
    design.register_at = register_at;
    design.targets = targets;
    design.target_at = target_at;
    design.writebacks = writebacks;
    design.writeback_at = writeback_at;
    design.ways = ways;
    design.way_at = way_at;
    design.messages = messages;
    design.message_at = message_at;
    calls = (uint64_t)atol(words[2]);
    board.record = atoi(words[3]);
    if (coverage) board.coverage = counts;
    every = is_planted("rarely") ? 60 : 1;
    for (now = 0; now < calls && !code; now++) {
        code = drawn();
        if (!code && now % every == 0) CALL(code, lockup_compare(&board, &design));
    }
    say();
    if (coverage) write_counts(coverage);
    CHECK(lockup_free(&machine));
    CHECK(lockup_scoreboard_end(&board));
    return code ? 1 : 0;
}
