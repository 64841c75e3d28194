/* The exports of the library, in front of the proved ones, which tools/library gives names of their own: a pointer that is
 * NULL is caught here. The proved exports take references, which are never null. */
#include "lockup.h"

/* an export of these parameters, which calls the proved one where its pointers are there */
#define EXPORT(name, parameters, holds, arguments)                          \
    extern __typeof__(lockup_##name) proved_lockup_##name;                  \
    uint32_t lockup_##name parameters {                                     \
        return (holds) ? proved_lockup_##name arguments : LOCKUP_NULL;      \
    }

EXPORT(defaults, (lockup_config *config), config, (config))
EXPORT(make, (lockup_machine *machine, const lockup_config *config), machine && config, (machine, config))

/* a list of none may be NULL */
extern __typeof__(lockup_make_with) proved_lockup_make_with;
uint32_t lockup_make_with(lockup_machine *machine, const lockup_config *config, const lockup_initial *initial,
                          size_t initial_count, const uint64_t *counters, size_t counter_count) {
    static const lockup_initial none = {0, 0};
    if (!machine || !config || (!initial && initial_count) || (!counters && counter_count)) return LOCKUP_NULL;
    return proved_lockup_make_with(machine, config, initial ? initial : &none, initial_count,
                                   counters ? counters : &none.word, counter_count);
}

EXPORT(clone, (const lockup_machine *machine, lockup_machine *copy), machine && copy, (machine, copy))
EXPORT(free, (lockup_machine *machine), machine, (machine))
EXPORT(issue,
       (lockup_machine *machine, uint64_t core, uint64_t tag, uint64_t op, uint64_t word, uint64_t operand,
        uint64_t replacement, lockup_issued *issued),
       machine && issued, (machine, core, tag, op, word, operand, replacement, issued))
EXPORT(evict,
       (lockup_machine *machine, uint64_t core, uint64_t line, uint64_t *answer),
       machine && answer, (machine, core, line, answer))
EXPORT(deliver,
       (lockup_machine *machine, uint64_t channel, uint64_t line, uint64_t core, uint64_t from, uint64_t *answer),
       machine && answer, (machine, channel, line, core, from, answer))
EXPORT(deliver_next,
       (lockup_machine *machine, uint64_t slice, uint64_t channel, lockup_next_delivery *next),
       machine && next, (machine, slice, channel, next))
EXPORT(hand,
       (lockup_machine *machine, uint64_t core, uint64_t slice, lockup_receipt *receipt),
       machine && receipt, (machine, core, slice, receipt))
EXPORT(begin_log,
       (lockup_machine *machine, uint64_t slice, uint64_t *begun),
       machine && begun, (machine, slice, begun))
EXPORT(decide,
       (const lockup_machine *machine, uint64_t core, uint64_t tag, uint64_t op, uint64_t word, uint64_t operand,
        uint64_t replacement, lockup_decision *decision),
       machine && decision, (machine, core, tag, op, word, operand, replacement, decision))
EXPORT(plan,
       (const lockup_machine *machine, uint64_t channel, uint64_t line, uint64_t core, uint64_t from,
        lockup_planned *planned),
       machine && planned, (machine, channel, line, core, from, planned))
EXPORT(cell_of_issue,
       (const lockup_machine *machine, uint64_t core, uint64_t tag, uint64_t op, uint64_t word, uint64_t operand,
        uint64_t replacement, uint64_t *cell),
       machine && cell, (machine, core, tag, op, word, operand, replacement, cell))
EXPORT(cell_of_evict,
       (const lockup_machine *machine, uint64_t core, uint64_t line, uint64_t *cell),
       machine && cell, (machine, core, line, cell))
EXPORT(cell_of_deliver,
       (const lockup_machine *machine, uint64_t channel, uint64_t line, uint64_t core, uint64_t from, uint64_t *cell),
       machine && cell, (machine, channel, line, core, from, cell))
EXPORT(next,
       (const lockup_machine *machine, uint64_t slice, uint64_t channel, lockup_next_delivery *next),
       machine && next, (machine, slice, channel, next))
EXPORT(copy_at,
       (const lockup_machine *machine, uint64_t core, uint64_t line, lockup_copy *copy),
       machine && copy, (machine, core, line, copy))
EXPORT(directory_at,
       (const lockup_machine *machine, uint64_t line, lockup_directory *directory),
       machine && directory, (machine, line, directory))
EXPORT(registers,
       (const lockup_machine *machine, uint64_t core, uint64_t slice, uint64_t *count),
       machine && count, (machine, core, slice, count))
EXPORT(register_at,
       (const lockup_machine *machine, uint64_t core, uint64_t slice, uint64_t nth, lockup_register *found),
       machine && found, (machine, core, slice, nth, found))
EXPORT(targets,
       (const lockup_machine *machine, uint64_t core, uint64_t line, uint64_t *count),
       machine && count, (machine, core, line, count))
EXPORT(target_at,
       (const lockup_machine *machine, uint64_t core, uint64_t line, uint64_t nth, lockup_target *target),
       machine && target, (machine, core, line, nth, target))
EXPORT(writebacks,
       (const lockup_machine *machine, uint64_t core, uint64_t slice, uint64_t *count),
       machine && count, (machine, core, slice, count))
EXPORT(writeback_at,
       (const lockup_machine *machine, uint64_t core, uint64_t slice, uint64_t nth, uint64_t *line),
       machine && line, (machine, core, slice, nth, line))
EXPORT(ways,
       (const lockup_machine *machine, uint64_t core, uint64_t line, uint64_t *count),
       machine && count, (machine, core, line, count))
EXPORT(way_at,
       (const lockup_machine *machine, uint64_t core, uint64_t line, uint64_t nth, uint64_t *found),
       machine && found, (machine, core, line, nth, found))
EXPORT(messages,
       (const lockup_machine *machine, uint64_t line, uint64_t *count),
       machine && count, (machine, line, count))
EXPORT(message_at,
       (const lockup_machine *machine, uint64_t line, uint64_t nth, lockup_message *message),
       machine && message, (machine, line, nth, message))
EXPORT(quiet, (const lockup_machine *machine, uint64_t *quiet), machine && quiet, (machine, quiet))
EXPORT(word_at,
       (const lockup_machine *machine, uint64_t word, lockup_word *value),
       machine && value, (machine, word, value))
EXPORT(counts_of_core,
       (const lockup_machine *machine, uint64_t core, uint64_t slice, lockup_core_counts *counts),
       machine && counts, (machine, core, slice, counts))
EXPORT(counts_of_messages,
       (const lockup_machine *machine, uint64_t slice, lockup_message_counts *counts),
       machine && counts, (machine, slice, counts))
EXPORT(entries,
       (const lockup_machine *machine, uint64_t slice, uint64_t *count),
       machine && count, (machine, slice, count))
EXPORT(entry_at,
       (const lockup_machine *machine, uint64_t slice, uint64_t nth, lockup_entry *entry),
       machine && entry, (machine, slice, nth, entry))
EXPORT(check_new, (lockup_check *check), check, (check))
EXPORT(check_begin, (lockup_check *check, uint64_t word, uint64_t value), check, (check, word, value))
EXPORT(check_entry, (lockup_check *check, const lockup_entry *entry), check && entry, (check, entry))
EXPORT(check_verdict, (const lockup_check *check, lockup_verdict *verdict), check && verdict, (check, verdict))
EXPORT(check_free, (lockup_check *check), check, (check))
EXPORT(judge_new, (lockup_judge *judge), judge, (judge))
EXPORT(judge_begin, (lockup_judge *judge, uint64_t word, uint64_t value), judge, (judge, word, value))
EXPORT(judge_access, (lockup_judge *judge, const lockup_access *access), judge && access, (judge, access))
EXPORT(judge_verdict,
       (lockup_judge *judge, uint64_t limit, lockup_judgement *judgement),
       judge && judgement, (judge, limit, judgement))
EXPORT(judge_reason,
       (const lockup_judge *judge, uint64_t nth, lockup_reason *reason),
       judge && reason, (judge, nth, reason))
EXPORT(judge_free, (lockup_judge *judge), judge, (judge))
