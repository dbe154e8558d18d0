/* Counts what No. 14 brought: both sides of each line that the number of levels draws, and what is found in logs of both versions. */
#include "editions.h"
#include "log.h"
#include "states.h"

static enum level_number number_of(const struct tables *t)
{
    return t->levels == LEVELS_LEAST ? WITH_LEAST : WITH_MOST;
}

static void note(const struct tables *before, enum levelled which, int is_so)
{
    add_to(&coverage.levelled[which][number_of(before)], is_so);
}

/* A level of both numbers, or of LEVELS_MOST alone. */
static int is_low(uint32_t priority)
{
    return priority >= 1 && priority < LEVELS_LEAST;
}

static int is_high(uint32_t priority)
{
    return priority >= LEVELS_LEAST && priority < LEVELS_MOST;
}

/* A call that makes a task or sets its priority, of which no other argument is bad. */
static void note_priority(const struct tables *before, int is_made, uint32_t priority, uint32_t code)
{
    int is_done = code == ACCEPTED, is_bad = code == BAD_ARGUMENT, is_far = priority > LEVELS_MOST && priority != MINUS_ONE;

    note(before, is_made ? MADE_LOW : SET_LOW, is_done && is_low(priority));
    note(before, is_made ? MADE_HIGH : SET_HIGH, is_done && is_high(priority));
    note(before, is_made ? MADE_LAST : SET_LAST, is_done && priority == before->levels - 1);
    note(before, is_made ? MADE_HIGH_REFUSED : SET_HIGH_REFUSED, is_bad && is_high(priority));
    note(before, is_made ? MADE_PAST_LAST_REFUSED : SET_PAST_LAST_REFUSED, is_bad && priority == before->levels);
    note(before, is_made ? MADE_FAR_REFUSED : SET_FAR_REFUSED, is_bad && is_far);
}

static void note_swi_priority(const struct tables *before, uint32_t priority, uint32_t code)
{
    note(before, SWI_MADE_LAST, code == ACCEPTED && priority == SWI_LEVELS - 1);
    note(before, SWI_HIGH_REFUSED, code == BAD_ARGUMENT && is_high(priority));
    note(before, SWI_FAR_REFUSED, code == BAD_ARGUMENT && priority >= LEVELS_MOST);
}

/* Another task is the current one. */
static void note_switch(const struct tables *before, const struct tables *after)
{
    uint32_t from = before->task[before->current].priority, to = after->task[after->current].priority;

    note(before, RAN_LOW, is_low(to));
    note(before, RAN_HIGH, is_high(to));
    note(before, RAN_LAST, to == before->levels - 1);
    note(before, RAN_LOW_AFTER_HIGH, is_high(from) && !is_high(to));
    note(before, RAN_HIGH_AFTER_LOW, !is_high(from) && is_high(to));
}

/* Who stands behind the current task in the line by priority that it joined. */
static void note_joined(const struct tables *before, const struct tables *after, uint32_t semaphore)
{
    uint32_t behind = after->link[before->current].next;
    int is_before_another = before->semaphore[semaphore].kind >= COUNTING_BY_PRIORITY && is_high(before->task[before->current].priority)
                            && behind < TASKS;

    note(before, JOINED_HIGH_BEFORE_LOW, is_before_another && is_low(after->task[behind].priority));
    note(before, JOINED_HIGH_BEFORE_HIGH, is_before_another && is_high(after->task[behind].priority));
}

static void note_readied(const struct tables *before, const struct tables *after)
{
    for (uint32_t i = 0; i < TASKS; i++)
        note(before, READIED_HIGH, before->task[i].mode == BLOCKED && after->task[i].mode == READY && is_high(after->task[i].priority));
}

void levels_note(const struct tables *before, const struct tables *after, const struct call *call, struct answer answer)
{
    const uint32_t *a = call->argument;
    uint32_t number = call->number, queues = (uint32_t)__builtin_popcount(after->ready_levels);
    uint32_t *most_queues = &coverage.most_queues[number_of(before)];

    if (number == TASK_CREATE && (a[1] | a[2] | a[3]) == 0)
        note_priority(before, 1, a[0], answer.code);
    if (number == TASK_SET_PRIORITY && (a[2] | a[3]) == 0)
        note_priority(before, 0, a[1], answer.code);
    if (number == SWI_CREATE && (a[2] | a[3]) == 0)
        note_swi_priority(before, a[0], answer.code);
    if (answer.code != ACCEPTED)
        return;
    if (queues > *most_queues)
        *most_queues = queues;
    if (before->current != after->current)
        note_switch(before, after);
    if (number == TASK_YIELD)
        note(before, YIELDED_HIGH, before->current != after->current && is_high(before->task[before->current].priority));
    if (number == SEMAPHORE_PEND && answer.outcome == NOW_WAITING)
        note_joined(before, after, a[0]);
    if (number == TICK)
        note_readied(before, after);
}

static int is_edition(uint8_t version)
{
    return version == FIRST_EDITION || version == SECOND_EDITION;
}

/* A whole record, or part of one, whose version stands there and is not that of the log. */
static int has_other_version(const struct log *log)
{
    return log->length - log->position > VERSION_AT
           && (!is_edition(log->bytes[log->position + VERSION_AT]) || log->bytes[log->position + VERSION_AT] != log->bytes[VERSION_AT]);
}

static enum found version_found(uint8_t first, uint8_t version)
{
    if (!is_edition(first))
        return NEITHER_AT_FIRST_RECORD;
    if (first == FIRST_EDITION)
        return version == SECOND_EDITION ? SECOND_IN_FIRST : NEITHER_IN_FIRST;
    return version == FIRST_EDITION ? FIRST_IN_SECOND : NEITHER_IN_SECOND;
}

void faults_note(const uint8_t *bytes, size_t length)
{
    struct log log = { bytes, length, 0 };
    struct record record;
    enum log_finding finding;

    while ((finding = log_next(&log, &record)) == LOG_RECORD)
        ;
    switch (finding) {
    case LOG_CUT:
        coverage.found[length - log.position == 1 ? CUT_AT_ONE_BYTE : has_other_version(&log) ? CUT_SHORT_OTHER_VERSION : CUT_SHORT]++;
        break;
    case LOG_LENGTH:
        coverage.found[has_other_version(&log) ? LENGTH_WRONG_OTHER_VERSION : LENGTH_WRONG]++;
        break;
    case LOG_VERSION:
        coverage.found[version_found(bytes[VERSION_AT], bytes[log.position + VERSION_AT])]++;
        break;
    default:
        if (length != 0)
            coverage.found[bytes[VERSION_AT] == SECOND_EDITION ? SECOND_READ_TO_END : FIRST_READ_TO_END]++;
        break;
    }
}
