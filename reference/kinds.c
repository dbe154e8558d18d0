/*
 * A sequence of calls for each kind, written by hand with the answers that document 01 gives; nothing there was printed by a program first. The
 * rows stand in threads.c, pends.c, machine.c and levels.c.
 *
 * kinds --check: the core gives every answer there, stays sound, loses no post and wakes whom wakes.h says, and each table has every code that each
 * call of its kind can give; the sums of sums.h are as sides.c has them; lists of calls are answered as listed.c has them, the rows above by lists
 * too; and tables are sound or not as spoils.c has them.
 * kinds --names: the names of the tables. kinds NAME: writes that table as a call log.
 */
#include "calls.h"
#include "kinds.h"
#include "log.h"
#include "sums.h"
#include "wakes.h"

#include <stdio.h>
#include <string.h>

static const struct named_table *const tables_by_name[] = {
    &tasks_table,  &swis_table, &semaphores_table, &events_table, &mailboxes_table,
    &clocks_table, &heap_table, &switches_table,   &five_table,   &levels_table,
};

enum { NAMES = sizeof tables_by_name / sizeof tables_by_name[0] };

static unsigned times_of(const struct row *row)
{
    return row->times == 0 ? 1 : row->times % RISING;
}

static unsigned faults;

static void fault(const char *name, size_t row, const char *what)
{
    fprintf(stderr, "kinds: %s, row %zu: %s\n", name, row + 1, what);
    faults++;
}

/* The calls whose value wake_off holds to whom they wake: every post, and the mailbox pend. */
static int has_wake_value(uint32_t number)
{
    return (number >= SWI_POST && number <= SWI_CLEAR_BITS) || number == SEMAPHORE_POST || number == EVENT_POST
           || number == MAILBOX_POST || number == MAILBOX_PEND;
}

/* Answers that the call did not give: wake_off tells them. */
static int other_answers_told(const struct tables *before, const struct tables *t, const struct call *call, struct answer answer)
{
    for (uint32_t value = 0; value <= TASKS; value++) {
        const struct answer other = { answer.code, answer.outcome, value };

        if (value != answer.value && has_wake_value(call->number) && wake_off(before, t, call, other) == NULL)
            return 0;
    }
    return 1;
}

/* Tables that the call did not leave, in how one task waits or in what its wait gave: wake_off tells them. */
static int other_tables_told(const struct tables *before, const struct tables *t, const struct call *call, struct answer answer)
{
    static struct tables other;

    for (uint32_t i = 1; i < TASKS; i++) {
        struct task *task = &other.task[i];
        int is_told = 1;

        other = *t;
        if (before->task[i].mode != BLOCKED)
            continue;
        if (task->mode == BLOCKED) {
            task->mode = READY; /* readied too */
        } else {
            *task = before->task[i]; /* not readied */
            is_told = wake_off(before, &other, call, answer) != NULL;
            *task = t->task[i];
            task->value ^= 32;
        }
        if (!is_told || wake_off(before, &other, call, answer) == NULL)
            return 0;
    }
    return 1;
}

/* The call woke whom it had to and named it, and wake_off would tell if it had not. */
static const char *wake_fault(const struct tables *before, const struct tables *t, const struct call *call, struct answer answer)
{
    const char *off = wake_off(before, t, call, answer);

    if (off != NULL || answer.code != ACCEPTED || call->number == TICK)
        return off;
    if (!other_answers_told(before, t, call, answer))
        return "another value would not be told";
    return other_tables_told(before, t, call, answer) ? NULL : "another wake would not be told";
}

static void check_row(struct tables *t, struct sums *sums, const char *name, size_t number, const struct row *row)
{
    static struct tables before;
    const struct call call = { row->call, { row->a, row->b, row->c, row->d } };

    for (unsigned i = 0; i < times_of(row); i++) {
        uint32_t value = row->times > RISING ? row->value + i : row->value;
        struct answer answer;
        struct thread thread;
        const char *off;
        char text[16];

        before = *t;
        answer = core_call(t, row->call, row->a, row->b, row->c, row->d);
        thread = core_running(t);
        if (thread.kind == 'I')
            strcpy(text, "I");
        else
            snprintf(text, sizeof text, "%c%lu", thread.kind, (unsigned long)thread.number);
        if (answer.code != row->code || answer.outcome != row->outcome || answer.value != value)
            fault(name, number, "another answer");
        if (strcmp(text, row->thread) != 0)
            fault(name, number, "another thread");
        if (core_unsound(t) != NULL)
            fault(name, number, core_unsound(t));
        sums_note(sums, &call, answer);
        if (sums_off(sums, t) != NULL)
            fault(name, number, sums_off(sums, t));
        off = wake_fault(&before, t, &call, answer);
        if (off != NULL)
            fault(name, number, off);
    }
}

/* Each code that each call of the kind can give is in the table, and no other. */
static void check_codes(unsigned which)
{
    const char *name = tables_by_name[which]->name;
    uint32_t range = tables_by_name[which]->range;

    if (range > 255)
        return;
    for (uint32_t number = range; number < range + RANGE; number++) {
        const struct call_form *form = form_of(number);

        if (form == NULL)
            continue;
        for (uint32_t code = 0; code < CODES; code++) {
            size_t i = 0;

            while (i < tables_by_name[which]->rows
                   && (tables_by_name[which]->row[i].call != number || tables_by_name[which]->row[i].code != code))
                i++;
            if (can_give(form, code) != (i < tables_by_name[which]->rows)) {
                fprintf(stderr, "kinds: %s: call %02lX %s code %lu\n", name, (unsigned long)number,
                        can_give(form, code) ? "never gives" : "cannot give", (unsigned long)code);
                faults++;
            }
        }
    }
}

static void expect(int is_so, const char *what)
{
    if (!is_so) {
        fprintf(stderr, "kinds: %s\n", what);
        faults++;
    }
}

/* What no log can show. */
static void check_beside(void)
{
    static struct tables t;
    uint8_t bytes[RECORD_BYTES];
    struct log log = { bytes, RECORD_BYTES, RECORD_BYTES + 1 };
    struct record record;

    core_fresh(&t, LEVELS_LEAST);
    expect(core_call(&t, 0x100, 5, 0, 0, 0).code == UNKNOWN_CALL, "call number 256 is unknown");
    expect(core_call(&t, F, 5, 0, 0, 0).code == UNKNOWN_CALL, "call number 4,294,967,295 is unknown");
    core_call(&t, INTERRUPT_IN, 0, 0, 0, 0);
    t.tick_count = F;
    expect(core_call(&t, TICK, 0, 0, 0, 0).code == ACCEPTED && t.tick_count == 0, "the tick beyond 4,294,967,295 gives 0");
    log_write(bytes, FIRST_EDITION, TASK_CREATE, 5, 0, 0, 0);
    expect(bytes[0] == 0 && bytes[1] == 18 && bytes[2] == 1 && bytes[3] == 0 && bytes[6] == 0 && bytes[7] == 5 && bytes[8] == 0,
           "the record of create at 5");
    expect(log_next(&log, &record) == LOG_CUT && log.position == RECORD_BYTES + 1, "a position past the log is cut, there");
    log.position = 0;
    expect(log_next(&log, &record) == LOG_RECORD && record.arguments == bytes + 4 && log_argument(&record, 0) == 5 && log.position == 20,
           "the argument bytes are that part of the log");
    expect(log_next(&log, &record) == LOG_END && log.position == 20, "the end does not move the position");
}

/* Fresh tables are as they have to be for each number of levels asked for, and tables with another number are not sound. */
static void check_fresh(void)
{
    static const uint32_t asked[] = { 16, 32, 0, 1, 8, 15, 17, 24, 31, 33, 48, 64, 256 + 16, 65536 + 32, 0x80000010u, 0x80000020u, F };
    static struct tables t, least;

    core_fresh(&least, LEVELS_LEAST);
    for (size_t i = 0; i < sizeof asked / sizeof asked[0]; i++) {
        int is_number = asked[i] == 16 || asked[i] == 32;
        struct answer answer;

        memset(&t, 0xA5, sizeof t);
        answer = core_fresh(&t, asked[i]);
        expect(answer.code == (is_number ? 0 : 4) && answer.outcome == 0 && answer.value == 0, "fresh: 16 and 32 levels are accepted, others 4 0 0");
        expect(t.levels == (asked[i] == 32 ? 32 : 16), "fresh: any number but 32 makes 16 levels");
        expect(core_unsound(&t) == NULL, "fresh tables are sound");
        expect(core_running(&t).kind == 'T' && core_running(&t).number == 0, "task 0 runs in fresh tables");
        t.levels = LEVELS_LEAST;
        expect(memcmp(&t, &least, sizeof t) == 0, "fresh tables differ in nothing but the number of levels");
        t.levels = asked[i];
        expect((core_unsound(&t) == NULL) == is_number, "tables with 16 or 32 levels alone are sound");
    }
}

/* A task at 16, ready, blocked or terminated, is sound with 32 levels and not with 16. */
static void check_high_task(void)
{
    static const uint32_t ways[][2][2] = {
        { { SWITCHES_OFF, TASKS_SWITCH }, { TASK_CREATE, 16 } }, /* ready, and not the current task */
        { { TASK_CREATE, 16 }, { TASK_SLEEP, 1 } },
        { { TASK_CREATE, 16 }, { TASK_END, 0 } },
    };
    static struct tables t;

    for (size_t i = 0; i < sizeof ways / sizeof ways[0]; i++) {
        core_fresh(&t, LEVELS_MOST);
        for (unsigned k = 0; k < 2; k++)
            expect(core_call(&t, ways[i][k][0], ways[i][k][1], 0, 0, 0).code == ACCEPTED, "a call on the way to a task at 16");
        expect(core_unsound(&t) == NULL, "a task at 16 is sound with 32 levels");
        t.levels = LEVELS_LEAST;
        expect(core_unsound(&t) != NULL, "a task at 16 is not sound with 16 levels");
    }
}

enum { SECOND = RECORD_BYTES, THIRD = 2 * RECORD_BYTES, THREE = 3 * RECORD_BYTES }; /* where records begin in a log of three, and its length */

/* A log of three records with these versions. */
static struct log three_records(uint8_t bytes[THREE], uint8_t first, uint8_t second, uint8_t third)
{
    const uint8_t versions[] = { first, second, third };

    for (size_t i = 0; i < sizeof versions; i++) {
        log_write(bytes + i * RECORD_BYTES, FIRST_EDITION, TASK_CREATE, 5, 0, 0, 0);
        bytes[i * RECORD_BYTES + VERSION_AT] = versions[i];
    }
    return (struct log){ bytes, THREE, 0 };
}

/* A reader set at that position finds this there, and only a good record moves it. */
static void expect_at(struct log *log, size_t position, enum log_finding finding, const char *what)
{
    struct record record;

    log->position = position;
    expect(log_next(log, &record) == finding && log->position == position + (finding == LOG_RECORD ? RECORD_BYTES : 0), what);
}

/* The other faults come first, whatever the versions of the first record and of this one, the third. */
static void check_order(uint8_t bytes[THREE], uint8_t first, uint8_t third)
{
    struct log log = three_records(bytes, first, first, third);

    bytes[THIRD + 1] = 17;
    expect_at(&log, THIRD, LOG_LENGTH, "length before version");
    bytes[THIRD + 1] = RECORD_LENGTH;
    log.length = THREE - 1;
    expect_at(&log, THIRD, LOG_CUT, "cut before version");
    log.length = THIRD + 3;
    expect_at(&log, THIRD, LOG_CUT, "cut before version, nothing after it");
    log.length = THIRD + 1;
    expect_at(&log, THIRD, LOG_CUT, "one byte left");
    log.length = 2;
    expect(log_levels(&log) == 16, "16 levels where there is no version");
    expect_at(&log, 0, LOG_CUT, "a length alone");
}

/* The reader goes by byte 2 of the log, wherever it is set and whatever stands between. Nothing is told after the first fault. */
static void check_versions(void)
{
    uint8_t bytes[THREE];
    unsigned faults_before = faults;

    for (unsigned i = 0; i < 256 * 256 && faults == faults_before; i++) {
        uint8_t first = (uint8_t)(i / 256), third = (uint8_t)(i % 256);
        enum log_finding at_first = first == 1 || first == 2 ? LOG_RECORD : LOG_VERSION;
        enum log_finding at_third = third == first ? at_first : LOG_VERSION;

        for (uint8_t second = 0; second < 4; second++) {
            struct log log = three_records(bytes, first, second, third);

            expect(log_levels(&log) == (first == 2 ? 32 : 16), "version 2 alone means 32 levels");
            expect_at(&log, 0, at_first, "the first record");
            expect_at(&log, SECOND, second == first ? at_first : LOG_VERSION, "the second record");
            expect_at(&log, THIRD, at_third, "the third record");
            bytes[1] = 19;
            expect_at(&log, THIRD, at_third, "the third record, the first of a wrong length");
            bytes[SECOND + 1] = 0;
            bytes[SECOND + 2] = RECORD_LENGTH;
            bytes[SECOND + 3] = third;
            expect_at(&log, SECOND + 1, at_third, "a record across two others");
        }
        check_order(bytes, first, third);
    }
}

static int check(void)
{
    static struct tables t;
    struct sums sums;
    unsigned long calls = 0, sides_calls = 0, sides_lists = 0, lists = 0, calls_in_lists = 0, spoilt = 0;

    for (unsigned which = 0; which < NAMES; which++) {
        core_fresh(&t, tables_by_name[which]->levels);
        sums_fresh(&sums);
        for (size_t i = 0; i < tables_by_name[which]->rows; i++) {
            check_row(&t, &sums, tables_by_name[which]->name, i, &tables_by_name[which]->row[i]);
            calls += times_of(&tables_by_name[which]->row[i]);
        }
        check_codes(which);
    }
    check_beside();
    check_fresh();
    check_high_task();
    check_versions();
    faults += listed_check(tables_by_name, NAMES, &lists, &calls_in_lists);
    faults += spoils_check(&spoilt);
    faults += sides_check(&sides_calls, &sides_lists);
    if (faults == 0)
        printf("%lu calls answered as written by hand\n"
               "%lu calls at semaphores with both sides of their sum as worked out by hand, one by one and in %lu lists\n"
               "%lu lists answered as written by hand, with %lu calls in those accepted\n"
               "%lu tables sound or not as written by hand\n",
               calls, sides_calls, sides_lists, lists, calls_in_lists, spoilt);
    return faults == 0 ? 0 : 1;
}

static int write_log(unsigned which)
{
    for (size_t i = 0; i < tables_by_name[which]->rows; i++) {
        const struct row *row = &tables_by_name[which]->row[i];
        uint8_t bytes[RECORD_BYTES];

        log_write(bytes, log_version(tables_by_name[which]->levels), row->call, row->a, row->b, row->c, row->d);
        for (unsigned times = times_of(row); times > 0; times--)
            fwrite(bytes, 1, sizeof bytes, stdout);
    }
    return fflush(stdout) == 0 ? 0 : 2;
}

int main(int argc, char **argv)
{
    if (argc == 2 && strcmp(argv[1], "--check") == 0)
        return check();
    if (argc == 2 && strcmp(argv[1], "--names") == 0) {
        for (unsigned which = 0; which < NAMES; which++)
            puts(tables_by_name[which]->name);
        return 0;
    }
    for (unsigned which = 0; argc == 2 && which < NAMES; which++)
        if (strcmp(argv[1], tables_by_name[which]->name) == 0)
            return write_log(which);
    fprintf(stderr, "usage: kinds --check | --names | NAME\n");
    return 2;
}
