/* Counts what a run of calls reached: the codes of each call, and the deep states. */
#include "coverage.h"
#include "editions.h"
#include "objects.h"
#include "states.h"

#include <string.h>

/* Of each table, the set of the numbers that were in use at some time since the tables were fresh. */
static uint32_t made[CLOCK_TABLE + 1];

/* Of each place of a post, the set of those where a wait that a post could have ended has expired since the last post. */
static uint32_t expired_at[POST_PLACES];

/* Of each task that waits at a semaphore, the call with which it came. */
static unsigned long came[TASKS];

void coverage_fresh(uint32_t levels)
{
    memset(made, 0, sizeof made);
    memset(expired_at, 0, sizeof expired_at);
    coverage.logs++;
    coverage.logs_with[levels == LEVELS_LEAST ? WITH_LEAST : WITH_MOST]++;
}

static void at_least(enum most which, uint32_t number)
{
    if (number > coverage.most[which])
        coverage.most[which] = number;
}

static void note(enum happened which, int is_so)
{
    add_to(&coverage.count[which], is_so);
}

static enum order order_of(uint32_t kind)
{
    return kind == COUNTING ? BY_ARRIVAL : BY_PRIORITY;
}

/* At a semaphore of that kind; binary ones have no sum. */
static void note_counted(enum counted which, uint32_t kind, int is_so)
{
    if (is_so && is_counting(kind))
        coverage.counted[which][order_of(kind)]++;
}

static void sum_at_least(uint64_t most[ORDERS], uint32_t kind, uint64_t number)
{
    if (is_counting(kind) && number > most[order_of(kind)])
        most[order_of(kind)] = number;
}

static uint32_t size_of(uint32_t set)
{
    return (uint32_t)__builtin_popcount(set);
}

static uint32_t line_length(const struct tables *t, uint32_t head)
{
    uint32_t length = 0;

    for (uint32_t place = t->link[head].next; place != head; place = t->link[place].next)
        length++;
    return length;
}

static int is_taken(const struct tables *t, uint32_t unit)
{
    return (t->heap_taken[unit / 64] >> unit % 64 & 1) != 0;
}

/* How long lines and queues are. */
static void note_lines(const struct tables *t)
{
    for (uint32_t i = 0; i < SEMAPHORES; i++)
        at_least(t->semaphore[i].kind >= COUNTING_BY_PRIORITY ? PRIORITY_LINE : ARRIVAL_LINE, line_length(t, HEAD_OF_SEMAPHORE + i));
    for (uint32_t i = 0; i < MAILBOXES; i++) {
        uint32_t length = line_length(t, HEAD_OF_MAILBOX + i);

        if (length > 0)
            at_least(t->mailbox[i].count == 0 ? READER_LINE : WRITER_LINE, length);
        at_least(MOST_MESSAGES, t->mailbox[i].count);
    }
    for (uint32_t i = 0; i < LEVELS_MOST; i++)
        at_least(READY_IN_ONE_QUEUE, line_length(t, HEAD_OF_READY + i));
    for (uint32_t i = 0; i < SWI_LEVELS; i++)
        at_least(POSTED_IN_ONE_QUEUE, line_length(t, HEAD_OF_POSTED + i));
}

static void note_units(const struct tables *t)
{
    uint32_t units = 0, runs = 0;

    for (uint32_t i = 0; i < UNITS; i++) {
        units += (uint32_t)is_taken(t, i);
        runs += !is_taken(t, i) && (i == 0 || is_taken(t, i - 1));
    }
    at_least(UNITS_TAKEN, units);
    at_least(FREE_RUNS, runs);
}

static void note_sizes(const struct tables *t)
{
    uint32_t events = 0, sleepers = 0;

    note_lines(t);
    note_units(t);
    for (uint32_t i = 0; i < EVENTS; i++)
        events += t->event[i].waiter != 0;
    for (uint32_t i = 0; i < TASKS; i++)
        sleepers += t->task[i].wait == SLEEPING;
    at_least(EVENT_WAITERS, events);
    at_least(SLEEPERS, sleepers);
    at_least(LIMITED_WAITS, size_of(t->tasks_limited));
    at_least(DEPTH, t->depth);
    at_least(ACTIVE_SWIS, t->active_count);
    at_least(POSTED_SWIS, size_of(t->swis_posted));
    at_least(RUNNING_CLOCKS, size_of(t->clocks_running));
    at_least(MOST_TASKS, size_of(t->tasks_in_use));
    at_least(MOST_SWIS, size_of(t->swis_in_use));
    at_least(MOST_SEMAPHORES, size_of(t->semaphores_in_use));
    at_least(MOST_EVENTS, size_of(t->events_in_use));
    at_least(MOST_MAILBOXES, size_of(t->mailboxes_in_use));
    at_least(MOST_CLOCKS, size_of(t->clocks_in_use));
    note(BOTH_OFF, !t->swis_on && !t->tasks_on);
    if (t->depth == 0 && t->active_count == 0) {
        uint32_t highest = 31u - (uint32_t)__builtin_clz(t->ready_levels);

        note(CURRENT_NOT_IN_FRONT, t->link[HEAD_OF_READY + highest].next != t->current);
    }
}

/* A wait or sleep that a tick ended. */
static void note_ended(const struct tables *before, uint32_t number)
{
    const struct task *was = &before->task[number];
    uint32_t in_front = before->link[number].before, behind = before->link[number].next;

    switch (was->wait) {
    case SLEEPING:
        note(SLEEP_ENDED, 1);
        break;
    case AT_SEMAPHORE:
        note(EXPIRED_SEMAPHORE, 1);
        expired_at[SEMAPHORE_PLACE] |= (uint32_t)1 << was->object;
        note_counted(WAIT_EXPIRED, before->semaphore[was->object].kind, 1);
        break;
    case AT_EVENT:
        note(EXPIRED_EVENT, 1);
        expired_at[EVENT_PLACE] |= (uint32_t)1 << was->object;
        break;
    case AT_MAILBOX_READING:
        note(EXPIRED_READER, 1);
        expired_at[MAILBOX_PLACE] |= (uint32_t)1 << was->object;
        break;
    default:
        note(EXPIRED_WRITER, 1);
        break;
    }
    note(EXPIRED_INSIDE_LINE, was->wait != SLEEPING && was->wait != AT_EVENT && in_front < TASKS && behind < TASKS);
}

static void note_tick(const struct tables *before, const struct tables *after)
{
    uint32_t ended = 0;

    for (uint32_t i = 0; i < TASKS; i++)
        if (before->task[i].mode == BLOCKED && after->task[i].mode != BLOCKED) {
            ended++;
            note_ended(before, i);
        }
    at_least(WAITS_ENDED_BY_ONE_TICK, ended);
    at_least(SWIS_POSTED_BY_ONE_TICK, size_of(after->swis_posted & ~before->swis_posted));
    for (uint32_t i = 0; i < CLOCKS; i++) {
        if ((before->clocks_running >> i & 1) == 0 || before->clock[i].ticks_left != 1)
            continue;
        note(CLOCK_STOPPED_ITSELF, before->clock[i].period == 0);
        note(CLOCK_WENT_ROUND, before->clock[i].period != 0);
    }
}

static void note_wait_begun(const struct tables *before, const struct tables *after, uint32_t semaphore)
{
    uint32_t head = HEAD_OF_SEMAPHORE + semaphore, place = before->link[head].next;
    int is_disordered = 0;

    came[before->current] = coverage.calls;
    if (before->semaphore[semaphore].kind < COUNTING_BY_PRIORITY)
        return;
    note(JOINED_INSIDE_LINE, after->link[before->current].next != head);
    for (; place != head && before->link[place].next != head; place = before->link[place].next)
        is_disordered |= before->task[place].priority < before->task[before->link[place].next].priority;
    note(JOINED_DISORDERED_LINE, is_disordered);
}

static void forget_expired(enum place place, uint32_t number)
{
    expired_at[place] &= ~((uint32_t)1 << number);
}

/* Of an accepted post, by the task that its value names. */
static void note_woke(enum place place, const struct tables *before, const struct tables *after, const struct call *call,
                      struct answer answer)
{
    struct tally (*tally)[POST_PLACES] = coverage.woke;
    struct thread thread = core_running(after);
    uint32_t number = call->argument[0];
    int woke_one = answer.value != 0, nobody = answer.value == 0 && answer.outcome == DONE;
    int has_expired = (expired_at[place] >> number & 1) != 0;

    add_to(&tally[WOKE_OTHER][place], woke_one && answer.value != 1);
    add_to(&tally[WOKE_LAST_NUMBER][place], answer.value == TASKS - 1);
    add_to(&tally[WOKE_BY_TASK][place], woke_one && before->depth == 0 && before->active_count == 0);
    add_to(&tally[WOKE_BY_SWI][place], woke_one && before->depth == 0 && before->active_count != 0);
    add_to(&tally[WOKE_BY_INTERRUPT][place], woke_one && before->depth != 0);
    add_to(&tally[WOKE_FOR_LATER][place], woke_one && (thread.kind != 'T' || thread.number != answer.value));
    add_to(&tally[WOKE_AFTER_EXPIRY][place], woke_one && has_expired);
    add_to(&tally[WOKE_NOBODY][place], nobody);
    add_to(&tally[NOBODY_AFTER_EXPIRY][place], nobody && has_expired);
    forget_expired(place, number);
}

/* Of a semaphore's post that woke a task. */
static void note_later_served(const struct tables *before, uint32_t semaphore, uint32_t woken)
{
    int is_later = 0;

    for (uint32_t i = 0; i < TASKS; i++)
        is_later |= before->task[i].wait == AT_SEMAPHORE && before->task[i].object == semaphore && came[i] < came[woken];
    note(LATER_WAITER_SERVED, is_later);
}

static void note_event_served(uint32_t posted, uint32_t and_mask, uint32_t or_mask)
{
    int by_and = and_mask != 0 && (posted & and_mask) == and_mask, by_or = (posted & or_mask) != 0;

    note(EVENT_SERVED_WHOLE_AND, by_and && !by_or);
    note(EVENT_SERVED_OR_ONLY, by_or && !by_and && and_mask != 0);
    note(EVENT_SERVED_BOTH, by_and && by_or);
    note(EVENT_BITS_LEFT, (posted & ~((by_and ? and_mask : 0) | or_mask)) != 0);
}

static void note_swi_post(const struct tables *before, const struct call *call)
{
    uint32_t number = call->argument[0];
    const struct swi *swi = &before->swi[number];
    int is_active = 0;

    for (uint32_t i = 0; i < before->active_count; i++)
        is_active |= before->active[i] == number;
    note(POSTED_WHILE_ACTIVE, is_active && call->number == SWI_POST);
    note(POSTED_AGAIN, (before->swis_posted >> number & 1) != 0);
    note(ROUND_UP, call->number == SWI_ADD_ONE && swi->trigger == 4294967295u);
    note(ROUND_DOWN, call->number == SWI_TAKE_ONE && swi->trigger == 0);
    note(TAKEN_TO_ZERO, call->number == SWI_TAKE_ONE && swi->trigger == 1);
    note(CLEARED_AT_ZERO, call->number == SWI_CLEAR_BITS && swi->trigger == 0);
    note(EQUAL_SWI_WAITED, before->depth == 0 && before->swis_on && before->active_count != 0 && call->number == SWI_POST
                               && swi->priority == before->swi[before->active[before->active_count - 1]].priority);
}

static void note_set_priority(const struct tables *before, const struct tables *after, const struct call *call)
{
    uint32_t number = call->argument[0];
    const struct task *task = &before->task[number];

    note(SAME_PRIORITY, task->priority == call->argument[1]);
    if (task->priority == call->argument[1])
        return;
    note(WAITER_PRIORITY_SET, task->mode == BLOCKED && task->wait == AT_SEMAPHORE
                                  && before->semaphore[task->object].kind >= COUNTING_BY_PRIORITY);
    note(READY_PRIORITY_SET, task->mode == READY);
    note(CURRENT_PRIORITY_SET_BY_SWI, number == before->current && before->active_count != 0);
    note(CURRENT_LOWERED_ITSELF_AWAY, number == before->current && before->active_count == 0 && after->current != number);
    note(MADE_INACTIVE, after->task[number].mode == INACTIVE);
    note(MADE_READY_AGAIN, task->mode == INACTIVE);
}

static void note_heap(const struct tables *before, const struct tables *after, const struct call *call, struct answer answer)
{
    uint32_t free_units = 0, first, unit, last = UNITS;

    for (unit = 0; unit < UNITS; unit++)
        free_units += !is_taken(before, unit);
    if (call->number == HEAP_TAKE) {
        note(ROOM_BUT_NO_RUN, answer.code == NO_HEAP_ROOM && free_units * UNIT_BYTES >= call->argument[0]);
        if (answer.code == ACCEPTED)
            for (unit = 0; unit < answer.value / UNIT_BYTES; unit++)
                if (!is_taken(before, unit)) {
                    note(HOLE_USED, 1);
                    return;
                }
        return;
    }
    if (answer.code != ACCEPTED)
        return;
    first = call->argument[0] / UNIT_BYTES;
    for (unit = first; unit < UNITS && is_taken(before, unit) && !is_taken(after, unit); unit++)
        last = unit;
    note(HOLE_CLOSED, first > 0 && !is_taken(before, first - 1) && last + 1 < UNITS && !is_taken(before, last + 1));
}

/* Of a call that takes an object number. */
static void note_object(const struct tables *before, const struct call_form *form, const struct call *call, uint32_t code)
{
    uint32_t table = table_of(form), size = table_size(table), number = call->argument[0];
    int is_there = number < size && (table_in_use(before, table) >> number & 1) != 0, is_spoilt = 0;

    for (unsigned i = 1; i < 4; i++)
        is_spoilt |= form->argument[i] == NULL && call->argument[i] != 0;
    note(CONTEXT_BEFORE_OBJECT, code == WRONG_CONTEXT && !is_there);
    note(OBJECT_BEFORE_ARGUMENT, (code == OUTSIDE_TABLE || code == OBJECT_NOT_IN_USE) && is_spoilt);
    note(ONE_PAST_TABLE, code == OUTSIDE_TABLE && number == size);
    note(FAR_OUTSIDE_TABLE, code == OUTSIDE_TABLE && number == 4294967295u);
    if (code != OBJECT_NOT_IN_USE)
        return;
    note(LAST_NUMBER_FREE, number == size - 1);
    note(NEVER_MADE, (made[table] >> number & 1) == 0);
    note(DELETED, (made[table] >> number & 1) != 0);
}

/* A pend, accepted or not, and a post: what they add to a sum. */
static void note_pend(const struct sum *sum, struct answer answer)
{
    uint32_t is_accepted = answer.code == ACCEPTED, at_once = is_accepted && answer.outcome == DONE;

    note_counted(TAKEN_AT_ONCE, sum->kind, at_once != 0);
    note_counted(PEND_NOT_MET, sum->kind, is_accepted && answer.outcome == NOT_MET);
    note_counted(WAIT_BEGUN, sum->kind, is_accepted && answer.outcome == NOW_WAITING);
    note_counted(PEND_REFUSED, sum->kind, !is_accepted);
    sum_at_least(coverage.most_taken, sum->kind, sum->taken + at_once);
}

static void note_post(const struct sum *sum, struct answer answer)
{
    uint32_t is_accepted = answer.code == ACCEPTED, readied = is_accepted && answer.value != 0;

    note_counted(TAKEN_BY_WAITER, sum->kind, readied != 0);
    note_counted(COUNTED_UP, sum->kind, is_accepted && !readied);
    note_counted(POST_REFUSED_AT_MOST, sum->kind, answer.code == AT_ITS_END);
    note_counted(POST_REFUSED_ELSE, sum->kind, !is_accepted && answer.code != AT_ITS_END);
    sum_at_least(coverage.most_posts, sum->kind, sum->posts + is_accepted);
    sum_at_least(coverage.most_taken, sum->kind, sum->taken + readied);
}

/* Of a call on a semaphore that is there, by the sums before it. */
static void note_sums(const struct sums *sums, const struct call *call, struct answer answer)
{
    uint32_t number = call->argument[0];
    const struct sum *sum;

    if (number >= SEMAPHORES || !sums->semaphore[number].is_created)
        return;
    sum = &sums->semaphore[number];
    switch (call->number) {
    case SEMAPHORE_PEND:
        note_pend(sum, answer);
        break;
    case SEMAPHORE_POST:
        note_post(sum, answer);
        break;
    case SEMAPHORE_RESET:
        note_counted(RESET_REFUSED, sum->kind, answer.code == STATE_FORBIDS);
        note_counted(RESET_AFTER_POSTS, sum->kind, answer.code == ACCEPTED && sum->posts != 0);
        break;
    case SEMAPHORE_DELETE:
        note_counted(DELETED_AFTER_POSTS, sum->kind, answer.code == ACCEPTED && sum->posts != 0);
        break;
    default:
        break;
    }
}

static enum context context_of(const struct tables *t)
{
    return t->depth != 0 ? FROM_INTERRUPT : t->active_count != 0 ? FROM_SWI : FROM_TASK;
}

static uint32_t switches_on(const struct tables *t)
{
    return t->swis_on * SWIS_SWITCH | t->tasks_on * TASKS_SWITCH;
}

/* An accepted or refused call 77 or 78, by its context and its arguments. */
static void note_switches(const struct tables *before, const struct call *call, uint32_t code)
{
    struct tally (*tally)[SWITCH_CALLS] = coverage.switched;
    enum switch_call place = call->number == SWITCHES_OFF ? CALL_OFF : CALL_RESTORE;
    enum context context = context_of(before);
    uint32_t which = call->argument[0], key = place == CALL_OFF ? 0 : call->argument[1];
    int is_unused_bad = ((place == CALL_OFF ? call->argument[1] : 0) | call->argument[2] | call->argument[3]) != 0;
    int is_named_badly = which < SWIS_SWITCH || which > BOTH_SWITCHES, is_other_bad = is_unused_bad || (key & ~which) != 0;
    int is_done = code == ACCEPTED, is_bad = code == BAD_ARGUMENT;
    int is_swi_refused = code == WRONG_CONTEXT && context == FROM_SWI;
    int is_interrupt_refused = code == WRONG_CONTEXT && context == FROM_INTERRUPT;

    add_to(&tally[SWITCHED_BY_TASK][place], is_done && context == FROM_TASK);
    add_to(&tally[SWITCHED_BY_SWI][place], is_done && context == FROM_SWI);
    add_to(&tally[SWITCHED_SWIS][place], is_done && which == SWIS_SWITCH);
    add_to(&tally[SWITCHED_TASKS][place], is_done && which == TASKS_SWITCH);
    add_to(&tally[SWITCHED_BOTH][place], is_done && which == BOTH_SWITCHES);
    add_to(&tally[INTERRUPT_NAMED_ONE][place], is_interrupt_refused && !is_named_badly && !is_other_bad);
    add_to(&tally[INTERRUPT_NAMED_BADLY][place], is_interrupt_refused && (is_named_badly || is_other_bad));
    add_to(&tally[SWI_NAMED_TASKS][place], is_swi_refused && which == TASKS_SWITCH);
    add_to(&tally[SWI_NAMED_BOTH][place], is_swi_refused && which == BOTH_SWITCHES);
    add_to(&tally[SWI_NAMED_NONE][place], is_swi_refused && which == 0);
    add_to(&tally[SWI_NAMED_MORE][place], is_swi_refused && which > BOTH_SWITCHES);
    add_to(&tally[SWI_NAMED_BADLY][place], is_swi_refused && !is_named_badly && is_other_bad);
    add_to(&tally[SWI_BAD_ARGUMENT][place], is_bad && context == FROM_SWI);
    add_to(&tally[TASK_NAMED_NONE][place], is_bad && context == FROM_TASK && which == 0);
    add_to(&tally[TASK_NAMED_MORE][place], is_bad && context == FROM_TASK && which > BOTH_SWITCHES);
    add_to(&tally[TASK_UNUSED_ARGUMENT][place], is_bad && context == FROM_TASK && !is_named_badly && (key & ~which) == 0);
}

/* Of a call 78 that names a switch and has no bad unused argument. */
static void note_key(uint32_t which, uint32_t key)
{
    note(KEY_TASKS_NOT_NAMED, which == SWIS_SWITCH && (key & ~which) == TASKS_SWITCH);
    note(KEY_SWIS_NOT_NAMED, which == TASKS_SWITCH && (key & ~which) == SWIS_SWITCH);
    note(KEY_NO_SWITCH, (key & ~which) != 0 && (key & BOTH_SWITCHES & ~which) == 0);
}

/* Of an accepted call 77. */
static void note_off(const struct tables *before, uint32_t which)
{
    uint32_t on = switches_on(before);

    note(ANSWERED_NONE_ON, which == BOTH_SWITCHES && on == 0);
    note(ANSWERED_SWIS_ON, which == BOTH_SWITCHES && on == SWIS_SWITCH);
    note(ANSWERED_TASKS_ON, which == BOTH_SWITCHES && on == TASKS_SWITCH);
    note(ANSWERED_BOTH_ON, which == BOTH_SWITCHES && on == BOTH_SWITCHES);
    note(SWIS_OFF_ALREADY, which == SWIS_SWITCH && (on & SWIS_SWITCH) == 0);
    note(TASKS_OFF_ALREADY, which == TASKS_SWITCH && (on & TASKS_SWITCH) == 0);
    note(OTHER_SWITCH_LEFT_ON, (on & ~which) != 0);
}

/* Of an accepted call 78. */
static void note_restore(const struct tables *before, const struct tables *after, uint32_t which, uint32_t key, int swi_started)
{
    uint32_t on = switches_on(before), highest = 31u - (uint32_t)__builtin_clz(after->ready_levels);
    int other_runs = before->current != after->current;
    int were_both_off = on == 0 && key == BOTH_SWITCHES;

    note(KEY_NONE, key == 0 && (which & ~on) != 0);
    note(KEY_SWIS_OF_BOTH, which == BOTH_SWITCHES && on == 0 && key == SWIS_SWITCH);
    note(KEY_TASKS_OF_BOTH, which == BOTH_SWITCHES && on == 0 && key == TASKS_SWITCH);
    note(KEY_ON_ALREADY, (key & on) != 0);
    note(KEY_LEFT_ONE_ON, (which & on & ~key) != 0);
    note(SWI_AFTER_RESTORE, swi_started);
    note(TASK_AFTER_RESTORE, other_runs && on == SWIS_SWITCH);
    note(TASK_AFTER_SWIS_RESTORE, other_runs && on == TASKS_SWITCH);
    note(TASK_AFTER_BOTH_RESTORE, other_runs && were_both_off);
    note(SWI_AFTER_BOTH_RESTORE, swi_started && were_both_off);
    note(SWI_BEFORE_TASK, swi_started && were_both_off && after->link[HEAD_OF_READY + highest].next != after->current);
}

/* Of an accepted call on a task, a Swi or a clock. */
static void note_thread_call(const struct tables *before, const struct tables *after, const struct call *call, struct answer answer)
{
    uint32_t a = call->argument[0];

    switch (call->number) {
    case TASK_SET_PRIORITY:
        note_set_priority(before, after, call);
        break;
    case TASK_YIELD:
        note(YIELDED_TO_EQUAL, before->current != after->current);
        note(IDLE_YIELD, before->current == 0);
        break;
    case TASK_LAST_RESULT:
        note(RESULT_NOT_MET, answer.outcome == NOT_MET);
        note(RESULT_VALUE, answer.value != 0);
        break;
    case SWI_POST:
    case SWI_ADD_ONE:
    case SWI_TAKE_ONE:
    case SWI_SET_BITS:
    case SWI_CLEAR_BITS:
        note_swi_post(before, call);
        break;
    case SWI_TAKEN_TRIGGER:
        note(TAKEN_NOT_INITIAL, answer.value != before->swi[before->active[before->active_count - 1]].initial);
        break;
    case CLOCK_START:
        note(CLOCK_RESTARTED, (before->clocks_running >> a & 1) != 0);
        break;
    case CLOCK_DELETE:
        note(RUNNING_CLOCK_DELETED, (before->clocks_running >> a & 1) != 0);
        break;
    default:
        break;
    }
}

/* Of an accepted call on a semaphore. */
static void note_semaphore_call(const struct tables *before, const struct tables *after, const struct call *call, struct answer answer)
{
    uint32_t a = call->argument[0];

    switch (call->number) {
    case SEMAPHORE_CREATE:
        note_counted(CREATED_ANEW, a, (made[SEMAPHORE_TABLE] >> answer.value & 1) != 0);
        break;
    case SEMAPHORE_PEND:
        if (answer.outcome == NOW_WAITING)
            note_wait_begun(before, after, a);
        break;
    case SEMAPHORE_POST:
        note_woke(SEMAPHORE_PLACE, before, after, call, answer);
        note(SEMAPHORE_SERVED, answer.value != 0 && line_length(before, HEAD_OF_SEMAPHORE + a) > 1);
        if (answer.value != 0)
            note_later_served(before, a, answer.value);
        note(BINARY_AT_ONE, before->semaphore[a].kind % 2 == 1 && before->semaphore[a].count == 1);
        note(COUNT_TO_MOST, after->semaphore[a].count == COUNT_MOST);
        break;
    case SEMAPHORE_DELETE:
        forget_expired(SEMAPHORE_PLACE, a);
        break;
    default:
        break;
    }
}

/* Of an accepted call on an event or a mailbox. */
static void note_message_call(const struct tables *before, const struct tables *after, const struct call *call, struct answer answer)
{
    uint32_t a = call->argument[0];

    switch (call->number) {
    case EVENT_DELETE:
        forget_expired(EVENT_PLACE, a);
        break;
    case EVENT_PEND:
        note(EVENT_AT_ONCE, answer.outcome == DONE);
        break;
    case EVENT_POST:
        note_woke(EVENT_PLACE, before, after, call, answer);
        note(EVENT_NOT_SERVED, before->event[a].waiter != 0 && answer.value == 0);
        if (answer.value != 0)
            note_event_served(before->event[a].posted | call->argument[1], before->event[a].and_mask, before->event[a].or_mask);
        break;
    case MAILBOX_DELETE:
        forget_expired(MAILBOX_PLACE, a);
        break;
    case MAILBOX_POST:
        note_woke(MAILBOX_PLACE, before, after, call, answer);
        note(READER_SERVED, answer.value != 0 && line_length(before, HEAD_OF_MAILBOX + a) > 1);
        break;
    case MAILBOX_PEND:
        note(WRITER_SERVED, before->mailbox[a].count != 0 && line_length(before, HEAD_OF_MAILBOX + a) > 0);
        break;
    default:
        break;
    }
}

/* What an accepted call led to, whichever it was. */
static void note_dispatch(const struct tables *before, const struct tables *after, const struct call *call)
{
    uint32_t number = call->number;
    int swi_started = after->active_count != 0 && after->depth == 0
                      && (before->active_count < after->active_count || number == SWI_END)
                      && (before->active_count <= after->active_count);

    if (number == SWITCHES_RESTORE)
        note_restore(before, after, call->argument[0], call->argument[1], swi_started);
    note(SWI_PREEMPTED, swi_started && before->active_count != 0 && number != SWI_END);
    note(SWI_AFTER_SWI, swi_started && number == SWI_END);
    note(SWI_AFTER_INTERRUPT, swi_started && number == INTERRUPT_OUT);
    note(SWI_WHILE_TASKS_OFF, swi_started && !after->tasks_on);
    note(PREEMPTED, before->current != after->current && after->task[before->current].mode == READY && number != TASK_YIELD
                        && after->task[before->current].priority == before->task[before->current].priority);
}

/* Of a call whether it is accepted or not. */
static void note_any_call(const struct sums *sums, const struct tables *before, const struct tables *after, const struct call *call,
                          struct answer answer)
{
    const struct call_form *form = form_of(call->number);
    uint32_t number = call->number;

    if (form != NULL && table_of(form) != 0)
        note_object(before, form, call, answer.code);
    if (number == HEAP_TAKE || number == HEAP_GIVE_BACK)
        note_heap(before, after, call, answer);
    note_sums(sums, call, answer);
    levels_note(before, after, call, answer);
    if (number == SWITCHES_OFF || number == SWITCHES_RESTORE)
        note_switches(before, call, answer.code);
    if (number == SWITCHES_RESTORE && answer.code == BAD_ARGUMENT && (call->argument[2] | call->argument[3]) == 0)
        note_key(call->argument[0], call->argument[1]);
    if (number >= FIRST_GONE && number <= LAST_GONE)
        add_to(&coverage.gone[number - FIRST_GONE][context_of(before)], answer.code == UNKNOWN_CALL);
    if (answer.code == STATE_FORBIDS)
        note(FIVE_BEFORE_NINE, before->current == 0 && (!before->swis_on || !before->tasks_on)
                                   && (number == TASK_SLEEP || number == TASK_END || number == SEMAPHORE_PEND || number == MAILBOX_POST));
}

void coverage_note(const struct sums *sums, const struct tables *before, const struct tables *after, const struct call *call,
                   struct answer answer)
{
    coverage.calls++;
    coverage.pair[call->number & 255][answer.code]++;
    for (uint32_t table = TASK_TABLE; table <= CLOCK_TABLE; table++)
        made[table] |= table_in_use(before, table);
    note_any_call(sums, before, after, call, answer);
    if (answer.code != ACCEPTED)
        return;
    coverage.outcome[call->number][answer.outcome]++;
    note_sizes(after);
    note_thread_call(before, after, call, answer);
    note_semaphore_call(before, after, call, answer);
    note_message_call(before, after, call, answer);
    if (call->number == TICK)
        note_tick(before, after);
    if (call->number == SWITCHES_OFF)
        note_off(before, call->argument[0]);
    note_dispatch(before, after, call);
}
