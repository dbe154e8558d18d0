/* The paragraph on sound tables, checked on these tables one sentence after the other. The tables may hold anything. */
#include "core.h"

#include <string.h>

enum { NOWHERE = PLACES };

static int is_member(uint32_t set, uint32_t number)
{
    return (set >> number & 1) != 0;
}

static int is_all_zero(const void *record, size_t size)
{
    const unsigned char *bytes = record;

    for (size_t i = 0; i < size; i++)
        if (bytes[i] != 0)
            return 0;
    return 1;
}

/* Walks the ring of one head, where places from low to before high may stand; notes in stands_at who stands there. */
static const char *ring_unsound(const struct tables *t, uint32_t head, uint32_t low, uint32_t high, uint32_t stands_at[PLACES])
{
    if (t->link[head].next >= PLACES || t->link[t->link[head].next].before != head)
        return "a queue or line whose front does not lead back to it";
    for (uint32_t place = t->link[head].next; place != head; place = t->link[place].next) {
        if (place < low || place >= high)
            return "something that may not stand in this queue or line";
        if (stands_at[place] != NOWHERE)
            return "a task or Swi that stands twice";
        stands_at[place] = head;
        if (t->link[place].next >= PLACES || t->link[t->link[place].next].before != place)
            return "a queue or line whose links do not agree";
    }
    return NULL;
}

/* The sets of the priorities at which somebody stands. */
static const char *level_sets_unsound(const struct tables *t)
{
    for (uint32_t priority = 0; priority < LEVELS_MOST; priority++)
        if (is_member(t->ready_levels, priority) != (t->link[HEAD_OF_READY + priority].next != HEAD_OF_READY + priority))
            return "the set of non-empty ready queues";
    for (uint32_t priority = 0; priority < SWI_LEVELS; priority++)
        if (is_member(t->posted_levels, priority) != (t->link[HEAD_OF_POSTED + priority].next != HEAD_OF_POSTED + priority))
            return "the set of non-empty queues of posted Swis";
    return t->posted_levels >> SWI_LEVELS == 0 ? NULL : "a set of Swi priorities beyond 15";
}

/* Walks the rings; stands_at gets for each place the head of the queue or line where it stands. */
static const char *rings_unsound(const struct tables *t, uint32_t stands_at[PLACES])
{
    const char *fault = NULL;

    for (uint32_t place = 0; place < PLACES; place++)
        stands_at[place] = NOWHERE;
    for (uint32_t head = HEAD_OF_READY; head < PLACE_OF_SWI && fault == NULL; head++)
        fault = ring_unsound(t, head, PLACE_OF_TASK, PLACE_OF_TASK + TASKS, stands_at);
    for (uint32_t head = HEAD_OF_POSTED; head < PLACES && fault == NULL; head++)
        fault = ring_unsound(t, head, PLACE_OF_SWI, PLACE_OF_SWI + SWIS, stands_at);
    if (fault != NULL)
        return fault;
    for (uint32_t place = 0; place < PLACES; place++) {
        int is_own = place < HEAD_OF_READY || (place >= PLACE_OF_SWI && place < HEAD_OF_POSTED);

        if (is_own && stands_at[place] == NOWHERE && !is_all_zero(&t->link[place], sizeof t->link[place]))
            return "links of a task or Swi that stands nowhere";
    }
    return level_sets_unsound(t);
}

static const char *wait_unsound(const struct tables *t, uint32_t number, uint32_t stands_at)
{
    const struct task *task = &t->task[number];
    uint32_t object = task->object;

    if (task->ticks_left == WITHOUT_END)
        return "a wait with too many ticks left";
    if (task->word != 0 && task->wait != AT_MAILBOX_WRITING)
        return "a word of a task that is no writer";
    switch (task->wait) {
    case SLEEPING:
        if (stands_at != NOWHERE || object != 0)
            return "a sleeping task in a line";
        if (task->ticks_left == 0)
            return "a sleep without ticks left";
        return NULL;
    case AT_SEMAPHORE:
        if (object >= SEMAPHORES || !is_member(t->semaphores_in_use, object) || stands_at != HEAD_OF_SEMAPHORE + object)
            return "a waiter that is not in its semaphore's line";
        if (t->semaphore[object].count != 0)
            return "a semaphore with waiters and a count";
        return NULL;
    case AT_EVENT:
        if (object >= EVENTS || !is_member(t->events_in_use, object) || stands_at != NOWHERE || t->event[object].waiter != number)
            return "a task that is not the waiter of its event";
        return NULL;
    case AT_MAILBOX_READING:
    case AT_MAILBOX_WRITING:
        if (object >= MAILBOXES || !is_member(t->mailboxes_in_use, object) || stands_at != HEAD_OF_MAILBOX + object)
            return "a waiter that is not in its mailbox's line";
        if (task->wait == AT_MAILBOX_READING && t->mailbox[object].count != 0)
            return "a reader that waits at a mailbox with messages";
        if (task->wait == AT_MAILBOX_WRITING && t->mailbox[object].count != t->mailbox[object].capacity)
            return "a writer that waits at a mailbox with room";
        return NULL;
    default:
        return "a blocked task that waits for nothing";
    }
}

/* A task in use, by its mode. */
static const char *mode_unsound(const struct tables *t, uint32_t number, uint32_t stands_at)
{
    const struct task *task = &t->task[number];
    int is_plain_priority = task->priority >= 1 && task->priority < t->levels;

    switch (task->mode) {
    case READY:
        if (number != 0 && !is_plain_priority)
            return "a ready task's priority";
        return stands_at == HEAD_OF_READY + task->priority ? NULL : "a ready task that is not in its priority's queue";
    case BLOCKED:
        return is_plain_priority ? wait_unsound(t, number, stands_at) : "a blocked task's priority";
    case TERMINATED:
        if (!is_plain_priority)
            return "a terminated task's priority";
        return stands_at == NOWHERE ? NULL : "a terminated task in a queue or line";
    case INACTIVE:
        if (task->priority != MINUS_ONE)
            return "an inactive task's priority";
        return stands_at == NOWHERE ? NULL : "an inactive task in a queue or line";
    default:
        return "a task's mode";
    }
}

static const char *task_unsound(const struct tables *t, uint32_t number, uint32_t stands_at)
{
    const struct task *task = &t->task[number];

    if (is_member(t->tasks_limited, number) != (task->ticks_left != 0))
        return "the set of limited waits";
    if (!is_member(t->tasks_in_use, number)) {
        if (number == 0)
            return "task 0 not in use";
        if (!is_all_zero(task, sizeof *task))
            return "a task not in use that is not all 0";
        return stands_at == NOWHERE ? NULL : "a task not in use in a queue or line";
    }
    if (task->outcome > NOT_MET || (task->outcome == NOT_MET && task->value != 0))
        return "a last result that no wait leaves";
    if (number == 0) {
        if (task->mode != READY || task->priority != 0 || task->outcome != 0 || task->value != 0)
            return "task 0";
    }
    if (task->mode != BLOCKED && (task->wait != NO_WAIT || task->object != 0 || task->ticks_left != 0 || task->word != 0))
        return "data of a wait that has ended";
    return mode_unsound(t, number, stands_at);
}

/* The active Swis; their set through *active. */
static const char *active_unsound(const struct tables *t, uint32_t *active)
{
    if (t->active_count > SWIS)
        return "the number of active Swis";
    for (uint32_t i = 0; i < SWIS; i++) {
        uint32_t number = t->active[i];

        if (i >= t->active_count) {
            if (number != 0)
                return "an entry past the active Swis";
            continue;
        }
        if (number >= SWIS || !is_member(t->swis_in_use, number))
            return "an active Swi that is not in use";
        if (i > 0 && t->swi[number].priority <= t->swi[t->active[i - 1]].priority)
            return "active Swis that do not rise in priority";
        *active |= 1u << number;
    }
    return NULL;
}

static const char *swi_unsound(const struct tables *t, uint32_t number, uint32_t stands_at, int is_active)
{
    const struct swi *swi = &t->swi[number];
    int is_posted = is_member(t->swis_posted, number);

    if (is_posted != (stands_at != NOWHERE))
        return "the set of posted Swis";
    if (!is_member(t->swis_in_use, number)) {
        if (!is_all_zero(swi, sizeof *swi))
            return "a Swi not in use that is not all 0";
        return is_posted ? "a posted Swi that is not in use" : NULL;
    }
    if (swi->priority >= SWI_LEVELS)
        return "a Swi's priority";
    if (is_posted && stands_at != HEAD_OF_POSTED + swi->priority)
        return "a posted Swi that is not in its priority's queue";
    return is_active || swi->taken == 0 ? NULL : "a taken trigger of a Swi that is not active";
}

static const char *swis_unsound(const struct tables *t, const uint32_t stands_at[PLACES])
{
    uint32_t active = 0;
    const char *fault = active_unsound(t, &active);

    if (fault == NULL && (t->swis_in_use >> SWIS != 0 || t->swis_posted >> SWIS != 0))
        fault = "a set of Swis beyond 15";
    for (uint32_t number = 0; number < SWIS && fault == NULL; number++)
        fault = swi_unsound(t, number, stands_at[PLACE_OF_SWI + number], is_member(active, number));
    return fault;
}

static const char *semaphore_unsound(const struct tables *t, uint32_t number)
{
    const struct semaphore *semaphore = &t->semaphore[number];
    uint32_t head = HEAD_OF_SEMAPHORE + number;

    if (!is_member(t->semaphores_in_use, number)) {
        if (!is_all_zero(semaphore, sizeof *semaphore))
            return "a semaphore not in use that is not all 0";
        return t->link[head].next == head ? NULL : "waiters at a semaphore not in use";
    }
    if (semaphore->kind > BINARY_BY_PRIORITY)
        return "a semaphore's kind";
    if (semaphore->count > (semaphore->kind % 2 == 1 ? 1u : (uint32_t)COUNT_MOST))
        return "a semaphore's count";
    for (uint32_t place = t->link[head].next; place != head; place = t->link[place].next)
        if (t->task[place].mode != BLOCKED || t->task[place].wait != AT_SEMAPHORE || t->task[place].object != number)
            return "a task in a semaphore's line that does not wait there";
    return NULL;
}

static const char *event_unsound(const struct tables *t, uint32_t number)
{
    const struct event *event = &t->event[number];
    const struct task *waiter;

    if (!is_member(t->events_in_use, number))
        return is_all_zero(event, sizeof *event) ? NULL : "an event not in use that is not all 0";
    if (event->waiter == 0)
        return (event->and_mask | event->or_mask) == 0 ? NULL : "masks of an event without a waiter";
    if (event->waiter >= TASKS)
        return "the number of an event's waiter";
    waiter = &t->task[event->waiter];
    if (waiter->mode != BLOCKED || waiter->wait != AT_EVENT || waiter->object != number)
        return "an event's waiter that does not wait there";
    if ((event->and_mask | event->or_mask) == 0)
        return "an event's waiter with both masks 0";
    if ((event->posted & event->or_mask) != 0 || (event->and_mask != 0 && (event->posted & event->and_mask) == event->and_mask))
        return "an event's waiter that its posted bits satisfy";
    return NULL;
}

static const char *mailbox_unsound(const struct tables *t, uint32_t number)
{
    const struct mailbox *mailbox = &t->mailbox[number];
    uint32_t head = HEAD_OF_MAILBOX + number;

    if (!is_member(t->mailboxes_in_use, number)) {
        if (!is_all_zero(mailbox, sizeof *mailbox))
            return "a mailbox not in use that is not all 0";
        return t->link[head].next == head ? NULL : "waiters at a mailbox not in use";
    }
    if (mailbox->capacity < 1 || mailbox->capacity > MESSAGES || mailbox->count > mailbox->capacity || mailbox->oldest >= MESSAGES)
        return "a mailbox's capacity or messages";
    for (uint32_t i = mailbox->count; i < MESSAGES; i++)
        if (mailbox->message[(mailbox->oldest + i) % MESSAGES] != 0)
            return "a message past the number there";
    for (uint32_t place = t->link[head].next; place != head; place = t->link[place].next) {
        const struct task *task = &t->task[place];

        if (task->mode != BLOCKED || task->object != number || (task->wait != AT_MAILBOX_READING && task->wait != AT_MAILBOX_WRITING))
            return "a task in a mailbox's line that does not wait there";
    }
    return NULL;
}

static const char *clock_unsound(const struct tables *t, uint32_t number)
{
    const struct clock *clock = &t->clock[number];

    if (is_member(t->clocks_running, number) != (clock->ticks_left != 0))
        return "the ticks of a stopped clock, or none of a running one";
    if (!is_member(t->clocks_in_use, number))
        return is_all_zero(clock, sizeof *clock) ? NULL : "a clock not in use that is not all 0";
    if (clock->swi >= SWIS || !is_member(t->swis_in_use, clock->swi))
        return "a clock that names no Swi in use";
    return clock->first >= 1 ? NULL : "a clock's first ticks";
}

static const char *heap_unsound(const struct tables *t)
{
    int before_is_taken = 0;

    for (uint32_t unit = 0; unit < UNITS; unit++) {
        int taken = (t->heap_taken[unit / 64] >> unit % 64 & 1) != 0;
        int first = (t->heap_first[unit / 64] >> unit % 64 & 1) != 0;

        if (first && !taken)
            return "a heap entry that is first and free";
        if (taken && !first && !before_is_taken)
            return "a later heap entry that stands first or after a free one";
        before_is_taken = taken;
    }
    return NULL;
}

static const char *dispatch_unsound(const struct tables *t)
{
    uint32_t posted = SWI_LEVELS, ready = t->levels;

    if (t->current >= TASKS || t->task[t->current].mode != READY)
        return "a current task that is not ready";
    if (t->depth != 0 || !t->swis_on)
        return NULL;
    while (posted > 0 && t->link[HEAD_OF_POSTED + posted - 1].next == HEAD_OF_POSTED + posted - 1)
        posted--;
    if (posted > 0 && (t->active_count == 0 || posted - 1 > t->swi[t->active[t->active_count - 1]].priority))
        return "a posted Swi that should have started";
    if (t->active_count != 0 || !t->tasks_on)
        return NULL;
    while (ready > 0 && t->link[HEAD_OF_READY + ready - 1].next == HEAD_OF_READY + ready - 1)
        ready--;
    if (ready == 0 || t->link[HEAD_OF_READY + ready - 1].next != t->current)
        return "a current task that is not the front of the highest ready queue";
    return NULL;
}

const char *core_unsound(const struct tables *t)
{
    uint32_t stands_at[PLACES];
    const char *fault;

    if (t->levels != LEVELS_LEAST && t->levels != LEVELS_MOST)
        return "the number of levels";
    if (t->depth > DEPTH_MOST || t->swis_on > 1 || t->tasks_on > 1)
        return "the depth or a switch";
    fault = rings_unsound(t, stands_at);
    for (uint32_t number = 0; number < TASKS && fault == NULL; number++)
        fault = task_unsound(t, number, stands_at[PLACE_OF_TASK + number]);
    if (fault == NULL)
        fault = swis_unsound(t, stands_at);
    if (fault == NULL && (t->semaphores_in_use >> SEMAPHORES != 0 || t->events_in_use >> EVENTS != 0
                          || t->mailboxes_in_use >> MAILBOXES != 0 || t->clocks_in_use >> CLOCKS != 0 || t->clocks_running >> CLOCKS != 0))
        fault = "a set of objects beyond its table";
    for (uint32_t number = 0; number < SEMAPHORES && fault == NULL; number++)
        fault = semaphore_unsound(t, number);
    for (uint32_t number = 0; number < EVENTS && fault == NULL; number++)
        fault = event_unsound(t, number);
    for (uint32_t number = 0; number < MAILBOXES && fault == NULL; number++)
        fault = mailbox_unsound(t, number);
    for (uint32_t number = 0; number < CLOCKS && fault == NULL; number++)
        fault = clock_unsound(t, number);
    if (fault == NULL)
        fault = heap_unsound(t);
    if (fault == NULL)
        fault = dispatch_unsound(t);
    return fault;
}
