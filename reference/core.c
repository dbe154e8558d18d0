/*
 * The call core. Each call checks in the order of document 01's table of codes; what passes its checks is carried out at once, in place. The
 * dispatch rule follows each accepted call that can give it something to do. After the others nothing is left to do: at depth 0 they move no task
 * and post no Swi, and they turn no switch on.
 */
#include "core.h"

#include <string.h>

/* Answers */

static inline struct answer done(uint32_t value)
{
    return (struct answer){ .code = ACCEPTED, .outcome = DONE, .value = value };
}

static inline struct answer not_met(void)
{
    return (struct answer){ .code = ACCEPTED, .outcome = NOT_MET, .value = 0 };
}

static inline struct answer now_waiting(void)
{
    return (struct answer){ .code = ACCEPTED, .outcome = NOW_WAITING, .value = 0 };
}

static inline struct answer refused(enum code code)
{
    return (struct answer){ .code = (uint16_t)code, .outcome = DONE, .value = 0 };
}

/* No object in use has that number: it is outside its table, or inside and free. The value names the table. */
static inline struct answer absent(enum table table, uint32_t number)
{
    static const uint8_t size[] = { [TASK_TABLE] = TASKS,   [SWI_TABLE] = SWIS,          [SEMAPHORE_TABLE] = SEMAPHORES,
                                    [EVENT_TABLE] = EVENTS, [MAILBOX_TABLE] = MAILBOXES, [CLOCK_TABLE] = CLOCKS };

    return (struct answer){ .code = number < size[table] ? OBJECT_NOT_IN_USE : OUTSIDE_TABLE, .outcome = DONE, .value = table };
}

/* Sets of numbers */

static inline uint32_t bit(uint32_t number)
{
    return (uint32_t)1 << number;
}

static inline uint32_t lowest(uint32_t set)
{
    return (uint32_t)__builtin_ctz(set);
}

static inline uint32_t highest(uint32_t set)
{
    return 31u - (uint32_t)__builtin_clz(set);
}

static inline int in_use(uint32_t set, uint32_t number, uint32_t size)
{
    return number < size && (set >> number & 1) != 0;
}

static inline int is_full(uint32_t set, uint32_t size)
{
    return set == 0xFFFFFFFFu >> (32 - size);
}

/* Contexts */

static inline int in_task(const struct tables *t)
{
    return (t->depth | t->active_count) == 0;
}

static inline int in_swi(const struct tables *t)
{
    return t->depth == 0 && t->active_count != 0;
}

static inline int in_interrupt(const struct tables *t)
{
    return t->depth != 0;
}

/* Queues and lines */

static inline int nobody_in(const struct tables *t, uint32_t head)
{
    return t->link[head].next == head;
}

static inline uint32_t front_of(const struct tables *t, uint32_t head)
{
    return t->link[head].next;
}

/* Joins right before the place `at`; at the back of a queue or line if `at` is its head. */
static inline void join(struct tables *t, uint32_t place, uint32_t at)
{
    uint32_t before = t->link[at].before;

    t->link[place].next = (uint8_t)at;
    t->link[place].before = (uint8_t)before;
    t->link[before].next = (uint8_t)place;
    t->link[at].before = (uint8_t)place;
}

static inline void leave(struct tables *t, uint32_t place)
{
    uint32_t next = t->link[place].next;
    uint32_t before = t->link[place].before;

    t->link[before].next = (uint8_t)next;
    t->link[next].before = (uint8_t)before;
    t->link[place] = (struct link){ 0, 0 };
}

/* Ready and waiting tasks */

static inline void join_ready(struct tables *t, uint32_t task)
{
    uint32_t priority = t->task[task].priority;

    t->task[task].mode = READY;
    join(t, PLACE_OF_TASK + task, HEAD_OF_READY + priority);
    t->ready_levels |= bit(priority);
}

static inline void leave_ready(struct tables *t, uint32_t task)
{
    uint32_t priority = t->task[task].priority;

    leave(t, PLACE_OF_TASK + task);
    if (nobody_in(t, HEAD_OF_READY + priority))
        t->ready_levels &= ~bit(priority);
}

/* What forbids the current task to yield, to end or to begin a wait. */
static inline int a_switch_is_off(const struct tables *t)
{
    return (t->swis_on & t->tasks_on) == 0;
}

/* The current task leaves its queue and is blocked; the caller puts it in its line. */
static inline void begin_wait(struct tables *t, enum wait wait, uint32_t object, uint32_t limit)
{
    struct task *task = &t->task[t->current];

    leave_ready(t, t->current);
    task->mode = BLOCKED;
    task->wait = (uint8_t)wait;
    task->object = (uint8_t)object;
    if (limit != WITHOUT_END) {
        task->ticks_left = limit;
        t->tasks_limited |= bit(t->current);
    }
}

/* A task that has left its line is ready, with its last result. */
static inline void end_wait(struct tables *t, uint32_t number, enum outcome outcome, uint32_t value)
{
    struct task *task = &t->task[number];

    task->wait = NO_WAIT;
    task->object = 0;
    task->outcome = (uint8_t)outcome;
    task->value = value;
    task->ticks_left = 0;
    task->word = 0;
    t->tasks_limited &= ~bit(number);
    join_ready(t, number);
}

/* The first waiter of a line is served, with the value of its last result; gives its number. */
static inline uint32_t serve_first(struct tables *t, uint32_t head, uint32_t value)
{
    uint32_t task = front_of(t, head);

    leave(t, task);
    end_wait(t, task, DONE, value);
    return task;
}

/* Dispatch */

static inline void post_swi(struct tables *t, uint32_t swi)
{
    uint32_t priority = t->swi[swi].priority;

    if (t->swis_posted & bit(swi))
        return;
    t->swis_posted |= bit(swi);
    t->posted_levels |= bit(priority);
    join(t, PLACE_OF_SWI + swi, HEAD_OF_POSTED + priority);
}

static inline void start_first_swi(struct tables *t, uint32_t priority)
{
    uint32_t place = front_of(t, HEAD_OF_POSTED + priority);
    uint32_t number = place - PLACE_OF_SWI;
    struct swi *swi = &t->swi[number];

    leave(t, place);
    t->swis_posted &= ~bit(number);
    if (nobody_in(t, HEAD_OF_POSTED + priority))
        t->posted_levels &= ~bit(priority);
    swi->taken = swi->trigger;
    swi->trigger = swi->initial;
    t->active[t->active_count++] = (uint8_t)number;
}

static inline uint32_t top_active(const struct tables *t)
{
    return t->active[t->active_count - 1];
}

/* Carries out the dispatch rule, after an accepted call with this answer. */
static struct answer dispatched(struct tables *t, struct answer answer)
{
    if (t->depth != 0 || !t->swis_on)
        return answer;
    if (t->posted_levels != 0) {
        uint32_t priority = highest(t->posted_levels);

        if (t->active_count == 0 || priority > t->swi[top_active(t)].priority)
            start_first_swi(t, priority);
    }
    if (t->active_count == 0 && t->tasks_on)
        t->current = front_of(t, HEAD_OF_READY + highest(t->ready_levels));
    return answer;
}

/* Tasks */

/* -1, or a level other than task 0's. */
static inline int is_task_priority(const struct tables *t, uint32_t priority)
{
    return (priority >= 1 && priority < t->levels) || priority == MINUS_ONE;
}

static struct answer task_create(struct tables *t, uint32_t priority, uint32_t b, uint32_t c, uint32_t d)
{
    uint32_t number;

    if (!in_task(t))
        return refused(WRONG_CONTEXT);
    if (!is_task_priority(t, priority) || (b | c | d) != 0)
        return refused(BAD_ARGUMENT);
    if (is_full(t->tasks_in_use, TASKS))
        return refused(TABLE_FULL);
    number = lowest(~t->tasks_in_use);
    t->tasks_in_use |= bit(number);
    t->task[number].priority = priority;
    if (priority == MINUS_ONE)
        t->task[number].mode = INACTIVE;
    else
        join_ready(t, number);
    return dispatched(t, done(number));
}

static struct answer task_delete(struct tables *t, uint32_t number, uint32_t b, uint32_t c, uint32_t d)
{
    struct task *task;

    if (!in_task(t))
        return refused(WRONG_CONTEXT);
    if (!in_use(t->tasks_in_use, number, TASKS))
        return absent(TASK_TABLE, number);
    if ((b | c | d) != 0)
        return refused(BAD_ARGUMENT);
    task = &t->task[number];
    if (task->mode != TERMINATED && task->mode != INACTIVE)
        return refused(STATE_FORBIDS);
    *task = (struct task){ .mode = NOT_IN_USE };
    t->tasks_in_use &= ~bit(number);
    return done(0);
}

static struct answer task_set_priority(struct tables *t, uint32_t number, uint32_t priority, uint32_t c, uint32_t d)
{
    struct task *task;
    uint32_t old;

    if (in_interrupt(t))
        return refused(WRONG_CONTEXT);
    if (!in_use(t->tasks_in_use, number, TASKS))
        return absent(TASK_TABLE, number);
    if (!is_task_priority(t, priority) || (c | d) != 0)
        return refused(BAD_ARGUMENT);
    task = &t->task[number];
    if (number == 0 || task->mode == TERMINATED)
        return refused(STATE_FORBIDS);
    if (priority == MINUS_ONE && (number == t->current || task->mode == BLOCKED))
        return refused(STATE_FORBIDS);
    old = task->priority;
    if (priority == old)
        return done(old);
    if (task->mode == BLOCKED) {
        task->priority = priority; /* it keeps its place in line */
        return done(old);
    }
    if (task->mode == READY)
        leave_ready(t, number);
    task->priority = priority;
    if (priority == MINUS_ONE)
        task->mode = INACTIVE;
    else
        join_ready(t, number);
    return dispatched(t, done(old));
}

static struct answer task_yield(struct tables *t, uint32_t a, uint32_t b, uint32_t c, uint32_t d)
{
    if (!in_task(t))
        return refused(WRONG_CONTEXT);
    if ((a | b | c | d) != 0)
        return refused(BAD_ARGUMENT);
    if (a_switch_is_off(t))
        return refused(SWITCH_IS_OFF);
    leave(t, PLACE_OF_TASK + t->current);
    join(t, PLACE_OF_TASK + t->current, HEAD_OF_READY + t->task[t->current].priority);
    return dispatched(t, done(0));
}

static struct answer task_end(struct tables *t, uint32_t a, uint32_t b, uint32_t c, uint32_t d)
{
    if (!in_task(t))
        return refused(WRONG_CONTEXT);
    if ((a | b | c | d) != 0)
        return refused(BAD_ARGUMENT);
    if (t->current == 0)
        return refused(STATE_FORBIDS);
    if (a_switch_is_off(t))
        return refused(SWITCH_IS_OFF);
    leave_ready(t, t->current);
    t->task[t->current].mode = TERMINATED;
    return dispatched(t, done(0));
}

static struct answer task_sleep(struct tables *t, uint32_t ticks, uint32_t b, uint32_t c, uint32_t d)
{
    if (!in_task(t))
        return refused(WRONG_CONTEXT);
    if (ticks == 4294967295u || (b | c | d) != 0)
        return refused(BAD_ARGUMENT);
    if (ticks == 0)
        return done(0);
    if (t->current == 0)
        return refused(STATE_FORBIDS);
    if (a_switch_is_off(t))
        return refused(SWITCH_IS_OFF);
    begin_wait(t, SLEEPING, 0, ticks);
    return dispatched(t, now_waiting());
}

static struct answer task_last_result(struct tables *t, uint32_t number, uint32_t b, uint32_t c, uint32_t d)
{
    if (!in_use(t->tasks_in_use, number, TASKS))
        return absent(TASK_TABLE, number);
    if ((b | c | d) != 0)
        return refused(BAD_ARGUMENT);
    return (struct answer){ .code = ACCEPTED, .outcome = t->task[number].outcome, .value = t->task[number].value };
}

/* Swis */

static struct answer swi_create(struct tables *t, uint32_t priority, uint32_t initial, uint32_t c, uint32_t d)
{
    uint32_t number;

    if (!in_task(t))
        return refused(WRONG_CONTEXT);
    if (priority >= SWI_LEVELS || (c | d) != 0)
        return refused(BAD_ARGUMENT);
    if (is_full(t->swis_in_use, SWIS))
        return refused(TABLE_FULL);
    number = lowest(~t->swis_in_use);
    t->swis_in_use |= bit(number);
    t->swi[number] = (struct swi){ .priority = priority, .initial = initial, .trigger = initial };
    return done(number);
}

static int is_named_by_a_clock(const struct tables *t, uint32_t swi)
{
    for (uint32_t rest = t->clocks_in_use; rest != 0; rest &= rest - 1)
        if (t->clock[lowest(rest)].swi == swi)
            return 1;
    return 0;
}

static struct answer swi_delete(struct tables *t, uint32_t number, uint32_t b, uint32_t c, uint32_t d)
{
    if (!in_task(t))
        return refused(WRONG_CONTEXT);
    if (!in_use(t->swis_in_use, number, SWIS))
        return absent(SWI_TABLE, number);
    if ((b | c | d) != 0)
        return refused(BAD_ARGUMENT);
    /* A task runs only while no Swi is active. */
    if ((t->swis_posted & bit(number)) != 0 || is_named_by_a_clock(t, number))
        return refused(STATE_FORBIDS);
    t->swi[number] = (struct swi){ .priority = 0 };
    t->swis_in_use &= ~bit(number);
    return done(0);
}

static struct answer swi_post(struct tables *t, uint32_t number, uint32_t b, uint32_t c, uint32_t d)
{
    if (!in_use(t->swis_in_use, number, SWIS))
        return absent(SWI_TABLE, number);
    if ((b | c | d) != 0)
        return refused(BAD_ARGUMENT);
    post_swi(t, number);
    return dispatched(t, done(0));
}

static struct answer swi_add_one(struct tables *t, uint32_t number, uint32_t b, uint32_t c, uint32_t d)
{
    if (!in_use(t->swis_in_use, number, SWIS))
        return absent(SWI_TABLE, number);
    if ((b | c | d) != 0)
        return refused(BAD_ARGUMENT);
    t->swi[number].trigger++;
    post_swi(t, number);
    return dispatched(t, done(0));
}

static struct answer swi_take_one(struct tables *t, uint32_t number, uint32_t b, uint32_t c, uint32_t d)
{
    if (!in_use(t->swis_in_use, number, SWIS))
        return absent(SWI_TABLE, number);
    if ((b | c | d) != 0)
        return refused(BAD_ARGUMENT);
    if (--t->swi[number].trigger != 0)
        return done(0);
    post_swi(t, number);
    return dispatched(t, done(0));
}

static struct answer swi_set_bits(struct tables *t, uint32_t number, uint32_t mask, uint32_t c, uint32_t d)
{
    if (!in_use(t->swis_in_use, number, SWIS))
        return absent(SWI_TABLE, number);
    if ((c | d) != 0)
        return refused(BAD_ARGUMENT);
    t->swi[number].trigger |= mask;
    post_swi(t, number);
    return dispatched(t, done(0));
}

static struct answer swi_clear_bits(struct tables *t, uint32_t number, uint32_t mask, uint32_t c, uint32_t d)
{
    if (!in_use(t->swis_in_use, number, SWIS))
        return absent(SWI_TABLE, number);
    if ((c | d) != 0)
        return refused(BAD_ARGUMENT);
    t->swi[number].trigger &= ~mask;
    if (t->swi[number].trigger != 0)
        return done(0);
    post_swi(t, number);
    return dispatched(t, done(0));
}

static struct answer swi_end(struct tables *t, uint32_t a, uint32_t b, uint32_t c, uint32_t d)
{
    if (!in_swi(t))
        return refused(WRONG_CONTEXT);
    if ((a | b | c | d) != 0)
        return refused(BAD_ARGUMENT);
    if (!t->swis_on)
        return refused(SWITCH_IS_OFF);
    t->swi[top_active(t)].taken = 0;
    t->active[--t->active_count] = 0;
    return dispatched(t, done(0));
}

static struct answer swi_taken_trigger(struct tables *t, uint32_t a, uint32_t b, uint32_t c, uint32_t d)
{
    if (!in_swi(t))
        return refused(WRONG_CONTEXT);
    if ((a | b | c | d) != 0)
        return refused(BAD_ARGUMENT);
    return done(t->swi[top_active(t)].taken);
}

/* Semaphores */

static inline int is_binary(uint32_t kind)
{
    return kind == BINARY || kind == BINARY_BY_PRIORITY;
}

static inline int is_count(uint32_t kind, uint32_t count)
{
    return count <= (is_binary(kind) ? 1u : (uint32_t)COUNT_MOST);
}

static struct answer semaphore_create(struct tables *t, uint32_t kind, uint32_t count, uint32_t c, uint32_t d)
{
    uint32_t number;

    if (!in_task(t))
        return refused(WRONG_CONTEXT);
    if (kind > BINARY_BY_PRIORITY || !is_count(kind, count) || (c | d) != 0)
        return refused(BAD_ARGUMENT);
    if (is_full(t->semaphores_in_use, SEMAPHORES))
        return refused(TABLE_FULL);
    number = lowest(~t->semaphores_in_use);
    t->semaphores_in_use |= bit(number);
    t->semaphore[number] = (struct semaphore){ kind, count };
    return done(number);
}

static struct answer semaphore_delete(struct tables *t, uint32_t number, uint32_t b, uint32_t c, uint32_t d)
{
    if (!in_task(t))
        return refused(WRONG_CONTEXT);
    if (!in_use(t->semaphores_in_use, number, SEMAPHORES))
        return absent(SEMAPHORE_TABLE, number);
    if ((b | c | d) != 0)
        return refused(BAD_ARGUMENT);
    if (!nobody_in(t, HEAD_OF_SEMAPHORE + number))
        return refused(STATE_FORBIDS);
    t->semaphore[number] = (struct semaphore){ 0, 0 };
    t->semaphores_in_use &= ~bit(number);
    return done(0);
}

static struct answer semaphore_pend(struct tables *t, uint32_t number, uint32_t limit, uint32_t c, uint32_t d)
{
    struct semaphore *semaphore;
    uint32_t head, at;

    if (limit != 0 && !in_task(t))
        return refused(WRONG_CONTEXT);
    if (!in_use(t->semaphores_in_use, number, SEMAPHORES))
        return absent(SEMAPHORE_TABLE, number);
    if ((c | d) != 0)
        return refused(BAD_ARGUMENT);
    semaphore = &t->semaphore[number];
    if (semaphore->count > 0) {
        semaphore->count--;
        return done(0);
    }
    if (limit == 0)
        return not_met();
    if (t->current == 0)
        return refused(STATE_FORBIDS);
    if (a_switch_is_off(t))
        return refused(SWITCH_IS_OFF);
    begin_wait(t, AT_SEMAPHORE, number, limit);
    head = HEAD_OF_SEMAPHORE + number;
    at = head;
    if (semaphore->kind >= COUNTING_BY_PRIORITY) {
        uint32_t priority = t->task[t->current].priority;

        /* before the first waiter of lower priority */
        at = front_of(t, head);
        while (at != head && t->task[at].priority >= priority)
            at = t->link[at].next;
    }
    join(t, PLACE_OF_TASK + t->current, at);
    return dispatched(t, now_waiting());
}

static struct answer semaphore_post(struct tables *t, uint32_t number, uint32_t b, uint32_t c, uint32_t d)
{
    struct semaphore *semaphore;

    if (!in_use(t->semaphores_in_use, number, SEMAPHORES))
        return absent(SEMAPHORE_TABLE, number);
    if ((b | c | d) != 0)
        return refused(BAD_ARGUMENT);
    /* No. 8: "Let the value be the woken task's number, and 0 if none was woken" */
    if (!nobody_in(t, HEAD_OF_SEMAPHORE + number))
        return dispatched(t, done(serve_first(t, HEAD_OF_SEMAPHORE + number, 0)));
    semaphore = &t->semaphore[number];
    if (is_binary(semaphore->kind)) {
        semaphore->count = 1;
        return done(0);
    }
    if (semaphore->count == COUNT_MOST)
        return refused(AT_ITS_END);
    semaphore->count++;
    return done(0);
}

static struct answer semaphore_reset(struct tables *t, uint32_t number, uint32_t count, uint32_t c, uint32_t d)
{
    if (!in_task(t))
        return refused(WRONG_CONTEXT);
    if (!in_use(t->semaphores_in_use, number, SEMAPHORES))
        return absent(SEMAPHORE_TABLE, number);
    if (!is_count(t->semaphore[number].kind, count) || (c | d) != 0)
        return refused(BAD_ARGUMENT);
    if (!nobody_in(t, HEAD_OF_SEMAPHORE + number))
        return refused(STATE_FORBIDS);
    t->semaphore[number].count = count;
    return done(0);
}

/* Events */

/* The posted bits in the or-mask, and the whole and-mask if all its bits are posted. */
static inline uint32_t matched_bits(uint32_t posted, uint32_t and_mask, uint32_t or_mask)
{
    uint32_t matched = posted & or_mask;

    if ((posted & and_mask) == and_mask)
        matched |= and_mask;
    return matched;
}

static struct answer event_create(struct tables *t, uint32_t a, uint32_t b, uint32_t c, uint32_t d)
{
    uint32_t number;

    if (!in_task(t))
        return refused(WRONG_CONTEXT);
    if ((a | b | c | d) != 0)
        return refused(BAD_ARGUMENT);
    if (is_full(t->events_in_use, EVENTS))
        return refused(TABLE_FULL);
    number = lowest(~t->events_in_use);
    t->events_in_use |= bit(number);
    return done(number);
}

static struct answer event_delete(struct tables *t, uint32_t number, uint32_t b, uint32_t c, uint32_t d)
{
    if (!in_task(t))
        return refused(WRONG_CONTEXT);
    if (!in_use(t->events_in_use, number, EVENTS))
        return absent(EVENT_TABLE, number);
    if ((b | c | d) != 0)
        return refused(BAD_ARGUMENT);
    if (t->event[number].waiter != 0)
        return refused(STATE_FORBIDS);
    t->event[number] = (struct event){ .posted = 0 };
    t->events_in_use &= ~bit(number);
    return done(0);
}

static struct answer event_pend(struct tables *t, uint32_t number, uint32_t and_mask, uint32_t or_mask, uint32_t limit)
{
    struct event *event;
    uint32_t matched;

    if (limit != 0 && !in_task(t))
        return refused(WRONG_CONTEXT);
    if (!in_use(t->events_in_use, number, EVENTS))
        return absent(EVENT_TABLE, number);
    if ((and_mask | or_mask) == 0)
        return refused(BAD_ARGUMENT);
    event = &t->event[number];
    if (event->waiter != 0)
        return refused(STATE_FORBIDS);
    matched = matched_bits(event->posted, and_mask, or_mask);
    if (matched != 0) {
        event->posted &= ~matched;
        return done(matched);
    }
    if (limit == 0)
        return not_met();
    if (t->current == 0)
        return refused(STATE_FORBIDS);
    if (a_switch_is_off(t))
        return refused(SWITCH_IS_OFF);
    begin_wait(t, AT_EVENT, number, limit);
    event->waiter = t->current;
    event->and_mask = and_mask;
    event->or_mask = or_mask;
    return dispatched(t, now_waiting());
}

/* The event's waiter, served or expired, is its waiter no more. */
static inline void leave_event(struct event *event)
{
    event->waiter = 0;
    event->and_mask = 0;
    event->or_mask = 0;
}

static struct answer event_post(struct tables *t, uint32_t number, uint32_t mask, uint32_t c, uint32_t d)
{
    struct event *event;
    uint32_t waiter, matched;

    if (!in_use(t->events_in_use, number, EVENTS))
        return absent(EVENT_TABLE, number);
    if ((c | d) != 0)
        return refused(BAD_ARGUMENT);
    event = &t->event[number];
    event->posted |= mask;
    waiter = event->waiter;
    if (waiter == 0)
        return done(0);
    matched = matched_bits(event->posted, event->and_mask, event->or_mask);
    if (matched == 0)
        return done(0);
    event->posted &= ~matched;
    leave_event(event);
    end_wait(t, waiter, DONE, matched);
    /* No. 8: "It applies to semaphore and event posts" */
    return dispatched(t, done(waiter));
}

/* Mailboxes */

static inline void put_message(struct mailbox *mailbox, uint32_t word)
{
    mailbox->message[(mailbox->oldest + mailbox->count) % MESSAGES] = word;
    mailbox->count++;
}

static inline uint32_t take_message(struct mailbox *mailbox)
{
    uint32_t word = mailbox->message[mailbox->oldest];

    mailbox->message[mailbox->oldest] = 0;
    mailbox->oldest = (mailbox->oldest + 1) % MESSAGES;
    mailbox->count--;
    return word;
}

static struct answer mailbox_create(struct tables *t, uint32_t capacity, uint32_t b, uint32_t c, uint32_t d)
{
    uint32_t number;

    if (!in_task(t))
        return refused(WRONG_CONTEXT);
    if (capacity < 1 || capacity > MESSAGES || (b | c | d) != 0)
        return refused(BAD_ARGUMENT);
    if (is_full(t->mailboxes_in_use, MAILBOXES))
        return refused(TABLE_FULL);
    number = lowest(~t->mailboxes_in_use);
    t->mailboxes_in_use |= bit(number);
    t->mailbox[number].capacity = capacity;
    return done(number);
}

static struct answer mailbox_delete(struct tables *t, uint32_t number, uint32_t b, uint32_t c, uint32_t d)
{
    if (!in_task(t))
        return refused(WRONG_CONTEXT);
    if (!in_use(t->mailboxes_in_use, number, MAILBOXES))
        return absent(MAILBOX_TABLE, number);
    if ((b | c | d) != 0)
        return refused(BAD_ARGUMENT);
    if (!nobody_in(t, HEAD_OF_MAILBOX + number) || t->mailbox[number].count != 0)
        return refused(STATE_FORBIDS);
    t->mailbox[number].capacity = 0;
    t->mailbox[number].oldest = 0;
    t->mailboxes_in_use &= ~bit(number);
    return done(0);
}

static struct answer mailbox_post(struct tables *t, uint32_t number, uint32_t word, uint32_t limit, uint32_t d)
{
    struct mailbox *mailbox;

    if (limit != 0 && !in_task(t))
        return refused(WRONG_CONTEXT);
    if (!in_use(t->mailboxes_in_use, number, MAILBOXES))
        return absent(MAILBOX_TABLE, number);
    if (d != 0)
        return refused(BAD_ARGUMENT);
    mailbox = &t->mailbox[number];
    if (mailbox->count < mailbox->capacity) {
        /*
         * Waiters at a mailbox that is not full are readers, and it is empty. No. 8: "a mailbox post that goes straight to a reader answers that
         * reader's number".
         */
        if (!nobody_in(t, HEAD_OF_MAILBOX + number))
            return dispatched(t, done(serve_first(t, HEAD_OF_MAILBOX + number, word)));
        put_message(mailbox, word);
        return done(0);
    }
    if (limit == 0)
        return not_met();
    if (t->current == 0)
        return refused(STATE_FORBIDS);
    if (a_switch_is_off(t))
        return refused(SWITCH_IS_OFF);
    begin_wait(t, AT_MAILBOX_WRITING, number, limit);
    t->task[t->current].word = word;
    join(t, PLACE_OF_TASK + t->current, HEAD_OF_MAILBOX + number);
    return dispatched(t, now_waiting());
}

static struct answer mailbox_pend(struct tables *t, uint32_t number, uint32_t limit, uint32_t c, uint32_t d)
{
    struct mailbox *mailbox;

    if (limit != 0 && !in_task(t))
        return refused(WRONG_CONTEXT);
    if (!in_use(t->mailboxes_in_use, number, MAILBOXES))
        return absent(MAILBOX_TABLE, number);
    if ((c | d) != 0)
        return refused(BAD_ARGUMENT);
    mailbox = &t->mailbox[number];
    if (mailbox->count > 0) {
        uint32_t oldest = take_message(mailbox);

        /* Waiters at a mailbox that has messages are writers. The value is the word all the same, for No. 8 is about posts. */
        if (!nobody_in(t, HEAD_OF_MAILBOX + number)) {
            put_message(mailbox, t->task[front_of(t, HEAD_OF_MAILBOX + number)].word);
            serve_first(t, HEAD_OF_MAILBOX + number, 0);
            return dispatched(t, done(oldest));
        }
        return done(oldest);
    }
    if (limit == 0)
        return not_met();
    if (t->current == 0)
        return refused(STATE_FORBIDS);
    if (a_switch_is_off(t))
        return refused(SWITCH_IS_OFF);
    begin_wait(t, AT_MAILBOX_READING, number, limit);
    join(t, PLACE_OF_TASK + t->current, HEAD_OF_MAILBOX + number);
    return dispatched(t, now_waiting());
}

/* Clocks */

static struct answer clock_create(struct tables *t, uint32_t swi, uint32_t first, uint32_t period, uint32_t d)
{
    uint32_t number;

    if (!in_task(t))
        return refused(WRONG_CONTEXT);
    if (!in_use(t->swis_in_use, swi, SWIS))
        return absent(SWI_TABLE, swi);
    if (first == 0 || d != 0)
        return refused(BAD_ARGUMENT);
    if (is_full(t->clocks_in_use, CLOCKS))
        return refused(TABLE_FULL);
    number = lowest(~t->clocks_in_use);
    t->clocks_in_use |= bit(number);
    t->clock[number] = (struct clock){ .swi = swi, .first = first, .period = period };
    return done(number);
}

static struct answer clock_delete(struct tables *t, uint32_t number, uint32_t b, uint32_t c, uint32_t d)
{
    if (!in_task(t))
        return refused(WRONG_CONTEXT);
    if (!in_use(t->clocks_in_use, number, CLOCKS))
        return absent(CLOCK_TABLE, number);
    if ((b | c | d) != 0)
        return refused(BAD_ARGUMENT);
    t->clock[number] = (struct clock){ .swi = 0 };
    t->clocks_in_use &= ~bit(number);
    t->clocks_running &= ~bit(number);
    return done(0);
}

static struct answer clock_start(struct tables *t, uint32_t number, uint32_t b, uint32_t c, uint32_t d)
{
    if (!in_use(t->clocks_in_use, number, CLOCKS))
        return absent(CLOCK_TABLE, number);
    if ((b | c | d) != 0)
        return refused(BAD_ARGUMENT);
    t->clock[number].ticks_left = t->clock[number].first;
    t->clocks_running |= bit(number);
    return done(0);
}

static struct answer clock_stop(struct tables *t, uint32_t number, uint32_t b, uint32_t c, uint32_t d)
{
    if (!in_use(t->clocks_in_use, number, CLOCKS))
        return absent(CLOCK_TABLE, number);
    if ((b | c | d) != 0)
        return refused(BAD_ARGUMENT);
    t->clock[number].ticks_left = 0;
    t->clocks_running &= ~bit(number);
    return done(0);
}

/* Heap */

/* Whether a unit is later in its block, for 64 units at once. */
static inline uint64_t later_in_block(const struct tables *t, uint32_t word)
{
    return t->heap_taken[word] & ~t->heap_first[word];
}

/* The first unit at or after `from` that is free, or UNITS. */
static uint32_t next_free(const struct tables *t, uint32_t from)
{
    uint32_t word = from / 64;
    uint64_t units;

    if (from == UNITS)
        return UNITS;
    units = ~t->heap_taken[word] & (~(uint64_t)0 << from % 64);
    while (units == 0) {
        if (++word == HEAP_WORDS)
            return UNITS;
        units = ~t->heap_taken[word];
    }
    return word * 64 + (uint32_t)__builtin_ctzll(units);
}

/* The first unit at or after `from` that is not free, or UNITS. */
static uint32_t next_taken(const struct tables *t, uint32_t from)
{
    uint32_t word = from / 64;
    uint64_t units = t->heap_taken[word] & (~(uint64_t)0 << from % 64);

    while (units == 0) {
        if (++word == HEAP_WORDS)
            return UNITS;
        units = t->heap_taken[word];
    }
    return word * 64 + (uint32_t)__builtin_ctzll(units);
}

/* The unit after the last one of the block that starts at `first`. */
static uint32_t end_of_block(const struct tables *t, uint32_t first)
{
    uint32_t from = first + 1;
    uint32_t word = from / 64;
    uint64_t units;

    if (from == UNITS)
        return UNITS;
    units = ~later_in_block(t, word) & (~(uint64_t)0 << from % 64);
    while (units == 0) {
        if (++word == HEAP_WORDS)
            return UNITS;
        units = ~later_in_block(t, word);
    }
    return word * 64 + (uint32_t)__builtin_ctzll(units);
}

/* Turns the units from `from` to before `end` from free to taken, or from taken to free. */
static void turn_units(struct tables *t, uint32_t from, uint32_t end)
{
    while (from < end) {
        uint32_t word = from / 64;
        uint32_t stop = (word + 1) * 64 < end ? (word + 1) * 64 : end;

        t->heap_taken[word] ^= ~(uint64_t)0 >> (64 - (stop - from)) << from % 64;
        from = stop;
    }
}

static struct answer heap_take(struct tables *t, uint32_t bytes, uint32_t b, uint32_t c, uint32_t d)
{
    uint32_t units, from, end;

    if (!in_task(t))
        return refused(WRONG_CONTEXT);
    if (bytes < 1 || bytes > HEAP_BYTES || (b | c | d) != 0)
        return refused(BAD_ARGUMENT);
    units = (bytes + UNIT_BYTES - 1) / UNIT_BYTES;
    end = 0;
    do {
        from = next_free(t, end);
        if (from + units > UNITS)
            return refused(NO_HEAP_ROOM);
        end = next_taken(t, from);
    } while (end - from < units);
    turn_units(t, from, from + units);
    t->heap_first[from / 64] |= (uint64_t)1 << from % 64;
    return done(from * UNIT_BYTES);
}

static struct answer heap_give_back(struct tables *t, uint32_t offset, uint32_t bytes, uint32_t c, uint32_t d)
{
    uint32_t first, end;

    if (!in_task(t))
        return refused(WRONG_CONTEXT);
    if (offset >= HEAP_BYTES || offset % UNIT_BYTES != 0 || bytes < 1 || bytes > HEAP_BYTES || (c | d) != 0)
        return refused(BAD_ARGUMENT);
    first = offset / UNIT_BYTES;
    if ((t->heap_first[first / 64] >> first % 64 & 1) == 0)
        return refused(BAD_ARGUMENT);
    end = end_of_block(t, first);
    if ((bytes + UNIT_BYTES - 1) / UNIT_BYTES != end - first)
        return refused(BAD_ARGUMENT);
    turn_units(t, first, end);
    t->heap_first[first / 64] &= ~((uint64_t)1 << first % 64);
    return done(0);
}

/* Switches, interrupts and the tick */

/* A task may name any switch, a Swi that of the Swis alone, an interrupt none. */
static inline int may_name(const struct tables *t, uint32_t which)
{
    return in_task(t) || (in_swi(t) && which == SWIS_SWITCH);
}

static inline int is_switch(uint32_t which)
{
    return which >= SWIS_SWITCH && which <= BOTH_SWITCHES;
}

static struct answer switches_off(struct tables *t, uint32_t which, uint32_t b, uint32_t c, uint32_t d)
{
    uint32_t were_on = t->swis_on * SWIS_SWITCH | t->tasks_on * TASKS_SWITCH;

    if (!may_name(t, which))
        return refused(WRONG_CONTEXT);
    if (!is_switch(which) || (b | c | d) != 0)
        return refused(BAD_ARGUMENT);
    if (which & SWIS_SWITCH)
        t->swis_on = 0;
    if (which & TASKS_SWITCH)
        t->tasks_on = 0;
    return done(were_on & which);
}

static struct answer switches_restore(struct tables *t, uint32_t which, uint32_t key, uint32_t c, uint32_t d)
{
    if (!may_name(t, which))
        return refused(WRONG_CONTEXT);
    if (!is_switch(which) || (key & ~which) != 0 || (c | d) != 0)
        return refused(BAD_ARGUMENT);
    if (key & SWIS_SWITCH)
        t->swis_on = 1;
    if (key & TASKS_SWITCH)
        t->tasks_on = 1;
    return dispatched(t, done(0));
}

static struct answer interrupt_in(struct tables *t, uint32_t a, uint32_t b, uint32_t c, uint32_t d)
{
    if ((a | b | c | d) != 0)
        return refused(BAD_ARGUMENT);
    if (t->depth == DEPTH_MOST)
        return refused(AT_ITS_END);
    t->depth++;
    return done(0);
}

static struct answer interrupt_out(struct tables *t, uint32_t a, uint32_t b, uint32_t c, uint32_t d)
{
    if (!in_interrupt(t))
        return refused(WRONG_CONTEXT);
    if ((a | b | c | d) != 0)
        return refused(BAD_ARGUMENT);
    t->depth--;
    return dispatched(t, done(0));
}

static inline void age_clock(struct tables *t, uint32_t number)
{
    struct clock *clock = &t->clock[number];

    if (--clock->ticks_left != 0)
        return;
    post_swi(t, clock->swi);
    clock->ticks_left = clock->period;
    if (clock->period == 0)
        t->clocks_running &= ~bit(number);
}

static inline void age_wait(struct tables *t, uint32_t number)
{
    struct task *task = &t->task[number];

    if (--task->ticks_left != 0)
        return;
    switch (task->wait) {
    case SLEEPING:
        end_wait(t, number, DONE, 0);
        return;
    case AT_EVENT:
        leave_event(&t->event[task->object]);
        break;
    default:
        leave(t, PLACE_OF_TASK + number);
        break;
    }
    end_wait(t, number, NOT_MET, 0);
}

static struct answer tick(struct tables *t, uint32_t a, uint32_t b, uint32_t c, uint32_t d)
{
    if (!in_interrupt(t))
        return refused(WRONG_CONTEXT);
    if ((a | b | c | d) != 0)
        return refused(BAD_ARGUMENT);
    t->tick_count++;
    for (uint32_t rest = t->clocks_running; rest != 0; rest &= rest - 1)
        age_clock(t, lowest(rest));
    for (uint32_t rest = t->tasks_limited; rest != 0; rest &= rest - 1)
        age_wait(t, lowest(rest));
    return done(0);
}

/* The entries */

/* The call of each number, by ranges of sixteen; a null pointer where the number is unknown. */
static struct answer (*const calls[])(struct tables *t, uint32_t a, uint32_t b, uint32_t c, uint32_t d) = {
    [TASK_CREATE] = task_create,
    [TASK_DELETE] = task_delete,
    [TASK_SET_PRIORITY] = task_set_priority,
    [TASK_YIELD] = task_yield,
    [TASK_END] = task_end,
    [TASK_SLEEP] = task_sleep,
    [TASK_LAST_RESULT] = task_last_result,
    [SWI_CREATE] = swi_create,
    [SWI_DELETE] = swi_delete,
    [SWI_POST] = swi_post,
    [SWI_ADD_ONE] = swi_add_one,
    [SWI_TAKE_ONE] = swi_take_one,
    [SWI_SET_BITS] = swi_set_bits,
    [SWI_CLEAR_BITS] = swi_clear_bits,
    [SWI_END] = swi_end,
    [SWI_TAKEN_TRIGGER] = swi_taken_trigger,
    [SEMAPHORE_CREATE] = semaphore_create,
    [SEMAPHORE_DELETE] = semaphore_delete,
    [SEMAPHORE_PEND] = semaphore_pend,
    [SEMAPHORE_POST] = semaphore_post,
    [SEMAPHORE_RESET] = semaphore_reset,
    [EVENT_CREATE] = event_create,
    [EVENT_DELETE] = event_delete,
    [EVENT_PEND] = event_pend,
    [EVENT_POST] = event_post,
    [MAILBOX_CREATE] = mailbox_create,
    [MAILBOX_DELETE] = mailbox_delete,
    [MAILBOX_POST] = mailbox_post,
    [MAILBOX_PEND] = mailbox_pend,
    [CLOCK_CREATE] = clock_create,
    [CLOCK_DELETE] = clock_delete,
    [CLOCK_START] = clock_start,
    [CLOCK_STOP] = clock_stop,
    [HEAP_TAKE] = heap_take,
    [HEAP_GIVE_BACK] = heap_give_back,
    [INTERRUPT_IN] = interrupt_in,
    [INTERRUPT_OUT] = interrupt_out,
    [TICK] = tick,
    [SWITCHES_OFF] = switches_off,
    [SWITCHES_RESTORE] = switches_restore,
};

struct answer core_call(struct tables *t, uint32_t number, uint32_t a, uint32_t b, uint32_t c, uint32_t d)
{
    if (number > SWITCHES_RESTORE || calls[number] == NULL)
        return refused(UNKNOWN_CALL);
    return calls[number](t, a, b, c, d);
}

struct thread core_running(const struct tables *t)
{
    if (t->depth != 0)
        return (struct thread){ 'I', 0 };
    if (t->active_count != 0)
        return (struct thread){ 'S', top_active(t) };
    return (struct thread){ 'T', t->current };
}

struct answer core_fresh(struct tables *t, uint32_t levels)
{
    int is_number_of_levels = levels == LEVELS_LEAST || levels == LEVELS_MOST;

    memset(t, 0, sizeof *t);
    t->levels = is_number_of_levels ? levels : (uint32_t)LEVELS_LEAST;
    for (uint32_t place = 0; place < PLACES; place++) {
        int is_own = place < HEAD_OF_READY || (place >= PLACE_OF_SWI && place < HEAD_OF_POSTED);

        if (!is_own)
            t->link[place] = (struct link){ (uint8_t)place, (uint8_t)place };
    }
    t->swis_on = 1;
    t->tasks_on = 1;
    t->tasks_in_use = bit(0);
    join_ready(t, 0); /* task 0, priority 0 */
    return is_number_of_levels ? done(0) : refused(BAD_ARGUMENT);
}
