/* One step of each phase in which tasks wait, are served and take turns. */
#include "chance.h"
#include "likely.h"
#include "moves.h"
#include "sight.h"
#include "steps.h"

struct call line_step(struct maker *m)
{
    const struct tables *t = &m->tables;
    uint32_t s = m->target;

    if (!is_calm(m))
        return calm_down(m);
    if (s >= SEMAPHORES || (t->semaphores_in_use & bit(s)) == 0) {
        if (t->semaphores_in_use != 0xFFFF && chance(m, 60)) {
            m->target = (uint32_t)__builtin_ctz(~t->semaphores_in_use);
            return call_of(SEMAPHORE_CREATE, below(m, 4), 0, 0, 0);
        }
        if (t->semaphores_in_use == 0)
            return call_of(SEMAPHORE_CREATE, below(m, 4), 0, 0, 0);
        m->target = s = member(m, t->semaphores_in_use);
    }
    if (t->semaphore[s].count > 0)
        return call_of(SEMAPHORE_RESET, s, 0, 0, 0);
    if (line_length(m, HEAD_OF_SEMAPHORE + s) >= m->goal) {
        end_phase(m);
        return chance(m, 50) ? any(m) : call_of(SEMAPHORE_POST, s, 0, 0, 0);
    }
    if (t->current == 0)
        return bring_task_but(m, tasks_in_line(m, HEAD_OF_SEMAPHORE + s));
    return call_of(SEMAPHORE_PEND, s, waiting_limit(m), 0, 0);
}

static int mailbox_missing(struct maker *m, struct call *call)
{
    const struct tables *t = &m->tables;

    if (m->target < MAILBOXES && (t->mailboxes_in_use & bit(m->target)) != 0)
        return 0;
    if (t->mailboxes_in_use == 0 || (t->mailboxes_in_use != 0xFF && chance(m, 40))) {
        m->target = (uint32_t)__builtin_ctz(~t->mailboxes_in_use);
        *call = call_of(MAILBOX_CREATE, 1 + below(m, chance(m, 60) ? 3 : 8), 0, 0, 0);
        return 1;
    }
    m->target = member(m, t->mailboxes_in_use);
    return 0;
}

struct call writers_step(struct maker *m)
{
    const struct tables *t = &m->tables;
    struct call call;
    uint32_t word;

    if (!is_calm(m))
        return calm_down(m);
    if (mailbox_missing(m, &call))
        return call;
    word = some_word(m);
    if (t->mailbox[m->target].count < t->mailbox[m->target].capacity)
        return call_of(MAILBOX_POST, m->target, word, chance(m, 50) ? 0 : some_limit(m), 0);
    if (line_length(m, HEAD_OF_MAILBOX + m->target) >= m->goal) {
        end_phase(m);
        return call_of(MAILBOX_PEND, m->target, 0, 0, 0);
    }
    if (t->current == 0)
        return bring_task_but(m, tasks_in_line(m, HEAD_OF_MAILBOX + m->target));
    return call_of(MAILBOX_POST, m->target, word, waiting_limit(m), 0);
}

struct call readers_step(struct maker *m)
{
    const struct tables *t = &m->tables;
    struct call call;

    if (!is_calm(m))
        return calm_down(m);
    if (mailbox_missing(m, &call))
        return call;
    if (t->mailbox[m->target].count > 0)
        return call_of(MAILBOX_PEND, m->target, chance(m, 50) ? 0 : some_limit(m), 0, 0);
    if (line_length(m, HEAD_OF_MAILBOX + m->target) >= m->goal) {
        end_phase(m);
        return call_of(MAILBOX_POST, m->target, (uint32_t)random_word(m), 0, 0);
    }
    if (t->current == 0)
        return bring_task_but(m, tasks_in_line(m, HEAD_OF_MAILBOX + m->target));
    return call_of(MAILBOX_PEND, m->target, waiting_limit(m), 0, 0);
}

struct call events_step(struct maker *m)
{
    const struct tables *t = &m->tables;
    struct call call;
    uint32_t without = 0;

    if (!is_calm(m))
        return chance(m, 50) ? serve_somebody(m) : calm_down(m);
    if (t->events_in_use == 0 || (t->events_in_use != 0xFF && chance(m, 15)))
        return call_of(EVENT_CREATE, 0, 0, 0, 0);
    for (uint32_t i = 0; i < EVENTS; i++)
        if ((t->events_in_use & bit(i)) != 0 && t->event[i].waiter == 0)
            without |= bit(i);
    if (without == 0 || chance(m, 25))
        return chance(m, 70) ? serve_somebody(m) : likely(m, chance(m, 50) ? EVENT_POST : EVENT_PEND);
    if (t->current == 0)
        return bring_task(m);
    call = likely(m, EVENT_PEND);
    call.argument[0] = member(m, without);
    call.argument[3] = waiting_limit(m);
    return call;
}

struct call wake_step(struct maker *m)
{
    if (in_task(m) && chance(m, 10))
        return call_of(INTERRUPT_IN, 0, 0, 0, 0);
    if (!in_task(m) && chance(m, 15))
        return calm_down(m);
    if (is_calm(m) && m->tables.current != 0 && chance(m, 25))
        return chance(m, 50) ? call_of(TASK_YIELD, 0, 0, 0, 0) : likely(m, TASK_SLEEP);
    if (chance(m, 12))
        return likely(m, TASK_LAST_RESULT);
    return serve_somebody(m);
}

struct call expire_step(struct maker *m)
{
    if (in_swi(m) && chance(m, 60))
        return calm_down(m);
    if (m->tables.tasks_limited == 0 && is_calm(m) && chance(m, 60)) {
        if (m->tables.current == 0)
            return bring_task(m);
        return call_of(TASK_SLEEP, 1 + below(m, 5), 0, 0, 0);
    }
    if (chance(m, 15))
        return likely(m, TASK_LAST_RESULT);
    return tick_step(m);
}

/* A wait of the phase's ticks: at an object where one would begin, or a sleep. */
static struct call wait_for_alarm(struct maker *m)
{
    const struct tables *t = &m->tables;

    switch (below(m, 4)) {
    case 0:
        for (uint32_t i = 0; i < SEMAPHORES; i++)
            if ((t->semaphores_in_use & bit(i)) != 0 && t->semaphore[i].count == 0 && chance(m, 50))
                return call_of(SEMAPHORE_PEND, i, m->target, 0, 0);
        break;
    case 1:
        for (uint32_t i = 0; i < MAILBOXES; i++)
            if ((t->mailboxes_in_use & bit(i)) != 0 && chance(m, 50))
                return t->mailbox[i].count == 0 ? call_of(MAILBOX_PEND, i, m->target, 0, 0)
                                                : call_of(MAILBOX_POST, i, (uint32_t)random_word(m), m->target, 0);
        break;
    case 2:
        for (uint32_t i = 0; i < EVENTS; i++)
            if ((t->events_in_use & bit(i)) != 0 && t->event[i].waiter == 0 && t->event[i].posted != FULL)
                return call_of(EVENT_PEND, i, FULL, 0, m->target);
        break;
    default:
        break;
    }
    return call_of(TASK_SLEEP, m->target, 0, 0, 0);
}

struct call alarm_step(struct maker *m)
{
    const struct tables *t = &m->tables;

    if (m->target == FULL)
        m->target = 1 + below(m, 6); /* the ticks of all */
    if (m->descending) {
        if (m->descending++ > 2 * m->target + 4)
            end_phase(m);
        if (in_swi(m))
            return calm_down(m);
        return chance(m, 80) && t->depth != 0 ? call_of(TICK, 0, 0, 0, 0) : tick_step(m);
    }
    if (!is_calm(m))
        return calm_down(m);
    if (t->current == 0) {
        if (t->tasks_in_use != FULL || (tasks_in_mode(m, INACTIVE) | tasks_in_mode(m, TERMINATED)) != 0)
            return bring_task(m);
        m->descending = 1;
        return call_of(INTERRUPT_IN, 0, 0, 0, 0);
    }
    return wait_for_alarm(m);
}

static struct call pend_at(struct maker *m, uint32_t semaphore)
{
    return call_of(SEMAPHORE_PEND, semaphore, waiting_limit(m), 0, 0);
}

struct call levels_step(struct maker *m)
{
    const struct tables *t = &m->tables;
    uint32_t waiting = tasks_in_mode(m, BLOCKED), ready = tasks_in_mode(m, READY), inactive = tasks_in_mode(m, INACTIVE);
    uint32_t by_priority = 0, task;

    for (uint32_t i = 0; i < SEMAPHORES; i++)
        if ((t->semaphores_in_use & bit(i)) != 0 && t->semaphore[i].kind >= COUNTING_BY_PRIORITY && t->semaphore[i].count == 0)
            by_priority |= bit(i);
    switch (below(m, 8)) {
    case 0:
    case 1:
        if (waiting == 0)
            return likely(m, TASK_SET_PRIORITY);
        task = member(m, waiting);
        return call_of(TASK_SET_PRIORITY, task, task_priority(m), 0, 0);
    case 2:
        task = member(m, ready);
        return call_of(TASK_SET_PRIORITY, task, chance(m, 20) ? MINUS_ONE : task_priority(m), 0, 0);
    case 3:
        task = inactive != 0 ? member(m, inactive) : t->current;
        return call_of(TASK_SET_PRIORITY, task, task_priority(m), 0, 0);
    case 4:
        return serve_somebody(m);
    case 5:
        if (t->swis_in_use != 0 && chance(m, 40))
            return surely_post(m, member(m, t->swis_in_use));
        return likely(m, TASK_YIELD);
    default:
        if (!is_calm(m))
            return calm_down(m);
        if (by_priority == 0)
            return call_of(SEMAPHORE_CREATE, 2 + below(m, 2), 0, 0, 0);
        if (t->current == 0)
            return bring_task(m);
        return pend_at(m, member(m, by_priority));
    }
}

struct call turns_step(struct maker *m)
{
    if (!is_calm(m))
        return calm_down(m);
    if (m->tables.current == 0 || chance(m, 25))
        return chance(m, 70) ? bring_task(m) : tick_step(m);
    switch (below(m, 6)) {
    case 0:
        return call_of(TASK_END, 0, 0, 0, 0);
    case 1:
        return likely(m, TASK_SLEEP);
    case 2:
        return would_wait(m);
    case 3:
        return likely(m, TASK_LAST_RESULT);
    default:
        return call_of(TASK_YIELD, 0, 0, 0, 0);
    }
}

/* Towards a ready task at that level, without one less at another: gives 1 and the call, or 0 if no task can be had for it. */
static int task_missing(struct maker *m, uint32_t level, struct call *call)
{
    uint32_t inactive = tasks_in_mode(m, INACTIVE), terminated = tasks_in_mode(m, TERMINATED), crowded = crowded_tasks(m);

    if (m->tables.tasks_in_use != FULL)
        *call = call_of(TASK_CREATE, level, 0, 0, 0);
    else if (terminated != 0)
        *call = call_of(TASK_DELETE, member(m, terminated), 0, 0, 0);
    else if ((inactive | crowded) != 0)
        *call = call_of(TASK_SET_PRIORITY, member(m, inactive | crowded), level, 0, 0);
    else if (tasks_in_mode(m, BLOCKED) != 0 && chance(m, 90))
        *call = serve_somebody(m);
    else
        return 0;
    return 1;
}

/* Up, until a task is ready at every level; then down, each task that runs leaving its queue most often. */
struct call ladder_step(struct maker *m)
{
    uint32_t bare = bare_levels(m);
    struct call call;

    if (!is_calm(m))
        return calm_down(m);
    if (!m->descending && bare != 0 && task_missing(m, member(m, bare), &call))
        return call;
    m->descending = 1;
    if (m->tables.current == 0) {
        end_phase(m);
        return any(m);
    }
    switch (below(m, 8)) {
    case 0:
        return call_of(TASK_SET_PRIORITY, m->tables.current, task_priority(m), 0, 0);
    case 1:
        return call_of(TASK_END, 0, 0, 0, 0);
    case 2:
        return would_wait(m);
    default:
        return call_of(TASK_SLEEP, 1 + below(m, 8), 0, 0, 0);
    }
}
