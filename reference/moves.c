/* Steps that the phases share. */
#include "chance.h"
#include "likely.h"
#include "moves.h"
#include "sight.h"

struct call turn_on(struct maker *m)
{
    uint32_t key = switches_now_off(m), which;

    if (key == BOTH_SWITCHES && chance(m, 50))
        key = 1 + below(m, 2);
    which = chance(m, 30) ? BOTH_SWITCHES : key;
    if (which == BOTH_SWITCHES && chance(m, 30))
        key = BOTH_SWITCHES; /* on already, some of it */
    return call_of(SWITCHES_RESTORE, which, key, 0, 0);
}

struct call calm_down(struct maker *m)
{
    const struct tables *t = &m->tables;

    if (t->depth != 0)
        return call_of(INTERRUPT_OUT, 0, 0, 0, 0);
    if (t->active_count == 0)
        return turn_on(m);
    if (!t->swis_on)
        return call_of(SWITCHES_RESTORE, SWIS_SWITCH, SWIS_SWITCH, 0, 0);
    return call_of(chance(m, 85) ? SWI_END : SWI_TAKEN_TRIGGER, 0, 0, 0, 0);
}

/* A post that serves the first waiter somewhere, but not where the spared tasks wait; or any call. */
static struct call serve_but(struct maker *m, uint32_t spared)
{
    const struct tables *t = &m->tables;
    uint32_t semaphores = tasks_at(m, AT_SEMAPHORE), events = tasks_at(m, AT_EVENT);
    uint32_t readers = tasks_at(m, AT_MAILBOX_READING), writers = tasks_at(m, AT_MAILBOX_WRITING);
    uint32_t all = (semaphores | events | readers | writers) & ~spared, task, number;

    if (all == 0)
        return any(m);
    task = member(m, all);
    number = t->task[task].object;
    if (semaphores & bit(task))
        return call_of(SEMAPHORE_POST, number, 0, 0, 0);
    if (events & bit(task)) {
        uint32_t wanted = t->event[number].and_mask | t->event[number].or_mask;

        return call_of(EVENT_POST, number, chance(m, 60) ? wanted | mask(m) : wanted & mask(m), 0, 0);
    }
    if (readers & bit(task))
        return call_of(MAILBOX_POST, number, (uint32_t)random_word(m), 0, 0);
    return call_of(MAILBOX_PEND, number, 0, 0, 0);
}

struct call serve_somebody(struct maker *m)
{
    return serve_but(m, 0);
}

struct call bring_task_but(struct maker *m, uint32_t spared)
{
    uint32_t set;

    if (m->tables.tasks_in_use != FULL)
        return call_of(TASK_CREATE, some_level(m), 0, 0, 0);
    set = tasks_in_mode(m, INACTIVE);
    if (set != 0) {
        uint32_t task = member(m, set);

        return call_of(TASK_SET_PRIORITY, task, some_level(m), 0, 0);
    }
    set = tasks_in_mode(m, TERMINATED);
    if (set != 0)
        return call_of(TASK_DELETE, member(m, set), 0, 0, 0);
    return serve_but(m, spared);
}

struct call bring_task(struct maker *m)
{
    return bring_task_but(m, 0);
}

void end_phase(struct maker *m)
{
    m->steps_left = 0;
}

struct call tick_step(struct maker *m)
{
    if (m->tables.depth == 0)
        return call_of(INTERRUPT_IN, 0, 0, 0, 0);
    return call_of(chance(m, 60) ? TICK : INTERRUPT_OUT, 0, 0, 0, 0);
}

struct call surely_post(struct maker *m, uint32_t swi)
{
    switch (below(m, 6)) {
    case 0:
        return call_of(SWI_ADD_ONE, swi, 0, 0, 0);
    case 1:
        return call_of(SWI_SET_BITS, swi, mask(m), 0, 0);
    case 2:
        return call_of(SWI_CLEAR_BITS, swi, chance(m, 80) ? FULL : mask(m), 0, 0);
    case 3:
        if (m->tables.swi[swi].trigger == 1)
            return call_of(SWI_TAKE_ONE, swi, 0, 0, 0);
        return call_of(SWI_POST, swi, 0, 0, 0);
    default:
        return call_of(SWI_POST, swi, 0, 0, 0);
    }
}

/* An event pend that the posted bits do not match, most often. */
static struct call pend_unmet(struct maker *m, uint32_t event)
{
    uint32_t and_mask = chance(m, 50) ? FULL : mask(m);
    uint32_t or_mask = chance(m, 50) ? 0 : ~m->tables.event[event].posted;

    return call_of(EVENT_PEND, event, and_mask, or_mask, waiting_limit(m));
}

static struct call post_unmet(struct maker *m, uint32_t mailbox)
{
    uint32_t word = some_word(m);

    return call_of(MAILBOX_POST, mailbox, word, waiting_limit(m), 0);
}

struct call would_wait(struct maker *m)
{
    const struct tables *t = &m->tables;

    switch (below(m, 7)) {
    case 0:
        return call_of(TASK_YIELD, 0, 0, 0, 0);
    case 1:
        return call_of(TASK_END, 0, 0, 0, 0);
    case 2:
        return call_of(TASK_SLEEP, 1 + below(m, 4), 0, 0, 0);
    case 3:
        for (uint32_t i = 0; i < SEMAPHORES; i++)
            if ((t->semaphores_in_use & bit(i)) != 0 && t->semaphore[i].count == 0)
                return call_of(SEMAPHORE_PEND, i, waiting_limit(m), 0, 0);
        return likely(m, SEMAPHORE_CREATE);
    case 4:
        for (uint32_t i = 0; i < EVENTS; i++)
            if ((t->events_in_use & bit(i)) != 0 && t->event[i].waiter == 0)
                return pend_unmet(m, i);
        return likely(m, EVENT_CREATE);
    case 5:
        for (uint32_t i = 0; i < MAILBOXES; i++)
            if ((t->mailboxes_in_use & bit(i)) != 0 && t->mailbox[i].count == t->mailbox[i].capacity)
                return post_unmet(m, i);
        return t->mailboxes_in_use != 0 ? likely(m, MAILBOX_POST) : likely(m, MAILBOX_CREATE);
    default:
        for (uint32_t i = 0; i < MAILBOXES; i++)
            if ((t->mailboxes_in_use & bit(i)) != 0 && t->mailbox[i].count == 0)
                return call_of(MAILBOX_PEND, i, waiting_limit(m), 0, 0);
        return likely(m, MAILBOX_CREATE);
    }
}
