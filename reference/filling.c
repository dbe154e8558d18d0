/* One step of each phase that fills the heap or a table, or clears them. */
#include "chance.h"
#include "likely.h"
#include "moves.h"
#include "sight.h"
#include "steps.h"

static uint32_t units_taken(const struct maker *m)
{
    uint32_t units = 0;

    for (uint32_t i = 0; i < HEAP_WORDS; i++)
        units += (uint32_t)__builtin_popcountll(m->tables.heap_taken[i]);
    return units;
}

struct call heap_fill_step(struct maker *m)
{
    if (!in_task(m))
        return calm_down(m);
    if (units_taken(m) == UNITS && chance(m, 50)) {
        end_phase(m);
        return call_of(HEAP_TAKE, 1 + below(m, 8), 0, 0, 0);
    }
    if (chance(m, 4))
        return give_back(m);
    return call_of(HEAP_TAKE, 1 + below(m, m->goal * 8), 0, 0, 0);
}

/* First only blocks of one unit, then every other one of them back, then larger ones. */
struct call heap_holes_step(struct maker *m)
{
    const struct tables *t = &m->tables;

    if (!in_task(m))
        return calm_down(m);
    if (!m->descending) {
        for (uint32_t unit = 0; unit + 1 < UNITS; unit++) {
            uint32_t end = unit + 1;

            if ((t->heap_first[unit / 64] >> unit % 64 & 1) == 0)
                continue;
            while (end < UNITS && (t->heap_taken[end / 64] >> end % 64 & 1) != 0 && (t->heap_first[end / 64] >> end % 64 & 1) == 0)
                end++;
            if (end > unit + 1)
                return call_of(HEAP_GIVE_BACK, unit * UNIT_BYTES, (end - unit) * UNIT_BYTES, 0, 0);
        }
        if (units_taken(m) < UNITS)
            return call_of(HEAP_TAKE, 1 + below(m, 8), 0, 0, 0);
        m->descending = 1;
        m->target = below(m, 2);
    }
    while (m->target < UNITS) {
        uint32_t unit = m->target;
        int taken = (t->heap_taken[unit / 64] >> unit % 64 & 1) != 0;

        m->target += 2;
        if (taken)
            return call_of(HEAP_GIVE_BACK, unit * UNIT_BYTES, 1 + below(m, 8), 0, 0);
    }
    if (chance(m, 60))
        return call_of(HEAP_TAKE, 1 + below(m, 24), 0, 0, 0);
    return give_back(m);
}

struct call heap_churn_step(struct maker *m)
{
    if (!in_task(m))
        return calm_down(m);
    return chance(m, 55) ? likely(m, HEAP_TAKE) : give_back(m);
}

struct call fill_step(struct maker *m)
{
    static const uint8_t creates[] = { TASK_CREATE, SWI_CREATE, SEMAPHORE_CREATE, EVENT_CREATE, MAILBOX_CREATE, CLOCK_CREATE };
    uint32_t number = creates[m->goal % sizeof creates];

    if (!in_task(m))
        return calm_down(m);
    if (number == TASK_CREATE)
        return call_of(TASK_CREATE, chance(m, 30) ? MINUS_ONE : some_level(m), 0, 0, 0);
    if (number == CLOCK_CREATE && m->tables.swis_in_use == 0)
        number = SWI_CREATE;
    return likely(m, number);
}

struct call clean_step(struct maker *m)
{
    const struct tables *t = &m->tables;
    uint32_t set;

    if (!is_calm(m))
        return calm_down(m);
    if (t->current != 0)
        return call_of(TASK_END, 0, 0, 0, 0);
    set = tasks_in_mode(m, TERMINATED) | tasks_in_mode(m, INACTIVE);
    if (set != 0)
        return call_of(TASK_DELETE, member(m, set), 0, 0, 0);
    if (tasks_in_mode(m, BLOCKED) != 0 && chance(m, 80))
        return tasks_at(m, SLEEPING) != tasks_in_mode(m, BLOCKED) ? serve_somebody(m) : tick_step(m);
    switch (below(m, 6)) {
    case 0:
        return likely(m, CLOCK_DELETE);
    case 1:
        return likely(m, SWI_DELETE);
    case 2:
        return likely(m, SEMAPHORE_DELETE);
    case 3:
        return likely(m, EVENT_DELETE);
    case 4:
        for (uint32_t i = 0; i < MAILBOXES; i++)
            if (t->mailbox[i].count != 0 && chance(m, 80))
                return call_of(MAILBOX_PEND, i, 0, 0, 0);
        return likely(m, MAILBOX_DELETE);
    default:
        return give_back(m);
    }
}
