/* One step of each phase of interrupts, Swis, clocks and switches. */
#include "chance.h"
#include "likely.h"
#include "moves.h"
#include "sight.h"
#include "steps.h"

struct call nest_step(struct maker *m)
{
    const struct tables *t = &m->tables;

    if (t->depth >= m->goal)
        m->descending = 1;
    if (t->depth == 0 && m->descending) {
        end_phase(m);
        return any(m);
    }
    if (chance(m, m->goal == DEPTH_MOST ? 25 : 50))
        return any(m);
    if (t->depth == DEPTH_MOST && chance(m, 40))
        return call_of(INTERRUPT_IN, 0, 0, 0, chance(m, 25));
    return call_of(m->descending ? INTERRUPT_OUT : INTERRUPT_IN, 0, 0, 0, 0);
}

static struct call create_swi(struct maker *m, uint32_t priority)
{
    return call_of(SWI_CREATE, priority, trigger(m), 0, 0);
}

/* A call that puts a Swi out of use, or first a clock that names it. */
static struct call remove_swi(struct maker *m, uint32_t swi)
{
    for (uint32_t clock = 0; clock < CLOCKS; clock++)
        if ((m->tables.clocks_in_use & bit(clock)) != 0 && m->tables.clock[clock].swi == swi)
            return call_of(CLOCK_DELETE, clock, 0, 0, 0);
    return call_of(SWI_DELETE, swi, 0, 0, 0);
}

/* While no Swi is active: a Swi at each priority that has none, while there is room. Gives 1 and the call, or 0 if nothing is left to do. */
static int swis_missing(struct maker *m, struct call *call)
{
    const struct tables *t = &m->tables;
    uint32_t missing = 0, doubled = 0;

    for (uint32_t priority = 0; priority < SWI_LEVELS; priority++) {
        uint32_t there = swis_at_priority(m, priority);

        if (there == 0)
            missing |= bit(priority);
        else
            doubled |= there & (there - 1);
    }
    if (missing != 0 && t->swis_in_use != 0xFFFF && (m->goal > 8 || chance(m, 60)))
        *call = create_swi(m, m->goal > 8 || chance(m, 50) ? member(m, missing) : below(m, SWI_LEVELS));
    else if (doubled != 0 && m->goal > 8 && chance(m, 90))
        *call = remove_swi(m, member(m, doubled));
    else
        return 0;
    return 1;
}

static struct call descend_tower(struct maker *m)
{
    const struct tables *t = &m->tables;

    switch (below(m, 6)) {
    case 0:
        return t->swis_in_use != 0 ? surely_post(m, member(m, t->swis_in_use)) : any(m);
    case 1:
        return call_of(SWI_TAKEN_TRIGGER, 0, 0, 0, 0);
    case 2:
        return any(m);
    default:
        return call_of(SWI_END, 0, 0, 0, 0);
    }
}

struct call tower_step(struct maker *m)
{
    const struct tables *t = &m->tables;
    uint32_t next = 0;
    struct call call;

    if (t->depth != 0)
        return chance(m, 40) && t->swis_in_use != 0 ? surely_post(m, member(m, t->swis_in_use)) : call_of(INTERRUPT_OUT, 0, 0, 0, 0);
    if (!t->swis_on && chance(m, 70))
        return call_of(SWITCHES_RESTORE, SWIS_SWITCH, SWIS_SWITCH, 0, 0);
    if (t->active_count == 0) {
        if (m->descending) {
            end_phase(m);
            return any(m);
        }
        if (swis_missing(m, &call))
            return call;
    } else {
        next = t->swi[t->active[t->active_count - 1]].priority + 1;
        if (t->active_count >= m->goal)
            m->descending = 1;
    }
    if (m->descending)
        return descend_tower(m);
    if (chance(m, 15))
        return t->swis_in_use != 0 && chance(m, 60) ? surely_post(m, member(m, t->swis_in_use)) : any(m);
    for (uint32_t priority = next; priority < SWI_LEVELS; priority++) {
        uint32_t there = swis_at_priority(m, priority);

        if (there != 0 && (m->goal > 8 || chance(m, 70)))
            return surely_post(m, member(m, there));
    }
    m->descending = t->active_count != 0;
    return any(m);
}

struct call swi_queue_step(struct maker *m)
{
    const struct tables *t = &m->tables;
    uint32_t there, others, unposted;

    if (m->target >= SWI_LEVELS)
        m->target = below(m, SWI_LEVELS);
    there = swis_at_priority(m, m->target);
    others = t->swis_in_use & ~there;
    unposted = there & ~t->swis_posted;
    if (m->descending) {
        if (t->swis_posted == 0 && t->active_count == 0)
            end_phase(m);
        if (chance(m, 15) && t->swis_in_use != 0)
            return surely_post(m, member(m, t->swis_in_use));
        return is_calm(m) ? any(m) : calm_down(m);
    }
    if (t->depth != 0 || !t->swis_on) {
        if (unposted != 0 && chance(m, 98))
            return surely_post(m, member(m, unposted));
        m->descending = 1;
        return any(m);
    }
    if (t->active_count != 0)
        return calm_down(m);
    if (others != 0 && m->goal > 4 && chance(m, 90))
        return remove_swi(m, member(m, others));
    if (t->swis_in_use != 0xFFFF && chance(m, 98))
        return create_swi(m, m->target);
    if (chance(m, 50))
        return call_of(INTERRUPT_IN, 0, 0, 0, 0);
    return call_of(SWITCHES_OFF, chance(m, 70) ? SWIS_SWITCH : BOTH_SWITCHES, 0, 0, 0);
}

struct call triggers_step(struct maker *m)
{
    const struct tables *t = &m->tables;

    if (in_task(m) && t->swis_in_use != 0xFFFF && (t->swis_in_use == 0 || chance(m, 15)))
        return likely(m, SWI_CREATE);
    if (in_swi(m) && chance(m, 40))
        return call_of(chance(m, 50) ? SWI_END : SWI_TAKEN_TRIGGER, 0, 0, 0, 0);
    if (chance(m, 10))
        return likely(m, chance(m, 50) ? SWITCHES_OFF : SWITCHES_RESTORE);
    if (chance(m, 6))
        return call_of(m->tables.depth == 0 ? INTERRUPT_IN : INTERRUPT_OUT, 0, 0, 0, 0);
    return likely(m, SWI_POST + below(m, 5));
}

struct call clockwork_step(struct maker *m)
{
    const struct tables *t = &m->tables;

    if (in_swi(m) && chance(m, 60))
        return calm_down(m);
    if (in_task(m) && t->swis_in_use == 0)
        return likely(m, SWI_CREATE);
    if (in_task(m) && (t->clocks_in_use == 0 || chance(m, 12)))
        return likely(m, chance(m, 80) ? CLOCK_CREATE : CLOCK_DELETE);
    if (t->clocks_in_use != 0 && chance(m, 25))
        return likely(m, chance(m, 75) ? CLOCK_START : CLOCK_STOP);
    return tick_step(m);
}

struct call chime_step(struct maker *m)
{
    const struct tables *t = &m->tables;
    uint32_t named = 0, other = 0, late = 0;

    if (m->target == FULL)
        m->target = 1 + below(m, 4); /* the ticks of all */
    for (uint32_t i = 0; i < CLOCKS; i++) {
        if ((t->clocks_in_use & bit(i)) == 0)
            continue;
        named |= bit(t->clock[i].swi);
        if (t->clock[i].first != m->target)
            other |= bit(i);
        if (t->clock[i].ticks_left != m->target)
            late |= bit(i);
    }
    if (m->descending) {
        if (m->descending++ > 2 * m->target + 4)
            end_phase(m);
        if (in_swi(m))
            return calm_down(m);
        return chance(m, 80) && t->depth != 0 ? call_of(TICK, 0, 0, 0, 0) : tick_step(m);
    }
    if (!in_task(m))
        return calm_down(m);
    if (other != 0)
        return call_of(CLOCK_DELETE, member(m, other), 0, 0, 0);
    if (t->swis_in_use != 0xFFFF && (t->swis_in_use == 0 || m->goal > 3 || chance(m, 50)))
        return likely(m, SWI_CREATE);
    if (t->clocks_in_use != 0xFFFF && (m->goal > 3 || chance(m, 70))) {
        uint32_t swi = member(m, (t->swis_in_use & ~named) != 0 ? t->swis_in_use & ~named : t->swis_in_use);

        return call_of(CLOCK_CREATE, swi, m->target, chance(m, 50) ? 0 : ticks(m), 0);
    }
    if (late != 0)
        return call_of(CLOCK_START, member(m, late), 0, 0, 0);
    m->descending = 1;
    return call_of(INTERRUPT_IN, 0, 0, 0, 0);
}

/* Another task is to stand in front of the current one, which goes on running while a switch is off. */
static struct call other_in_front(struct maker *m)
{
    uint32_t others = tasks_in_mode(m, READY) & ~bit(m->tables.current) & ~bit(0);

    if (others == 0)
        return call_of(TASK_CREATE, m->tables.levels - 1, 0, 0, 0);
    if (chance(m, 50))
        return call_of(TASK_SET_PRIORITY, m->tables.current, 1, 0, 0);
    return call_of(TASK_SET_PRIORITY, member(m, others), m->tables.levels - 1, 0, 0);
}

/* A Swi or an interrupt, among the steps of switched_off_step. */
static struct call switched_off_above(struct maker *m)
{
    if (chance(m, 12))
        return likely(m, chance(m, 50) ? SWITCHES_OFF : SWITCHES_RESTORE);
    if (m->tables.depth != 0)
        return chance(m, 50) ? any(m) : call_of(INTERRUPT_OUT, 0, 0, 0, 0);
    switch (below(m, 6)) {
    case 0:
        return call_of(SWITCHES_OFF, SWIS_SWITCH, 0, 0, 0);
    case 1:
        return likely(m, SWITCHES_RESTORE);
    case 2:
    case 3:
        return call_of(SWI_END, 0, 0, 0, 0);
    default:
        return any(m);
    }
}

struct call switched_off_step(struct maker *m)
{
    const struct tables *t = &m->tables;

    if (!in_task(m))
        return switched_off_above(m);
    if (is_calm(m)) {
        if (t->current == 0 && chance(m, 60))
            return bring_task(m);
        return call_of(SWITCHES_OFF, 1 + below(m, 3), 0, 0, 0);
    }
    if (switches_now_off(m) == BOTH_SWITCHES && front_task(m) != t->current && chance(m, 25))
        return call_of(SWITCHES_RESTORE, BOTH_SWITCHES, BOTH_SWITCHES, 0, 0); /* a task switches, but a posted Swi begins before it */
    switch (below(m, 12)) {
    case 0:
    case 1:
    case 2:
        return would_wait(m);
    case 3:
        return chance(m, 50) ? likely(m, TASK_CREATE) : other_in_front(m);
    case 4:
        return likely(m, TASK_SET_PRIORITY);
    case 5:
        return t->swis_in_use != 0 ? surely_post(m, member(m, t->swis_in_use)) : likely(m, SWI_CREATE);
    case 6:
        return likely(m, SWITCHES_RESTORE);
    case 7:
        return chance(m, 30) ? call_of(SWITCHES_OFF, 1 + below(m, 3), 0, 0, 0) : serve_somebody(m);
    case 8:
        return chance(m, 20) ? gone_call(m) : any(m);
    case 9:
        return chance(m, 50) ? turn_on(m) : any(m);
    default:
        return any(m);
    }
}
