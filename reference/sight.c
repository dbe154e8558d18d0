/* What the maker sees in the tables. */
#include "chance.h"
#include "sight.h"

uint32_t bit(uint32_t number)
{
    return (uint32_t)1 << number;
}

int in_task(const struct maker *m)
{
    return m->tables.depth == 0 && m->tables.active_count == 0;
}

int in_swi(const struct maker *m)
{
    return m->tables.depth == 0 && m->tables.active_count != 0;
}

int is_calm(const struct maker *m)
{
    return in_task(m) && switches_now_off(m) == 0;
}

uint32_t switches_now_off(const struct maker *m)
{
    return (m->tables.swis_on ? 0 : (uint32_t)SWIS_SWITCH) | (m->tables.tasks_on ? 0 : (uint32_t)TASKS_SWITCH);
}

uint32_t front_task(const struct maker *m)
{
    return m->tables.link[HEAD_OF_READY + 31u - (uint32_t)__builtin_clz(m->tables.ready_levels)].next;
}

uint32_t bare_levels(const struct maker *m)
{
    return FULL >> (LEVELS_MOST - m->tables.levels) & ~m->tables.ready_levels & ~bit(0);
}

uint32_t crowded_tasks(const struct maker *m)
{
    uint32_t set = 0;

    for (uint32_t i = 1; i < TASKS; i++)
        if (m->tables.task[i].mode == READY && line_length(m, HEAD_OF_READY + m->tables.task[i].priority) > 1)
            set |= bit(i);
    return set;
}

uint32_t line_length(const struct maker *m, uint32_t head)
{
    uint32_t length = 0;

    for (uint32_t place = m->tables.link[head].next; place != head; place = m->tables.link[place].next)
        length++;
    return length;
}

uint32_t tasks_in_line(const struct maker *m, uint32_t head)
{
    uint32_t set = 0;

    for (uint32_t place = m->tables.link[head].next; place != head; place = m->tables.link[place].next)
        set |= bit(place);
    return set;
}

uint32_t tasks_in_mode(const struct maker *m, enum mode mode)
{
    uint32_t set = 0;

    for (uint32_t i = 0; i < TASKS; i++)
        if (m->tables.task[i].mode == mode)
            set |= bit(i);
    return set;
}

uint32_t tasks_at(const struct maker *m, enum wait wait)
{
    uint32_t set = 0;

    for (uint32_t i = 0; i < TASKS; i++)
        if (m->tables.task[i].mode == BLOCKED && m->tables.task[i].wait == wait)
            set |= bit(i);
    return set;
}

uint32_t semaphores_near_most(const struct maker *m)
{
    uint32_t set = 0;

    for (uint32_t i = 0; i < SEMAPHORES; i++)
        if (m->tables.semaphore[i].count >= COUNT_MOST - 1)
            set |= bit(i);
    return set;
}

uint32_t swis_at_priority(const struct maker *m, uint32_t priority)
{
    uint32_t set = 0;

    for (uint32_t i = 0; i < SWIS; i++)
        if ((m->tables.swis_in_use & bit(i)) != 0 && m->tables.swi[i].priority == priority)
            set |= bit(i);
    return set;
}

uint32_t some_block(struct maker *m, uint32_t *units)
{
    uint32_t first[UNITS], blocks = 0, unit, end;

    for (uint32_t i = 0; i < UNITS; i++)
        if ((m->tables.heap_first[i / 64] >> i % 64 & 1) != 0)
            first[blocks++] = i;
    if (blocks == 0)
        return UNITS;
    unit = first[below(m, blocks)];
    for (end = unit + 1; end < UNITS; end++)
        if ((m->tables.heap_taken[end / 64] >> end % 64 & 1) == 0 || (m->tables.heap_first[end / 64] >> end % 64 & 1) != 0)
            break;
    *units = end - unit;
    return unit;
}
