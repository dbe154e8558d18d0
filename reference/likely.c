/* Calls with arguments that the tables make likely to be accepted. */
#include "chance.h"
#include "likely.h"
#include "objects.h"
#include "sight.h"

struct call call_of(uint32_t number, uint32_t a, uint32_t b, uint32_t c, uint32_t d)
{
    return (struct call){ number, { a, b, c, d } };
}

/* Arguments */

static uint32_t object(struct maker *m, uint32_t set, uint32_t size)
{
    if (set != 0 && chance(m, 94))
        return member(m, set);
    return chance(m, 70) ? below(m, size) : wild(m);
}

static uint32_t level_of_phase(struct maker *m)
{
    return m->first_level + below(m, m->last_level - m->first_level + 1);
}

/* The number of levels itself, or a greater number: a level again, if some bits were left out. */
static uint32_t beyond_levels(struct maker *m)
{
    uint32_t greater = m->tables.levels << below(m, 4);

    return chance(m, 50) ? m->tables.levels : greater + level_of_phase(m);
}

uint32_t some_level(struct maker *m)
{
    return m->tries_levels && chance(m, 3) ? beyond_levels(m) : level_of_phase(m);
}

uint32_t task_priority(struct maker *m)
{
    if (chance(m, 4))
        return MINUS_ONE;
    return chance(m, 85) ? some_level(m) : 1 + below(m, m->tables.levels - 1);
}

/* Now and then, where the maker tries the levels, one that a Swi may not have and a task may with LEVELS_MOST. */
static uint32_t swi_priority(struct maker *m)
{
    if (m->tries_levels && chance(m, 6))
        return SWI_LEVELS + below(m, LEVELS_MOST - SWI_LEVELS);
    return below(m, SWI_LEVELS);
}

uint32_t some_limit(struct maker *m)
{
    if (!in_task(m))
        return chance(m, 92) ? 0 : 1 + below(m, 3);
    if (chance(m, 12))
        return 0;
    if (chance(m, m->endless))
        return WITHOUT_END;
    switch (below(m, 12)) {
    case 0:
        return WITHOUT_END - 1;
    case 1:
    case 2:
        return 1 + below(m, 30);
    default:
        return 1 + below(m, 5);
    }
}

uint32_t waiting_limit(struct maker *m)
{
    uint32_t limit = some_limit(m);

    return limit == 0 ? 1 + below(m, 4) : limit;
}

uint32_t some_word(struct maker *m)
{
    return chance(m, 5) ? 0 : (uint32_t)random_word(m);
}

uint32_t mask(struct maker *m)
{
    switch (below(m, 8)) {
    case 0:
        return 0;
    case 1:
        return (uint32_t)random_word(m);
    case 2:
        return FULL;
    case 3:
        return bit(below(m, 32));
    default:
        return below(m, 16);
    }
}

uint32_t trigger(struct maker *m)
{
    switch (below(m, 8)) {
    case 0:
        return FULL;
    case 1:
        return (uint32_t)random_word(m);
    case 2:
        return FULL - 1;
    default:
        return below(m, 5);
    }
}

uint32_t ticks(struct maker *m)
{
    uint32_t kind = below(m, 40);

    if (kind == 0)
        return FULL;
    if (kind == 1)
        return FULL - 1;
    return kind < 8 ? 1 + below(m, 20) : 1 + below(m, 4);
}

static uint32_t semaphore_count(struct maker *m, uint32_t kind)
{
    if (kind % 2 == 1)
        return below(m, chance(m, 95) ? 2 : 4);
    switch (below(m, 12)) {
    case 0:
        return 65535;
    case 1:
        return 65534;
    case 2:
        return 65536;
    case 3:
    case 4:
    case 5:
        return below(m, 5);
    default:
        return 0;
    }
}

static uint32_t bytes(struct maker *m)
{
    switch (below(m, 10)) {
    case 0:
        return 1 + below(m, 2048);
    case 1:
        return 2048 - below(m, 20);
    case 2:
    case 3:
    case 4:
        return 1 + below(m, 256);
    default:
        return 1 + below(m, 40);
    }
}

/* For a Swi most often its own alone; now and then a number that names none. */
static uint32_t some_switches(struct maker *m)
{
    uint32_t which = 1 + below(m, 3);

    if (chance(m, 8)) {
        switch (below(m, 4)) {
        case 0:
            return 0;
        case 1:
            return BOTH_SWITCHES + which;
        case 2:
            return which | bit(2 + below(m, 30)); /* a switch, if some bits were left out */
        default:
            return wild(m);
        }
    }
    return in_swi(m) && chance(m, 82) ? SWIS_SWITCH : which;
}

/* Most often of the named switches, or of one of them; now and then with another bit. */
static uint32_t key(struct maker *m, uint32_t which)
{
    switch (below(m, 24)) {
    case 0:
        return wild(m);
    case 1:
        return BOTH_SWITCHES & ~which;
    case 2:
        return which | bit(chance(m, 25) ? 31 : below(m, 31));
    case 3:
    case 4:
    case 5:
        return 0;
    case 6:
    case 7:
    case 8:
    case 9:
        return which & bit(below(m, 2));
    default:
        return which;
    }
}

/* Calls */

struct call give_back(struct maker *m)
{
    uint32_t units = 0, unit = some_block(m, &units), offset, size;

    if (unit == UNITS) {
        offset = below(m, 256) * 8;
        size = bytes(m);
        return call_of(HEAP_GIVE_BACK, offset, size, 0, 0);
    }
    offset = unit * UNIT_BYTES;
    size = units * UNIT_BYTES - below(m, UNIT_BYTES);
    if (chance(m, 8)) {
        switch (below(m, 6)) {
        case 0:
            offset += 1 + below(m, 7);
            break;
        case 1:
            offset += 8 * (1 + below(m, 3));
            break;
        case 2:
            size = units * UNIT_BYTES + 1;
            break;
        case 3:
            size = (units - 1) * UNIT_BYTES;
            break;
        case 4:
            size += 0xFFFFF800u; /* the right size again if rounding up went round */
            break;
        default:
            offset += 2048;
            break;
        }
    }
    return call_of(HEAP_GIVE_BACK, offset, size, 0, 0);
}

/* The arguments of the calls of each kind. */

static void likely_task(struct maker *m, uint32_t number, uint32_t *argument)
{
    const struct tables *t = &m->tables;
    uint32_t set;

    switch (number) {
    case TASK_CREATE:
        argument[0] = task_priority(m);
        break;
    case TASK_DELETE:
        set = tasks_in_mode(m, TERMINATED) | tasks_in_mode(m, INACTIVE);
        argument[0] = object(m, set != 0 && chance(m, 70) ? set : t->tasks_in_use, TASKS);
        break;
    case TASK_SET_PRIORITY:
        argument[0] = object(m, t->tasks_in_use, TASKS);
        argument[1] = task_priority(m);
        break;
    case TASK_SLEEP:
        argument[0] = chance(m, 6) ? 0 : chance(m, 96) ? 1 + below(m, 6) : ticks(m);
        break;
    case TASK_LAST_RESULT:
        argument[0] = object(m, t->tasks_in_use, TASKS);
        break;
    default:
        break;
    }
}

static void likely_swi(struct maker *m, uint32_t number, uint32_t *argument)
{
    switch (number) {
    case SWI_CREATE:
        argument[0] = swi_priority(m);
        argument[1] = trigger(m);
        break;
    case SWI_DELETE:
    case SWI_POST:
    case SWI_ADD_ONE:
    case SWI_TAKE_ONE:
        argument[0] = object(m, m->tables.swis_in_use, SWIS);
        break;
    case SWI_SET_BITS:
    case SWI_CLEAR_BITS:
        argument[0] = object(m, m->tables.swis_in_use, SWIS);
        argument[1] = mask(m);
        break;
    default:
        break;
    }
}

static void likely_semaphore(struct maker *m, uint32_t number, uint32_t *argument)
{
    const struct tables *t = &m->tables;
    uint32_t set;

    switch (number) {
    case SEMAPHORE_CREATE:
        argument[0] = below(m, 4);
        argument[1] = semaphore_count(m, argument[0]);
        break;
    case SEMAPHORE_POST:
        set = semaphores_near_most(m);
        argument[0] = object(m, set != 0 && chance(m, 20) ? set : t->semaphores_in_use, SEMAPHORES);
        break;
    case SEMAPHORE_DELETE:
        argument[0] = object(m, t->semaphores_in_use, SEMAPHORES);
        break;
    case SEMAPHORE_PEND:
        argument[0] = object(m, t->semaphores_in_use, SEMAPHORES);
        argument[1] = some_limit(m);
        break;
    case SEMAPHORE_RESET:
        argument[0] = object(m, t->semaphores_in_use, SEMAPHORES);
        argument[1] = semaphore_count(m, argument[0] < SEMAPHORES ? t->semaphore[argument[0]].kind : 0);
        break;
    default:
        break;
    }
}

static void likely_event(struct maker *m, uint32_t number, uint32_t *argument)
{
    uint32_t events = m->tables.events_in_use;

    switch (number) {
    case EVENT_DELETE:
        argument[0] = object(m, events, EVENTS);
        break;
    case EVENT_PEND:
        argument[0] = object(m, events, EVENTS);
        argument[1] = mask(m);
        argument[2] = mask(m);
        argument[3] = some_limit(m);
        break;
    case EVENT_POST:
        argument[0] = object(m, events, EVENTS);
        argument[1] = mask(m);
        break;
    default:
        break;
    }
}

static void likely_mailbox(struct maker *m, uint32_t number, uint32_t *argument)
{
    uint32_t mailboxes = m->tables.mailboxes_in_use;

    switch (number) {
    case MAILBOX_CREATE:
        argument[0] = chance(m, 25) ? MESSAGES : 1 + below(m, chance(m, 60) ? 3 : MESSAGES);
        break;
    case MAILBOX_DELETE:
        argument[0] = object(m, mailboxes, MAILBOXES);
        break;
    case MAILBOX_POST:
        argument[0] = object(m, mailboxes, MAILBOXES);
        argument[1] = some_word(m);
        argument[2] = some_limit(m);
        break;
    case MAILBOX_PEND:
        argument[0] = object(m, mailboxes, MAILBOXES);
        argument[1] = some_limit(m);
        break;
    default:
        break;
    }
}

/* Clocks and switches, and the heap's take. */
static void likely_other(struct maker *m, uint32_t number, uint32_t *argument)
{
    switch (number) {
    case CLOCK_CREATE:
        argument[0] = object(m, m->tables.swis_in_use, SWIS);
        argument[1] = ticks(m);
        argument[2] = chance(m, 40) ? 0 : ticks(m);
        break;
    case CLOCK_DELETE:
    case CLOCK_START:
    case CLOCK_STOP:
        argument[0] = object(m, m->tables.clocks_in_use, CLOCKS);
        break;
    case HEAP_TAKE:
        argument[0] = bytes(m);
        break;
    case SWITCHES_OFF:
        argument[0] = some_switches(m);
        argument[1] = chance(m, 4) ? argument[0] : 0; /* a key that it does not take */
        break;
    case SWITCHES_RESTORE:
        argument[0] = some_switches(m);
        argument[1] = key(m, argument[0]);
        argument[2] = chance(m, 6);
        break;
    default:
        break;
    }
}

/*
 * Every call, with arguments that the tables make likely to be accepted. The random numbers are drawn one statement after the other, so that every
 * compiler makes the same log.
 */
struct call likely(struct maker *m, uint32_t number)
{
    struct call call = call_of(number, 0, 0, 0, 0);

    if (number == HEAP_GIVE_BACK)
        return give_back(m);
    switch (number - number % RANGE) {
    case TASK_CREATE:
        likely_task(m, number, call.argument);
        break;
    case SWI_CREATE:
        likely_swi(m, number, call.argument);
        break;
    case SEMAPHORE_CREATE:
        likely_semaphore(m, number, call.argument);
        break;
    case EVENT_CREATE:
        likely_event(m, number, call.argument);
        break;
    case MAILBOX_CREATE:
        likely_mailbox(m, number, call.argument);
        break;
    default:
        likely_other(m, number, call.argument);
        break;
    }
    return call;
}

struct call any(struct maker *m)
{
    static const uint8_t from_interrupt[] = { TASK_LAST_RESULT, SWI_POST, SWI_ADD_ONE, SWI_TAKE_ONE, SWI_SET_BITS, SWI_CLEAR_BITS, SEMAPHORE_POST,
                                              SEMAPHORE_POST, EVENT_POST, EVENT_POST, MAILBOX_POST, MAILBOX_PEND, SEMAPHORE_PEND, EVENT_PEND,
                                              CLOCK_START, CLOCK_STOP, INTERRUPT_IN, INTERRUPT_OUT, INTERRUPT_OUT, INTERRUPT_OUT, TICK, TICK,
                                              TICK, TICK };
    static const uint8_t from_swi[] = { TASK_LAST_RESULT, SWI_POST, SWI_ADD_ONE, SWI_TAKE_ONE, SWI_SET_BITS, SWI_CLEAR_BITS, SEMAPHORE_POST,
                                        EVENT_POST, MAILBOX_POST, MAILBOX_PEND, SEMAPHORE_PEND, EVENT_PEND, CLOCK_START, CLOCK_STOP,
                                        INTERRUPT_IN, SWI_END, SWI_END, SWI_END, SWI_END, SWI_TAKEN_TRIGGER, SWI_TAKEN_TRIGGER, TASK_SET_PRIORITY,
                                        TASK_SET_PRIORITY, SWITCHES_OFF, SWITCHES_RESTORE, SWITCHES_RESTORE };

    if (in_swi(m) && front_task(m) != m->tables.current && chance(m, 10)) /* only one of the two is the current task */
        return call_of(TASK_SET_PRIORITY, chance(m, 50) ? m->tables.current : front_task(m), MINUS_ONE, 0, 0);
    if (!in_task(m) && chance(m, 75)) {
        if (in_swi(m))
            return likely(m, from_swi[below(m, sizeof from_swi)]);
        return likely(m, from_interrupt[below(m, sizeof from_interrupt)]);
    }
    if (in_task(m) && !is_calm(m) && chance(m, 20))
        return likely(m, SWITCHES_RESTORE);
    if (chance(m, 4))
        return likely(m, chance(m, 50) ? SWITCHES_OFF : SWITCHES_RESTORE);
    return likely(m, call_forms[below(m, CALLS)].number);
}

/* A number that no object of the table has. */
static uint32_t absent_number(struct maker *m, uint32_t table)
{
    uint32_t size = table_size(table), in_use = table_in_use(&m->tables, table);
    uint32_t unused = ~in_use & FULL >> (32 - size), deleted = unused & m->made[table];

    switch (below(m, 8)) {
    case 0:
    case 1:
        return size;
    case 2:
        return in_use != 0 ? size + member(m, in_use) : FULL; /* an object's number if it went round */
    case 3:
        return FULL - below(m, 2);
    case 4:
        return (unused & bit(size - 1)) != 0 ? size - 1 : size;
    case 5:
        return unused != 0 ? member(m, unused) : size;
    default:
        return deleted != 0 ? member(m, deleted) : size;
    }
}

/* A call that takes an object's number: of that table, or of any if it is 0. */
static struct call on_object(struct maker *m, uint32_t table)
{
    const struct call_form *form;

    do
        form = &call_forms[below(m, CALLS)];
    while (table_of(form) == 0 || (table != 0 && table_of(form) != table));
    return likely(m, form->number);
}

struct call absent_call(struct maker *m)
{
    struct call call = on_object(m, 0);

    call.argument[0] = absent_number(m, table_of(form_of(call.number)));
    return call;
}

struct call deleted_call(struct maker *m)
{
    struct call call = on_object(m, m->deleted_from);

    call.argument[0] = m->deleted;
    return call;
}

struct call gone_call(struct maker *m)
{
    uint32_t number = FIRST_GONE + below(m, LAST_GONE - FIRST_GONE + 1);
    struct call call = call_of(number, number % 2 == 1 && chance(m, 80), 0, 0, 0);

    if (chance(m, 10))
        return call_of(SWITCHES_RESTORE + 1, BOTH_SWITCHES, BOTH_SWITCHES, 0, 0);
    if (chance(m, 20))
        call.argument[below(m, 4)] = 1 + below(m, 3);
    return call;
}

struct call wild_call(struct maker *m)
{
    uint32_t number = chance(m, 80) ? call_forms[below(m, CALLS)].number : below(m, 256);
    struct call call = likely(m, number);

    for (unsigned i = 0; i < 4; i++)
        if (chance(m, 35))
            call.argument[i] = wild(m);
    return call;
}
