/* The tables of objects, by the number with which an answer's value names them. */
#include "objects.h"

#include <string.h>

/* What the first argument of a call is named that takes a number of the table; and its size. */
static const struct {
    const char *argument;
    uint32_t size;
} object_tables[] = {
    [TASK_TABLE] = { "task", TASKS },
    [SWI_TABLE] = { "Swi", SWIS },
    [SEMAPHORE_TABLE] = { "semaphore", SEMAPHORES },
    [EVENT_TABLE] = { "event", EVENTS },
    [MAILBOX_TABLE] = { "mailbox", MAILBOXES },
    [CLOCK_TABLE] = { "clock", CLOCKS },
};

uint32_t table_of(const struct call_form *form)
{
    for (uint32_t table = TASK_TABLE; table <= CLOCK_TABLE; table++)
        if (form->argument[0] != NULL && strcmp(form->argument[0], object_tables[table].argument) == 0)
            return table;
    return 0;
}

uint32_t table_size(uint32_t table)
{
    return object_tables[table].size;
}

uint32_t table_in_use(const struct tables *t, uint32_t table)
{
    const uint32_t sets[] = { [TASK_TABLE] = t->tasks_in_use,
                              [SWI_TABLE] = t->swis_in_use,
                              [SEMAPHORE_TABLE] = t->semaphores_in_use,
                              [EVENT_TABLE] = t->events_in_use,
                              [MAILBOX_TABLE] = t->mailboxes_in_use,
                              [CLOCK_TABLE] = t->clocks_in_use };

    return sets[table];
}
