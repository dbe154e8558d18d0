/* The sequences of calls written by hand, a table of rows for each kind. */
#ifndef KINDS_H
#define KINDS_H

#include "core.h"

#include <stddef.h>

#define F 4294967295u /* without end, or priority -1 */

/* In the comments beside the rows, a line of tasks at a priority is written as 5: 1 4 3, the front first. */
struct row {
    uint32_t call, a, b, c, d;
    uint32_t code, outcome, value;
    const char *thread;    /* that runs after the call */
    unsigned times;        /* how often the call is made, 0 for once; RISING + n: n times, the value one more each time */
};

enum { RISING = 1000 };

struct named_table {
    const char *name;
    uint32_t levels;           /* of the tables on which the rows are run */
    uint32_t range;            /* first call number of the kind; above 255 for none */
    const struct row *row;
    size_t rows;
};

/* The initializer of a named_table, whose rows stand under its name. */
#define TABLE_WITH(levels, name, range) { #name, levels, range, name, sizeof name / sizeof name[0] }

/* The same with the fewer levels. */
#define TABLE(name, range) TABLE_WITH(LEVELS_LEAST, name, range)

/* threads.c */
extern const struct named_table tasks_table, swis_table;

/* levels.c */
extern const struct named_table levels_table;

/* pends.c */
extern const struct named_table semaphores_table, events_table, mailboxes_table;

/* machine.c */
extern const struct named_table clocks_table, heap_table, switches_table, five_table;

/*
 * sides.c: the sums of sums.h, worked out by hand; adds its calls, and the lists in which it makes them again, to *calls and *lists and gives the
 * number of faults, which it has told.
 */
unsigned sides_check(unsigned long *calls, unsigned long *lists);

/*
 * listed.c: lists of calls by hand, and the rows of these tables by lists; adds the lists and the calls of those accepted to *lists and *calls and
 * gives the number of faults, which it has told.
 */
unsigned listed_check(const struct named_table *const tables[], size_t names, unsigned long *lists, unsigned long *calls);

/* spoils.c: tables that are not sound, and some that are, by hand; adds their number to *tables and gives the number of faults, which it has told. */
unsigned spoils_check(unsigned long *tables);

#endif
