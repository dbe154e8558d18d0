/* The rows of the threads, tasks and Swis. */
#include "kinds.h"

static const struct row tasks[] = {
    { 0x07, 0, 0, 0, 0, 1, 0, 0, "T0", 0 },
    { TASK_CREATE, 0, 0, 0, 0, 4, 0, 0, "T0", 0 },          /* 0 is task 0's alone */
    { TASK_CREATE, 16, 0, 0, 0, 4, 0, 0, "T0", 0 },
    { TASK_CREATE, F - 1, 0, 0, 0, 4, 0, 0, "T0", 0 },
    { TASK_CREATE, 5, 0, 0, 1, 4, 0, 0, "T0", 0 },          /* an unused argument not 0 */
    { TASK_CREATE, 5, 0, 0, 0, 0, 0, 1, "T1", 0 },          /* above task 0, so it runs */
    { TASK_CREATE, 15, 0, 0, 0, 0, 0, 2, "T2", 0 },
    { TASK_CREATE, F, 0, 0, 0, 0, 0, 3, "T2", 0 },          /* inactive */
    { TASK_CREATE, 5, 0, 0, 0, 0, 0, 4, "T2", 0 },          /* 15: 2, 5: 1 4 */
    { TASK_DELETE, 32, 0, 0, 0, 3, 0, 1, "T2", 0 },         /* outside its table, table 1 */
    { TASK_DELETE, 35, 0, 0, 0, 3, 0, 1, "T2", 0 },         /* 32 + 3, and there is a task 3 */
    { TASK_DELETE, F, 0, 0, 0, 3, 0, 1, "T2", 0 },
    { TASK_DELETE, F, 1, 0, 0, 3, 0, 1, "T2", 0 },          /* 3 before 4 */
    { TASK_DELETE, 5, 0, 0, 0, 11, 0, 1, "T2", 0 },         /* inside it, not in use */
    { TASK_DELETE, 31, 0, 0, 0, 11, 0, 1, "T2", 0 },
    { TASK_DELETE, 31, 0, 0, 1, 11, 0, 1, "T2", 0 },        /* 11 before 4 */
    { TASK_DELETE, 3, 1, 0, 0, 4, 0, 0, "T2", 0 },
    { TASK_DELETE, 1, 1, 0, 0, 4, 0, 0, "T2", 0 },          /* 4 before 5 */
    { TASK_DELETE, 0, 0, 0, 0, 5, 0, 0, "T2", 0 },          /* ready */
    { TASK_DELETE, 1, 0, 0, 0, 5, 0, 0, "T2", 0 },
    { TASK_DELETE, 2, 0, 0, 0, 5, 0, 0, "T2", 0 },
    { TASK_DELETE, 3, 0, 0, 0, 0, 0, 0, "T2", 0 },
    { TASK_DELETE, 3, 0, 0, 0, 11, 0, 1, "T2", 0 },         /* below the table's size, but deleted */
    { TASK_SET_PRIORITY, 3, 5, 0, 0, 11, 0, 1, "T2", 0 },
    { TASK_LAST_RESULT, 3, 0, 0, 0, 11, 0, 1, "T2", 0 },
    { TASK_CREATE, F, 0, 0, 0, 0, 0, 3, "T2", 0 },          /* the lowest free number */
    { TASK_LAST_RESULT, 3, 0, 0, 0, 0, 0, 0, "T2", 0 },     /* inactive, but in use */
    { TASK_SET_PRIORITY, 32, 3, 0, 0, 3, 0, 1, "T2", 0 },
    { TASK_SET_PRIORITY, F, 3, 0, 0, 3, 0, 1, "T2", 0 },
    { TASK_SET_PRIORITY, 32, 0, 0, 0, 3, 0, 1, "T2", 0 },   /* 3 before 4 */
    { TASK_SET_PRIORITY, 9, 3, 0, 0, 11, 0, 1, "T2", 0 },
    { TASK_SET_PRIORITY, 31, 3, 0, 0, 11, 0, 1, "T2", 0 },
    { TASK_SET_PRIORITY, 31, 16, 0, 0, 11, 0, 1, "T2", 0 }, /* 11 before 4 */
    { TASK_SET_PRIORITY, 1, 0, 0, 0, 4, 0, 0, "T2", 0 },
    { TASK_SET_PRIORITY, 1, 16, 0, 0, 4, 0, 0, "T2", 0 },
    { TASK_SET_PRIORITY, 1, 5, 1, 0, 4, 0, 0, "T2", 0 },
    { TASK_SET_PRIORITY, 0, 0, 0, 0, 4, 0, 0, "T2", 0 },    /* 4 before 5 */
    { TASK_SET_PRIORITY, 0, 3, 0, 0, 5, 0, 0, "T2", 0 },
    { TASK_SET_PRIORITY, 2, F, 0, 0, 5, 0, 0, "T2", 0 },    /* the current task */
    { TASK_SET_PRIORITY, 3, F, 0, 0, 0, 0, F, "T2", 0 },    /* the same priority */
    { TASK_SET_PRIORITY, 1, 5, 0, 0, 0, 0, 5, "T2", 0 },    /* the same changes nothing: 5: 1 4 */
    { TASK_SET_PRIORITY, 3, 5, 0, 0, 0, 0, F, "T2", 0 },    /* inactive to ready: 5: 1 4 3 */
    { TASK_SET_PRIORITY, 1, 6, 0, 0, 0, 0, 5, "T2", 0 },    /* 6: 1, 5: 4 3 */
    { TASK_SET_PRIORITY, 1, 5, 0, 0, 0, 0, 6, "T2", 0 },    /* 5: 4 3 1 */
    { TASK_SLEEP, 0, 0, 0, 0, 0, 0, 0, "T2", 0 },           /* does nothing */
    { TASK_SLEEP, F, 0, 0, 0, 4, 0, 0, "T2", 0 },
    { TASK_SLEEP, 1, 1, 0, 0, 4, 0, 0, "T2", 0 },
    { TASK_SLEEP, 3, 0, 0, 0, 0, 2, 0, "T4", 0 },           /* task 2 sleeps */
    { TASK_SET_PRIORITY, 2, F, 0, 0, 5, 0, 0, "T4", 0 },    /* a blocked task */
    { TASK_SET_PRIORITY, 2, 14, 0, 0, 0, 0, 15, "T4", 0 },
    { TASK_YIELD, 0, 0, 0, 0, 0, 0, 0, "T3", 0 },           /* 5: 3 1 4 */
    { TASK_YIELD, 3, 0, 0, 0, 4, 0, 0, "T3", 0 },           /* names no task */
    { TASK_LAST_RESULT, 2, 0, 0, 0, 0, 0, 0, "T3", 0 },     /* fresh */
    { TASK_LAST_RESULT, 32, 0, 0, 0, 3, 0, 1, "T3", 0 },
    { TASK_LAST_RESULT, 40, 0, 0, 0, 3, 0, 1, "T3", 0 },
    { TASK_LAST_RESULT, F, 0, 0, 0, 3, 0, 1, "T3", 0 },
    { TASK_LAST_RESULT, F, 1, 0, 0, 3, 0, 1, "T3", 0 },     /* 3 before 4 */
    { TASK_LAST_RESULT, 5, 0, 0, 0, 11, 0, 1, "T3", 0 },
    { TASK_LAST_RESULT, 31, 0, 0, 0, 11, 0, 1, "T3", 0 },
    { TASK_LAST_RESULT, 31, 0, 1, 0, 11, 0, 1, "T3", 0 },   /* 11 before 4 */
    { TASK_LAST_RESULT, 3, 0, 0, 1, 4, 0, 0, "T3", 0 },
    { TASK_END, 3, 0, 0, 0, 4, 0, 0, "T3", 0 },
    { TASK_END, 0, 0, 0, 0, 0, 0, 0, "T1", 0 },             /* 5: 1 4 */
    { TASK_SET_PRIORITY, 3, 5, 0, 0, 5, 0, 0, "T1", 0 },    /* terminated, the same priority too */
    { TASK_SET_PRIORITY, 3, 0, 0, 0, 4, 0, 0, "T1", 0 },
    { TASK_LAST_RESULT, 3, 0, 0, 0, 0, 0, 0, "T1", 0 },     /* in use until it is deleted */
    { SWITCHES_OFF, 2, 0, 0, 0, 0, 0, 2, "T1", 0 },
    { TASK_YIELD, 0, 0, 0, 0, 9, 0, 0, "T1", 0 },
    { TASK_END, 0, 0, 0, 0, 9, 0, 0, "T1", 0 },
    { TASK_SLEEP, 1, 0, 0, 0, 9, 0, 0, "T1", 0 },
    { TASK_SLEEP, 0, 0, 0, 0, 0, 0, 0, "T1", 0 },
    { TASK_SLEEP, F, 0, 0, 0, 4, 0, 0, "T1", 0 },           /* 4 before 9 */
    { SWITCHES_RESTORE, 2, 2, 0, 0, 0, 0, 0, "T1", 0 },
    { SWITCHES_OFF, 1, 0, 0, 0, 0, 0, 1, "T1", 0 },
    { TASK_YIELD, 0, 0, 0, 0, 9, 0, 0, "T1", 0 },
    { TASK_END, 0, 0, 0, 0, 9, 0, 0, "T1", 0 },
    { TASK_SLEEP, 1, 0, 0, 0, 9, 0, 0, "T1", 0 },
    { SWITCHES_RESTORE, 1, 1, 0, 0, 0, 0, 0, "T1", 0 },
    { INTERRUPT_IN, 0, 0, 0, 0, 0, 0, 0, "I", 0 },
    { TASK_CREATE, 5, 0, 0, 0, 2, 0, 0, "I", 0 },
    { TASK_CREATE, 0, 0, 0, 0, 2, 0, 0, "I", 0 },           /* 2 before 4 */
    { TASK_DELETE, 3, 0, 0, 0, 2, 0, 0, "I", 0 },
    { TASK_DELETE, 32, 0, 0, 0, 2, 0, 0, "I", 0 },          /* 2 before 3 */
    { TASK_DELETE, 31, 0, 0, 0, 2, 0, 0, "I", 0 },          /* 2 before 11 */
    { TASK_SET_PRIORITY, 1, 6, 0, 0, 2, 0, 0, "I", 0 },
    { TASK_SET_PRIORITY, 32, 6, 0, 0, 2, 0, 0, "I", 0 },
    { TASK_SET_PRIORITY, 31, 6, 0, 0, 2, 0, 0, "I", 0 },
    { TASK_YIELD, 0, 0, 0, 0, 2, 0, 0, "I", 0 },
    { TASK_END, 0, 0, 0, 0, 2, 0, 0, "I", 0 },
    { TASK_SLEEP, 0, 0, 0, 0, 2, 0, 0, "I", 0 },
    { TASK_LAST_RESULT, 1, 0, 0, 0, 0, 0, 0, "I", 0 },
    { TASK_LAST_RESULT, 32, 0, 0, 0, 3, 0, 1, "I", 0 },
    { TASK_LAST_RESULT, 31, 0, 0, 0, 11, 0, 1, "I", 0 },
    { TICK, 0, 0, 0, 0, 0, 0, 0, "I", 3 },                  /* task 2 is ready at the third */
    { INTERRUPT_OUT, 0, 0, 0, 0, 0, 0, 0, "T2", 0 },        /* 14: 2 */
    { TASK_LAST_RESULT, 2, 0, 0, 0, 0, 0, 0, "T2", 0 },     /* a sleep that ends has outcome 0 */
    { SEMAPHORE_CREATE, 0, 0, 0, 0, 0, 0, 0, "T2", 0 },
    { SEMAPHORE_PEND, 0, 1, 0, 0, 0, 2, 0, "T1", 0 },       /* limit 1 */
    { TASK_LAST_RESULT, 2, 0, 0, 0, 0, 0, 0, "T1", 0 },     /* still the one before */
    { INTERRUPT_IN, 0, 0, 0, 0, 0, 0, 0, "I", 0 },
    { TICK, 0, 0, 0, 0, 0, 0, 0, "I", 0 },                  /* expires on the next tick */
    { INTERRUPT_OUT, 0, 0, 0, 0, 0, 0, 0, "T2", 0 },
    { TASK_LAST_RESULT, 2, 0, 0, 0, 0, 1, 0, "T2", 0 },     /* an expired wait */
    { SEMAPHORE_POST, 0, 0, 0, 0, 0, 0, 0, "T2", 0 },       /* nobody in the line any more: the count goes up */
    { TASK_END, 0, 0, 0, 0, 0, 0, 0, "T1", 0 },
    { TASK_LAST_RESULT, 2, 0, 0, 0, 0, 1, 0, "T1", 0 },     /* kept */
    { TASK_DELETE, 2, 0, 0, 0, 0, 0, 0, "T1", 0 },
    { TASK_LAST_RESULT, 2, 0, 0, 0, 11, 0, 1, "T1", 0 },
    { TASK_SET_PRIORITY, 2, 15, 0, 0, 11, 0, 1, "T1", 0 },
    { TASK_DELETE, 2, 0, 0, 0, 11, 0, 1, "T1", 0 },
    { TASK_CREATE, 4, 0, 0, 0, 0, 0, 2, "T1", 0 },          /* 5: 1 4, 4: 2 */
    { TASK_LAST_RESULT, 2, 0, 0, 0, 0, 0, 0, "T1", 0 },     /* fresh again */
    { SWI_CREATE, 0, 0, 0, 0, 0, 0, 0, "T1", 0 },
    { SWI_POST, 0, 0, 0, 0, 0, 0, 0, "S0", 0 },
    { TASK_SET_PRIORITY, 1, F, 0, 0, 5, 0, 0, "S0", 0 },    /* the current task of the tables */
    { TASK_SET_PRIORITY, 1, 3, 0, 0, 0, 0, 5, "S0", 0 },    /* 5: 4, 4: 2, 3: 1 */
    { TASK_SET_PRIORITY, 32, 3, 0, 0, 3, 0, 1, "S0", 0 },
    { TASK_SET_PRIORITY, 31, 3, 0, 0, 11, 0, 1, "S0", 0 },
    { TASK_LAST_RESULT, 1, 0, 0, 0, 0, 0, 0, "S0", 0 },
    { TASK_LAST_RESULT, 32, 0, 0, 0, 3, 0, 1, "S0", 0 },
    { TASK_LAST_RESULT, 31, 0, 0, 0, 11, 0, 1, "S0", 0 },
    { TASK_CREATE, 5, 0, 0, 0, 2, 0, 0, "S0", 0 },
    { TASK_DELETE, 3, 0, 0, 0, 2, 0, 0, "S0", 0 },
    { TASK_DELETE, 32, 0, 0, 0, 2, 0, 0, "S0", 0 },
    { TASK_DELETE, 31, 0, 0, 0, 2, 0, 0, "S0", 0 },
    { TASK_YIELD, 0, 0, 0, 0, 2, 0, 0, "S0", 0 },
    { TASK_END, 0, 0, 0, 0, 2, 0, 0, "S0", 0 },
    { TASK_SLEEP, 1, 0, 0, 0, 2, 0, 0, "S0", 0 },
    { SWI_END, 0, 0, 0, 0, 0, 0, 0, "T4", 0 },
    { TASK_SET_PRIORITY, 4, 3, 0, 0, 0, 0, 5, "T2", 0 },    /* 4: 2, 3: 1 4 */
    { TASK_SET_PRIORITY, 1, F, 0, 0, 0, 0, 3, "T2", 0 },    /* made inactive: 3: 4 */
    { TASK_DELETE, 1, 0, 0, 0, 0, 0, 0, "T2", 0 },
    { TASK_CREATE, 3, 0, 0, 0, 0, 0, 1, "T2", 0 },          /* 3: 4 1 */
    { TASK_END, 0, 0, 0, 0, 0, 0, 0, "T4", 0 },
    { TASK_YIELD, 0, 0, 0, 0, 0, 0, 0, "T1", 0 },           /* 3: 1 4 */
    { TASK_END, 0, 0, 0, 0, 0, 0, 0, "T4", 0 },
    { TASK_YIELD, 0, 0, 0, 0, 0, 0, 0, "T4", 0 },           /* nobody else there */
    { TASK_END, 0, 0, 0, 0, 0, 0, 0, "T0", 0 },
    { TASK_END, 0, 0, 0, 0, 5, 0, 0, "T0", 0 },
    { TASK_SLEEP, 1, 0, 0, 0, 5, 0, 0, "T0", 0 },
    { TASK_SLEEP, F, 0, 0, 0, 4, 0, 0, "T0", 0 },           /* 4 before 5 */
    { TASK_SLEEP, 0, 0, 0, 0, 0, 0, 0, "T0", 0 },
    { TASK_YIELD, 0, 0, 0, 0, 0, 0, 0, "T0", 0 },
    { SWITCHES_OFF, 2, 0, 0, 0, 0, 0, 2, "T0", 0 },
    { TASK_YIELD, 0, 0, 0, 0, 9, 0, 0, "T0", 0 },
    { TASK_END, 0, 0, 0, 0, 5, 0, 0, "T0", 0 },             /* 5 before 9 */
    { TASK_SLEEP, 1, 0, 0, 0, 5, 0, 0, "T0", 0 },
    { SWITCHES_RESTORE, 2, 2, 0, 0, 0, 0, 0, "T0", 0 },
    { TASK_CREATE, F, 0, 0, 0, 0, 0, 5, "T0", RISING + 27 }, /* 5 to 31; 0 to 4 are in use, terminated but for 0 */
    { TASK_CREATE, F, 0, 0, 0, 6, 0, 0, "T0", 0 },
    { TASK_CREATE, 16, 0, 0, 0, 4, 0, 0, "T0", 0 },         /* 4 before 6 */
    { TASK_LAST_RESULT, 32, 0, 0, 0, 3, 0, 1, "T0", 0 },    /* all 32 are in use */
    { TASK_SET_PRIORITY, 31, 15, 0, 0, 0, 0, F, "T31", 0 },
    { TASK_END, 0, 0, 0, 0, 0, 0, 0, "T0", 0 },
    { TASK_LAST_RESULT, 31, 0, 0, 0, 0, 0, 0, "T0", 0 },    /* terminated, but in use */
    { TASK_DELETE, 31, 0, 0, 0, 0, 0, 0, "T0", 0 },
    { TASK_DELETE, 31, 0, 0, 0, 11, 0, 1, "T0", 0 },        /* the last number, deleted */
    { TASK_SET_PRIORITY, 31, 15, 0, 0, 11, 0, 1, "T0", 0 },
    { TASK_LAST_RESULT, 31, 0, 0, 0, 11, 0, 1, "T0", 0 },
    { TASK_CREATE, 15, 0, 0, 0, 0, 0, 31, "T31", 0 },
};

const struct named_table tasks_table = TABLE(tasks, 0x00);

/* Swi 0: priority 5, trigger 3. Swi 1: 5, 0. Swi 2: 9, 1. */
static const struct row swis[] = {
    { 0x19, 0, 0, 0, 0, 1, 0, 0, "T0", 0 },
    { 0x1F, F, F, F, F, 1, 0, 0, "T0", 0 },
    { SWI_CREATE, 16, 0, 0, 0, 4, 0, 0, "T0", 0 },
    { SWI_CREATE, F, 0, 0, 0, 4, 0, 0, "T0", 0 },
    { SWI_CREATE, 0, 0, 1, 0, 4, 0, 0, "T0", 0 },
    { SWI_CREATE, 5, 3, 0, 0, 0, 0, 0, "T0", 0 },
    { SWI_CREATE, 5, 0, 0, 0, 0, 0, 1, "T0", 0 },
    { SWI_CREATE, 9, 1, 0, 0, 0, 0, 2, "T0", 0 },
    { SWI_POST, 16, 0, 0, 0, 3, 0, 2, "T0", 0 },            /* outside its table, table 2 */
    { SWI_POST, 17, 0, 0, 0, 3, 0, 2, "T0", 0 },            /* 16 + 1, and there is a Swi 1 */
    { SWI_POST, F, 0, 0, 0, 3, 0, 2, "T0", 0 },
    { SWI_POST, 16, 1, 0, 0, 3, 0, 2, "T0", 0 },            /* 3 before 4 */
    { SWI_POST, 3, 0, 0, 0, 11, 0, 2, "T0", 0 },            /* inside it, not in use */
    { SWI_POST, 15, 0, 0, 0, 11, 0, 2, "T0", 0 },
    { SWI_POST, 15, 0, 0, 1, 11, 0, 2, "T0", 0 },           /* 11 before 4 */
    { SWI_POST, 0, 1, 0, 0, 4, 0, 0, "T0", 0 },
    { SWI_ADD_ONE, 16, 0, 0, 0, 3, 0, 2, "T0", 0 },
    { SWI_ADD_ONE, F, 0, 0, 0, 3, 0, 2, "T0", 0 },
    { SWI_ADD_ONE, 16, 0, 1, 0, 3, 0, 2, "T0", 0 },
    { SWI_ADD_ONE, 3, 1, 0, 0, 11, 0, 2, "T0", 0 },
    { SWI_ADD_ONE, 15, 0, 0, 0, 11, 0, 2, "T0", 0 },
    { SWI_ADD_ONE, 0, 0, 0, 1, 4, 0, 0, "T0", 0 },
    { SWI_TAKE_ONE, 16, 0, 0, 0, 3, 0, 2, "T0", 0 },
    { SWI_TAKE_ONE, F, 0, 0, 0, 3, 0, 2, "T0", 0 },
    { SWI_TAKE_ONE, F, 0, 0, 1, 3, 0, 2, "T0", 0 },
    { SWI_TAKE_ONE, 15, 0, 0, 0, 11, 0, 2, "T0", 0 },
    { SWI_TAKE_ONE, 15, 0, 1, 0, 11, 0, 2, "T0", 0 },
    { SWI_TAKE_ONE, 0, 1, 0, 0, 4, 0, 0, "T0", 0 },
    { SWI_SET_BITS, 16, 1, 0, 0, 3, 0, 2, "T0", 0 },
    { SWI_SET_BITS, F, 1, 0, 0, 3, 0, 2, "T0", 0 },
    { SWI_SET_BITS, 16, 1, 1, 0, 3, 0, 2, "T0", 0 },
    { SWI_SET_BITS, 3, 1, 0, 0, 11, 0, 2, "T0", 0 },
    { SWI_SET_BITS, 15, 1, 0, 0, 11, 0, 2, "T0", 0 },
    { SWI_SET_BITS, 15, 1, 0, 1, 11, 0, 2, "T0", 0 },
    { SWI_SET_BITS, 0, 1, 1, 0, 4, 0, 0, "T0", 0 },
    { SWI_CLEAR_BITS, 16, 0, 0, 0, 3, 0, 2, "T0", 0 },
    { SWI_CLEAR_BITS, F, 0, 0, 0, 3, 0, 2, "T0", 0 },
    { SWI_CLEAR_BITS, 16, 0, 0, 1, 3, 0, 2, "T0", 0 },
    { SWI_CLEAR_BITS, 15, 0, 0, 0, 11, 0, 2, "T0", 0 },
    { SWI_CLEAR_BITS, 15, 0, 1, 0, 11, 0, 2, "T0", 0 },
    { SWI_CLEAR_BITS, 0, 1, 0, 1, 4, 0, 0, "T0", 0 },
    { SWI_END, 0, 0, 0, 0, 2, 0, 0, "T0", 0 },
    { SWI_TAKEN_TRIGGER, 0, 0, 0, 0, 2, 0, 0, "T0", 0 },
    { SWI_TAKE_ONE, 0, 0, 0, 0, 0, 0, 0, "T0", 0 },         /* 3 to 2 */
    { SWI_TAKE_ONE, 0, 0, 0, 0, 0, 0, 0, "T0", 0 },         /* to 1 */
    { SWI_TAKE_ONE, 0, 0, 0, 0, 0, 0, 0, "S0", 0 },         /* to 0: posted, starts, taken 0, trigger 3 again */
    { SWI_TAKEN_TRIGGER, 0, 0, 0, 0, 0, 0, 0, "S0", 0 },
    { SWI_TAKEN_TRIGGER, 0, 1, 0, 0, 4, 0, 0, "S0", 0 },
    { SWI_END, 1, 0, 0, 0, 4, 0, 0, "S0", 0 },
    { SWI_CREATE, 5, 0, 0, 0, 2, 0, 0, "S0", 0 },
    { SWI_DELETE, 1, 0, 0, 0, 2, 0, 0, "S0", 0 },
    { SWI_DELETE, 16, 0, 0, 0, 2, 0, 0, "S0", 0 },          /* 2 before 3 */
    { SWI_DELETE, 15, 0, 0, 0, 2, 0, 0, "S0", 0 },          /* 2 before 11 */
    { SWI_POST, 15, 0, 0, 0, 11, 0, 2, "S0", 0 },
    { SWI_ADD_ONE, 16, 0, 0, 0, 3, 0, 2, "S0", 0 },
    { SWI_TAKE_ONE, 15, 0, 0, 0, 11, 0, 2, "S0", 0 },
    { SWI_SET_BITS, 16, 1, 0, 0, 3, 0, 2, "S0", 0 },
    { SWI_CLEAR_BITS, 15, 1, 0, 0, 11, 0, 2, "S0", 0 },
    { SWI_ADD_ONE, 0, 0, 0, 0, 0, 0, 0, "S0", 0 },          /* active and posted, trigger 4 */
    { SWI_POST, 1, 0, 0, 0, 0, 0, 0, "S0", 0 },             /* equal: does not preempt. Posted at 5: 0 1 */
    { SWI_ADD_ONE, 0, 0, 0, 0, 0, 0, 0, "S0", 0 },          /* not queued again, trigger 5 */
    { SWI_TAKE_ONE, 2, 0, 0, 0, 0, 0, 0, "S2", 0 },         /* 1 to 0: above, preempts */
    { SWI_TAKEN_TRIGGER, 0, 0, 0, 0, 0, 0, 0, "S2", 0 },
    { SWI_SET_BITS, 2, 6, 0, 0, 0, 0, 0, "S2", 0 },         /* 1 to 7, posted while active */
    { SWI_END, 0, 0, 0, 0, 0, 0, 0, "S2", 0 },              /* ends, and starts again above Swi 0 */
    { SWI_TAKEN_TRIGGER, 0, 0, 0, 0, 0, 0, 7, "S2", 0 },
    { SWITCHES_OFF, 1, 0, 0, 0, 0, 0, 1, "S2", 0 },
    { SWI_END, 0, 0, 0, 0, 9, 0, 0, "S2", 0 },
    { SWI_END, 1, 0, 0, 0, 4, 0, 0, "S2", 0 },              /* 4 before 9 */
    { SWI_TAKEN_TRIGGER, 0, 0, 0, 0, 0, 0, 7, "S2", 0 },
    { SWITCHES_RESTORE, 1, 1, 0, 0, 0, 0, 0, "S2", 0 },
    { SWI_END, 0, 0, 0, 0, 0, 0, 0, "S0", 0 },              /* those at 5 are not above the active Swi 0 */
    { SWI_TAKEN_TRIGGER, 0, 0, 0, 0, 0, 0, 0, "S0", 0 },    /* as at its start */
    { SWI_END, 0, 0, 0, 0, 0, 0, 0, "S0", 0 },              /* the first at 5 is Swi 0 again */
    { SWI_TAKEN_TRIGGER, 0, 0, 0, 0, 0, 0, 5, "S0", 0 },
    { SWI_END, 0, 0, 0, 0, 0, 0, 0, "S1", 0 },
    { SWI_TAKEN_TRIGGER, 0, 0, 0, 0, 0, 0, 0, "S1", 0 },
    { SWI_END, 0, 0, 0, 0, 0, 0, 0, "T0", 0 },
    { SWI_TAKE_ONE, 1, 0, 0, 0, 0, 0, 0, "T0", 0 },         /* 0 to 4,294,967,295: not posted */
    { SWI_ADD_ONE, 1, 0, 0, 0, 0, 0, 0, "S1", 0 },          /* round to 0, posted */
    { SWI_TAKEN_TRIGGER, 0, 0, 0, 0, 0, 0, 0, "S1", 0 },
    { SWI_END, 0, 0, 0, 0, 0, 0, 0, "T0", 0 },
    { SWI_TAKE_ONE, 1, 0, 0, 0, 0, 0, 0, "T0", 0 },
    { SWI_POST, 1, 0, 0, 0, 0, 0, 0, "S1", 0 },
    { SWI_TAKEN_TRIGGER, 0, 0, 0, 0, 0, 0, F, "S1", 0 },
    { SWI_END, 0, 0, 0, 0, 0, 0, 0, "T0", 0 },
    { SWI_CLEAR_BITS, 1, 5, 0, 0, 0, 0, 0, "S1", 0 },       /* of a zero trigger: posts */
    { SWI_END, 0, 0, 0, 0, 0, 0, 0, "T0", 0 },
    { SWI_CLEAR_BITS, 0, 1, 0, 0, 0, 0, 0, "T0", 0 },       /* 3 to 2 */
    { SWI_CLEAR_BITS, 0, 2, 0, 0, 0, 0, 0, "S0", 0 },       /* to 0 */
    { SWI_TAKEN_TRIGGER, 0, 0, 0, 0, 0, 0, 0, "S0", 0 },
    { SWI_END, 0, 0, 0, 0, 0, 0, 0, "T0", 0 },
    { SWI_SET_BITS, 0, 0, 0, 0, 0, 0, 0, "S0", 0 },         /* mask 0 posts all the same */
    { SWI_TAKEN_TRIGGER, 0, 0, 0, 0, 0, 0, 3, "S0", 0 },
    { SWI_END, 0, 0, 0, 0, 0, 0, 0, "T0", 0 },
    { SWI_CLEAR_BITS, 0, 0, 0, 0, 0, 0, 0, "T0", 0 },       /* still 3 */
    { SWI_CLEAR_BITS, 1, 0, 0, 0, 0, 0, 0, "S1", 0 },       /* still 0 */
    { SWI_END, 0, 0, 0, 0, 0, 0, 0, "T0", 0 },
    { SWI_DELETE, 16, 0, 0, 0, 3, 0, 2, "T0", 0 },
    { SWI_DELETE, F, 0, 0, 0, 3, 0, 2, "T0", 0 },
    { SWI_DELETE, 16, 1, 0, 0, 3, 0, 2, "T0", 0 },
    { SWI_DELETE, 3, 1, 0, 0, 11, 0, 2, "T0", 0 },
    { SWI_DELETE, 15, 0, 0, 0, 11, 0, 2, "T0", 0 },
    { SWI_DELETE, 0, 1, 0, 0, 4, 0, 0, "T0", 0 },
    { SWITCHES_OFF, 1, 0, 0, 0, 0, 0, 1, "T0", 0 },
    { SWI_POST, 16, 0, 0, 0, 3, 0, 2, "T0", 0 },
    { SWI_POST, 15, 0, 0, 0, 11, 0, 2, "T0", 0 },
    { SWI_POST, 0, 0, 0, 0, 0, 0, 0, "T0", 0 },             /* waits for the switch */
    { SWI_DELETE, 0, 1, 0, 0, 4, 0, 0, "T0", 0 },           /* 4 before 5 */
    { SWI_DELETE, 0, 0, 0, 0, 5, 0, 0, "T0", 0 },           /* posted */
    { SWITCHES_RESTORE, 1, 0, 0, 0, 0, 0, 0, "T0", 0 },     /* no change */
    { SWITCHES_RESTORE, 1, 1, 0, 0, 0, 0, 0, "S0", 0 },
    { SWI_END, 0, 0, 0, 0, 0, 0, 0, "T0", 0 },
    { CLOCK_CREATE, 0, 1, 0, 0, 0, 0, 0, "T0", 0 },
    { SWI_DELETE, 0, 0, 0, 0, 5, 0, 0, "T0", 0 },           /* named by a clock, stopped though it is */
    { CLOCK_DELETE, 0, 0, 0, 0, 0, 0, 0, "T0", 0 },
    { SWI_DELETE, 0, 0, 0, 0, 0, 0, 0, "T0", 0 },
    { SWI_DELETE, 0, 0, 0, 0, 11, 0, 2, "T0", 0 },          /* deleted */
    { SWI_POST, 0, 0, 0, 0, 11, 0, 2, "T0", 0 },
    { SWI_ADD_ONE, 0, 0, 0, 0, 11, 0, 2, "T0", 0 },
    { SWI_TAKE_ONE, 0, 0, 0, 0, 11, 0, 2, "T0", 0 },
    { SWI_SET_BITS, 0, 1, 0, 0, 11, 0, 2, "T0", 0 },
    { SWI_CLEAR_BITS, 0, 1, 0, 0, 11, 0, 2, "T0", 0 },
    { CLOCK_CREATE, 0, 1, 0, 0, 11, 0, 2, "T0", 0 },        /* it takes a Swi's number */
    { SWI_CREATE, 0, 7, 0, 0, 0, 0, 0, "T0", 0 },           /* Swi 0 is now priority 0, trigger 7 */
    { INTERRUPT_IN, 0, 0, 0, 0, 0, 0, 0, "I", 0 },
    { SWI_CREATE, 0, 0, 0, 0, 2, 0, 0, "I", 0 },
    { SWI_DELETE, 1, 0, 0, 0, 2, 0, 0, "I", 0 },
    { SWI_DELETE, 16, 0, 0, 0, 2, 0, 0, "I", 0 },
    { SWI_DELETE, 15, 0, 0, 0, 2, 0, 0, "I", 0 },
    { SWI_POST, 16, 0, 0, 0, 3, 0, 2, "I", 0 },
    { SWI_ADD_ONE, 15, 0, 0, 0, 11, 0, 2, "I", 0 },
    { SWI_TAKE_ONE, 16, 0, 0, 0, 3, 0, 2, "I", 0 },
    { SWI_SET_BITS, 15, 1, 0, 0, 11, 0, 2, "I", 0 },
    { SWI_CLEAR_BITS, 16, 0, 0, 0, 3, 0, 2, "I", 0 },
    { SWI_END, 0, 0, 0, 0, 2, 0, 0, "I", 0 },
    { SWI_TAKEN_TRIGGER, 0, 0, 0, 0, 2, 0, 0, "I", 0 },
    { SWI_POST, 0, 0, 0, 0, 0, 0, 0, "I", 0 },              /* posted at 0: 0 */
    { SWI_ADD_ONE, 2, 0, 0, 0, 0, 0, 0, "I", 0 },           /* trigger 2, posted at 9: 2 */
    { SWI_TAKE_ONE, 1, 0, 0, 0, 0, 0, 0, "I", 0 },          /* trigger 4,294,967,295, not posted */
    { SWI_SET_BITS, 1, 1, 0, 0, 0, 0, 0, "I", 0 },          /* posted at 5: 1 */
    { SWI_CLEAR_BITS, 1, 0, 0, 0, 0, 0, 0, "I", 0 },
    { INTERRUPT_OUT, 0, 0, 0, 0, 0, 0, 0, "S2", 0 },
    { SWI_TAKEN_TRIGGER, 0, 0, 0, 0, 0, 0, 2, "S2", 0 },
    { INTERRUPT_IN, 0, 0, 0, 0, 0, 0, 0, "I", 0 },
    { SWI_END, 0, 0, 0, 0, 2, 0, 0, "I", 0 },               /* a Swi is active, but the interrupt runs */
    { SWI_TAKEN_TRIGGER, 0, 0, 0, 0, 2, 0, 0, "I", 0 },
    { INTERRUPT_OUT, 0, 0, 0, 0, 0, 0, 0, "S2", 0 },
    { SWI_END, 0, 0, 0, 0, 0, 0, 0, "S1", 0 },
    { SWI_TAKEN_TRIGGER, 0, 0, 0, 0, 0, 0, F, "S1", 0 },
    { SWI_END, 0, 0, 0, 0, 0, 0, 0, "S0", 0 },
    { SWI_TAKEN_TRIGGER, 0, 0, 0, 0, 0, 0, 7, "S0", 0 },
    { SWI_END, 0, 0, 0, 0, 0, 0, 0, "T0", 0 },
    { SWI_CREATE, 15, 0, 0, 0, 0, 0, 3, "T0", RISING + 13 }, /* 3 to 15 */
    { SWI_CREATE, 15, 0, 0, 0, 6, 0, 0, "T0", 0 },
    { SWI_CREATE, 16, 0, 0, 0, 4, 0, 0, "T0", 0 },
    { SWI_POST, 16, 0, 0, 0, 3, 0, 2, "T0", 0 },            /* all 16 are in use */
    { SWI_POST, 15, 0, 0, 0, 0, 0, 0, "S15", 0 },
    { SWI_END, 0, 0, 0, 0, 0, 0, 0, "T0", 0 },
    { SWI_DELETE, 15, 0, 0, 0, 0, 0, 0, "T0", 0 },
    { SWI_DELETE, 15, 0, 0, 0, 11, 0, 2, "T0", 0 },         /* the last number, deleted */
    { SWI_POST, 15, 0, 0, 0, 11, 0, 2, "T0", 0 },
    /* A Swi post wakes no task and names none (No. 8). Swi 0: trigger 7. Swi 1: 0. Swi 2: 1. */
    { TASK_CREATE, 5, 0, 0, 0, 0, 0, 1, "T1", 0 },
    { SEMAPHORE_CREATE, 0, 0, 0, 0, 0, 0, 0, "T1", 0 },
    { SEMAPHORE_PEND, 0, F, 0, 0, 0, 2, 0, "T0", 0 },       /* task 1 waits */
    { TASK_CREATE, 5, 0, 0, 0, 0, 0, 2, "T2", 0 },
    { SWI_POST, 1, 0, 0, 0, 0, 0, 0, "S1", 0 },
    { SWI_END, 0, 0, 0, 0, 0, 0, 0, "T2", 0 },
    { SWI_ADD_ONE, 1, 0, 0, 0, 0, 0, 0, "S1", 0 },
    { SWI_END, 0, 0, 0, 0, 0, 0, 0, "T2", 0 },
    { SWI_TAKE_ONE, 2, 0, 0, 0, 0, 0, 0, "S2", 0 },         /* 1 to 0 */
    { SWI_END, 0, 0, 0, 0, 0, 0, 0, "T2", 0 },
    { SWI_TAKE_ONE, 0, 0, 0, 0, 0, 0, 0, "T2", 0 },         /* 7 to 6 */
    { SWI_SET_BITS, 1, 4, 0, 0, 0, 0, 0, "S1", 0 },
    { SWI_END, 0, 0, 0, 0, 0, 0, 0, "T2", 0 },
    { SWI_CLEAR_BITS, 0, 2, 0, 0, 0, 0, 0, "T2", 0 },       /* 6 to 4 */
    { SWI_CLEAR_BITS, 1, 1, 0, 0, 0, 0, 0, "S1", 0 },
    { SEMAPHORE_POST, 0, 0, 0, 0, 0, 0, 1, "S1", 0 },       /* this wakes task 1 */
    { SWI_POST, 1, 0, 0, 0, 0, 0, 0, "S1", 0 },             /* 5: 2 1 */
    { SWI_END, 0, 0, 0, 0, 0, 0, 0, "S1", 0 },
    { SWI_END, 0, 0, 0, 0, 0, 0, 0, "T2", 0 },
};

const struct named_table swis_table = TABLE(swis, 0x10);
