/* The rows of the kinds that have a pend: semaphores, events and mailboxes. */
#include "kinds.h"

static const struct row semaphores[] = {
    { 0x25, 0, 0, 0, 0, 1, 0, 0, "T0", 0 },
    { SEMAPHORE_CREATE, 4, 0, 0, 0, 4, 0, 0, "T0", 0 },
    { SEMAPHORE_CREATE, 0, 65536, 0, 0, 4, 0, 0, "T0", 0 },
    { SEMAPHORE_CREATE, 1, 2, 0, 0, 4, 0, 0, "T0", 0 },
    { SEMAPHORE_CREATE, 2, 65536, 0, 0, 4, 0, 0, "T0", 0 },
    { SEMAPHORE_CREATE, 3, 2, 0, 0, 4, 0, 0, "T0", 0 },
    { SEMAPHORE_CREATE, 0, 0, 1, 0, 4, 0, 0, "T0", 0 },
    { SEMAPHORE_CREATE, 0, 65534, 0, 0, 0, 0, 0, "T0", 0 },
    { SEMAPHORE_CREATE, 1, 1, 0, 0, 0, 0, 1, "T0", 0 },
    { SEMAPHORE_CREATE, 2, 0, 0, 0, 0, 0, 2, "T0", 0 },
    { SEMAPHORE_CREATE, 3, 0, 0, 0, 0, 0, 3, "T0", 0 },
    { SEMAPHORE_POST, 0, 0, 0, 0, 0, 0, 0, "T0", 0 },       /* 65,535 */
    { SEMAPHORE_POST, 0, 0, 0, 0, 7, 0, 0, "T0", 0 },
    { SEMAPHORE_POST, 0, 1, 0, 0, 4, 0, 0, "T0", 0 },       /* 4 before 7 */
    { SEMAPHORE_POST, 1, 0, 0, 0, 0, 0, 0, "T0", 0 },       /* stays 1 */
    { SEMAPHORE_PEND, 1, 0, 0, 0, 0, 0, 0, "T0", 0 },
    { SEMAPHORE_PEND, 1, 0, 0, 0, 0, 1, 0, "T0", 0 },       /* it was 1, not 2 */
    { SEMAPHORE_POST, 16, 0, 0, 0, 3, 0, 3, "T0", 0 },      /* outside its table, table 3 */
    { SEMAPHORE_POST, 17, 0, 0, 0, 3, 0, 3, "T0", 0 },      /* 16 + 1, and there is a semaphore 1 */
    { SEMAPHORE_POST, F, 0, 0, 0, 3, 0, 3, "T0", 0 },
    { SEMAPHORE_POST, 16, 1, 0, 0, 3, 0, 3, "T0", 0 },      /* 3 before 4 */
    { SEMAPHORE_POST, 4, 1, 0, 0, 11, 0, 3, "T0", 0 },      /* inside it, not in use; 11 before 4 */
    { SEMAPHORE_POST, 15, 0, 0, 0, 11, 0, 3, "T0", 0 },
    { SEMAPHORE_PEND, 16, 0, 0, 0, 3, 0, 3, "T0", 0 },
    { SEMAPHORE_PEND, F, 0, 0, 0, 3, 0, 3, "T0", 0 },
    { SEMAPHORE_PEND, 16, F, 0, 0, 3, 0, 3, "T0", 0 },      /* not 5, though task 0 names a limit */
    { SEMAPHORE_PEND, 16, F, 0, 1, 3, 0, 3, "T0", 0 },
    { SEMAPHORE_PEND, 4, F, 0, 1, 11, 0, 3, "T0", 0 },
    { SEMAPHORE_PEND, 15, 0, 0, 0, 11, 0, 3, "T0", 0 },
    { SEMAPHORE_PEND, 15, F, 0, 0, 11, 0, 3, "T0", 0 },     /* not 5 here too */
    { SEMAPHORE_PEND, 1, 0, 1, 0, 4, 0, 0, "T0", 0 },
    { SEMAPHORE_PEND, 1, F, 0, 1, 4, 0, 0, "T0", 0 },       /* 4 before 5 */
    { SEMAPHORE_PEND, 1, F, 0, 0, 5, 0, 0, "T0", 0 },       /* task 0 would wait */
    { SEMAPHORE_PEND, 1, 5, 0, 0, 5, 0, 0, "T0", 0 },
    { SEMAPHORE_PEND, 0, 5, 0, 0, 0, 0, 0, "T0", 0 },       /* done at once */
    { SEMAPHORE_RESET, 0, 65536, 0, 0, 4, 0, 0, "T0", 0 },
    { SEMAPHORE_RESET, 1, 2, 0, 0, 4, 0, 0, "T0", 0 },
    { SEMAPHORE_RESET, 16, 0, 0, 0, 3, 0, 3, "T0", 0 },
    { SEMAPHORE_RESET, F, 0, 0, 0, 3, 0, 3, "T0", 0 },
    { SEMAPHORE_RESET, 16, 65536, 0, 0, 3, 0, 3, "T0", 0 }, /* 3 before 4 */
    { SEMAPHORE_RESET, 4, 65536, 0, 0, 11, 0, 3, "T0", 0 }, /* 11 before 4 */
    { SEMAPHORE_RESET, 15, 0, 0, 0, 11, 0, 3, "T0", 0 },
    { SEMAPHORE_RESET, 0, 0, 1, 0, 4, 0, 0, "T0", 0 },
    { SEMAPHORE_RESET, 0, 0, 0, 0, 0, 0, 0, "T0", 0 },
    { SEMAPHORE_PEND, 0, 0, 0, 0, 0, 1, 0, "T0", 0 },
    { TASK_CREATE, 3, 0, 0, 0, 0, 0, 1, "T1", 0 },
    { SEMAPHORE_PEND, 2, F, 0, 0, 0, 2, 0, "T0", 0 },       /* line of 2: 1 */
    { TASK_CREATE, 5, 0, 0, 0, 0, 0, 2, "T2", 0 },
    { SEMAPHORE_PEND, 2, F, 0, 0, 0, 2, 0, "T0", 0 },       /* 2 1 */
    { TASK_CREATE, 3, 0, 0, 0, 0, 0, 3, "T3", 0 },
    { SEMAPHORE_PEND, 2, F, 0, 0, 0, 2, 0, "T0", 0 },       /* 2 1 3: behind its equal */
    { TASK_CREATE, 4, 0, 0, 0, 0, 0, 4, "T4", 0 },
    { SEMAPHORE_PEND, 2, F, 0, 0, 0, 2, 0, "T0", 0 },       /* 2 4 1 3 */
    { SEMAPHORE_DELETE, 2, 0, 0, 0, 5, 0, 0, "T0", 0 },
    { SEMAPHORE_RESET, 2, 0, 0, 0, 5, 0, 0, "T0", 0 },
    { SEMAPHORE_RESET, 2, 65536, 0, 0, 4, 0, 0, "T0", 0 },  /* 4 before 5 */
    { SEMAPHORE_DELETE, 2, 0, 0, 1, 4, 0, 0, "T0", 0 },
    { SEMAPHORE_PEND, 2, 0, 0, 0, 0, 1, 0, "T0", 0 },
    { TASK_SET_PRIORITY, 3, 15, 0, 0, 0, 0, 3, "T0", 0 },   /* keeps its place */
    { SEMAPHORE_POST, 2, 0, 0, 0, 0, 0, 2, "T2", 0 },       /* wakes task 2: line 4 1 3 */
    { SEMAPHORE_POST, 2, 0, 0, 0, 0, 0, 4, "T2", 0 },       /* line 1 3; task 4 is below task 2 */
    { SEMAPHORE_PEND, 2, F, 0, 0, 0, 2, 0, "T4", 0 },       /* before task 1, the first lower one: 2 1 3 */
    { SEMAPHORE_POST, 2, 0, 0, 0, 0, 0, 2, "T2", 0 },
    { SEMAPHORE_POST, 2, 0, 0, 0, 0, 0, 1, "T2", 0 },       /* task 1 */
    { SEMAPHORE_POST, 2, 0, 0, 0, 0, 0, 3, "T3", 0 },       /* task 3, now at 15 */
    { SEMAPHORE_POST, 2, 0, 0, 0, 0, 0, 0, "T3", 0 },       /* nobody: count 1 */
    { SEMAPHORE_PEND, 2, F, 0, 0, 0, 0, 0, "T3", 0 },
    { TASK_LAST_RESULT, 3, 0, 0, 0, 0, 0, 0, "T3", 0 },
    { SEMAPHORE_PEND, 3, 2, 0, 0, 0, 2, 0, "T2", 0 },       /* line of 3: 3, limit 2 */
    { SEMAPHORE_PEND, 3, 1, 0, 0, 0, 2, 0, "T4", 0 },       /* 3 2, limit 1 */
    { SEMAPHORE_PEND, 0, F, 0, 0, 0, 2, 0, "T1", 0 },       /* line of 0: 4 */
    { SEMAPHORE_PEND, 0, F, 0, 0, 0, 2, 0, "T0", 0 },       /* 4 1 */
    { TASK_CREATE, 15, 0, 0, 0, 0, 0, 5, "T5", 0 },
    { SEMAPHORE_PEND, 0, F, 0, 0, 0, 2, 0, "T0", 0 },       /* 4 1 5: arrival order */
    { INTERRUPT_IN, 0, 0, 0, 0, 0, 0, 0, "I", 0 },
    { TICK, 0, 0, 0, 0, 0, 0, 0, "I", 0 },                  /* task 2 expires and leaves the line of 3 */
    { SEMAPHORE_POST, 3, 0, 0, 0, 0, 0, 3, "I", 0 },        /* task 3 */
    { SEMAPHORE_POST, 3, 0, 0, 0, 0, 0, 0, "I", 0 },        /* nobody: count 1 */
    { SEMAPHORE_PEND, 3, 1, 0, 0, 2, 0, 0, "I", 0 },        /* a limit outside a task, though there is a count */
    { SEMAPHORE_PEND, 16, F, 0, 0, 2, 0, 0, "I", 0 },       /* 2 before 3 */
    { SEMAPHORE_PEND, 15, F, 0, 0, 2, 0, 0, "I", 0 },       /* 2 before 11 */
    { SEMAPHORE_PEND, 16, 0, 0, 0, 3, 0, 3, "I", 0 },
    { SEMAPHORE_PEND, 15, 0, 0, 0, 11, 0, 3, "I", 0 },
    { SEMAPHORE_POST, 16, 0, 0, 0, 3, 0, 3, "I", 0 },
    { SEMAPHORE_POST, 15, 0, 0, 0, 11, 0, 3, "I", 0 },
    { SEMAPHORE_PEND, 3, 0, 0, 0, 0, 0, 0, "I", 0 },
    { SEMAPHORE_PEND, 3, 0, 0, 0, 0, 1, 0, "I", 0 },
    { SEMAPHORE_CREATE, 0, 0, 0, 0, 2, 0, 0, "I", 0 },
    { SEMAPHORE_DELETE, 1, 0, 0, 0, 2, 0, 0, "I", 0 },
    { SEMAPHORE_DELETE, 16, 0, 0, 0, 2, 0, 0, "I", 0 },
    { SEMAPHORE_DELETE, 15, 0, 0, 0, 2, 0, 0, "I", 0 },
    { SEMAPHORE_RESET, 1, 0, 0, 0, 2, 0, 0, "I", 0 },
    { SEMAPHORE_RESET, 16, 0, 0, 0, 2, 0, 0, "I", 0 },
    { SEMAPHORE_RESET, 15, 0, 0, 0, 2, 0, 0, "I", 0 },
    { SEMAPHORE_POST, 0, 0, 0, 0, 0, 0, 4, "I", 0 },        /* task 4, line 1 5 */
    { INTERRUPT_OUT, 0, 0, 0, 0, 0, 0, 0, "T3", 0 },        /* 15: 3, 5: 2, 4: 4 */
    { TASK_LAST_RESULT, 2, 0, 0, 0, 0, 1, 0, "T3", 0 },
    { TASK_LAST_RESULT, 3, 0, 0, 0, 0, 0, 0, "T3", 0 },
    { SWITCHES_OFF, 2, 0, 0, 0, 0, 0, 2, "T3", 0 },
    { SEMAPHORE_PEND, 1, F, 0, 0, 9, 0, 0, "T3", 0 },
    { SEMAPHORE_PEND, 16, F, 0, 0, 3, 0, 3, "T3", 0 },      /* not 9 */
    { SEMAPHORE_PEND, 15, F, 0, 0, 11, 0, 3, "T3", 0 },
    { SEMAPHORE_PEND, 1, 0, 0, 0, 0, 1, 0, "T3", 0 },
    { SEMAPHORE_POST, 1, 0, 0, 0, 0, 0, 0, "T3", 0 },
    { SEMAPHORE_PEND, 1, F, 0, 0, 0, 0, 0, "T3", 0 },       /* no wait begins */
    { SWITCHES_RESTORE, 2, 2, 0, 0, 0, 0, 0, "T3", 0 },
    { SWITCHES_OFF, 1, 0, 0, 0, 0, 0, 1, "T3", 0 },
    { SEMAPHORE_PEND, 1, 3, 0, 0, 9, 0, 0, "T3", 0 },
    { SEMAPHORE_PEND, 1, 3, 1, 0, 4, 0, 0, "T3", 0 },       /* 4 before 9 */
    { SWITCHES_RESTORE, 1, 1, 0, 0, 0, 0, 0, "T3", 0 },
    { SEMAPHORE_DELETE, 16, 0, 0, 0, 3, 0, 3, "T3", 0 },
    { SEMAPHORE_DELETE, F, 0, 0, 0, 3, 0, 3, "T3", 0 },
    { SEMAPHORE_DELETE, 16, 1, 0, 0, 3, 0, 3, "T3", 0 },
    { SEMAPHORE_DELETE, 4, 0, 0, 0, 11, 0, 3, "T3", 0 },
    { SEMAPHORE_DELETE, 15, 0, 0, 0, 11, 0, 3, "T3", 0 },
    { SEMAPHORE_DELETE, 15, 1, 0, 0, 11, 0, 3, "T3", 0 },
    { SEMAPHORE_DELETE, 1, 1, 0, 0, 4, 0, 0, "T3", 0 },
    { SEMAPHORE_DELETE, 1, 0, 0, 0, 0, 0, 0, "T3", 0 },
    { SEMAPHORE_DELETE, 1, 0, 0, 0, 11, 0, 3, "T3", 0 },    /* deleted */
    { SEMAPHORE_POST, 1, 0, 0, 0, 11, 0, 3, "T3", 0 },
    { SEMAPHORE_PEND, 1, 0, 0, 0, 11, 0, 3, "T3", 0 },
    { SEMAPHORE_PEND, 1, F, 0, 0, 11, 0, 3, "T3", 0 },
    { SEMAPHORE_RESET, 1, 0, 0, 0, 11, 0, 3, "T3", 0 },
    { SEMAPHORE_CREATE, 1, 0, 0, 0, 0, 0, 1, "T3", 0 },
    { SEMAPHORE_POST, 0, 0, 0, 0, 0, 0, 1, "T3", 0 },       /* task 1 at 3 */
    { SEMAPHORE_POST, 0, 0, 0, 0, 0, 0, 5, "T3", 0 },       /* task 5: 15: 3 5 */
    { TASK_YIELD, 0, 0, 0, 0, 0, 0, 0, "T5", 0 },
    { TASK_YIELD, 0, 0, 0, 0, 0, 0, 0, "T3", 0 },
    { SEMAPHORE_POST, 0, 0, 0, 0, 0, 0, 0, "T3", 0 },
    { SEMAPHORE_DELETE, 0, 0, 0, 0, 0, 0, 0, "T3", 0 },     /* a count forbids no delete */
    { SEMAPHORE_CREATE, 0, 0, 0, 0, 0, 0, 0, "T3", 0 },
    { SEMAPHORE_PEND, 0, 0, 0, 0, 0, 1, 0, "T3", 0 },
    { SWI_CREATE, 0, 0, 0, 0, 0, 0, 0, "T3", 0 },
    { SWI_POST, 0, 0, 0, 0, 0, 0, 0, "S0", 0 },
    { SEMAPHORE_PEND, 0, 1, 0, 0, 2, 0, 0, "S0", 0 },
    { SEMAPHORE_PEND, 16, 1, 0, 0, 2, 0, 0, "S0", 0 },
    { SEMAPHORE_PEND, 15, 1, 0, 0, 2, 0, 0, "S0", 0 },
    { SEMAPHORE_PEND, 16, 0, 0, 0, 3, 0, 3, "S0", 0 },
    { SEMAPHORE_PEND, 15, 0, 0, 0, 11, 0, 3, "S0", 0 },
    { SEMAPHORE_POST, 16, 0, 0, 0, 3, 0, 3, "S0", 0 },
    { SEMAPHORE_POST, 15, 0, 0, 0, 11, 0, 3, "S0", 0 },
    { SEMAPHORE_PEND, 0, 0, 0, 0, 0, 1, 0, "S0", 0 },
    { SEMAPHORE_POST, 0, 0, 0, 0, 0, 0, 0, "S0", 0 },
    { SEMAPHORE_PEND, 0, 0, 0, 0, 0, 0, 0, "S0", 0 },
    { SEMAPHORE_CREATE, 0, 0, 0, 0, 2, 0, 0, "S0", 0 },
    { SEMAPHORE_DELETE, 0, 0, 0, 0, 2, 0, 0, "S0", 0 },
    { SEMAPHORE_DELETE, 16, 0, 0, 0, 2, 0, 0, "S0", 0 },
    { SEMAPHORE_DELETE, 15, 0, 0, 0, 2, 0, 0, "S0", 0 },
    { SEMAPHORE_RESET, 0, 0, 0, 0, 2, 0, 0, "S0", 0 },
    { SEMAPHORE_RESET, 16, 0, 0, 0, 2, 0, 0, "S0", 0 },
    { SEMAPHORE_RESET, 15, 0, 0, 0, 2, 0, 0, "S0", 0 },
    { SWI_END, 0, 0, 0, 0, 0, 0, 0, "T3", 0 },
    { SEMAPHORE_CREATE, 3, 1, 0, 0, 0, 0, 4, "T3", RISING + 12 }, /* 4 to 15 */
    { SEMAPHORE_CREATE, 3, 1, 0, 0, 6, 0, 0, "T3", 0 },
    { SEMAPHORE_CREATE, 4, 0, 0, 0, 4, 0, 0, "T3", 0 },     /* 4 before 6 */
    { SEMAPHORE_POST, 16, 0, 0, 0, 3, 0, 3, "T3", 0 },      /* all 16 are in use */
    { SEMAPHORE_DELETE, 15, 0, 0, 0, 0, 0, 0, "T3", 0 },
    { SEMAPHORE_DELETE, 15, 0, 0, 0, 11, 0, 3, "T3", 0 },   /* the last number, deleted */
    { SEMAPHORE_PEND, 15, F, 0, 0, 11, 0, 3, "T3", 0 },
    { SEMAPHORE_POST, 15, 0, 0, 0, 11, 0, 3, "T3", 0 },
    { SEMAPHORE_RESET, 15, 1, 0, 0, 11, 0, 3, "T3", 0 },
    /* Whom a post wakes (No. 8). 15: 3 5, 5: 2, 4: 4, 3: 1. Semaphores 0 to 3 are of kinds 0 to 3 and have count 0. */
    { SEMAPHORE_PEND, 0, F, 0, 0, 0, 2, 0, "T5", 0 },       /* line of 0: 3 */
    { SEMAPHORE_PEND, 0, 2, 0, 0, 0, 2, 0, "T2", 0 },       /* 3 5, limit 2 */
    { SEMAPHORE_PEND, 0, F, 0, 0, 0, 2, 0, "T4", 0 },       /* 3 5 2 */
    { SEMAPHORE_PEND, 0, 1, 0, 0, 0, 2, 0, "T1", 0 },       /* 3 5 2 4, limit 1 */
    { SEMAPHORE_POST, 0, 0, 0, 0, 0, 0, 3, "T3", 0 },       /* the first that came: 5 2 4 */
    { INTERRUPT_IN, 0, 0, 0, 0, 0, 0, 0, "I", 0 },
    { TICK, 0, 0, 0, 0, 0, 0, 0, "I", 2 },                  /* tasks 4 and 5 expire: 2 */
    { SEMAPHORE_POST, 0, 0, 0, 0, 0, 0, 2, "I", 0 },        /* task 5 came before it, but waits no more */
    { SEMAPHORE_POST, 0, 0, 0, 0, 0, 0, 0, "I", 0 },        /* nor does task 4: count 1 */
    { INTERRUPT_OUT, 0, 0, 0, 0, 0, 0, 0, "T3", 0 },        /* 15: 3 5, 5: 2, 4: 4, 3: 1 */
    { TASK_LAST_RESULT, 5, 0, 0, 0, 0, 1, 0, "T3", 0 },
    { TASK_LAST_RESULT, 2, 0, 0, 0, 0, 0, 0, "T3", 0 },
    { SEMAPHORE_PEND, 1, F, 0, 0, 0, 2, 0, "T5", 0 },       /* line of 1: 3 */
    { SEMAPHORE_PEND, 1, F, 0, 0, 0, 2, 0, "T2", 0 },       /* 3 5 */
    { TASK_SET_PRIORITY, 2, 2, 0, 0, 0, 0, 5, "T4", 0 },    /* 4: 4, 3: 1, 2: 2 */
    { SEMAPHORE_PEND, 2, F, 0, 0, 0, 2, 0, "T1", 0 },       /* line of 2: 4 */
    { SEMAPHORE_PEND, 2, F, 0, 0, 0, 2, 0, "T2", 0 },       /* 4 1 */
    { TASK_CREATE, F, 0, 0, 0, 0, 0, 6, "T2", RISING + 25 }, /* 6 to 30 */
    { TASK_CREATE, 9, 0, 0, 0, 0, 0, 31, "T31", 0 },
    { SEMAPHORE_PEND, 2, F, 0, 0, 0, 2, 0, "T2", 0 },       /* 31 4 1: it came last */
    { SWITCHES_OFF, 2, 0, 0, 0, 0, 0, 2, "T2", 0 },
    { SEMAPHORE_POST, 2, 0, 0, 0, 0, 0, 31, "T2", 0 },      /* the highest, held back: 4 1 */
    { SWITCHES_RESTORE, 2, 2, 0, 0, 0, 0, 0, "T31", 0 },
    { SEMAPHORE_POST, 2, 0, 0, 0, 0, 0, 4, "T31", 0 },      /* it is below task 31: line 1 */
    { SEMAPHORE_PEND, 3, F, 0, 0, 0, 2, 0, "T4", 0 },       /* line of 3: 31 */
    { SEMAPHORE_POST, 1, 0, 0, 0, 0, 0, 3, "T3", 0 },       /* line of 1: 5 */
    { SEMAPHORE_PEND, 3, F, 0, 0, 0, 2, 0, "T4", 0 },       /* line of 3: 3 31, the later one in front */
    { SWI_POST, 0, 0, 0, 0, 0, 0, 0, "S0", 0 },             /* wakes no task */
    { SEMAPHORE_POST, 3, 0, 0, 0, 0, 0, 3, "S0", 0 },       /* runs after the Swi only: 31 */
    { SEMAPHORE_POST, 1, 0, 0, 0, 0, 0, 5, "S0", 0 },       /* 15: 3 5; nobody at 1 */
    { SEMAPHORE_POST, 1, 0, 0, 0, 0, 0, 0, "S0", 2 },       /* 1, and stays 1 */
    { SWI_END, 0, 0, 0, 0, 0, 0, 0, "T3", 0 },
    { SEMAPHORE_POST, 3, 0, 0, 0, 0, 0, 31, "T3", 0 },      /* below task 3 */
    { SEMAPHORE_POST, 3, 0, 0, 0, 0, 0, 0, "T3", 0 },
    { SEMAPHORE_POST, 2, 0, 0, 0, 0, 0, 1, "T3", 0 },       /* the last one there */
    { SEMAPHORE_POST, 2, 0, 0, 0, 0, 0, 0, "T3", 0 },       /* nobody: count 1 */
};

const struct named_table semaphores_table = TABLE(semaphores, 0x20);

static const struct row events[] = {
    { 0x34, 0, 0, 0, 0, 1, 0, 0, "T0", 0 },
    { EVENT_CREATE, 1, 0, 0, 0, 4, 0, 0, "T0", 0 },
    { EVENT_CREATE, 0, 0, 0, 0, 0, 0, 0, "T0", 0 },
    { EVENT_CREATE, 0, 0, 0, 0, 0, 0, 1, "T0", 0 },
    { EVENT_POST, 8, 1, 0, 0, 3, 0, 4, "T0", 0 },           /* outside its table, table 4 */
    { EVENT_POST, 9, 1, 0, 0, 3, 0, 4, "T0", 0 },           /* 8 + 1, and there is an event 1 */
    { EVENT_POST, F, 1, 0, 0, 3, 0, 4, "T0", 0 },
    { EVENT_POST, 8, 1, 1, 0, 3, 0, 4, "T0", 0 },           /* 3 before 4 */
    { EVENT_POST, 2, 1, 1, 0, 11, 0, 4, "T0", 0 },          /* inside it, not in use; 11 before 4 */
    { EVENT_POST, 7, 1, 0, 0, 11, 0, 4, "T0", 0 },
    { EVENT_POST, 0, 1, 1, 0, 4, 0, 0, "T0", 0 },
    { EVENT_POST, 0, 1, 0, 1, 4, 0, 0, "T0", 0 },
    { EVENT_PEND, 8, 1, 0, 0, 3, 0, 4, "T0", 0 },
    { EVENT_PEND, F, 1, 0, 0, 3, 0, 4, "T0", 0 },
    { EVENT_PEND, 8, 0, 0, 0, 3, 0, 4, "T0", 0 },           /* 3 before 4 */
    { EVENT_PEND, 8, 1, 0, F, 3, 0, 4, "T0", 0 },           /* not 5, though task 0 names a limit */
    { EVENT_PEND, 2, 0, 0, 0, 11, 0, 4, "T0", 0 },          /* 11 before 4 */
    { EVENT_PEND, 7, 1, 0, 0, 11, 0, 4, "T0", 0 },
    { EVENT_PEND, 7, 1, 0, F, 11, 0, 4, "T0", 0 },
    { EVENT_PEND, 0, 0, 0, 0, 4, 0, 0, "T0", 0 },           /* both masks 0 */
    { EVENT_PEND, 0, 0, 0, F, 4, 0, 0, "T0", 0 },
    { EVENT_POST, 0, 5, 0, 0, 0, 0, 0, "T0", 0 },           /* bits 101 */
    { EVENT_PEND, 0, 3, 0, 0, 0, 1, 0, "T0", 0 },           /* 011 is not all posted */
    { EVENT_PEND, 0, 3, 4, 0, 0, 0, 4, "T0", 0 },           /* by the or-mask alone; 001 is left */
    { EVENT_PEND, 0, 3, 0, 0, 0, 1, 0, "T0", 0 },
    { EVENT_PEND, 0, 3, 1, 0, 0, 0, 1, "T0", 0 },
    { EVENT_PEND, 0, 0, F, 0, 0, 1, 0, "T0", 0 },           /* none is left */
    { EVENT_POST, 0, 7, 0, 0, 0, 0, 0, "T0", 0 },
    { EVENT_PEND, 0, 3, 0, 0, 0, 0, 3, "T0", 0 },           /* 100 is left */
    { EVENT_PEND, 0, 4, 4, 0, 0, 0, 4, "T0", 0 },
    { EVENT_POST, 0, 0, 0, 0, 0, 0, 0, "T0", 0 },           /* mask 0 */
    { EVENT_PEND, 0, 1, 0, F, 5, 0, 0, "T0", 0 },           /* task 0 would wait */
    { EVENT_POST, 0, 1, 0, 0, 0, 0, 0, "T0", 0 },
    { EVENT_PEND, 0, 1, 0, F, 0, 0, 1, "T0", 0 },           /* done at once */
    { TASK_CREATE, 5, 0, 0, 0, 0, 0, 1, "T1", 0 },
    { SWITCHES_OFF, 2, 0, 0, 0, 0, 0, 2, "T1", 0 },
    { EVENT_PEND, 0, 1, 0, F, 9, 0, 0, "T1", 0 },
    { EVENT_PEND, 8, 1, 0, F, 3, 0, 4, "T1", 0 },           /* not 9 */
    { EVENT_PEND, 7, 1, 0, F, 11, 0, 4, "T1", 0 },
    { EVENT_PEND, 0, 1, 0, 0, 0, 1, 0, "T1", 0 },
    { EVENT_POST, 0, 1, 0, 0, 0, 0, 0, "T1", 0 },
    { EVENT_PEND, 0, 1, 0, F, 0, 0, 1, "T1", 0 },
    { SWITCHES_RESTORE, 2, 2, 0, 0, 0, 0, 0, "T1", 0 },
    { SWITCHES_OFF, 1, 0, 0, 0, 0, 0, 1, "T1", 0 },
    { EVENT_PEND, 0, 0, 1, 2, 9, 0, 0, "T1", 0 },
    { EVENT_PEND, 0, 0, 0, 2, 4, 0, 0, "T1", 0 },           /* 4 before 9 */
    { SWITCHES_RESTORE, 1, 1, 0, 0, 0, 0, 0, "T1", 0 },
    { EVENT_PEND, 0, 3, 0, F, 0, 2, 0, "T0", 0 },           /* task 1 waits for 011 */
    { TASK_CREATE, 4, 0, 0, 0, 0, 0, 2, "T2", 0 },
    { EVENT_PEND, 0, 4, 4, F, 5, 0, 0, "T2", 0 },           /* a waiter there already */
    { EVENT_PEND, 0, 4, 4, 0, 5, 0, 0, "T2", 0 },
    { EVENT_PEND, 0, 0, 0, 0, 4, 0, 0, "T2", 0 },
    { EVENT_DELETE, 0, 0, 0, 0, 5, 0, 0, "T2", 0 },
    { EVENT_DELETE, 0, 1, 0, 0, 4, 0, 0, "T2", 0 },         /* 4 before 5 */
    { EVENT_POST, 0, 5, 0, 0, 0, 0, 0, "T2", 0 },           /* 101 does not serve it */
    { EVENT_PEND, 0, 4, 0, 0, 5, 0, 0, "T2", 0 },           /* 5 although bits would match */
    { SWITCHES_OFF, 1, 0, 0, 0, 0, 0, 1, "T2", 0 },
    { EVENT_PEND, 0, 8, 0, F, 5, 0, 0, "T2", 0 },           /* 5 before 9 */
    { SWITCHES_RESTORE, 1, 1, 0, 0, 0, 0, 0, "T2", 0 },
    { EVENT_POST, 0, 2, 0, 0, 0, 0, 1, "T1", 0 },           /* 111: matched 011, 100 is left */
    { TASK_LAST_RESULT, 1, 0, 0, 0, 0, 0, 3, "T1", 0 },
    { EVENT_PEND, 0, 4, 0, F, 0, 0, 4, "T1", 0 },
    { TASK_LAST_RESULT, 1, 0, 0, 0, 0, 0, 3, "T1", 0 },     /* a call done at once stores nothing */
    { EVENT_PEND, 1, 0, 2, 2, 0, 2, 0, "T2", 0 },           /* task 1 waits at event 1, limit 2 */
    { EVENT_PEND, 0, 1, 8, 1, 0, 2, 0, "T0", 0 },           /* task 2 waits at event 0, limit 1 */
    { INTERRUPT_IN, 0, 0, 0, 0, 0, 0, 0, "I", 0 },
    { TICK, 0, 0, 0, 0, 0, 0, 0, "I", 0 },                  /* task 2 expires */
    { EVENT_POST, 0, 9, 0, 0, 0, 0, 0, "I", 0 },            /* it is the waiter no more */
    { EVENT_PEND, 0, 1, 8, 1, 2, 0, 0, "I", 0 },
    { EVENT_PEND, 9, 0, 0, 1, 2, 0, 0, "I", 0 },            /* 2 before 3 and 4 */
    { EVENT_PEND, 7, 0, 0, 1, 2, 0, 0, "I", 0 },            /* 2 before 11 and 4 */
    { EVENT_PEND, 8, 1, 0, 0, 3, 0, 4, "I", 0 },
    { EVENT_PEND, 7, 1, 0, 0, 11, 0, 4, "I", 0 },
    { EVENT_POST, 8, 1, 0, 0, 3, 0, 4, "I", 0 },
    { EVENT_POST, 7, 1, 0, 0, 11, 0, 4, "I", 0 },
    { EVENT_PEND, 0, 1, 8, 0, 0, 0, 9, "I", 0 },            /* both masks */
    { EVENT_PEND, 0, 1, 8, 0, 0, 1, 0, "I", 0 },
    { EVENT_CREATE, 0, 0, 0, 0, 2, 0, 0, "I", 0 },
    { EVENT_DELETE, 0, 0, 0, 0, 2, 0, 0, "I", 0 },
    { EVENT_DELETE, 8, 0, 0, 0, 2, 0, 0, "I", 0 },
    { EVENT_DELETE, 7, 0, 0, 0, 2, 0, 0, "I", 0 },
    { EVENT_PEND, 1, 1, 0, 0, 5, 0, 0, "I", 0 },            /* task 1 waits there */
    { EVENT_POST, 1, 6, 0, 0, 0, 0, 1, "I", 0 },            /* matched 010, 100 is left */
    { INTERRUPT_OUT, 0, 0, 0, 0, 0, 0, 0, "T1", 0 },
    { TASK_LAST_RESULT, 1, 0, 0, 0, 0, 0, 2, "T1", 0 },
    { TASK_LAST_RESULT, 2, 0, 0, 0, 0, 1, 0, "T1", 0 },
    { SWI_CREATE, 1, 0, 0, 0, 0, 0, 0, "T1", 0 },
    { SWI_POST, 0, 0, 0, 0, 0, 0, 0, "S0", 0 },
    { EVENT_PEND, 1, 4, 0, 5, 2, 0, 0, "S0", 0 },
    { EVENT_PEND, 8, 4, 0, 5, 2, 0, 0, "S0", 0 },
    { EVENT_PEND, 7, 4, 0, 5, 2, 0, 0, "S0", 0 },
    { EVENT_PEND, 8, 4, 0, 0, 3, 0, 4, "S0", 0 },
    { EVENT_PEND, 7, 4, 0, 0, 11, 0, 4, "S0", 0 },
    { EVENT_POST, 8, 1, 0, 0, 3, 0, 4, "S0", 0 },
    { EVENT_POST, 7, 1, 0, 0, 11, 0, 4, "S0", 0 },
    { EVENT_PEND, 1, 4, 0, 0, 0, 0, 4, "S0", 0 },
    { EVENT_PEND, 1, 4, 0, 0, 0, 1, 0, "S0", 0 },
    { EVENT_POST, 1, 1, 0, 0, 0, 0, 0, "S0", 0 },
    { EVENT_CREATE, 0, 0, 0, 0, 2, 0, 0, "S0", 0 },
    { EVENT_DELETE, 1, 0, 0, 0, 2, 0, 0, "S0", 0 },
    { EVENT_DELETE, 8, 0, 0, 0, 2, 0, 0, "S0", 0 },
    { EVENT_DELETE, 7, 0, 0, 0, 2, 0, 0, "S0", 0 },
    { SWI_END, 0, 0, 0, 0, 0, 0, 0, "T1", 0 },
    { EVENT_DELETE, 8, 0, 0, 0, 3, 0, 4, "T1", 0 },
    { EVENT_DELETE, F, 0, 0, 0, 3, 0, 4, "T1", 0 },
    { EVENT_DELETE, 8, 1, 0, 0, 3, 0, 4, "T1", 0 },
    { EVENT_DELETE, 2, 0, 0, 0, 11, 0, 4, "T1", 0 },
    { EVENT_DELETE, 7, 0, 0, 0, 11, 0, 4, "T1", 0 },
    { EVENT_DELETE, 7, 0, 0, 1, 11, 0, 4, "T1", 0 },
    { EVENT_DELETE, 1, 0, 0, 1, 4, 0, 0, "T1", 0 },
    { EVENT_DELETE, 1, 0, 0, 0, 0, 0, 0, "T1", 0 },         /* posted bits forbid no delete */
    { EVENT_DELETE, 1, 0, 0, 0, 11, 0, 4, "T1", 0 },        /* deleted */
    { EVENT_POST, 1, 1, 0, 0, 11, 0, 4, "T1", 0 },
    { EVENT_PEND, 1, 1, 0, 0, 11, 0, 4, "T1", 0 },
    { EVENT_PEND, 1, 1, 0, F, 11, 0, 4, "T1", 0 },
    { EVENT_CREATE, 0, 0, 0, 0, 0, 0, 1, "T1", 0 },
    { EVENT_PEND, 1, 0, F, 0, 0, 1, 0, "T1", 0 },           /* without bits */
    { EVENT_POST, 1, F, 0, 0, 0, 0, 0, "T1", 0 },
    { EVENT_PEND, 1, F, 0, 0, 0, 0, F, "T1", 0 },
    { EVENT_CREATE, 0, 0, 0, 0, 0, 0, 2, "T1", RISING + 6 }, /* 2 to 7 */
    { EVENT_CREATE, 0, 0, 0, 0, 6, 0, 0, "T1", 0 },
    { EVENT_CREATE, 0, 1, 0, 0, 4, 0, 0, "T1", 0 },
    { EVENT_POST, 8, 1, 0, 0, 3, 0, 4, "T1", 0 },           /* all 8 are in use */
    { EVENT_DELETE, 7, 0, 0, 0, 0, 0, 0, "T1", 0 },
    { EVENT_DELETE, 7, 0, 0, 0, 11, 0, 4, "T1", 0 },        /* the last number, deleted */
    { EVENT_PEND, 7, 1, 0, F, 11, 0, 4, "T1", 0 },
    { EVENT_POST, 7, 1, 0, 0, 11, 0, 4, "T1", 0 },
    /* Whom a post wakes (No. 8). 5: 1, 4: 2. No event has bits. */
    { EVENT_PEND, 0, 3, 0, F, 0, 2, 0, "T2", 0 },           /* task 1 waits at event 0 for 011 */
    { EVENT_PEND, 1, 0, 6, F, 0, 2, 0, "T0", 0 },           /* task 2 at event 1 for 010 or 100 */
    { TASK_CREATE, F, 0, 0, 0, 0, 0, 3, "T0", RISING + 28 }, /* 3 to 30 */
    { TASK_CREATE, 9, 0, 0, 0, 0, 0, 31, "T31", 0 },
    { EVENT_PEND, 2, 1, 8, F, 0, 2, 0, "T0", 0 },           /* task 31 at event 2 for 0001 or 1000 */
    { TASK_SET_PRIORITY, 3, 7, 0, 0, 0, 0, F, "T3", 0 },
    { EVENT_PEND, 3, 4, 0, 1, 0, 2, 0, "T0", 0 },           /* task 3 at event 3 for 100, limit 1 */
    { EVENT_POST, 1, 1, 0, 0, 0, 0, 0, "T0", 0 },           /* serves nobody, though task 2 waits */
    { EVENT_POST, 1, 0, 0, 0, 0, 0, 0, "T0", 0 },
    { EVENT_POST, 4, 6, 0, 0, 0, 0, 0, "T0", 0 },           /* nobody waits there */
    { EVENT_POST, 1, 4, 0, 0, 0, 0, 2, "T2", 0 },           /* 101: matched 100, 001 is left */
    { TASK_LAST_RESULT, 2, 0, 0, 0, 0, 0, 4, "T2", 0 },     /* the bits, not a number */
    { EVENT_PEND, 1, 0, 6, F, 0, 2, 0, "T0", 0 },
    { INTERRUPT_IN, 0, 0, 0, 0, 0, 0, 0, "I", 0 },
    { TICK, 0, 0, 0, 0, 0, 0, 0, "I", 0 },                  /* task 3 expires */
    { EVENT_POST, 3, 4, 0, 0, 0, 0, 0, "I", 0 },            /* it is the waiter no more */
    { EVENT_POST, 2, 1, 0, 0, 0, 0, 31, "I", 0 },           /* by the and-mask; runs after the interrupt only */
    { EVENT_POST, 2, 8, 0, 0, 0, 0, 0, "I", 0 },            /* served already */
    { INTERRUPT_OUT, 0, 0, 0, 0, 0, 0, 0, "T31", 0 },       /* 9: 31, 7: 3 */
    { TASK_LAST_RESULT, 31, 0, 0, 0, 0, 0, 1, "T31", 0 },
    { TASK_LAST_RESULT, 3, 0, 0, 0, 0, 1, 0, "T31", 0 },
    { SWI_POST, 0, 0, 0, 0, 0, 0, 0, "S0", 0 },             /* wakes no task */
    { EVENT_POST, 1, 8, 0, 0, 0, 0, 0, "S0", 0 },           /* 1001: still not task 2 */
    { EVENT_POST, 1, 2, 0, 0, 0, 0, 2, "S0", 0 },           /* 1011: matched 0010 */
    { EVENT_POST, 0, 1, 0, 0, 0, 0, 0, "S0", 0 },           /* half of the and-mask */
    { EVENT_POST, 0, 2, 0, 0, 0, 0, 1, "S0", 0 },           /* the whole */
    { SWI_END, 0, 0, 0, 0, 0, 0, 0, "T31", 0 },             /* 9: 31, 7: 3, 5: 1, 4: 2 */
    { TASK_LAST_RESULT, 2, 0, 0, 0, 0, 0, 2, "T31", 0 },
    { TASK_LAST_RESULT, 1, 0, 0, 0, 0, 0, 3, "T31", 0 },
    { EVENT_PEND, 5, 5, 0, F, 0, 2, 0, "T3", 0 },           /* task 31 waits at event 5 for 101 */
    { SWITCHES_OFF, 1, 0, 0, 0, 0, 0, 1, "T3", 0 },
    { EVENT_POST, 5, 7, 0, 0, 0, 0, 31, "T3", 0 },          /* held back */
    { SWITCHES_RESTORE, 1, 1, 0, 0, 0, 0, 0, "T31", 0 },
    { TASK_LAST_RESULT, 31, 0, 0, 0, 0, 0, 5, "T31", 0 },
};

const struct named_table events_table = TABLE(events, 0x30);

/* Mailbox 0 holds 2, mailbox 1 holds 8, mailbox 2 holds 1. */
static const struct row mailboxes[] = {
    { 0x44, 0, 0, 0, 0, 1, 0, 0, "T0", 0 },
    { MAILBOX_CREATE, 0, 0, 0, 0, 4, 0, 0, "T0", 0 },
    { MAILBOX_CREATE, 9, 0, 0, 0, 4, 0, 0, "T0", 0 },
    { MAILBOX_CREATE, 1, 1, 0, 0, 4, 0, 0, "T0", 0 },
    { MAILBOX_CREATE, 2, 0, 0, 0, 0, 0, 0, "T0", 0 },
    { MAILBOX_CREATE, 8, 0, 0, 0, 0, 0, 1, "T0", 0 },
    { MAILBOX_CREATE, 1, 0, 0, 0, 0, 0, 2, "T0", 0 },
    { MAILBOX_POST, 8, 7, 0, 0, 3, 0, 5, "T0", 0 },         /* outside its table, table 5 */
    { MAILBOX_POST, 9, 7, 0, 0, 3, 0, 5, "T0", 0 },         /* 8 + 1, and there is a mailbox 1 */
    { MAILBOX_POST, F, 7, 0, 0, 3, 0, 5, "T0", 0 },
    { MAILBOX_POST, 8, 7, 0, 1, 3, 0, 5, "T0", 0 },         /* 3 before 4 */
    { MAILBOX_POST, 3, 7, 0, 1, 11, 0, 5, "T0", 0 },        /* inside it, not in use; 11 before 4 */
    { MAILBOX_POST, 7, 7, 0, 0, 11, 0, 5, "T0", 0 },
    { MAILBOX_POST, 7, 7, F, 0, 11, 0, 5, "T0", 0 },
    { MAILBOX_POST, 0, 7, 0, 1, 4, 0, 0, "T0", 0 },
    { MAILBOX_PEND, 8, 0, 0, 0, 3, 0, 5, "T0", 0 },
    { MAILBOX_PEND, F, 0, 0, 0, 3, 0, 5, "T0", 0 },
    { MAILBOX_PEND, 8, 0, 1, 0, 3, 0, 5, "T0", 0 },
    { MAILBOX_PEND, 8, F, 0, 0, 3, 0, 5, "T0", 0 },         /* not 5, though task 0 names a limit */
    { MAILBOX_PEND, 3, 0, 1, 0, 11, 0, 5, "T0", 0 },
    { MAILBOX_PEND, 7, 0, 0, 0, 11, 0, 5, "T0", 0 },
    { MAILBOX_PEND, 7, F, 0, 0, 11, 0, 5, "T0", 0 },
    { MAILBOX_PEND, 0, 0, 1, 0, 4, 0, 0, "T0", 0 },
    { MAILBOX_POST, 0, 100, 0, 0, 0, 0, 0, "T0", 0 },
    { MAILBOX_POST, 0, 200, F, 0, 0, 0, 0, "T0", 0 },       /* room: done at once */
    { MAILBOX_POST, 0, 300, 0, 0, 0, 1, 0, "T0", 0 },       /* full */
    { MAILBOX_POST, 0, 300, 1, 0, 5, 0, 0, "T0", 0 },       /* task 0 would wait */
    { MAILBOX_POST, 0, 300, 1, 1, 4, 0, 0, "T0", 0 },       /* 4 before 5 */
    { MAILBOX_PEND, 2, F, 0, 0, 5, 0, 0, "T0", 0 },
    { MAILBOX_PEND, 2, 0, 0, 0, 0, 1, 0, "T0", 0 },         /* empty */
    { MAILBOX_DELETE, 0, 0, 0, 0, 5, 0, 0, "T0", 0 },       /* messages */
    { MAILBOX_DELETE, 0, 1, 0, 0, 4, 0, 0, "T0", 0 },
    { TASK_CREATE, 5, 0, 0, 0, 0, 0, 1, "T1", 0 },
    { MAILBOX_POST, 0, 300, F, 0, 0, 2, 0, "T0", 0 },       /* writers 1 */
    { TASK_CREATE, 6, 0, 0, 0, 0, 0, 2, "T2", 0 },
    { MAILBOX_POST, 0, 400, 2, 0, 0, 2, 0, "T0", 0 },       /* 1 2 */
    { TASK_CREATE, 7, 0, 0, 0, 0, 0, 3, "T3", 0 },
    { MAILBOX_POST, 0, 500, 1, 0, 0, 2, 0, "T0", 0 },       /* 1 2 3: arrival order */
    { MAILBOX_PEND, 0, 0, 0, 0, 0, 0, 100, "T1", 0 },       /* 300 joins: 200 300; writers 2 3 */
    { TASK_LAST_RESULT, 1, 0, 0, 0, 0, 0, 0, "T1", 0 },
    { INTERRUPT_IN, 0, 0, 0, 0, 0, 0, 0, "I", 0 },
    { TICK, 0, 0, 0, 0, 0, 0, 0, "I", 0 },                  /* task 3 expires with its word */
    { MAILBOX_PEND, 0, 0, 0, 0, 0, 0, 200, "I", 0 },        /* 300 400; no writers */
    { MAILBOX_POST, 0, 9, 0, 0, 0, 1, 0, "I", 0 },
    { MAILBOX_POST, 0, 9, 1, 0, 2, 0, 0, "I", 0 },
    { MAILBOX_POST, 9, 9, 1, 0, 2, 0, 0, "I", 0 },          /* 2 before 3 */
    { MAILBOX_POST, 7, 9, 1, 0, 2, 0, 0, "I", 0 },          /* 2 before 11 */
    { MAILBOX_POST, 8, 9, 0, 0, 3, 0, 5, "I", 0 },
    { MAILBOX_POST, 7, 9, 0, 0, 11, 0, 5, "I", 0 },
    { MAILBOX_PEND, 0, 1, 0, 0, 2, 0, 0, "I", 0 },
    { MAILBOX_PEND, 9, F, 0, 0, 2, 0, 0, "I", 0 },
    { MAILBOX_PEND, 7, F, 0, 0, 2, 0, 0, "I", 0 },
    { MAILBOX_PEND, 8, 0, 0, 0, 3, 0, 5, "I", 0 },
    { MAILBOX_PEND, 7, 0, 0, 0, 11, 0, 5, "I", 0 },
    { MAILBOX_CREATE, 1, 0, 0, 0, 2, 0, 0, "I", 0 },
    { MAILBOX_DELETE, 1, 0, 0, 0, 2, 0, 0, "I", 0 },
    { MAILBOX_DELETE, 8, 0, 0, 0, 2, 0, 0, "I", 0 },
    { MAILBOX_DELETE, 7, 0, 0, 0, 2, 0, 0, "I", 0 },
    { INTERRUPT_OUT, 0, 0, 0, 0, 0, 0, 0, "T3", 0 },        /* 7: 3, 6: 2, 5: 1 */
    { TASK_LAST_RESULT, 3, 0, 0, 0, 0, 1, 0, "T3", 0 },
    { TASK_LAST_RESULT, 2, 0, 0, 0, 0, 0, 0, "T3", 0 },
    { MAILBOX_PEND, 0, F, 0, 0, 0, 0, 300, "T3", 0 },
    { MAILBOX_PEND, 0, 5, 0, 0, 0, 0, 400, "T3", 0 },
    { MAILBOX_PEND, 0, F, 0, 0, 0, 2, 0, "T2", 0 },         /* readers 3 */
    { MAILBOX_PEND, 0, 1, 0, 0, 0, 2, 0, "T1", 0 },         /* 3 2 */
    { MAILBOX_PEND, 0, F, 0, 0, 0, 2, 0, "T0", 0 },         /* 3 2 1 */
    { MAILBOX_DELETE, 0, 0, 0, 0, 5, 0, 0, "T0", 0 },       /* waiters */
    { MAILBOX_PEND, 0, 0, 0, 0, 0, 1, 0, "T0", 0 },
    { INTERRUPT_IN, 0, 0, 0, 0, 0, 0, 0, "I", 0 },
    { TICK, 0, 0, 0, 0, 0, 0, 0, "I", 0 },                  /* task 2 expires: 3 1 */
    { MAILBOX_POST, 0, 11, 0, 0, 0, 0, 3, "I", 0 },         /* to task 3 */
    { MAILBOX_PEND, 0, 0, 0, 0, 0, 1, 0, "I", 0 },          /* not to the back as well */
    { INTERRUPT_OUT, 0, 0, 0, 0, 0, 0, 0, "T3", 0 },
    { TASK_LAST_RESULT, 3, 0, 0, 0, 0, 0, 11, "T3", 0 },
    { TASK_LAST_RESULT, 2, 0, 0, 0, 0, 1, 0, "T3", 0 },
    { MAILBOX_POST, 0, 22, 0, 0, 0, 0, 1, "T3", 0 },        /* to task 1 */
    { TASK_LAST_RESULT, 1, 0, 0, 0, 0, 0, 22, "T3", 0 },
    { MAILBOX_POST, 0, 33, 0, 0, 0, 0, 0, "T3", 0 },        /* to the back */
    { MAILBOX_PEND, 0, 0, 0, 0, 0, 0, 33, "T3", 0 },
    { SWITCHES_OFF, 2, 0, 0, 0, 0, 0, 2, "T3", 0 },
    { MAILBOX_PEND, 0, F, 0, 0, 9, 0, 0, "T3", 0 },
    { MAILBOX_PEND, 8, F, 0, 0, 3, 0, 5, "T3", 0 },         /* not 9 */
    { MAILBOX_PEND, 7, F, 0, 0, 11, 0, 5, "T3", 0 },
    { MAILBOX_PEND, 0, F, 1, 0, 4, 0, 0, "T3", 0 },         /* 4 before 9 */
    { MAILBOX_PEND, 0, 0, 0, 0, 0, 1, 0, "T3", 0 },
    { MAILBOX_POST, 2, 1, 3, 0, 0, 0, 0, "T3", 0 },
    { MAILBOX_POST, 2, 2, 3, 0, 9, 0, 0, "T3", 0 },         /* full: capacity 1 */
    { MAILBOX_POST, 2, 2, 0, 0, 0, 1, 0, "T3", 0 },
    { SWITCHES_RESTORE, 2, 2, 0, 0, 0, 0, 0, "T3", 0 },
    { SWITCHES_OFF, 1, 0, 0, 0, 0, 0, 1, "T3", 0 },
    { MAILBOX_PEND, 0, 3, 0, 0, 9, 0, 0, "T3", 0 },
    { MAILBOX_POST, 2, 2, F, 0, 9, 0, 0, "T3", 0 },
    { MAILBOX_POST, 8, 2, F, 0, 3, 0, 5, "T3", 0 },
    { MAILBOX_POST, 7, 2, F, 0, 11, 0, 5, "T3", 0 },
    { SWITCHES_RESTORE, 1, 1, 0, 0, 0, 0, 0, "T3", 0 },
    { SWI_CREATE, 0, 0, 0, 0, 0, 0, 0, "T3", 0 },
    { SWI_POST, 0, 0, 0, 0, 0, 0, 0, "S0", 0 },
    { MAILBOX_PEND, 2, 1, 0, 0, 2, 0, 0, "S0", 0 },
    { MAILBOX_PEND, 8, 1, 0, 0, 2, 0, 0, "S0", 0 },
    { MAILBOX_PEND, 7, 1, 0, 0, 2, 0, 0, "S0", 0 },
    { MAILBOX_PEND, 8, 0, 0, 0, 3, 0, 5, "S0", 0 },
    { MAILBOX_PEND, 7, 0, 0, 0, 11, 0, 5, "S0", 0 },
    { MAILBOX_PEND, 2, 0, 0, 0, 0, 0, 1, "S0", 0 },
    { MAILBOX_POST, 2, 5, 1, 0, 2, 0, 0, "S0", 0 },
    { MAILBOX_POST, 8, 5, 1, 0, 2, 0, 0, "S0", 0 },
    { MAILBOX_POST, 7, 5, 1, 0, 2, 0, 0, "S0", 0 },
    { MAILBOX_POST, 8, 5, 0, 0, 3, 0, 5, "S0", 0 },
    { MAILBOX_POST, 7, 5, 0, 0, 11, 0, 5, "S0", 0 },
    { MAILBOX_POST, 2, 5, 0, 0, 0, 0, 0, "S0", 0 },
    { MAILBOX_POST, 2, 6, 0, 0, 0, 1, 0, "S0", 0 },
    { MAILBOX_CREATE, 1, 0, 0, 0, 2, 0, 0, "S0", 0 },
    { MAILBOX_DELETE, 1, 0, 0, 0, 2, 0, 0, "S0", 0 },
    { MAILBOX_DELETE, 8, 0, 0, 0, 2, 0, 0, "S0", 0 },
    { MAILBOX_DELETE, 7, 0, 0, 0, 2, 0, 0, "S0", 0 },
    { SWI_END, 0, 0, 0, 0, 0, 0, 0, "T3", 0 },
    { MAILBOX_POST, 1, 31, 0, 0, 0, 0, 0, "T3", 0 },
    { MAILBOX_POST, 1, 32, 0, 0, 0, 0, 0, "T3", 0 },
    { MAILBOX_POST, 1, 33, 0, 0, 0, 0, 0, "T3", 0 },
    { MAILBOX_POST, 1, 34, 0, 0, 0, 0, 0, "T3", 0 },
    { MAILBOX_POST, 1, 35, 0, 0, 0, 0, 0, "T3", 0 },
    { MAILBOX_POST, 1, 36, 0, 0, 0, 0, 0, "T3", 0 },
    { MAILBOX_POST, 1, 37, 0, 0, 0, 0, 0, "T3", 0 },
    { MAILBOX_POST, 1, 38, 0, 0, 0, 0, 0, "T3", 0 },
    { MAILBOX_POST, 1, 39, 0, 0, 0, 1, 0, "T3", 0 },        /* eight are there */
    { MAILBOX_PEND, 1, 0, 0, 0, 0, 0, 31, "T3", 0 },
    { MAILBOX_POST, 1, 39, 0, 0, 0, 0, 0, "T3", 0 },
    { MAILBOX_PEND, 1, 0, 0, 0, 0, 0, 32, "T3", RISING + 8 }, /* 32 to 39, the oldest first */
    { MAILBOX_PEND, 1, 0, 0, 0, 0, 1, 0, "T3", 0 },
    { MAILBOX_POST, 1, F, 0, 0, 0, 0, 0, "T3", 0 },
    { MAILBOX_POST, 1, 0, 0, 0, 0, 0, 0, "T3", 0 },
    { MAILBOX_PEND, 1, 0, 0, 0, 0, 0, F, "T3", 0 },
    { MAILBOX_PEND, 1, 0, 0, 0, 0, 0, 0, "T3", 0 },         /* the word 0 */
    { MAILBOX_DELETE, 8, 0, 0, 0, 3, 0, 5, "T3", 0 },
    { MAILBOX_DELETE, F, 0, 0, 0, 3, 0, 5, "T3", 0 },
    { MAILBOX_DELETE, 8, 1, 0, 0, 3, 0, 5, "T3", 0 },
    { MAILBOX_DELETE, 3, 0, 0, 0, 11, 0, 5, "T3", 0 },
    { MAILBOX_DELETE, 7, 0, 0, 0, 11, 0, 5, "T3", 0 },
    { MAILBOX_DELETE, 7, 1, 0, 0, 11, 0, 5, "T3", 0 },
    { MAILBOX_DELETE, 1, 1, 0, 0, 4, 0, 0, "T3", 0 },
    { MAILBOX_DELETE, 1, 0, 0, 0, 0, 0, 0, "T3", 0 },
    { MAILBOX_DELETE, 1, 0, 0, 0, 11, 0, 5, "T3", 0 },      /* deleted */
    { MAILBOX_POST, 1, 1, 0, 0, 11, 0, 5, "T3", 0 },
    { MAILBOX_PEND, 1, 0, 0, 0, 11, 0, 5, "T3", 0 },
    { MAILBOX_PEND, 1, F, 0, 0, 11, 0, 5, "T3", 0 },
    { MAILBOX_CREATE, 1, 0, 0, 0, 0, 0, 1, "T3", 0 },
    { MAILBOX_CREATE, 1, 0, 0, 0, 0, 0, 3, "T3", RISING + 5 }, /* 3 to 7 */
    { MAILBOX_CREATE, 1, 0, 0, 0, 6, 0, 0, "T3", 0 },
    { MAILBOX_CREATE, 9, 0, 0, 0, 4, 0, 0, "T3", 0 },       /* 4 before 6 */
    { MAILBOX_POST, 8, 1, 0, 0, 3, 0, 5, "T3", 0 },         /* all 8 are in use */
    { MAILBOX_DELETE, 7, 0, 0, 0, 0, 0, 0, "T3", 0 },
    { MAILBOX_DELETE, 7, 0, 0, 0, 11, 0, 5, "T3", 0 },      /* the last number, deleted */
    { MAILBOX_PEND, 7, F, 0, 0, 11, 0, 5, "T3", 0 },
    { MAILBOX_POST, 7, 1, 0, 0, 11, 0, 5, "T3", 0 },
    /* Whom a post wakes (No. 8). 7: 3, 6: 2, 5: 1. Mailbox 0 holds 2; mailboxes 1 and 3 hold 1; these are empty. */
    { MAILBOX_PEND, 0, F, 0, 0, 0, 2, 0, "T2", 0 },         /* readers 3 */
    { MAILBOX_PEND, 0, 1, 0, 0, 0, 2, 0, "T1", 0 },         /* 3 2, limit 1 */
    { MAILBOX_PEND, 0, F, 0, 0, 0, 2, 0, "T0", 0 },         /* 3 2 1 */
    { TASK_CREATE, F, 0, 0, 0, 0, 0, 4, "T0", RISING + 27 }, /* 4 to 30 */
    { TASK_CREATE, 9, 0, 0, 0, 0, 0, 31, "T31", 0 },
    { MAILBOX_PEND, 0, F, 0, 0, 0, 2, 0, "T0", 0 },         /* 3 2 1 31 */
    { MAILBOX_POST, 0, 50, 0, 0, 0, 0, 3, "T3", 0 },        /* straight to task 3: 2 1 31 */
    { TASK_LAST_RESULT, 3, 0, 0, 0, 0, 0, 50, "T3", 0 },    /* the word, not a number */
    { INTERRUPT_IN, 0, 0, 0, 0, 0, 0, 0, "I", 0 },
    { TICK, 0, 0, 0, 0, 0, 0, 0, "I", 0 },                  /* task 2 expires: 1 31 */
    { MAILBOX_POST, 0, 51, 0, 0, 0, 0, 1, "I", 0 },         /* 31 */
    { MAILBOX_POST, 0, 52, 0, 0, 0, 0, 31, "I", 0 },        /* runs after the interrupt only */
    { MAILBOX_POST, 0, 53, 0, 0, 0, 0, 0, "I", 0 },         /* to the back */
    { INTERRUPT_OUT, 0, 0, 0, 0, 0, 0, 0, "T31", 0 },       /* 9: 31, 7: 3, 6: 2, 5: 1 */
    { TASK_LAST_RESULT, 2, 0, 0, 0, 0, 1, 0, "T31", 0 },
    { TASK_LAST_RESULT, 1, 0, 0, 0, 0, 0, 51, "T31", 0 },
    { TASK_LAST_RESULT, 31, 0, 0, 0, 0, 0, 52, "T31", 0 },
    { MAILBOX_POST, 0, 54, F, 0, 0, 0, 0, "T31", 0 },       /* to the back: 53 54 */
    { MAILBOX_POST, 0, 55, 0, 0, 0, 1, 0, "T31", 0 },
    { MAILBOX_POST, 0, 55, F, 0, 0, 2, 0, "T3", 0 },        /* writers 31 */
    { MAILBOX_POST, 0, 56, F, 0, 0, 2, 0, "T2", 0 },        /* 31 3 */
    { MAILBOX_PEND, 0, 0, 0, 0, 0, 0, 53, "T31", 0 },       /* the word, though it lets task 31 in: 54 55; writers 3 */
    { TASK_LAST_RESULT, 31, 0, 0, 0, 0, 0, 0, "T31", 0 },   /* a writer has no value */
    { SWI_POST, 0, 0, 0, 0, 0, 0, 0, "S0", 0 },             /* wakes no task */
    { MAILBOX_PEND, 0, 0, 0, 0, 0, 0, 54, "S0", 0 },        /* lets task 3 in: 55 56 */
    { TASK_LAST_RESULT, 3, 0, 0, 0, 0, 0, 0, "S0", 0 },
    { SWI_END, 0, 0, 0, 0, 0, 0, 0, "T31", 0 },
    { MAILBOX_PEND, 1, F, 0, 0, 0, 2, 0, "T3", 0 },         /* readers 31 */
    { MAILBOX_PEND, 1, F, 0, 0, 0, 2, 0, "T2", 0 },         /* 31 3 */
    { SWI_POST, 0, 0, 0, 0, 0, 0, 0, "S0", 0 },
    { MAILBOX_POST, 1, 57, 0, 0, 0, 0, 31, "S0", 0 },       /* runs after the Swi only: 3 */
    { MAILBOX_POST, 1, 0, 0, 0, 0, 0, 3, "S0", 0 },         /* the word 0 */
    { MAILBOX_POST, 1, 58, 0, 0, 0, 0, 0, "S0", 0 },        /* to the back */
    { MAILBOX_POST, 1, 59, 0, 0, 0, 1, 0, "S0", 0 },        /* full */
    { SWI_END, 0, 0, 0, 0, 0, 0, 0, "T31", 0 },             /* 9: 31, 7: 3, 6: 2, 5: 1 */
    { TASK_LAST_RESULT, 31, 0, 0, 0, 0, 0, 57, "T31", 0 },
    { TASK_LAST_RESULT, 3, 0, 0, 0, 0, 0, 0, "T31", 0 },
    { MAILBOX_PEND, 3, F, 0, 0, 0, 2, 0, "T3", 0 },         /* reader of 3: 31 */
    { SWITCHES_OFF, 2, 0, 0, 0, 0, 0, 2, "T3", 0 },
    { MAILBOX_POST, 3, 60, F, 0, 0, 0, 31, "T3", 0 },       /* done at once, whatever the limit; held back */
    { SWITCHES_RESTORE, 2, 2, 0, 0, 0, 0, 0, "T31", 0 },
    { TASK_LAST_RESULT, 31, 0, 0, 0, 0, 0, 60, "T31", 0 },
};

const struct named_table mailboxes_table = TABLE(mailboxes, 0x40);
