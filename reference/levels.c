/* The rows of the levels: thirty-two of them for tasks, sixteen for Swis as ever (No. 14). */
#include "kinds.h"

static const struct row levels[] = {
    { TASK_CREATE, 0, 0, 0, 0, 4, 0, 0, "T0", 0 },          /* 0 is task 0's alone, with 32 levels too */
    { TASK_CREATE, 32, 0, 0, 0, 4, 0, 0, "T0", 0 },         /* one past the last level */
    { TASK_CREATE, 33, 0, 0, 0, 4, 0, 0, "T0", 0 },         /* level 1, if the number went round */
    { TASK_CREATE, 63, 0, 0, 0, 4, 0, 0, "T0", 0 },
    { TASK_CREATE, 256 + 16, 0, 0, 0, 4, 0, 0, "T0", 0 },
    { TASK_CREATE, F - 1, 0, 0, 0, 4, 0, 0, "T0", 0 },
    { TASK_CREATE, 16, 0, 0, 1, 4, 0, 0, "T0", 0 },         /* a level, but an unused argument not 0 */
    { TASK_CREATE, 15, 0, 0, 0, 0, 0, 1, "T1", 0 },         /* 15: 1 */
    { TASK_CREATE, 16, 0, 0, 0, 0, 0, 2, "T2", 0 },         /* 16: 2, above 15 */
    { TASK_CREATE, 15, 0, 0, 0, 0, 0, 3, "T2", 0 },         /* 15: 1 3 */
    { TASK_CREATE, 31, 0, 0, 0, 0, 0, 4, "T4", 0 },         /* 31: 4, the last level */
    { TASK_CREATE, 17, 0, 0, 0, 0, 0, 5, "T4", 0 },         /* 17: 5 */
    { TASK_CREATE, 16, 0, 0, 0, 0, 0, 6, "T4", 0 },         /* 16: 2 6 */
    { TASK_CREATE, F, 0, 0, 0, 0, 0, 7, "T4", 0 },          /* inactive */
    { TASK_SET_PRIORITY, 7, 0, 0, 0, 4, 0, 0, "T4", 0 },
    { TASK_SET_PRIORITY, 7, 32, 0, 0, 4, 0, 0, "T4", 0 },
    { TASK_SET_PRIORITY, 7, 47, 0, 0, 4, 0, 0, "T4", 0 },
    { TASK_SET_PRIORITY, 7, 31, 0, 1, 4, 0, 0, "T4", 0 },
    { TASK_SET_PRIORITY, 0, 31, 0, 0, 5, 0, 0, "T4", 0 },   /* task 0 */
    { TASK_SET_PRIORITY, 0, 32, 0, 0, 4, 0, 0, "T4", 0 },   /* 4 before 5 */
    { TASK_SET_PRIORITY, 8, 32, 0, 0, 11, 0, 1, "T4", 0 },  /* 11 before 4 */
    { TASK_SET_PRIORITY, 32, 31, 0, 0, 3, 0, 1, "T4", 0 },
    { TASK_SET_PRIORITY, 4, F, 0, 0, 5, 0, 0, "T4", 0 },    /* the current task */
    { TASK_SET_PRIORITY, 4, 31, 0, 0, 0, 0, 31, "T4", 0 },  /* the same */
    { TASK_SET_PRIORITY, 7, 30, 0, 0, 0, 0, F, "T4", 0 },   /* ready, 30: 7 */
    { TASK_SET_PRIORITY, 4, 29, 0, 0, 0, 0, 31, "T7", 0 },  /* 30: 7, 29: 4 */
    /* A Swi's priority ends at 15. */
    { SWI_CREATE, 16, 0, 0, 0, 4, 0, 0, "T7", 0 },
    { SWI_CREATE, 17, 0, 0, 0, 4, 0, 0, "T7", 0 },
    { SWI_CREATE, 31, 0, 0, 0, 4, 0, 0, "T7", 0 },
    { SWI_CREATE, 32, 0, 0, 0, 4, 0, 0, "T7", 0 },
    { SWI_CREATE, F, 0, 0, 0, 4, 0, 0, "T7", 0 },
    { SWI_CREATE, 15, 9, 0, 0, 0, 0, 0, "T7", 0 },
    { SWI_CREATE, 0, 0, 0, 0, 0, 0, 1, "T7", 0 },
    { SWI_POST, 1, 0, 0, 0, 0, 0, 0, "S1", 0 },             /* a Swi of priority 0 is before every task */
    { SWI_POST, 0, 0, 0, 0, 0, 0, 0, "S0", 0 },
    { TASK_SET_PRIORITY, 3, 31, 0, 0, 0, 0, 15, "S0", 0 },  /* 31: 3, 15: 1 */
    { TASK_SET_PRIORITY, 3, 32, 0, 0, 4, 0, 0, "S0", 0 },
    { SWI_TAKEN_TRIGGER, 0, 0, 0, 0, 0, 0, 9, "S0", 0 },
    { SWI_END, 0, 0, 0, 0, 0, 0, 0, "S1", 0 },
    { SWI_END, 0, 0, 0, 0, 0, 0, 0, "T3", 0 },
    { INTERRUPT_IN, 0, 0, 0, 0, 0, 0, 0, "I", 0 },
    { TASK_CREATE, 31, 0, 0, 0, 2, 0, 0, "I", 0 },
    { TASK_SET_PRIORITY, 3, 32, 0, 0, 2, 0, 0, "I", 0 },    /* 2 before 4 */
    { SWI_CREATE, 16, 0, 0, 0, 2, 0, 0, "I", 0 },
    { INTERRUPT_OUT, 0, 0, 0, 0, 0, 0, 0, "T3", 0 },
    { TASK_SET_PRIORITY, 1, 31, 0, 0, 0, 0, 15, "T3", 0 },  /* 31: 3 1 */
    { TASK_YIELD, 0, 0, 0, 0, 0, 0, 0, "T1", 0 },           /* 31: 1 3 */
    { TASK_YIELD, 0, 0, 0, 0, 0, 0, 0, "T3", 0 },           /* 31: 3 1 */
    { TASK_SLEEP, 2, 0, 0, 0, 0, 2, 0, "T1", 0 },           /* task 3 sleeps; 31: 1 */
    { TASK_SET_PRIORITY, 1, 15, 0, 0, 0, 0, 31, "T7", 0 },  /* 30: 7, 29: 4, 17: 5, 16: 2 6, 15: 1 */
    /* A line by priority, on both sides of 15 */
    { SEMAPHORE_CREATE, 2, 0, 0, 0, 0, 0, 0, "T7", 0 },
    { TASK_SET_PRIORITY, 7, 16, 0, 0, 0, 0, 30, "T4", 0 },  /* 29: 4, 17: 5, 16: 2 6 7, 15: 1 */
    { SEMAPHORE_PEND, 0, F, 0, 0, 0, 2, 0, "T5", 0 },       /* its line: 4 */
    { SEMAPHORE_PEND, 0, F, 0, 0, 0, 2, 0, "T2", 0 },       /* 4 5 */
    { TASK_SET_PRIORITY, 2, 14, 0, 0, 0, 0, 16, "T6", 0 },  /* 16: 6 7, 15: 1, 14: 2 */
    { TASK_SET_PRIORITY, 6, 13, 0, 0, 0, 0, 16, "T7", 0 },  /* 16: 7, 15: 1, 14: 2, 13: 6 */
    { TASK_SET_PRIORITY, 7, 12, 0, 0, 0, 0, 16, "T1", 0 },  /* 15: 1, 14: 2, 13: 6, 12: 7 */
    { SEMAPHORE_PEND, 0, F, 0, 0, 0, 2, 0, "T2", 0 },       /* 4 5 1 */
    { TASK_SET_PRIORITY, 2, 16, 0, 0, 0, 0, 14, "T2", 0 },
    { SEMAPHORE_PEND, 0, F, 0, 0, 0, 2, 0, "T6", 0 },       /* 4 5 2 1: at 16, before the one at 15 */
    { TASK_SET_PRIORITY, 6, 31, 0, 0, 0, 0, 13, "T6", 0 },
    { SEMAPHORE_PEND, 0, 1, 0, 0, 0, 2, 0, "T7", 0 },       /* 6 4 5 2 1 */
    { TASK_SET_PRIORITY, 7, 29, 0, 0, 0, 0, 12, "T7", 0 },
    { SEMAPHORE_PEND, 0, F, 0, 0, 0, 2, 0, "T0", 0 },       /* 6 4 7 5 2 1: behind its equal */
    { TASK_SET_PRIORITY, 1, 30, 0, 0, 0, 0, 15, "T0", 0 },  /* it keeps its place in line */
    { TASK_SET_PRIORITY, 1, F, 0, 0, 5, 0, 0, "T0", 0 },    /* a blocked task */
    { TASK_SET_PRIORITY, 1, 32, 0, 0, 4, 0, 0, "T0", 0 },   /* 4 before 5 */
    { INTERRUPT_IN, 0, 0, 0, 0, 0, 0, 0, "I", 0 },
    { TICK, 0, 0, 0, 0, 0, 0, 0, "I", 0 },                  /* task 6 expires; 31: 6 */
    { TICK, 0, 0, 0, 0, 0, 0, 0, "I", 0 },                  /* task 3 has slept; 31: 6 3 */
    { SEMAPHORE_POST, 0, 0, 0, 0, 0, 0, 4, "I", 0 },        /* 29: 4; the line: 7 5 2 1 */
    { INTERRUPT_OUT, 0, 0, 0, 0, 0, 0, 0, "T6", 0 },
    { TASK_LAST_RESULT, 6, 0, 0, 0, 0, 1, 0, "T6", 0 },
    { SEMAPHORE_POST, 0, 0, 0, 0, 0, 0, 7, "T6", 0 },       /* 29: 4 7 */
    { SEMAPHORE_POST, 0, 0, 0, 0, 0, 0, 5, "T6", 0 },       /* 17: 5 */
    { SEMAPHORE_POST, 0, 0, 0, 0, 0, 0, 2, "T6", 0 },       /* 16: 2 */
    { SEMAPHORE_POST, 0, 0, 0, 0, 0, 0, 1, "T6", 0 },       /* 30: 1 */
    { SEMAPHORE_POST, 0, 0, 0, 0, 0, 0, 0, "T6", 0 },       /* nobody: the count goes up */
    /* Down through the queues, 31: 6 3, 30: 1, 29: 4 7, 17: 5, 16: 2 */
    { TASK_END, 0, 0, 0, 0, 0, 0, 0, "T3", 0 },
    { TASK_END, 0, 0, 0, 0, 0, 0, 0, "T1", 0 },
    { TASK_END, 0, 0, 0, 0, 0, 0, 0, "T4", 0 },
    { TASK_SET_PRIORITY, 3, 31, 0, 0, 5, 0, 0, "T4", 0 },   /* terminated, the same priority too */
    { TASK_SET_PRIORITY, 3, 32, 0, 0, 4, 0, 0, "T4", 0 },
    { TASK_YIELD, 0, 0, 0, 0, 0, 0, 0, "T7", 0 },           /* 29: 7 4 */
    { TASK_END, 0, 0, 0, 0, 0, 0, 0, "T4", 0 },
    { TASK_SET_PRIORITY, 4, 1, 0, 0, 0, 0, 29, "T5", 0 },   /* 17: 5, 16: 2, 1: 4 */
    { TASK_END, 0, 0, 0, 0, 0, 0, 0, "T2", 0 },
    { TASK_END, 0, 0, 0, 0, 0, 0, 0, "T4", 0 },             /* 1: 4 */
    { SWITCHES_OFF, 2, 0, 0, 0, 0, 0, 2, "T4", 0 },
    { TASK_CREATE, 31, 0, 0, 0, 0, 0, 8, "T4", 0 },         /* held back; 1 to 3 and 5 to 7 are terminated */
    { TASK_CREATE, 16, 0, 0, 0, 0, 0, 9, "T4", 0 },
    { SWITCHES_RESTORE, 2, 2, 0, 0, 0, 0, 0, "T8", 0 },
    { TASK_END, 0, 0, 0, 0, 0, 0, 0, "T9", 0 },
    { TASK_CREATE, F, 0, 0, 0, 0, 0, 10, "T9", RISING + 22 }, /* 10 to 31 */
    { TASK_CREATE, 31, 0, 0, 0, 6, 0, 0, "T9", 0 },
    { TASK_CREATE, 32, 0, 0, 0, 4, 0, 0, "T9", 0 },         /* 4 before 6 */
    { TASK_SET_PRIORITY, 31, 31, 0, 0, 0, 0, F, "T31", 0 }, /* task 31 at 31 */
    { TASK_SET_PRIORITY, 30, 30, 0, 0, 0, 0, F, "T31", 0 },
    { TASK_SET_PRIORITY, 31, 15, 0, 0, 0, 0, 31, "T30", 0 },
    { TASK_END, 0, 0, 0, 0, 0, 0, 0, "T9", 0 },
    { TASK_END, 0, 0, 0, 0, 0, 0, 0, "T31", 0 },
    { TASK_END, 0, 0, 0, 0, 0, 0, 0, "T4", 0 },
    { TASK_END, 0, 0, 0, 0, 0, 0, 0, "T0", 0 },
};

const struct named_table levels_table = TABLE_WITH(LEVELS_MOST, levels, 0x100);
