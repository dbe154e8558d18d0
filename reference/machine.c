/* The rows of clocks, the heap and the switches, and those of document 01. */
#include "kinds.h"

/* Swi 0: priority 3. Swi 1: priority 7. Clock 0: Swi 0, first 2, period 3. Clock 1: Swi 1, first 3, once. Clock 2: Swi 0, as long as can be. */
static const struct row clocks[] = {
    { 0x54, 0, 0, 0, 0, 1, 0, 0, "T0", 0 },
    { CLOCK_CREATE, 0, 1, 0, 0, 11, 0, 2, "T0", 0 },        /* there is no Swi 0: Swis are table 2 */
    { CLOCK_CREATE, 15, 1, 0, 0, 11, 0, 2, "T0", 0 },
    { CLOCK_CREATE, 16, 1, 0, 0, 3, 0, 2, "T0", 0 },
    { CLOCK_CREATE, F, 1, 0, 0, 3, 0, 2, "T0", 0 },
    { SWI_CREATE, 3, 0, 0, 0, 0, 0, 0, "T0", 0 },
    { SWI_CREATE, 7, 0, 0, 0, 0, 0, 1, "T0", 0 },
    { CLOCK_CREATE, 0, 0, 1, 0, 4, 0, 0, "T0", 0 },         /* first ticks from 1 */
    { CLOCK_CREATE, 0, 1, 0, 1, 4, 0, 0, "T0", 0 },
    { CLOCK_CREATE, 16, 0, 0, 0, 3, 0, 2, "T0", 0 },        /* 3 before 4 */
    { CLOCK_CREATE, 17, 1, 0, 0, 3, 0, 2, "T0", 0 },        /* 16 + 1, and there is a Swi 1 */
    { CLOCK_CREATE, 2, 0, 0, 0, 11, 0, 2, "T0", 0 },        /* 11 before 4 */
    { CLOCK_CREATE, 0, 2, 3, 0, 0, 0, 0, "T0", 0 },
    { CLOCK_CREATE, 1, 3, 0, 0, 0, 0, 1, "T0", 0 },
    { CLOCK_CREATE, 0, F, F, 0, 0, 0, 2, "T0", 0 },
    { CLOCK_CREATE, 2, 1, 0, 0, 11, 0, 2, "T0", 0 },        /* there is a clock 2, but no Swi 2 */
    { CLOCK_START, 16, 0, 0, 0, 3, 0, 6, "T0", 0 },         /* outside its table, table 6 */
    { CLOCK_START, 17, 0, 0, 0, 3, 0, 6, "T0", 0 },         /* 16 + 1, and there is a clock 1 */
    { CLOCK_START, F, 0, 0, 0, 3, 0, 6, "T0", 0 },
    { CLOCK_START, 16, 1, 0, 0, 3, 0, 6, "T0", 0 },         /* 3 before 4 */
    { CLOCK_START, 3, 1, 0, 0, 11, 0, 6, "T0", 0 },         /* inside it, not in use; 11 before 4 */
    { CLOCK_START, 15, 0, 0, 0, 11, 0, 6, "T0", 0 },
    { CLOCK_START, 0, 1, 0, 0, 4, 0, 0, "T0", 0 },
    { CLOCK_STOP, 16, 0, 0, 0, 3, 0, 6, "T0", 0 },
    { CLOCK_STOP, F, 0, 0, 0, 3, 0, 6, "T0", 0 },
    { CLOCK_STOP, 16, 0, 1, 0, 3, 0, 6, "T0", 0 },
    { CLOCK_STOP, 3, 0, 0, 0, 11, 0, 6, "T0", 0 },
    { CLOCK_STOP, 15, 0, 0, 0, 11, 0, 6, "T0", 0 },
    { CLOCK_STOP, 15, 0, 1, 0, 11, 0, 6, "T0", 0 },
    { CLOCK_STOP, 0, 0, 1, 0, 4, 0, 0, "T0", 0 },
    { CLOCK_DELETE, 16, 0, 0, 0, 3, 0, 6, "T0", 0 },
    { CLOCK_DELETE, F, 0, 0, 0, 3, 0, 6, "T0", 0 },
    { CLOCK_DELETE, 16, 0, 0, 1, 3, 0, 6, "T0", 0 },
    { CLOCK_DELETE, 3, 0, 0, 0, 11, 0, 6, "T0", 0 },
    { CLOCK_DELETE, 15, 0, 0, 0, 11, 0, 6, "T0", 0 },
    { CLOCK_DELETE, 15, 0, 0, 1, 11, 0, 6, "T0", 0 },
    { CLOCK_DELETE, 0, 0, 0, 1, 4, 0, 0, "T0", 0 },
    { INTERRUPT_IN, 0, 0, 0, 0, 0, 0, 0, "I", 0 },
    { TICK, 0, 0, 0, 0, 0, 0, 0, "I", 4 },                  /* the clocks are stopped */
    { INTERRUPT_OUT, 0, 0, 0, 0, 0, 0, 0, "T0", 0 },
    { CLOCK_STOP, 0, 0, 0, 0, 0, 0, 0, "T0", 0 },           /* stopped already */
    { CLOCK_START, 0, 0, 0, 0, 0, 0, 0, "T0", 0 },
    { CLOCK_START, 1, 0, 0, 0, 0, 0, 0, "T0", 0 },
    { INTERRUPT_IN, 0, 0, 0, 0, 0, 0, 0, "I", 0 },
    { TICK, 0, 0, 0, 0, 0, 0, 0, "I", 0 },                  /* left 1, 2 */
    { INTERRUPT_OUT, 0, 0, 0, 0, 0, 0, 0, "T0", 0 },
    { INTERRUPT_IN, 0, 0, 0, 0, 0, 0, 0, "I", 0 },
    { TICK, 0, 0, 0, 0, 0, 0, 0, "I", 0 },                  /* left 0 then 3, 1 */
    { INTERRUPT_OUT, 0, 0, 0, 0, 0, 0, 0, "S0", 0 },
    { INTERRUPT_IN, 0, 0, 0, 0, 0, 0, 0, "I", 0 },
    { TICK, 0, 0, 0, 0, 0, 0, 0, "I", 0 },                  /* left 2, 0: clock 1 stops */
    { CLOCK_START, 1, 0, 0, 0, 0, 0, 0, "I", 0 },           /* 3 again */
    { CLOCK_CREATE, 0, 1, 0, 0, 2, 0, 0, "I", 0 },
    { CLOCK_CREATE, 16, 0, 0, 0, 2, 0, 0, "I", 0 },         /* 2 before 3 and 4 */
    { CLOCK_CREATE, 15, 0, 0, 0, 2, 0, 0, "I", 0 },         /* 2 before 11 and 4 */
    { CLOCK_DELETE, 0, 0, 0, 0, 2, 0, 0, "I", 0 },
    { CLOCK_DELETE, 16, 0, 0, 0, 2, 0, 0, "I", 0 },
    { CLOCK_DELETE, 15, 0, 0, 0, 2, 0, 0, "I", 0 },
    { CLOCK_START, 16, 0, 0, 0, 3, 0, 6, "I", 0 },
    { CLOCK_START, 15, 0, 0, 0, 11, 0, 6, "I", 0 },
    { CLOCK_STOP, 16, 0, 0, 0, 3, 0, 6, "I", 0 },
    { CLOCK_STOP, 15, 0, 0, 0, 11, 0, 6, "I", 0 },
    { INTERRUPT_OUT, 0, 0, 0, 0, 0, 0, 0, "S1", 0 },        /* above Swi 0 */
    { CLOCK_STOP, 1, 0, 0, 0, 0, 0, 0, "S1", 0 },
    { CLOCK_START, 2, 0, 0, 0, 0, 0, 0, "S1", 0 },
    { CLOCK_CREATE, 0, 1, 0, 0, 2, 0, 0, "S1", 0 },
    { CLOCK_CREATE, 16, 1, 0, 0, 2, 0, 0, "S1", 0 },
    { CLOCK_CREATE, 15, 1, 0, 0, 2, 0, 0, "S1", 0 },
    { CLOCK_DELETE, 0, 0, 0, 0, 2, 0, 0, "S1", 0 },
    { CLOCK_DELETE, 16, 0, 0, 0, 2, 0, 0, "S1", 0 },
    { CLOCK_DELETE, 15, 0, 0, 0, 2, 0, 0, "S1", 0 },
    { CLOCK_START, 16, 0, 0, 0, 3, 0, 6, "S1", 0 },
    { CLOCK_START, 15, 0, 0, 0, 11, 0, 6, "S1", 0 },
    { CLOCK_STOP, 16, 0, 0, 0, 3, 0, 6, "S1", 0 },
    { CLOCK_STOP, 15, 0, 0, 0, 11, 0, 6, "S1", 0 },
    { SWI_END, 0, 0, 0, 0, 0, 0, 0, "S0", 0 },
    { SWI_END, 0, 0, 0, 0, 0, 0, 0, "T0", 0 },
    { INTERRUPT_IN, 0, 0, 0, 0, 0, 0, 0, "I", 0 },
    { TICK, 0, 0, 0, 0, 0, 0, 0, "I", 0 },                  /* clock 0: 1 */
    { CLOCK_START, 0, 0, 0, 0, 0, 0, 0, "I", 0 },           /* running: 2 again */
    { TICK, 0, 0, 0, 0, 0, 0, 0, "I", 0 },                  /* 1: not due */
    { INTERRUPT_OUT, 0, 0, 0, 0, 0, 0, 0, "T0", 0 },
    { INTERRUPT_IN, 0, 0, 0, 0, 0, 0, 0, "I", 0 },
    { TICK, 0, 0, 0, 0, 0, 0, 0, "I", 0 },                  /* 0: due, 3 */
    { CLOCK_STOP, 0, 0, 0, 0, 0, 0, 0, "I", 0 },
    { INTERRUPT_OUT, 0, 0, 0, 0, 0, 0, 0, "S0", 0 },        /* posted before the stop */
    { SWI_END, 0, 0, 0, 0, 0, 0, 0, "T0", 0 },
    { INTERRUPT_IN, 0, 0, 0, 0, 0, 0, 0, "I", 0 },
    { TICK, 0, 0, 0, 0, 0, 0, 0, "I", 5 },
    { INTERRUPT_OUT, 0, 0, 0, 0, 0, 0, 0, "T0", 0 },        /* a stopped clock posts nothing */
    { CLOCK_START, 0, 0, 0, 0, 0, 0, 0, "T0", 0 },
    { CLOCK_DELETE, 0, 0, 0, 0, 0, 0, 0, "T0", 0 },         /* running */
    { CLOCK_DELETE, 0, 0, 0, 0, 11, 0, 6, "T0", 0 },        /* deleted */
    { CLOCK_START, 0, 0, 0, 0, 11, 0, 6, "T0", 0 },
    { CLOCK_STOP, 0, 0, 0, 0, 11, 0, 6, "T0", 0 },
    { INTERRUPT_IN, 0, 0, 0, 0, 0, 0, 0, "I", 0 },
    { TICK, 0, 0, 0, 0, 0, 0, 0, "I", 3 },
    { INTERRUPT_OUT, 0, 0, 0, 0, 0, 0, 0, "T0", 0 },
    { CLOCK_CREATE, 1, 1, 1, 0, 0, 0, 0, "T0", 0 },         /* the lowest free number; stopped */
    { CLOCK_START, 0, 0, 0, 0, 0, 0, 0, "T0", 0 },
    { INTERRUPT_IN, 0, 0, 0, 0, 0, 0, 0, "I", 0 },
    { TICK, 0, 0, 0, 0, 0, 0, 0, "I", 2 },                  /* due at both, posted once */
    { CLOCK_STOP, 0, 0, 0, 0, 0, 0, 0, "I", 0 },
    { INTERRUPT_OUT, 0, 0, 0, 0, 0, 0, 0, "S1", 0 },
    { SWI_END, 0, 0, 0, 0, 0, 0, 0, "T0", 0 },
    { SWI_CREATE, 5, 0, 0, 0, 0, 0, 2, "T0", 0 },
    { SWI_CREATE, 5, 0, 0, 0, 0, 0, 3, "T0", 0 },
    { CLOCK_CREATE, 3, 1, 0, 0, 0, 0, 3, "T0", 0 },         /* clock 3: Swi 3 */
    { CLOCK_CREATE, 2, 1, 0, 0, 0, 0, 4, "T0", 0 },         /* clock 4: Swi 2 */
    { CLOCK_START, 4, 0, 0, 0, 0, 0, 0, "T0", 0 },
    { CLOCK_START, 3, 0, 0, 0, 0, 0, 0, "T0", 0 },
    { INTERRUPT_IN, 0, 0, 0, 0, 0, 0, 0, "I", 0 },
    { TICK, 0, 0, 0, 0, 0, 0, 0, "I", 0 },                  /* in rising clock number: posted at 5: 3 2 */
    { INTERRUPT_OUT, 0, 0, 0, 0, 0, 0, 0, "S3", 0 },
    { SWI_END, 0, 0, 0, 0, 0, 0, 0, "S2", 0 },
    { SWI_END, 0, 0, 0, 0, 0, 0, 0, "T0", 0 },
    { SWI_CREATE, 5, 0, 0, 0, 0, 0, 4, "T0", 0 },
    { SWI_DELETE, 4, 0, 0, 0, 0, 0, 0, "T0", 0 },
    { CLOCK_CREATE, 4, 1, 0, 0, 11, 0, 2, "T0", 0 },        /* Swi 4 is deleted, clock 4 is in use */
    { CLOCK_CREATE, 0, 1, 0, 0, 0, 0, 5, "T0", RISING + 11 }, /* 5 to 15 */
    { CLOCK_CREATE, 0, 1, 0, 0, 6, 0, 0, "T0", 0 },
    { CLOCK_CREATE, 0, 0, 0, 0, 4, 0, 0, "T0", 0 },         /* 4 before 6 */
    { CLOCK_CREATE, 16, 1, 0, 0, 3, 0, 2, "T0", 0 },        /* 3 before 6 */
    { CLOCK_CREATE, 9, 1, 0, 0, 11, 0, 2, "T0", 0 },        /* 11 before 6 */
    { CLOCK_CREATE, 4, 1, 0, 0, 11, 0, 2, "T0", 0 },
    { CLOCK_START, 16, 0, 0, 0, 3, 0, 6, "T0", 0 },         /* all 16 are in use */
    { CLOCK_DELETE, 15, 0, 0, 0, 0, 0, 0, "T0", 0 },
    { CLOCK_DELETE, 15, 0, 0, 0, 11, 0, 6, "T0", 0 },       /* the last number, deleted */
    { CLOCK_START, 15, 0, 0, 0, 11, 0, 6, "T0", 0 },
    { CLOCK_STOP, 15, 0, 0, 0, 11, 0, 6, "T0", 0 },
};

const struct named_table clocks_table = TABLE(clocks, 0x50);

static const struct row heap[] = {
    { 0x62, 0, 0, 0, 0, 1, 0, 0, "T0", 0 },
    { HEAP_TAKE, 0, 0, 0, 0, 4, 0, 0, "T0", 0 },
    { HEAP_TAKE, 2049, 0, 0, 0, 4, 0, 0, "T0", 0 },
    { HEAP_TAKE, F, 0, 0, 0, 4, 0, 0, "T0", 0 },
    { HEAP_TAKE, 8, 1, 0, 0, 4, 0, 0, "T0", 0 },
    { HEAP_GIVE_BACK, 0, 8, 0, 0, 4, 0, 0, "T0", 0 },       /* no block yet */
    { HEAP_TAKE, 2048, 0, 0, 0, 0, 0, 0, "T0", 0 },
    { HEAP_TAKE, 1, 0, 0, 0, 8, 0, 0, "T0", 0 },
    { HEAP_TAKE, 0, 0, 0, 0, 4, 0, 0, "T0", 0 },            /* 4 before 8 */
    { HEAP_GIVE_BACK, 0, 2040, 0, 0, 4, 0, 0, "T0", 0 },    /* 255 units */
    { HEAP_GIVE_BACK, 0, 2041, 0, 0, 0, 0, 0, "T0", 0 },    /* rounds up to 256 */
    { HEAP_TAKE, 2048, 0, 0, 0, 0, 0, 0, "T0", 0 },
    { HEAP_GIVE_BACK, 0, 2048, 0, 0, 0, 0, 0, "T0", 0 },
    { HEAP_TAKE, 9, 0, 0, 0, 0, 0, 0, "T0", 0 },            /* 2 units: 0 to 15 */
    { HEAP_TAKE, 8, 0, 0, 0, 0, 0, 16, "T0", 0 },
    { HEAP_TAKE, 1, 0, 0, 0, 0, 0, 24, "T0", 0 },
    { HEAP_TAKE, 17, 0, 0, 0, 0, 0, 32, "T0", 0 },          /* 3 units: 32 to 55 */
    { HEAP_TAKE, 8, 0, 0, 0, 0, 0, 56, "T0", 0 },
    { HEAP_GIVE_BACK, 0, 8, 0, 0, 4, 0, 0, "T0", 0 },       /* too few */
    { HEAP_GIVE_BACK, 0, 17, 0, 0, 4, 0, 0, "T0", 0 },      /* too many */
    { HEAP_GIVE_BACK, 8, 8, 0, 0, 4, 0, 0, "T0", 0 },       /* later in a block */
    { HEAP_GIVE_BACK, 1, 9, 0, 0, 4, 0, 0, "T0", 0 },
    { HEAP_GIVE_BACK, 17, 8, 0, 0, 4, 0, 0, "T0", 0 },
    { HEAP_GIVE_BACK, 2048, 8, 0, 0, 4, 0, 0, "T0", 0 },
    { HEAP_GIVE_BACK, 2064, 8, 0, 0, 4, 0, 0, "T0", 0 },    /* 2,048 + 16 */
    { HEAP_GIVE_BACK, F, 8, 0, 0, 4, 0, 0, "T0", 0 },
    { HEAP_GIVE_BACK, F - 7, 8, 0, 0, 4, 0, 0, "T0", 0 },
    { HEAP_GIVE_BACK, 16, 0, 0, 0, 4, 0, 0, "T0", 0 },
    { HEAP_GIVE_BACK, 16, 2049, 0, 0, 4, 0, 0, "T0", 0 },
    { HEAP_GIVE_BACK, 16, F, 0, 0, 4, 0, 0, "T0", 0 },
    { HEAP_GIVE_BACK, 16, 8, 1, 0, 4, 0, 0, "T0", 0 },
    { HEAP_GIVE_BACK, 64, 8, 0, 0, 4, 0, 0, "T0", 0 },      /* free */
    { HEAP_GIVE_BACK, 16, 3, 0, 0, 0, 0, 0, "T0", 0 },
    { HEAP_GIVE_BACK, 16, 3, 0, 0, 4, 0, 0, "T0", 0 },      /* given back already */
    { HEAP_GIVE_BACK, 32, 24, 0, 0, 0, 0, 0, "T0", 0 },     /* free: 16 to 23, 32 to 55, from 64 */
    { HEAP_TAKE, 16, 0, 0, 0, 0, 0, 32, "T0", 0 },          /* the hole at 16 is too small; free: 16, 48, from 64 */
    { HEAP_GIVE_BACK, 24, 8, 0, 0, 0, 0, 0, "T0", 0 },      /* 16 to 31 is one run */
    { HEAP_TAKE, 16, 0, 0, 0, 0, 0, 16, "T0", 0 },          /* free: 48 to 55, 64 to 2,047 */
    { HEAP_TAKE, 2048, 0, 0, 0, 8, 0, 0, "T0", 0 },
    { HEAP_TAKE, 1985, 0, 0, 0, 8, 0, 0, "T0", 0 },         /* 249 units are free, but 248 adjacent */
    { HEAP_TAKE, 1984, 0, 0, 0, 0, 0, 64, "T0", 0 },
    { HEAP_TAKE, 9, 0, 0, 0, 8, 0, 0, "T0", 0 },
    { HEAP_TAKE, 8, 0, 0, 0, 0, 0, 48, "T0", 0 },
    { HEAP_TAKE, 1, 0, 0, 0, 8, 0, 0, "T0", 0 },
    { HEAP_GIVE_BACK, 64, 1976, 0, 0, 4, 0, 0, "T0", 0 },
    { HEAP_GIVE_BACK, 64, 1977, 0, 0, 0, 0, 0, "T0", 0 },
    { HEAP_TAKE, 1977, 0, 0, 0, 0, 0, 64, "T0", 0 },
    { INTERRUPT_IN, 0, 0, 0, 0, 0, 0, 0, "I", 0 },
    { HEAP_TAKE, 8, 0, 0, 0, 2, 0, 0, "I", 0 },
    { HEAP_TAKE, 0, 0, 0, 0, 2, 0, 0, "I", 0 },             /* 2 before 4 */
    { HEAP_GIVE_BACK, 0, 9, 0, 0, 2, 0, 0, "I", 0 },
    { INTERRUPT_OUT, 0, 0, 0, 0, 0, 0, 0, "T0", 0 },
    { SWI_CREATE, 0, 0, 0, 0, 0, 0, 0, "T0", 0 },
    { SWI_POST, 0, 0, 0, 0, 0, 0, 0, "S0", 0 },
    { HEAP_TAKE, 8, 0, 0, 0, 2, 0, 0, "S0", 0 },
    { HEAP_GIVE_BACK, 0, 9, 0, 0, 2, 0, 0, "S0", 0 },
    { SWI_END, 0, 0, 0, 0, 0, 0, 0, "T0", 0 },
    { SWITCHES_OFF, 2, 0, 0, 0, 0, 0, 2, "T0", 0 },         /* a switch is nothing to the heap */
    { HEAP_GIVE_BACK, 0, 16, 0, 0, 0, 0, 0, "T0", 0 },
    { HEAP_TAKE, 16, 0, 0, 0, 0, 0, 0, "T0", 0 },
    { SWITCHES_RESTORE, 2, 2, 0, 0, 0, 0, 0, "T0", 0 },
    { TASK_CREATE, 1, 0, 0, 0, 0, 0, 1, "T1", 0 },
    { HEAP_GIVE_BACK, 56, 8, 0, 0, 0, 0, 0, "T1", 0 },      /* taken by another task */
    { HEAP_TAKE, 8, 0, 0, 0, 0, 0, 56, "T1", 0 },
};

const struct named_table heap_table = TABLE(heap, 0x60);

/* Tasks 1 to 6: priorities 5, 9, 12, 13, 14, 15, each made while a switch holds it back. Swi 0: priority 4. Swi 1: priority 8. */
static const struct row switches[] = {
    { SWITCHES_OFF, 3, 0, 0, 0, 0, 0, 3, "T0", 0 },         /* both are on at first */
    { SWITCHES_RESTORE, 3, 3, 0, 0, 0, 0, 0, "T0", 0 },
    { 0x79, 0, 0, 0, 0, 1, 0, 0, "T0", 0 },
    { 0x7F, 1, 1, 1, 1, 1, 0, 0, "T0", 0 },                 /* 1 before all others */
    { 0x80, 0, 0, 0, 0, 1, 0, 0, "T0", 0 },
    { 0xFF, F, F, F, F, 1, 0, 0, "T0", 0 },
    { 0x70, 0, 0, 0, 0, 1, 0, 0, "T0", 0 },                 /* No. 10 took 70 to 73 away */
    { 0x71, 1, 0, 0, 0, 1, 0, 0, "T0", 0 },
    { 0x72, 0, 0, 0, 0, 1, 0, 0, "T0", 0 },
    { 0x73, 1, 0, 0, 0, 1, 0, 0, "T0", 0 },
    { 0x70, 1, 0, 0, 0, 1, 0, 0, "T0", 0 },
    { 0x71, 2, 0, 0, 0, 1, 0, 0, "T0", 0 },                 /* 1 before 2 and 4 */
    { 0x72, 2, 0, 0, 0, 1, 0, 0, "T0", 0 },
    { 0x73, 2, 2, 0, 0, 1, 0, 0, "T0", 0 },
    { INTERRUPT_OUT, 0, 0, 0, 0, 2, 0, 0, "T0", 0 },
    { TICK, 0, 0, 0, 0, 2, 0, 0, "T0", 0 },
    { TICK, 1, 0, 0, 0, 2, 0, 0, "T0", 0 },                 /* 2 before 4 */
    { INTERRUPT_IN, 1, 0, 0, 0, 4, 0, 0, "T0", 0 },
    { SWITCHES_OFF, 0, 0, 0, 0, 4, 0, 0, "T0", 0 },         /* no switch named */
    { SWITCHES_OFF, 4, 0, 0, 0, 4, 0, 0, "T0", 0 },
    { SWITCHES_OFF, 5, 0, 0, 0, 4, 0, 0, "T0", 0 },         /* 4 + 1 */
    { SWITCHES_OFF, 7, 0, 0, 0, 4, 0, 0, "T0", 0 },
    { SWITCHES_OFF, 257, 0, 0, 0, 4, 0, 0, "T0", 0 },
    { SWITCHES_OFF, 0x80000001, 0, 0, 0, 4, 0, 0, "T0", 0 },
    { SWITCHES_OFF, F, 0, 0, 0, 4, 0, 0, "T0", 0 },
    { SWITCHES_OFF, 1, 1, 0, 0, 4, 0, 0, "T0", 0 },
    { SWITCHES_OFF, 1, 0, 1, 0, 4, 0, 0, "T0", 0 },
    { SWITCHES_OFF, 1, 0, 0, 1, 4, 0, 0, "T0", 0 },
    { SWITCHES_OFF, 2, 2, 0, 0, 4, 0, 0, "T0", 0 },         /* it takes no key */
    { SWITCHES_OFF, 3, 3, 0, 0, 4, 0, 0, "T0", 0 },
    { SWITCHES_OFF, 2, 0, F, 0, 4, 0, 0, "T0", 0 },
    { SWITCHES_OFF, 3, 0, 0, F, 4, 0, 0, "T0", 0 },
    { SWITCHES_RESTORE, 0, 0, 0, 0, 4, 0, 0, "T0", 0 },
    { SWITCHES_RESTORE, 0, 1, 0, 0, 4, 0, 0, "T0", 0 },
    { SWITCHES_RESTORE, 0, 3, 0, 0, 4, 0, 0, "T0", 0 },
    { SWITCHES_RESTORE, 4, 0, 0, 0, 4, 0, 0, "T0", 0 },
    { SWITCHES_RESTORE, 4, 4, 0, 0, 4, 0, 0, "T0", 0 },
    { SWITCHES_RESTORE, 5, 1, 0, 0, 4, 0, 0, "T0", 0 },
    { SWITCHES_RESTORE, 7, 3, 0, 0, 4, 0, 0, "T0", 0 },
    { SWITCHES_RESTORE, 7, 7, 0, 0, 4, 0, 0, "T0", 0 },
    { SWITCHES_RESTORE, 0x80000001, 1, 0, 0, 4, 0, 0, "T0", 0 },
    { SWITCHES_RESTORE, F, 0, 0, 0, 4, 0, 0, "T0", 0 },
    { SWITCHES_RESTORE, F, 3, 0, 0, 4, 0, 0, "T0", 0 },
    { SWITCHES_RESTORE, F, F, 0, 0, 4, 0, 0, "T0", 0 },
    { SWITCHES_RESTORE, 1, 2, 0, 0, 4, 0, 0, "T0", 0 },     /* key bits not named */
    { SWITCHES_RESTORE, 1, 3, 0, 0, 4, 0, 0, "T0", 0 },
    { SWITCHES_RESTORE, 1, 4, 0, 0, 4, 0, 0, "T0", 0 },
    { SWITCHES_RESTORE, 1, 5, 0, 0, 4, 0, 0, "T0", 0 },
    { SWITCHES_RESTORE, 1, 257, 0, 0, 4, 0, 0, "T0", 0 },
    { SWITCHES_RESTORE, 1, 0x80000000, 0, 0, 4, 0, 0, "T0", 0 },
    { SWITCHES_RESTORE, 1, 0x80000001, 0, 0, 4, 0, 0, "T0", 0 },
    { SWITCHES_RESTORE, 1, F, 0, 0, 4, 0, 0, "T0", 0 },
    { SWITCHES_RESTORE, 2, 1, 0, 0, 4, 0, 0, "T0", 0 },
    { SWITCHES_RESTORE, 2, 3, 0, 0, 4, 0, 0, "T0", 0 },
    { SWITCHES_RESTORE, 2, 4, 0, 0, 4, 0, 0, "T0", 0 },
    { SWITCHES_RESTORE, 2, 6, 0, 0, 4, 0, 0, "T0", 0 },
    { SWITCHES_RESTORE, 2, 258, 0, 0, 4, 0, 0, "T0", 0 },
    { SWITCHES_RESTORE, 2, 0x80000000, 0, 0, 4, 0, 0, "T0", 0 },
    { SWITCHES_RESTORE, 2, F, 0, 0, 4, 0, 0, "T0", 0 },
    { SWITCHES_RESTORE, 3, 4, 0, 0, 4, 0, 0, "T0", 0 },
    { SWITCHES_RESTORE, 3, 5, 0, 0, 4, 0, 0, "T0", 0 },
    { SWITCHES_RESTORE, 3, 7, 0, 0, 4, 0, 0, "T0", 0 },
    { SWITCHES_RESTORE, 3, 259, 0, 0, 4, 0, 0, "T0", 0 },
    { SWITCHES_RESTORE, 3, 0x80000003, 0, 0, 4, 0, 0, "T0", 0 },
    { SWITCHES_RESTORE, 3, F, 0, 0, 4, 0, 0, "T0", 0 },
    { SWITCHES_RESTORE, 1, 1, 1, 0, 4, 0, 0, "T0", 0 },     /* unused ones */
    { SWITCHES_RESTORE, 1, 0, 0, 1, 4, 0, 0, "T0", 0 },
    { SWITCHES_RESTORE, 2, 2, 0, 1, 4, 0, 0, "T0", 0 },
    { SWITCHES_RESTORE, 2, 0, 2, 0, 4, 0, 0, "T0", 0 },
    { SWITCHES_RESTORE, 3, 3, 3, 0, 4, 0, 0, "T0", 0 },
    { SWITCHES_RESTORE, 3, 0, 0, F, 4, 0, 0, "T0", 0 },
    { SWITCHES_RESTORE, 1, 1, 0, 0, 0, 0, 0, "T0", 0 },     /* on already */
    { SWITCHES_RESTORE, 2, 2, 0, 0, 0, 0, 0, "T0", 0 },
    { SWITCHES_RESTORE, 3, 3, 0, 0, 0, 0, 0, "T0", 0 },
    { SWITCHES_RESTORE, 3, 1, 0, 0, 0, 0, 0, "T0", 0 },
    { SWITCHES_RESTORE, 3, 2, 0, 0, 0, 0, 0, "T0", 0 },
    { SWITCHES_RESTORE, 1, 0, 0, 0, 0, 0, 0, "T0", 0 },     /* a bit that is 0 turns nothing off */
    { SWITCHES_RESTORE, 2, 0, 0, 0, 0, 0, 0, "T0", 0 },
    { SWITCHES_RESTORE, 3, 0, 0, 0, 0, 0, 0, "T0", 0 },
    { SWITCHES_OFF, 3, 0, 0, 0, 0, 0, 3, "T0", 0 },         /* both were on */
    { SWITCHES_OFF, 3, 0, 0, 0, 0, 0, 0, "T0", 0 },         /* both are off */
    { SWITCHES_RESTORE, 1, 3, 0, 0, 4, 0, 0, "T0", 0 },
    { SWITCHES_RESTORE, 2, 3, 0, 0, 4, 0, 0, "T0", 0 },
    { SWITCHES_RESTORE, 3, 7, 0, 0, 4, 0, 0, "T0", 0 },
    { SWITCHES_RESTORE, 0, 3, 0, 0, 4, 0, 0, "T0", 0 },
    { SWITCHES_RESTORE, 7, 3, 0, 0, 4, 0, 0, "T0", 0 },
    { SWITCHES_RESTORE, 3, 3, 1, 0, 4, 0, 0, "T0", 0 },
    { 0x71, 1, 0, 0, 0, 1, 0, 0, "T0", 0 },
    { 0x73, 1, 0, 0, 0, 1, 0, 0, "T0", 0 },
    { SWITCHES_OFF, 3, 0, 0, 0, 0, 0, 0, "T0", 0 },         /* no refusal turned one on */
    { SWITCHES_RESTORE, 3, 0, 0, 0, 0, 0, 0, "T0", 0 },     /* no change */
    { SWITCHES_RESTORE, 1, 0, 0, 0, 0, 0, 0, "T0", 0 },
    { SWITCHES_RESTORE, 2, 0, 0, 0, 0, 0, 0, "T0", 0 },
    { SWITCHES_OFF, 3, 0, 0, 0, 0, 0, 0, "T0", 0 },
    { SWITCHES_RESTORE, 3, 1, 0, 0, 0, 0, 0, "T0", 0 },     /* one of the two named */
    { SWITCHES_OFF, 3, 0, 0, 0, 0, 0, 1, "T0", 0 },         /* Swis alone were on */
    { SWITCHES_RESTORE, 3, 2, 0, 0, 0, 0, 0, "T0", 0 },
    { SWITCHES_OFF, 3, 0, 0, 0, 0, 0, 2, "T0", 0 },         /* tasks alone were on */
    { SWITCHES_RESTORE, 1, 1, 0, 0, 0, 0, 0, "T0", 0 },
    { SWITCHES_OFF, 2, 0, 0, 0, 0, 0, 0, "T0", 0 },         /* Swis are not named */
    { SWITCHES_OFF, 3, 0, 0, 0, 0, 0, 1, "T0", 0 },
    { SWITCHES_RESTORE, 2, 2, 0, 0, 0, 0, 0, "T0", 0 },
    { SWITCHES_OFF, 1, 0, 0, 0, 0, 0, 0, "T0", 0 },         /* tasks are not named */
    { SWITCHES_OFF, 3, 0, 0, 0, 0, 0, 2, "T0", 0 },
    { SWITCHES_RESTORE, 3, 3, 0, 0, 0, 0, 0, "T0", 0 },
    { SWITCHES_OFF, 1, 0, 0, 0, 0, 0, 1, "T0", 0 },
    { SWITCHES_OFF, 1, 0, 0, 0, 0, 0, 0, "T0", 0 },         /* off already */
    { SWITCHES_OFF, 3, 0, 0, 0, 0, 0, 2, "T0", 0 },         /* Swis off already */
    { SWITCHES_RESTORE, 3, 3, 0, 0, 0, 0, 0, "T0", 0 },
    { SWITCHES_OFF, 2, 0, 0, 0, 0, 0, 2, "T0", 0 },
    { SWITCHES_OFF, 2, 0, 0, 0, 0, 0, 0, "T0", 0 },
    { SWITCHES_OFF, 3, 0, 0, 0, 0, 0, 1, "T0", 0 },         /* tasks off already */
    { SWITCHES_RESTORE, 3, 3, 0, 0, 0, 0, 0, "T0", 0 },
    { SWITCHES_OFF, 1, 0, 0, 0, 0, 0, 1, "T0", 0 },
    { SWITCHES_OFF, 2, 0, 0, 0, 0, 0, 2, "T0", 0 },         /* they were left on */
    { SWITCHES_RESTORE, 1, 1, 0, 0, 0, 0, 0, "T0", 0 },
    { SWITCHES_RESTORE, 2, 2, 0, 0, 0, 0, 0, "T0", 0 },
    { SWITCHES_OFF, 2, 0, 0, 0, 0, 0, 2, "T0", 0 },
    { SWITCHES_OFF, 1, 0, 0, 0, 0, 0, 1, "T0", 0 },
    { SWITCHES_RESTORE, 2, 2, 0, 0, 0, 0, 0, "T0", 0 },
    { SWITCHES_RESTORE, 1, 1, 0, 0, 0, 0, 0, "T0", 0 },
    { SWITCHES_OFF, 1, 0, 0, 0, 0, 0, 1, "T0", 0 },
    { SWITCHES_RESTORE, 3, 2, 0, 0, 0, 0, 0, "T0", 0 },     /* on already, and Swis stay off */
    { SWITCHES_OFF, 3, 0, 0, 0, 0, 0, 2, "T0", 0 },
    { SWITCHES_RESTORE, 3, 3, 0, 0, 0, 0, 0, "T0", 0 },
    { SWITCHES_OFF, 2, 0, 0, 0, 0, 0, 2, "T0", 0 },
    { SWITCHES_RESTORE, 3, 1, 0, 0, 0, 0, 0, "T0", 0 },
    { SWITCHES_OFF, 3, 0, 0, 0, 0, 0, 1, "T0", 0 },
    { SWITCHES_RESTORE, 3, 3, 0, 0, 0, 0, 0, "T0", 0 },
    { SWITCHES_OFF, 1, 0, 0, 0, 0, 0, 1, "T0", 0 },
    { SWITCHES_RESTORE, 2, 0, 0, 0, 0, 0, 0, "T0", 0 },
    { SWITCHES_RESTORE, 2, 2, 0, 0, 0, 0, 0, "T0", 0 },
    { SWITCHES_OFF, 3, 0, 0, 0, 0, 0, 2, "T0", 0 },
    { SWITCHES_RESTORE, 3, 3, 0, 0, 0, 0, 0, "T0", 0 },
    { SWITCHES_OFF, 2, 0, 0, 0, 0, 0, 2, "T0", 0 },
    { SWITCHES_RESTORE, 1, 0, 0, 0, 0, 0, 0, "T0", 0 },
    { SWITCHES_RESTORE, 1, 1, 0, 0, 0, 0, 0, "T0", 0 },
    { SWITCHES_OFF, 3, 0, 0, 0, 0, 0, 1, "T0", 0 },
    { SWITCHES_RESTORE, 3, 3, 0, 0, 0, 0, 0, "T0", 0 },
    { SWITCHES_OFF, 0, 0, 0, 0, 4, 0, 0, "T0", 0 },
    { SWITCHES_OFF, 7, 0, 0, 0, 4, 0, 0, "T0", 0 },
    { SWITCHES_OFF, 3, 1, 0, 0, 4, 0, 0, "T0", 0 },
    { SWITCHES_OFF, 1, 0, 0, 1, 4, 0, 0, "T0", 0 },
    { SWITCHES_OFF, 2, 1, 0, 0, 4, 0, 0, "T0", 0 },
    { SWITCHES_OFF, 3, 0, 0, 0, 0, 0, 3, "T0", 0 },         /* no refusal turned one off */
    { SWITCHES_RESTORE, 3, 3, 0, 0, 0, 0, 0, "T0", 0 },
    { SWITCHES_OFF, 2, 0, 0, 0, 0, 0, 2, "T0", 0 },
    { TASK_CREATE, 5, 0, 0, 0, 0, 0, 1, "T0", 0 },          /* ready, but held back */
    { SWITCHES_OFF, 2, 0, 0, 0, 0, 0, 0, "T0", 0 },         /* nor does call 77 let it run */
    { SWITCHES_OFF, 1, 0, 0, 0, 0, 0, 1, "T0", 0 },
    { SWITCHES_OFF, 3, 0, 0, 0, 0, 0, 0, "T0", 0 },
    { SWITCHES_RESTORE, 3, 1, 0, 0, 0, 0, 0, "T0", 0 },
    { SWITCHES_OFF, 3, 0, 0, 0, 0, 0, 1, "T0", 0 },
    { SWITCHES_RESTORE, 1, 1, 0, 0, 0, 0, 0, "T0", 0 },
    { SWITCHES_RESTORE, 2, 0, 0, 0, 0, 0, 0, "T0", 0 },
    { SWITCHES_RESTORE, 3, 0, 0, 0, 0, 0, 0, "T0", 0 },
    { SWITCHES_RESTORE, 1, 1, 0, 0, 0, 0, 0, "T0", 0 },
    { SWITCHES_RESTORE, 3, 1, 0, 0, 0, 0, 0, "T0", 0 },
    { SWITCHES_RESTORE, 2, 1, 0, 0, 4, 0, 0, "T0", 0 },
    { SWITCHES_RESTORE, 2, 3, 0, 0, 4, 0, 0, "T0", 0 },
    { SWITCHES_RESTORE, 2, 2, 0, 0, 0, 0, 0, "T1", 0 },
    { SWITCHES_OFF, 1, 0, 0, 0, 0, 0, 1, "T1", 0 },
    { TASK_CREATE, 9, 0, 0, 0, 0, 0, 2, "T1", 0 },          /* Swis off holds tasks back too */
    { SWITCHES_RESTORE, 2, 2, 0, 0, 0, 0, 0, "T1", 0 },
    { SWITCHES_RESTORE, 3, 2, 0, 0, 0, 0, 0, "T1", 0 },
    { SWITCHES_RESTORE, 1, 0, 0, 0, 0, 0, 0, "T1", 0 },
    { SWITCHES_RESTORE, 1, 1, 0, 0, 0, 0, 0, "T2", 0 },
    { SWITCHES_OFF, 3, 0, 0, 0, 0, 0, 3, "T2", 0 },
    { TASK_CREATE, 12, 0, 0, 0, 0, 0, 3, "T2", 0 },
    { SWITCHES_RESTORE, 3, 1, 0, 0, 0, 0, 0, "T2", 0 },     /* tasks are still off */
    { SWITCHES_RESTORE, 3, 2, 0, 0, 0, 0, 0, "T3", 0 },
    { SWITCHES_OFF, 3, 0, 0, 0, 0, 0, 3, "T3", 0 },
    { TASK_CREATE, 13, 0, 0, 0, 0, 0, 4, "T3", 0 },
    { SWITCHES_RESTORE, 3, 2, 0, 0, 0, 0, 0, "T3", 0 },     /* Swis are still off */
    { SWITCHES_RESTORE, 3, 1, 0, 0, 0, 0, 0, "T4", 0 },
    { SWITCHES_OFF, 3, 0, 0, 0, 0, 0, 3, "T4", 0 },
    { TASK_CREATE, 14, 0, 0, 0, 0, 0, 5, "T4", 0 },
    { SWITCHES_RESTORE, 3, 3, 0, 0, 0, 0, 0, "T5", 0 },     /* both by one call */
    { SWI_CREATE, 4, 0, 0, 0, 0, 0, 0, "T5", 0 },
    { SWI_CREATE, 8, 0, 0, 0, 0, 0, 1, "T5", 0 },
    { SWITCHES_OFF, 2, 0, 0, 0, 0, 0, 2, "T5", 0 },
    { SWI_POST, 0, 0, 0, 0, 0, 0, 0, "S0", 0 },             /* tasks off holds no Swi back */
    { 0x70, 0, 0, 0, 0, 1, 0, 0, "S0", 0 },
    { 0x71, 1, 0, 0, 0, 1, 0, 0, "S0", 0 },
    { 0x72, 0, 0, 0, 0, 1, 0, 0, "S0", 0 },
    { 0x73, 1, 0, 0, 0, 1, 0, 0, "S0", 0 },
    { 0x70, 1, 0, 0, 0, 1, 0, 0, "S0", 0 },
    { 0x71, 2, 0, 0, 0, 1, 0, 0, "S0", 0 },                 /* 1 before 2 and 4 */
    { 0x72, 2, 0, 0, 0, 1, 0, 0, "S0", 0 },
    { 0x73, 2, 2, 0, 0, 1, 0, 0, "S0", 0 },
    { INTERRUPT_OUT, 0, 0, 0, 0, 2, 0, 0, "S0", 0 },
    { TICK, 0, 0, 0, 0, 2, 0, 0, "S0", 0 },
    { SWITCHES_OFF, 2, 0, 0, 0, 2, 0, 0, "S0", 0 },         /* a Swi may name 1 alone */
    { SWITCHES_OFF, 3, 0, 0, 0, 2, 0, 0, "S0", 0 },
    { SWITCHES_OFF, 0, 0, 0, 0, 2, 0, 0, "S0", 0 },         /* 2 before 4 */
    { SWITCHES_OFF, 4, 0, 0, 0, 2, 0, 0, "S0", 0 },
    { SWITCHES_OFF, 5, 0, 0, 0, 2, 0, 0, "S0", 0 },
    { SWITCHES_OFF, 257, 0, 0, 0, 2, 0, 0, "S0", 0 },
    { SWITCHES_OFF, 0x80000001, 0, 0, 0, 2, 0, 0, "S0", 0 },
    { SWITCHES_OFF, F, 0, 0, 0, 2, 0, 0, "S0", 0 },
    { SWITCHES_OFF, 2, 1, 0, 0, 2, 0, 0, "S0", 0 },
    { SWITCHES_OFF, 3, 0, 0, 1, 2, 0, 0, "S0", 0 },
    { SWITCHES_OFF, 0, 0, 1, 0, 2, 0, 0, "S0", 0 },
    { SWITCHES_RESTORE, 2, 2, 0, 0, 2, 0, 0, "S0", 0 },
    { SWITCHES_RESTORE, 2, 0, 0, 0, 2, 0, 0, "S0", 0 },
    { SWITCHES_RESTORE, 2, 1, 0, 0, 2, 0, 0, "S0", 0 },     /* 2 before 4 */
    { SWITCHES_RESTORE, 2, 4, 0, 0, 2, 0, 0, "S0", 0 },
    { SWITCHES_RESTORE, 3, 3, 0, 0, 2, 0, 0, "S0", 0 },
    { SWITCHES_RESTORE, 3, 1, 0, 0, 2, 0, 0, "S0", 0 },
    { SWITCHES_RESTORE, 3, 2, 0, 0, 2, 0, 0, "S0", 0 },
    { SWITCHES_RESTORE, 3, 0, 0, 0, 2, 0, 0, "S0", 0 },
    { SWITCHES_RESTORE, 3, 4, 0, 0, 2, 0, 0, "S0", 0 },
    { SWITCHES_RESTORE, 0, 0, 0, 0, 2, 0, 0, "S0", 0 },
    { SWITCHES_RESTORE, 0, 1, 0, 0, 2, 0, 0, "S0", 0 },
    { SWITCHES_RESTORE, 4, 0, 0, 0, 2, 0, 0, "S0", 0 },
    { SWITCHES_RESTORE, 4, 4, 0, 0, 2, 0, 0, "S0", 0 },
    { SWITCHES_RESTORE, 5, 1, 0, 0, 2, 0, 0, "S0", 0 },
    { SWITCHES_RESTORE, 0x80000001, 1, 0, 0, 2, 0, 0, "S0", 0 },
    { SWITCHES_RESTORE, F, 0, 0, 0, 2, 0, 0, "S0", 0 },
    { SWITCHES_RESTORE, F, 1, 0, 0, 2, 0, 0, "S0", 0 },
    { SWITCHES_RESTORE, F, F, 0, 0, 2, 0, 0, "S0", 0 },
    { SWITCHES_RESTORE, 2, 2, 1, 0, 2, 0, 0, "S0", 0 },
    { SWITCHES_RESTORE, 3, 1, 0, 1, 2, 0, 0, "S0", 0 },
    { SWITCHES_OFF, 1, 1, 0, 0, 4, 0, 0, "S0", 0 },
    { SWITCHES_OFF, 1, 0, 1, 0, 4, 0, 0, "S0", 0 },
    { SWITCHES_OFF, 1, 0, 0, F, 4, 0, 0, "S0", 0 },
    { SWITCHES_RESTORE, 1, 2, 0, 0, 4, 0, 0, "S0", 0 },
    { SWITCHES_RESTORE, 1, 3, 0, 0, 4, 0, 0, "S0", 0 },
    { SWITCHES_RESTORE, 1, 4, 0, 0, 4, 0, 0, "S0", 0 },
    { SWITCHES_RESTORE, 1, 5, 0, 0, 4, 0, 0, "S0", 0 },
    { SWITCHES_RESTORE, 1, 0x80000000, 0, 0, 4, 0, 0, "S0", 0 },
    { SWITCHES_RESTORE, 1, F, 0, 0, 4, 0, 0, "S0", 0 },
    { SWITCHES_RESTORE, 1, 1, 1, 0, 4, 0, 0, "S0", 0 },
    { SWITCHES_RESTORE, 1, 0, 0, 1, 4, 0, 0, "S0", 0 },
    { SWITCHES_RESTORE, 1, 1, 0, 0, 0, 0, 0, "S0", 0 },     /* on already */
    { SWITCHES_RESTORE, 1, 0, 0, 0, 0, 0, 0, "S0", 0 },
    { SWITCHES_OFF, 1, 0, 0, 0, 0, 0, 1, "S0", 0 },
    { SWITCHES_OFF, 1, 0, 0, 0, 0, 0, 0, "S0", 0 },
    { SWI_POST, 1, 0, 0, 0, 0, 0, 0, "S0", 0 },             /* the higher one waits */
    { SWI_END, 0, 0, 0, 0, 9, 0, 0, "S0", 0 },
    { SWITCHES_OFF, 1, 0, 0, 0, 0, 0, 0, "S0", 0 },
    { SWITCHES_RESTORE, 1, 0, 0, 0, 0, 0, 0, "S0", 0 },
    { SWITCHES_RESTORE, 1, 3, 0, 0, 4, 0, 0, "S0", 0 },
    { SWITCHES_RESTORE, 1, 1, 1, 0, 4, 0, 0, "S0", 0 },
    { SWITCHES_RESTORE, 3, 3, 0, 0, 2, 0, 0, "S0", 0 },
    { SWITCHES_RESTORE, 3, 1, 0, 0, 2, 0, 0, "S0", 0 },
    { 0x71, 1, 0, 0, 0, 1, 0, 0, "S0", 0 },
    { SWI_END, 0, 0, 0, 0, 9, 0, 0, "S0", 0 },              /* still off */
    { SWITCHES_RESTORE, 1, 1, 0, 0, 0, 0, 0, "S1", 0 },     /* it begins, once */
    { SWITCHES_RESTORE, 1, 1, 0, 0, 0, 0, 0, "S1", 0 },
    { SWI_END, 0, 0, 0, 0, 0, 0, 0, "S0", 0 },
    { SWI_END, 0, 0, 0, 0, 0, 0, 0, "T5", 0 },              /* tasks are off */
    { SWITCHES_OFF, 2, 0, 0, 0, 0, 0, 0, "T5", 0 },         /* the Swi turned no task switch on */
    { SWITCHES_OFF, 1, 0, 0, 0, 0, 0, 1, "T5", 0 },
    { SWITCHES_RESTORE, 3, 3, 0, 0, 0, 0, 0, "T5", 0 },
    { SWI_POST, 0, 0, 0, 0, 0, 0, 0, "S0", 0 },
    { SWITCHES_OFF, 2, 0, 0, 0, 2, 0, 0, "S0", 0 },
    { SWITCHES_OFF, 3, 0, 0, 0, 2, 0, 0, "S0", 0 },
    { SWITCHES_OFF, 1, 1, 0, 0, 4, 0, 0, "S0", 0 },
    { SWITCHES_OFF, 1, 0, 0, 0, 0, 0, 1, "S0", 0 },         /* tasks are on, but not named */
    { SWITCHES_OFF, 1, 0, 0, 0, 0, 0, 0, "S0", 0 },
    { SWITCHES_OFF, 3, 0, 0, 0, 2, 0, 0, "S0", 0 },
    { SWITCHES_RESTORE, 1, 1, 0, 0, 0, 0, 0, "S0", 0 },
    { SWI_POST, 1, 0, 0, 0, 0, 0, 0, "S1", 0 },
    { SWI_END, 0, 0, 0, 0, 0, 0, 0, "S0", 0 },
    { SWI_END, 0, 0, 0, 0, 0, 0, 0, "T5", 0 },
    { SWITCHES_OFF, 3, 0, 0, 0, 0, 0, 3, "T5", 0 },         /* the Swi turned no task switch off */
    { SWITCHES_RESTORE, 3, 3, 0, 0, 0, 0, 0, "T5", 0 },
    { SWITCHES_OFF, 1, 0, 0, 0, 0, 0, 1, "T5", 0 },
    { SWI_POST, 0, 0, 0, 0, 0, 0, 0, "T5", 2 },
    { SWITCHES_OFF, 1, 0, 0, 0, 0, 0, 0, "T5", 0 },         /* nor does call 77 let it begin */
    { SWITCHES_OFF, 2, 0, 0, 0, 0, 0, 2, "T5", 0 },
    { SWITCHES_OFF, 3, 0, 0, 0, 0, 0, 0, "T5", 0 },
    { SWITCHES_RESTORE, 2, 2, 0, 0, 0, 0, 0, "T5", 0 },
    { SWITCHES_RESTORE, 1, 1, 0, 0, 0, 0, 0, "S0", 0 },     /* posted twice, begins once */
    { SWI_END, 0, 0, 0, 0, 0, 0, 0, "T5", 0 },
    { SWITCHES_RESTORE, 1, 1, 0, 0, 0, 0, 0, "T5", 0 },
    { SWITCHES_OFF, 1, 0, 0, 0, 0, 0, 1, "T5", 0 },
    { SWI_POST, 0, 0, 0, 0, 0, 0, 0, "T5", 0 },
    { SWI_POST, 1, 0, 0, 0, 0, 0, 0, "T5", 0 },
    { SWITCHES_RESTORE, 3, 0, 0, 0, 0, 0, 0, "T5", 0 },
    { SWITCHES_RESTORE, 3, 2, 0, 0, 0, 0, 0, "T5", 0 },
    { SWITCHES_RESTORE, 3, 1, 0, 0, 0, 0, 0, "S1", 0 },     /* the higher one first */
    { SWI_END, 0, 0, 0, 0, 0, 0, 0, "S0", 0 },
    { SWI_END, 0, 0, 0, 0, 0, 0, 0, "T5", 0 },
    { INTERRUPT_IN, 0, 0, 0, 0, 0, 0, 0, "I", 8 },          /* depth 8 */
    { INTERRUPT_IN, 0, 0, 0, 0, 7, 0, 0, "I", 0 },
    { INTERRUPT_IN, 0, 0, 0, 1, 4, 0, 0, "I", 0 },          /* 4 before 7 */
    { 0x70, 0, 0, 0, 0, 1, 0, 0, "I", 0 },
    { 0x71, 1, 0, 0, 0, 1, 0, 0, "I", 0 },
    { 0x72, 0, 0, 0, 0, 1, 0, 0, "I", 0 },
    { 0x73, 1, 0, 0, 0, 1, 0, 0, "I", 0 },
    { 0x70, 1, 0, 0, 0, 1, 0, 0, "I", 0 },
    { 0x71, 2, 0, 0, 0, 1, 0, 0, "I", 0 },                  /* 1 before 2 and 4 */
    { 0x72, 2, 0, 0, 0, 1, 0, 0, "I", 0 },
    { 0x73, 2, 2, 0, 0, 1, 0, 0, "I", 0 },
    { SWITCHES_OFF, 1, 0, 0, 0, 2, 0, 0, "I", 0 },
    { SWITCHES_OFF, 2, 0, 0, 0, 2, 0, 0, "I", 0 },
    { SWITCHES_OFF, 3, 0, 0, 0, 2, 0, 0, "I", 0 },
    { SWITCHES_OFF, 0, 0, 0, 0, 2, 0, 0, "I", 0 },          /* 2 before 4 */
    { SWITCHES_OFF, 4, 0, 0, 0, 2, 0, 0, "I", 0 },
    { SWITCHES_OFF, F, 0, 0, 0, 2, 0, 0, "I", 0 },
    { SWITCHES_OFF, 1, 1, 0, 0, 2, 0, 0, "I", 0 },
    { SWITCHES_OFF, 0, 0, 0, 1, 2, 0, 0, "I", 0 },
    { SWITCHES_RESTORE, 1, 1, 0, 0, 2, 0, 0, "I", 0 },
    { SWITCHES_RESTORE, 1, 0, 0, 0, 2, 0, 0, "I", 0 },
    { SWITCHES_RESTORE, 2, 2, 0, 0, 2, 0, 0, "I", 0 },
    { SWITCHES_RESTORE, 2, 0, 0, 0, 2, 0, 0, "I", 0 },
    { SWITCHES_RESTORE, 3, 3, 0, 0, 2, 0, 0, "I", 0 },
    { SWITCHES_RESTORE, 3, 1, 0, 0, 2, 0, 0, "I", 0 },
    { SWITCHES_RESTORE, 3, 2, 0, 0, 2, 0, 0, "I", 0 },
    { SWITCHES_RESTORE, 3, 0, 0, 0, 2, 0, 0, "I", 0 },
    { SWITCHES_RESTORE, 1, 2, 0, 0, 2, 0, 0, "I", 0 },      /* 2 before 4 */
    { SWITCHES_RESTORE, 2, 1, 0, 0, 2, 0, 0, "I", 0 },
    { SWITCHES_RESTORE, 3, 4, 0, 0, 2, 0, 0, "I", 0 },
    { SWITCHES_RESTORE, 0, 0, 0, 0, 2, 0, 0, "I", 0 },
    { SWITCHES_RESTORE, 0, 1, 0, 0, 2, 0, 0, "I", 0 },
    { SWITCHES_RESTORE, 4, 4, 0, 0, 2, 0, 0, "I", 0 },
    { SWITCHES_RESTORE, F, 0, 0, 0, 2, 0, 0, "I", 0 },
    { SWITCHES_RESTORE, F, F, 0, 0, 2, 0, 0, "I", 0 },
    { SWITCHES_RESTORE, 1, 1, 1, 0, 2, 0, 0, "I", 0 },
    { SWITCHES_RESTORE, 3, 3, 0, 1, 2, 0, 0, "I", 0 },
    { INTERRUPT_OUT, 1, 0, 0, 0, 4, 0, 0, "I", 0 },
    { TICK, 0, 0, 1, 0, 4, 0, 0, "I", 0 },
    { TICK, 0, 0, 0, 0, 0, 0, 0, "I", 0 },
    { SWI_POST, 0, 0, 0, 0, 0, 0, 0, "I", 0 },
    { INTERRUPT_OUT, 0, 0, 0, 0, 0, 0, 0, "I", 7 },         /* depth 1: nothing starts */
    { INTERRUPT_OUT, 0, 0, 0, 0, 0, 0, 0, "S0", 0 },        /* Swis are still on */
    { INTERRUPT_IN, 0, 0, 0, 0, 0, 0, 0, "I", 0 },
    { SWITCHES_OFF, 1, 0, 0, 0, 2, 0, 0, "I", 0 },          /* above a Swi */
    { SWITCHES_OFF, 2, 0, 0, 0, 2, 0, 0, "I", 0 },
    { SWITCHES_RESTORE, 1, 1, 0, 0, 2, 0, 0, "I", 0 },
    { SWITCHES_RESTORE, 2, 2, 0, 0, 2, 0, 0, "I", 0 },
    { INTERRUPT_OUT, 0, 0, 0, 0, 0, 0, 0, "S0", 0 },
    { SWI_END, 0, 0, 0, 0, 0, 0, 0, "T5", 0 },
    { INTERRUPT_OUT, 0, 0, 0, 0, 2, 0, 0, "T5", 0 },
    { SWITCHES_OFF, 3, 0, 0, 0, 0, 0, 3, "T5", 0 },         /* no interrupt turned one off */
    { TASK_CREATE, 15, 0, 0, 0, 0, 0, 6, "T5", 0 },
    { INTERRUPT_IN, 0, 0, 0, 0, 0, 0, 0, "I", 0 },
    { SWITCHES_RESTORE, 1, 1, 0, 0, 2, 0, 0, "I", 0 },
    { SWITCHES_RESTORE, 3, 3, 0, 0, 2, 0, 0, "I", 0 },
    { 0x71, 1, 0, 0, 0, 1, 0, 0, "I", 0 },
    { SWI_POST, 1, 0, 0, 0, 0, 0, 0, "I", 0 },
    { SWI_POST, 0, 0, 0, 0, 0, 0, 0, "I", 0 },
    { INTERRUPT_OUT, 0, 0, 0, 0, 0, 0, 0, "T5", 0 },        /* still off */
    { SWITCHES_RESTORE, 3, 3, 0, 0, 0, 0, 0, "S1", 0 },     /* both by one call: the Swis first */
    { TASK_SET_PRIORITY, 5, F, 0, 0, 5, 0, 0, "S1", 0 },    /* task 5 is still the current one */
    { TASK_SET_PRIORITY, 6, F, 0, 0, 0, 0, 15, "S1", 0 },   /* and task 6 is not */
    { TASK_SET_PRIORITY, 6, 15, 0, 0, 0, 0, F, "S1", 0 },
    { SWI_END, 0, 0, 0, 0, 0, 0, 0, "S0", 0 },
    { SWI_END, 0, 0, 0, 0, 0, 0, 0, "T6", 0 },              /* then the task */
    { SWITCHES_OFF, 1, 0, 0, 0, 0, 0, 1, "T6", 0 },
    { SWITCHES_OFF, 2, 0, 0, 0, 0, 0, 2, "T6", 0 },
    { TASK_SET_PRIORITY, 6, 1, 0, 0, 0, 0, 15, "T6", 0 },   /* lowers itself, but is held in place */
    { SWI_POST, 1, 0, 0, 0, 0, 0, 0, "T6", 0 },
    { SWITCHES_RESTORE, 2, 2, 0, 0, 0, 0, 0, "T6", 0 },
    { SWITCHES_RESTORE, 1, 1, 0, 0, 0, 0, 0, "S1", 0 },
    { SWI_END, 0, 0, 0, 0, 0, 0, 0, "T5", 0 },
    { SWITCHES_OFF, 3, 0, 0, 0, 0, 0, 3, "T5", 0 },
    { TASK_SET_PRIORITY, 4, 15, 0, 0, 0, 0, 13, "T5", 0 },
    { SWI_POST, 0, 0, 0, 0, 0, 0, 0, "T5", 0 },
    { SWITCHES_RESTORE, 3, 1, 0, 0, 0, 0, 0, "S0", 0 },     /* tasks are still off */
    { TASK_SET_PRIORITY, 5, F, 0, 0, 5, 0, 0, "S0", 0 },
    { SWI_END, 0, 0, 0, 0, 0, 0, 0, "T5", 0 },
    { SWITCHES_RESTORE, 3, 2, 0, 0, 0, 0, 0, "T4", 0 },
    { SWITCHES_OFF, 3, 0, 0, 0, 0, 0, 3, "T4", 0 },
    { TASK_SET_PRIORITY, 4, 2, 0, 0, 0, 0, 15, "T4", 0 },
    { SWI_POST, 0, 0, 0, 0, 0, 0, 0, "T4", 0 },
    { SWITCHES_RESTORE, 3, 2, 0, 0, 0, 0, 0, "T4", 0 },     /* Swis are still off */
    { SWITCHES_RESTORE, 3, 1, 0, 0, 0, 0, 0, "S0", 0 },
    { TASK_SET_PRIORITY, 4, F, 0, 0, 5, 0, 0, "S0", 0 },
    { SWI_END, 0, 0, 0, 0, 0, 0, 0, "T5", 0 },
    { SEMAPHORE_CREATE, 0, 0, 0, 0, 0, 0, 0, "T5", 0 },
    { SWITCHES_OFF, 3, 0, 0, 0, 0, 0, 3, "T5", 0 },         /* code 9, with both off */
    { TASK_YIELD, 0, 0, 0, 0, 9, 0, 0, "T5", 0 },
    { TASK_END, 0, 0, 0, 0, 9, 0, 0, "T5", 0 },
    { TASK_SLEEP, 1, 0, 0, 0, 9, 0, 0, "T5", 0 },
    { SEMAPHORE_PEND, 0, F, 0, 0, 9, 0, 0, "T5", 0 },
    { TASK_SLEEP, 0, 0, 0, 0, 0, 0, 0, "T5", 0 },
    { SEMAPHORE_PEND, 0, 0, 0, 0, 0, 1, 0, "T5", 0 },
    { SWITCHES_RESTORE, 3, 1, 0, 0, 0, 0, 0, "T5", 0 },     /* tasks alone off */
    { TASK_YIELD, 0, 0, 0, 0, 9, 0, 0, "T5", 0 },
    { TASK_END, 0, 0, 0, 0, 9, 0, 0, "T5", 0 },
    { TASK_SLEEP, 1, 0, 0, 0, 9, 0, 0, "T5", 0 },
    { SEMAPHORE_PEND, 0, F, 0, 0, 9, 0, 0, "T5", 0 },
    { SWITCHES_OFF, 1, 0, 0, 0, 0, 0, 1, "T5", 0 },
    { SWITCHES_RESTORE, 3, 2, 0, 0, 0, 0, 0, "T5", 0 },     /* Swis alone off */
    { TASK_YIELD, 0, 0, 0, 0, 9, 0, 0, "T5", 0 },
    { TASK_END, 0, 0, 0, 0, 9, 0, 0, "T5", 0 },
    { TASK_SLEEP, 1, 0, 0, 0, 9, 0, 0, "T5", 0 },
    { SEMAPHORE_PEND, 0, F, 0, 0, 9, 0, 0, "T5", 0 },
    { SWITCHES_RESTORE, 1, 1, 0, 0, 0, 0, 0, "T5", 0 },
    { TASK_YIELD, 0, 0, 0, 0, 0, 0, 0, "T5", 0 },
    { SEMAPHORE_PEND, 0, F, 0, 0, 0, 2, 0, "T3", 0 },
    { SWITCHES_OFF, 2, 0, 0, 0, 0, 0, 2, "T3", 0 },
    { SEMAPHORE_POST, 0, 0, 0, 0, 0, 0, 5, "T3", 0 },       /* task 5 is ready, but held back */
    { SWITCHES_RESTORE, 3, 3, 0, 0, 0, 0, 0, "T5", 0 },
};

const struct named_table switches_table = TABLE(switches, 0x70);

/* The replay that document 01 prints, its fifth line as No. 2 amends it. No. 8: "The sample's fourth line keeps its 1." Task 1 is woken. */
static const struct row five[] = {
    { TASK_CREATE, 5, 0, 0, 0, 0, 0, 1, "T1", 0 },
    { SEMAPHORE_CREATE, 0, 0, 0, 0, 0, 0, 0, "T1", 0 },
    { SEMAPHORE_PEND, 0, F, 0, 0, 0, 2, 0, "T0", 0 },
    { SEMAPHORE_POST, 0, 0, 0, 0, 0, 0, 1, "T1", 0 },
    { SEMAPHORE_POST, 7, 0, 0, 0, 11, 0, 3, "T1", 0 },
};

const struct named_table five_table = TABLE(five, 0x100);
