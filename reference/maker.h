/* Makes random calls. The maker runs the core beside it, sees its tables and steers them into deep states. */
#ifndef MAKER_H
#define MAKER_H

#include "calls.h"
#include "core.h"

struct maker {
    struct tables tables;      /* after the calls made so far */
    uint64_t random;
    const struct style *style;
    unsigned phase;            /* what the maker is after now */
    unsigned steps_left;       /* in this phase */
    uint32_t target;           /* the object of the phase */
    uint32_t goal;             /* a length, a depth or a table */
    unsigned descending;       /* whether the phase is past its goal */
    int tries_levels;          /* whether it tries both sides of each line that the number of levels draws (No. 14) */
    uint32_t first_level, last_level;  /* new tasks get a priority from the one to the other */
    unsigned endless;          /* of 100 waits begun in this phase, those without limit */
    uint32_t in_use[CLOCK_TABLE + 1];  /* of each table, the set of the numbers in use before the last call */
    uint32_t made[CLOCK_TABLE + 1];    /* and of those that were in use at some time */
    uint32_t deleted_from, deleted;    /* the table and the number of the object that the last call deleted; table 0 if it deleted none */
};

/*
 * The style is chosen by the seed. The tables have that number of levels, LEVELS_LEAST or LEVELS_MOST. With 0 they have LEVELS_LEAST, and the seed
 * makes the log that it made before No. 14.
 */
void maker_start(struct maker *m, uint64_t seed, uint32_t levels);

const char *maker_style(const struct maker *m);

/* The next call. The caller carries it out on m->tables before it asks for another. */
struct call maker_next(struct maker *m);

/* A number from 0 to below n, from the same source. */
uint32_t maker_below(struct maker *m, uint32_t n);

#endif
