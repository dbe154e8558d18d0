/*
 * No post is lost: for every counting semaphore, of either order, the count set at its last creation or accepted
 * reset plus the accepted posts since equals the count now plus the units taken since.
 *
 * All but the count now is counted here from the history alone, the calls and their answers. The tables are looked at
 * only to hold the two sides against each other. The history takes a post's word for it that it readied a waiter, a
 * value other than 0; wakes.h holds that value against the line.
 */
#ifndef SUMS_H
#define SUMS_H

#include "calls.h"
#include "core.h"

/* Of one semaphore, since its count was last set. All 0 if it was never created, or deleted since. */
struct sum {
    uint32_t is_created;
    uint32_t kind;         /* as created */
    uint32_t count_set;
    uint64_t posts;        /* accepted ones */
    uint64_t taken;        /* units: by a pend done at once, or by a waiter that a post readied */
};

struct sums {
    struct sum semaphore[SEMAPHORES];
};

/* Whether the sum holds for that kind. Binary ones are left out: a post at 1 is lost by rule. */
int is_counting(uint32_t kind);

/* The empty history: no semaphore was created. */
void sums_fresh(struct sums *sums);

/* One more call of the history, with its answer. */
void sums_note(struct sums *sums, const struct call *call, struct answer answer);

/*
 * Holds the two sides against each other: what is off, in words, with the first semaphore of which it is so, or a null
 * pointer. The words stand until the next time. Off is also a semaphore that is in use and whose creation the history
 * does not have, or the other way round.
 */
const char *sums_off(const struct sums *sums, const struct tables *t);

#endif
