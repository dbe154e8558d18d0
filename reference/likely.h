/* Calls, and arguments for them, that the tables make likely to be accepted. */
#ifndef LIKELY_H
#define LIKELY_H

#include "maker.h"

/* A call with just these arguments. */
struct call call_of(uint32_t number, uint32_t a, uint32_t b, uint32_t c, uint32_t d);

/* One of the phase's levels; now and then beyond all levels, where the maker tries them. */
uint32_t some_level(struct maker *m);

/* The same, but now and then any level, or -1. */
uint32_t task_priority(struct maker *m);

/* Outside a task most often 0, for a limit is refused there. */
uint32_t some_limit(struct maker *m);

/* A limit with which a wait begins. */
uint32_t waiting_limit(struct maker *m);

/* A message. */
uint32_t some_word(struct maker *m);

/* Most often of a few low bits, so that masks meet. */
uint32_t mask(struct maker *m);

/* Most often near 0, on either side of it. */
uint32_t trigger(struct maker *m);

/* Most often few, so that they run out. */
uint32_t ticks(struct maker *m);

/* Gives back a live block, now and then wrongly; without one, any offset. */
struct call give_back(struct maker *m);

/* The call of that number. */
struct call likely(struct maker *m, uint32_t number);

/* Any call, those rarely refused for their context rather more often. */
struct call any(struct maker *m);

/* A call on an object that is not there: deleted, never made, or a number outside its table. */
struct call absent_call(struct maker *m);

/* A call on the object that the last call deleted. */
struct call deleted_call(struct maker *m);

/* A number that No. 10 took away, most often as it was called; now and then the one past its calls. */
struct call gone_call(struct maker *m);

/* Any number as call or argument. */
struct call wild_call(struct maker *m);

#endif
