/*
 * Which task did the post wake? No. 8: "Let the value be the woken task's number, and 0 if none was woken".
 *
 * Whom a call wakes is worked out here from the tables before it: the first in the line, or the event's waiter if the
 * bits match. That is held against the answer and the tables after it. How the core goes about it is not looked at.
 */
#ifndef WAKES_H
#define WAKES_H

#include "calls.h"
#include "core.h"

/*
 * What is off with whom an accepted call woke, in words, or a null pointer. The words stand until the next time.
 *
 * After a post (23, 33, 42) the task that it had to wake is ready, with its last result, and no other one that waited;
 * the value is its number. Where it had to wake none, nobody is readied and the value is 0. A pend (43) that lets a
 * writer in has the oldest word as its value, a Swi post (12 to 16) has 0. Any other call readies nobody who waits, but
 * for the tick, which is left out.
 */
const char *wake_off(const struct tables *before, const struct tables *after, const struct call *call,
                     struct answer answer);

#endif
