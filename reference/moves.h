/* Steps that the phases share. */
#ifndef MOVES_H
#define MOVES_H

#include "maker.h"

/* Towards a running task with both switches on. */
struct call calm_down(struct maker *m);

/* From a task: turns on what is off, or one of the two, named alone or with the other. */
struct call turn_on(struct maker *m);

/* A post that serves the first waiter somewhere; or any call. */
struct call serve_somebody(struct maker *m);

/* While task 0 runs: another task is to run instead, but no spared one. */
struct call bring_task_but(struct maker *m, uint32_t spared);

/* The same with no task spared. */
struct call bring_task(struct maker *m);

/* Another phase begins after this step. */
void end_phase(struct maker *m);

/* Interrupt in, ticks, out: one step of it. */
struct call tick_step(struct maker *m);

/* Posts a Swi by one of the five calls, with arguments that do post it where that can be. */
struct call surely_post(struct maker *m, uint32_t swi);

/* A call that would wait, at an object where it would; or a sleep, a yield or an end. */
struct call would_wait(struct maker *m);

#endif
