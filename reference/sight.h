/* What the maker sees in the tables. */
#ifndef SIGHT_H
#define SIGHT_H

#include "maker.h"

/* The set with that member alone. */
uint32_t bit(uint32_t number);

/* Which thread runs; neither is so in an interrupt. */
int in_task(const struct maker *m);
int in_swi(const struct maker *m);

/* A task runs and both switches are on. */
int is_calm(const struct maker *m);

/* The switches that are off, as call 77 names them. */
uint32_t switches_now_off(const struct maker *m);

/* The front of the highest ready queue: the current task, if nothing holds it back. */
uint32_t front_task(const struct maker *m);

/* The set of the levels above task 0's at which no task is ready. */
uint32_t bare_levels(const struct maker *m);

/* The ready tasks that are not alone in their queue, but for task 0. */
uint32_t crowded_tasks(const struct maker *m);

/* A queue or line, by its head. */
uint32_t line_length(const struct maker *m, uint32_t head);

/* The tasks in a line. */
uint32_t tasks_in_line(const struct maker *m, uint32_t head);

/* Sets of tasks, semaphores and Swis. */
uint32_t tasks_in_mode(const struct maker *m, enum mode mode);
uint32_t tasks_at(const struct maker *m, enum wait wait);
uint32_t semaphores_near_most(const struct maker *m);
uint32_t swis_at_priority(const struct maker *m, uint32_t priority);

/* A live block, chosen at random: its first unit, and its units through *units; UNITS if there is none. */
uint32_t some_block(struct maker *m, uint32_t *units);

#endif
