/* One step of each phase; maker.c says what the phases are after. */
#ifndef STEPS_H
#define STEPS_H

#include "maker.h"

/* waiting.c: tasks that wait, are served and take turns */
struct call line_step(struct maker *m);
struct call writers_step(struct maker *m);
struct call readers_step(struct maker *m);
struct call events_step(struct maker *m);
struct call wake_step(struct maker *m);
struct call expire_step(struct maker *m);
struct call alarm_step(struct maker *m);
struct call levels_step(struct maker *m);
struct call turns_step(struct maker *m);
struct call ladder_step(struct maker *m);

/* preempting.c: interrupts, Swis, clocks and switches */
struct call nest_step(struct maker *m);
struct call tower_step(struct maker *m);
struct call swi_queue_step(struct maker *m);
struct call triggers_step(struct maker *m);
struct call clockwork_step(struct maker *m);
struct call chime_step(struct maker *m);
struct call switched_off_step(struct maker *m);

/* filling.c: the heap and the tables, filled and cleared */
struct call heap_fill_step(struct maker *m);
struct call heap_holes_step(struct maker *m);
struct call heap_churn_step(struct maker *m);
struct call fill_step(struct maker *m);
struct call clean_step(struct maker *m);

#endif
