/* Counts what a run of calls reached: the codes of each call, and the deep states. */
#ifndef COVERAGE_H
#define COVERAGE_H

#include "calls.h"
#include "core.h"
#include "sums.h"

/* Fresh tables with that number of levels: no object was made so far. */
void coverage_fresh(uint32_t levels);

/* Notes one call: the sums before it, the tables before and after it, and its answer. */
void coverage_note(const struct sums *sums, const struct tables *before, const struct tables *after, const struct call *call,
                   struct answer answer);

/* Prints the counts; gives the number of pairs and states that never occurred. */
unsigned coverage_print(FILE *file);

#endif
