/* Counts what No. 14 brought: both sides of each line that the number of levels draws, and what is found in logs of both versions. */
#ifndef EDITIONS_H
#define EDITIONS_H

#include "calls.h"
#include "core.h"

#include <stddef.h>

/* Notes one call, by the tables before and after it and its answer. */
void levels_note(const struct tables *before, const struct tables *after, const struct call *call, struct answer answer);

/* Notes what the reader finds at the end of a log. */
void faults_note(const uint8_t *bytes, size_t length);

#endif
