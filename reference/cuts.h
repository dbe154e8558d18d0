/* Cuts the calls of a random log into lists of random lengths, refused ones between them, and counts what became of them (No. 4). */
#ifndef CUTS_H
#define CUTS_H

#include "maker.h"

#include <stddef.h>

/*
 * Hands over the calls of a log that the maker has just made; its tables are those after them. Gives what is not as with single calls (ways.h), which
 * sum is off then (sums.h), or that the tables at the end are not the maker's, in words, or a null pointer. The words stand until the next time.
 */
const char *cuts_off(struct maker *m, const uint8_t *bytes, size_t length);

#endif
