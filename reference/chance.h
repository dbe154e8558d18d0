/* Random numbers, for the maker. */
#ifndef CHANCE_H
#define CHANCE_H

#include "maker.h"

#define FULL 0xFFFFFFFFu /* every bit: the greatest number, and the set of all tasks */

uint64_t random_word(struct maker *m);

/* A number from 0 to below n. */
uint32_t below(struct maker *m, uint32_t n);

/* 1 in so many of 100 cases, else 0. */
uint32_t chance(struct maker *m, unsigned percent);

/* A member of a set that is not empty. */
uint32_t member(struct maker *m, uint32_t set);

/* Any number, most often one at the edge of what some call takes. */
uint32_t wild(struct maker *m);

#endif
