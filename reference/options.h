/* The option that some programs share. */
#ifndef OPTIONS_H
#define OPTIONS_H

#include <stdint.h>

/*
 * --levels 16 or --levels 32 as the first arguments of a program: takes the two off, so that the others are argv[1] and so on, and sets *levels,
 * which stays as it is without the option. Gives 0 if the number is another or is missing, else 1.
 */
int take_levels(int *argc, char ***argv, uint32_t *levels);

#endif
