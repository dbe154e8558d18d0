/* Reading a whole file, for the programs. */
#ifndef FILE_H
#define FILE_H

#include <stddef.h>
#include <stdint.h>

/* The bytes of the file, or of standard input if the name is a null pointer or "-"; ends the program with status 2 if it cannot be read. */
uint8_t *read_whole(const char *name, size_t *length);

#endif
