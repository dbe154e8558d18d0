/* The tables of objects, by the number with which an answer's value names them: 1 tasks to 6 clocks. */
#ifndef OBJECTS_H
#define OBJECTS_H

#include "calls.h"
#include "core.h"

/* The table of the object number that a call takes; 0 if it takes none. */
uint32_t table_of(const struct call_form *form);

/* How many numbers the table has. */
uint32_t table_size(uint32_t table);

/* The set of those in use. */
uint32_t table_in_use(const struct tables *t, uint32_t table);

#endif
