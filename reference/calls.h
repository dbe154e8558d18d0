/* The calls by name, for the programs around the core. */
#ifndef CALLS_H
#define CALLS_H

#include <stdint.h>
#include <stdio.h>

enum {
    CALLS = 40,
    RANGE = 16,    /* call numbers of a kind; each range begins with its create, where there is one */
    CODES = 12     /* 0 to 11 */
};

/* The numbers that No. 10 took away. */
enum { FIRST_GONE = 0x70, LAST_GONE = 0x73 };

struct call {
    uint32_t number, argument[4];
};

struct call_form {
    uint32_t number;
    const char *name;
    const char *argument[4];   /* a null pointer where unused */
    const char *codes;         /* every code that the rules let the call give, 0 for accepted: a hexadecimal digit each, so b is 11 */
};

extern const struct call_form call_forms[CALLS]; /* in rising number */

/* The form of a call number, or a null pointer if it is unknown. */
const struct call_form *form_of(uint32_t number);

/* Whether the rules let the call give that code. */
int can_give(const struct call_form *form, uint32_t code);

/* As in: 22 pend semaphore: semaphore 3, limit 4294967295 */
void print_call(FILE *file, const struct call *call);

#endif
