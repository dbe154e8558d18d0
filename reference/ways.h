/*
 * The same calls both ways, as lists and one by one. No. 4: "The final tables and every answer must equal those of the same calls made one after the
 * other."
 */
#ifndef WAYS_H
#define WAYS_H

#include "core.h"

enum {
    SPARE = 8,                                       /* words of room beyond what the answers of a list need */
    WAYS_ROOM = LIST_CALLS * ANSWER_WORDS + SPARE,   /* the most that is lent */
    WAYS_WORDS = LIST_CALLS * CALL_WORDS             /* and more, which is not */
};

#define UNTOUCHED 4294967295u /* in every word of the room before a list */

struct ways {
    struct tables listed, single;      /* the tables of each way */
    uint32_t answers[WAYS_WORDS];      /* the room of the last list, and what was not lent */
    struct list_answer last;           /* what that list was answered */
};

/* Fresh tables for both ways. */
void ways_fresh(struct ways *w, uint32_t levels);

/* What a list has to be answered on these tables: ACCEPTED, BAD_ARGUMENT or NOT_SOUND. */
enum code list_code(const struct tables *t, size_t words, size_t room);

/*
 * Hands over a list, with room for at most WAYS_ROOM words of answers; makes the calls of a list that has to be accepted one by one too. Gives the
 * first thing that is not as it has to be, in words, or a null pointer: the list's own answer and thread, each answer, all of the tables, and the
 * words past the last answer, of which there is none if the list has to be refused.
 */
const char *ways_list(struct ways *w, const uint32_t *calls, size_t words, size_t room);

/* One more answer of a list goes into the sum that `pace` prints: its three words, and the thread of the list. */
uint32_t add_answer(uint32_t sum, const uint32_t answer[ANSWER_WORDS], struct thread thread);

#endif
