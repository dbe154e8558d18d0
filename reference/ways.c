/* The same calls both ways, as lists and one by one. */
#include "ways.h"

#include <string.h>

void ways_fresh(struct ways *w, uint32_t levels)
{
    core_fresh(&w->listed, levels);
    core_fresh(&w->single, levels);
}

enum code list_code(const struct tables *t, size_t words, size_t room)
{
    size_t calls = words / CALL_WORDS;

    if (core_unsound(t) != NULL)
        return NOT_SOUND;
    if (calls * CALL_WORDS < words || calls > LIST_CALLS)
        return BAD_ARGUMENT;
    return calls * ANSWER_WORDS <= room ? ACCEPTED : BAD_ARGUMENT;
}

/* Makes so many calls one by one; gives 1 if each answer is the list's, else 0. */
static int are_answers_equal(struct ways *w, const uint32_t *calls, size_t n)
{
    int are_equal = 1;

    for (size_t i = 0; i < n; i++) {
        const uint32_t *call = calls + i * CALL_WORDS, *listed = w->answers + i * ANSWER_WORDS;
        struct answer single = core_call(&w->single, call[0], call[1], call[2], call[3], call[4]);

        are_equal &= listed[0] == single.code && listed[1] == single.outcome && listed[2] == single.value;
    }
    return are_equal;
}

/* The room from that word on, and what was not lent. */
static int is_untouched(const struct ways *w, size_t from)
{
    for (size_t i = from; i < WAYS_WORDS; i++)
        if (w->answers[i] != UNTOUCHED)
            return 0;
    return 1;
}

/* Of the tables that were not changed, or changed by single calls. */
static struct thread list_thread(const struct tables *t, enum code code)
{
    return code == NOT_SOUND ? (struct thread){ 'T', 0 } : core_running(t);
}

const char *ways_list(struct ways *w, const uint32_t *calls, size_t words, size_t room)
{
    enum code code = list_code(&w->single, words, room);
    size_t answered = code == ACCEPTED ? words / CALL_WORDS : 0;
    struct thread thread;

    for (size_t i = 0; i < WAYS_WORDS; i++)
        w->answers[i] = UNTOUCHED;
    w->last = core_list(&w->listed, calls, words, w->answers, room);
    if (!are_answers_equal(w, calls, answered))
        return "an answer is another than that of the single call";
    thread = list_thread(&w->single, code);
    if (w->last.answer.code != code || w->last.answer.outcome != DONE || w->last.answer.value != 0)
        return "the list's own answer";
    if (w->last.thread.kind != thread.kind || w->last.thread.number != thread.number)
        return "the list's thread";
    if (!is_untouched(w, answered * ANSWER_WORDS))
        return "a word past the last answer is written";
    return memcmp(&w->listed, &w->single, sizeof w->listed) == 0 ? NULL : "the tables are others than after the single calls";
}

uint32_t add_answer(uint32_t sum, const uint32_t answer[ANSWER_WORDS], struct thread thread)
{
    sum = (sum ^ answer[0]) + answer[2];
    return (sum ^ answer[1]) + ((uint32_t)(uint8_t)thread.kind ^ thread.number);
}
