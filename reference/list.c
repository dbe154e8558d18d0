/* The entry for a list of calls (No. 4), over the entry for one call. */
#include "core.h"

static int is_list(size_t words)
{
    return words % CALL_WORDS == 0 && words / CALL_WORDS <= LIST_CALLS;
}

static struct list_answer answered(enum code code, struct thread thread)
{
    return (struct list_answer){ { .code = (uint16_t)code, .outcome = DONE, .value = 0 }, thread };
}

/* The tables are tested once, for each call leaves them sound. */
struct list_answer core_list(struct tables *t, const uint32_t *calls, size_t words, uint32_t *answers, size_t room)
{
    if (core_unsound(t) != NULL)
        return answered(NOT_SOUND, (struct thread){ 'T', 0 });
    if (!is_list(words) || room < words / CALL_WORDS * ANSWER_WORDS)
        return answered(BAD_ARGUMENT, core_running(t));
    for (size_t i = 0; i < words; i += CALL_WORDS) {
        const uint32_t *call = calls + i;
        struct answer answer = core_call(t, call[0], call[1], call[2], call[3], call[4]);

        *answers++ = answer.code;
        *answers++ = answer.outcome;
        *answers++ = answer.value;
    }
    return answered(ACCEPTED, core_running(t));
}
