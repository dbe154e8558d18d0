/* Both sides of the sum of each semaphore, counted from the history of calls and answers. */
#include "sums.h"

#include <stddef.h>
#include <string.h>

int is_counting(uint32_t kind)
{
    return kind == COUNTING || kind == COUNTING_BY_PRIORITY;
}

void sums_fresh(struct sums *sums)
{
    memset(sums, 0, sizeof *sums);
}

/* The semaphore of a call. Which one a creation made is told by its answer's value. */
static uint32_t semaphore_of(const struct call *call, struct answer answer)
{
    return call->number == SEMAPHORE_CREATE ? answer.value : call->argument[0];
}

void sums_note(struct sums *sums, const struct call *call, struct answer answer)
{
    uint32_t number = semaphore_of(call, answer);
    struct sum *sum;

    if (answer.code != ACCEPTED || number >= SEMAPHORES)
        return; /* a refused call counts nowhere, and a number outside the table is no semaphore's */
    sum = &sums->semaphore[number];
    switch (call->number) {
    case SEMAPHORE_CREATE:
        *sum = (struct sum){ .is_created = 1, .kind = call->argument[0], .count_set = call->argument[1] };
        break;
    case SEMAPHORE_DELETE:
        *sum = (struct sum){ 0 };
        break;
    case SEMAPHORE_PEND:
        sum->taken += answer.outcome == DONE;
        break;
    case SEMAPHORE_POST:
        sum->posts++;
        sum->taken += answer.value != 0; /* it readied a waiter */
        break;
    case SEMAPHORE_RESET:
        sum->count_set = call->argument[1];
        sum->posts = 0;
        sum->taken = 0;
        break;
    default:
        break;
    }
}

/* What is off with one semaphore, in words, or a null pointer. */
static const char *sum_off(const struct sum *sum, uint32_t number, int in_use, uint32_t count_now)
{
    static char text[160];

    if (!sum->is_created != !in_use) {
        snprintf(text, sizeof text, "semaphore %lu is %s", (unsigned long)number,
                 in_use ? "in use without a creation" : "created and not deleted, but not in use");
        return text;
    }
    if (!in_use || !is_counting(sum->kind) || sum->count_set + sum->posts == count_now + sum->taken)
        return NULL;
    snprintf(text, sizeof text, "semaphore %lu has count set %lu + posts %llu, but count now %lu + units taken %llu",
             (unsigned long)number, (unsigned long)sum->count_set, (unsigned long long)sum->posts,
             (unsigned long)count_now, (unsigned long long)sum->taken);
    return text;
}

const char *sums_off(const struct sums *sums, const struct tables *t)
{
    for (uint32_t number = 0; number < SEMAPHORES; number++) {
        int in_use = (t->semaphores_in_use >> number & 1) != 0;
        const char *off = sum_off(&sums->semaphore[number], number, in_use, t->semaphore[number].count);

        if (off != NULL)
            return off;
    }
    return NULL;
}
