/* Whom a call woke, held against its answer. */
#include "wakes.h"

#include <stddef.h>

/* What a call does to those who wait. */
struct wake {
    uint32_t task;     /* whom it wakes; 0 for nobody, for task 0 never waits */
    uint32_t result;   /* the value of that task's last result */
    uint32_t value;    /* of the answer */
};

/* The first in a line if it waits like that, else 0. */
static uint32_t first_in(const struct tables *t, uint32_t head, enum wait wait)
{
    uint32_t place = t->link[head].next;

    return place != head && t->task[place].wait == wait ? place - PLACE_OF_TASK : 0;
}

/* The bits with which an event serves its waiter once these are posted. */
static uint32_t bits_for_waiter(const struct event *event, uint32_t posted)
{
    uint32_t bits = posted & event->or_mask;

    return (~posted & event->and_mask) == 0 ? bits | event->and_mask : bits;
}

/* By the tables before an accepted call. */
static struct wake wake_of(const struct tables *t, const struct call *call)
{
    uint32_t number = call->argument[0], task = 0, result = 0;
    const struct mailbox *mailbox;

    switch (call->number) {
    case SEMAPHORE_POST:
        task = first_in(t, HEAD_OF_SEMAPHORE + number, AT_SEMAPHORE);
        break;
    case EVENT_POST:
        result = bits_for_waiter(&t->event[number], t->event[number].posted | call->argument[1]);
        task = result != 0 ? t->event[number].waiter : 0;
        break;
    case MAILBOX_POST:
        result = call->argument[1];
        task = first_in(t, HEAD_OF_MAILBOX + number, AT_MAILBOX_READING);
        break;
    case MAILBOX_PEND:
        mailbox = &t->mailbox[number];
        task = first_in(t, HEAD_OF_MAILBOX + number, AT_MAILBOX_WRITING);
        return (struct wake){ task, 0, mailbox->message[mailbox->oldest] }; /* 0 if there is none */
    default:
        break;
    }
    return (struct wake){ task, result, task };
}

/* Whether the answer's value is what wake_of has. */
static int has_value(uint32_t number)
{
    switch (number) {
    case SWI_POST:
    case SWI_ADD_ONE:
    case SWI_TAKE_ONE:
    case SWI_SET_BITS:
    case SWI_CLEAR_BITS:
    case SEMAPHORE_POST:
    case EVENT_POST:
    case MAILBOX_POST:
    case MAILBOX_PEND:
        return 1;
    default:
        return 0;
    }
}

static uint32_t blocked_in(const struct tables *t)
{
    uint32_t set = 0;

    for (uint32_t i = 0; i < TASKS; i++)
        set |= (uint32_t)(t->task[i].mode == BLOCKED) << i;
    return set;
}

const char *wake_off(const struct tables *before, const struct tables *after, const struct call *call,
                     struct answer answer)
{
    static char text[80];
    struct wake wake;
    const struct task *woken;
    uint32_t readied, wrong;

    if (answer.code != ACCEPTED || call->number == TICK)
        return NULL;
    wake = wake_of(before, call);
    woken = &after->task[wake.task];
    readied = blocked_in(before) & ~blocked_in(after);
    wrong = readied ^ (wake.task != 0 ? (uint32_t)1 << wake.task : 0);
    if (wrong != 0)
        snprintf(text, sizeof text, "task %lu waits %s", (unsigned long)__builtin_ctz(wrong),
                 (wrong & readied) == 0 ? "still" : "no more");
    else if (wake.task != 0 && (woken->mode != READY || woken->outcome != DONE || woken->value != wake.result))
        snprintf(text, sizeof text, "task %lu was woken with another last result", (unsigned long)wake.task);
    else if (wake.task != 0 && answer.outcome != DONE)
        snprintf(text, sizeof text, "task %lu was woken by a call that is not done", (unsigned long)wake.task);
    else if (has_value(call->number) && answer.value != wake.value)
        snprintf(text, sizeof text, "value %lu, not %lu", (unsigned long)answer.value, (unsigned long)wake.value);
    else
        return NULL;
    return text;
}
