/*
 * Lists of calls (No. 4) with what they are answered, worked out by hand: both sides of each bound; lists one after the other; and the rows of every
 * kind by lists of several lengths. Checked by kinds --check and written as no log.
 */
#include "kinds.h"
#include "sums.h"

#include <stdio.h>
#include <string.h>

enum {
    ROOM = 776,            /* words of answers, 8 more than 256 calls need */
    AROUND = 8,            /* words before and behind the room, which are not lent */
    LONGEST = 2560         /* words of a list */
};

/* A list of so many words, and so much room for its answers. */
struct bound {
    size_t words, room;
    uint32_t code;         /* of the list, where the tables are sound */
};

static const struct bound bounds[] = {
    { 0, 0, 0 },           /* an empty list needs no room */
    { 0, 1, 0 },
    { 0, ROOM, 0 },
    { 1, ROOM, 4 },        /* no whole call */
    { 2, ROOM, 4 },
    { 3, ROOM, 4 },
    { 4, ROOM, 4 },
    { 1, 0, 4 },
    { 4, 3, 4 },
    { 5, 0, 4 },           /* one call, three words */
    { 5, 1, 4 },
    { 5, 2, 4 },
    { 5, 3, 0 },
    { 5, 4, 0 },
    { 5, 5, 0 },
    { 5, ROOM, 0 },
    { 6, ROOM, 4 },
    { 7, ROOM, 4 },
    { 8, ROOM, 4 },
    { 9, ROOM, 4 },
    { 10, 3, 4 },
    { 10, 5, 4 },
    { 10, 6, 0 },
    { 10, 7, 0 },
    { 20, 12, 0 },
    { 24, ROOM, 4 },
    { 25, 10, 4 },         /* two words for each call */
    { 25, 14, 4 },
    { 25, 15, 0 },
    { 25, 16, 0 },
    { 25, 25, 0 },
    { 26, ROOM, 4 },
    { 28, ROOM, 4 },       /* seven calls of four words */
    { 1275, 764, 4 },      /* 255 calls */
    { 1275, 765, 0 },
    { 1275, ROOM, 0 },
    { 1276, ROOM, 4 },
    { 1279, ROOM, 4 },
    { 1280, 0, 4 },        /* 256 calls */
    { 1280, 512, 4 },
    { 1280, 767, 4 },
    { 1280, 768, 0 },
    { 1280, 769, 0 },
    { 1280, ROOM, 0 },
    { 1281, ROOM, 4 },
    { 1284, ROOM, 4 },
    { 1285, 768, 4 },      /* 257 calls, one too many, */
    { 1285, 770, 4 },
    { 1285, 771, 4 },      /* also with room for them all */
    { 1285, ROOM, 4 },
    { 1290, ROOM, 4 },
    { LONGEST, ROOM, 4 },  /* 512 calls */
    { SIZE_MAX, ROOM, 4 }, /* a multiple of five */
    { SIZE_MAX, SIZE_MAX, 4 },
};

/* Where a list is handed over: the calls before it, the thread that runs then, and the code of a semaphore's creation there. */
struct context {
    uint32_t calls, call[3][2];    /* number, first argument */
    const char *thread;
    uint32_t code;
};

static const struct context contexts[] = {
    { 0, { { 0 } }, "T0", 0 },
    { 2, { { TASK_CREATE, 5 }, { TASK_CREATE, 6 } }, "T2", 0 },
    { 3, { { SWI_CREATE, 3 }, { SWI_CREATE, 3 }, { SWI_POST, 1 } }, "S1", 2 },
    { 1, { { INTERRUPT_IN, 0 } }, "I", 2 },
};

/* A word of the tables that makes them not sound in any of these contexts. */
struct spoilt {
    size_t at;
    uint32_t word;
};

#define AT(field) offsetof(struct tables, field)

static const struct spoilt spoilts[] = {
    { AT(levels), 17 },
    { AT(levels), 0 },
    { AT(levels), F },
    { AT(depth), 9 },
    { AT(depth), F },
    { AT(active_count), 17 },
    { AT(active_count), F },
    { AT(swis_on), 2 },
    { AT(tasks_on), F },
    { AT(current), 31 },                   /* not in use */
    { AT(current), F },
    { AT(posted_levels), 1 },
    { AT(ready_levels), 0 },               /* task 0 is always ready */
    { AT(tasks_in_use), 0 },
    { AT(swis_in_use), 65536 },
    { AT(semaphores_in_use), 65536 },
    { AT(events_in_use), 256 },
    { AT(mailboxes_in_use), 256 },
    { AT(clocks_in_use), 65536 },
    { AT(swis_posted), 32768 },
    { AT(tasks_limited), 0x80000000u },    /* task 31 is not in use */
    { AT(clocks_running), 1 },
    { AT(task[0].priority), 1 },
    { AT(task[0].value), 1 },
    { AT(task[31].priority), 1 },
    { AT(swi[15].initial), 1 },
    { AT(semaphore[15].count), 1 },
    { AT(event[7].posted), 1 },
    { AT(mailbox[7].capacity), 1 },
    { AT(clock[15].first), 1 },
};

/*
 * Lists one after the other: each ends with the row that names its thread, whatever ran between. In the comments, who stands in a queue or line at
 * the end of the row.
 */
static const struct row handed[] = {
    /* The five calls of document 01 */
    { TASK_CREATE, 5, 0, 0, 0, 0, 0, 1, NULL, 0 },
    { SEMAPHORE_CREATE, 0, 0, 0, 0, 0, 0, 0, NULL, 0 },
    { SEMAPHORE_PEND, 0, F, 0, 0, 0, 2, 0, NULL, 0 },
    { SEMAPHORE_POST, 0, 0, 0, 0, 0, 0, 1, NULL, 0 },
    { SEMAPHORE_POST, 7, 0, 0, 0, 11, 0, 3, "T1", 0 },
    /* One call */
    { SEMAPHORE_PEND, 0, F, 0, 0, 0, 2, 0, "T0", 0 },
    /* T0 runs before and after, T1 and an interrupt between */
    { SEMAPHORE_POST, 0, 0, 0, 0, 0, 0, 1, NULL, 0 },
    { INTERRUPT_IN, 0, 0, 0, 0, 0, 0, 0, NULL, 2 },
    { TICK, 0, 0, 0, 0, 0, 0, 0, NULL, 0 },
    { INTERRUPT_OUT, 0, 0, 0, 0, 0, 0, 0, NULL, 2 },
    { SEMAPHORE_PEND, 0, F, 0, 0, 0, 2, 0, "T0", 0 },
    /* Refused calls at the front, in the middle and at the end */
    { TASK_END, 0, 0, 0, 0, 5, 0, 0, NULL, 0 },             /* task 0 */
    { 0x07, 0, 0, 0, 0, 1, 0, 0, NULL, 0 },
    { SEMAPHORE_POST, 0, 0, 0, 0, 0, 0, 1, NULL, 0 },       /* T1 */
    { SEMAPHORE_POST, 0, 1, 0, 0, 4, 0, 0, NULL, 0 },
    { SEMAPHORE_POST, 16, 0, 0, 0, 3, 0, 3, NULL, 0 },
    { SEMAPHORE_POST, 15, 0, 0, 0, 11, 0, 3, NULL, 0 },
    { TICK, 0, 0, 0, 0, 2, 0, 0, NULL, 0 },
    { SEMAPHORE_POST, 0, 0, 0, 0, 0, 0, 0, NULL, 0 },
    { SEMAPHORE_PEND, 0, 0, 0, 0, 0, 0, 0, NULL, 0 },
    { SEMAPHORE_PEND, 0, 0, 0, 0, 0, 1, 0, NULL, 0 },
    { TASK_CREATE, 16, 0, 0, 0, 4, 0, 0, "T1", 0 },
    /* Numbers above 255 are unknown: none is taken for what its last byte says */
    { 256 + TASK_CREATE, 5, 0, 0, 0, 1, 0, 0, NULL, 0 },
    { 256 + SEMAPHORE_POST, 0, 0, 0, 0, 1, 0, 0, NULL, 0 },
    { 65536 + SEMAPHORE_POST, 0, 0, 0, 0, 1, 0, 0, NULL, 0 },
    { 0x80000000u + INTERRUPT_IN, 0, 0, 0, 0, 1, 0, 0, NULL, 0 },
    { F, 0, 0, 0, 0, 1, 0, 0, NULL, 0 },
    { SEMAPHORE_PEND, 0, 0, 0, 0, 0, 1, 0, NULL, 0 },
    { TASK_CREATE, 5, 0, 0, 0, 0, 0, 2, "T1", 0 },          /* 5: 1 2 */
    /* Refused calls alone: the list is accepted */
    { F, F, F, F, F, 1, 0, 0, NULL, 0 },
    { TICK, 0, 0, 0, 0, 2, 0, 0, NULL, 0 },
    { SWI_END, 0, 0, 0, 0, 2, 0, 0, "T1", 0 },
    /* Swis and interrupts, begun in one list and ended in another */
    { SWI_CREATE, 3, 7, 0, 0, 0, 0, 0, NULL, 0 },
    { SWI_CREATE, 4, 9, 0, 0, 0, 0, 1, NULL, 0 },
    { SWI_POST, 0, 0, 0, 0, 0, 0, 0, NULL, 0 },
    { SWI_POST, 1, 0, 0, 0, 0, 0, 0, "S1", 0 },
    { TASK_CREATE, 5, 0, 0, 0, 2, 0, 0, NULL, 0 },
    { SWI_TAKEN_TRIGGER, 0, 0, 0, 0, 0, 0, 9, NULL, 0 },
    { SWI_END, 0, 0, 0, 0, 0, 0, 0, NULL, 0 },
    { SWI_TAKEN_TRIGGER, 0, 0, 0, 0, 0, 0, 7, NULL, 0 },
    { SEMAPHORE_POST, 0, 0, 0, 0, 0, 0, 0, "S0", 0 },
    { INTERRUPT_IN, 0, 0, 0, 0, 0, 0, 0, "I", 0 },
    { SEMAPHORE_PEND, 0, 1, 0, 0, 2, 0, 0, NULL, 0 },
    { SEMAPHORE_PEND, 0, 0, 0, 0, 0, 0, 0, NULL, 0 },
    { SEMAPHORE_PEND, 0, 0, 0, 0, 0, 1, 0, NULL, 0 },
    { INTERRUPT_IN, 0, 0, 0, 0, 0, 0, 0, NULL, 7 },         /* depth 8 */
    { INTERRUPT_IN, 0, 0, 0, 0, 7, 0, 0, NULL, 0 },
    { INTERRUPT_OUT, 0, 0, 0, 0, 0, 0, 0, NULL, 7 },
    { SWI_POST, 1, 0, 0, 0, 0, 0, 0, "I", 0 },
    { INTERRUPT_OUT, 0, 0, 0, 0, 0, 0, 0, NULL, 0 },        /* S1 above S0 */
    { SWI_END, 0, 0, 0, 0, 0, 0, 0, NULL, 0 },
    { SWI_END, 0, 0, 0, 0, 0, 0, 0, "T1", 0 },
    /* A value of 4,294,967,295; a reader is woken by its number (No. 8) */
    { TASK_CREATE, F, 0, 0, 0, 0, 0, 3, NULL, 0 },
    { TASK_SET_PRIORITY, 3, 4, 0, 0, 0, 0, F, NULL, 0 },
    { TASK_SET_PRIORITY, 3, F, 0, 0, 0, 0, 4, NULL, 0 },
    { MAILBOX_CREATE, 1, 0, 0, 0, 0, 0, 0, NULL, 0 },
    { MAILBOX_POST, 0, F, 0, 0, 0, 0, 0, NULL, 0 },
    { MAILBOX_PEND, 0, 0, 0, 0, 0, 0, F, NULL, 0 },
    { MAILBOX_PEND, 0, F, 0, 0, 0, 2, 0, NULL, 0 },         /* 5: 2 */
    { MAILBOX_POST, 0, 77, F, 0, 0, 0, 1, NULL, 0 },        /* 5: 2 1 */
    { TASK_LAST_RESULT, 1, 0, 0, 0, 0, 0, 77, "T2", 0 },
    /* A wait that expires and a sleep that ends */
    { TASK_SLEEP, 2, 0, 0, 0, 0, 2, 0, NULL, 0 },           /* 5: 1 */
    { SEMAPHORE_PEND, 0, 1, 0, 0, 0, 2, 0, NULL, 0 },       /* T0 */
    { INTERRUPT_IN, 0, 0, 0, 0, 0, 0, 0, NULL, 0 },
    { TICK, 0, 0, 0, 0, 0, 0, 0, NULL, 2 },                 /* 5: 1 2 */
    { INTERRUPT_OUT, 0, 0, 0, 0, 0, 0, 0, NULL, 0 },
    { TASK_LAST_RESULT, 1, 0, 0, 0, 0, 1, 0, NULL, 0 },
    { TASK_LAST_RESULT, 2, 0, 0, 0, 0, 0, 0, "T1", 0 },
    /* 256 calls, and 256 more */
    { SEMAPHORE_CREATE, 0, 0, 0, 0, 0, 0, 1, NULL, RISING + 15 },
    { SEMAPHORE_CREATE, 0, 0, 0, 0, 6, 0, 0, NULL, 0 },
    { SEMAPHORE_POST, 15, 0, 0, 0, 0, 0, 0, NULL, 120 },
    { SEMAPHORE_PEND, 15, 0, 0, 0, 0, 0, 0, NULL, 119 },
    { TASK_YIELD, 0, 0, 0, 0, 0, 0, 0, "T2", 0 },           /* 5: 2 1; one unit is left */
    { SEMAPHORE_PEND, 15, 0, 0, 0, 0, 0, 0, NULL, 0 },
    { SEMAPHORE_PEND, 15, 0, 0, 0, 0, 1, 0, NULL, 254 },
    { TASK_YIELD, 0, 0, 0, 0, 0, 0, 0, "T1", 0 },           /* 5: 1 2 */
    /* What one list holds back another one lets go */
    { SWITCHES_OFF, 3, 0, 0, 0, 0, 0, 3, NULL, 0 },
    { TASK_CREATE, 15, 0, 0, 0, 0, 0, 4, NULL, 0 },
    { SWI_POST, 0, 0, 0, 0, 0, 0, 0, NULL, 0 },
    { TASK_YIELD, 0, 0, 0, 0, 9, 0, 0, "T1", 0 },
    { SWITCHES_RESTORE, 3, 3, 0, 0, 0, 0, 0, "S0", 0 },
    { SWI_END, 0, 0, 0, 0, 0, 0, 0, "T4", 0 },
    { HEAP_TAKE, 2048, 0, 0, 0, 0, 0, 0, NULL, 0 },
    { HEAP_TAKE, 1, 0, 0, 0, 8, 0, 0, NULL, 0 },
    { HEAP_GIVE_BACK, 0, 2048, 0, 0, 0, 0, 0, NULL, 0 },
    { HEAP_TAKE, 9, 0, 0, 0, 0, 0, 0, NULL, 0 },
    { HEAP_TAKE, 8, 0, 0, 0, 0, 0, 16, NULL, 0 },
    { TASK_END, 0, 0, 0, 0, 0, 0, 0, "T1", 0 },
    /* An event's waiter, and a clock */
    { EVENT_CREATE, 0, 0, 0, 0, 0, 0, 0, NULL, 0 },
    { EVENT_PEND, 0, 3, 0, F, 0, 2, 0, NULL, 0 },           /* 5: 2 */
    { EVENT_POST, 0, 1, 0, 0, 0, 0, 0, NULL, 0 },
    { EVENT_POST, 0, 2, 0, 0, 0, 0, 1, NULL, 0 },           /* 5: 2 1 */
    { TASK_LAST_RESULT, 1, 0, 0, 0, 0, 0, 3, "T2", 0 },
    { CLOCK_CREATE, 0, 1, 0, 0, 0, 0, 0, NULL, 0 },
    { CLOCK_START, 0, 0, 0, 0, 0, 0, 0, NULL, 0 },
    { INTERRUPT_IN, 0, 0, 0, 0, 0, 0, 0, NULL, 0 },
    { TICK, 0, 0, 0, 0, 0, 0, 0, NULL, 0 },
    { INTERRUPT_OUT, 0, 0, 0, 0, 0, 0, 0, "S0", 0 },
};

/* The same with 32 levels. */
static const struct row handed_high[] = {
    { TASK_CREATE, 15, 0, 0, 0, 0, 0, 1, NULL, 0 },
    { TASK_CREATE, 16, 0, 0, 0, 0, 0, 2, NULL, 0 },
    { TASK_CREATE, 31, 0, 0, 0, 0, 0, 3, NULL, 0 },
    { TASK_CREATE, 32, 0, 0, 0, 4, 0, 0, NULL, 0 },
    { TASK_CREATE, 0, 0, 0, 0, 4, 0, 0, "T3", 0 },
    { SEMAPHORE_CREATE, 2, 0, 0, 0, 0, 0, 0, NULL, 0 },
    { TASK_SET_PRIORITY, 3, 30, 0, 0, 0, 0, 31, NULL, 0 },
    { SEMAPHORE_PEND, 0, F, 0, 0, 0, 2, 0, NULL, 0 },       /* its line: 3 */
    { SEMAPHORE_PEND, 0, F, 0, 0, 0, 2, 0, NULL, 0 },       /* 3 2 */
    { TASK_SET_PRIORITY, 1, 31, 0, 0, 0, 0, 15, NULL, 0 },
    { SEMAPHORE_PEND, 0, F, 0, 0, 0, 2, 0, "T0", 0 },       /* 1 3 2 */
    { SEMAPHORE_POST, 0, 0, 0, 0, 0, 0, 1, NULL, 0 },       /* T1 */
    { SEMAPHORE_POST, 0, 0, 0, 0, 0, 0, 3, NULL, 0 },
    { SEMAPHORE_POST, 0, 0, 0, 0, 0, 0, 2, NULL, 0 },
    { SEMAPHORE_POST, 0, 0, 0, 0, 0, 0, 0, NULL, 0 },
    { TASK_END, 0, 0, 0, 0, 0, 0, 0, NULL, 0 },             /* T3, at 30 */
    { TASK_END, 0, 0, 0, 0, 0, 0, 0, "T2", 0 },             /* at 16 */
    { SWI_CREATE, 16, 0, 0, 0, 4, 0, 0, NULL, 0 },
    { SWI_CREATE, 15, 0, 0, 0, 0, 0, 0, NULL, 0 },
    { TASK_CREATE, 31, 0, 0, 0, 0, 0, 4, NULL, RISING + 28 }, /* 31: 4 to 31 */
    { TASK_CREATE, 31, 0, 0, 0, 6, 0, 0, "T4", 0 },
    { TASK_YIELD, 0, 0, 0, 0, 0, 0, 0, "T5", 29 },          /* once round, and one more */
};

static const struct named_table handed_table = TABLE(handed, 0x100), handed_high_table = TABLE_WITH(LEVELS_MOST, handed_high, 0x100);

static unsigned faults;
static unsigned long lists, calls_listed;

/* What is checked now. */
static struct {
    const char *name;
    size_t list;
} place;

static void expect(int is_so, const char *what)
{
    if (!is_so) {
        fprintf(stderr, "kinds: lists, %s, list %zu: %s\n", place.name, place.list + 1, what);
        faults++;
    }
}

/* A list, and what it has to be answered. */
struct list {
    uint32_t calls[LONGEST];
    size_t words, room;
    uint32_t code;                             /* of the list */
    const char *thread;
    uint32_t answers[ROOM];
    size_t answered;                           /* words */
};

/* What stands in a word of the answers, and around them, before a list is handed over. */
static uint32_t filling(size_t word)
{
    return 0xA5A50000u + (uint32_t)word;
}

static int is_thread(struct thread thread, const char *text)
{
    char found[16] = "I";

    if (thread.kind != 'I')
        snprintf(found, sizeof found, "%c%lu", thread.kind, (unsigned long)thread.number);
    return strcmp(found, text) == 0;
}

/* The words behind the last answer, and those that were not lent, are as they were. */
static int are_others_kept(const uint32_t around[AROUND + ROOM + AROUND], size_t answered)
{
    for (size_t i = 0; i < AROUND + ROOM + AROUND; i++)
        if ((i < AROUND || i >= AROUND + answered) && around[i] != filling(i))
            return 0;
    return 1;
}

/* Hands a list over. */
static void check_list(struct tables *t, const struct list *list)
{
    static struct tables before;
    uint32_t around[AROUND + ROOM + AROUND];
    struct list_answer found;

    before = *t;
    for (size_t i = 0; i < AROUND + ROOM + AROUND; i++)
        around[i] = filling(i);
    found = core_list(t, list->calls, list->words, around + AROUND, list->room);
    expect(found.answer.code == list->code, "another code");
    expect(found.answer.outcome == 0 && found.answer.value == 0, "an outcome or value that is not 0");
    expect(is_thread(found.thread, list->thread), "another thread");
    expect(memcmp(around + AROUND, list->answers, list->answered * sizeof list->answers[0]) == 0, "another answer of a call");
    expect(are_others_kept(around, list->answered), "a word is written that is no answer's");
    if (list->code != ACCEPTED)
        expect(memcmp(&before, t, sizeof before) == 0, "other tables after a refusal");
    lists++;
    calls_listed += list->code == ACCEPTED ? list->words / CALL_WORDS : 0;
}

static void add_answer(struct list *list, uint32_t code, uint32_t outcome, uint32_t value)
{
    list->answers[list->answered++] = code;
    list->answers[list->answered++] = outcome;
    list->answers[list->answered++] = value;
}

/* The list of a bound in a context: creations of semaphores, of which sixteen are accepted if a task makes them. */
static void set_list(struct list *list, const struct bound *bound, const struct context *context)
{
    for (uint32_t i = 0; i < LONGEST / CALL_WORDS; i++) {
        const uint32_t call[CALL_WORDS] = { SEMAPHORE_CREATE, COUNTING, i, 0, 0 };

        memcpy(list->calls + i * CALL_WORDS, call, sizeof call);
    }
    list->words = bound->words;
    list->room = bound->room;
    list->code = bound->code;
    list->thread = context->thread;
    list->answered = 0;
    for (uint32_t i = 0; bound->code == ACCEPTED && i < bound->words / CALL_WORDS; i++)
        if (context->code != 0 || i >= SEMAPHORES)
            add_answer(list, context->code != 0 ? context->code : 6, 0, 0);
        else
            add_answer(list, 0, 0, i);
}

static void enter(struct tables *t, const struct context *context)
{
    core_fresh(t, LEVELS_LEAST);
    for (uint32_t i = 0; i < context->calls; i++)
        expect(core_call(t, context->call[i][0], context->call[i][1], 0, 0, 0).code == ACCEPTED, "a call before the list");
}

/* Each bound in each context, on sound tables and on spoilt ones. Nothing is told after the first list with a fault. */
static void check_bounds(void)
{
    static struct tables t;
    static struct list list;
    size_t spoilt_ways = sizeof spoilts / sizeof spoilts[0], n = sizeof bounds / sizeof bounds[0];

    for (size_t where = 0; where < sizeof contexts / sizeof contexts[0]; where++)
        for (place.list = 0; place.list < n && faults == 0; place.list++) {
            place.name = contexts[where].thread;
            set_list(&list, &bounds[place.list], &contexts[where]);
            enter(&t, &contexts[where]);
            check_list(&t, &list);
            list.code = NOT_SOUND;
            list.thread = "T0";
            list.answered = 0;
            for (size_t way = 0; way < spoilt_ways && faults == 0; way++) {
                enter(&t, &contexts[where]);
                memcpy((char *)&t + spoilts[way].at, &spoilts[way].word, sizeof spoilts[way].word);
                expect(core_unsound(&t) != NULL, "spoilt tables that are sound");
                check_list(&t, &list);
            }
        }
}

/* A table of rows, and how far it is handed over. */
struct cursor {
    const struct named_table *table;
    size_t row;
    unsigned time;         /* of the row */
};

/* The list gets one call more, with its answer by hand. */
static void add_call(struct list *list, struct cursor *cursor)
{
    const struct row *row = &cursor->table->row[cursor->row];
    const uint32_t call[CALL_WORDS] = { row->call, row->a, row->b, row->c, row->d };
    unsigned times = row->times == 0 ? 1 : row->times % RISING;

    memcpy(list->calls + list->words, call, sizeof call);
    list->words += CALL_WORDS;
    add_answer(list, row->code, row->outcome, row->times > RISING ? row->value + cursor->time : row->value);
    list->thread = row->thread;
    if (++cursor->time == times) {
        cursor->time = 0;
        cursor->row++;
    }
}

/* The next list of so many calls, or of what is left; with 0 up to the row that names a thread. */
static void next_list(struct list *list, struct cursor *cursor, size_t length)
{
    list->words = list->answered = 0;
    list->code = ACCEPTED;
    do
        add_call(list, cursor);
    while (cursor->row < cursor->table->rows
           && (length == 0 ? cursor->time != 0 || list->thread == NULL : list->words < length * CALL_WORDS));
}

/* The calls of the list one by one on other tables: these are the same then, and the sums hold that go by the list's answers. */
static void check_single(const struct tables *t, struct tables *single, struct sums *sums, const struct list *list)
{
    for (size_t i = 0; i < list->words / CALL_WORDS; i++) {
        const uint32_t *word = list->calls + i * CALL_WORDS, *answer = list->answers + i * ANSWER_WORDS;
        const struct call call = { word[0], { word[1], word[2], word[3], word[4] } };

        core_call(single, word[0], word[1], word[2], word[3], word[4]);
        sums_note(sums, &call, (struct answer){ (uint16_t)answer[0], (uint16_t)answer[1], answer[2] });
    }
    expect(memcmp(t, single, sizeof *single) == 0, "other tables than after the single calls");
    expect(sums_off(sums, t) == NULL, "a sum is off");
    expect(core_unsound(t) == NULL, "tables that are not sound");
}

/* The rows of a table by lists of that length. Nothing is told after the first list with a fault. */
static void check_rows(const struct named_table *table, size_t length)
{
    static struct tables t, single;
    static struct list list;
    struct sums sums;
    struct cursor cursor = { table, 0, 0 };

    core_fresh(&t, table->levels);
    core_fresh(&single, table->levels);
    sums_fresh(&sums);
    place.name = table->name;
    for (place.list = 0; cursor.row < table->rows && faults == 0; place.list++) {
        next_list(&list, &cursor, length);
        list.room = list.answered + (place.list % 3 == 0 ? 0 : place.list % AROUND);
        check_list(&t, &list);
        check_single(&t, &single, &sums, &list);
    }
}

unsigned listed_check(const struct named_table *const tables[], size_t names, unsigned long *lists_made, unsigned long *calls_made)
{
    static const size_t lengths[] = { 1, 2, 3, 7, 16, 100, 255, 256 };

    check_bounds();
    check_rows(&handed_table, 0);
    check_rows(&handed_high_table, 0);
    for (size_t i = 0; i < names; i++)
        for (size_t k = 0; k < sizeof lengths / sizeof lengths[0]; k++)
            check_rows(tables[i], lengths[k]);
    *lists_made += lists;
    *calls_made += calls_listed;
    return faults;
}
