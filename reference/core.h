/*
 * The call core of the kernel, second implementation: one call or tick changes the tables in place and gives an answer, and so does a list of calls.
 *
 * The words are those of document 01: task, Swi, line, post, pend, limit, taken trigger. Every table is part of `struct tables`; nothing is
 * allocated. core_call takes it that the tables are sound: they begin fresh (core_fresh), and every call leaves them sound. core_list takes any
 * tables and tests them first (core_unsound), so it alone gives code 10.
 */
#ifndef CORE_H
#define CORE_H

#include <stddef.h>
#include <stdint.h>

enum {
    TASKS = 32,
    SWIS = 16,
    SEMAPHORES = 16,
    EVENTS = 8,
    MAILBOXES = 8,
    CLOCKS = 16,
    LEVELS_LEAST = 16,     /* of task priorities: this number of levels */
    LEVELS_MOST = 32,      /* or this one; level 0 is the idle task's alone */
    SWI_LEVELS = 16,       /* of Swi priorities, with either number of task levels */
    MESSAGES = 8,          /* most messages in a mailbox */
    COUNT_MOST = 65535,    /* of a counting semaphore */
    DEPTH_MOST = 8,        /* of open interrupts */
    UNITS = 256,           /* of the heap */
    UNIT_BYTES = 8,
    HEAP_BYTES = UNITS * UNIT_BYTES,
    HEAP_WORDS = UNITS / 64
};

#define WITHOUT_END 4294967295u /* the limit of a wait that no tick ends */
#define MINUS_ONE 4294967295u   /* priority -1, of inactive tasks */

/* Call numbers, one range of sixteen for each kind. */
enum call_number {
    TASK_CREATE = 0x00,
    TASK_DELETE,
    TASK_SET_PRIORITY,
    TASK_YIELD,
    TASK_END,
    TASK_SLEEP,
    TASK_LAST_RESULT,

    SWI_CREATE = 0x10,
    SWI_DELETE,
    SWI_POST,
    SWI_ADD_ONE,
    SWI_TAKE_ONE,
    SWI_SET_BITS,
    SWI_CLEAR_BITS,
    SWI_END,
    SWI_TAKEN_TRIGGER,

    SEMAPHORE_CREATE = 0x20,
    SEMAPHORE_DELETE,
    SEMAPHORE_PEND,
    SEMAPHORE_POST,
    SEMAPHORE_RESET,

    EVENT_CREATE = 0x30,
    EVENT_DELETE,
    EVENT_PEND,
    EVENT_POST,

    MAILBOX_CREATE = 0x40,
    MAILBOX_DELETE,
    MAILBOX_POST,
    MAILBOX_PEND,

    CLOCK_CREATE = 0x50,
    CLOCK_DELETE,
    CLOCK_START,
    CLOCK_STOP,

    HEAP_TAKE = 0x60,
    HEAP_GIVE_BACK,

    INTERRUPT_IN = 0x74,
    INTERRUPT_OUT,
    TICK,
    SWITCHES_OFF,
    SWITCHES_RESTORE
};

/* The switches, as calls 77 and 78 name them; bits, in which, key and value alike. */
enum switches { SWIS_SWITCH = 1, TASKS_SWITCH = 2, BOTH_SWITCHES = SWIS_SWITCH | TASKS_SWITCH };

/* In the order of the checks. With OUTSIDE_TABLE and OBJECT_NOT_IN_USE the value names the table, with any other refusal it is 0. */
enum code {
    ACCEPTED = 0,
    NOT_SOUND = 10,
    UNKNOWN_CALL = 1,
    WRONG_CONTEXT = 2,
    OUTSIDE_TABLE = 3,
    OBJECT_NOT_IN_USE = 11,
    BAD_ARGUMENT = 4,
    STATE_FORBIDS = 5,
    TABLE_FULL = 6,
    AT_ITS_END = 7,
    NO_HEAP_ROOM = 8,
    SWITCH_IS_OFF = 9
};

/* The tables of objects, as a value names them. */
enum table { TASK_TABLE = 1, SWI_TABLE, SEMAPHORE_TABLE, EVENT_TABLE, MAILBOX_TABLE, CLOCK_TABLE };

enum outcome { DONE = 0, NOT_MET = 1, NOW_WAITING = 2 };

enum mode { NOT_IN_USE = 0, READY, BLOCKED, TERMINATED, INACTIVE };

enum wait { NO_WAIT = 0, SLEEPING, AT_SEMAPHORE, AT_EVENT, AT_MAILBOX_READING, AT_MAILBOX_WRITING };

enum kind { COUNTING = 0, BINARY = 1, COUNTING_BY_PRIORITY = 2, BINARY_BY_PRIORITY = 3 };

/*
 * Queues and lines. A queue or line is a ring of places: its head, then those who stand in it, front first. Every task and every Swi has one
 * place of its own, so it stands at most once; joining and leaving take the same few steps wherever it stands. An empty ring is the head
 * alone. The place of a task or Swi that stands nowhere is { 0, 0 }.
 */
struct link {
    uint8_t next, before;
};

enum {
    PLACE_OF_TASK = 0,                                   /* the place of task n is n */
    HEAD_OF_READY = PLACE_OF_TASK + TASKS,               /* one ready queue for each priority; with 16 levels the upper half stays empty */
    HEAD_OF_SEMAPHORE = HEAD_OF_READY + LEVELS_MOST,     /* one line for each semaphore */
    HEAD_OF_MAILBOX = HEAD_OF_SEMAPHORE + SEMAPHORES,    /* one line for each mailbox: all readers or all writers */
    PLACE_OF_SWI = HEAD_OF_MAILBOX + MAILBOXES,
    HEAD_OF_POSTED = PLACE_OF_SWI + SWIS,                /* one queue of posted Swis for each priority */
    PLACES = HEAD_OF_POSTED + SWI_LEVELS
};

struct task {
    uint8_t mode;          /* enum mode */
    uint8_t wait;          /* enum wait, of a blocked task */
    uint8_t object;        /* the semaphore, event or mailbox of the wait */
    uint8_t outcome;       /* last result */
    uint32_t value;        /* last result */
    uint32_t priority;
    uint32_t ticks_left;   /* of a sleep or limited wait, else 0 */
    uint32_t word;         /* held by a waiting writer, else 0 */
};

struct swi {
    uint32_t priority;
    uint32_t initial;      /* trigger */
    uint32_t trigger;
    uint32_t taken;        /* trigger of an active Swi, else 0 */
};

struct semaphore {
    uint32_t kind;         /* enum kind */
    uint32_t count;
};

struct event {
    uint32_t posted;       /* bits */
    uint32_t waiter;       /* its task number; 0 is none, for task 0 never waits */
    uint32_t and_mask;     /* of the waiter, else 0 */
    uint32_t or_mask;
};

struct mailbox {
    uint32_t capacity;
    uint32_t count;                /* messages there */
    uint32_t oldest;               /* where the oldest stands; the others follow it round the array */
    uint32_t message[MESSAGES];    /* 0 where no message is */
};

struct clock {
    uint32_t swi;
    uint32_t first;        /* ticks */
    uint32_t period;
    uint32_t ticks_left;   /* of a running clock, else 0 */
};

/* A word that has one bit for each number, lowest bit for number 0, is called a set here. */
struct tables {
    uint32_t depth;                /* of open interrupts */
    uint32_t active_count;
    uint32_t swis_on, tasks_on;    /* the switches, 1 or 0 */
    uint32_t posted_levels;        /* set of the priorities at which a Swi is posted */
    uint32_t ready_levels;         /* set of the priorities at which a task is ready */
    uint32_t levels;               /* of task priorities, LEVELS_LEAST or LEVELS_MOST; no call changes it */
    uint32_t current;              /* task */
    uint32_t tick_count;

    uint32_t tasks_in_use, swis_in_use, semaphores_in_use, events_in_use, mailboxes_in_use, clocks_in_use; /* sets */
    uint32_t swis_posted;          /* set */
    uint32_t tasks_limited;        /* set of those with ticks left */
    uint32_t clocks_running;       /* set */

    uint8_t active[SWIS];          /* active Swis, the top one last */
    struct link link[PLACES];
    struct task task[TASKS];
    struct swi swi[SWIS];
    struct semaphore semaphore[SEMAPHORES];
    struct event event[EVENTS];
    struct mailbox mailbox[MAILBOXES];
    struct clock clock[CLOCKS];

    /* The heap's map, two bits for each unit: free is 0 0, first of a block is 1 1, later in one is 1 0. */
    uint64_t heap_taken[HEAP_WORDS];
    uint64_t heap_first[HEAP_WORDS];
};

struct answer {
    uint16_t code;         /* enum code */
    uint16_t outcome;      /* enum outcome */
    uint32_t value;
};

struct thread {
    char kind;             /* 'T', 'S' or 'I' */
    uint32_t number;       /* of the task or Swi; 0 for an interrupt */
};

/* The words of a list of calls (No. 4), and of its answers. */
enum {
    CALL_WORDS = 5,        /* number, four arguments */
    ANSWER_WORDS = 3,      /* code, outcome, value */
    LIST_CALLS = 256       /* at most */
};

/* What a list as a whole is answered. */
struct list_answer {
    struct answer answer;
    struct thread thread;
};

/*
 * Fresh tables with that number of levels. Where it is neither of the two, the answer is code 4 and the tables have LEVELS_LEAST. Task 0 runs
 * either way.
 */
struct answer core_fresh(struct tables *t, uint32_t levels);

/* One call: the answer, and the tables are the next tables. */
struct answer core_call(struct tables *t, uint32_t number, uint32_t a, uint32_t b, uint32_t c, uint32_t d);

/* The thread that the dispatch rule names. */
struct thread core_running(const struct tables *t);

/*
 * A list of so many words is handed over, and so much room is lent for its answers; the two are apart. Accepted, which is code 0 and the thread after
 * the last call, it makes the calls one after the other, refused ones too, and writes three words for each; the room past them stays as it was.
 * Refused it does nothing: code 10 and task 0 if the tables are not sound; then code 4 and the thread that runs if the words are not whole calls, are
 * more than LIST_CALLS calls, or have no room for their answers.
 */
struct list_answer core_list(struct tables *t, const uint32_t *calls, size_t words, uint32_t *answers, size_t room);

/* What is not sound in the tables, whatever they hold, or a null pointer. */
const char *core_unsound(const struct tables *t);

#endif
