/* The deep states, and the counts of a run. */
#ifndef STATES_H
#define STATES_H

#include "calls.h"
#include "core.h"

/* Greatest numbers at any one time. */
enum most {
    ARRIVAL_LINE,
    PRIORITY_LINE,
    WRITER_LINE,
    READER_LINE,
    EVENT_WAITERS,
    SLEEPERS,
    LIMITED_WAITS,
    READY_IN_ONE_QUEUE,
    DEPTH,
    ACTIVE_SWIS,
    POSTED_SWIS,
    POSTED_IN_ONE_QUEUE,
    RUNNING_CLOCKS,
    MOST_TASKS,
    MOST_SWIS,
    MOST_SEMAPHORES,
    MOST_EVENTS,
    MOST_MAILBOXES,
    MOST_CLOCKS,
    MOST_MESSAGES,
    UNITS_TAKEN,
    FREE_RUNS,
    WAITS_ENDED_BY_ONE_TICK,
    SWIS_POSTED_BY_ONE_TICK,
    MOSTS
};

struct greatest {
    const char *name;
    uint32_t limit; /* the greatest that there can be */
};

extern const struct greatest mosts[MOSTS];

/* Things that happened. */
enum happened {
    EXPIRED_SEMAPHORE,
    EXPIRED_EVENT,
    EXPIRED_READER,
    EXPIRED_WRITER,
    SLEEP_ENDED,
    EXPIRED_INSIDE_LINE,
    JOINED_INSIDE_LINE,
    JOINED_DISORDERED_LINE,
    WAITER_PRIORITY_SET,
    READY_PRIORITY_SET,
    CURRENT_PRIORITY_SET_BY_SWI,
    CURRENT_LOWERED_ITSELF_AWAY,
    MADE_INACTIVE,
    MADE_READY_AGAIN,
    SAME_PRIORITY,
    PREEMPTED,
    YIELDED_TO_EQUAL,
    IDLE_YIELD,
    SEMAPHORE_SERVED,
    LATER_WAITER_SERVED,
    BINARY_AT_ONE,
    COUNT_TO_MOST,
    EVENT_SERVED_WHOLE_AND,
    EVENT_SERVED_OR_ONLY,
    EVENT_SERVED_BOTH,
    EVENT_NOT_SERVED,
    EVENT_AT_ONCE,
    EVENT_BITS_LEFT,
    WRITER_SERVED,
    READER_SERVED,
    ROUND_UP,
    ROUND_DOWN,
    CLEARED_AT_ZERO,
    TAKEN_TO_ZERO,
    POSTED_WHILE_ACTIVE,
    POSTED_AGAIN,
    SWI_PREEMPTED,
    EQUAL_SWI_WAITED,
    SWI_AFTER_SWI,
    SWI_AFTER_INTERRUPT,
    SWI_AFTER_RESTORE,
    SWI_WHILE_TASKS_OFF,
    TASK_AFTER_RESTORE,
    TASK_AFTER_SWIS_RESTORE,
    TASK_AFTER_BOTH_RESTORE,
    SWI_AFTER_BOTH_RESTORE,
    SWI_BEFORE_TASK,
    ANSWERED_NONE_ON,
    ANSWERED_SWIS_ON,
    ANSWERED_TASKS_ON,
    ANSWERED_BOTH_ON,
    SWIS_OFF_ALREADY,
    TASKS_OFF_ALREADY,
    OTHER_SWITCH_LEFT_ON,
    KEY_NONE,
    KEY_SWIS_OF_BOTH,
    KEY_TASKS_OF_BOTH,
    KEY_ON_ALREADY,
    KEY_LEFT_ONE_ON,
    KEY_TASKS_NOT_NAMED,
    KEY_SWIS_NOT_NAMED,
    KEY_NO_SWITCH,
    CURRENT_NOT_IN_FRONT,
    BOTH_OFF,
    FIVE_BEFORE_NINE,
    CLOCK_STOPPED_ITSELF,
    CLOCK_WENT_ROUND,
    CLOCK_RESTARTED,
    RUNNING_CLOCK_DELETED,
    ROOM_BUT_NO_RUN,
    HOLE_CLOSED,
    HOLE_USED,
    RESULT_NOT_MET,
    RESULT_VALUE,
    TAKEN_NOT_INITIAL,
    ONE_PAST_TABLE,
    FAR_OUTSIDE_TABLE,
    LAST_NUMBER_FREE,
    NEVER_MADE,
    DELETED,
    CONTEXT_BEFORE_OBJECT,
    OBJECT_BEFORE_ARGUMENT,
    HAPPENED
};

extern const char *const happened[HAPPENED]; /* in words */

/* Things that happened at a counting semaphore, for the sums of sums.h. */
enum counted {
    TAKEN_AT_ONCE,
    TAKEN_BY_WAITER,
    COUNTED_UP,
    PEND_NOT_MET,
    WAIT_BEGUN,
    WAIT_EXPIRED,
    PEND_REFUSED,
    POST_REFUSED_AT_MOST,
    POST_REFUSED_ELSE,
    RESET_REFUSED,
    RESET_AFTER_POSTS,
    DELETED_AFTER_POSTS,
    CREATED_ANEW,
    COUNTED
};

extern const char *const counted[COUNTED]; /* in words */

enum order { BY_ARRIVAL, BY_PRIORITY, ORDERS }; /* kinds 0 and 2 */

/* Whom a post woke, for wakes.h. */
enum woke {
    WOKE_OTHER,
    WOKE_LAST_NUMBER,
    WOKE_BY_TASK,
    WOKE_BY_SWI,
    WOKE_BY_INTERRUPT,
    WOKE_FOR_LATER,
    WOKE_AFTER_EXPIRY,
    WOKE_NOBODY,
    NOBODY_AFTER_EXPIRY,
    WOKES
};

extern const char *const woke[WOKES]; /* in words */

/* What calls 77 and 78 met. */
enum switched {
    SWITCHED_BY_TASK,
    SWITCHED_BY_SWI,
    SWITCHED_SWIS,
    SWITCHED_TASKS,
    SWITCHED_BOTH,
    INTERRUPT_NAMED_ONE,
    INTERRUPT_NAMED_BADLY,
    SWI_NAMED_TASKS,
    SWI_NAMED_BOTH,
    SWI_NAMED_NONE,
    SWI_NAMED_MORE,
    SWI_NAMED_BADLY,
    SWI_BAD_ARGUMENT,
    TASK_NAMED_NONE,
    TASK_NAMED_MORE,
    TASK_UNUSED_ARGUMENT,
    SWITCHED
};

extern const char *const switched[SWITCHED]; /* in words */

enum switch_call { CALL_OFF, CALL_RESTORE, SWITCH_CALLS }; /* 77 and 78 */

/* What came of the number of levels, a column for each number. */
enum levelled {
    MADE_LOW,
    MADE_HIGH,
    MADE_LAST,
    SET_LOW,
    SET_HIGH,
    SET_LAST,
    MADE_HIGH_REFUSED,
    SET_HIGH_REFUSED,
    MADE_PAST_LAST_REFUSED,
    SET_PAST_LAST_REFUSED,
    MADE_FAR_REFUSED,
    SET_FAR_REFUSED,
    SWI_MADE_LAST,
    SWI_HIGH_REFUSED,
    SWI_FAR_REFUSED,
    RAN_LOW,
    RAN_HIGH,
    RAN_LAST,
    RAN_LOW_AFTER_HIGH,
    RAN_HIGH_AFTER_LOW,
    YIELDED_HIGH,
    READIED_HIGH,
    JOINED_HIGH_BEFORE_LOW,
    JOINED_HIGH_BEFORE_HIGH,
    LEVELLED
};

enum level_number { WITH_LEAST, WITH_MOST, LEVEL_NUMBERS }; /* of the levels: 16 and 32 */

struct levelled_state {
    const char *name;
    int can_be[LEVEL_NUMBERS]; /* with that number of levels */
};

extern const struct levelled_state levelled[LEVELLED];

/* What the reader finds in logs of both versions, whole and damaged. */
enum found {
    FIRST_READ_TO_END,
    SECOND_READ_TO_END,
    CUT_AT_ONE_BYTE,
    CUT_SHORT,
    CUT_SHORT_OTHER_VERSION,
    LENGTH_WRONG,
    LENGTH_WRONG_OTHER_VERSION,
    SECOND_IN_FIRST,
    FIRST_IN_SECOND,
    NEITHER_IN_FIRST,
    NEITHER_IN_SECOND,
    NEITHER_AT_FIRST_RECORD,
    FOUND
};

extern const char *const found[FOUND]; /* in words */

/* What became of lists (No. 4). */
enum listed {
    LIST_EMPTY,
    LIST_OF_ONE,
    LIST_OF_SOME,
    LIST_OF_MOST,
    ROOM_EXACT,
    ROOM_LONGER,
    REFUSED_BETWEEN,
    REFUSED_ALONE,
    HIGH_NUMBER,
    LEFT_TASK,
    LEFT_SWI,
    LEFT_INTERRUPT,
    LEFT_OTHER_THREAD,
    EMPTY_NOT_IN_TASK,
    WORDS_LEFT_OVER,
    WORD_TOO_MANY,
    CALL_TOO_MANY,
    CALLS_TOO_MANY,
    ROOM_ONE_SHORT,
    ROOM_SHORT,
    REFUSED_IN_TASK,
    REFUSED_IN_SWI,
    REFUSED_IN_INTERRUPT,
    UNSOUND_EMPTY,
    UNSOUND_GOOD,
    UNSOUND_BAD,
    LISTED
};

extern const char *const listed[LISTED]; /* in words */

enum context { FROM_TASK, FROM_SWI, FROM_INTERRUPT, CONTEXTS };

enum place { SEMAPHORE_PLACE, EVENT_PLACE, MAILBOX_PLACE, POST_PLACES }; /* of a post */

struct tally {
    unsigned long times;
    unsigned long logs;                /* with one of these times */
    unsigned long log;                 /* the last of them, counted from 1 */
};

/* One time more, if it is so. */
void add_to(struct tally *tally, int is_so);

struct counts {
    unsigned long logs;
    unsigned long logs_with[LEVEL_NUMBERS];
    unsigned long calls;
    unsigned long pair[256][CODES];    /* of call and code */
    unsigned long outcome[256][3];     /* of accepted calls */
    uint32_t most[MOSTS];
    struct tally count[HAPPENED];
    struct tally woke[WOKES][POST_PLACES];
    struct tally switched[SWITCHED][SWITCH_CALLS];
    struct tally gone[LAST_GONE - FIRST_GONE + 1][CONTEXTS]; /* numbers that No. 10 took away, refused with 1 */
    struct tally levelled[LEVELLED][LEVEL_NUMBERS];
    uint32_t most_queues[LEVEL_NUMBERS]; /* ready queues that are not empty, at a time */
    unsigned long found[FOUND];
    unsigned long counted[COUNTED][ORDERS];
    uint64_t most_posts[ORDERS];       /* since a count was set */
    uint64_t most_taken[ORDERS];
    unsigned long lists;               /* handed over */
    unsigned long lists_refused;
    unsigned long calls_listed;        /* in the others */
    unsigned long list_length[LIST_CALLS + 1]; /* of the others, in calls */
    struct tally listed[LISTED];
};

/* Of all calls noted so far; coverage.c adds to them and report.c prints them. */
extern struct counts coverage;

#endif
