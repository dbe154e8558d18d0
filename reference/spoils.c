/*
 * Tables that are not sound, and tables close to them that are: the paragraph on sound tables, sentence by sentence, as this implementation keeps
 * them. A list (No. 4) is answered code 10 on the ones and accepted on the others. Checked by kinds --check.
 */
#include "kinds.h"

#include <stdio.h>
#include <string.h>

/*
 * The tables that are changed. Tasks: 1 sleeps; 2 and 3 wait at semaphore 0; 4 waits at event 0 for both of the bits 6 or for bit 8, and bit 2 is
 * posted; 5 reads at mailbox 0, 6 writes at mailbox 1; 7 is terminated, 8 inactive; ready are 5: 9 10, 3: 11, 0: 0. Semaphore 1 has 3 units, 2 is
 * binary with 1. Event 1 has the bits 5. Mailbox 2 has one message of three. Clock 0 runs. The heap has a block of two units and one of one. The last
 * number of each table is free. Swis 0 and 1 are active and 2 is posted, or none of them yet.
 */
static const uint32_t before[][CALL_WORDS] = {
    { SEMAPHORE_CREATE, COUNTING, 0, 0, 0 }, { SEMAPHORE_CREATE, COUNTING, 3, 0, 0 }, { SEMAPHORE_CREATE, BINARY, 1, 0, 0 },
    { EVENT_CREATE, 0, 0, 0, 0 },            { EVENT_CREATE, 0, 0, 0, 0 },            { EVENT_POST, 0, 2, 0, 0 },
    { EVENT_POST, 1, 5, 0, 0 },              { MAILBOX_CREATE, 1, 0, 0, 0 },          { MAILBOX_CREATE, 2, 0, 0, 0 },
    { MAILBOX_CREATE, 3, 0, 0, 0 },          { MAILBOX_POST, 1, 70, 0, 0 },           { MAILBOX_POST, 1, 71, 0, 0 },
    { MAILBOX_POST, 2, 72, 0, 0 },           { SWI_CREATE, 2, 100, 0, 0 },            { SWI_CREATE, 5, 101, 0, 0 },
    { SWI_CREATE, 3, 102, 0, 0 },            { SWI_CREATE, 9, 103, 0, 0 },            { CLOCK_CREATE, 0, 4, 0, 0 },
    { CLOCK_CREATE, 3, 7, 7, 0 },            { CLOCK_START, 0, 0, 0, 0 },             { HEAP_TAKE, 16, 0, 0, 0 },
    { HEAP_TAKE, 8, 0, 0, 0 },               { TASK_CREATE, 5, 0, 0, 0 },             { TASK_SLEEP, 50, 0, 0, 0 },
    { TASK_CREATE, 5, 0, 0, 0 },             { SEMAPHORE_PEND, 0, F, 0, 0 },          { TASK_CREATE, 6, 0, 0, 0 },
    { SEMAPHORE_PEND, 0, 60, 0, 0 },         { TASK_CREATE, 5, 0, 0, 0 },             { EVENT_PEND, 0, 6, 8, F },
    { TASK_CREATE, 5, 0, 0, 0 },             { MAILBOX_PEND, 0, F, 0, 0 },            { TASK_CREATE, 5, 0, 0, 0 },
    { MAILBOX_POST, 1, 77, F, 0 },           { TASK_CREATE, 5, 0, 0, 0 },             { TASK_END, 0, 0, 0, 0 },
    { TASK_CREATE, F, 0, 0, 0 },             { TASK_CREATE, 5, 0, 0, 0 },             { TASK_CREATE, 5, 0, 0, 0 },
    { TASK_CREATE, 3, 0, 0, 0 },             { SWI_POST, 0, 0, 0, 0 },                { SWI_POST, 1, 0, 0, 0 },
    { SWI_POST, 2, 0, 0, 0 },
};

/* Which of those tables: task 9 runs, before the last three calls, or Swi 1, after them. */
enum base { TASK_RUNS, SWI_RUNS, BASES };

enum { SWI_POSTS = 3, CHANGES = 13 };

/* A number in the tables that is made another. */
struct change {
    size_t at, size;
    uint32_t number;
};

struct spoil {
    enum base base;
    int is_sound;
    struct change change[CHANGES]; /* up to one of size 0 */
};

#define SET(field, number) { offsetof(struct tables, field), sizeof ((struct tables *)0)->field, number }
#define LINK(place, next_place, place_before) SET(link[place].next, next_place), SET(link[place].before, place_before)
#define NOBODY(head) LINK(head, head, head)
#define ALONE(head, place) LINK(head, place, place), LINK(place, head, head)

/* Places */
#define READY_AT(priority) (HEAD_OF_READY + (priority))
#define LINE_AT(semaphore) (HEAD_OF_SEMAPHORE + (semaphore))
#define WAITING_AT(mailbox) (HEAD_OF_MAILBOX + (mailbox))
#define POSTED_AT(priority) (HEAD_OF_POSTED + (priority))
#define SWI(number) (PLACE_OF_SWI + (number))

static const struct spoil spoils[] = {
    { TASK_RUNS, 1, { SET(depth, 0) } }, /* as they are */
    { SWI_RUNS, 1, { SET(depth, 0) } },
    /* All numbers are in this page's ranges */
    { TASK_RUNS, 1, { SET(depth, 8) } },
    { TASK_RUNS, 0, { SET(depth, 9) } },
    { TASK_RUNS, 1, { SET(swis_on, 0) } },
    { TASK_RUNS, 0, { SET(swis_on, 2) } },
    { TASK_RUNS, 1, { SET(tasks_on, 0) } },
    { TASK_RUNS, 0, { SET(tasks_on, 2) } },
    { TASK_RUNS, 1, { SET(levels, 32) } },
    { TASK_RUNS, 0, { SET(levels, 17) } },
    { TASK_RUNS, 1, { SET(tick_count, F) } },
    { TASK_RUNS, 1, { SET(task[2].priority, 15) } },
    { TASK_RUNS, 0, { SET(task[2].priority, 16) } },
    { TASK_RUNS, 1, { SET(levels, 32), SET(task[2].priority, 31) } },
    { TASK_RUNS, 0, { SET(levels, 32), SET(task[2].priority, 32) } },
    { TASK_RUNS, 0, { SET(task[2].priority, 0) } },
    { TASK_RUNS, 0, { SET(task[2].priority, F) } },
    { TASK_RUNS, 1, { SET(task[7].priority, 15) } },
    { TASK_RUNS, 0, { SET(task[7].priority, 16) } },
    { TASK_RUNS, 0, { SET(task[7].priority, 0) } },
    { TASK_RUNS, 0, { SET(task[7].priority, F) } },
    { TASK_RUNS, 0, { SET(task[8].priority, 5) } }, /* inactive exactly at -1 */
    { TASK_RUNS, 0, { SET(task[7].mode, 0) } },
    { TASK_RUNS, 0, { SET(task[7].mode, 5) } },
    { TASK_RUNS, 1, { SET(task[9].value, F) } },
    { TASK_RUNS, 1, { SET(task[9].outcome, 1) } },
    { TASK_RUNS, 0, { SET(task[9].outcome, 1), SET(task[9].value, 1) } },
    { TASK_RUNS, 0, { SET(task[9].outcome, 2) } },
    { TASK_RUNS, 0, { SET(task[0].outcome, 1) } },
    { TASK_RUNS, 0, { SET(task[0].value, 1) } },
    { TASK_RUNS, 0, { NOBODY(READY_AT(0)), LINK(0, 0, 0), SET(ready_levels, 40), SET(task[0].mode, 0), SET(tasks_in_use, 0xFFE) } }, /* no task 0 */
    { TASK_RUNS, 1, { SET(swi[3].priority, 15) } },
    { TASK_RUNS, 0, { SET(swi[3].priority, 16) } },
    { TASK_RUNS, 1, { SET(semaphore[1].kind, 2) } },
    { TASK_RUNS, 0, { SET(semaphore[1].kind, 4) } },
    { TASK_RUNS, 1, { SET(semaphore[1].count, 65535) } },
    { TASK_RUNS, 0, { SET(semaphore[1].count, 65536) } },
    { TASK_RUNS, 0, { SET(semaphore[1].kind, 1) } },
    { TASK_RUNS, 1, { SET(semaphore[2].kind, 3) } },
    { TASK_RUNS, 0, { SET(semaphore[2].count, 2) } },
    { TASK_RUNS, 1, { SET(mailbox[2].capacity, 8) } },
    { TASK_RUNS, 0, { SET(mailbox[2].capacity, 9) } },
    { TASK_RUNS, 0, { SET(mailbox[2].capacity, 0), SET(mailbox[2].count, 0), SET(mailbox[2].message[0], 0) } },
    { TASK_RUNS, 0, { SET(mailbox[2].count, 4) } },
    { TASK_RUNS, 0, { SET(mailbox[2].oldest, 8) } },
    { TASK_RUNS, 1, { SET(clock[1].first, F) } },
    { TASK_RUNS, 0, { SET(clock[1].first, 0) } },
    { TASK_RUNS, 0, { SET(swis_in_use, 65536 + 15) } },
    { TASK_RUNS, 0, { SET(swis_posted, 65536) } },
    { TASK_RUNS, 0, { SET(posted_levels, 65536) } },
    { TASK_RUNS, 0, { SET(semaphores_in_use, 65536 + 7) } },
    { TASK_RUNS, 0, { SET(events_in_use, 256 + 3) } },
    { TASK_RUNS, 0, { SET(mailboxes_in_use, 256 + 7) } },
    { TASK_RUNS, 0, { SET(clocks_in_use, 65536 + 3) } },
    { TASK_RUNS, 0, { SET(clocks_running, 65536 + 1) } },
    /* Each ready task stands once, in its priority's queue */
    { TASK_RUNS, 0, { SET(task[11].priority, 4) } },
    { TASK_RUNS, 0, { SET(task[7].mode, READY) } },
    { TASK_RUNS, 0, { NOBODY(READY_AT(3)), LINK(11, 0, 0), SET(ready_levels, 33) } },
    { TASK_RUNS, 1, { NOBODY(READY_AT(3)), ALONE(READY_AT(4), 11), SET(ready_levels, 49), SET(task[11].priority, 4) } },
    { TASK_RUNS, 0, { NOBODY(READY_AT(3)), ALONE(READY_AT(16), 11), SET(ready_levels, 65536 + 33), SET(task[11].priority, 16) } },
    { TASK_RUNS, 1,
      { NOBODY(READY_AT(3)), ALONE(READY_AT(16), 11), SET(ready_levels, 65536 + 33), SET(task[11].priority, 16), SET(levels, 32),
        SET(current, 11) } },
    /* Task 11 at 0, behind task 0; task 0 at 3, behind task 11 */
    { TASK_RUNS, 0,
      { NOBODY(READY_AT(3)), LINK(READY_AT(0), 0, 11), LINK(0, 11, READY_AT(0)), LINK(11, READY_AT(0), 0), SET(ready_levels, 33),
        SET(task[11].priority, 0) } },
    { TASK_RUNS, 0,
      { NOBODY(READY_AT(0)), LINK(READY_AT(3), 11, 0), LINK(11, 0, READY_AT(3)), LINK(0, READY_AT(3), 11), SET(ready_levels, 40),
        SET(task[0].priority, 3) } },
    /* Nothing else stands in a queue or line */
    { SWI_RUNS, 0, { ALONE(READY_AT(7), 31), SET(ready_levels, 128 + 41) } },
    { SWI_RUNS, 0,
      { ALONE(READY_AT(5), 7), LINK(9, 0, 0), LINK(10, 0, 0), SET(task[9].mode, TERMINATED), SET(task[10].mode, TERMINATED), SET(current, 11) } },
    { SWI_RUNS, 0, { ALONE(READY_AT(7), 1), SET(ready_levels, 128 + 41) } },
    { SWI_RUNS, 0, { ALONE(READY_AT(7), 4), SET(ready_levels, 128 + 41) } },
    { SWI_RUNS, 0, { ALONE(READY_AT(7), 7), SET(ready_levels, 128 + 41) } },
    { SWI_RUNS, 0, { ALONE(READY_AT(7), 8), SET(ready_levels, 128 + 41) } },
    { SWI_RUNS, 0, { ALONE(READY_AT(7), SWI(3)), SET(ready_levels, 128 + 41) } },
    { SWI_RUNS, 0, { ALONE(READY_AT(7), READY_AT(8)), SET(ready_levels, 256 + 128 + 41) } }, /* two queues in one ring */
    { TASK_RUNS, 0, { ALONE(LINE_AT(1), 8) } },
    { TASK_RUNS, 0, { ALONE(LINE_AT(15), 1) } },
    { TASK_RUNS, 0, { ALONE(POSTED_AT(0), 8), SET(posted_levels, 1) } },
    { TASK_RUNS, 0, { SET(ready_levels, 33) } },
    { TASK_RUNS, 0, { SET(ready_levels, 0x80000000u + 41) } },
    { SWI_RUNS, 0, { SET(posted_levels, 0) } },
    { SWI_RUNS, 0, { SET(posted_levels, 9) } },
    { TASK_RUNS, 0, { SET(link[READY_AT(5)].next, 200) } },
    { TASK_RUNS, 0, { SET(link[READY_AT(7)].before, 3) } },
    { TASK_RUNS, 0, { SET(link[9].next, 200) } },
    { TASK_RUNS, 0, { SET(link[10].before, 3) } },
    { TASK_RUNS, 0, { SET(link[7].next, 1) } },
    { TASK_RUNS, 0, { SET(link[SWI(3)].before, 1) } },
    /* Each blocked task sleeps or stands once in a line, or is the one waiter of an event */
    { TASK_RUNS, 0, { SET(task[1].wait, 0) } },
    { TASK_RUNS, 0, { SET(task[1].wait, 6) } },
    { TASK_RUNS, 0, { SET(task[1].object, 1) } },
    { TASK_RUNS, 0, { ALONE(LINE_AT(1), 1), SET(semaphore[1].count, 0) } },
    { TASK_RUNS, 0, { ALONE(LINE_AT(0), 2), LINK(3, 0, 0) } }, /* task 3 stands nowhere, or in a queue */
    { SWI_RUNS, 0, { ALONE(LINE_AT(0), 2), ALONE(READY_AT(7), 3), SET(ready_levels, 128 + 41) } },
    { TASK_RUNS, 0, { SET(task[2].object, 1) } },
    { TASK_RUNS, 0, { SET(task[2].object, 15) } },
    { TASK_RUNS, 0, { SET(task[2].object, 16) } },
    { TASK_RUNS, 0, { SET(task[2].mode, INACTIVE), SET(task[2].priority, F), SET(task[2].wait, 0) } },
    { TASK_RUNS, 0, { SET(task[4].object, 1) } },
    { TASK_RUNS, 0, { SET(task[4].object, 7) } },
    { TASK_RUNS, 0, { SET(task[4].object, 8) } },
    { TASK_RUNS, 0, { ALONE(LINE_AT(1), 4), SET(semaphore[1].count, 0) } },
    { TASK_RUNS, 0, { SET(event[0].waiter, 0), SET(event[0].and_mask, 0), SET(event[0].or_mask, 0) } },
    { TASK_RUNS, 0, { SET(event[0].waiter, 5) } },
    { TASK_RUNS, 0, { SET(event[1].waiter, 4), SET(event[1].or_mask, 8) } },
    { TASK_RUNS, 0, { SET(event[1].waiter, 6), SET(event[1].or_mask, 8) } }, /* it waits at mailbox 1 */
    { TASK_RUNS, 0, { SET(event[1].waiter, 9), SET(event[1].or_mask, 8) } },
    { TASK_RUNS, 0, { SET(event[1].waiter, 32), SET(event[1].or_mask, 8) } },
    { TASK_RUNS, 0, { SET(event[1].waiter, F), SET(event[1].or_mask, 8) } },
    { TASK_RUNS, 0, { NOBODY(WAITING_AT(0)), LINK(5, 0, 0) } }, /* and so does task 5 */
    { SWI_RUNS, 0, { NOBODY(WAITING_AT(0)), ALONE(READY_AT(7), 5), SET(ready_levels, 128 + 41) } },
    { TASK_RUNS, 0, { SET(task[5].object, 1) } },
    { TASK_RUNS, 0, { SET(task[5].object, 7) } },
    { TASK_RUNS, 0, { SET(task[5].object, 8) } },
    { TASK_RUNS, 0, { SET(task[6].object, 0) } },
    { TASK_RUNS, 0, { SET(semaphores_in_use, 6) } }, /* waiters at a semaphore, event, mailbox that is not in use */
    { TASK_RUNS, 0,
      { SET(events_in_use, 2), SET(event[0].posted, 0), SET(event[0].and_mask, 0), SET(event[0].or_mask, 0), SET(event[0].waiter, 0) } },
    { TASK_RUNS, 0, { SET(mailboxes_in_use, 6), SET(mailbox[0].capacity, 0) } },
    /* Records not in use are all 0, and so are fields without meaning */
    { TASK_RUNS, 0, { SET(task[31].value, 1) } },
    { TASK_RUNS, 0, { SET(swi[15].initial, 1) } },
    { TASK_RUNS, 0, { SET(semaphore[15].kind, 1) } },
    { TASK_RUNS, 0, { SET(event[7].posted, 1) } },
    { TASK_RUNS, 0, { SET(mailbox[7].oldest, 1) } },
    { TASK_RUNS, 0, { SET(mailbox[7].message[3], 1) } },
    { TASK_RUNS, 0, { SET(clock[15].period, 1) } },
    { TASK_RUNS, 0, { SET(task[9].wait, SLEEPING) } },
    { TASK_RUNS, 0, { SET(task[9].object, 1) } },
    { TASK_RUNS, 0, { SET(task[9].word, 1) } },
    { TASK_RUNS, 0, { SET(task[9].ticks_left, 1), SET(tasks_limited, 512 + 10) } },
    { TASK_RUNS, 1, { SET(task[6].word, F) } },
    { TASK_RUNS, 1, { SET(task[6].word, 0) } },
    { TASK_RUNS, 0, { SET(task[5].word, 1) } },
    { TASK_RUNS, 0, { SET(task[2].word, 1) } },
    { TASK_RUNS, 0, { SET(tasks_limited, 2) } }, /* without task 3 */
    { TASK_RUNS, 0, { SET(tasks_limited, 4 + 10) } }, /* with task 2 */
    { TASK_RUNS, 0, { SET(tasks_limited, 0x80000000u + 10) } },
    { TASK_RUNS, 0, { SET(event[1].and_mask, 1) } },
    { TASK_RUNS, 0, { SET(event[1].or_mask, 8) } },
    { TASK_RUNS, 0, { SET(mailbox[2].message[1], 5) } },
    { TASK_RUNS, 0, { SET(mailbox[2].message[7], 5) } },
    { TASK_RUNS, 1, { SET(mailbox[2].message[0], 0) } },
    { TASK_RUNS, 1, { SET(mailbox[2].oldest, 5), SET(mailbox[2].message[5], 72), SET(mailbox[2].message[0], 0) } },
    { TASK_RUNS, 0, { SET(mailbox[2].oldest, 5), SET(mailbox[2].message[5], 72) } },
    { TASK_RUNS, 0, { SET(clock[1].ticks_left, 1) } },
    { TASK_RUNS, 0, { SET(swi[3].taken, 1) } },
    { SWI_RUNS, 0, { SET(swi[2].taken, 1) } },
    { SWI_RUNS, 1, { SET(swi[0].taken, F) } },
    { SWI_RUNS, 0, { SET(active[2], 1) } },
    { SWI_RUNS, 0, { SET(active[15], 1) } },
    /* A semaphore with waiters has count 0; readers wait at an empty mailbox, writers at a full one; a waiter is not satisfied */
    { TASK_RUNS, 0, { SET(semaphore[0].count, 1) } },
    { TASK_RUNS, 0, { SET(mailbox[0].count, 1), SET(mailbox[0].message[0], 5) } },
    { TASK_RUNS, 0, { SET(mailbox[1].count, 1), SET(mailbox[1].message[1], 0) } },
    { TASK_RUNS, 0, { SET(mailbox[1].capacity, 3) } },
    { TASK_RUNS, 1, { SET(event[0].posted, 4) } },
    { TASK_RUNS, 1, { SET(event[0].posted, 1) } },
    { TASK_RUNS, 0, { SET(event[0].posted, 6) } },
    { TASK_RUNS, 0, { SET(event[0].posted, 8) } },
    { TASK_RUNS, 1, { SET(event[0].and_mask, 0) } },
    { TASK_RUNS, 1, { SET(event[0].or_mask, 0) } },
    { TASK_RUNS, 0, { SET(event[0].and_mask, 0), SET(event[0].or_mask, 0) } },
    /* Posted Swis stand once in their priority's queue; active Swis are in use and rise strictly in priority */
    { SWI_RUNS, 0, { SET(swis_posted, 0) } },
    { SWI_RUNS, 0, { SET(swis_posted, 12) } },
    { SWI_RUNS, 0, { SET(swi[2].priority, 4) } },
    { SWI_RUNS, 0, { ALONE(POSTED_AT(0), SWI(15)), SET(posted_levels, 9), SET(swis_posted, 32768 + 4) } },
    { SWI_RUNS, 0, { SET(active_count, 17) } },
    { SWI_RUNS, 0, { SET(active_count, F) } },
    { TASK_RUNS, 1, { SET(active_count, 1), SET(active[0], 3) } },
    { TASK_RUNS, 0, { SET(active_count, 1), SET(active[0], 15) } },
    { SWI_RUNS, 0, { SET(active[1], 15) } },
    { SWI_RUNS, 0, { SET(active[1], 16) } },
    { SWI_RUNS, 0, { SET(active[1], 255) } },
    { SWI_RUNS, 0, { SET(active[0], 1), SET(active[1], 0) } },
    { SWI_RUNS, 0, { SET(swi[1].priority, 2), NOBODY(POSTED_AT(3)), LINK(SWI(2), 0, 0), SET(posted_levels, 0), SET(swis_posted, 0) } },
    { SWI_RUNS, 1, { SET(swi[1].priority, 3) } },
    /* Running clocks, sleeps and limited waits have 1 or more ticks left; a clock names a Swi in use */
    { TASK_RUNS, 0, { SET(clock[0].ticks_left, 0) } },
    { TASK_RUNS, 1, { SET(clock[0].ticks_left, F) } },
    { TASK_RUNS, 0, { SET(clocks_running, 0) } },
    { TASK_RUNS, 0, { SET(clocks_running, 3) } },
    { TASK_RUNS, 0, { SET(clock[1].swi, 15) } },
    { TASK_RUNS, 0, { SET(clock[1].swi, 16) } },
    { TASK_RUNS, 0, { SET(task[1].ticks_left, 0), SET(tasks_limited, 8) } },
    { TASK_RUNS, 1, { SET(task[1].ticks_left, F - 1) } },
    { TASK_RUNS, 0, { SET(task[1].ticks_left, F) } },
    { TASK_RUNS, 0, { SET(task[3].ticks_left, F) } },
    { TASK_RUNS, 1, { SET(task[3].ticks_left, 0), SET(tasks_limited, 2) } },
    /* A heap entry is free, first of a block or later in one */
    { TASK_RUNS, 0, { SET(heap_first[0], 0x400 + 5) } },
    { TASK_RUNS, 0, { SET(heap_taken[0], 0x400 + 7) } },
    { TASK_RUNS, 0, { SET(heap_taken[3], 1) } },
    { TASK_RUNS, 0, { SET(heap_first[0], 4) } },
    { TASK_RUNS, 1, { SET(heap_first[0], 1) } },
    { TASK_RUNS, 1, { SET(heap_first[0], 7) } },
    { TASK_RUNS, 1, { SET(heap_taken[0], 15) } },
    /* The current task is ready, and the dispatch rule has nothing left to do */
    { SWI_RUNS, 0, { SET(current, 2) } },
    { SWI_RUNS, 0, { SET(current, 31) } },
    { SWI_RUNS, 0, { SET(current, 32) } },
    { TASK_RUNS, 0, { SET(current, F) } },
    { TASK_RUNS, 0, { SET(current, 10) } },
    { TASK_RUNS, 0, { SET(current, 0) } },
    { TASK_RUNS, 0, { SET(current, 2), SET(depth, 1) } },
    { TASK_RUNS, 1, { SET(current, 10), SET(depth, 1) } },
    { TASK_RUNS, 1, { SET(current, 10), SET(swis_on, 0) } },
    { TASK_RUNS, 1, { SET(current, 10), SET(tasks_on, 0) } },
    { SWI_RUNS, 1, { SET(current, 0) } },
    { TASK_RUNS, 0, { ALONE(POSTED_AT(9), SWI(3)), SET(posted_levels, 512), SET(swis_posted, 8) } },
    { TASK_RUNS, 0, { ALONE(POSTED_AT(9), SWI(3)), SET(posted_levels, 512), SET(swis_posted, 8), SET(tasks_on, 0) } },
    { TASK_RUNS, 1, { ALONE(POSTED_AT(9), SWI(3)), SET(posted_levels, 512), SET(swis_posted, 8), SET(swis_on, 0) } },
    { TASK_RUNS, 1, { ALONE(POSTED_AT(9), SWI(3)), SET(posted_levels, 512), SET(swis_posted, 8), SET(depth, 1) } },
    { SWI_RUNS, 0, { ALONE(POSTED_AT(9), SWI(3)), SET(posted_levels, 520), SET(swis_posted, 12) } },
    { SWI_RUNS, 1, { ALONE(POSTED_AT(5), SWI(3)), SET(posted_levels, 40), SET(swis_posted, 12), SET(swi[3].priority, 5) } },
    { SWI_RUNS, 0, { ALONE(POSTED_AT(6), SWI(3)), SET(posted_levels, 72), SET(swis_posted, 12), SET(swi[3].priority, 6) } },
};

static unsigned faults;

static void expect(int is_so, size_t which, const char *what)
{
    if (!is_so) {
        fprintf(stderr, "kinds: spoils, %zu: %s\n", which + 1, what);
        faults++;
    }
}

static void make_bases(struct tables bases[BASES])
{
    size_t n = sizeof before / sizeof before[0];
    struct tables *t = &bases[SWI_RUNS];

    core_fresh(t, LEVELS_LEAST);
    for (size_t i = 0; i < n; i++) {
        const uint32_t *call = before[i];

        if (i == n - SWI_POSTS)
            bases[TASK_RUNS] = *t;
        expect(core_call(t, call[0], call[1], call[2], call[3], call[4]).code == ACCEPTED, i, "a call before");
    }
}

static void change(struct tables *t, const struct change *change)
{
    uint8_t byte = (uint8_t)change->number;
    uint64_t double_word = change->number;
    char *at = (char *)t + change->at;

    switch (change->size) {
    case sizeof byte:
        memcpy(at, &byte, sizeof byte);
        break;
    case sizeof double_word:
        memcpy(at, &double_word, sizeof double_word);
        break;
    default:
        memcpy(at, &change->number, sizeof change->number);
        break;
    }
}

/* Hands over a list of that one call, or an empty one. */
static void check_list(struct tables *t, size_t which, int is_sound, size_t words)
{
    static struct tables was;
    static const uint32_t call[CALL_WORDS] = { TASK_LAST_RESULT, 8, 0, 0, 0 };
    uint32_t answer[4 * ANSWER_WORDS] = { F, F, F }; /* more than is lent */
    struct list_answer list;

    was = *t;
    list = core_list(t, call, words, answer, ANSWER_WORDS);
    if (is_sound) {
        expect(list.answer.code == ACCEPTED, which, "a list is refused on sound tables");
        expect(answer[0] == (words == 0 ? F : ACCEPTED), which, "another answer");
    } else {
        expect(list.answer.code == NOT_SOUND, which, "a list is not refused with 10");
        expect(list.thread.kind == 'T' && list.thread.number == 0, which, "another thread than T0");
        expect(answer[0] == F, which, "an answer");
    }
    expect(memcmp(t, &was, sizeof was) == 0, which, "other tables");
}

/* All sixteen Swis active, and one more than there are. */
static void check_all_active(void)
{
    static struct tables t;

    core_fresh(&t, LEVELS_LEAST);
    for (uint32_t i = 0; i < SWIS; i++)
        core_call(&t, SWI_CREATE, i, 0, 0, 0);
    for (uint32_t i = 0; i < SWIS; i++)
        core_call(&t, SWI_POST, i, 0, 0, 0);
    expect(t.active_count == SWIS && core_unsound(&t) == NULL, t.active_count, "sixteen active Swis");
    t.active_count++;
    expect(core_unsound(&t) != NULL, t.active_count, "seventeen active Swis");
}

unsigned spoils_check(unsigned long *checked)
{
    static struct tables bases[BASES], t;

    make_bases(bases);
    check_all_active();
    for (size_t i = 0; i < sizeof spoils / sizeof spoils[0]; i++) {
        t = bases[spoils[i].base];
        for (size_t k = 0; k < CHANGES && spoils[i].change[k].size != 0; k++)
            change(&t, &spoils[i].change[k]);
        check_list(&t, i, spoils[i].is_sound, 0);
        check_list(&t, i, spoils[i].is_sound, CALL_WORDS);
        ++*checked;
    }
    return faults;
}
