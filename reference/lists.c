/*
 * lists LOG...: makes the calls of a log, up to its end or a fault, by lists of 1, of 7 and of 256 calls, the last list being what is left, each
 * time from fresh tables with the log's levels. For each length it prints the sum over all answers, that of `pace` with the list's thread for each
 * answer of the list, and whether anything differs from the same calls made one by one (ways.h). With several logs each one's name stands before its
 * lines.
 *
 * lists --rows: sixteen lists one after the other, whose words are those of document 01's five calls again and again, on both sides of each bound.
 * For each it prints what the list was answered, how many words of the answer room it wrote, and a sum over them.
 */
#include "file.h"
#include "log.h"
#include "ways.h"

#include <stdio.h>
#include <stdlib.h>
#include <string.h>

static struct ways ways;

static size_t at_most(size_t number, size_t most)
{
    return number < most ? number : most;
}

/* So many calls, by lists of that length. */
static void print_lists(const uint32_t *calls, size_t n, uint32_t levels, size_t length)
{
    uint32_t sum = 0;
    int differs = 0;

    ways_fresh(&ways, levels);
    for (size_t from = 0; from < n; from += length) {
        size_t listed = at_most(n - from, length);

        differs |= ways_list(&ways, calls + from * CALL_WORDS, listed * CALL_WORDS, listed * ANSWER_WORDS + SPARE) != NULL;
        for (size_t i = 0; i < listed; i++)
            sum = add_answer(sum, ways.answers + i * ANSWER_WORDS, ways.last.thread);
    }
    printf("lists of %zu%s, sum %lu\n", length, differs ? " differ" : "", (unsigned long)sum);
}

static void print_log(const char *name)
{
    static const size_t lengths[] = { 1, 7, LIST_CALLS };
    struct log log = { NULL, 0, 0 };
    uint8_t *bytes = read_whole(name, &log.length);
    uint32_t *calls = malloc((log.length / RECORD_BYTES + 1) * CALL_WORDS * sizeof *calls);
    size_t n;

    if (calls == NULL) {
        fprintf(stderr, "lists: no memory for %s\n", name);
        exit(2);
    }
    log.bytes = bytes;
    n = log_calls(&log, calls);
    for (size_t i = 0; i < sizeof lengths / sizeof lengths[0]; i++)
        print_lists(calls, n, log_levels(&log), lengths[i]);
    free(calls);
    free(bytes);
}

/* Document 01's five calls. */
static const uint32_t sample[] = {
    TASK_CREATE, 5, 0, 0, 0, SEMAPHORE_CREATE, 0, 0, 0, 0, SEMAPHORE_PEND, 0, WITHOUT_END, 0, 0,
    SEMAPHORE_POST, 0, 0, 0, 0, SEMAPHORE_POST, 7, 0, 0, 0,
};

enum {
    SAMPLE_WORDS = sizeof sample / sizeof sample[0],
    ROW_WORDS = (LIST_CALLS + 1) * CALL_WORDS,     /* of the longest list: one call too many */
    NO_LEVELS = LEVELS_LEAST + 1                   /* tables with this number of levels are not sound */
};

struct list_row {
    size_t words, room;
    uint32_t first;        /* word of the list; the sample's is TASK_CREATE, 0 */
    int is_spoilt;         /* from this row on the tables have NO_LEVELS */
};

static const struct list_row list_rows[] = {
    { 0, 0, 0, 0 },
    { 25, 15, 0, 0 },
    { 25, 14, 0, 0 },
    { 24, WAYS_ROOM, 0, 0 },
    { 1, WAYS_ROOM, 0, 0 },
    { 26, WAYS_ROOM, 0, 0 },
    { 25, WAYS_ROOM, 0, 0 },
    { 1280, 767, 0, 0 },
    { 1280, 768, 0, 0 },
    { 1281, WAYS_ROOM, 0, 0 },
    { ROW_WORDS, WAYS_ROOM, 0, 0 },
    { 0, WAYS_ROOM, 0, 0 },
    { 25, 15, 256, 0 },
    { 0, 0, 0, 1 },
    { 24, WAYS_ROOM, 0, 0 },
    { 25, 15, 0, 0 },
};

/* What a list was answered, as a line of a replay; how many words of the room it wrote, and a sum over them. */
static void print_row(size_t number, struct list_answer list, const uint32_t answers[WAYS_ROOM])
{
    unsigned filled = 0;
    uint32_t sum = 0;

    for (uint32_t i = 0; i < WAYS_ROOM; i++)
        if (answers[i] != UNTOUCHED) {
            filled++;
            sum = (sum ^ answers[i]) + i;
        }
    printf("%zu %u %u %lu %c", number, (unsigned)list.answer.code, (unsigned)list.answer.outcome, (unsigned long)list.answer.value,
           list.thread.kind);
    if (list.thread.kind != 'I')
        printf("%lu", (unsigned long)list.thread.number);
    printf("\nfilled %u\nsum %lu\n", filled, (unsigned long)sum);
}

static void print_rows(void)
{
    static struct tables t;
    uint32_t calls[ROW_WORDS], answers[WAYS_ROOM];

    for (size_t i = 0; i < ROW_WORDS; i++)
        calls[i] = sample[i % SAMPLE_WORDS];
    core_fresh(&t, LEVELS_LEAST);
    for (size_t i = 0; i < sizeof list_rows / sizeof list_rows[0]; i++) {
        const struct list_row *row = &list_rows[i];

        for (size_t k = 0; k < WAYS_ROOM; k++)
            answers[k] = UNTOUCHED;
        calls[0] = row->first;
        if (row->is_spoilt)
            t.levels = NO_LEVELS;
        print_row(i + 1, core_list(&t, calls, row->words, answers, row->room), answers);
    }
}

int main(int argc, char **argv)
{
    if (argc < 2 || (argc > 2 && strcmp(argv[1], "--rows") == 0)) {
        fprintf(stderr, "usage: lists LOG... | --rows\n");
        return 2;
    }
    if (strcmp(argv[1], "--rows") == 0)
        print_rows();
    else
        for (int i = 1; i < argc; i++) {
            if (argc > 2)
                puts(argv[i]);
            print_log(argv[i]);
        }
    return fflush(stdout) == 0 ? 0 : 2;
}
