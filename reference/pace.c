/*
 * Makes the calls of the log on standard input with core_call, again and again, and prints a sum over all answers: for measuring. It does what the
 * programs `pace` and `pace_entries` do with the call core: the records are words first, and each round starts with fresh tables, which have the
 * number of levels that the log's version means. With `lists` it does what `pace_lists` does: it hands the calls over by lists of LIST_CALLS, the
 * last being what is left, and the thread in the sum is the list's.
 */
#include "core.h"
#include "log.h"

#include <stdio.h>
#include <string.h>
#include <unistd.h>

enum { RECORDS = 3276 };

static uint8_t bytes[RECORDS * RECORD_BYTES];
static uint32_t calls[RECORDS * CALL_WORDS];
static uint32_t levels = LEVELS_LEAST;

static size_t read_calls(void)
{
    ssize_t got = read(STDIN_FILENO, bytes, sizeof bytes);
    struct log log = { bytes, got > 0 ? (size_t)got : 0, 0 };
    size_t n = log.length / RECORD_BYTES;

    levels = log_levels(&log);
    for (size_t k = 0; k < n; k++) {
        const uint8_t *at = bytes + k * RECORD_BYTES;
        struct record record = { .call = at[CALL_AT], .arguments = at + ARGUMENTS_AT };

        calls[k * CALL_WORDS] = record.call;
        for (unsigned i = 0; i < 4; i++)
            calls[k * CALL_WORDS + 1 + i] = log_argument(&record, i);
    }
    return n;
}

static inline uint32_t add(uint32_t sum, uint32_t code, uint32_t outcome, uint32_t value, struct thread thread)
{
    sum = (sum ^ code) + value;
    return (sum ^ outcome) + ((uint32_t)(uint8_t)thread.kind ^ thread.number);
}

static uint32_t one_round(size_t n, uint32_t sum)
{
    static struct tables t;

    core_fresh(&t, levels);
    for (const uint32_t *call = calls; call < calls + n * CALL_WORDS; call += CALL_WORDS) {
        struct answer answer = core_call(&t, call[0], call[1], call[2], call[3], call[4]);

        sum = add(sum, answer.code, answer.outcome, answer.value, core_running(&t));
    }
    return sum;
}

static uint32_t one_round_by_lists(size_t n, uint32_t sum)
{
    static struct tables t;
    static uint32_t answers[LIST_CALLS * ANSWER_WORDS];

    core_fresh(&t, levels);
    for (size_t from = 0; from < n; from += LIST_CALLS) {
        size_t listed = n - from < LIST_CALLS ? n - from : LIST_CALLS;
        struct list_answer list = core_list(&t, calls + from * CALL_WORDS, listed * CALL_WORDS, answers, listed * ANSWER_WORDS);

        for (const uint32_t *answer = answers; answer < answers + listed * ANSWER_WORDS; answer += ANSWER_WORDS)
            sum = add(sum, answer[0], answer[1], answer[2], list.thread);
    }
    return sum;
}

/* The arguments: 0 is one round, 1 ten, 2 a hundred and so on; then `lists`, or nothing. */
int main(int argc, char **argv)
{
    size_t n = read_calls();
    uint32_t sum = 0;
    uint32_t rounds = 1;
    int by_lists = argc > 2 && strcmp(argv[2], "lists") == 0;

    if (argc > 1)
        for (int i = '0'; i < argv[1][0] && i < '4'; i++)
            rounds *= 10;
    while (rounds-- > 0)
        sum = by_lists ? one_round_by_lists(n, sum) : one_round(n, sum);
    printf("sum %lu\n", (unsigned long)sum);
    return 0;
}
