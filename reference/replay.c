/*
 * replay [FILE]: replays a call log from a file, or from standard input, on fresh tables with the number of levels that its version means.
 * One line for each record: record, code, outcome, value, thread. The last line is `end N`, or the fault and its byte offset.
 */
#include "core.h"
#include "file.h"
#include "log.h"

#include <stdio.h>
#include <stdlib.h>

static void print_answer(unsigned long record, struct answer answer, struct thread thread)
{
    printf("%lu %u %u %lu %c", record, (unsigned)answer.code, (unsigned)answer.outcome, (unsigned long)answer.value, thread.kind);
    if (thread.kind != 'I')
        printf("%lu", (unsigned long)thread.number);
    putchar('\n');
}

int main(int argc, char **argv)
{
    static struct tables tables;
    struct log log = { NULL, 0, 0 };
    struct record record;
    enum log_finding finding;
    unsigned long records = 0;
    uint8_t *bytes;

    if (argc > 2) {
        fprintf(stderr, "usage: replay [FILE]\n");
        return 2;
    }
    bytes = read_whole(argc > 1 ? argv[1] : NULL, &log.length);
    log.bytes = bytes;
    core_fresh(&tables, log_levels(&log));
    while ((finding = log_next(&log, &record)) == LOG_RECORD) {
        struct answer answer = core_call(&tables, record.call, log_argument(&record, 0), log_argument(&record, 1),
                                         log_argument(&record, 2), log_argument(&record, 3));

        print_answer(++records, answer, core_running(&tables));
    }
    switch (finding) {
    case LOG_CUT:
        printf("cut %zu\n", log.position);
        break;
    case LOG_LENGTH:
        printf("length %zu\n", log.position);
        break;
    case LOG_VERSION:
        printf("version %zu\n", log.position);
        break;
    default:
        printf("end %lu\n", records);
        break;
    }
    free(bytes);
    return fflush(stdout) == 0 ? 0 : 2;
}
