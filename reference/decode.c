/* decode FILE [RECORD]: prints the calls of a log in words, with their record numbers from 1, or one of them. Stops at a fault without a word. */
#include "calls.h"
#include "file.h"
#include "log.h"

#include <stdio.h>
#include <stdlib.h>

int main(int argc, char **argv)
{
    struct log log = { NULL, 0, 0 };
    struct record record;
    unsigned long records = 0, only = 0;
    uint8_t *bytes;

    if (argc < 2 || argc > 3) {
        fprintf(stderr, "usage: decode FILE [RECORD]\n");
        return 2;
    }
    if (argc > 2)
        only = strtoul(argv[2], NULL, 10);
    bytes = read_whole(argv[1], &log.length);
    log.bytes = bytes;
    while (log_next(&log, &record) == LOG_RECORD) {
        struct call call = { record.call, { log_argument(&record, 0), log_argument(&record, 1), log_argument(&record, 2),
                                            log_argument(&record, 3) } };

        records++;
        if (only == 0)
            printf("%lu ", records);
        if (only == 0 || records == only)
            print_call(stdout, &call);
    }
    free(bytes);
    return fflush(stdout) == 0 ? 0 : 2;
}
