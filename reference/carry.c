/*
 * carry OLD NEW: reads a log from before No. 10 and writes the same log with the numbers of No. 10, so that every call does what it did. NEW must
 * not be there yet.
 *
 * 70 becomes 77 1, 71 k becomes 78 1 k, 72 becomes 77 2 and 73 k becomes 78 2 2k. What was refused is refused with the same code. An accepted 72
 * that answered 1 answers 2 now; every other answer is the same. 77 and 78 were unknown numbers and become 79, which is one still. From the first
 * damaged byte on the log is copied as it is. Version 2 came after No. 10 (with No. 14), so a log of that version is copied as it is from its start.
 */
#include "file.h"
#include "log.h"

#include <stdio.h>
#include <stdlib.h>

enum {
    OLD_SWIS_OFF = 0x70,
    OLD_SWIS_RESTORE,
    OLD_TASKS_OFF,
    OLD_TASKS_RESTORE,
    OFF = 0x77,
    RESTORE = 0x78,
    UNKNOWN = 0x79,
    SWIS = 1,
    TASKS = 2
};

struct carried {
    size_t records;
    size_t switches;   /* of them, those that were 70 to 73 */
    size_t unknown;    /* and those that were 77 or 78 */
};

/*
 * The record in its new form, in place. There is one place less for unused arguments: an old one that loses its place joins the next, so that it
 * is still refused.
 */
static void carry_record(uint8_t *bytes, uint32_t call, uint32_t a, uint32_t b, uint32_t c, uint32_t d, struct carried *carried)
{
    carried->records++;
    carried->switches += call >= OLD_SWIS_OFF && call <= OLD_TASKS_RESTORE;
    carried->unknown += call == OFF || call == RESTORE;
    switch (call) {
    case OLD_SWIS_OFF:
        log_write(bytes, FIRST_EDITION, OFF, SWIS, a | b, c, d);
        break;
    case OLD_SWIS_RESTORE:
        log_write(bytes, FIRST_EDITION, RESTORE, SWIS, a, b | c, d);
        break;
    case OLD_TASKS_OFF:
        log_write(bytes, FIRST_EDITION, OFF, TASKS, a | b, c, d);
        break;
    case OLD_TASKS_RESTORE: /* a key whose double does not fit stays: its highest bit is not named */
        log_write(bytes, FIRST_EDITION, RESTORE, TASKS, a < 0x80000000u ? 2 * a : a, b | c, d);
        break;
    case OFF:
    case RESTORE:
        log_write(bytes, FIRST_EDITION, UNKNOWN, a, b, c, d);
        break;
    default:
        break;
    }
}

static int is_second_edition(const uint8_t *bytes, size_t length)
{
    return length > VERSION_AT && bytes[VERSION_AT] == SECOND_EDITION;
}

/* Gives the offset from which nothing is carried: that of the first damaged record, 0 for a log of version 2, or the length. */
static size_t carry_log(uint8_t *bytes, size_t length, struct carried *carried)
{
    struct log log = { bytes, length, 0 };
    struct record record;

    if (is_second_edition(bytes, length))
        return 0;
    while (log_next(&log, &record) == LOG_RECORD)
        carry_record(bytes + log.position - RECORD_BYTES, record.call, log_argument(&record, 0), log_argument(&record, 1),
                     log_argument(&record, 2), log_argument(&record, 3), carried);
    return log.position;
}

/* Writes a file that was not there, or none at all. */
static int write_new(const char *name, const uint8_t *bytes, size_t length)
{
    FILE *file = fopen(name, "wbx");
    int is_written;

    if (file == NULL) {
        fprintf(stderr, "carry: cannot make ");
        perror(name);
        return 0;
    }
    is_written = fwrite(bytes, 1, length, file) == length;
    is_written &= fclose(file) == 0;
    if (!is_written) {
        fprintf(stderr, "carry: cannot write all of ");
        perror(name);
        remove(name);
    }
    return is_written;
}

int main(int argc, char **argv)
{
    struct carried carried = { 0, 0, 0 };
    size_t length, whole;
    uint8_t *bytes;
    int is_written, is_second;

    if (argc != 3) {
        fprintf(stderr, "usage: carry OLD NEW\n");
        return 2;
    }
    bytes = read_whole(argv[1], &length);
    is_second = is_second_edition(bytes, length);
    whole = carry_log(bytes, length, &carried);
    is_written = write_new(argv[2], bytes, length);
    free(bytes);
    if (!is_written)
        return 2;
    printf("%zu records, %zu of them of the switches\n", carried.records, carried.switches);
    if (carried.unknown != 0)
        printf("calls with the number 77 or 78, unknown in older firmware, that are 79 now: %zu. Was it a log of older firmware?\n", carried.unknown);
    if (is_second)
        printf("a log of version 2, which came after No. 10: copied as it is\n");
    else if (whole != length)
        printf("damaged at byte %zu: copied as it is from there\n", whole);
    return fflush(stdout) == 0 ? 0 : 2;
}
