/*
 * twin LOG ONE OTHER: makes two logs of one, which must replay alike. ONE is the log without a task priority from 16 to 31, on which the number of
 * levels decides: in its place stands one that is 32 more, refused with either number. OTHER is ONE with the versions 1 and 2 put for each other. A
 * damaged log has twins too: every fault is the same, for records begin at the same bytes.
 */
#include "core.h"
#include "file.h"
#include "log.h"

#include <stdio.h>
#include <stdlib.h>

/* Where in its record the task priority stands that a call takes, by its last byte; 0 if it takes none. */
static size_t priority_at(uint8_t call)
{
    switch (call) {
    case TASK_CREATE:
        return ARGUMENTS_AT + 3;
    case TASK_SET_PRIORITY:
        return ARGUMENTS_AT + 4 + 3;
    default:
        return 0;
    }
}

static void raise_priority(uint8_t record[RECORD_BYTES])
{
    size_t at = priority_at(record[CALL_AT]);

    if (at != 0 && (record[at - 1] | record[at - 2] | record[at - 3]) == 0 && record[at] >= LEVELS_LEAST && record[at] < LEVELS_MOST)
        record[at] = (uint8_t)(record[at] + LEVELS_MOST);
}

static void turn_version(uint8_t *version)
{
    if (*version == FIRST_EDITION || *version == SECOND_EDITION)
        *version = FIRST_EDITION + SECOND_EDITION - *version;
}

static int write_file(const char *name, const uint8_t *bytes, size_t length)
{
    FILE *file = fopen(name, "wb");
    int is_written = file != NULL && fwrite(bytes, 1, length, file) == length;

    is_written &= file != NULL && fclose(file) == 0;
    if (!is_written) {
        fprintf(stderr, "twin: cannot write ");
        perror(name);
    }
    return is_written;
}

int main(int argc, char **argv)
{
    size_t length;
    uint8_t *bytes;
    int is_written;

    if (argc != 4) {
        fprintf(stderr, "usage: twin LOG ONE OTHER\n");
        return 2;
    }
    bytes = read_whole(argv[1], &length);
    for (size_t at = 0; at + RECORD_BYTES <= length; at += RECORD_BYTES)
        raise_priority(bytes + at);
    is_written = write_file(argv[2], bytes, length);
    for (size_t at = 0; at + VERSION_AT < length; at += RECORD_BYTES)
        turn_version(bytes + at + VERSION_AT);
    is_written = is_written && write_file(argv[3], bytes, length);
    free(bytes);
    return is_written ? 0 : 2;
}
