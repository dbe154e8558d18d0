/* The call log: records of 20 bytes, read in place. */
#ifndef LOG_H
#define LOG_H

#include <stddef.h>
#include <stdint.h>

enum {
    RECORD_BYTES = 20,
    LENGTH_BYTES = 2,      /* the length itself */
    RECORD_LENGTH = 18,    /* what follows it */
    VERSION_AT = 2,        /* where in a record each part stands */
    CALL_AT = 3,
    ARGUMENTS_AT = 4
};

/* The versions of the log, the same in layout: the first means LEVELS_LEAST task priority levels, the second LEVELS_MOST. */
enum version { FIRST_EDITION = 1, SECOND_EDITION = 2 };

/* A reader: a log that is lent, and the position in it. */
struct log {
    const uint8_t *bytes;
    size_t length;
    size_t position;
};

struct record {
    uint32_t call;
    const uint8_t *arguments; /* sixteen bytes, a part of the log itself */
};

enum log_finding { LOG_RECORD, LOG_END, LOG_CUT, LOG_LENGTH, LOG_VERSION };

/*
 * The next record; only a good one moves the position. After a fault the position is the faulty record's byte offset. Which version a record must
 * have is told by the log's first one, wherever the reader stands.
 */
enum log_finding log_next(struct log *log, struct record *record);

/* The number of levels on which the first record decides for the whole log; LEVELS_LEAST if there is no version or an unknown one. */
uint32_t log_levels(const struct log *log);

/* The version of logs with that number of levels. */
enum version log_version(uint32_t levels);

/* Argument 0 to 3 of a record. */
uint32_t log_argument(const struct record *record, unsigned which);

/*
 * The calls of a log up to its end or a fault, as a list has them: number and four arguments, a word each. Gives how many; there must be room for
 * all.
 */
size_t log_calls(struct log *log, uint32_t *words);

/* The record of a call. */
void log_write(uint8_t bytes[RECORD_BYTES], enum version version, uint32_t call, uint32_t a, uint32_t b, uint32_t c, uint32_t d);

#endif
