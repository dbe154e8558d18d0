/* The call log: records of 20 bytes, read in place. */
#include "log.h"
#include "core.h"

static uint32_t big_endian(const uint8_t *bytes)
{
    return (uint32_t)bytes[0] << 24 | (uint32_t)bytes[1] << 16 | (uint32_t)bytes[2] << 8 | (uint32_t)bytes[3];
}

/* A record in this log may have that version: that of the first record, if it is one of the two. */
static int is_version_of(const struct log *log, uint8_t version)
{
    return version == log->bytes[VERSION_AT] && (version == FIRST_EDITION || version == SECOND_EDITION);
}

enum log_finding log_next(struct log *log, struct record *record)
{
    const uint8_t *bytes;
    size_t left;

    if (log->position == log->length)
        return LOG_END;
    if (log->position > log->length)
        return LOG_CUT;
    bytes = log->bytes + log->position;
    left = log->length - log->position;
    if (left == 1)
        return LOG_CUT;
    if ((bytes[0] << 8 | bytes[1]) != RECORD_LENGTH)
        return LOG_LENGTH;
    if (left - LENGTH_BYTES < RECORD_LENGTH)
        return LOG_CUT;
    if (!is_version_of(log, bytes[VERSION_AT]))
        return LOG_VERSION;
    record->call = bytes[CALL_AT];
    record->arguments = bytes + ARGUMENTS_AT;
    log->position += RECORD_BYTES;
    return LOG_RECORD;
}

uint32_t log_argument(const struct record *record, unsigned which)
{
    return big_endian(record->arguments + 4 * which);
}

size_t log_calls(struct log *log, uint32_t *words)
{
    struct record record;
    size_t calls = 0;

    for (; log_next(log, &record) == LOG_RECORD; calls++) {
        *words++ = record.call;
        for (unsigned i = 0; i < CALL_WORDS - 1; i++)
            *words++ = log_argument(&record, i);
    }
    return calls;
}

uint32_t log_levels(const struct log *log)
{
    return log->length > VERSION_AT && log->bytes[VERSION_AT] == SECOND_EDITION ? LEVELS_MOST : LEVELS_LEAST;
}

enum version log_version(uint32_t levels)
{
    return levels == LEVELS_MOST ? SECOND_EDITION : FIRST_EDITION;
}

void log_write(uint8_t bytes[RECORD_BYTES], enum version version, uint32_t call, uint32_t a, uint32_t b, uint32_t c, uint32_t d)
{
    const uint32_t arguments[4] = { a, b, c, d };

    bytes[0] = 0;
    bytes[1] = RECORD_LENGTH;
    bytes[VERSION_AT] = (uint8_t)version;
    bytes[CALL_AT] = (uint8_t)call;
    for (unsigned i = 0; i < 4; i++) {
        uint8_t *argument = bytes + ARGUMENTS_AT + 4 * i;

        argument[0] = (uint8_t)(arguments[i] >> 24);
        argument[1] = (uint8_t)(arguments[i] >> 16);
        argument[2] = (uint8_t)(arguments[i] >> 8);
        argument[3] = (uint8_t)arguments[i];
    }
}
