/*
 * generate [--levels 16|32] SEED RECORDS [damaged]: writes a random call log to standard output. The seed chooses the style and everything else. A
 * damaged log is cut or spoilt at one place, so that its reader finds a fault (or, rarely, reads other calls).
 *
 * With --levels the log has the version that means so many task priority levels, its calls try both sides of each line that this number draws, and
 * damage mixes versions too. Without, it is the log of version 1 that the seed made before No. 14.
 *
 * generate [--levels 16|32] --coverage SEEDS RECORDS: makes the logs of the seeds 1 to SEEDS, with that option or in all three ways, damages each of
 * them again and again, and prints how often each call gave each code and each deep state and each fault was reached.
 *
 * generate --style SEED: prints the name of the seed's style.
 *
 * Each call is carried out on the core beside; tables that are not sound after a call, or changed by a refused one, end the program, and so does a
 * call after which the number of levels is another, a post that is lost (sums.h) or that does not name whom it woke (wakes.h). With --coverage each
 * log is made again by lists of random lengths (cuts.h); anything that is not as with single calls ends the program too.
 */
#include "coverage.h"
#include "cuts.h"
#include "editions.h"
#include "log.h"
#include "maker.h"
#include "objects.h"
#include "options.h"
#include "sums.h"
#include "wakes.h"

#include <stdio.h>
#include <stdlib.h>
#include <string.h>

enum { RECORDS_END = 100000000 }; /* a log has fewer records */

/* A refusal is its code alone, but for codes 3 and 11, whose value names the table. */
static int is_mere_refusal(const struct call *call, struct answer answer)
{
    const struct call_form *form = form_of(call->number);
    int names_table = answer.code == OUTSIDE_TABLE || answer.code == OBJECT_NOT_IN_USE;

    return answer.outcome == 0 && answer.value == (names_table && form != NULL ? table_of(form) : 0);
}

static struct sums sums; /* of the calls of this log so far */

static void start_log(struct maker *m, uint64_t seed, uint32_t levels)
{
    maker_start(m, seed, levels);
    sums_fresh(&sums);
    coverage_fresh(m->tables.levels);
}

/* Ends the program if there is a fault. */
static void stop_at(const char *what, const char *fault, const struct call *call)
{
    if (fault == NULL)
        return;
    fprintf(stderr, "%s: %s, after ", what, fault);
    print_call(stderr, call);
    exit(3);
}

/* One more call of the maker, carried out and checked. */
static struct call next_call(struct maker *m, int with_coverage)
{
    static struct tables before;
    struct call call = maker_next(m);
    struct answer answer;
    const char *fault;

    before = m->tables;
    answer = core_call(&m->tables, call.number, call.argument[0], call.argument[1], call.argument[2], call.argument[3]);
    fault = core_unsound(&m->tables);
    if (answer.code != ACCEPTED && (!is_mere_refusal(&call, answer) || memcmp(&before, &m->tables, sizeof before) != 0))
        fault = "a refusal that is more than its code";
    if (before.levels != m->tables.levels)
        fault = "another number of levels";
    stop_at("not sound", fault, &call);
    stop_at("wake off", wake_off(&before, &m->tables, &call, answer), &call);
    if (with_coverage)
        coverage_note(&sums, &before, &m->tables, &call, answer);
    sums_note(&sums, &call, answer);
    stop_at("sum off", sums_off(&sums, &m->tables), &call);
    return call;
}

/* Puts another byte in place, most often one near the right ones. */
static void spoil(struct maker *m, uint8_t *byte)
{
    static const uint8_t near[] = { 0, 1, 2, 3, 16, 17, 18, 19, 20, 255 };
    uint8_t right = *byte;

    while (*byte == right)
        *byte = maker_below(m, 2) == 0 ? near[maker_below(m, sizeof near)] : (uint8_t)maker_below(m, 256);
}

/* How many bytes of a record are left when its end is cut off: 2 to 19, most often few or nearly all. */
static size_t bytes_left(struct maker *m)
{
    switch (maker_below(m, 4)) {
    case 0:
        return 2 + maker_below(m, 2);
    case 1:
        return RECORD_BYTES - 1;
    default:
        return 2 + maker_below(m, RECORD_BYTES - 2);
    }
}

/* Damages a log at the record with offset `at`; gives its new length, at most one byte more. */
static size_t damage_at(struct maker *m, uint8_t *bytes, size_t length, size_t at)
{
    switch (maker_below(m, 16)) {
    case 0: /* one byte left */
        return at + 1;
    case 1:
        spoil(m, &bytes[at]);
        return at + 1;
    case 2: /* a short record */
    case 3:
        return at + bytes_left(m);
    case 4: /* a byte too few somewhere */
        memmove(bytes + at + 7, bytes + at + 8, length - at - 8);
        return length - 1;
    case 5: /* a byte too many */
        memmove(bytes + at + 8, bytes + at + 7, length - at - 7);
        return length + 1;
    case 6: /* wrong length */
    case 7:
        spoil(m, &bytes[at + maker_below(m, 2)]);
        return length;
    case 8: /* wrong length and short */
    case 9:
        spoil(m, &bytes[at + maker_below(m, 2)]);
        return at + bytes_left(m);
    case 10: /* wrong length and version */
        spoil(m, &bytes[at + maker_below(m, 2)]);
        spoil(m, &bytes[at + VERSION_AT]);
        return length;
    case 11: /* wrong version and short */
        spoil(m, &bytes[at + VERSION_AT]);
        return at + bytes_left(m);
    case 12: /* any byte anywhere: a fault, or another call */
        spoil(m, &bytes[maker_below(m, (uint32_t)length)]);
        return length;
    default: /* wrong version */
        spoil(m, &bytes[at + VERSION_AT]);
        return length;
    }
}

/* Gives the records from offset `from` to before `end` that version. */
static void set_versions(uint8_t *bytes, size_t from, size_t end, uint8_t version)
{
    for (size_t at = from; at < end; at += RECORD_BYTES)
        bytes[at + VERSION_AT] = version;
}

/* Puts versions into a log that do not go together, or one that is not its own; `at` is the offset of a record. */
static void mix_versions(struct maker *m, uint8_t *bytes, size_t length, size_t at)
{
    static const uint8_t neither[] = { 0, 3, 3, 4, 18, 129, 130, 255 };
    uint8_t own = (uint8_t)log_version(m->tables.levels), other = FIRST_EDITION + SECOND_EDITION - own;
    uint8_t unknown = neither[maker_below(m, sizeof neither)];

    switch (maker_below(m, 9)) {
    case 0: /* a record of the other edition */
        set_versions(bytes, at, at + RECORD_BYTES, other);
        break;
    case 1: /* the rest of the other edition */
        set_versions(bytes, at, length, other);
        break;
    case 2: /* the first record alone of the other edition */
        set_versions(bytes, 0, RECORD_BYTES, other);
        break;
    case 3: /* all but one of the other edition */
        set_versions(bytes, 0, length, other);
        set_versions(bytes, at, at + RECORD_BYTES, own);
        break;
    case 4: /* all of the other edition: no fault, but another number of levels */
    case 5:
        set_versions(bytes, 0, length, other);
        break;
    case 6: /* the first record of neither */
        set_versions(bytes, 0, RECORD_BYTES, unknown);
        break;
    case 7: /* all of neither */
        set_versions(bytes, 0, length, unknown);
        break;
    default: /* a record of neither */
        set_versions(bytes, at, at + RECORD_BYTES, unknown);
        break;
    }
}

/* Damages a log of whole records; gives its new length, at most one byte more. */
static size_t damage(struct maker *m, uint8_t *bytes, size_t length)
{
    size_t records = length / RECORD_BYTES, at;

    if (records == 0) {
        bytes[0] = (uint8_t)maker_below(m, 256);
        return 1;
    }
    at = maker_below(m, (uint32_t)records) * (size_t)RECORD_BYTES;
    if (m->tries_levels && maker_below(m, 100) < 40) {
        mix_versions(m, bytes, length, at);
        return length;
    }
    return damage_at(m, bytes, length, at);
}

/* Bytes for a log of so many records, and for one that damage adds; ends the program if there are none. */
static uint8_t *room_for(size_t records)
{
    uint8_t *bytes = malloc(records * RECORD_BYTES + 1);

    if (bytes == NULL) {
        fprintf(stderr, "generate: no memory for %zu records\n", records);
        exit(2);
    }
    return bytes;
}

static void make_log(struct maker *m, uint8_t *bytes, size_t records, int with_coverage)
{
    for (size_t i = 0; i < records; i++) {
        struct call call = next_call(m, with_coverage);

        log_write(bytes + i * RECORD_BYTES, log_version(m->tables.levels), call.number, call.argument[0], call.argument[1], call.argument[2],
                  call.argument[3]);
    }
}

static int write_log(uint64_t seed, uint32_t levels, size_t records, int is_damaged)
{
    static struct maker m;
    size_t length = records * RECORD_BYTES;
    uint8_t *bytes = room_for(records);

    start_log(&m, seed, levels);
    make_log(&m, bytes, records, 0);
    if (is_damaged)
        length = damage(&m, bytes, length);
    fwrite(bytes, 1, length, stdout);
    free(bytes);
    return fflush(stdout) == 0 ? 0 : 2;
}

/* Notes what the reader finds in a log, and in what damage makes of the whole of it and of its first few records. */
static void note_faults(struct maker *m, const uint8_t *bytes, size_t records)
{
    enum { TIMES = 20, FEW = 30 };
    uint8_t *damaged = room_for(records);

    faults_note(bytes, records * RECORD_BYTES);
    for (unsigned i = 0; i < TIMES; i++) {
        size_t some = i % 2 == 0 || records < FEW ? records : maker_below(m, FEW);

        memcpy(damaged, bytes, some * RECORD_BYTES);
        faults_note(damaged, damage(m, damaged, some * RECORD_BYTES));
    }
    free(damaged);
}

/* Makes the calls of a log by lists; ends the program if that is not as with single calls. */
static void make_lists(struct maker *m, uint64_t seed, const uint8_t *bytes, size_t records)
{
    const char *off = cuts_off(m, bytes, records * RECORD_BYTES);

    if (off == NULL)
        return;
    fprintf(stderr, "list off: %s, in the log of seed %llu with %lu levels\n", off, (unsigned long long)seed, (unsigned long)m->tables.levels);
    exit(3);
}

static void cover_seeds(uint64_t seeds, uint32_t levels, size_t records)
{
    static struct maker m;
    uint8_t *bytes = room_for(records);

    for (uint64_t seed = 1; seed <= seeds; seed++) {
        start_log(&m, seed, levels);
        make_log(&m, bytes, records, 1);
        note_faults(&m, bytes, records);
        make_lists(&m, seed, bytes, records);
    }
    free(bytes);
}

/* With that number of levels; with 0 as before No. 14, and then with both. */
static int print_coverage(uint64_t seeds, uint32_t levels, size_t records)
{
    cover_seeds(seeds, levels, records);
    if (levels == 0) {
        cover_seeds(seeds, LEVELS_LEAST, records);
        cover_seeds(seeds, LEVELS_MOST, records);
    }
    return coverage_print(stdout) == 0 ? 0 : 1;
}

static int is_number(const char *text, unsigned long long *number)
{
    char *end;

    *number = strtoull(text, &end, 10);
    return text[0] >= '0' && text[0] <= '9' && *end == '\0';
}

static int print_usage(void)
{
    fprintf(stderr, "usage: generate [--levels 16|32] SEED RECORDS [damaged]\n"
                    "       generate [--levels 16|32] --coverage SEEDS RECORDS\n"
                    "       generate --style SEED\n");
    return 2;
}

int main(int argc, char **argv)
{
    static struct maker m;
    unsigned long long first, second;
    uint32_t levels = 0;
    int wants_coverage, is_damaged;

    if (!take_levels(&argc, &argv, &levels))
        return print_usage();
    wants_coverage = argc == 4 && strcmp(argv[1], "--coverage") == 0;
    is_damaged = argc == 4 && strcmp(argv[3], "damaged") == 0;
    if (wants_coverage && is_number(argv[2], &first) && is_number(argv[3], &second) && second < RECORDS_END)
        return print_coverage(first, levels, (size_t)second);
    if (argc == 3 && strcmp(argv[1], "--style") == 0 && is_number(argv[2], &first)) {
        maker_start(&m, first, levels);
        puts(maker_style(&m));
        return 0;
    }
    if (!wants_coverage && (argc == 3 || is_damaged) && is_number(argv[1], &first) && is_number(argv[2], &second) && second < RECORDS_END)
        return write_log(first, levels, (size_t)second, is_damaged);
    return print_usage();
}
