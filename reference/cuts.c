/* Cuts the calls of a random log into lists of random lengths, hands them over and counts what became of them. */
#include "cuts.h"
#include "log.h"
#include "states.h"
#include "sums.h"
#include "ways.h"

#include <stdio.h>
#include <stdlib.h>
#include <string.h>

enum { LIST_WORDS = LIST_CALLS * CALL_WORDS };

/* The list that is handed over. What stands behind it are words of others before it; a list that is too long, and so refused, has them too. */
static uint32_t list[2 * LIST_WORDS];

static struct ways ways;
static struct sums sums; /* of the calls of this log so far, by the answers of their lists */

static void note(enum listed which, int is_so)
{
    add_to(&coverage.listed[which], is_so);
}

/* Of an accepted list. */
static void note_calls(size_t calls, size_t room, struct thread before)
{
    struct thread after = ways.last.thread;
    size_t accepted_before = 0, refused = 0;
    int refused_between = 0, has_high_number = 0;

    for (size_t i = 0; i < calls; i++) {
        int is_accepted = ways.answers[i * ANSWER_WORDS] == ACCEPTED;

        refused_between |= is_accepted && accepted_before != 0 && refused != 0;
        accepted_before += is_accepted && refused == 0;
        refused += !is_accepted;
        has_high_number |= list[i * CALL_WORDS] > 255;
    }
    note(LIST_EMPTY, calls == 0);
    note(LIST_OF_ONE, calls == 1);
    note(LIST_OF_SOME, calls > 1 && calls < LIST_CALLS);
    note(LIST_OF_MOST, calls == LIST_CALLS);
    note(ROOM_EXACT, room == calls * ANSWER_WORDS && calls != 0);
    note(ROOM_LONGER, room > calls * ANSWER_WORDS);
    note(REFUSED_BETWEEN, refused_between);
    note(REFUSED_ALONE, calls != 0 && refused == calls);
    note(HIGH_NUMBER, has_high_number);
    note(LEFT_TASK, after.kind == 'T');
    note(LEFT_SWI, after.kind == 'S');
    note(LEFT_INTERRUPT, after.kind == 'I');
    note(LEFT_OTHER_THREAD, after.kind != before.kind || after.number != before.number);
    note(EMPTY_NOT_IN_TASK, calls == 0 && after.kind != 'T');
    coverage.calls_listed += calls;
    coverage.list_length[calls]++;
}

/* Of a list with code 4. */
static void note_refused(size_t words, size_t room)
{
    size_t needed = words / CALL_WORDS * ANSWER_WORDS;

    note(WORDS_LEFT_OVER, words % CALL_WORDS != 0 && words < LIST_WORDS);
    note(WORD_TOO_MANY, words == LIST_WORDS + 1);
    note(CALL_TOO_MANY, words == LIST_WORDS + CALL_WORDS);
    note(CALLS_TOO_MANY, words > LIST_WORDS + CALL_WORDS && words % CALL_WORDS == 0);
    note(ROOM_ONE_SHORT, words % CALL_WORDS == 0 && words <= LIST_WORDS && room + 1 == needed);
    note(ROOM_SHORT, words % CALL_WORDS == 0 && words <= LIST_WORDS && room + 1 < needed);
    note(REFUSED_IN_TASK, ways.last.thread.kind == 'T');
    note(REFUSED_IN_SWI, ways.last.thread.kind == 'S');
    note(REFUSED_IN_INTERRUPT, ways.last.thread.kind == 'I');
}

/* Of a list with code 10: what it would be on sound tables. */
static void note_unsound(size_t words, size_t room)
{
    int is_good = words % CALL_WORDS == 0 && words <= LIST_WORDS && room >= words / CALL_WORDS * ANSWER_WORDS;

    note(UNSOUND_EMPTY, words == 0);
    note(UNSOUND_GOOD, is_good && words != 0);
    note(UNSOUND_BAD, !is_good);
}

/* Hands over so many words and that room; gives what is off, in words, or a null pointer. */
static const char *hand_over(size_t words, size_t room)
{
    static char text[200];
    enum code code = list_code(&ways.single, words, room);
    struct thread before = code == NOT_SOUND ? (struct thread){ 'T', 0 } : core_running(&ways.single);
    const char *fault = ways_list(&ways, list, words, room);

    if (fault != NULL) {
        snprintf(text, sizeof text, "%s, in a list of %zu words with room for %zu that has to be answered %u", fault, words, room, (unsigned)code);
        return text;
    }
    coverage.lists++;
    coverage.lists_refused += code != ACCEPTED;
    if (code == ACCEPTED)
        note_calls(words / CALL_WORDS, room, before);
    else if (code == BAD_ARGUMENT)
        note_refused(words, room);
    else
        note_unsound(words, room);
    return NULL;
}

/* Hands over a list on tables that are not sound, and puts the sound ones back. */
static const char *hand_over_unsound(struct maker *m, size_t words, size_t room)
{
    static struct tables sound;
    const char *fault;

    sound = ways.single;
    do {
        ways.single = sound;
        ((uint8_t *)&ways.single)[maker_below(m, sizeof sound)] ^= (uint8_t)(1u << maker_below(m, 8));
    } while (core_unsound(&ways.single) == NULL);
    ways.listed = ways.single;
    fault = hand_over(words, room);
    ways.listed = sound;
    ways.single = sound;
    return fault;
}

/* Hands over, before the list of so many words, one that has to be refused. */
static const char *hand_over_refused(struct maker *m, size_t words)
{
    size_t room = words / CALL_WORDS * ANSWER_WORDS, shorter = room == 0 ? 0 : maker_below(m, (uint32_t)room);

    switch (maker_below(m, room == 0 ? 8 : 12)) {
    case 0: /* words left over */
        return hand_over(words + 1 + maker_below(m, CALL_WORDS - 1), WAYS_ROOM);
    case 1: /* too many, and left over, or one call too many, or more */
        return hand_over(LIST_WORDS + 1, WAYS_ROOM);
    case 2:
        return hand_over(LIST_WORDS + CALL_WORDS, WAYS_ROOM);
    case 3:
        return hand_over(LIST_WORDS + (1 + maker_below(m, LIST_CALLS)) * CALL_WORDS, WAYS_ROOM);
    case 4: /* tables that are not sound, with a list that is bad too, or is not */
        return hand_over_unsound(m, words + maker_below(m, CALL_WORDS), WAYS_ROOM);
    case 5:
        return hand_over_unsound(m, words, room);
    case 6:
        return hand_over_unsound(m, 0, maker_below(m, SPARE));
    case 7:
        return hand_over_unsound(m, words, shorter);
    case 8: /* words missing */
        return hand_over(words - 1 - maker_below(m, CALL_WORDS - 1), WAYS_ROOM);
    case 9: /* too little room */
        return hand_over(words, room - 1);
    default:
        return hand_over(words, shorter);
    }
}

/* How many calls of the log the next list has, if so many are left. */
static size_t some_length(struct maker *m)
{
    switch (maker_below(m, 8)) {
    case 0:
        return 0;
    case 1:
        return 1;
    case 2:
        return LIST_CALLS;
    case 3:
    case 4:
    case 5:
        return maker_below(m, 20);
    default:
        return maker_below(m, LIST_CALLS + 1);
    }
}

/* Puts a call between those of the list whose number is above 255 and ends like a known one; gives the new number of words. */
static size_t put_high_number(struct maker *m, size_t words)
{
    size_t at = maker_below(m, (uint32_t)(words / CALL_WORDS) + 1) * (size_t)CALL_WORDS;
    uint32_t known = call_forms[maker_below(m, CALLS)].number;

    memmove(list + at + CALL_WORDS, list + at, (words - at) * sizeof list[0]);
    list[at] = known + ((uint32_t)1 << (8 + maker_below(m, 24)));
    for (unsigned i = 1; i < CALL_WORDS; i++)
        list[at + i] = maker_below(m, 3);
    return words + CALL_WORDS;
}

/* Notes the calls of the list for the sums; gives what is off, in words, or a null pointer. */
static const char *list_sums_off(size_t words)
{
    for (size_t i = 0; i < words / CALL_WORDS; i++) {
        const uint32_t *word = list + i * CALL_WORDS, *answer = ways.answers + i * ANSWER_WORDS;
        const struct call call = { word[0], { word[1], word[2], word[3], word[4] } };

        sums_note(&sums, &call, (struct answer){ (uint16_t)answer[0], (uint16_t)answer[1], answer[2] });
    }
    return sums_off(&sums, &ways.listed);
}

/* Hands over the next of so many calls that are left; gives what is off, and through *used how many of them the list had. */
static const char *next_list(struct maker *m, const uint32_t *calls, size_t left, size_t *used)
{
    size_t length = some_length(m), words;
    const char *off = NULL;

    *used = length < left ? length : left;
    words = *used * CALL_WORDS;
    memcpy(list, calls, words * sizeof list[0]);
    if (words < LIST_WORDS && maker_below(m, 4) == 0)
        words = put_high_number(m, words);
    if (maker_below(m, 2) == 0)
        off = hand_over_refused(m, words);
    if (off == NULL)
        off = hand_over(words, words / CALL_WORDS * ANSWER_WORDS + (maker_below(m, 2) == 0 ? 0 : maker_below(m, SPARE + 1)));
    return off != NULL ? off : list_sums_off(words);
}

const char *cuts_off(struct maker *m, const uint8_t *bytes, size_t length)
{
    struct log log = { bytes, length, 0 };
    uint32_t *calls = malloc((length / RECORD_BYTES + 1) * CALL_WORDS * sizeof *calls);
    size_t n, used;
    const char *off = NULL;

    if (calls == NULL)
        return "no memory";
    n = log_calls(&log, calls);
    ways_fresh(&ways, m->tables.levels);
    sums_fresh(&sums);
    for (size_t at = 0; at < n && off == NULL; at += used)
        off = next_list(m, calls + at * CALL_WORDS, n - at, &used);
    free(calls);
    if (off == NULL && memcmp(&ways.listed, &m->tables, sizeof m->tables) != 0)
        off = "the tables after the last list are not those after the log";
    return off;
}
