/* Prints what a run of calls reached, and what it did not. */
#include "coverage.h"
#include "states.h"

/* The codes in the order of the checks; a single call cannot give 10. */
static const uint8_t order[] = { ACCEPTED,      UNKNOWN_CALL, WRONG_CONTEXT, OUTSIDE_TABLE, OBJECT_NOT_IN_USE, BAD_ARGUMENT,
                                 STATE_FORBIDS, TABLE_FULL,   AT_ITS_END,    NO_HEAP_ROOM,  SWITCH_IS_OFF };

/* What a run of calls adds up to. */
struct result {
    unsigned pairs;        /* of call and code that there can be */
    unsigned missing;      /* of those, and of the deep states */
    unsigned long stray;   /* answers with a code that the call cannot give */
};

static int can_have_outcome(uint32_t number, unsigned outcome)
{
    switch (number) {
    case TASK_SLEEP:
        return outcome == NOW_WAITING;
    case TASK_LAST_RESULT:
        return outcome == NOT_MET;
    case SEMAPHORE_PEND:
    case EVENT_PEND:
    case MAILBOX_POST:
    case MAILBOX_PEND:
        return 1;
    default:
        return 0;
    }
}

static const char *const orders[ORDERS] = { [BY_ARRIVAL] = "arrival", [BY_PRIORITY] = "priority" };

/* What happened at counting semaphores, a column for each order. */
static void print_counted(FILE *file)
{
    fprintf(file, "\nhow often at a counting semaphore\n%10s%10s\n", orders[BY_ARRIVAL], orders[BY_PRIORITY]);
    for (unsigned i = 0; i < COUNTED; i++)
        fprintf(file, "%10lu%10lu  %s\n", coverage.counted[i][BY_ARRIVAL], coverage.counted[i][BY_PRIORITY], counted[i]);
    fprintf(file, "%10llu%10llu  accepted posts since a count was set, at most\n", (unsigned long long)coverage.most_posts[BY_ARRIVAL],
            (unsigned long long)coverage.most_posts[BY_PRIORITY]);
    fprintf(file, "%10llu%10llu  units taken since a count was set, at most\n", (unsigned long long)coverage.most_taken[BY_ARRIVAL],
            (unsigned long long)coverage.most_taken[BY_PRIORITY]);
}

static const char *const places[POST_PLACES] = { [SEMAPHORE_PLACE] = "semaphore", [EVENT_PLACE] = "event", [MAILBOX_PLACE] = "mailbox" };

/* Whom posts woke, two columns for each place. */
static void print_woke(FILE *file)
{
    fprintf(file, "\nhow often a post, and in how many of %lu logs\n", coverage.logs);
    for (unsigned place = 0; place < POST_PLACES; place++)
        fprintf(file, "%10s%6s", places[place], "logs");
    fputc('\n', file);
    for (unsigned i = 0; i < WOKES; i++) {
        for (unsigned place = 0; place < POST_PLACES; place++)
            fprintf(file, "%10lu%6lu", coverage.woke[i][place].times, coverage.woke[i][place].logs);
        fprintf(file, "  %s\n", woke[i]);
    }
}

static const uint8_t switch_calls[SWITCH_CALLS] = { [CALL_OFF] = SWITCHES_OFF, [CALL_RESTORE] = SWITCHES_RESTORE };

/* What calls 77 and 78 met, two columns for each. */
static void print_switched(FILE *file)
{
    fprintf(file, "\nhow often a call of the switches, and in how many of %lu logs\n", coverage.logs);
    for (unsigned call = 0; call < SWITCH_CALLS; call++)
        fprintf(file, "%10X%6s", switch_calls[call], "logs");
    fputc('\n', file);
    for (unsigned i = 0; i < SWITCHED; i++) {
        for (unsigned call = 0; call < SWITCH_CALLS; call++)
            fprintf(file, "%10lu%6lu", coverage.switched[i][call].times, coverage.switched[i][call].logs);
        fprintf(file, "  %s\n", switched[i]);
    }
}

enum { GONE = LAST_GONE - FIRST_GONE + 1 };

static const char *const contexts[CONTEXTS] = { [FROM_TASK] = "task", [FROM_SWI] = "Swi", [FROM_INTERRUPT] = "interrupt" };

/* The numbers that No. 10 took away, two columns for each context. */
static void print_gone(FILE *file)
{
    fprintf(file, "\nhow often a number that No. 10 took away gave code 1, and in how many of %lu logs\n", coverage.logs);
    for (unsigned context = 0; context < CONTEXTS; context++)
        fprintf(file, "%10s%6s", contexts[context], "logs");
    fputc('\n', file);
    for (unsigned i = 0; i < GONE; i++) {
        for (unsigned context = 0; context < CONTEXTS; context++)
            fprintf(file, "%10lu%6lu", coverage.gone[i][context].times, coverage.gone[i][context].logs);
        fprintf(file, "  %X\n", FIRST_GONE + i);
    }
}

/* Which states of the switches were never reached; gives how many. */
static unsigned print_never_switched(FILE *file)
{
    unsigned missing = 0;

    for (unsigned i = 0; i < SWITCHED * SWITCH_CALLS; i++)
        if (coverage.switched[i / SWITCH_CALLS][i % SWITCH_CALLS].times == 0) {
            missing++;
            fprintf(file, "never: call %X %s\n", switch_calls[i % SWITCH_CALLS], switched[i / SWITCH_CALLS]);
        }
    for (unsigned i = 0; i < GONE * CONTEXTS; i++)
        if (coverage.gone[i / CONTEXTS][i % CONTEXTS].times == 0) {
            missing++;
            fprintf(file, "never: number %X, code 1, from: %s\n", FIRST_GONE + i / CONTEXTS, contexts[i % CONTEXTS]);
        }
    return missing;
}

static const uint32_t level_numbers[LEVEL_NUMBERS] = { [WITH_LEAST] = LEVELS_LEAST, [WITH_MOST] = LEVELS_MOST };

/* Whether a log was made with that number of levels and the state can be then. */
static int is_asked_for(enum levelled which, enum level_number number)
{
    return levelled[which].can_be[number] && coverage.logs_with[number] != 0;
}

/* With one number of levels alone, damage does not bring every fault. */
static int asks_for_faults(void)
{
    return coverage.logs_with[WITH_LEAST] != 0 && coverage.logs_with[WITH_MOST] != 0;
}

/* What came of the number of levels, two columns for each number. */
static void print_levelled(FILE *file)
{
    fprintf(file, "\nhow often with each number of levels, and in how many of %lu and %lu logs\n", coverage.logs_with[WITH_LEAST],
            coverage.logs_with[WITH_MOST]);
    for (unsigned number = 0; number < LEVEL_NUMBERS; number++)
        fprintf(file, "%10lu%6s", (unsigned long)level_numbers[number], "logs");
    fputc('\n', file);
    for (unsigned i = 0; i < LEVELLED; i++) {
        for (unsigned number = 0; number < LEVEL_NUMBERS; number++) {
            const struct tally *tally = &coverage.levelled[i][number];

            if (levelled[i].can_be[number] || tally->times != 0)
                fprintf(file, "%10lu%6lu", tally->times, tally->logs);
            else
                fprintf(file, "%10s%6s", "-", "-");
        }
        fprintf(file, "  %s\n", levelled[i].name);
    }
    fprintf(file, "%10lu%6s%10lu%6s  ready queues that are not empty, at most\n", (unsigned long)coverage.most_queues[WITH_LEAST], "",
            (unsigned long)coverage.most_queues[WITH_MOST], "");
}

/* What the reader found in the logs, damaged and not. */
static void print_found(FILE *file)
{
    fprintf(file, "\nhow often the reader found in a log\n");
    for (unsigned i = 0; i < FOUND; i++)
        fprintf(file, "%10lu  %s\n", coverage.found[i], found[i]);
}

/* What became of lists. */
static void print_listed(FILE *file)
{
    unsigned lengths = 0;

    for (unsigned i = 0; i <= LIST_CALLS; i++)
        lengths += coverage.list_length[i] != 0;
    fprintf(file, "\n%lu lists, %lu of them refused; %lu calls in the others, which have %u of %u lengths\nhow often, and in how many of %lu logs\n",
            coverage.lists, coverage.lists_refused, coverage.calls_listed, lengths, LIST_CALLS + 1u, coverage.logs);
    for (unsigned i = 0; i < LISTED; i++)
        fprintf(file, "%10lu%6lu  %s\n", coverage.listed[i].times, coverage.listed[i].logs, listed[i]);
}

/* Which states of the levels and which faults were never reached, and which states were that cannot be; gives how many. */
static unsigned print_never_levelled(FILE *file)
{
    unsigned missing = 0;

    for (unsigned i = 0; i < LEVELLED * LEVEL_NUMBERS; i++) {
        unsigned which = i / LEVEL_NUMBERS, number = i % LEVEL_NUMBERS;
        int is_there = coverage.levelled[which][number].times != 0, can_be = levelled[which].can_be[number];

        if (is_there ? can_be : !is_asked_for((enum levelled)which, (enum level_number)number))
            continue;
        missing++;
        fprintf(file, "%s: %s, with %lu levels\n", is_there ? "cannot be" : "never", levelled[which].name, (unsigned long)level_numbers[number]);
    }
    for (unsigned i = 0; i < FOUND; i++)
        if (asks_for_faults() && coverage.found[i] == 0) {
            missing++;
            fprintf(file, "never: found in a log: %s\n", found[i]);
        }
    return missing;
}

/* Which of the deep states were never reached; gives how many. */
static unsigned print_never(FILE *file)
{
    unsigned missing = print_never_switched(file) + print_never_levelled(file);

    for (unsigned i = 0; i < COUNTED * ORDERS; i++)
        if (coverage.counted[i / ORDERS][i % ORDERS] == 0) {
            missing++;
            fprintf(file, "never: %s, counting semaphore, order of %s\n", counted[i / ORDERS], orders[i % ORDERS]);
        }
    for (unsigned i = 0; i < WOKES * POST_PLACES; i++)
        if (coverage.woke[i / POST_PLACES][i % POST_PLACES].times == 0) {
            missing++;
            fprintf(file, "never: %s post %s\n", places[i % POST_PLACES], woke[i / POST_PLACES]);
        }
    for (unsigned i = 0; i < HAPPENED; i++)
        if (coverage.count[i].times == 0) {
            missing++;
            fprintf(file, "never: %s\n", happened[i]);
        }
    for (unsigned i = 0; i < LISTED; i++)
        if (coverage.listed[i].times == 0) {
            missing++;
            fprintf(file, "never: list %s\n", listed[i]);
        }
    return missing;
}

/* One call, a column for each code; adds to what the run lacks and what it should not have. */
static void print_call_codes(FILE *file, const struct call_form *form, struct result *result)
{
    fprintf(file, "%02lX %-25s", (unsigned long)form->number, form->name);
    for (unsigned place = 0; place < sizeof order; place++) {
        unsigned long count = coverage.pair[form->number][order[place]];

        if (!can_give(form, order[place])) {
            result->stray += count;
            fprintf(file, "%9s", count == 0 ? "-" : "NOT ITS");
            continue;
        }
        result->pairs++;
        result->missing += count == 0;
        if (count == 0)
            fprintf(file, "%9s", "NEVER");
        else
            fprintf(file, "%9lu", count);
    }
    for (unsigned outcome = 1; outcome < 3; outcome++) {
        unsigned long count = coverage.outcome[form->number][outcome];

        result->missing += count == 0 && can_have_outcome(form->number, outcome);
        if (can_have_outcome(form->number, outcome) || count != 0)
            fprintf(file, "%10lu", count);
        else
            fprintf(file, "%10s", "-");
    }
    fputc('\n', file);
}

/* How often each call gave each code, and the unknown numbers. */
static void print_codes(FILE *file, struct result *result)
{
    unsigned long unknown = 0;

    fprintf(file, "%-28s%9s", "call", "accepted");
    for (unsigned i = 1; i < sizeof order; i++)
        fprintf(file, "%*s%u", order[i] < 10 ? 8 : 7, "code ", order[i]);
    fprintf(file, "  outcome 1 outcome 2\n");
    for (unsigned i = 0; i < CALLS; i++)
        print_call_codes(file, &call_forms[i], result);
    for (unsigned number = 0; number < 256; number++)
        if (form_of(number) == NULL) {
            unknown += coverage.pair[number][UNKNOWN_CALL];
            for (unsigned code = 0; code < CODES; code++)
                if (code != UNKNOWN_CALL)
                    result->stray += coverage.pair[number][code];
        }
    result->pairs++;
    result->missing += unknown == 0;
    fprintf(file, "%-28s%9s%9lu\n\n", "unknown call numbers", "-", unknown);
}

static void print_states(FILE *file)
{
    fprintf(file, "greatest number at a time (of the greatest possible)\n");
    for (unsigned i = 0; i < MOSTS; i++)
        fprintf(file, "%10lu of %3lu  %s\n", (unsigned long)coverage.most[i], (unsigned long)mosts[i].limit, mosts[i].name);
    fprintf(file, "\nhow often, and in how many of %lu logs\n", coverage.logs);
    for (unsigned i = 0; i < HAPPENED; i++)
        fprintf(file, "%10lu%6lu  %s\n", coverage.count[i].times, coverage.count[i].logs, happened[i]);
    print_counted(file);
    print_woke(file);
    print_switched(file);
    print_gone(file);
    print_levelled(file);
    print_found(file);
    print_listed(file);
}

static unsigned deep_states(void)
{
    unsigned states = (unsigned)HAPPENED + COUNTED * ORDERS + WOKES * POST_PLACES + SWITCHED * SWITCH_CALLS + GONE * CONTEXTS + LISTED;

    for (unsigned i = 0; i < LEVELLED * LEVEL_NUMBERS; i++)
        states += is_asked_for((enum levelled)(i / LEVEL_NUMBERS), (enum level_number)(i % LEVEL_NUMBERS)) ? 1 : 0;
    return states + (asks_for_faults() ? FOUND : 0);
}

unsigned coverage_print(FILE *file)
{
    struct result result = { 0, 0, 0 };

    fprintf(file, "%lu calls\n\n", coverage.calls);
    print_codes(file, &result);
    print_states(file);
    fputc('\n', file);
    result.missing += print_never(file);
    for (unsigned i = 0; i < CALLS; i++)
        for (unsigned code = 0; code < CODES; code++)
            if (can_give(&call_forms[i], code) && coverage.pair[call_forms[i].number][code] == 0)
                fprintf(file, "never: call %02lX (%s) with code %u\n", (unsigned long)call_forms[i].number, call_forms[i].name, code);
    if (result.stray != 0)
        fprintf(file, "%lu answers with a code that the call cannot give\n", result.stray);
    fprintf(file, "%u pairs of call and code and %u deep states, %u of them never reached\n", result.pairs, deep_states(), result.missing);
    return result.missing + (result.stray != 0);
}
