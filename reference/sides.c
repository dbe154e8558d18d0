/*
 * Sequences of calls at one semaphore, written by hand with the two sides of its sum (sums.h) after each call. They are
 * checked by kinds --check, one by one and by lists, and written as no log.
 */
#include "kinds.h"
#include "sums.h"
#include "wakes.h"

#include <string.h>

struct step {
    struct call call;
    struct answer answer;
    struct {
        uint32_t set, posts;   /* the one side */
        uint32_t now, taken;   /* the other */
    } sides;                   /* after the call; all 0 while there is no semaphore */
    unsigned times;            /* how often the call is made, 0 for once; the sides are those after the last time */
};

struct sequence {
    const char *name;
    uint32_t semaphore;
    int has_sum;               /* whether the sum is claimed: for kinds 0 and 2 */
    const struct step *step;
    size_t steps;
};

/* Everything in one sum, the end of the count too. At semaphore 2; in the comments its line, the front first. */
static const struct step arrival[] = {
    { { SEMAPHORE_CREATE, { BINARY, 1 } }, { 0, 0, 0 }, { 0, 0, 0, 0 }, 0 },
    { { SEMAPHORE_CREATE, { BINARY_BY_PRIORITY, 0 } }, { 0, 0, 1 }, { 0, 0, 0, 0 }, 0 },
    { { SEMAPHORE_CREATE, { COUNTING, 65536 } }, { 4, 0, 0 }, { 0, 0, 0, 0 }, 0 },
    { { SEMAPHORE_CREATE, { COUNTING, 65534 } }, { 0, 0, 2 }, { 65534, 0, 65534, 0 }, 0 },
    { { SEMAPHORE_POST, { 2 } }, { 0, 0, 0 }, { 65534, 1, 65535, 0 }, 0 },
    { { SEMAPHORE_POST, { 2 } }, { 7, 0, 0 }, { 65534, 1, 65535, 0 }, 0 },
    { { SEMAPHORE_POST, { 2, 1 } }, { 4, 0, 0 }, { 65534, 1, 65535, 0 }, 0 },
    { { SEMAPHORE_PEND, { 2 } }, { 0, 0, 0 }, { 65534, 1, 65534, 1 }, 0 },
    { { SEMAPHORE_PEND, { 2, F } }, { 0, 0, 0 }, { 65534, 1, 65533, 2 }, 0 },      /* done at once, limit or not */
    { { SEMAPHORE_POST, { 2 } }, { 0, 0, 0 }, { 65534, 3, 65535, 2 }, 2 },
    { { SEMAPHORE_POST, { 2 } }, { 7, 0, 0 }, { 65534, 3, 65535, 2 }, 3 },
    { { SEMAPHORE_PEND, { 2 } }, { 0, 0, 0 }, { 65534, 3, 0, 65537 }, 65535 },     /* the count runs out */
    { { SEMAPHORE_PEND, { 2 } }, { 0, 1, 0 }, { 65534, 3, 0, 65537 }, 0 },         /* not met */
    { { SEMAPHORE_PEND, { 2, 5 } }, { 5, 0, 0 }, { 65534, 3, 0, 65537 }, 0 },      /* task 0 would wait */
    { { SEMAPHORE_POST, { 2, 0, 0, 1 } }, { 4, 0, 0 }, { 65534, 3, 0, 65537 }, 0 },
    { { SEMAPHORE_POST, { 0 } }, { 0, 0, 0 }, { 65534, 3, 0, 65537 }, 0 },         /* at another semaphore */
    { { TASK_CREATE, { 5 } }, { 0, 0, 1 }, { 65534, 3, 0, 65537 }, 0 },            /* task 1 runs */
    { { SEMAPHORE_PEND, { 2, 1 } }, { 0, 2, 0 }, { 65534, 3, 0, 65537 }, 0 },      /* 1 */
    { { TASK_CREATE, { 4 } }, { 0, 0, 2 }, { 65534, 3, 0, 65537 }, 0 },            /* task 2 runs */
    { { SEMAPHORE_PEND, { 2, F } }, { 0, 2, 0 }, { 65534, 3, 0, 65537 }, 0 },      /* 1 2 */
    { { SEMAPHORE_RESET, { 2, 9 } }, { 5, 0, 0 }, { 65534, 3, 0, 65537 }, 0 },
    { { SEMAPHORE_DELETE, { 2 } }, { 5, 0, 0 }, { 65534, 3, 0, 65537 }, 0 },
    { { INTERRUPT_IN, { 0 } }, { 0, 0, 0 }, { 65534, 3, 0, 65537 }, 0 },
    { { TICK, { 0 } }, { 0, 0, 0 }, { 65534, 3, 0, 65537 }, 0 },                   /* task 1 expires: 2 */
    { { SEMAPHORE_PEND, { 2, 1 } }, { 2, 0, 0 }, { 65534, 3, 0, 65537 }, 0 },
    { { SEMAPHORE_PEND, { 2 } }, { 0, 1, 0 }, { 65534, 3, 0, 65537 }, 0 },
    { { SEMAPHORE_POST, { 2 } }, { 0, 0, 2 }, { 65534, 4, 0, 65538 }, 0 },         /* task 2 is ready */
    { { SEMAPHORE_POST, { 2 } }, { 0, 0, 0 }, { 65534, 5, 1, 65538 }, 0 },         /* nobody waits */
    { { INTERRUPT_OUT, { 0 } }, { 0, 0, 0 }, { 65534, 5, 1, 65538 }, 0 },          /* task 1 runs */
    { { SEMAPHORE_RESET, { 2, 65536 } }, { 4, 0, 0 }, { 65534, 5, 1, 65538 }, 0 },
    { { SWITCHES_OFF, { TASKS_SWITCH } }, { 0, 0, 2 }, { 65534, 5, 1, 65538 }, 0 },
    { { SEMAPHORE_POST, { 2 } }, { 0, 0, 0 }, { 65534, 6, 2, 65538 }, 0 },
    { { SEMAPHORE_PEND, { 2, F } }, { 0, 0, 0 }, { 65534, 6, 0, 65540 }, 2 },
    { { SEMAPHORE_PEND, { 2, F } }, { 9, 0, 0 }, { 65534, 6, 0, 65540 }, 0 },      /* a wait would begin */
    { { SWITCHES_RESTORE, { TASKS_SWITCH, 2 } }, { 0, 0, 0 }, { 65534, 6, 0, 65540 }, 0 },
    { { SEMAPHORE_POST, { 2 } }, { 0, 0, 0 }, { 65534, 7, 1, 65540 }, 0 },
    { { SEMAPHORE_RESET, { 2, 7 } }, { 0, 0, 0 }, { 7, 0, 7, 0 }, 0 },             /* a new start */
    { { SEMAPHORE_PEND, { 2, F } }, { 0, 0, 0 }, { 7, 0, 6, 1 }, 0 },
    { { SEMAPHORE_POST, { 2 } }, { 0, 0, 0 }, { 7, 1, 7, 1 }, 0 },
    { { SEMAPHORE_DELETE, { 2 } }, { 0, 0, 0 }, { 0, 0, 0, 0 }, 0 },               /* nothing is claimed */
    { { SEMAPHORE_POST, { 2 } }, { 11, 0, 3 }, { 0, 0, 0, 0 }, 0 },
    { { SEMAPHORE_CREATE, { COUNTING, 3 } }, { 0, 0, 2 }, { 3, 0, 3, 0 }, 0 },     /* a new start */
    { { SEMAPHORE_PEND, { 2 } }, { 0, 0, 0 }, { 3, 0, 2, 1 }, 0 },
    { { SEMAPHORE_POST, { 2 } }, { 0, 0, 0 }, { 3, 2, 4, 1 }, 2 },
};

/* At semaphore 0, by priority. */
static const struct step priority[] = {
    { { SEMAPHORE_CREATE, { COUNTING_BY_PRIORITY, 1 } }, { 0, 0, 0 }, { 1, 0, 1, 0 }, 0 },
    { { TASK_CREATE, { 3 } }, { 0, 0, 1 }, { 1, 0, 1, 0 }, 0 },                    /* task 1 runs */
    { { SEMAPHORE_PEND, { 0, F } }, { 0, 0, 0 }, { 1, 0, 0, 1 }, 0 },              /* done at once */
    { { SEMAPHORE_PEND, { 0, F } }, { 0, 2, 0 }, { 1, 0, 0, 1 }, 0 },              /* 1 */
    { { TASK_CREATE, { 5 } }, { 0, 0, 2 }, { 1, 0, 0, 1 }, 0 },                    /* task 2 runs */
    { { SEMAPHORE_PEND, { 0, 1 } }, { 0, 2, 0 }, { 1, 0, 0, 1 }, 0 },              /* 2 1 */
    { { TASK_CREATE, { 4 } }, { 0, 0, 3 }, { 1, 0, 0, 1 }, 0 },                    /* task 3 runs */
    { { SEMAPHORE_PEND, { 0, 2 } }, { 0, 2, 0 }, { 1, 0, 0, 1 }, 0 },              /* 2 3 1 */
    { { SEMAPHORE_RESET, { 0, 0 } }, { 5, 0, 0 }, { 1, 0, 0, 1 }, 0 },
    { { INTERRUPT_IN, { 0 } }, { 0, 0, 0 }, { 1, 0, 0, 1 }, 0 },
    { { TICK, { 0 } }, { 0, 0, 0 }, { 1, 0, 0, 1 }, 0 },                           /* task 2 expires: 3 1 */
    { { SEMAPHORE_POST, { 0 } }, { 0, 0, 3 }, { 1, 1, 0, 2 }, 0 },                 /* task 3, one tick before its end */
    { { TICK, { 0 } }, { 0, 0, 0 }, { 1, 1, 0, 2 }, 0 },
    { { INTERRUPT_OUT, { 0 } }, { 0, 0, 0 }, { 1, 1, 0, 2 }, 0 },                  /* task 2 runs */
    { { TASK_LAST_RESULT, { 2 } }, { 0, 1, 0 }, { 1, 1, 0, 2 }, 0 },
    { { TASK_LAST_RESULT, { 3 } }, { 0, 0, 0 }, { 1, 1, 0, 2 }, 0 },
    { { SEMAPHORE_POST, { 0 } }, { 0, 0, 1 }, { 1, 2, 0, 3 }, 0 },                 /* task 1 */
    { { SEMAPHORE_POST, { 0 } }, { 0, 0, 0 }, { 1, 4, 2, 3 }, 2 },                 /* nobody waits */
    { { SEMAPHORE_POST, { 0, 0, 1 } }, { 4, 0, 0 }, { 1, 4, 2, 3 }, 0 },
    { { SEMAPHORE_PEND, { 0 } }, { 0, 0, 0 }, { 1, 4, 1, 4 }, 0 },
    { { EVENT_CREATE, { 0 } }, { 0, 0, 0 }, { 1, 4, 1, 4 }, 0 },                   /* event 0 is no semaphore 0 */
    { { EVENT_POST, { 0, 1 } }, { 0, 0, 0 }, { 1, 4, 1, 4 }, 0 },
    { { EVENT_PEND, { 0, 1 } }, { 0, 0, 1 }, { 1, 4, 1, 4 }, 0 },
    { { SEMAPHORE_RESET, { 0, 65534 } }, { 0, 0, 0 }, { 65534, 0, 65534, 0 }, 0 },
    { { SEMAPHORE_POST, { 0 } }, { 0, 0, 0 }, { 65534, 1, 65535, 0 }, 0 },
    { { SEMAPHORE_POST, { 0 } }, { 7, 0, 0 }, { 65534, 1, 65535, 0 }, 0 },
    { { SEMAPHORE_RESET, { 0, 0 } }, { 0, 0, 0 }, { 0, 0, 0, 0 }, 0 },
    { { SEMAPHORE_PEND, { 0 } }, { 0, 1, 0 }, { 0, 0, 0, 0 }, 0 },
    { { SEMAPHORE_POST, { 0 } }, { 0, 0, 0 }, { 0, 65535, 65535, 0 }, 65535 },     /* through every count */
    { { SEMAPHORE_POST, { 0 } }, { 7, 0, 0 }, { 0, 65535, 65535, 0 }, 0 },
    { { SEMAPHORE_PEND, { 0, 1 } }, { 0, 0, 0 }, { 0, 65535, 65534, 1 }, 0 },
};

/* Why binary ones are left out: a post at 1 is accepted and adds no unit. */
static const struct step binary[] = {
    { { SEMAPHORE_CREATE, { BINARY, 1 } }, { 0, 0, 0 }, { 1, 0, 1, 0 }, 0 },
    { { SEMAPHORE_POST, { 0 } }, { 0, 0, 0 }, { 1, 1, 1, 0 }, 0 },                 /* 1 + 1 against 1 + 0 */
    { { SEMAPHORE_PEND, { 0 } }, { 0, 0, 0 }, { 1, 1, 0, 1 }, 0 },
    { { SEMAPHORE_PEND, { 0 } }, { 0, 1, 0 }, { 1, 1, 0, 1 }, 0 },                 /* the second unit is not there */
    { { SEMAPHORE_RESET, { 0, 0 } }, { 0, 0, 0 }, { 0, 0, 0, 0 }, 0 },
    { { SEMAPHORE_POST, { 0 } }, { 0, 0, 0 }, { 0, 1, 1, 0 }, 0 },
    { { SEMAPHORE_POST, { 0 } }, { 0, 0, 0 }, { 0, 3, 1, 0 }, 2 },
};

static const struct step binary_by_priority[] = {
    { { SEMAPHORE_CREATE, { BINARY_BY_PRIORITY, 1 } }, { 0, 0, 0 }, { 1, 0, 1, 0 }, 0 },
    { { SEMAPHORE_POST, { 0 } }, { 0, 0, 0 }, { 1, 1, 1, 0 }, 0 },
};

#define SEQUENCE(name, semaphore, has_sum) { #name, semaphore, has_sum, name, sizeof name / sizeof name[0] }

static const struct sequence sequences[] = {
    SEQUENCE(arrival, 2, 1),
    SEQUENCE(priority, 0, 1),
    SEQUENCE(binary, 0, 0),
    SEQUENCE(binary_by_priority, 0, 0),
};

static unsigned faults;

/* What is checked now. */
static struct {
    const char *name;
    size_t step;
} place;

static void expect(int is_so, const char *what)
{
    if (!is_so) {
        fprintf(stderr, "kinds: sides, %s, step %zu: %s\n", place.name, place.step + 1, what);
        faults++;
    }
}

/* sums_off tells a wrong count exactly where there is a sum. */
static void check_off(const struct sums *sums, const struct tables *t, const struct sequence *sequence)
{
    static struct tables other;
    struct sums changed = *sums;
    struct sum *sum = &changed.semaphore[sequence->semaphore];
    uint32_t *count = &other.semaphore[sequence->semaphore].count;
    int has_sum = sequence->has_sum && sum->is_created;

    other = *t;
    *count += 1;
    expect((sums_off(sums, &other) != NULL) == has_sum, "a unit too many");
    *count -= 2;
    expect((sums_off(sums, &other) != NULL) == has_sum, "a unit too few");
    sum->is_created = !sum->is_created;
    expect(sums_off(&changed, t) != NULL, "created by the history alone, or in use in the tables alone");
}

/* Were there a sum for every kind, it would be off where the two sides are not equal. */
static void check_equal(const struct sums *sums, const struct tables *t, const struct sequence *sequence, int is_equal)
{
    struct sums changed = *sums;

    expect(is_equal || !sequence->has_sum, "two sides that are not equal");
    changed.semaphore[sequence->semaphore].kind = COUNTING;
    expect((sums_off(&changed, t) == NULL) == is_equal, "a sum of a binary semaphore");
}

static void check_sides(const struct sums *sums, const struct tables *t, const struct sequence *sequence)
{
    const struct sum *sum = &sums->semaphore[sequence->semaphore];
    const struct step *step = &sequence->step[place.step];

    expect(sum->count_set == step->sides.set, "another count set");
    expect(sum->posts == step->sides.posts, "other posts");
    expect(t->semaphore[sequence->semaphore].count == step->sides.now, "another count now");
    expect(sum->taken == step->sides.taken, "other units taken");
    check_off(sums, t, sequence);
    check_equal(sums, t, sequence, step->sides.set + step->sides.posts == step->sides.now + step->sides.taken);
}

static void check_call(struct sums *sums, struct tables *t, const struct step *step)
{
    static struct tables before;
    const uint32_t *a = step->call.argument;
    struct answer answer;

    before = *t;
    answer = core_call(t, step->call.number, a[0], a[1], a[2], a[3]);
    expect(answer.code == step->answer.code, "another code");
    expect(answer.outcome == step->answer.outcome && answer.value == step->answer.value, "another answer");
    sums_note(sums, &step->call, answer);
    expect(sums_off(sums, t) == NULL, "a sum is off");
    expect(wake_off(&before, t, &step->call, answer) == NULL, "another task woken, or told");
}

/* Gives the number of calls. Nothing is told after the first step with a fault, for the rest follows from it. */
static unsigned long check_sequence(const struct sequence *sequence)
{
    static struct tables t;
    struct sums sums;
    unsigned long calls = 0;
    unsigned faults_before = faults;

    place.name = sequence->name;
    core_fresh(&t, LEVELS_LEAST);
    sums_fresh(&sums);
    for (place.step = 0; place.step < sequence->steps && faults == faults_before; place.step++) {
        const struct step *step = &sequence->step[place.step];
        unsigned times = step->times == 0 ? 1 : step->times;

        for (unsigned i = 0; i < times && faults == faults_before; i++)
            check_call(&sums, &t, step);
        check_sides(&sums, &t, sequence);
        calls += times;
    }
    return calls;
}

/* Calls of a sequence that are handed over as one list, and the step of each. */
struct handed {
    uint32_t calls[LIST_CALLS * CALL_WORDS];
    size_t step[LIST_CALLS];
    size_t n;
};

static unsigned long lists;

/* What is counted for the sums are the words that the list is answered. */
static void hand_over(struct handed *handed, struct sums *sums, struct tables *t, const struct sequence *sequence)
{
    uint32_t answers[LIST_CALLS * CALL_WORDS]; /* more than is lent */
    struct list_answer list = core_list(t, handed->calls, handed->n * CALL_WORDS, answers, handed->n * ANSWER_WORDS);

    expect(list.answer.code == ACCEPTED, "a list is refused");
    for (size_t i = 0; i < handed->n; i++) {
        const struct step *step = &sequence->step[handed->step[i]];
        const uint32_t *word = answers + i * ANSWER_WORDS;

        place.step = handed->step[i];
        expect(word[0] == step->answer.code && word[1] == step->answer.outcome && word[2] == step->answer.value, "another answer in a list");
        sums_note(sums, &step->call, (struct answer){ (uint16_t)word[0], (uint16_t)word[1], word[2] });
    }
    expect(sums_off(sums, t) == NULL, "a sum is off after a list");
    handed->n = 0;
    lists++;
}

/* How a sequence is cut into lists: of so many calls, and at each step's end or not. */
struct cut {
    size_t length;
    int at_steps;
};

/* The same by lists. Where a list ends with a step, the sides are that step's. */
static void check_by_lists(const struct sequence *sequence, const struct cut *cut)
{
    static struct tables t;
    static struct handed handed;
    struct sums sums;
    unsigned faults_before = faults;

    place.name = sequence->name;
    handed.n = 0;
    core_fresh(&t, LEVELS_LEAST);
    sums_fresh(&sums);
    for (size_t i = 0; i < sequence->steps; i++) {
        unsigned times = sequence->step[i].times == 0 ? 1 : sequence->step[i].times;

        for (unsigned time = 1; time <= times && faults == faults_before; time++) {
            int is_step_end = time == times;

            memcpy(handed.calls + handed.n * CALL_WORDS, &sequence->step[i].call, CALL_WORDS * sizeof handed.calls[0]);
            handed.step[handed.n++] = i;
            if (handed.n < cut->length && !(is_step_end && (cut->at_steps || i + 1 == sequence->steps)))
                continue;
            hand_over(&handed, &sums, &t, sequence);
            if (is_step_end)
                check_sides(&sums, &t, sequence);
        }
    }
}

/* A history that no core gave: the sums go by the calls and the answers alone. */
static void check_history(void)
{
    static const struct {
        struct call call;
        struct answer answer;
    } history[] = {
        { { SEMAPHORE_CREATE, { COUNTING_BY_PRIORITY, 4 } }, { 0, 0, 9 } },    /* semaphore 9, by the value */
        { { SEMAPHORE_POST, { 9 } }, { 0, 0, 31 } },                           /* readied one, whatever its number */
        { { SEMAPHORE_POST, { 9 } }, { 0, 0, 0 } },
        { { SEMAPHORE_POST, { 9 } }, { 11, 0, 3 } },                           /* refused, though the value is not 0 */
        { { SEMAPHORE_PEND, { 9 } }, { 11, 0, 3 } },
        { { SEMAPHORE_PEND, { 9 } }, { 0, 0, 0 } },
        { { SEMAPHORE_PEND, { 9 } }, { 0, 1, 0 } },
        { { SEMAPHORE_PEND, { 9, F } }, { 0, 2, 0 } },
        { { SEMAPHORE_RESET, { 9, 5 } }, { 5, 0, 0 } },
        { { SEMAPHORE_DELETE, { 9 } }, { 5, 0, 0 } },
        { { SEMAPHORE_POST, { F } }, { 0, 0, 1 } },                            /* of no semaphore */
    };
    struct sums sums;
    const struct sum *sum = &sums.semaphore[9];
    uint32_t created = 0;

    sums_fresh(&sums);
    for (size_t i = 0; i < sizeof history / sizeof history[0]; i++)
        sums_note(&sums, &history[i].call, history[i].answer);
    for (uint32_t i = 0; i < SEMAPHORES; i++)
        created += sums.semaphore[i].is_created;
    place.name = "history";
    place.step = 0;
    expect(created == 1 && sum->is_created && sum->kind == COUNTING_BY_PRIORITY, "semaphore 9 alone is created");
    expect(sum->count_set == 4 && sum->posts == 2 && sum->taken == 2, "count set 4, posts 2, units taken 2");
}

unsigned sides_check(unsigned long *calls, unsigned long *lists_made)
{
    static const struct cut cuts[] = { { LIST_CALLS, 1 }, { LIST_CALLS, 0 }, { 7, 0 } };

    for (size_t i = 0; i < sizeof sequences / sizeof sequences[0]; i++) {
        *calls += check_sequence(&sequences[i]);
        for (size_t k = 0; k < sizeof cuts / sizeof cuts[0]; k++)
            check_by_lists(&sequences[i], &cuts[k]);
    }
    check_history();
    *lists_made += lists;
    return faults;
}
