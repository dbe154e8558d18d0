/* Makes random calls. The maker runs the core beside it, sees its tables and steers them into deep states. */
#include "chance.h"
#include "likely.h"
#include "maker.h"
#include "objects.h"
#include "sight.h"
#include "steps.h"

#include <stddef.h>

/* What the maker is after; a phase lasts some steps. */
enum phase {
    ANY,               /* every call alike, with likely arguments */
    WILD,              /* any number as call or argument */
    LINE,              /* a long line at a semaphore */
    WRITERS,           /* a full mailbox and a line of writers */
    READERS,           /* an empty mailbox and a line of readers */
    EVENTS_WAITED,     /* waiters at events */
    WAKE,              /* serves waiters */
    EXPIRE,            /* ticks, until limits and sleeps end */
    NEST,              /* interrupts in interrupts */
    TOWER,             /* Swis that preempt each other */
    SWI_QUEUE,         /* many Swis posted at one priority */
    TRIGGERS,
    CLOCKWORK,
    CHIME,             /* all clocks at 0 at one tick */
    ALARM,             /* all waits and sleeps at 0 at one tick */
    HEAP_FILL,
    HEAP_HOLES,
    HEAP_CHURN,
    SWITCHED_OFF,      /* calls while a switch is off */
    FILL,              /* a table full */
    LEVELS,            /* priorities of ready and waiting tasks */
    TURNS,             /* yields, ends and sleeps */
    CLEAN,             /* back to few objects */
    LADDER,            /* a ready task at every level; only where the maker tries the levels, so it stands last */
    PHASES
};

struct style {
    const char *name;
    unsigned shortest, longest;    /* steps in a phase */
    unsigned spoilt;               /* of 1000 calls, those with an argument spoilt */
    unsigned stray;                /* of 100 steps in a phase, those that do something else */
    unsigned weight[PHASES];
};

static const struct style styles[] = {
    { "mixed", 10, 120, 30, 15,
      { [ANY] = 6, [WILD] = 1, [LINE] = 4, [WRITERS] = 3, [READERS] = 3, [EVENTS_WAITED] = 3, [WAKE] = 4, [EXPIRE] = 3, [NEST] = 3, [TOWER] = 3,
        [SWI_QUEUE] = 1, [TRIGGERS] = 2, [CLOCKWORK] = 2, [CHIME] = 1, [ALARM] = 2, [HEAP_FILL] = 1, [HEAP_HOLES] = 1, [HEAP_CHURN] = 1,
        [SWITCHED_OFF] = 3, [FILL] = 2, [LEVELS] = 3, [TURNS] = 2, [CLEAN] = 4, [LADDER] = 3 } },
    { "lines", 60, 250, 10, 5, { [LINE] = 8, [WAKE] = 4, [EXPIRE] = 2, [ALARM] = 1, [LEVELS] = 3, [TURNS] = 1, [CLEAN] = 3, [LADDER] = 3 } },
    { "Swis", 20, 120, 15, 8,
      { [NEST] = 3, [TOWER] = 8, [SWI_QUEUE] = 4, [CHIME] = 2, [TRIGGERS] = 6, [CLOCKWORK] = 4, [SWITCHED_OFF] = 2, [TURNS] = 1, [FILL] = 1,
        [CLEAN] = 1 } },
    { "messages", 40, 160, 15, 8,
      { [WRITERS] = 5, [READERS] = 5, [EVENTS_WAITED] = 5, [WAKE] = 5, [EXPIRE] = 3, [LEVELS] = 1, [FILL] = 1, [CLEAN] = 3,
        [LADDER] = 1 } },
    { "heap", 30, 200, 40, 6, { [HEAP_FILL] = 3, [HEAP_HOLES] = 3, [HEAP_CHURN] = 3, [SWITCHED_OFF] = 1, [TURNS] = 1, [CLEAN] = 1 } },
    { "time", 30, 160, 15, 10,
      { [LINE] = 3, [WRITERS] = 2, [READERS] = 2, [EVENTS_WAITED] = 2, [EXPIRE] = 8, [CLOCKWORK] = 5, [CHIME] = 3, [ALARM] = 5, [TURNS] = 4,
        [WAKE] = 1, [CLEAN] = 2, [LADDER] = 2 } },
    { "wild", 20, 100, 250, 40,
      { [ANY] = 6, [WILD] = 6, [FILL] = 3, [LINE] = 1, [WRITERS] = 1, [READERS] = 1, [EVENTS_WAITED] = 1, [TOWER] = 1, [HEAP_CHURN] = 1, [NEST] = 1,
        [SWITCHED_OFF] = 1, [CLEAN] = 1, [LADDER] = 1 } },
    { "even", 400, 2000, 40, 0, { [ANY] = 1 } },
    { "switches", 15, 80, 20, 10,
      { [SWITCHED_OFF] = 8, [LINE] = 2, [WRITERS] = 1, [TOWER] = 2, [SWI_QUEUE] = 1, [LEVELS] = 2, [NEST] = 2, [TURNS] = 2, [WAKE] = 1,
        [CLEAN] = 1, [LADDER] = 2 } },
    { "full", 60, 200, 30, 10,
      { [FILL] = 10, [HEAP_FILL] = 2, [WAKE] = 1, [CLEAN] = 2, [TOWER] = 1, [SWI_QUEUE] = 1, [CLOCKWORK] = 1, [CHIME] = 1, [NEST] = 1,
        [LADDER] = 2 } },
};

enum { STYLES = sizeof styles / sizeof styles[0] };

/* The levels of new tasks: all, or a few next to each other, or one. */
static void choose_levels(struct maker *m)
{
    uint32_t last = m->tables.levels - 1, span = chance(m, 30) ? 1 : chance(m, 50) ? 3 : last;

    m->first_level = 1;
    if (m->tries_levels && span < last) {
        switch (below(m, 4)) {
        case 0:
            m->first_level = last - span + 1;
            break;
        case 1:
            if (m->tables.levels == LEVELS_MOST) { /* about the line between the two numbers */
                m->first_level = LEVELS_LEAST - span + below(m, span + 1);
                break;
            }
            /* fall through */
        case 2:
            m->first_level = 1 + below(m, last - span + 1);
            break;
        default:
            break;
        }
    }
    m->last_level = m->first_level + span - 1;
}

/* What a phase needs besides: how far it goes, or more time. */
static void choose_goal(struct maker *m)
{
    m->goal = 1 + below(m, 8);
    switch (m->phase) {
    case LINE:
    case WRITERS:
    case READERS:
        m->goal = chance(m, 40) ? 31 : 1 + below(m, 31);
        break;
    case NEST:
        m->goal = chance(m, 40) ? DEPTH_MOST : 1 + below(m, DEPTH_MOST);
        break;
    case TOWER:
        m->goal = chance(m, 40) ? SWIS : 1 + below(m, SWIS);
        break;
    case FILL:
        m->goal = below(m, 6);
        break;
    case HEAP_FILL:
        m->goal = chance(m, 30) ? 64 : 1 + below(m, 16);
        break;
    case HEAP_HOLES:
        if (m->style->weight[HEAP_HOLES] > 1 && chance(m, 30))
            m->steps_left = 600; /* time for a hole at every other unit */
        break;
    case SWI_QUEUE:
    case CHIME:
    case ALARM:
    case LADDER:
        m->steps_left += 60;
        break;
    default:
        break;
    }
}

static void choose_phase(struct maker *m)
{
    const struct style *style = m->style;
    unsigned sum = 0, phases = m->tries_levels ? PHASES : LADDER;
    uint32_t pick;

    for (unsigned i = 0; i < phases; i++)
        sum += style->weight[i];
    pick = below(m, sum);
    for (m->phase = 0; pick >= style->weight[m->phase]; m->phase++)
        pick -= style->weight[m->phase];
    m->steps_left = style->shortest + below(m, style->longest - style->shortest + 1);
    m->target = FULL;
    m->descending = 0;
    choose_levels(m);
    m->endless = chance(m, 30) ? 100 : chance(m, 40) ? 5 : 60;
    choose_goal(m);
}

static struct call phase_step(struct maker *m)
{
    switch (m->phase) {
    case WILD: return wild_call(m);
    case LINE: return line_step(m);
    case WRITERS: return writers_step(m);
    case READERS: return readers_step(m);
    case EVENTS_WAITED: return events_step(m);
    case WAKE: return wake_step(m);
    case EXPIRE: return expire_step(m);
    case NEST: return nest_step(m);
    case TOWER: return tower_step(m);
    case SWI_QUEUE: return swi_queue_step(m);
    case TRIGGERS: return triggers_step(m);
    case CLOCKWORK: return clockwork_step(m);
    case CHIME: return chime_step(m);
    case ALARM: return alarm_step(m);
    case HEAP_FILL: return heap_fill_step(m);
    case HEAP_HOLES: return heap_holes_step(m);
    case HEAP_CHURN: return heap_churn_step(m);
    case SWITCHED_OFF: return switched_off_step(m);
    case FILL: return fill_step(m);
    case LEVELS: return levels_step(m);
    case TURNS: return turns_step(m);
    case CLEAN: return clean_step(m);
    case LADDER: return ladder_step(m);
    default: return any(m);
    }
}

/* One argument wrong, or several: most often an unused one that is not 0. */
static void spoil(struct maker *m, struct call *call)
{
    const struct call_form *form = form_of(call->number);

    if (form == NULL || chance(m, 10)) {
        call->number = chance(m, 50) ? call->number | 0x80 : below(m, 256);
        return;
    }
    do {
        uint32_t which = below(m, 4);

        if (form->argument[which] == NULL)
            call->argument[which] = chance(m, 50) ? 1 : wild(m);
        else
            call->argument[which] = chance(m, 50) ? call->argument[which] + (chance(m, 50) ? 1 : FULL) : wild(m);
    } while (chance(m, 35));
}

/* What the last call made or deleted. */
static void look_back(struct maker *m)
{
    m->deleted_from = 0;
    for (uint32_t table = TASK_TABLE; table <= CLOCK_TABLE; table++) {
        uint32_t in_use = table_in_use(&m->tables, table), deleted = m->in_use[table] & ~in_use;

        if (deleted != 0) {
            m->deleted_from = table;
            m->deleted = (uint32_t)__builtin_ctz(deleted);
        }
        m->in_use[table] = in_use;
        m->made[table] |= in_use;
    }
}

struct call maker_next(struct maker *m)
{
    struct call call;

    look_back(m);
    if (m->steps_left == 0)
        choose_phase(m);
    m->steps_left--;
    if (m->deleted_from != 0 && chance(m, 10))
        call = deleted_call(m);
    else if (chance(m, 1))
        call = absent_call(m);
    else if (below(m, 1000) < 5)
        call = gone_call(m);
    else if (chance(m, m->style->stray))
        call = chance(m, 20) ? likely(m, in_swi(m) ? SWI_TAKEN_TRIGGER : TASK_LAST_RESULT) : any(m);
    else
        call = phase_step(m);
    if (below(m, 1000) < m->style->spoilt)
        spoil(m, &call);
    return call;
}

uint32_t maker_below(struct maker *m, uint32_t n)
{
    return below(m, n);
}

void maker_start(struct maker *m, uint64_t seed, uint32_t levels)
{
    *m = (struct maker){ .random = seed * 0xD1342543DE82EF95u + 1, .style = &styles[seed % STYLES], .tries_levels = levels != 0 };
    core_fresh(&m->tables, m->tries_levels ? levels : (uint32_t)LEVELS_LEAST);
}

const char *maker_style(const struct maker *m)
{
    return m->style->name;
}
