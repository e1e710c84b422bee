/* Demand 3 over a link, and that the same test reports every wrong end. */
#include <stdio.h>

#include "check.h"
#include "link.h"
#include "tests.h"

/* Small worlds, in which everything meets everything; middle ones; and full ones. */
static const struct plan plans[] = {
    {5000, 400, 8, 4, 6, 0}, {200, 1500, 64, 32, 12, 0}, {40, 500, 1024, 256, 40, 1}
};
enum { PLANS = sizeof plans / sizeof plans[0] };

/* A way to be wrong, and exactly the checks that report it. */
struct wrong_end {
    enum wrong way;
    const char *name;
    unsigned reported_by;
};

/* Every way to be wrong: demand 3 alone allows some. */
static const struct wrong_end wrong_ends[] = {
    {CACHES_RULE_UNCHANGED, "the best rule is cached unchanged", HALF_ONE | ANSWERS},
    {FIXES_DEPENDENTS_BIT, "a bit is fixed to the dependent's value", HALF_ONE | ANSWERS},
    {OLDER_REPORT_SETTLES, "a report of an older sequence settles", HALF_TWO | ANSWERS},
    {RESENT_WRITE_ANEW, "a resent write is numbered anew", HALF_TWO | ANSWERS},
    {SMALL_PRIORITY_FIRST, "small priorities go first", HALF_ONE | ANSWERS},
    {REFUSES_EVERYTHING, "everything is refused", ANSWERS},
    {TABLE_ALWAYS_MISSES, "the table always misses", ANSWERS},
    {KEEPER_CHANGES_NOTHING, "the keeper changes nothing", HALF_TWO | ANSWERS},
    {STORES_FIRST_WRITE_ONLY, "the first write is stored, later ones only reported", HALF_TWO | ANSWERS},
    {KEEPER_NEVER_SETTLES, "the keeper never settles a slot", ANSWERS},
    {INVENTS_HITS, "hits are invented", ANSWERS},
    {CACHES_BARE_KEYS, "bare keys are cached", ANSWERS}
};

static void test_wrong_end(const struct wrong_end *end, uint64_t seed)
{
    static const struct plan plan = {300, 300, 8, 4, 6, 0};

    for (unsigned by = HALF_ONE; by <= ANSWERS; by *= 2) {
        struct report r = link_run(&plain_ends, end->way, by, &plan, seed);
        check(r.reported == (end->reported_by & by), "%s: check %u reports it exactly if it should", end->name, by);
    }
}

static void test_wrong(uint64_t seed)
{
    for (size_t i = 0; i < sizeof wrong_ends / sizeof wrong_ends[0]; i++)
        test_wrong_end(&wrong_ends[i], seed);
}

/* Every event, in words. */
static const char *const events[EVENTS] = {
    [A_HIT] = "hits", [NO_RULE] = "without a rule", [TO_EMPTY] = "written to an empty slot", [OVER_ENTRY] = "written over an entry",
    [GIVEN_AGAIN] = "given again", [WRITE_STORED] = "writes stored", [WRITE_TOO_LATE] = "writes too late", [REPORT_SETTLES] = "reports of the entry",
    [REPORT_TOO_LATE] = "reports too late", [CALL_REFUSED] = "refused calls", [ENDS_APART] = "steps with the ends apart"
};

/* Says what happened; everything has to have happened. */
static void tell_events(int plan, const struct report *r)
{
    printf("link, at most %u rules and %u slots: %lu steps;", (unsigned)plans[plan].most_rules, (unsigned)plans[plan].most_slots, r->steps_made);
    for (int event = 0; event < EVENTS; event++) {
        printf(" %lu %s%s", r->seen[event], events[event], event + 1 < EVENTS ? "," : "\n");
        check(r->seen[event] > 0, "plan %d has %s", plan, events[event]);
    }
}

void test_link(const struct calls *calls, uint64_t seed)
{
    unsigned long steps = 0;

    for (int i = 0; i < PLANS; i++) {
        struct report r = link_run(calls, RIGHT, HALF_ONE | HALF_TWO | ANSWERS, &plans[i], seed + 1000000 * (unsigned)i);
        check(r.reported == 0, "plan %d, world %u, step %u: %s", i, r.world, r.step, r.words);
        tell_events(i, &r);
        steps += r.steps_made;
    }
    check(steps >= 1000000, "at least a million steps");
    test_wrong(seed);
}
