/* Runs: a trace cut in two gives the same, the totals are the counts of the outcomes, and a run keeps demand 3. */
#include <string.h>

#include "check.h"
#include "make.h"
#include "tests.h"

enum { TRACES = 400, MOST_LENGTH = 60, SLOTS = 4, RULES = 12 };

/* Both ends, the totals, and what each packet came to. */
struct life {
    uint8_t table[SLOTS * SLOT], keeper[SLOTS * SLOT], out[MOST_LENGTH * OUTCOME];
    struct wg_totals totals;
};

static uint8_t policy[RULES * RULE], trace[MOST_LENGTH * PACKET];

/* A policy, and a trace of so many packets over the same field. */
static void make_inputs(struct random *r, size_t packets)
{
    struct field field;

    make_field(r, &field, 6);
    make_policy(r, &field, policy, RULES);
    memset(trace, 0, sizeof trace);
    for (size_t i = 0; i < packets; i++)
        make_key(r, &field, trace + i * PACKET);
}

/* Runs the packets from `from` up to `to`. */
static int run_part(const struct calls *calls, struct life *life, size_t from, size_t to)
{
    struct wg_count a = calls->run(policy, sizeof policy, trace + from * PACKET, (to - from) * PACKET, life->table, sizeof life->table,
                                   life->keeper, sizeof life->keeper, life->out + from * OUTCOME, (to - from) * OUTCOME, &life->totals);

    return a.refusal == 0 && a.count == to - from;
}

/* Whether the totals are the counts of these outcomes. */
static int totals_count(const struct life *life, size_t packets)
{
    uint64_t count[6] = {0};
    const struct wg_totals *t = &life->totals;

    for (size_t i = 0; i < packets; i++)
        count[life->out[i * OUTCOME] % 6]++;
    return t->packets == packets && t->hits == count[1] && t->misses == count[2] + count[3] + count[4] + count[5] && t->none == count[0]
           && t->evictions == count[3] && t->packets == t->hits + t->misses + t->none;
}

/* Whether a run, which delivers every message at once, leaves the ends alike and no slot open. */
static int ends_alike(const struct life *life)
{
    for (size_t i = 0; i < sizeof life->table; i += SLOT)
        if (!same_entry(life->table + i, life->keeper + i) || is_open(life->keeper + i))
            return 0;
    return 1;
}

void test_runs(const struct calls *calls, uint64_t seed)
{
    int same = 1, counted = 1, alike = 1;

    for (unsigned i = 0; i < TRACES; i++) {
        struct random r = {seed + i};
        struct life whole, parts;
        size_t packets = random_below(&r, MOST_LENGTH + 1), cut = random_below(&r, packets + 1);

        make_inputs(&r, packets);
        memset(&whole, 0, sizeof whole);
        memset(&parts, 0, sizeof parts);
        same = same && run_part(calls, &whole, 0, packets) && run_part(calls, &parts, 0, cut) && run_part(calls, &parts, cut, packets)
               && memcmp(&whole, &parts, sizeof whole) == 0;
        counted = counted && totals_count(&whole, packets);
        alike = alike && ends_alike(&whole);
    }
    check(same, "a trace cut in two gives the same outcomes, ends and totals");
    check(counted, "each total is the count of its outcomes");
    check(alike, "after a run the ends are alike and no slot is open");
}
