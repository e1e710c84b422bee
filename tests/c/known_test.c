/* The worked examples of docs/RULES.md, as they are printed there. The expected numbers are written out; no plain reading is asked. */
#include <string.h>

#include "check.h"
#include "small.h"
#include "tests.h"

static const struct calls *c;
static uint8_t policy[3 * RULE];

static void test_best(const char *text, int rule, int action)
{
    uint8_t key[KEY];

    small_key(text, key);
    struct wg_best_answer a = c->best(policy, sizeof policy, key, KEY);
    check(a.refusal == 0 && a.found == 1 && a.rule == rule && a.action == action, "the best rule of %s is R%d", text, rule);
}

static void test_cover(size_t rule, size_t count, const uint8_t *list)
{
    uint8_t out[6] = {0xEE, 0xEE, 0xEE, 0xEE, 0xEE, 0xEE};

    struct wg_count a = c->cover(policy, sizeof policy, rule, out, sizeof out);
    check(a.refusal == 0 && a.count == count && memcmp(out, list, 6) == 0, "the cover list of R%d", (int)rule);
}

static void test_isolate(const char *text, size_t rule, const char *pattern, unsigned fixed, unsigned wildcards)
{
    uint8_t key[KEY], out[26], expected[26];

    small_key(text, key);
    small_rows(pattern, expected, expected + 13);
    struct wg_isolated a = c->isolate(policy, sizeof policy, key, KEY, rule, out, sizeof out);
    check(a.refusal == 0 && a.fixed == fixed && a.wildcards == wildcards && memcmp(out, expected, 26) == 0, "R%d for %s isolates to %s",
          (int)rule, text, pattern);
}

/* A rule's record and the shown decision point into the buffers that were lent. */
static void test_parts(void)
{
    uint8_t key[KEY], table[2 * SLOT] = {0};

    check(wg_rule_at(c->rule(policy, sizeof policy, 2), policy) == policy + 64, "rule 2 is the policy's bytes from 64");
    check(wg_rule_at(c->rule(policy, sizeof policy, 3), policy) == NULL, "rule 3 is no part of the policy");
    small_slot(table + SLOT, 1, 0, "0***", 9, 2, 0);
    small_key("0000", key);
    struct wg_shown a = c->show(policy, sizeof policy, key, KEY, table, sizeof table);
    check(a.source == WG_FROM_TABLE && a.number == 1 && wg_shown_at(a, policy, table) == table + SLOT, "the slot is shown");
    small_key("1111", key);
    a = c->show(policy, sizeof policy, key, KEY, table, sizeof table);
    check(a.source == WG_FROM_POLICY && a.number == 0 && a.length == 32 && wg_shown_at(a, policy, table) == policy, "the best rule is shown");
    a = c->show(NULL, 0, key, KEY, table, sizeof table);
    check(a.refusal == 0 && a.source == WG_FROM_NOTHING && a.number == WG_NONE && a.length == 0 && wg_shown_at(a, policy, table) == NULL,
          "nothing is shown where no rule matches");
    check(wg_get16(policy + 32 + WG_RULE_PRIORITY) == 20 && wg_get16(policy + 32 + WG_RULE_ACTION) == 8, "rule 1's priority and action");
    check(wg_get32(table + SLOT + WG_SLOT_SEQUENCE) == 1 && wg_get16(table + SLOT + WG_SLOT_RULE) == 2, "slot 1's sequence and rule");
}

/* The printed run: outcome, action, rule, slot and evicted rule of each packet. */
enum { RUN_LENGTH = 6 };
static const char *const run_keys[RUN_LENGTH] = {"1000", "0000", "1010", "1001", "1111", "0100"};
static const unsigned run_outcomes[RUN_LENGTH][5] = {
    {2, 9, 2, 0, 65535}, {1, 9, 2, 0, 65535}, {2, 8, 1, 1, 65535}, {1, 9, 2, 0, 65535}, {3, 7, 0, 1, 1}, {3, 9, 2, 1, 0}
};

/* The printed run, a call at a time. */
static void test_steps(void)
{
    uint8_t key[KEY], table[2 * SLOT] = {0}, keeper[2 * SLOT] = {0}, write[WRITE], report[REPORT];

    for (int i = 0; i < RUN_LENGTH; i++) {
        const unsigned *o = run_outcomes[i];
        small_key(run_keys[i], key);
        struct wg_found found = c->lookup(key, KEY, table, sizeof table, report, REPORT);
        check((found.hit == 1) == (o[0] == 1), "packet %d hits or misses as printed", i);
        if (found.hit) {
            check(found.action == o[1] && found.rule == o[2] && found.slot == o[3], "packet %d as printed", i);
        } else {
            struct wg_outcome a = c->miss(policy, sizeof policy, key, KEY, keeper, sizeof keeper, write, WRITE);
            check(a.outcome == o[0] && a.action == o[1] && a.rule == o[2] && a.slot == o[3] && a.evicted == o[4], "packet %d as printed", i);
            check(c->write(table, sizeof table, write, WRITE, report, REPORT).refusal == 0, "packet %d's write is taken", i);
        }
        check(c->report(keeper, sizeof keeper, report, REPORT).refusal == 0, "packet %d's report is taken", i);
    }
    check(c->open(keeper, sizeof keeper, NULL, 0).refusal == 0, "no slot is open after the run");
}

static void put_printed_trace(uint8_t *trace)
{
    for (int i = 0; i < RUN_LENGTH; i++)
        small_key(run_keys[i], trace + i * PACKET);
}

/* Whether the outcome record has the numbers that are printed of packet i. */
static int as_printed(const uint8_t *o, int i)
{
    int same = o[0] == run_outcomes[i][0] && o[1] == 0 && o[10] == 0 && o[11] == 0;

    for (int field = 1; field < 5; field++)
        same = same && get16(o + 2 * field) == run_outcomes[i][field];
    return same;
}

/* The printed run, in one call. */
static void test_run(void)
{
    uint8_t trace[RUN_LENGTH * PACKET] = {0}, table[2 * SLOT] = {0}, keeper[2 * SLOT] = {0}, out[RUN_LENGTH * OUTCOME];
    struct wg_totals t = {0, 0, 0, 0, 0};

    put_printed_trace(trace);
    struct wg_count a = c->run(policy, sizeof policy, trace, sizeof trace, table, sizeof table, keeper, sizeof keeper, out, sizeof out, &t);
    check(a.refusal == 0 && a.count == RUN_LENGTH, "the run is accepted");
    for (int i = 0; i < RUN_LENGTH; i++)
        check(as_printed(out + i * OUTCOME, i), "packet %d of the run as printed", i);
    check(t.packets == 6 && t.hits == 2 && t.misses == 4 && t.none == 0 && t.evictions == 2, "the run's totals as printed");
}

/* One slot, misses 1010 then 1111, writes delivered in reverse. */
static void test_reverse(void)
{
    uint8_t key[KEY], table[SLOT] = {0}, keeper[SLOT] = {0}, first[WRITE], second[WRITE], report[REPORT], slot[SLOT], list[2] = {9, 9};

    small_key("1010", key);
    c->miss(policy, sizeof policy, key, KEY, keeper, SLOT, first, WRITE);
    small_key("1111", key);
    c->miss(policy, sizeof policy, key, KEY, keeper, SLOT, second, WRITE);
    c->write(table, SLOT, second, WRITE, report, REPORT);
    small_slot(slot, 2, 0, "11**", 7, 0, 0);
    check(memcmp(table, slot, SLOT) == 0, "the table holds 11**");
    c->write(table, SLOT, first, WRITE, report, REPORT);
    check(memcmp(table, slot, SLOT) == 0, "the older write changes nothing");
    struct wg_count a = c->open(keeper, SLOT, list, 2);
    check(a.count == 1 && get16(list) == 0, "slot 0 is open");
    check(get32(report + 4) == 2, "the older write's report is of sequence 2");
    c->report(keeper, SLOT, report, REPORT);
    check(c->open(keeper, SLOT, list, 2).count == 0, "slot 0 is settled by a report of sequence 2");
}

/* The last sequence is used, and then none is left; a slot's write is still given again. */
static void test_last_sequence(void)
{
    uint8_t key[KEY], keeper[2 * SLOT] = {0}, write[WRITE];

    small_slot(keeper, 4294967294u, 0, "11**", 7, 0, 1);
    small_key("0000", key);
    struct wg_outcome a = c->miss(policy, sizeof policy, key, KEY, keeper, sizeof keeper, write, WRITE);
    check(a.outcome == 2 && a.slot == 1 && get32(write + 4) == 4294967295u, "the last sequence is used");
    small_key("1010", key);
    a = c->miss(policy, sizeof policy, key, KEY, keeper, sizeof keeper, NULL, 0);
    check(a.refusal == 0 && a.outcome == 4 && a.action == 8 && a.rule == 1 && a.slot == 65535 && a.evicted == 65535, "sequences are used up");
    small_key("0000", key);
    a = c->miss(policy, sizeof policy, key, KEY, keeper, sizeof keeper, write, WRITE);
    check(a.outcome == 5 && a.slot == 1 && get32(write + 4) == 4294967295u, "a write is given again after the last sequence");
}

void test_known(const struct calls *calls)
{
    static const uint8_t covers[3][6] = {{0, 0, 0, 1, 0xEE, 0xEE}, {0, 0, 0xEE, 0xEE, 0xEE, 0xEE}, {0xEE, 0xEE, 0xEE, 0xEE, 0xEE, 0xEE}};
    uint8_t key[KEY] = {0};

    c = calls;
    small_policy(policy);
    test_best("1111", 0, 7);
    test_best("1010", 1, 8);
    test_best("0000", 2, 9);
    test_cover(2, 2, covers[0]);
    test_cover(1, 1, covers[1]);
    test_cover(0, 0, covers[2]);
    test_isolate("0000", 2, "0***", 1, 103);
    test_isolate("1000", 2, "*00*", 2, 102);
    test_isolate("1010", 1, "101*", 1, 101);
    test_isolate("1111", 0, "11**", 0, 102);
    struct wg_best_answer none = c->best(NULL, 0, key, KEY);
    check(none.refusal == 0 && none.found == 0 && none.rule == WG_NONE && none.action == 0, "an empty policy has no best rule");
    check(c->check(policy, sizeof policy).count == 3 && c->check(NULL, 0).count == 0, "the rule count");
    test_parts();
    test_steps();
    test_reverse();
    test_last_sequence();
    test_run();
}
