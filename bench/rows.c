/* The rows of the table. */
#include "rows.h"

#include <string.h>

/* Every answer's numbers count, and their order. */
static uint64_t add(uint64_t sum, uint64_t number)
{
    return sum * 31 + number;
}

static uint64_t check_policy(const struct calls *side, struct world *w, size_t times)
{
    uint64_t sum = 0;

    for (size_t i = 0; i < times; i++) {
        struct wg_count c = side->check(w->policy, w->rules * WG_RULE_SIZE);
        sum = add(sum, c.refusal + c.count);
    }
    return sum;
}

static uint64_t best_rule(const struct calls *side, struct world *w, size_t times)
{
    uint64_t sum = 0;

    for (size_t i = 0; i < times; i++) {
        struct wg_best_answer b = side->best(w->policy, w->rules * WG_RULE_SIZE, w->keys[i % KEYS], WG_KEY_SIZE);
        sum = add(sum, b.refusal + b.found + ((uint64_t)b.rule << 16) + b.action);
    }
    return sum;
}

static uint64_t look_up(const struct calls *side, struct world *w, size_t times)
{
    uint64_t sum = 0;

    for (size_t i = 0; i < times; i++) {
        uint8_t *out = w->out + i % KEYS * WG_REPORT_SIZE;
        struct wg_found f = side->lookup(w->keys[i % KEYS], WG_KEY_SIZE, w->table, w->slots * WG_SLOT_SIZE, out, WG_REPORT_SIZE);
        sum = add(sum, f.refusal + f.hit + ((uint64_t)f.slot << 32) + ((uint64_t)f.rule << 16) + f.action);
    }
    return sum;
}

/* The slot that a miss has changed is put back, so that each call finds the same keeper. */
static uint64_t miss(const struct calls *side, struct world *w, size_t times)
{
    uint64_t sum = 0;

    for (size_t i = 0; i < times; i++) {
        uint8_t *out = w->out + i % KEYS * WG_WRITE_SIZE;
        struct wg_outcome o = side->miss(w->policy, w->rules * WG_RULE_SIZE, w->keys[i % KEYS], WG_KEY_SIZE, w->keeper, w->slots * WG_SLOT_SIZE,
                                         out, WG_WRITE_SIZE);
        sum = add(sum, o.refusal + o.outcome + ((uint64_t)o.evicted << 48) + ((uint64_t)o.slot << 32) + ((uint64_t)o.rule << 16) + o.action);
        if (o.slot < w->slots)
            memcpy(w->keeper + o.slot * WG_SLOT_SIZE, w->start + o.slot * WG_SLOT_SIZE, WG_SLOT_SIZE);
    }
    return sum;
}

/* Both ends and the totals are cleared before each run. */
uint64_t run_trace(const struct calls *side, struct world *w, size_t times)
{
    uint64_t sum = 0;

    for (size_t i = 0; i < times; i++) {
        size_t length = w->slots * WG_SLOT_SIZE;
        memset(w->table, 0, length);
        memset(w->keeper, 0, length);
        memset(&w->totals, 0, sizeof w->totals);
        struct wg_count c = side->run(w->policy, w->rules * WG_RULE_SIZE, w->trace, sizeof w->trace, w->table, length, w->keeper, length,
                                      w->out, sizeof w->out, &w->totals);
        sum = add(sum, c.refusal + c.count);
    }
    return sum;
}

#define FILLED "filled"
#define CLEARED "cleared"
#define NO_ENDS "-"

const struct row rows[] = {
    {"lookup, hit first", 0, 64, FILLED, 2, make_hit_first, look_up, NULL},
    {"lookup, hit first", 0, 256, FILLED, 2, make_hit_first, look_up, NULL},
    {"lookup, hit last", 0, 64, FILLED, 2, make_hit_last, look_up, NULL},
    {"lookup, hit last", 0, 256, FILLED, 2, make_hit_last, look_up, NULL},
    {"lookup, miss", 0, 64, FILLED, 2, make_no_hit, look_up, NULL},
    {"lookup, miss", 0, 256, FILLED, 2, make_no_hit, look_up, NULL},
    {"lookup, miss by the last byte", 0, 256, FILLED, 2, make_no_hit_late, look_up, NULL},
    {"check of the policy", 64, 0, NO_ENDS, 0, make_best, check_policy, NULL},
    {"best rule", 64, 0, NO_ENDS, 2, make_best, best_rule, "best rule, less the check"},
    {"check of the policy", 256, 0, NO_ENDS, 0, make_best, check_policy, NULL},
    {"best rule", 256, 0, NO_ENDS, 2, make_best, best_rule, "best rule, less the check"},
    {"check of the policy", 1024, 0, NO_ENDS, 0, make_best, check_policy, NULL},
    {"best rule", 1024, 0, NO_ENDS, 2, make_best, best_rule, "best rule, less the check"},
    {"check, rules exact in 11 bytes", 1024, 0, NO_ENDS, 0, make_best_late, check_policy, NULL},
    {"best rule, by the last byte", 1024, 0, NO_ENDS, 2, make_best_late, best_rule, "best by the last byte, less the check"},
    {"miss, 3 dependents", 64, 256, CLEARED, 3, make_few, miss, NULL},
    {"miss, 3 dependents", 256, 256, CLEARED, 3, make_few, miss, NULL},
    {"miss, 3 dependents", 1024, 256, CLEARED, 3, make_few, miss, NULL},
    {"miss, 3 dependents", 1024, 256, FILLED, 3, make_few_full, miss, NULL},
    {"miss, 63 dependents", 64, 256, CLEARED, 3, make_all, miss, NULL},
    {"miss, 255 dependents", 256, 256, CLEARED, 3, make_all, miss, NULL},
    {"miss, 1,023 dependents", 1024, 256, CLEARED, 3, make_all, miss, NULL},
    {"miss, 1,023 dependents, mixed order", 1024, 256, CLEARED, 3, make_all_mixed, miss, NULL},
    {"miss, 63 dependents, 63 rounds", 64, 256, CLEARED, 3, make_all_slow, miss, NULL},
    {"miss, 255 dependents, 104 rounds", 256, 256, CLEARED, 3, make_all_slow, miss, NULL},
    {"miss, 1,023 dependents, 104 rounds", 1024, 256, CLEARED, 3, make_all_slow, miss, NULL},
    {"run of 4,096 packets, 4 subnets", 64, 256, CLEARED, 3, make_steady, run_trace, NULL},
    {"run of 4,096 packets, 4 subnets", 256, 256, CLEARED, 3, make_steady, run_trace, NULL},
    {"run of 4,096 packets, 4 subnets", 1024, 256, CLEARED, 3, make_steady, run_trace, NULL},
    {"run of 4,096 packets, all subnets", 64, 256, CLEARED, 3, make_spread, run_trace, NULL},
    {"run of 4,096 packets, all subnets", 256, 256, CLEARED, 3, make_spread, run_trace, NULL},
    {"run of 4,096 packets, all subnets", 1024, 256, CLEARED, 3, make_spread, run_trace, NULL},
};

const size_t row_count = sizeof rows / sizeof rows[0];
