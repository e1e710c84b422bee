/* The library's calls by the plain ends: for trying the tests themselves where there is no archive (tests/c/run --stand-in). */
#include "calls.h"

struct wg_count wg_check(const uint8_t *policy, size_t policy_len)
{
    return plain_ends.check(policy, policy_len);
}

struct wg_best_answer wg_best(const uint8_t *policy, size_t policy_len, const uint8_t *key, size_t key_len)
{
    return plain_ends.best(policy, policy_len, key, key_len);
}

struct wg_part wg_rule(const uint8_t *policy, size_t policy_len, size_t number)
{
    return plain_ends.rule(policy, policy_len, number);
}

struct wg_count wg_cover(const uint8_t *policy, size_t policy_len, size_t number, uint8_t *out, size_t out_len)
{
    return plain_ends.cover(policy, policy_len, number, out, out_len);
}

struct wg_isolated wg_isolate(const uint8_t *policy, size_t policy_len, const uint8_t *key, size_t key_len, size_t number, uint8_t *out,
                              size_t out_len)
{
    return plain_ends.isolate(policy, policy_len, key, key_len, number, out, out_len);
}

struct wg_found wg_lookup(const uint8_t *key, size_t key_len, uint8_t *table, size_t table_len, uint8_t *out, size_t out_len)
{
    return plain_ends.lookup(key, key_len, table, table_len, out, out_len);
}

struct wg_done wg_write(uint8_t *table, size_t table_len, const uint8_t *message, size_t message_len, uint8_t *out, size_t out_len)
{
    return plain_ends.write(table, table_len, message, message_len, out, out_len);
}

struct wg_outcome wg_miss(const uint8_t *policy, size_t policy_len, const uint8_t *key, size_t key_len, uint8_t *keeper, size_t keeper_len,
                          uint8_t *out, size_t out_len)
{
    return plain_ends.miss(policy, policy_len, key, key_len, keeper, keeper_len, out, out_len);
}

struct wg_done wg_report(uint8_t *keeper, size_t keeper_len, const uint8_t *message, size_t message_len)
{
    return plain_ends.report(keeper, keeper_len, message, message_len);
}

struct wg_count wg_open(const uint8_t *keeper, size_t keeper_len, uint8_t *out, size_t out_len)
{
    return plain_ends.open(keeper, keeper_len, out, out_len);
}

struct wg_shown wg_show(const uint8_t *policy, size_t policy_len, const uint8_t *key, size_t key_len, const uint8_t *table, size_t table_len)
{
    return plain_ends.show(policy, policy_len, key, key_len, table, table_len);
}

struct wg_count wg_run(const uint8_t *policy, size_t policy_len, const uint8_t *trace, size_t trace_len, uint8_t *table, size_t table_len,
                       uint8_t *keeper, size_t keeper_len, uint8_t *out, size_t out_len, struct wg_totals *totals)
{
    return plain_ends.run(policy, policy_len, trace, trace_len, table, table_len, keeper, keeper_len, out, out_len, totals);
}
