/* Plain C: a run of packets over both ends. The policy is checked once. */
#include <string.h>

#include "plain_calls.h"

static struct wg_count refused(uint32_t refusal, size_t place)
{
    struct wg_count answer = {refusal, place, 0};

    return answer;
}

static struct wg_count trace_check(const uint8_t *trace, size_t trace_len)
{
    struct wg_count answer = {WG_ACCEPTED, 0, trace_len / WG_PACKET_SIZE};

    if (trace_len % WG_PACKET_SIZE != 0)
        return refused(WG_RAGGED, 0);
    if (answer.count > WG_MOST_PACKETS)
        return refused(WG_TOO_MANY, 0);
    for (size_t i = 0; i < answer.count; i++) {
        const uint8_t *packet = trace + i * WG_PACKET_SIZE;
        if (packet[13] != 0 || packet[14] != 0 || packet[15] != 0)
            return refused(WG_BAD_RECORD, i);
    }
    return answer;
}

static uint32_t ends_refusal(size_t table_len, size_t keeper_len, const struct wg_totals *t, size_t needed, size_t out_len)
{
    if (!plain_slots_fit(table_len) || !plain_slots_fit(keeper_len))
        return WG_BAD_SLOTS;
    if (table_len != keeper_len)
        return WG_LENGTHS_DIFFER;
    if (t->packets > WG_MOST_TOTAL || t->hits > WG_MOST_TOTAL || t->misses > WG_MOST_TOTAL || t->none > WG_MOST_TOTAL
        || t->evictions > WG_MOST_TOTAL)
        return WG_TOTALS_FULL;
    return out_len < needed ? WG_SHORT_OUTPUT : WG_ACCEPTED;
}

static struct wg_outcome packet(const uint8_t *policy, size_t count, const uint8_t *key, uint8_t *table, uint8_t *keeper, size_t length)
{
    uint8_t report[WG_REPORT_SIZE], write[WG_WRITE_SIZE];
    struct wg_found found = plain_lookup(key, WG_KEY_SIZE, table, length, report, sizeof report);

    if (found.hit) {
        struct wg_outcome hit = {WG_ACCEPTED, 0, WG_HIT, found.action, found.rule, found.slot, WG_NONE};
        plain_report(keeper, length, report, sizeof report);
        return hit;
    }
    struct wg_outcome miss = plain_missed(policy, count, key, keeper, length / WG_SLOT_SIZE, write, sizeof write);
    if (miss.slot == WG_NONE)
        return miss;
    if (plain_write(table, length, write, sizeof write, report, sizeof report).refusal == WG_ACCEPTED)
        plain_report(keeper, length, report, sizeof report);
    return miss;
}

static void tell(uint8_t *out, const struct wg_outcome *o, struct wg_totals *totals)
{
    out[0] = (uint8_t)o->outcome;
    out[1] = out[10] = out[11] = 0;
    plain_put16(out + 2, o->action);
    plain_put16(out + 4, o->rule);
    plain_put16(out + 6, o->slot);
    plain_put16(out + 8, o->evicted);
    totals->packets++;
    totals->hits += o->outcome == WG_HIT;
    totals->misses += o->outcome >= WG_TO_EMPTY;
    totals->none += o->outcome == WG_NO_RULE;
    totals->evictions += o->outcome == WG_OVER_ENTRY;
}

struct wg_count plain_run(const uint8_t *policy, size_t policy_len, const uint8_t *trace, size_t trace_len, uint8_t *table, size_t table_len,
                          uint8_t *keeper, size_t keeper_len, uint8_t *out, size_t out_len, struct wg_totals *totals)
{
    struct wg_count rules = plain_check(policy, policy_len), packets = trace_check(trace, trace_len);

    if (rules.refusal != WG_ACCEPTED)
        return rules;
    if (packets.refusal != WG_ACCEPTED)
        return packets;
    uint32_t refusal = ends_refusal(table_len, keeper_len, totals, packets.count * WG_OUTCOME_SIZE, out_len);
    if (refusal != WG_ACCEPTED)
        return refused(refusal, 0);
    for (size_t i = 0; i < packets.count; i++) {
        struct wg_outcome o = packet(policy, rules.count, trace + i * WG_PACKET_SIZE, table, keeper, table_len);
        tell(out + i * WG_OUTCOME_SIZE, &o, totals);
    }
    return packets;
}

const struct calls plain = {
    .check = plain_check,
    .best = plain_best,
    .lookup = plain_lookup,
    .write = plain_write,
    .miss = plain_miss,
    .report = plain_report,
    .run = plain_run,
};
