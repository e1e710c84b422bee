/* Plain C: the keeper receives a miss. */
#include <string.h>

#include "plain_calls.h"

/* The lowest empty slot; else the fewest hits, then the smallest sequence, then the lowest number. */
static size_t room(const uint8_t *keeper, size_t count)
{
    size_t chosen = 0;

    for (size_t i = 0; i < count; i++) {
        const uint8_t *slot = keeper + i * WG_SLOT_SIZE, *best = keeper + chosen * WG_SLOT_SIZE;
        uint32_t hits = wg_get32(slot + WG_SLOT_HITS), fewest = wg_get32(best + WG_SLOT_HITS);
        if (wg_get32(slot) == 0)
            return i;
        if (hits < fewest || (hits == fewest && wg_get32(slot) < wg_get32(best)))
            chosen = i;
    }
    return chosen;
}

static uint32_t largest_sequence(const uint8_t *keeper, size_t count)
{
    uint32_t largest = 0;

    for (size_t i = 0; i < count; i++) {
        uint32_t sequence = wg_get32(keeper + i * WG_SLOT_SIZE);
        if (sequence > largest)
            largest = sequence;
    }
    return largest;
}

static void put_write(uint8_t *out, size_t number, const uint8_t *slot)
{
    out[0] = 1;
    out[1] = out[38] = out[39] = 0;
    plain_put16(out + 2, (unsigned)number);
    memcpy(out + 4, slot, 4);
    memcpy(out + 8, slot + WG_SLOT_VALUE, 30);
}

/* The held slot's write is given again. */
static struct wg_outcome again(const uint8_t *keeper, size_t held, uint8_t *out)
{
    const uint8_t *slot = keeper + held * WG_SLOT_SIZE;
    struct wg_outcome o = {
        WG_ACCEPTED, 0, WG_AGAIN, wg_get16(slot + WG_SLOT_ACTION), wg_get16(slot + WG_SLOT_RULE), (uint16_t)held, WG_NONE
    };

    put_write(out, held, slot);
    return o;
}

/* The isolated rule goes to its slot. */
static void place(struct wg_outcome *o, const uint8_t *policy, size_t count, const uint8_t *key, uint8_t *slot, uint32_t sequence, uint8_t *out)
{
    o->outcome = wg_get32(slot) == 0 ? WG_TO_EMPTY : WG_OVER_ENTRY;
    o->evicted = wg_get32(slot) == 0 ? WG_NONE : wg_get16(slot + WG_SLOT_RULE);
    memset(slot, 0, WG_SLOT_SIZE);
    plain_put32(slot, sequence);
    plain_isolate(policy, count, key, o->rule, slot + WG_SLOT_VALUE, slot + WG_SLOT_MASK);
    plain_put16(slot + WG_SLOT_ACTION, o->action);
    plain_put16(slot + WG_SLOT_RULE, o->rule);
    put_write(out, o->slot, slot);
}

struct wg_outcome plain_missed(const uint8_t *policy, size_t count, const uint8_t *key, uint8_t *keeper, size_t slots, uint8_t *out, size_t out_len)
{
    struct wg_outcome o = {WG_ACCEPTED, 0, WG_NO_RULE, 0, WG_NONE, WG_NONE, WG_NONE}, short_output = {WG_SHORT_OUTPUT, 0, 0, 0, 0, 0, 0};
    size_t best = plain_search(policy, count, key);

    if (best == WG_NONE)
        return o;
    size_t held = plain_holding(keeper, slots, key);
    if (held != WG_NONE)
        return out_len < WG_WRITE_SIZE ? short_output : again(keeper, held, out);
    uint32_t largest = largest_sequence(keeper, slots);
    o.outcome = WG_USED_UP;
    o.rule = (uint16_t)best;
    o.action = wg_get16(policy + best * WG_RULE_SIZE + WG_RULE_ACTION);
    if (largest == WG_LAST_SEQUENCE)
        return o;
    if (out_len < WG_WRITE_SIZE)
        return short_output;
    o.slot = (uint16_t)room(keeper, slots);
    place(&o, policy, count, key, keeper + o.slot * WG_SLOT_SIZE, largest + 1, out);
    return o;
}

struct wg_outcome plain_miss(const uint8_t *policy, size_t policy_len, const uint8_t *key, size_t key_len, uint8_t *keeper, size_t keeper_len,
                             uint8_t *out, size_t out_len)
{
    struct wg_count checked = plain_check(policy, policy_len);
    struct wg_outcome refused = {checked.refusal, checked.place, 0, 0, 0, 0, 0};

    if (checked.refusal == WG_ACCEPTED && key_len != WG_KEY_SIZE)
        refused.refusal = WG_RAGGED;
    else if (checked.refusal == WG_ACCEPTED && !plain_slots_fit(keeper_len))
        refused.refusal = WG_BAD_SLOTS;
    if (refused.refusal != WG_ACCEPTED)
        return refused;
    return plain_missed(policy, checked.count, key, keeper, keeper_len / WG_SLOT_SIZE, out, out_len);
}
