/* Plain C: the table's lookup and its writes, and the keeper's reports. */
#include <string.h>

#include "plain_calls.h"

size_t plain_holding(const uint8_t *slots, size_t count, const uint8_t *key)
{
    for (size_t i = 0; i < count; i++) {
        const uint8_t *slot = slots + i * WG_SLOT_SIZE;
        if (wg_get32(slot) != 0 && plain_matches(slot + WG_SLOT_VALUE, slot + WG_SLOT_MASK, key))
            return i;
    }
    return WG_NONE;
}

/* The report of a slot as it is. */
static void put_report(uint8_t *out, size_t number, const uint8_t *slot)
{
    out[0] = 2;
    out[1] = 0;
    plain_put16(out + 2, (unsigned)number);
    memcpy(out + 4, slot, 8);
}

struct wg_found plain_lookup(const uint8_t *key, size_t key_len, uint8_t *table, size_t table_len, uint8_t *out, size_t out_len)
{
    struct wg_found answer = {WG_ACCEPTED, 0, 0, 0, 0, 0};

    if (key_len != WG_KEY_SIZE || !plain_slots_fit(table_len)) {
        answer.refusal = key_len != WG_KEY_SIZE ? WG_RAGGED : WG_BAD_SLOTS;
        return answer;
    }
    size_t hit = plain_holding(table, table_len / WG_SLOT_SIZE, key);
    if (hit == WG_NONE) {
        answer.slot = answer.rule = WG_NONE;
        return answer;
    }
    if (out_len < WG_REPORT_SIZE) {
        answer.refusal = WG_SHORT_OUTPUT;
        return answer;
    }
    uint8_t *slot = table + hit * WG_SLOT_SIZE;
    uint32_t hits = wg_get32(slot + WG_SLOT_HITS);
    if (hits < WG_MOST_HITS)
        plain_put32(slot + WG_SLOT_HITS, hits + 1);
    put_report(out, hit, slot);
    answer.hit = 1;
    answer.slot = (uint16_t)hit;
    answer.rule = wg_get16(slot + WG_SLOT_RULE);
    answer.action = wg_get16(slot + WG_SLOT_ACTION);
    return answer;
}

/* What a message is refused for, of either kind, once its zero bytes are known. */
static uint32_t message_refusal(const uint8_t *message, unsigned kind, int clean, size_t slots)
{
    if (message[0] != kind)
        return WG_WRONG_KIND;
    if (!clean)
        return WG_BAD_RECORD;
    if (wg_get16(message + 2) >= slots)
        return WG_NO_SUCH_SLOT;
    return wg_get32(message + 4) == 0 ? WG_SEQUENCE_ZERO : WG_ACCEPTED;
}

static uint32_t write_refusal(size_t table_len, const uint8_t *message, size_t message_len, size_t out_len)
{
    if (!plain_slots_fit(table_len))
        return WG_BAD_SLOTS;
    if (message_len != WG_WRITE_SIZE)
        return WG_RAGGED;
    int clean = message[1] == 0 && message[38] == 0 && message[39] == 0 && !plain_strays(message + 8, message + 21);
    uint32_t refusal = message_refusal(message, 1, clean, table_len / WG_SLOT_SIZE);
    return refusal == WG_ACCEPTED && out_len < WG_REPORT_SIZE ? WG_SHORT_OUTPUT : refusal;
}

struct wg_done plain_write(uint8_t *table, size_t table_len, const uint8_t *message, size_t message_len, uint8_t *out, size_t out_len)
{
    struct wg_done answer = {write_refusal(table_len, message, message_len, out_len), 0};

    if (answer.refusal != WG_ACCEPTED)
        return answer;
    uint8_t *slot = table + wg_get16(message + 2) * WG_SLOT_SIZE;
    if (wg_get32(message + 4) > wg_get32(slot)) {
        memset(slot, 0, WG_SLOT_SIZE);
        memcpy(slot, message + 4, 4);
        memcpy(slot + WG_SLOT_VALUE, message + 8, 30);
    }
    put_report(out, wg_get16(message + 2), slot);
    return answer;
}

struct wg_done plain_report(uint8_t *keeper, size_t keeper_len, const uint8_t *message, size_t message_len)
{
    struct wg_done answer = {WG_ACCEPTED, 0};

    if (!plain_slots_fit(keeper_len) || message_len != WG_REPORT_SIZE) {
        answer.refusal = !plain_slots_fit(keeper_len) ? WG_BAD_SLOTS : WG_RAGGED;
        return answer;
    }
    answer.refusal = message_refusal(message, 2, message[1] == 0, keeper_len / WG_SLOT_SIZE);
    if (answer.refusal != WG_ACCEPTED)
        return answer;
    uint8_t *slot = keeper + wg_get16(message + 2) * WG_SLOT_SIZE;
    uint32_t sequence = wg_get32(message + 4), held = wg_get32(slot);
    if (sequence > held)
        answer.refusal = WG_REPORT_AHEAD;
    if (sequence != held)
        return answer;
    if (wg_get32(message + 8) > wg_get32(slot + WG_SLOT_HITS))
        memcpy(slot + WG_SLOT_HITS, message + 8, 4);
    slot[WG_SLOT_SETTLED] = 1;
    return answer;
}
