/* The calls in plain C, as a C programmer would write them from docs/RULES.md: what the library is measured against.
 * Each call checks what it is lent once, as the library does; byte loops stop at the first difference. */
#ifndef BENCH_PLAIN_CALLS_H
#define BENCH_PLAIN_CALLS_H

#include "calls.h"

/* The seven calls that are measured, or that a run is made of; the others are NULL. */
extern const struct calls plain;

struct wg_count plain_check(const uint8_t *policy, size_t policy_len);
struct wg_best_answer plain_best(const uint8_t *policy, size_t policy_len, const uint8_t *key, size_t key_len);
struct wg_found plain_lookup(const uint8_t *key, size_t key_len, uint8_t *table, size_t table_len, uint8_t *out, size_t out_len);
struct wg_done plain_write(uint8_t *table, size_t table_len, const uint8_t *message, size_t message_len, uint8_t *out, size_t out_len);
struct wg_done plain_report(uint8_t *keeper, size_t keeper_len, const uint8_t *message, size_t message_len);
struct wg_outcome plain_miss(const uint8_t *policy, size_t policy_len, const uint8_t *key, size_t key_len, uint8_t *keeper, size_t keeper_len,
                             uint8_t *out, size_t out_len);
struct wg_count plain_run(const uint8_t *policy, size_t policy_len, const uint8_t *trace, size_t trace_len, uint8_t *table, size_t table_len,
                          uint8_t *keeper, size_t keeper_len, uint8_t *out, size_t out_len, struct wg_totals *totals);

/* ---- Below the calls: nothing is checked again. */

/* The best rule's number, WG_NONE where none matches. */
size_t plain_search(const uint8_t *policy, size_t count, const uint8_t *key);

/* Isolates the key's best rule: its value and mask. */
void plain_isolate(const uint8_t *policy, size_t count, const uint8_t *key, size_t rule, uint8_t *value, uint8_t *mask);

/* A miss of an accepted policy and keeper. */
struct wg_outcome plain_missed(const uint8_t *policy, size_t count, const uint8_t *key, uint8_t *keeper, size_t slots, uint8_t *out, size_t out_len);

/* The lowest slot that is not empty and matches, WG_NONE where none does. */
size_t plain_holding(const uint8_t *slots, size_t count, const uint8_t *key);

static inline int plain_matches(const uint8_t *value, const uint8_t *mask, const uint8_t *key)
{
    for (int i = 0; i < WG_KEY_SIZE; i++)
        if ((key[i] ^ value[i]) & mask[i])
            return 0;
    return 1;
}

/* Whether the value has a bit under a wildcard. */
static inline int plain_strays(const uint8_t *value, const uint8_t *mask)
{
    for (int i = 0; i < WG_KEY_SIZE; i++)
        if (value[i] & ~mask[i])
            return 1;
    return 0;
}

static inline int plain_slots_fit(size_t length)
{
    return length % WG_SLOT_SIZE == 0 && length >= WG_SLOT_SIZE && length <= WG_MOST_SLOTS * WG_SLOT_SIZE;
}

static inline void plain_put16(uint8_t *at, unsigned number)
{
    at[0] = (uint8_t)(number >> 8);
    at[1] = (uint8_t)number;
}

static inline void plain_put32(uint8_t *at, uint32_t number)
{
    plain_put16(at, number >> 16);
    plain_put16(at + 2, number & 0xFFFF);
}

#endif
