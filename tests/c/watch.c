/* The first half of demand 3, looked at after each step. Where a slot has changed, each key's answer is brought up to date; all are then judged. */
#include "watch.h"

#include <string.h>

/* Watches this key in the place of another. */
static void put_key(struct watch *w, size_t at, const uint8_t *key)
{
    struct watched *k = &w->keys[at];

    memcpy(k->key, key, KEY);
    k->best = (uint16_t)best_of(w->policy, w->rules, key);
    k->hit = (uint16_t)lowest_match(w->table, w->slots, key);
}

/* The corner of a pattern with every wildcard taken from `filling`. */
static void corner(const uint8_t *value, const uint8_t *mask, const uint8_t *filling, uint8_t *key)
{
    for (int i = 0; i < KEY; i++)
        key[i] = (uint8_t)((value[i] & mask[i]) | (filling[i] & ~mask[i]));
}

/* The lowest and the highest key that a pattern matches. */
static void put_corners(struct watch *w, size_t at, const uint8_t *value, const uint8_t *mask)
{
    static const uint8_t zeros[KEY];
    uint8_t ones[KEY], key[KEY];

    memset(ones, 0xFF, KEY);
    corner(value, mask, zeros, key);
    put_key(w, at, key);
    corner(value, mask, ones, key);
    put_key(w, at + 1, key);
}

/* A rule that goes before the entry's own and overlaps the entry; where the entry is isolated there is none, and any rule will do. */
static const uint8_t *rule_before(const struct watch *w, const uint8_t *slot)
{
    static const uint8_t no_rule[RULE];
    size_t own = get16(slot + 36);

    for (size_t i = 0; i < w->rules; i++)
        if (own < w->rules && goes_before(w->policy, i, own) && rules_overlap(slot + 8, w->policy + i * RULE))
            return w->policy + i * RULE;
    return w->rules == 0 ? no_rule : w->policy + get32(slot) % w->rules * RULE;
}

/* The corners of an entry, and the corners of its meeting with a rule. */
static void put_entry(struct watch *w, size_t slot)
{
    const uint8_t *entry = w->table + slot * SLOT, *rule = rule_before(w, entry);
    size_t at = OF_RULE * w->rules + OF_MISSES + OF_ENTRY * slot;
    uint8_t value[KEY], mask[KEY];

    put_corners(w, at, entry + 8, entry + 21);
    corner(entry + 8, entry + 21, rule, value);
    for (int i = 0; i < KEY; i++)
        mask[i] = entry[21 + i] | rule[13 + i];
    put_corners(w, at + 2, value, mask);
}

void watch_start(struct watch *w, const uint8_t *policy, size_t rules, size_t slots)
{
    static const uint8_t zeros[KEY];

    memset(w->table, 0, slots * SLOT);
    w->policy = policy;
    w->rules = rules;
    w->slots = slots;
    w->missed = 0;
    w->count = OF_RULE * rules + OF_MISSES + OF_ENTRY * slots;
    for (size_t i = 0; i < w->count; i++)
        if (i < OF_RULE * rules && i % OF_RULE == 0)
            put_corners(w, i, policy + i / OF_RULE * RULE, policy + i / OF_RULE * RULE + 13);
        else if (i >= OF_RULE * rules)
            put_key(w, i, zeros);
}

void watch_missed(struct watch *w, const uint8_t *key)
{
    put_key(w, OF_RULE * w->rules + w->missed % OF_MISSES, key);
    w->missed++;
}

const uint8_t *watch_some(const struct watch *w, struct random *r)
{
    return w->keys[random_below(r, w->count)].key;
}

/* The slot has changed: brings each key's lowest matching slot up to date. */
static void slot_changed(struct watch *w, size_t slot)
{
    for (size_t i = 0; i < w->count; i++) {
        struct watched *k = &w->keys[i];
        if (slot < k->hit && slot_matches(w->table + slot * SLOT, k->key))
            k->hit = (uint16_t)slot;
        else if (slot == k->hit && !slot_matches(w->table + slot * SLOT, k->key))
            k->hit = (uint16_t)lowest_match(w->table, w->slots, k->key);
    }
}

/* Whether the entry that is hit names the best rule with its action. */
static int names_best(const struct watch *w, const struct watched *k)
{
    const uint8_t *slot = w->table + k->hit * SLOT;

    return k->best != NOTHING && get16(slot + 36) == k->best && get16(slot + 34) == get16(w->policy + k->best * RULE + 28);
}

/* Takes over each slot that is not as it was when last looked at. */
static void take_changes(struct watch *w, const uint8_t *table)
{
    for (size_t i = 0; i < w->slots; i++)
        if (memcmp(w->table + i * SLOT, table + i * SLOT, SLOT) != 0) {
            int other = !same_entry(w->table + i * SLOT, table + i * SLOT);
            memcpy(w->table + i * SLOT, table + i * SLOT, SLOT);
            if (!other)
                continue;
            slot_changed(w, i);
            put_entry(w, i);
        }
}

const uint8_t *watch_table(struct watch *w, const uint8_t *table)
{
    take_changes(w, table);
    for (size_t i = 0; i < w->count; i++)
        if (w->keys[i].hit != NOTHING && !names_best(w, &w->keys[i]))
            return w->keys[i].key;
    return NULL;
}
