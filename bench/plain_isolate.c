/* Plain C: isolating. The order of the dependents changes nothing here, so they are not sorted. */
#include <string.h>

#include "plain_calls.h"

static int overlap(const uint8_t *a, const uint8_t *b)
{
    for (int i = 0; i < WG_KEY_SIZE; i++)
        if ((a[i] ^ b[i]) & a[WG_RULE_MASK + i] & b[WG_RULE_MASK + i])
            return 0;
    return 1;
}

static size_t dependents(const uint8_t *policy, size_t count, size_t rule, uint16_t *list)
{
    const uint8_t *own = policy + rule * WG_RULE_SIZE;
    unsigned priority = wg_get16(own + WG_RULE_PRIORITY);
    size_t listed = 0;

    for (size_t i = 0; i < count; i++) {
        const uint8_t *other = policy + i * WG_RULE_SIZE;
        unsigned its = wg_get16(other + WG_RULE_PRIORITY);
        if ((its > priority || (its == priority && i < rule)) && overlap(own, other))
            list[listed++] = (uint16_t)i;
    }
    return listed;
}

/* The bits of byte i that separate the dependent: wildcards of the rule where it is exact and differs from the key. */
static unsigned separating(const uint8_t *own, const uint8_t *dependent, const uint8_t *key, size_t i)
{
    return (uint8_t)(~own[WG_RULE_MASK + i] & dependent[WG_RULE_MASK + i] & (dependent[i] ^ key[i]));
}

/* Each bit that is set adds 1 to the weight of its position in the byte. */
static void weigh_byte(unsigned *weight, unsigned bits)
{
    for (size_t b = 0; bits != 0 && b < 8; b++)
        weight[b] += bits >> (7 - b) & 1;
}

/* Each position that separates the dependent weighs 1 more. */
static void weigh_dependent(unsigned *weight, const uint8_t *own, const uint8_t *dependent, const uint8_t *key)
{
    for (size_t i = 0; i < WG_KEY_SIZE; i++)
        weigh_byte(weight + 8 * i, separating(own, dependent, key, i));
}

/* The position that weighs most, the lowest on a tie. */
static size_t heaviest(const unsigned *weight)
{
    size_t chosen = 0;

    for (size_t p = 1; p < WG_POSITIONS; p++)
        if (weight[p] > weight[chosen])
            chosen = p;
    return chosen;
}

/* The position that separates the most of those that stand. */
static size_t position_to_fix(const uint8_t *policy, const uint8_t *own, const uint8_t *key, const uint16_t *standing, size_t count)
{
    unsigned weight[WG_POSITIONS] = {0};

    for (size_t d = 0; d < count; d++)
        weigh_dependent(weight, own, policy + standing[d] * WG_RULE_SIZE, key);
    return heaviest(weight);
}

/* Keeps those that this bit of byte i does not separate; gives how many still stand. */
static size_t keep_standing(const uint8_t *policy, const uint8_t *own, const uint8_t *key, size_t i, unsigned bit, uint16_t *standing, size_t count)
{
    size_t kept = 0;

    for (size_t d = 0; d < count; d++)
        if (!(separating(own, policy + standing[d] * WG_RULE_SIZE, key, i) & bit))
            standing[kept++] = standing[d];
    return kept;
}

void plain_isolate(const uint8_t *policy, size_t count, const uint8_t *key, size_t rule, uint8_t *value, uint8_t *mask)
{
    const uint8_t *own = policy + rule * WG_RULE_SIZE;
    uint16_t standing[WG_MOST_RULES];
    size_t left = dependents(policy, count, rule, standing);

    memcpy(value, own + WG_RULE_VALUE, WG_KEY_SIZE);
    memcpy(mask, own + WG_RULE_MASK, WG_KEY_SIZE);
    while (left > 0) {
        size_t position = position_to_fix(policy, own, key, standing, left), i = position / 8;
        unsigned bit = 0x80u >> position % 8;
        mask[i] |= (uint8_t)bit;
        value[i] = (uint8_t)((value[i] & ~bit) | (key[i] & bit));
        left = keep_standing(policy, own, key, i, bit, standing, left);
    }
}
