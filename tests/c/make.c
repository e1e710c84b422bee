/* Structured random inputs: patterns over a few positions, so that rules overlap, tie, repeat and hide one another. */
#include "make.h"

#include <string.h>

/* The first position that is not taken, from this one on and round. */
static unsigned free_position(const uint8_t *taken, unsigned from)
{
    unsigned p = from;

    while (taken[p])
        p = (p + 1) % POSITIONS;
    return p;
}

void make_field(struct random *r, struct field *field, unsigned count)
{
    uint8_t taken[POSITIONS] = {0};

    field->count = count;
    for (unsigned i = 0; i < count; i++) {
        unsigned p = free_position(taken, i == 0 ? 0 : i == 1 ? POSITIONS - 1 : (unsigned)random_below(r, POSITIONS));
        taken[p] = 1;
        field->position[i] = p;
    }
}

static void make_any_key(struct random *r, uint8_t *key)
{
    for (unsigned i = 0; i < KEY; i++)
        key[i] = (uint8_t)random_next(r);
}

void make_key(struct random *r, const struct field *field, uint8_t *key)
{
    memset(key, random_one_in(r, 8) ? 0xFF : 0, KEY);
    if (random_one_in(r, 8))
        make_any_key(r, key);
    for (unsigned i = 0; i < field->count; i++)
        set_bit(key, field->position[i], (int)random_below(r, 2));
}

/* Rows over the field; value 0 at each wildcard. */
static void make_rows(struct random *r, const struct field *field, uint8_t *value, uint8_t *mask)
{
    size_t exact = 1 + random_below(r, 4);

    memset(value, 0, KEY);
    memset(mask, 0, KEY);
    for (unsigned i = 0; i < field->count; i++)
        if (random_below(r, 4) < exact) {
            set_bit(mask, field->position[i], 1);
            set_bit(value, field->position[i], (int)random_below(r, 2));
        }
}

static unsigned make_number(struct random *r, unsigned common)
{
    static const unsigned corner[] = {0, 1, 7, 255, 256, 65534, 65535};

    return random_one_in(r, 4) ? corner[random_below(r, 7)] : (unsigned)random_below(r, common);
}

void make_policy(struct random *r, const struct field *field, uint8_t *policy, size_t count)
{
    unsigned priorities = random_one_in(r, 2) ? 3 : 65536;

    for (size_t i = 0; i < count; i++) {
        uint8_t *rule = policy + i * RULE;
        if (i > 0 && random_one_in(r, 8))
            memcpy(rule, policy + random_below(r, i) * RULE, RULE);
        else
            make_rows(r, field, rule, rule + 13);
        put16(rule + 26, make_number(r, priorities));
        put16(rule + 28, make_number(r, 16));
        put16(rule + 30, 0);
    }
}

static uint32_t make_sequence(struct random *r)
{
    static const uint32_t corner[] = {0, 1, 2, 4294967293u, 4294967294u, 4294967295u};

    return random_one_in(r, 8) ? corner[random_below(r, 6)] : (uint32_t)random_below(r, 12);
}

static uint32_t make_hits(struct random *r)
{
    static const uint32_t corner[] = {4294967294u, 4294967295u, 255, 256};

    return random_one_in(r, 4) ? corner[random_below(r, 4)] : (uint32_t)random_below(r, 3);
}

void make_slots(struct random *r, const struct field *field, uint8_t *slots, size_t count, size_t rules)
{
    static const uint8_t settled[] = {0, 0, 1, 1, 2, 255};
    size_t empty_one_in = 1 + random_below(r, 6);

    for (size_t i = 0; i < count; i++) {
        uint8_t *slot = slots + i * SLOT;
        put32(slot, random_one_in(r, empty_one_in + 1) ? 0 : make_sequence(r));
        put32(slot + 4, make_hits(r));
        make_rows(r, field, slot + 8, slot + 21);
        if (random_one_in(r, 4))
            slot[8 + random_below(r, KEY)] |= (uint8_t)random_next(r);
        put16(slot + 34, make_number(r, 16));
        put16(slot + 36, make_number(r, (unsigned)rules + 1));
        slot[38] = settled[random_below(r, 6)];
        slot[39] = (uint8_t)(random_one_in(r, 4) ? random_next(r) : 0);
    }
}

/* The slot and the sequence of a message: near what that slot has. */
static void make_address(struct random *r, uint8_t *message, const uint8_t *slots, size_t count)
{
    size_t slot = random_below(r, count);
    uint32_t sequence = get32(slots + slot * SLOT);

    put16(message + 2, random_one_in(r, 16) ? make_number(r, (unsigned)count + 2) : (unsigned)slot);
    put32(message + 4, random_one_in(r, 16) ? make_sequence(r) : sequence + (uint32_t)random_below(r, 4) - 1);
}

void make_write(struct random *r, const struct field *field, uint8_t *message, const uint8_t *slots, size_t count)
{
    memset(message, 0, WRITE);
    message[0] = 1;
    make_address(r, message, slots, count);
    make_rows(r, field, message + 8, message + 21);
    put16(message + 34, make_number(r, 16));
    put16(message + 36, make_number(r, 16));
    if (random_one_in(r, 8))
        message[random_below(r, WRITE)] ^= (uint8_t)(1 << random_below(r, 8));
}

void make_report(struct random *r, uint8_t *message, const uint8_t *slots, size_t count)
{
    memset(message, 0, REPORT);
    message[0] = 2;
    make_address(r, message, slots, count);
    put32(message + 8, make_hits(r));
    if (random_one_in(r, 8))
        message[random_below(r, REPORT)] ^= (uint8_t)(1 << random_below(r, 8));
}
