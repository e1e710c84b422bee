/* Policies, keys, slots and traces. Subnet s is 10.1.s.0/24; each has four rules. */
#include "worlds.h"

#include <string.h>

enum { SSH, WEB, TCP, ALL, PARTS }; /* the rules of a subnet, the first goes first */
enum { TO = 4, PORT = 10, PROTOCOL = 12 };

static void put16(uint8_t *at, size_t number)
{
    at[0] = (uint8_t)(number >> 8);
    at[1] = (uint8_t)number;
}

static void put_exact(uint8_t *value, uint8_t *mask, size_t byte, size_t number)
{
    value[byte] = (uint8_t)number;
    mask[byte] = 0xFF;
}

static void put_subnet(uint8_t *value, uint8_t *mask, size_t subnet, int part)
{
    put_exact(value, mask, TO, 10);
    put_exact(value, mask, TO + 1, 1);
    put_exact(value, mask, TO + 2, subnet);
    if (part == SSH || part == WEB) {
        put_exact(value, mask, PORT, 0);
        put_exact(value, mask, PORT + 1, part == SSH ? 22 : 80);
    }
    if (part != ALL)
        put_exact(value, mask, PROTOCOL, 6);
}

static void subnet_policy(struct world *w)
{
    for (size_t i = 0; i < w->rules; i++) {
        uint8_t *rule = w->policy + i * WG_RULE_SIZE;
        put_subnet(rule + WG_RULE_VALUE, rule + WG_RULE_MASK, i / PARTS, (int)(i % PARTS));
        put16(rule + WG_RULE_PRIORITY, 400 - 100 * (i % PARTS));
        put16(rule + WG_RULE_ACTION, i + 1);
    }
}

/* A key whose best rule is that part of the subnet. */
static void subnet_key(struct world *w, uint8_t *key, size_t subnet, int part)
{
    for (size_t i = 0; i < WG_KEY_SIZE; i++)
        key[i] = (uint8_t)random_next(&w->stream);
    key[TO] = 10;
    key[TO + 1] = 1;
    key[TO + 2] = (uint8_t)subnet;
    if (part == SSH || part == WEB)
        put16(key + PORT, part == SSH ? 22 : 80);
    else
        key[PORT] |= 0x80;
    key[PROTOCOL] = part == ALL ? 17 : 6;
}

/* Keys of the last subnets, of the part; their best rules are the last ones. */
static void last_keys(struct world *w, int part)
{
    for (size_t k = 0; k < KEYS; k++)
        subnet_key(w, w->keys[k], w->rules / PARTS - 1 - k % (w->rules / PARTS), part);
}

void make_best(struct world *w)
{
    subnet_policy(w);
    for (size_t k = 0; k < KEYS; k++)
        subnet_key(w, w->keys[k], random_below(&w->stream, w->rules / PARTS), (int)(k % PARTS));
}

/* Exact everywhere but in the source port; `last` is the protocol. */
static void put_late(uint8_t *value, uint8_t *mask, size_t last)
{
    memset(mask, 0xFF, WG_KEY_SIZE);
    mask[8] = mask[9] = 0;
    value[PROTOCOL] = (uint8_t)last;
}

static void late_keys(struct world *w)
{
    for (size_t k = 0; k < KEYS; k++) {
        put16(w->keys[k] + 8, random_below(&w->stream, 65536));
        w->keys[k][PROTOCOL] = 255;
    }
}

void make_best_late(struct world *w)
{
    for (size_t i = 0; i < w->rules; i++) {
        uint8_t *rule = w->policy + i * WG_RULE_SIZE;
        put_late(rule + WG_RULE_VALUE, rule + WG_RULE_MASK, i + 1 == w->rules ? 255 : i % 255);
        put16(rule + WG_RULE_PRIORITY, i);
        put16(rule + WG_RULE_ACTION, i + 1);
    }
    late_keys(w);
}

/* ---- Slots. */

static void subnet_slots(struct world *w)
{
    for (size_t i = 0; i < w->slots; i++) {
        uint8_t *slot = w->start + i * WG_SLOT_SIZE;
        put16(slot + WG_SLOT_SEQUENCE + 2, i + 1);
        put16(slot + WG_SLOT_HITS + 2, i % 7);
        put_subnet(slot + WG_SLOT_VALUE, slot + WG_SLOT_MASK, i, ALL);
        put16(slot + WG_SLOT_ACTION, i + 1);
        put16(slot + WG_SLOT_RULE, i);
        slot[WG_SLOT_SETTLED] = 1;
    }
}

static void table_keys(struct world *w, size_t subnet)
{
    subnet_slots(w);
    for (size_t k = 0; k < KEYS; k++)
        subnet_key(w, w->keys[k], subnet, (int)(k % PARTS));
}

void make_hit_first(struct world *w)
{
    table_keys(w, 0);
}

void make_hit_last(struct world *w)
{
    table_keys(w, w->slots - 1);
}

/* Only the last slot would take the keys, and it is made a copy of the one before. */
void make_no_hit(struct world *w)
{
    table_keys(w, w->slots - 1);
    w->start[(w->slots - 1) * WG_SLOT_SIZE + WG_SLOT_VALUE + TO + 2] = (uint8_t)(w->slots - 2);
}

void make_no_hit_late(struct world *w)
{
    subnet_slots(w);
    for (size_t i = 0; i < w->slots; i++) {
        uint8_t *slot = w->start + i * WG_SLOT_SIZE;
        memset(slot + WG_SLOT_VALUE, 0, WG_KEY_SIZE);
        put_late(slot + WG_SLOT_VALUE, slot + WG_SLOT_MASK, i % 255);
    }
    late_keys(w);
}

/* ---- Misses. */

void make_few(struct world *w)
{
    subnet_policy(w);
    last_keys(w, ALL);
}

void make_few_full(struct world *w)
{
    make_few(w);
    subnet_slots(w);
    for (size_t i = 0; i < w->slots; i++)
        w->start[i * WG_SLOT_SIZE + WG_SLOT_VALUE + TO + 1] = 2; /* 10.2, where no key is */
}

/* Each rule goes before the next; the last has no exact bit. */
static void in_order(struct world *w)
{
    for (size_t i = 0; i < w->rules; i++) {
        uint8_t *rule = w->policy + i * WG_RULE_SIZE;
        put16(rule + WG_RULE_PRIORITY, WG_MOST_RULES - i);
        put16(rule + WG_RULE_ACTION, i + 1);
    }
}

/* Makes the rule exact in the destination, to some address. */
static void put_destination(struct world *w, uint8_t *rule)
{
    for (size_t b = TO; b < TO + 4; b++)
        put_exact(rule + WG_RULE_VALUE, rule + WG_RULE_MASK, b, random_next(&w->stream));
}

/* A key for each of the first subnets. */
static void first_keys(struct world *w)
{
    for (size_t k = 0; k < KEYS; k++)
        subnet_key(w, w->keys[k], k, ALL);
}

void make_all(struct world *w)
{
    in_order(w);
    for (size_t i = 0; i + 1 < w->rules; i++)
        put_destination(w, w->policy + i * WG_RULE_SIZE);
    first_keys(w);
}

void make_all_mixed(struct world *w)
{
    make_all(w);
    for (size_t i = 0; i + 1 < w->rules; i++)
        put16(w->policy + i * WG_RULE_SIZE + WG_RULE_PRIORITY, WG_MOST_RULES + random_below(&w->stream, WG_MOST_RULES));
}

/* All keys are zero; each dependent has one exact bit, of 1. */
void make_all_slow(struct world *w)
{
    in_order(w);
    for (size_t i = 0; i + 1 < w->rules; i++) {
        uint8_t *rule = w->policy + i * WG_RULE_SIZE;
        size_t p = i % WG_POSITIONS;
        rule[WG_RULE_VALUE + p / 8] = rule[WG_RULE_MASK + p / 8] = (uint8_t)(0x80 >> p % 8);
    }
}

/* ---- Traces. */

static void subnet_trace(struct world *w, size_t subnets)
{
    subnet_policy(w);
    for (size_t i = 0; i < WG_MOST_PACKETS; i++)
        subnet_key(w, w->trace + i * WG_PACKET_SIZE, random_below(&w->stream, subnets), (int)random_below(&w->stream, PARTS));
}

void make_steady(struct world *w)
{
    subnet_trace(w, 4);
}

void make_spread(struct world *w)
{
    subnet_trace(w, w->rules / PARTS);
}
