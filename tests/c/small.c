/* The small policy of docs/RULES.md, and records about it. */
#include "small.h"

#include <string.h>

void small_rows(const char *text, uint8_t *value, uint8_t *mask)
{
    memset(value, 0, KEY);
    memset(mask, 0, KEY);
    for (unsigned p = 0; text[p] != '\0'; p++) {
        set_bit(mask, p, text[p] != '*');
        set_bit(value, p, text[p] == '1');
    }
}

void small_key(const char *text, uint8_t *key)
{
    uint8_t mask[KEY];

    small_rows(text, key, mask);
}

static void put_rule(uint8_t *rule, const char *text, unsigned priority, unsigned action)
{
    small_rows(text, rule, rule + 13);
    put16(rule + 26, priority);
    put16(rule + 28, action);
    put16(rule + 30, 0);
}

void small_policy(uint8_t *policy)
{
    put_rule(policy, "11**", 30, 7);
    put_rule(policy + RULE, "1*1*", 20, 8);
    put_rule(policy + 2 * RULE, "****", 10, 9);
}

void small_slot(uint8_t *slot, uint32_t sequence, uint32_t hits, const char *text, unsigned action, unsigned rule, int settled)
{
    put32(slot, sequence);
    put32(slot + 4, hits);
    small_rows(text, slot + 8, slot + 21);
    put16(slot + 34, action);
    put16(slot + 36, rule);
    slot[38] = (uint8_t)settled;
    slot[39] = 0;
}

void small_write(uint8_t *message, unsigned slot, uint32_t sequence, const char *text, unsigned action, unsigned rule)
{
    message[0] = 1;
    message[1] = 0;
    put16(message + 2, slot);
    put32(message + 4, sequence);
    small_rows(text, message + 8, message + 21);
    put16(message + 34, action);
    put16(message + 36, rule);
    put16(message + 38, 0);
}

void small_report(uint8_t *message, unsigned slot, uint32_t sequence, uint32_t hits)
{
    message[0] = 2;
    message[1] = 0;
    put16(message + 2, slot);
    put32(message + 4, sequence);
    put32(message + 8, hits);
}
