/* A plain reading of docs/RULES.md: slow, short, and independent of the library and of its header. */
#ifndef PLAIN_H
#define PLAIN_H

#include <stddef.h>
#include <stdint.h>

enum { KEY = 13, POSITIONS = 104, RULE = 32, PACKET = 16, SLOT = 40, WRITE = 40, REPORT = 12, OUTCOME = 12 };
enum { MOST_RULES = 1024, MOST_PACKETS = 4096, MOST_SLOTS = 256, NOTHING = 65535 };

/* A number's bytes, the highest first. */
unsigned get16(const uint8_t *at);
uint32_t get32(const uint8_t *at);
void put16(uint8_t *at, unsigned number);
void put32(uint8_t *at, uint32_t number);

/* A row's bit; position 0 is the top bit of byte 0. */
int bit_of(const uint8_t *row, unsigned position);
void set_bit(uint8_t *row, unsigned position, int bit);

/* Keys, patterns, precedence. A rule is its 32 bytes; a policy is `count` of them. */
int row_matches(const uint8_t *value, const uint8_t *mask, const uint8_t *key);
int rules_overlap(const uint8_t *a, const uint8_t *b);
int goes_before(const uint8_t *policy, size_t a, size_t b);
size_t best_of(const uint8_t *policy, size_t count, const uint8_t *key);
size_t dependents_of(const uint8_t *policy, size_t count, size_t rule, uint16_t *list);

/* Isolates the key's best rule: its rows, and the number of fixed bits. */
unsigned isolate_for(const uint8_t *policy, size_t count, const uint8_t *key, size_t rule, uint8_t *value, uint8_t *mask);
unsigned wildcards_in(const uint8_t *mask);

/* Slots: 40 bytes each, `count` of them. */
int is_empty(const uint8_t *slot);
int is_open(const uint8_t *slot);
int same_entry(const uint8_t *slot, const uint8_t *other);
int slot_matches(const uint8_t *slot, const uint8_t *key);
size_t lowest_match(const uint8_t *slots, size_t count, const uint8_t *key);
uint32_t largest_sequence(const uint8_t *slots, size_t count);
size_t slot_to_use(const uint8_t *slots, size_t count);

#endif
