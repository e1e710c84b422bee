/* The small policy of docs/RULES.md. Patterns show positions 0 to 3; the rest is wildcard, and the rest of each key zero. */
#ifndef SMALL_H
#define SMALL_H

#include "plain.h"

/* Writes the pattern's rows; `text` is of 0, 1 and *. */
void small_rows(const char *text, uint8_t *value, uint8_t *mask);

/* Writes the key's 13 bytes. */
void small_key(const char *text, uint8_t *key);

/* R0 11** priority 30 action 7; R1 1*1* 20, 8; R2 **** 10, 9. */
void small_policy(uint8_t *policy);

/* A slot: sequence, hits, pattern, action, rule and settled mark. */
void small_slot(uint8_t *slot, uint32_t sequence, uint32_t hits, const char *text, unsigned action, unsigned rule, int settled);

/* A write and a report. */
void small_write(uint8_t *message, unsigned slot, uint32_t sequence, const char *text, unsigned action, unsigned rule);
void small_report(uint8_t *message, unsigned slot, uint32_t sequence, uint32_t hits);

#endif
