/* Buffers to lend, each with guard bytes on both sides, and sets of them to compare. */
#ifndef LENT_H
#define LENT_H

#include "asked.h"

enum { GUARD = 16, MOST_BYTES = 66000 };

struct lent {
    struct asked asked;
    uint8_t store[PARTS][GUARD + MOST_BYTES + GUARD];
};

/* Lends `length` bytes, copied from `bytes`, as this part. */
void lent_put(struct lent *lent, enum part_name part, const uint8_t *bytes, size_t length);

/* Lends `length` bytes of the part from now on: its first ones as they were, 0 in new ones. */
void lent_resize(struct lent *lent, enum part_name part, size_t length);

/* Lends NULL for each part of 0 bytes. */
void lent_null(struct lent *lent);

void lent_copy(struct lent *to, const struct lent *from);

/* Whether two sets have the same bytes, guards, lengths, totals and number. */
int lent_same(const struct lent *a, const struct lent *b);

#endif
