/* Buffers to lend, each with guard bytes on both sides, and sets of them to compare. */
#include "lent.h"

#include <string.h>

static void put_guards(struct lent *lent, enum part_name part, size_t length)
{
    lent->asked.part[part].bytes = lent->store[part] + GUARD;
    lent->asked.part[part].length = length;
    memset(lent->store[part], 0xA5, GUARD);
    memset(lent->store[part] + GUARD + length, 0x5A, GUARD);
}

void lent_put(struct lent *lent, enum part_name part, const uint8_t *bytes, size_t length)
{
    if (length > 0)
        memcpy(lent->store[part] + GUARD, bytes, length);
    put_guards(lent, part, length);
}

void lent_resize(struct lent *lent, enum part_name part, size_t length)
{
    size_t old = lent->asked.part[part].length;

    if (length > old)
        memset(lent->store[part] + GUARD + old, 0, length - old);
    put_guards(lent, part, length);
}

void lent_null(struct lent *lent)
{
    for (int part = 0; part < PARTS; part++)
        if (lent->asked.part[part].length == 0)
            lent->asked.part[part].bytes = NULL;
}

void lent_copy(struct lent *to, const struct lent *from)
{
    to->asked = from->asked;
    for (int part = 0; part < PARTS; part++) {
        memcpy(to->store[part], from->store[part], GUARD + from->asked.part[part].length + GUARD);
        if (from->asked.part[part].bytes != NULL)
            to->asked.part[part].bytes = to->store[part] + GUARD;
    }
}

int lent_same(const struct lent *a, const struct lent *b)
{
    for (int part = 0; part < PARTS; part++) {
        size_t length = a->asked.part[part].length;
        if (length != b->asked.part[part].length || memcmp(a->store[part], b->store[part], GUARD + length + GUARD) != 0)
            return 0;
    }
    return a->asked.number == b->asked.number && memcmp(&a->asked.totals, &b->asked.totals, sizeof a->asked.totals) == 0;
}
