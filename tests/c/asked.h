/* One form for all twelve calls: what is lent, and what is answered. The calls under test are listed here and nowhere else. */
#ifndef ASKED_H
#define ASKED_H

#include "calls.h"

/* The buffers that a call may be lent. */
enum part_name { POLICY, A_KEY, TRACE, TABLE, KEEPER, MESSAGE, OUT, PARTS };

struct part {
    uint8_t *bytes;
    size_t length;
};

/* All that a call may be lent; each call takes what it has. */
struct asked {
    struct part part[PARTS];
    size_t number;
    struct wg_totals totals;
};

/* An answer's fields after its place, in order; 0 where it has fewer. */
enum { FIELDS = 5 };
struct answer {
    uint32_t refusal;
    size_t place;
    uint64_t field[FIELDS];
};

enum call_name { CHECK, BEST, A_RULE, COVER, ISOLATE, LOOKUP, WRITES, MISS, REPORTS, OPEN, SHOW, RUN, CALLS };

struct call {
    const char *name;
    struct answer (*ask)(const struct calls *calls, struct asked *asked);
    unsigned parts; /* a bit for each part that it is lent */
};

extern const struct call call_list[CALLS];

int same_answer(const struct answer *a, const struct answer *b);

#endif
