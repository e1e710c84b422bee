/* The rows of the table: what each lends, what each calls, and what it aims at. */
#ifndef BENCH_ROWS_H
#define BENCH_ROWS_H

#include "calls.h"
#include "worlds.h"

struct row {
    const char *name;
    size_t rules, slots;            /* 0 where the call is lent none */
    const char *buffers;            /* what the ends hold before each batch or call */
    unsigned aim;                   /* the ratio that is aimed at; 0 where there is no aim */
    void (*make)(struct world *);
    /* Calls that often, through the keys in turn; gives a sum over the answers. */
    uint64_t (*work)(const struct calls *side, struct world *w, size_t times);
    const char *less_row_before;    /* the name of the difference to the row before, or NULL */
};

/* The work of the rows that need wg_run. */
uint64_t run_trace(const struct calls *side, struct world *w, size_t times);

enum { MOST_ROWS = 64 };

extern const struct row rows[];
extern const size_t row_count;

#endif
