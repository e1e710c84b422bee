/* The time of a row's calls on both sides. */
#ifndef BENCH_MEASURE_H
#define BENCH_MEASURE_H

#include "rows.h"

struct measured {
    double library, plain; /* nanoseconds a call, the least of all rounds; 0 where there was none */
    uint64_t checksum;     /* the library's, over one call for each key */
    unsigned apart;        /* how often plain C's checksum was another, here or over all calls of a round */
};

/* Some rounds more, in which the sides take turns over the same buffers. */
void measure(const struct row *row, struct measured *m);

#endif
