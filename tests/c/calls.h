/* The twelve calls, of whichever ends are under test. */
#ifndef CALLS_H
#define CALLS_H

#include "wunnagresk.h"

struct calls {
    struct wg_count (*check)(const uint8_t *, size_t);
    struct wg_best_answer (*best)(const uint8_t *, size_t, const uint8_t *, size_t);
    struct wg_part (*rule)(const uint8_t *, size_t, size_t);
    struct wg_count (*cover)(const uint8_t *, size_t, size_t, uint8_t *, size_t);
    struct wg_isolated (*isolate)(const uint8_t *, size_t, const uint8_t *, size_t, size_t, uint8_t *, size_t);
    struct wg_found (*lookup)(const uint8_t *, size_t, uint8_t *, size_t, uint8_t *, size_t);
    struct wg_done (*write)(uint8_t *, size_t, const uint8_t *, size_t, uint8_t *, size_t);
    struct wg_outcome (*miss)(const uint8_t *, size_t, const uint8_t *, size_t, uint8_t *, size_t, uint8_t *, size_t);
    struct wg_done (*report)(uint8_t *, size_t, const uint8_t *, size_t);
    struct wg_count (*open)(const uint8_t *, size_t, uint8_t *, size_t);
    struct wg_shown (*show)(const uint8_t *, size_t, const uint8_t *, size_t, const uint8_t *, size_t);
    struct wg_count (*run)(const uint8_t *, size_t, const uint8_t *, size_t, uint8_t *, size_t, uint8_t *, size_t, uint8_t *, size_t,
                           struct wg_totals *);
};

/* The library's. */
extern const struct calls library;

/* The plain reading's, right or wrong. */
extern const struct calls plain_ends;

#endif
