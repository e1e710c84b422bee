/* The first half of demand 3, looked at after each step: at each of these keys the table misses, or names the whole policy's best rule. */
#ifndef WATCH_H
#define WATCH_H

#include "check.h"
#include "plain.h"

/* Keys kept for each rule (its corners), for each entry of the table (its corners, and where it meets a rule that goes before), and last missed. */
enum { OF_RULE = 2, OF_ENTRY = 4, OF_MISSES = 8 };
enum { MOST_WATCHED = OF_RULE * MOST_RULES + OF_ENTRY * MOST_SLOTS + OF_MISSES };

struct watched {
    uint8_t key[KEY];
    uint16_t best; /* of the whole policy */
    uint16_t hit;  /* the table's lowest slot that matches */
};

struct watch {
    const uint8_t *policy;
    size_t rules, slots, count, missed;
    uint8_t table[MOST_SLOTS * SLOT]; /* the table as it was when last looked at */
    struct watched keys[MOST_WATCHED];
};

/* Both ends are cleared. */
void watch_start(struct watch *w, const uint8_t *policy, size_t rules, size_t slots);

/* This key was missed: it is watched until OF_MISSES more are. */
void watch_missed(struct watch *w, const uint8_t *key);

/* Some watched key. */
const uint8_t *watch_some(const struct watch *w, struct random *r);

/* Looks at the table as it is now; gives NULL, or a key for which it names another rule or action than the policy's best. */
const uint8_t *watch_table(struct watch *w, const uint8_t *table);

#endif
