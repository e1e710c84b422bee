/* What is lent to the calls: policies, keys, slots and traces, the same for both sides. */
#ifndef BENCH_WORLDS_H
#define BENCH_WORLDS_H

#include "check.h"
#include "wunnagresk.h"

/* The keys that a row's calls go through in turn. */
enum { KEYS = 16 };

struct world {
    size_t rules, slots;
    uint8_t policy[WG_MOST_RULES * WG_RULE_SIZE];
    uint8_t keys[KEYS][WG_KEY_SIZE];
    uint8_t trace[WG_MOST_PACKETS * WG_PACKET_SIZE];
    uint8_t start[WG_MOST_SLOTS * WG_SLOT_SIZE]; /* what both ends hold before the row's calls; all zero is cleared */
    uint8_t table[WG_MOST_SLOTS * WG_SLOT_SIZE];
    uint8_t keeper[WG_MOST_SLOTS * WG_SLOT_SIZE];
    uint8_t out[WG_MOST_PACKETS * WG_OUTCOME_SIZE];
    struct wg_totals totals;
    struct random stream;
};

/* ---- Each makes the world of a row; rules and slots are given, all else is zero. */

/* Subnets of four rules each: ssh, web, TCP, all. A rule and a key of two subnets differ in byte 6 first. */
void make_best(struct world *w);

/* Rules and keys that differ in the last byte only; the last rule matches. */
void make_best_late(struct world *w);

/* A table of subnets, and keys that the first slot takes, that the last takes, that none takes; one that differ in the last byte only. */
void make_hit_first(struct world *w);
void make_hit_last(struct world *w);
void make_no_hit(struct world *w);
void make_no_hit_late(struct world *w);

/* Misses whose best rule has 3 dependents: the keeper is cleared, or full of other subnets. */
void make_few(struct world *w);
void make_few_full(struct world *w);

/* Misses whose best rule, the last, has all others for dependents, of which a round separates about half; the policy is written in order of
 * precedence, or its priorities are random. Last: dependents with a single exact bit, which take a round for each of the 104 positions. */
void make_all(struct world *w);
void make_all_mixed(struct world *w);
void make_all_slow(struct world *w);

/* Traces of subnets: of 4 of them, so that most packets hit; of all in equal shares. */
void make_steady(struct world *w);
void make_spread(struct world *w);

#endif
