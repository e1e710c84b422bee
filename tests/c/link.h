/* An agent and a chip with a link between them that loses, repeats, delays and reorders; demand 3 is looked at after each step. */
#ifndef LINK_H
#define LINK_H

#include "ends.h"

/* What is looked at: the halves of demand 3, and each answer with every byte of both ends against the plain reading. */
enum { HALF_ONE = 1, HALF_TWO = 2, ANSWERS = 4 };

/* How many worlds, how many steps in each, and how large a world may be. A full one has exactly so many rules. */
struct plan {
    unsigned worlds, steps;
    size_t most_rules, most_slots;
    unsigned most_positions;
    int full;
};

/* What has to have happened for a run to say anything. */
enum event {
    A_HIT, NO_RULE, TO_EMPTY, OVER_ENTRY, GIVEN_AGAIN, WRITE_STORED, WRITE_TOO_LATE, REPORT_SETTLES, REPORT_TOO_LATE,
    CALL_REFUSED, ENDS_APART, EVENTS
};

/* What was found: nothing (0) or the check that reported, in which world and step, and in words. */
struct report {
    unsigned reported;
    unsigned world, step;
    const char *words;
    unsigned long steps_made, seen[EVENTS];
};

/* Runs these ends, wrong in this way where they are the plain ones, under these checks, up to the first report. */
struct report link_run(const struct calls *calls, enum wrong way, unsigned checks, const struct plan *plan, uint64_t seed);

#endif
