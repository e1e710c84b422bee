/* Structured random inputs: patterns over a few positions, so that rules overlap, tie, repeat and hide one another. */
#ifndef MAKE_H
#define MAKE_H

#include "check.h"
#include "plain.h"

/* The positions at which rules are exact and keys differ. */
struct field {
    unsigned count;
    unsigned position[POSITIONS];
};

/* `count` different positions, the first and the last of a key among them. */
void make_field(struct random *r, struct field *field, unsigned count);

/* A key that varies in the field; now and then everywhere. */
void make_key(struct random *r, const struct field *field, uint8_t *key);

/* An accepted policy: `count` rule records. */
void make_policy(struct random *r, const struct field *field, uint8_t *policy, size_t count);

/* `count` slots that did not grow from cleared ones: any sequence, hits, settled byte and value bits, over the field. */
void make_slots(struct random *r, const struct field *field, uint8_t *slots, size_t count, size_t rules);

/* A write or a report for some slot of `slots`, its sequence near that slot's; now and then a flawed one. */
void make_write(struct random *r, const struct field *field, uint8_t *message, const uint8_t *slots, size_t count);
void make_report(struct random *r, uint8_t *message, const uint8_t *slots, size_t count);

#endif
