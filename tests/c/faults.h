/* For each call an input that is accepted, and every fault that it refuses: which number, and in which order. */
#ifndef FAULTS_H
#define FAULTS_H

#include "lent.h"

/* In the order in which refusals are told, as far as a call has the part. */
enum order {
    POLICY_RAGGED, POLICY_LONG, POLICY_FLAW, KEY_LENGTH, TRACE_RAGGED, TRACE_LONG, TRACE_FLAW, TABLE_LENGTH, KEEPER_LENGTH, ENDS_DIFFER,
    MESSAGE_LENGTH, MESSAGE_KIND, MESSAGE_FLAW, MESSAGE_SLOT, MESSAGE_ZERO, MESSAGE_AHEAD, NUMBER_HIGH, NUMBER_NOT_BEST, TOTALS_HIGH, OUT_SHORT
};

struct fault {
    const char *name;
    enum order order;
    uint32_t number;  /* the refusal */
    size_t place;
    void (*make)(struct lent *lent, size_t with);
    size_t with;      /* the fault's own length, byte or number */
    unsigned calls;   /* a bit for each call that refuses it */
};

extern const struct fault fault_list[];
extern const size_t fault_count;

/* An input that the call accepts, its output exactly as long as the answer. */
void good_case(struct lent *lent, enum call_name call);

int call_has_fault(enum call_name call, const struct fault *fault);

/* The refusals that the call gives, a bit for each number. */
unsigned call_refusals(enum call_name call);

#endif
