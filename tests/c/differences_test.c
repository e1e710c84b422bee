/* Every call against the plain reading, on random inputs and states that did not grow from cleared ones. */
#include <stdio.h>
#include <string.h>

#include "check.h"
#include "ends.h"
#include "faults.h"
#include "make.h"
#include "tests.h"

enum { ROUNDS = 60000, FULL_ROUNDS = 150, MOST_OUT = 3000 };

static struct lent before, lent, plain;

/* How large a round's inputs are. */
struct size {
    size_t rules, slots, packets;
    unsigned positions;
};

static struct size make_size(struct random *r, int full)
{
    struct size s = {random_below(r, 9), 1 + random_below(r, 6), random_below(r, 9), 2 + (unsigned)random_below(r, 6)};
    struct size large = {random_one_in(r, 2) ? 1024 : random_below(r, 1025), random_one_in(r, 2) ? 256 : 1 + random_below(r, 256),
                         random_below(r, 40), 2 + (unsigned)random_below(r, 60)};

    return full ? large : s;
}

static void make_trace(struct random *r, const struct field *field, size_t packets)
{
    lent_resize(&before, TRACE, 0);
    lent_resize(&before, TRACE, packets * PACKET);
    for (size_t i = 0; i < packets; i++)
        make_key(r, field, before.store[TRACE] + GUARD + i * PACKET);
}

static void make_totals(struct random *r)
{
    static const uint64_t corner[] = {0, 1, 4294967295u, 8999999999999999999u, 9000000000000000000u};
    struct wg_totals t = {corner[random_below(r, 5)], corner[random_below(r, 5)], corner[random_below(r, 5)], corner[random_below(r, 5)],
                          corner[random_below(r, 5)]};

    before.asked.totals = t;
}

/* A message for the call, about the end that receives it. */
static void make_message(struct random *r, const struct field *field, enum call_name call, size_t slots)
{
    uint8_t message[WRITE];

    if (call == REPORTS)
        make_report(r, message, before.store[KEEPER] + GUARD, slots);
    else
        make_write(r, field, message, before.store[TABLE] + GUARD, slots);
    lent_put(&before, MESSAGE, message, call == REPORTS ? REPORT : WRITE);
}

/* An output of that many bytes, none of them 0. */
static void put_out(size_t length)
{
    static uint8_t filling[MOST_OUT];

    memset(filling, 0xC3, length);
    lent_put(&before, OUT, filling, length);
}

/* Bytes of an accepted answer. */
static size_t answer_bytes(enum call_name call, const struct answer *answer)
{
    switch (call) {
    case COVER: case OPEN: return 2 * (size_t)answer->field[0];
    case ISOLATE: return 2 * KEY;
    case LOOKUP: return answer->field[0] ? REPORT : 0;
    case WRITES: return REPORT;
    case MISS: return answer->field[0] == 0 || answer->field[0] == 4 ? 0 : WRITE;
    case RUN: return OUTCOME * (size_t)answer->field[0];
    default: return 0;
    }
}

/* An output that is one byte short of the answer, just long enough, or longer; where the call is refused anyway it stays as long as can be. */
static void make_out(struct random *r, enum call_name call)
{
    put_out(MOST_OUT);
    lent_copy(&plain, &before);
    struct answer answer = call_list[call].ask(&plain_ends, &plain.asked);
    size_t needed = answer_bytes(call, &answer);
    if (answer.refusal == 0 && !random_one_in(r, 8))
        put_out(needed + random_below(r, 3) - (needed > 0));
}

/* Some fault, if the call has it and the inputs have its record; the output is made short elsewhere. */
static void make_fault(struct random *r, enum call_name call, struct size size)
{
    const struct fault *fault = &fault_list[random_below(r, fault_count)];
    int in_policy = fault->order <= POLICY_FLAW, in_trace = fault->order >= TRACE_RAGGED && fault->order <= TRACE_FLAW;

    if (call_has_fault(call, fault) && fault->order != OUT_SHORT && (!in_policy || size.rules > 2) && (!in_trace || size.packets > 1))
        fault->make(&before, fault->with);
}

/* Everything that a call could be lent; one time in eight with a fault. */
static void make_case(struct random *r, enum call_name call, struct size size)
{
    struct field field;
    uint8_t key[KEY];

    make_field(r, &field, size.positions);
    lent_resize(&before, POLICY, size.rules * RULE);
    make_policy(r, &field, before.store[POLICY] + GUARD, size.rules);
    make_key(r, &field, key);
    lent_put(&before, A_KEY, key, KEY);
    lent_resize(&before, TABLE, size.slots * SLOT);
    lent_resize(&before, KEEPER, size.slots * SLOT);
    make_slots(r, &field, before.store[TABLE] + GUARD, size.slots, size.rules);
    make_slots(r, &field, before.store[KEEPER] + GUARD, size.slots, size.rules);
    if (random_one_in(r, 4))
        memcpy(before.store[TABLE] + GUARD, before.store[KEEPER] + GUARD, size.slots * SLOT);
    make_trace(r, &field, size.packets);
    make_totals(r);
    make_message(r, &field, call, size.slots);
    size_t best = best_of(before.store[POLICY] + GUARD, size.rules, key);
    before.asked.number = random_one_in(r, 2) ? best : random_below(r, size.rules + 2);
    if (random_one_in(r, 8))
        make_fault(r, call, size);
    make_out(r, call);
    if (random_one_in(r, 2))
        lent_null(&before);
}

/* What the round's answers were, so that no case is left out unseen. */
struct seen {
    unsigned refusals;
    unsigned outcomes;
};

static void note(struct seen *seen, enum call_name call, const struct answer *answer)
{
    seen->refusals |= 1u << answer->refusal;
    if (call == MISS && answer->refusal == 0)
        seen->outcomes |= 1u << answer->field[0];
    for (size_t i = 0; call == RUN && answer->refusal == 0 && i < answer->field[0]; i++)
        seen->outcomes |= 1u << plain.store[OUT][GUARD + i * OUTCOME];
}

/* The first round in which the calls differ from the plain reading, or `rounds`. */
static unsigned first_difference(const struct calls *calls, enum wrong way, enum call_name call, unsigned rounds, int full, uint64_t seed,
                                 struct seen *seen)
{
    for (unsigned i = 0; i < rounds; i++) {
        struct random r = {seed + i};
        make_case(&r, call, make_size(&r, full));
        lent_copy(&lent, &before);
        lent_copy(&plain, &before);
        ends_are(way);
        struct answer answer = call_list[call].ask(calls, &lent.asked);
        ends_are(RIGHT);
        struct answer right = call_list[call].ask(&plain_ends, &plain.asked);
        note(seen, call, &right);
        if (!same_answer(&answer, &right) || !lent_same(&lent, &plain))
            return i;
    }
    return rounds;
}

static void test_call(const struct calls *calls, enum call_name call, uint64_t seed)
{
    struct seen seen = {0, 0};
    const char *name = call_list[call].name;
    unsigned small = first_difference(calls, RIGHT, call, ROUNDS, 0, seed, &seen);
    unsigned full = first_difference(calls, RIGHT, call, FULL_ROUNDS, 1, seed, &seen);

    check(small == ROUNDS, "%s differs from the plain reading in round %u", name, small);
    check(full == FULL_ROUNDS, "%s differs from the plain reading in full round %u", name, full);
    check(seen.refusals == (call_refusals(call) | 1), "%s: each of its refusals was met, and no other (%#x)", name, seen.refusals);
    if (call == MISS)
        check(seen.outcomes == 0x3D, "%s: outcomes 0, 2, 3, 4 and 5 were met (%#x)", name, seen.outcomes);
    if (call == RUN)
        check(seen.outcomes == 0x3F, "%s: outcomes 0 to 5 were met (%#x)", name, seen.outcomes);
}

void test_differences(const struct calls *calls, uint64_t seed)
{
    struct seen seen = {0, 0};

    for (int call = 0; call < CALLS; call++)
        test_call(calls, call, seed);
    check(first_difference(&plain_ends, INVENTS_TOTALS, RUN, ROUNDS, 0, seed, &seen) < ROUNDS, "invented totals are reported");
}
