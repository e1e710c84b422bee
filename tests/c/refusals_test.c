/* Every refusal of every call, alone and in pairs; outputs exactly long enough; NULL with count 0; guard bytes. */
#include <string.h>

#include "check.h"
#include "faults.h"
#include "tests.h"

static struct lent before, lent, plain;

/* Whether the call is refused so, with every later field 0, and no byte of any buffer has changed. */
static int refuses(const struct calls *calls, enum call_name call, uint32_t number, size_t place)
{
    struct answer expected = {number, place, {0}};

    lent_copy(&lent, &before);
    struct answer answer = call_list[call].ask(calls, &lent.asked);
    return same_answer(&answer, &expected) && lent_same(&lent, &before);
}

/* Whether the call is accepted, and answers and leaves every byte as the plain reading does. */
static int accepts(const struct calls *calls, enum call_name call)
{
    lent_copy(&lent, &before);
    lent_copy(&plain, &before);
    struct answer answer = call_list[call].ask(calls, &lent.asked), right = call_list[call].ask(&plain_ends, &plain.asked);
    return answer.refusal == 0 && same_answer(&answer, &right) && lent_same(&lent, &plain);
}

static void test_single(const struct calls *calls, enum call_name call)
{
    for (size_t i = 0; i < fault_count; i++)
        if (call_has_fault(call, &fault_list[i])) {
            const struct fault *f = &fault_list[i];
            good_case(&before, call);
            f->make(&before, f->with);
            check(refuses(calls, call, f->number, f->place), "%s: %s is refused with %u", call_list[call].name, f->name, (unsigned)f->number);
        }
}

/* The fault with each that is told later. It is made last, so that it stands. */
static void test_before_others(const struct calls *calls, enum call_name call, const struct fault *f)
{
    for (size_t i = 0; i < fault_count; i++) {
        const struct fault *later = &fault_list[i];
        if (f->order >= later->order || !call_has_fault(call, later))
            continue;
        good_case(&before, call);
        later->make(&before, later->with);
        f->make(&before, f->with);
        check(refuses(calls, call, f->number, f->place), "%s: %s before %s", call_list[call].name, f->name, later->name);
    }
}

/* Of two faults the one told first is told. */
static void test_pairs(const struct calls *calls, enum call_name call)
{
    for (size_t i = 0; i < fault_count; i++)
        if (call_has_fault(call, &fault_list[i]))
            test_before_others(calls, call, &fault_list[i]);
}

/* The output exactly as long as the answer, and longer: the rest keeps its bytes. */
static void test_accepted(const struct calls *calls, enum call_name call)
{
    good_case(&before, call);
    check(accepts(calls, call), "%s: a good case is accepted", call_list[call].name);
    lent_resize(&before, OUT, before.asked.part[OUT].length + 7);
    memset(before.store[OUT] + GUARD, 0xC3, before.asked.part[OUT].length);
    check(accepts(calls, call), "%s: output past the answer keeps its bytes", call_list[call].name);
}

/* Each part as 0 bytes at NULL: answered as 0 bytes anywhere. */
static void test_null(const struct calls *calls, enum call_name call)
{
    for (int part = 0; part < PARTS; part++) {
        if (!(call_list[call].parts >> part & 1))
            continue;
        good_case(&before, call);
        lent_resize(&before, part, 0);
        lent_copy(&plain, &before);
        lent_null(&before);
        lent_copy(&lent, &before);
        struct answer answer = call_list[call].ask(calls, &lent.asked), right = call_list[call].ask(&plain_ends, &plain.asked);
        check(same_answer(&answer, &right) && lent_same(&lent, &plain), "%s: part %d as NULL and 0 bytes", call_list[call].name, part);
    }
}

void test_refusals(const struct calls *calls)
{
    for (int call = 0; call < CALLS; call++) {
        test_accepted(calls, call);
        test_single(calls, call);
        test_pairs(calls, call);
        test_null(calls, call);
    }
}
