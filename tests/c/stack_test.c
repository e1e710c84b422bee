/* Every call at its largest, on a thread with a stack of 64 KiB. */
#define _DEFAULT_SOURCE
#include <pthread.h>
#include <stdio.h>
#include <string.h>
#include <sys/mman.h>
#include <unistd.h>

#include "check.h"
#include "lent.h"
#include "make.h"
#include "tests.h"

enum { STACK = 64 * 1024, PAGE = 4096, UNTOUCHED = 0xB7 };

static struct lent before, lent, plain;

/* What the thread does. */
struct errand {
    const struct calls *calls;
    enum call_name call;
    struct answer answer;
};

static void *go(void *given)
{
    struct errand *e = given;

    e->answer = call_list[e->call].ask(e->calls, &lent.asked);
    return NULL;
}

static void make_trace(struct random *r, const struct field *field)
{
    for (size_t i = 0; i < MOST_PACKETS; i++)
        make_key(r, field, before.store[TRACE] + GUARD + i * PACKET);
}

static void put_sequences(uint32_t sequence)
{
    for (size_t i = 0; i < MOST_SLOTS; i++)
        put32(before.store[KEEPER] + GUARD + i * SLOT, sequence);
}

/* The largest of everything: 1,024 rules, the last depending on all others, 256 slots, 4,096 packets. */
static void make_largest(enum call_name call)
{
    struct random r = {7};
    struct field field;
    uint8_t *policy = before.store[POLICY] + GUARD;
    uint8_t message[WRITE];

    make_field(&r, &field, 60);
    lent_resize(&before, POLICY, MOST_RULES * RULE);
    lent_resize(&before, A_KEY, KEY);
    lent_resize(&before, TRACE, MOST_PACKETS * PACKET);
    lent_resize(&before, TABLE, MOST_SLOTS * SLOT);
    lent_resize(&before, KEEPER, MOST_SLOTS * SLOT);
    lent_resize(&before, OUT, MOST_PACKETS * OUTCOME);
    make_policy(&r, &field, policy, MOST_RULES);
    memset(policy + (MOST_RULES - 1) * RULE, 0, RULE);
    make_trace(&r, &field);
    put_sequences(call == OPEN);
    make_key(&r, &field, before.store[A_KEY] + GUARD);
    size_t best = best_of(policy, MOST_RULES, before.store[A_KEY] + GUARD);
    before.asked.number = call == COVER ? MOST_RULES - 1 : best;
    memset(message, 0, WRITE);
    message[0] = call == REPORTS ? 2 : 1;
    put16(message + 2, MOST_SLOTS - 1);
    put32(message + 4, 1);
    put32(before.store[KEEPER] + GUARD + (MOST_SLOTS - 1) * SLOT, call == REPORTS || call == OPEN);
    lent_put(&before, MESSAGE, message, call == REPORTS ? REPORT : WRITE);
}

/* Runs the call on a thread with that stack, and gives how many bytes of it were touched; 0 where no thread could be made. */
static size_t touched_by(struct errand *errand, uint8_t *stack)
{
    pthread_attr_t attributes;
    pthread_t thread;
    size_t untouched = 0;

    memset(stack, UNTOUCHED, STACK);
    if (pthread_attr_init(&attributes) != 0 || pthread_attr_setstack(&attributes, stack, STACK) != 0
        || pthread_create(&thread, &attributes, go, errand) != 0 || pthread_join(thread, NULL) != 0)
        return 0;
    pthread_attr_destroy(&attributes);
    while (untouched < STACK && stack[untouched] == UNTOUCHED)
        untouched++;
    return STACK - untouched;
}

void test_stack(const struct calls *calls)
{
    /* the page below the stack may not be touched */
    uint8_t *memory = mmap(NULL, PAGE + STACK, PROT_READ | PROT_WRITE, MAP_PRIVATE | MAP_ANONYMOUS, -1, 0);
    size_t most = 0, deepest = 0;

    if (sysconf(_SC_THREAD_STACK_MIN) > STACK) {
        puts("stack: this machine gives no thread so small a stack (x86-64 does): left out");
        return;
    }
    if (memory == MAP_FAILED || mprotect(memory, PAGE, PROT_NONE) != 0) {
        check(0, "memory for a stack");
        return;
    }
    for (int call = 0; call < CALLS; call++) {
        struct errand errand = {calls, call, {0, 0, {0}}};
        make_largest(call);
        lent_copy(&lent, &before);
        lent_copy(&plain, &before);
        size_t touched = touched_by(&errand, memory + PAGE);
        struct answer right = call_list[call].ask(&plain_ends, &plain.asked);
        check(touched > 0 && same_answer(&errand.answer, &right) && lent_same(&lent, &plain), "%s at its largest on a small stack",
              call_list[call].name);
        check(right.refusal == 0, "%s at its largest is accepted", call_list[call].name);
        if (touched > most) {
            most = touched;
            deepest = (size_t)call;
        }
    }
    printf("stack: %s goes deepest, %u of %u bytes\n", call_list[deepest].name, (unsigned)most, (unsigned)STACK);
    munmap(memory, PAGE + STACK);
}
