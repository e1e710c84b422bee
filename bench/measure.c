/* The time of a row's calls: the least over rounds in which the two sides take turns. It is the processor time of this program. */
#define _POSIX_C_SOURCE 200809L
#include "measure.h"

#include <string.h>
#include <time.h>

#include "plain_calls.h"

enum { ROUNDS = 12, FEWEST_ROUNDS = 2 };

static const double BATCH = 3e5, ENOUGH = 2.5e8; /* nanoseconds: of a batch at least, and after which the rounds end */

static struct world world;

static double now(void)
{
    struct timespec t;

    clock_gettime(CLOCK_PROCESS_CPUTIME_ID, &t);
    return (double)t.tv_sec * 1e9 + (double)t.tv_nsec;
}

static uint64_t fold(uint64_t sum, const void *bytes, size_t length)
{
    const uint8_t *b = bytes;

    for (size_t i = 0; i < length; i++)
        sum = (sum ^ b[i]) * 1099511628211u;
    return sum;
}

/* One batch: what the answers, the output, both ends and the totals come to. The time is a call's. */
static uint64_t batch(const struct row *row, const struct calls *side, size_t times, double *spent)
{
    struct world *w = &world;

    memcpy(w->table, w->start, sizeof w->table);
    memcpy(w->keeper, w->start, sizeof w->keeper);
    memset(w->out, 0, sizeof w->out);
    double started = now();
    uint64_t sum = row->work(side, w, times);
    *spent = (now() - started) / (double)times;
    sum = fold(sum + 1, w->table, sizeof w->table);
    sum = fold(sum, w->keeper, sizeof w->keeper);
    sum = fold(sum, w->out, sizeof w->out);
    return fold(sum, &w->totals, sizeof w->totals);
}

/* How many calls take plain C as long as a batch should; each key is asked equally often. */
static size_t calls_of_a_batch(const struct row *row, size_t fewest)
{
    size_t times = fewest;
    double spent;

    batch(row, &plain, times, &spent);
    while (spent * (double)times < BATCH) {
        times *= 2;
        batch(row, &plain, times, &spent);
    }
    return times;
}

static void take_least(double *least, double spent)
{
    if (*least == 0 || spent < *least)
        *least = spent;
}

/* One round: the two sides in turn. */
static void take_turns(const struct row *row, size_t times, struct measured *m)
{
    double spent;
    uint64_t sum = batch(row, &library, times, &spent);

    take_least(&m->library, spent);
    m->apart += sum != batch(row, &plain, times, &spent);
    take_least(&m->plain, spent);
}

void measure(const struct row *row, struct measured *m)
{
    size_t fewest = row->work == run_trace ? 1 : KEYS;
    double started = now(), spent;

    memset(&world, 0, sizeof world);
    world.rules = row->rules;
    world.slots = row->slots;
    row->make(&world);
    m->checksum = batch(row, &library, fewest, &spent);
    m->apart += m->checksum != batch(row, &plain, fewest, &spent);
    size_t times = calls_of_a_batch(row, fewest);
    for (int i = 0; i < ROUNDS && (i < FEWEST_ROUNDS || now() - started < ENOUGH); i++)
        take_turns(row, times, m);
}
