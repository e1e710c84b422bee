/* Counting what passed and what failed, and the seeded generator of all tests. */
#include "check.h"

#include <stdarg.h>
#include <stdio.h>

static unsigned passed, failed;

void check(int ok, const char *name, ...)
{
    va_list words;

    if (ok) {
        passed++;
        return;
    }
    failed++;
    fputs("failed: ", stdout);
    va_start(words, name);
    vprintf(name, words);
    va_end(words);
    putchar('\n');
}

unsigned checks_passed(void)
{
    return passed;
}

unsigned checks_failed(void)
{
    return failed;
}

uint64_t random_next(struct random *r)
{
    uint64_t x = r->state += 0x9E3779B97F4A7C15u;

    x = (x ^ x >> 30) * 0xBF58476D1CE4E5B9u;
    x = (x ^ x >> 27) * 0x94D049BB133111EBu;
    return x ^ x >> 31;
}

size_t random_below(struct random *r, size_t bound)
{
    return (size_t)(random_next(r) % bound);
}

int random_one_in(struct random *r, size_t n)
{
    return random_below(r, n) == 0;
}
