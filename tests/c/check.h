/* Counting what passed and what failed, and the seeded generator of all tests. */
#ifndef CHECK_H
#define CHECK_H

#include <stddef.h>
#include <stdint.h>

/* Counts one named test; a failed one is printed. The name is as for printf. */
void check(int ok, const char *name, ...);
unsigned checks_passed(void);
unsigned checks_failed(void);

/* A repeatable stream of numbers (splitmix64). */
struct random { uint64_t state; };
uint64_t random_next(struct random *r);
/* A number below `bound`, which is not 0. */
size_t random_below(struct random *r, size_t bound);
/* True once in `n` times. */
int random_one_in(struct random *r, size_t n);

#endif
