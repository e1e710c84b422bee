/* The groups of tests, of one set of calls. */
#ifndef TESTS_H
#define TESTS_H

#include "calls.h"

/* The worked examples of docs/RULES.md, as they are printed there. */
void test_known(const struct calls *calls);

/* Every refusal of every call, alone and in pairs; outputs exactly long enough; NULL with count 0; guard bytes. */
void test_refusals(const struct calls *calls);

/* Every call against the plain reading, on random inputs and states that did not grow from cleared ones. */
void test_differences(const struct calls *calls, uint64_t seed);

/* Every call at its largest, on a thread with a stack of 64 KiB. */
void test_stack(const struct calls *calls);

/* Runs of a trace, whole and cut in two. Only where there is a wg_run. */
void test_runs(const struct calls *calls, uint64_t seed);

/* Demand 3 over a link, and that the same test reports every wrong end. */
void test_link(const struct calls *calls, uint64_t seed);

#endif
