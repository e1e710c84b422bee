/* What is refused, in the plain reading. A refusal of 0 is none. */
#ifndef REFUSALS_H
#define REFUSALS_H

#include "wunnagresk.h"

struct wg_done refused(uint32_t number, size_t place);

/* The first of two that refuses. */
struct wg_done first_of(struct wg_done a, struct wg_done b);

struct wg_done policy_refusal(const uint8_t *policy, size_t length);
struct wg_done trace_refusal(const uint8_t *trace, size_t length);
struct wg_done key_refusal(size_t length);
struct wg_done slots_refusal(size_t length);
struct wg_done ends_refusal(size_t table_length, size_t keeper_length);
struct wg_done write_refusal(size_t table_length, const uint8_t *message, size_t length);
struct wg_done report_refusal(const uint8_t *keeper, size_t keeper_length, const uint8_t *message, size_t length);
struct wg_done number_refusal(size_t policy_length, size_t number);
struct wg_done totals_refusal(const struct wg_totals *totals);
struct wg_done output_refusal(size_t needed, size_t length);

#endif
