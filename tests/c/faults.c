/* For each call an input that is accepted, and every fault that it refuses: which number, and in which order. */
#include "faults.h"

#include <string.h>

#include "small.h"

#define ONLY(call) (1u << (call))
#define WITH_POLICY (ONLY(CHECK) | ONLY(BEST) | ONLY(A_RULE) | ONLY(COVER) | ONLY(ISOLATE) | ONLY(MISS) | ONLY(SHOW) | ONLY(RUN))
#define WITH_KEY (ONLY(BEST) | ONLY(ISOLATE) | ONLY(LOOKUP) | ONLY(MISS) | ONLY(SHOW))
#define WITH_TABLE (ONLY(LOOKUP) | ONLY(WRITES) | ONLY(SHOW) | ONLY(RUN))
#define WITH_KEEPER (ONLY(MISS) | ONLY(REPORTS) | ONLY(OPEN) | ONLY(RUN))
#define WITH_MESSAGE (ONLY(WRITES) | ONLY(REPORTS))
#define WITH_NUMBER (ONLY(A_RULE) | ONLY(COVER) | ONLY(ISOLATE))
#define WITH_OUT (ONLY(COVER) | ONLY(ISOLATE) | ONLY(LOOKUP) | ONLY(WRITES) | ONLY(MISS) | ONLY(OPEN) | ONLY(RUN))

/* ---- What is accepted. */

static const size_t answer_length[CALLS] = {
    [COVER] = 4, [ISOLATE] = 26, [LOOKUP] = 12, [WRITES] = 12, [MISS] = 40, [OPEN] = 2, [RUN] = 24
};

/* The table hits for key 0000 in slot 2. The keeper has slot 0 open, slot 1 empty, slot 2 settled, and none for that key. */
static void good_ends(struct lent *lent)
{
    uint8_t table[3 * SLOT], keeper[3 * SLOT];

    small_slot(table, 4, 1, "11**", 7, 0, 0);
    small_slot(table + SLOT, 0, 5, "0***", 1, 1, 1);
    small_slot(table + 2 * SLOT, 5, 3, "0***", 9, 2, 0);
    small_slot(keeper, 4, 0, "11**", 7, 0, 0);
    small_slot(keeper + SLOT, 0, 2, "0***", 1, 1, 0);
    small_slot(keeper + 2 * SLOT, 3, 0, "101*", 8, 1, 1);
    lent_put(lent, TABLE, table, sizeof table);
    lent_put(lent, KEEPER, keeper, sizeof keeper);
}

void good_case(struct lent *lent, enum call_name call)
{
    static const struct wg_totals totals = {10, 5, 3, 2, 1};
    uint8_t policy[3 * RULE], key[KEY], trace[2 * PACKET] = {0}, message[WRITE], out[WRITE];

    small_policy(policy);
    small_key("0000", key);
    small_key("1000", trace);
    if (call == REPORTS)
        small_report(message, 0, 4, 9);
    else
        small_write(message, 1, 6, "*00*", 9, 2);
    memset(out, 0xC3, sizeof out);
    good_ends(lent);
    lent_put(lent, POLICY, policy, sizeof policy);
    lent_put(lent, A_KEY, key, KEY);
    lent_put(lent, TRACE, trace, sizeof trace);
    lent_put(lent, MESSAGE, message, call == REPORTS ? REPORT : WRITE);
    lent_put(lent, OUT, out, answer_length[call]);
    lent->asked.number = 2;
    lent->asked.totals = totals;
}

/* ---- How each fault is made. */

static uint8_t *bytes_of(struct lent *lent, enum part_name part)
{
    return lent->store[part] + GUARD;
}

static void policy_longer(struct lent *lent, size_t by) { lent_resize(lent, POLICY, lent->asked.part[POLICY].length + by); }
static void policy_of(struct lent *lent, size_t length) { lent_resize(lent, POLICY, length); }
static void policy_bit(struct lent *lent, size_t at) { bytes_of(lent, POLICY)[at / 8] |= (uint8_t)(128 >> at % 8); }
static void key_of(struct lent *lent, size_t length) { lent_resize(lent, A_KEY, length); }
static void trace_longer(struct lent *lent, size_t by) { lent_resize(lent, TRACE, lent->asked.part[TRACE].length + by); }
static void trace_of(struct lent *lent, size_t length) { lent_resize(lent, TRACE, length); }
static void trace_byte(struct lent *lent, size_t at) { bytes_of(lent, TRACE)[at] = 1; }
static void table_of(struct lent *lent, size_t length) { lent_resize(lent, TABLE, length); }
static void keeper_of(struct lent *lent, size_t length) { lent_resize(lent, KEEPER, length); }
static void message_of(struct lent *lent, size_t length) { lent_resize(lent, MESSAGE, length); }
static void message_longer(struct lent *lent, size_t by) { lent_resize(lent, MESSAGE, lent->asked.part[MESSAGE].length + by); }
static void message_kind(struct lent *lent, size_t kind) { bytes_of(lent, MESSAGE)[0] = (uint8_t)kind; }
static void message_bit(struct lent *lent, size_t at) { bytes_of(lent, MESSAGE)[at / 8] |= (uint8_t)(128 >> at % 8); }
static void message_slot(struct lent *lent, size_t slot) { put16(bytes_of(lent, MESSAGE) + 2, (unsigned)slot); }
static void message_sequence(struct lent *lent, size_t number) { put32(bytes_of(lent, MESSAGE) + 4, (uint32_t)number); }
static void number_is(struct lent *lent, size_t number) { lent->asked.number = number; }
static void out_shorter(struct lent *lent, size_t by) { lent_resize(lent, OUT, lent->asked.part[OUT].length - by); }

static void out_of(struct lent *lent, size_t length)
{
    lent_resize(lent, OUT, length);
}

/* Puts the i-th total just above the limit. */
static void total_high(struct lent *lent, size_t i)
{
    struct wg_totals *t = &lent->asked.totals;
    uint64_t *total[] = {&t->packets, &t->hits, &t->misses, &t->none, &t->evictions};

    *total[i] = 9000000000000000001u;
}

/* A position of a policy's or a message's bits: the p-th bit of that byte. */
#define BIT(byte, p) (8 * (byte) + (p))

const struct fault fault_list[] = {
    {"a policy one byte short", POLICY_RAGGED, 1, 0, policy_longer, (size_t)-1, WITH_POLICY},
    {"a policy one byte long", POLICY_RAGGED, 1, 0, policy_longer, 1, WITH_POLICY},
    {"a policy of 1,025 rules", POLICY_LONG, 2, 0, policy_of, 1025 * RULE, WITH_POLICY},
    {"byte 30 of rule 0", POLICY_FLAW, 3, 0, policy_bit, BIT(30, 0), WITH_POLICY},
    {"byte 31 of rule 2", POLICY_FLAW, 3, 2, policy_bit, BIT(2 * RULE + 31, 7), WITH_POLICY},
    {"position 1 of rule 1", POLICY_FLAW, 3, 1, policy_bit, BIT(RULE, 1), WITH_POLICY},
    {"position 103 of rule 2", POLICY_FLAW, 3, 2, policy_bit, BIT(2 * RULE + 12, 7), WITH_POLICY},
    {"a key of 0 bytes", KEY_LENGTH, 1, 0, key_of, 0, WITH_KEY},
    {"a key of 12 bytes", KEY_LENGTH, 1, 0, key_of, 12, WITH_KEY},
    {"a key of 14 bytes", KEY_LENGTH, 1, 0, key_of, 14, WITH_KEY},
    {"a key of 26 bytes", KEY_LENGTH, 1, 0, key_of, 26, WITH_KEY},
    {"a trace one byte short", TRACE_RAGGED, 1, 0, trace_longer, (size_t)-1, ONLY(RUN)},
    {"a trace one byte long", TRACE_RAGGED, 1, 0, trace_longer, 1, ONLY(RUN)},
    {"a trace of 4,097 packets", TRACE_LONG, 2, 0, trace_of, 4097 * PACKET, ONLY(RUN)},
    {"byte 13 of packet 0", TRACE_FLAW, 3, 0, trace_byte, 13, ONLY(RUN)},
    {"byte 14 of packet 1", TRACE_FLAW, 3, 1, trace_byte, PACKET + 14, ONLY(RUN)},
    {"byte 15 of packet 1", TRACE_FLAW, 3, 1, trace_byte, PACKET + 15, ONLY(RUN)},
    {"a table of 0 bytes", TABLE_LENGTH, 4, 0, table_of, 0, WITH_TABLE},
    {"a table of 39 bytes", TABLE_LENGTH, 4, 0, table_of, 39, WITH_TABLE},
    {"a table of 121 bytes", TABLE_LENGTH, 4, 0, table_of, 121, WITH_TABLE},
    {"a table of 257 slots", TABLE_LENGTH, 4, 0, table_of, 257 * SLOT, WITH_TABLE},
    {"a keeper of 0 bytes", KEEPER_LENGTH, 4, 0, keeper_of, 0, WITH_KEEPER},
    {"a keeper of 39 bytes", KEEPER_LENGTH, 4, 0, keeper_of, 39, WITH_KEEPER},
    {"a keeper of 121 bytes", KEEPER_LENGTH, 4, 0, keeper_of, 121, WITH_KEEPER},
    {"a keeper of 257 slots", KEEPER_LENGTH, 4, 0, keeper_of, 257 * SLOT, WITH_KEEPER},
    {"a keeper of one slot more", ENDS_DIFFER, 12, 0, keeper_of, 4 * SLOT, ONLY(RUN)},
    {"a keeper of one slot less", ENDS_DIFFER, 12, 0, keeper_of, 2 * SLOT, ONLY(RUN)},
    {"a message of 0 bytes", MESSAGE_LENGTH, 1, 0, message_of, 0, WITH_MESSAGE},
    {"a message one byte short", MESSAGE_LENGTH, 1, 0, message_longer, (size_t)-1, WITH_MESSAGE},
    {"a message one byte long", MESSAGE_LENGTH, 1, 0, message_longer, 1, WITH_MESSAGE},
    {"kind 0", MESSAGE_KIND, 8, 0, message_kind, 0, WITH_MESSAGE},
    {"kind 1", MESSAGE_KIND, 8, 0, message_kind, 1, ONLY(REPORTS)},
    {"kind 2", MESSAGE_KIND, 8, 0, message_kind, 2, ONLY(WRITES)},
    {"kind 255", MESSAGE_KIND, 8, 0, message_kind, 255, WITH_MESSAGE},
    {"byte 1 of a message", MESSAGE_FLAW, 3, 0, message_bit, BIT(1, 3), WITH_MESSAGE},
    {"byte 38 of a write", MESSAGE_FLAW, 3, 0, message_bit, BIT(38, 0), ONLY(WRITES)},
    {"byte 39 of a write", MESSAGE_FLAW, 3, 0, message_bit, BIT(39, 7), ONLY(WRITES)},
    {"position 0 of a write", MESSAGE_FLAW, 3, 0, message_bit, BIT(8, 0), ONLY(WRITES)},
    {"position 103 of a write", MESSAGE_FLAW, 3, 0, message_bit, BIT(20, 7), ONLY(WRITES)},
    {"slot 3 of 3", MESSAGE_SLOT, 9, 0, message_slot, 3, WITH_MESSAGE},
    {"slot 65,535", MESSAGE_SLOT, 9, 0, message_slot, 65535, WITH_MESSAGE},
    {"sequence 0", MESSAGE_ZERO, 10, 0, message_sequence, 0, WITH_MESSAGE},
    {"a report one ahead", MESSAGE_AHEAD, 11, 0, message_sequence, 5, ONLY(REPORTS)},
    {"a report of the last sequence", MESSAGE_AHEAD, 11, 0, message_sequence, 4294967295u, ONLY(REPORTS)},
    {"rule 3 of 3", NUMBER_HIGH, 6, 0, number_is, 3, WITH_NUMBER},
    {"rule 65,538", NUMBER_HIGH, 6, 0, number_is, 65538, WITH_NUMBER},
    {"the largest number", NUMBER_HIGH, 6, 0, number_is, (size_t)-1, WITH_NUMBER},
    {"rule 0 for rule 2's key", NUMBER_NOT_BEST, 7, 0, number_is, 0, ONLY(ISOLATE)},
    {"rule 1 for rule 2's key", NUMBER_NOT_BEST, 7, 0, number_is, 1, ONLY(ISOLATE)},
    {"packets above the limit", TOTALS_HIGH, 13, 0, total_high, 0, ONLY(RUN)},
    {"hits above the limit", TOTALS_HIGH, 13, 0, total_high, 1, ONLY(RUN)},
    {"misses above the limit", TOTALS_HIGH, 13, 0, total_high, 2, ONLY(RUN)},
    {"no rule above the limit", TOTALS_HIGH, 13, 0, total_high, 3, ONLY(RUN)},
    {"evictions above the limit", TOTALS_HIGH, 13, 0, total_high, 4, ONLY(RUN)},
    {"an output one byte short", OUT_SHORT, 5, 0, out_shorter, 1, WITH_OUT},
    {"an output of 0 bytes", OUT_SHORT, 5, 0, out_of, 0, WITH_OUT}
};

const size_t fault_count = sizeof fault_list / sizeof fault_list[0];

int call_has_fault(enum call_name call, const struct fault *fault)
{
    return fault->calls >> call & 1;
}

unsigned call_refusals(enum call_name call)
{
    unsigned numbers = 0;

    for (size_t i = 0; i < fault_count; i++)
        if (call_has_fault(call, &fault_list[i]))
            numbers |= 1u << fault_list[i].number;
    return numbers;
}
