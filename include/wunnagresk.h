/* wunnagresk.h: a policy of ternary rules kept in a switch's small table. C99 and C++.
 *
 * WHAT IT IS
 *
 * A network policy has outgrown the ternary table of its switch. The agent on the switch, the KEEPER, has the whole policy in memory. The chip,
 * the TABLE, has 1 to 256 slots, and in them isolate rules only: narrowed copies of the rules that today's traffic uses, each made so that it is
 * right wherever it stands. This library is both ends. It is proved: docs/PROMISES.md says what, docs/RULES.md has the rules in full.
 *
 *     packet --> wg_lookup at the table: a hit names rule and action, and gives a REPORT
 *                                        a miss goes to the keeper:
 *                wg_miss at the keeper:  names rule and action, and gives a WRITE for one slot
 *                wg_write at the table:  stores it if it is newer, and gives a REPORT of that slot
 *                wg_report at the keeper: marks the slot settled if the report is of its entry
 *
 * The link between the ends is yours. It may lose messages, repeat them, delay them and change their order; it must not alter or invent any.
 *
 * WHAT IS PROMISED
 *
 * Both ends start cleared (all bytes zero), with equally many slots and one accepted policy that stays. Then, after any sequence of misses,
 * lookups, deliveries, runs and refused calls:
 *  - for every packet the table misses, or names the whole policy's best rule with that rule's action;
 *  - every slot in which the ends hold different entries is on the keeper's list of open slots (wg_open). So an empty list means the same
 *    entry in every slot. Hit counts may differ.
 * A restart clears both ends and drops every message under way. Clearing one end alone, or delivering a message from before the restart, voids
 * what is promised. So does another policy over the same ends.
 *
 * WORDS
 *
 * A KEY is a packet's 13 bytes: source address 4, destination address 4, source port 2, destination port 2, protocol 1. Its 104 bit POSITIONS are
 * counted from the top bit of byte 0. A PATTERN is two rows of 13 bytes, value and mask; a mask bit of 1 is exact, of 0 a wildcard. It matches a
 * key that agrees with the value at every exact position. A POLICY is rule records one after another; a rule's NUMBER is its place, from 0.
 * Of the rules that match a key, the BEST goes before all others: the LARGER PRIORITY GOES FIRST, and of equal ones the lower number. The
 * DEPENDENTS of a rule are the rules that go before it and overlap it. To ISOLATE a key's best rule is to fix wildcards to the key's bits until
 * no dependent can match what is left. A slot is EMPTY if its sequence is 0; its ENTRY is its sequence, pattern, action and rule number; it is
 * SETTLED if byte 38 is 1, and OPEN if it is neither empty nor settled.
 *
 * RECORDS: bytes, every number big-endian, byte ranges inclusive
 *
 *   rule     32   value 0-12, mask 13-25, priority 26-27, action 28-29, zero 30-31
 *   packet   16   key 0-12, zero 13-15                                                  (a trace is packets one after another)
 *   slot     40   sequence 0-3, hits 4-7, value 8-20, mask 21-33, action 34-35, rule number 36-37, settled 38, zero 39
 *   write    40   kind 0 (1), zero 1, slot 2-3, sequence 4-7, value 8-20, mask 21-33, action 34-35, rule number 36-37, zero 38-39
 *   report   12   kind 0 (2), zero 1, slot 2-3, sequence 4-7, hits 8-11
 *   outcome  12   outcome 0, zero 1, action 2-3, rule 4-5, slot 6-7, evicted rule 8-9, zero 10-11
 *   list      2   a rule or slot number, each
 *
 * Rules and writes need value 0 at each wildcard; rules, packets, writes and reports need their zero bytes zero. Slots are never refused for what
 * they hold.
 *
 * LENDING BUFFERS
 *
 * A buffer is a pointer and then its count of bytes. The pointer may be NULL where the count is 0. Bytes need no alignment. Buffers lent together
 * must not overlap: no two buffers of one call may share a byte. Only the buffers that are not const are ever written. The library keeps no
 * pointer, allocates nothing, and has no state but what it is lent; so calls that share no buffer which one of them may write can run at the same
 * time. No contents of any buffer, and no length, make a call fail or run on. Each call fits a stack of 64 KiB (tested, not proved).
 *
 * ANSWERS AND REFUSALS
 *
 * Every call returns a struct by value. `refusal` is WG_ACCEPTED (0), or why the call was refused. A refused call has altered no byte of any
 * buffer; `place` is the first bad record where `refusal` is WG_BAD_RECORD (0 in a message), and 0 otherwise; every field after it is 0. A
 * record that is bad in a call with both a policy and a trace is the policy's if wg_check refuses the policy alone. Each comment below names
 * the call's refusals in the order in which they are told; it gives no others. An accepted call writes its answer to the start of `out`, and
 * leaves the rest of `out` as it was. `out` may be as short as the answer that is given: 0 bytes where none is.
 */
#ifndef WUNNAGRESK_H
#define WUNNAGRESK_H

#include <stddef.h>
#include <stdint.h>

#ifdef __cplusplus
extern "C" {
#endif

/* ---- Sizes in bytes, and limits. */

#define WG_KEY_SIZE 13
#define WG_PATTERN_SIZE 26 /* value, then mask */
#define WG_RULE_SIZE 32
#define WG_PACKET_SIZE 16
#define WG_SLOT_SIZE 40
#define WG_WRITE_SIZE 40
#define WG_REPORT_SIZE 12
#define WG_OUTCOME_SIZE 12
#define WG_NUMBER_SIZE 2 /* each number of a list */

#define WG_POSITIONS 104      /* bits of a key */
#define WG_MOST_RULES 1024    /* in a policy; the fewest are 0 */
#define WG_MOST_PACKETS 4096  /* in one wg_run; the fewest are 0 */
#define WG_MOST_SLOTS 256     /* in the table and in the keeper; the fewest are 1 */
#define WG_MOST_TOTAL UINT64_C(9000000000000000000) /* a total above it refuses a run */
#define WG_LAST_SEQUENCE UINT32_C(4294967295) /* the keeper gives no new write after it: a restart is due */
#define WG_MOST_HITS UINT32_C(4294967295) /* a slot's hits stay there */
#define WG_NONE 65535         /* no rule, no slot, no evicted rule */

/* ---- Where a rule's and a slot's fields begin, for reading what wg_rule and wg_show hand back. */

#define WG_RULE_VALUE 0
#define WG_RULE_MASK 13
#define WG_RULE_PRIORITY 26
#define WG_RULE_ACTION 28

#define WG_SLOT_SEQUENCE 0
#define WG_SLOT_HITS 4
#define WG_SLOT_VALUE 8
#define WG_SLOT_MASK 21
#define WG_SLOT_ACTION 34
#define WG_SLOT_RULE 36
#define WG_SLOT_SETTLED 38

/* ---- Refusals: the value of `refusal` in every answer. */

enum wg_refusal {
    WG_ACCEPTED = 0,
    WG_RAGGED = 1,          /* a length that is not whole records; a key, write or report of another length than its own */
    WG_TOO_MANY = 2,        /* over 1,024 rules or 4,096 packets */
    WG_BAD_RECORD = 3,      /* a zero byte that is not zero, or a value bit under a wildcard; `place` is the first such record */
    WG_BAD_SLOTS = 4,       /* a table or keeper that is not 40 times 1 to 256 bytes */
    WG_SHORT_OUTPUT = 5,    /* `out` is shorter than the answer */
    WG_NO_SUCH_RULE = 6,    /* a rule number not below the rule count */
    WG_NOT_BEST = 7,        /* the rule is not the key's best */
    WG_WRONG_KIND = 8,      /* a message's first byte */
    WG_NO_SUCH_SLOT = 9,    /* a message's slot is not below the slot count */
    WG_SEQUENCE_ZERO = 10,  /* a message's sequence is 0 */
    WG_REPORT_AHEAD = 11,   /* a report's sequence is larger than the keeper's in that slot */
    WG_LENGTHS_DIFFER = 12, /* table and keeper have different lengths */
    WG_TOTALS_FULL = 13     /* some total is above WG_MOST_TOTAL before a run */
};

/* ---- Outcomes: what became of a packet (wg_run), or of a miss (wg_miss, never WG_HIT). */

enum wg_outcome_kind {
    WG_NO_RULE = 0,    /* no rule matches */
    WG_HIT = 1,        /* the table had an entry for it */
    WG_TO_EMPTY = 2,   /* the isolate rule was written to an empty slot */
    WG_OVER_ENTRY = 3, /* it was written over an entry, whose rule is evicted */
    WG_USED_UP = 4,    /* sequences are used up, nothing is written */
    WG_AGAIN = 5       /* the keeper had an entry for it: its write is given again */
};

/* ---- Sources: where the record that decides lies (wg_show). */

enum wg_source {
    WG_FROM_NOTHING = 0,
    WG_FROM_TABLE = 1,
    WG_FROM_POLICY = 2
};

/* ---- Answers. */

/* Accepted or refused, nothing more. */
struct wg_done {
    uint32_t refusal;
    size_t place;
};

/* A count. */
struct wg_count {
    uint32_t refusal;
    size_t place;
    size_t count;
};

/* The best rule: `found` 1, its number and action; or `found` 0, `rule` WG_NONE and `action` 0. */
struct wg_best_answer {
    uint32_t refusal;
    size_t place;
    uint32_t found;
    uint16_t rule;
    uint16_t action;
};

/* A part of the policy: `length` bytes from `offset`. */
struct wg_part {
    uint32_t refusal;
    size_t place;
    size_t offset;
    size_t length;
};

/* An isolate rule: how many bits were fixed, and how many wildcard bits are left. */
struct wg_isolated {
    uint32_t refusal;
    size_t place;
    uint32_t fixed;
    uint32_t wildcards;
};

/* A lookup: `hit` 1 with the slot's number, rule and action; or `hit` 0, `slot` and `rule` WG_NONE and `action` 0. */
struct wg_found {
    uint32_t refusal;
    size_t place;
    uint32_t hit;
    uint16_t slot;
    uint16_t rule;
    uint16_t action;
};

/* What became of a miss. */
struct wg_outcome {
    uint32_t refusal;
    size_t place;
    uint32_t outcome; /* enum wg_outcome_kind */
    uint16_t action;
    uint16_t rule;
    uint16_t slot;
    uint16_t evicted;
};

/* The record that decides: `length` bytes from `offset` of the table or of the policy, and its slot or rule number. */
struct wg_shown {
    uint32_t refusal;
    size_t place;
    uint32_t source; /* enum wg_source */
    size_t number;
    size_t offset;
    size_t length;
};

/* What all runs came to. Start it all zero; then packets = hits + misses + none, and evictions are among the misses. */
struct wg_totals {
    uint64_t packets;
    uint64_t hits;      /* outcome 1 */
    uint64_t misses;    /* outcomes 2 to 5 */
    uint64_t none;      /* outcome 0 */
    uint64_t evictions; /* outcome 3 */
};

/* ---- Questions to a policy. They change nothing; `policy` is 0 to 1,024 rule records in each. */

/* Whether the policy is accepted: answers its rule count. Every other call that is lent a policy makes the same check first.
 * Refuses: policy WG_RAGGED, WG_TOO_MANY, WG_BAD_RECORD. */
struct wg_count wg_check(const uint8_t *policy, size_t policy_len);

/* The best rule of a key of 13 bytes, or none.
 * Refuses: policy WG_RAGGED, WG_TOO_MANY, WG_BAD_RECORD; key WG_RAGGED. */
struct wg_best_answer wg_best(const uint8_t *policy, size_t policy_len, const uint8_t *key, size_t key_len);

/* Where the record of rule `number` lies in the policy: `length` is 32. wg_rule_at makes a pointer of the answer.
 * Refuses: policy WG_RAGGED, WG_TOO_MANY, WG_BAD_RECORD; WG_NO_SUCH_RULE. */
struct wg_part wg_rule(const uint8_t *policy, size_t policy_len, size_t number);

/* The cover list of rule `number`, which is its dependents, all of them, in order of precedence: answers how many, and writes two bytes for each
 * to `out`. 2 * (WG_MOST_RULES - 1) bytes are always enough.
 * Refuses: policy WG_RAGGED, WG_TOO_MANY, WG_BAD_RECORD; WG_NO_SUCH_RULE; WG_SHORT_OUTPUT. */
struct wg_count wg_cover(const uint8_t *policy, size_t policy_len, size_t number, uint8_t *out, size_t out_len);

/* Rule `number`, which must be the best of the key of 13 bytes, isolated for that key: writes the pattern's 26 bytes to `out`, value and then mask.
 * Each round fixes the position that separates the most dependents still standing, the lowest on a tie.
 * Refuses: policy WG_RAGGED, WG_TOO_MANY, WG_BAD_RECORD; key WG_RAGGED; WG_NO_SUCH_RULE; WG_NOT_BEST, also where the key has no rule;
 * WG_SHORT_OUTPUT. */
struct wg_isolated wg_isolate(const uint8_t *policy, size_t policy_len, const uint8_t *key, size_t key_len, size_t number,
                              uint8_t *out, size_t out_len);

/* ---- The table: 40 bytes for each of 1 to 256 slots. Cleared is all zero. */

/* Looks a key of 13 bytes up: the lowest slot that is not empty and matches. A hit adds 1 to that slot's hits, which stay at 4,294,967,295, and
 * writes the slot's report, 12 bytes, to `out`: carry it to the keeper. A miss changes nothing and needs no `out`: carry the key to the keeper.
 * Refuses: key WG_RAGGED; table WG_BAD_SLOTS; on a hit WG_SHORT_OUTPUT, and then the hit is not counted. */
struct wg_found wg_lookup(const uint8_t *key, size_t key_len, uint8_t *table, size_t table_len, uint8_t *out, size_t out_len);

/* A write of 40 bytes arrives. If its sequence is greater than the slot's, the slot becomes its entry, with hits 0; if not, nothing changes: it
 * came late or twice. Either way the report of the slot as it now is, 12 bytes, is written to `out`: carry it to the keeper.
 * Refuses: table WG_BAD_SLOTS; message WG_RAGGED, WG_WRONG_KIND, WG_BAD_RECORD, WG_NO_SUCH_SLOT, WG_SEQUENCE_ZERO; WG_SHORT_OUTPUT. */
struct wg_done wg_write(uint8_t *table, size_t table_len, const uint8_t *message, size_t message_len, uint8_t *out, size_t out_len);

/* ---- The keeper: 40 bytes for each of 1 to 256 slots, as many as the table has. Cleared is all zero. */

/* A miss of a key of 13 bytes arrives. In this order:
 *   WG_NO_RULE     no rule matches: rule, slot and evicted are WG_NONE, action 0. The keeper is unchanged, `out` too.
 *   WG_AGAIN       a keeper slot that is not empty matches: the lowest such slot's write is given again with its old sequence. Action, rule and
 *                  slot are that slot's. The keeper is unchanged.
 *   WG_USED_UP     a sequence is 4,294,967,295: action and rule are the best rule's, slot WG_NONE. The keeper is unchanged, `out` too.
 *   WG_TO_EMPTY    the isolate rule goes to the lowest empty slot;
 *   WG_OVER_ENTRY  or, if there is none, to the slot with the fewest hits, then the smallest sequence, then the lowest number, and `evicted` is the
 *                  rule that was there. In both action and rule are the best rule's, and that slot alone changes: it is open until its report.
 * `evicted` is WG_NONE but in WG_OVER_ENTRY. Where a write is given, its 40 bytes are in `out`: carry them to the table. Act on the packet by
 * `action` in every outcome but WG_NO_RULE.
 * Refuses: policy WG_RAGGED, WG_TOO_MANY, WG_BAD_RECORD; key WG_RAGGED; keeper WG_BAD_SLOTS; where a write is given WG_SHORT_OUTPUT. */
struct wg_outcome wg_miss(const uint8_t *policy, size_t policy_len, const uint8_t *key, size_t key_len, uint8_t *keeper, size_t keeper_len,
                          uint8_t *out, size_t out_len);

/* A report of 12 bytes arrives. If its sequence equals the slot's, the slot is settled, and its hits become the larger of the two numbers; if it is
 * smaller, nothing changes: the report is of an older entry.
 * Refuses: keeper WG_BAD_SLOTS; message WG_RAGGED, WG_WRONG_KIND, WG_BAD_RECORD, WG_NO_SUCH_SLOT, WG_SEQUENCE_ZERO, WG_REPORT_AHEAD. */
struct wg_done wg_report(uint8_t *keeper, size_t keeper_len, const uint8_t *message, size_t message_len);

/* The open slots, in rising order: answers how many, and writes two bytes for each to `out`. 2 * WG_MOST_SLOTS bytes are always enough.
 * The keeper is unchanged.
 * Refuses: keeper WG_BAD_SLOTS; WG_SHORT_OUTPUT. */
struct wg_count wg_open(const uint8_t *keeper, size_t keeper_len, uint8_t *out, size_t out_len);

/* ---- Both ends in one process. */

/* The record that decides for a key of 13 bytes: the table's slot that a lookup would hit (WG_FROM_TABLE, `number` the slot, `length` 40), else the
 * best rule's record (WG_FROM_POLICY, `number` the rule, `length` 32), else nothing (WG_FROM_NOTHING, `number` WG_NONE, `offset` and `length` 0). It
 * counts no hit and changes nothing. wg_shown_at makes a pointer of the answer.
 * Refuses: policy WG_RAGGED, WG_TOO_MANY, WG_BAD_RECORD; key WG_RAGGED; table WG_BAD_SLOTS. */
struct wg_shown wg_show(const uint8_t *policy, size_t policy_len, const uint8_t *key, size_t key_len, const uint8_t *table, size_t table_len);

/* Runs a trace of 0 to 4,096 packets over both ends, with every message delivered at once: answers how many packets, writes an outcome record of 12
 * bytes for each to `out`, and adds to `totals`. A refusal inside the run, which only ends that did not grow from cleared ones can cause, changes
 * nothing at the end that refuses; the packet's outcome stands and the run goes on. A trace cut between packets and run in parts gives the same.
 * `totals` is never NULL, and overlaps no buffer.
 * Refuses: policy WG_RAGGED, WG_TOO_MANY, WG_BAD_RECORD; trace WG_RAGGED, WG_TOO_MANY, WG_BAD_RECORD; table WG_BAD_SLOTS; keeper WG_BAD_SLOTS;
 * WG_LENGTHS_DIFFER; WG_TOTALS_FULL; WG_SHORT_OUTPUT. */
struct wg_count wg_run(const uint8_t *policy, size_t policy_len, const uint8_t *trace, size_t trace_len, uint8_t *table, size_t table_len,
                       uint8_t *keeper, size_t keeper_len, uint8_t *out, size_t out_len, struct wg_totals *totals);

/* ---- Helpers. */

/* The big-endian number at `bytes`, of two bytes and of four. Number i of a list is wg_get16(list + i * WG_NUMBER_SIZE). */
static inline uint16_t wg_get16(const uint8_t *bytes)
{
    return (uint16_t)(bytes[0] << 8 | bytes[1]);
}

static inline uint32_t wg_get32(const uint8_t *bytes)
{
    return (uint32_t)wg_get16(bytes) << 16 | wg_get16(bytes + 2);
}

/* The 32 bytes that wg_rule answered, in the policy that it was asked of; NULL where it refused. */
static inline const uint8_t *wg_rule_at(struct wg_part part, const uint8_t *policy)
{
    return part.length == 0 ? NULL : policy + part.offset;
}

/* The bytes that wg_show answered, in the policy or the table that it was asked of; NULL where nothing is shown. */
static inline const uint8_t *wg_shown_at(struct wg_shown shown, const uint8_t *policy, const uint8_t *table)
{
    if (shown.source == WG_FROM_TABLE)
        return table + shown.offset;
    return shown.source == WG_FROM_POLICY ? policy + shown.offset : NULL;
}

#ifdef __cplusplus
}
#endif

#endif
