/* Ends in plain C, with the library's calls: right, or wrong in one named way. Each call decides, tests its output, and only then changes. */
#include "ends.h"

#include <string.h>

#include "plain.h"
#include "refusals.h"

static enum wrong wrong = RIGHT;

void ends_are(enum wrong way)
{
    wrong = way;
}

/* The policy as the ends under test read it. */
static const uint8_t *policy_read(const uint8_t *policy, size_t count)
{
    static uint8_t turned[MOST_RULES * RULE];

    if (wrong != SMALL_PRIORITY_FIRST || count == 0)
        return policy;
    memcpy(turned, policy, count * RULE);
    for (size_t i = 0; i < count; i++)
        put16(turned + i * RULE + 26, NOTHING - get16(policy + i * RULE + 26));
    return turned;
}

static struct wg_done said(struct wg_done refusal)
{
    return wrong == REFUSES_EVERYTHING ? refused(1, 0) : refusal;
}

static unsigned action_of(const uint8_t *policy, size_t rule)
{
    return get16(policy + rule * RULE + 28);
}

/* ---- Questions to a policy. */

static struct wg_count ends_check(const uint8_t *policy, size_t policy_len)
{
    struct wg_done r = said(policy_refusal(policy, policy_len));
    struct wg_count answer = {r.refusal, r.place, r.refusal ? 0 : policy_len / RULE};

    return answer;
}

static struct wg_best_answer ends_best(const uint8_t *policy, size_t policy_len, const uint8_t *key, size_t key_len)
{
    struct wg_done r = said(first_of(policy_refusal(policy, policy_len), key_refusal(key_len)));
    struct wg_best_answer answer = {r.refusal, r.place, 0, 0, 0};

    if (r.refusal)
        return answer;
    size_t best = best_of(policy_read(policy, policy_len / RULE), policy_len / RULE, key);
    answer.found = best != NOTHING;
    answer.rule = (uint16_t)best;
    answer.action = (uint16_t)(best == NOTHING ? 0 : action_of(policy, best));
    return answer;
}

static struct wg_part ends_rule(const uint8_t *policy, size_t policy_len, size_t number)
{
    struct wg_done r = said(first_of(policy_refusal(policy, policy_len), number_refusal(policy_len, number)));
    struct wg_part answer = {r.refusal, r.place, r.refusal ? 0 : number * RULE, r.refusal ? 0 : RULE};

    return answer;
}

static struct wg_count ends_cover(const uint8_t *policy, size_t policy_len, size_t number, uint8_t *out, size_t out_len)
{
    struct wg_done r = said(first_of(policy_refusal(policy, policy_len), number_refusal(policy_len, number)));
    uint16_t list[MOST_RULES];
    size_t count = 0;

    if (!r.refusal) {
        count = dependents_of(policy_read(policy, policy_len / RULE), policy_len / RULE, number, list);
        r = output_refusal(2 * count, out_len);
    }
    struct wg_count answer = {r.refusal, r.place, r.refusal ? 0 : count};
    for (size_t i = 0; i < answer.count; i++)
        put16(out + 2 * i, list[i]);
    return answer;
}

/* The pattern that is cached for a key and its best rule; right: the isolate rule. Gives the number of fixed bits. */
static unsigned pattern_for(const uint8_t *policy, size_t count, const uint8_t *key, size_t rule, uint8_t *value, uint8_t *mask)
{
    unsigned fixed = isolate_for(policy, count, key, rule, value, mask);
    const uint8_t *own = policy + rule * RULE;

    if (wrong == CACHES_RULE_UNCHANGED) {
        memcpy(value, own, KEY);
        memcpy(mask, own + KEY, KEY);
    }
    if (wrong == CACHES_BARE_KEYS) {
        memcpy(value, key, KEY);
        memset(mask, 0xFF, KEY);
    }
    if (wrong == FIXES_DEPENDENTS_BIT) /* which is the other one, wherever a bit was fixed */
        for (int i = 0; i < KEY; i++)
            value[i] ^= (uint8_t)(mask[i] & ~own[KEY + i]);
    return fixed;
}

static struct wg_isolated ends_isolate(const uint8_t *policy, size_t policy_len, const uint8_t *key, size_t key_len, size_t number,
                                       uint8_t *out, size_t out_len)
{
    struct wg_done r = said(first_of(policy_refusal(policy, policy_len), key_refusal(key_len)));
    struct wg_isolated answer = {r.refusal, r.place, 0, 0};

    if (r.refusal)
        return answer;
    const uint8_t *read = policy_read(policy, policy_len / RULE);
    size_t best = best_of(read, policy_len / RULE, key);
    r = first_of(number_refusal(policy_len, number), refused(number != best ? 7 : 0, 0));
    answer.refusal = first_of(r, output_refusal(2 * KEY, out_len)).refusal;
    if (answer.refusal)
        return answer;
    answer.fixed = pattern_for(read, policy_len / RULE, key, number, out, out + KEY);
    answer.wildcards = wildcards_in(out + KEY);
    return answer;
}

/* ---- The table. */

/* The report of a slot as it is. */
static void put_report(uint8_t *out, size_t number, const uint8_t *slot)
{
    out[0] = 2;
    out[1] = 0;
    put16(out + 2, (unsigned)number);
    memcpy(out + 4, slot, 8);
}

/* One hit more, up to the top. */
static void count_hit(uint8_t *slot)
{
    uint32_t hits = get32(slot + 4);

    if (hits < 4294967295u)
        put32(slot + 4, hits + 1);
    if (wrong == INVENTS_HITS && hits < 4294967294u)
        put32(slot + 4, hits + 2);
}

static struct wg_found ends_lookup(const uint8_t *key, size_t key_len, uint8_t *table, size_t table_len, uint8_t *out, size_t out_len)
{
    struct wg_done r = said(first_of(key_refusal(key_len), slots_refusal(table_len)));
    struct wg_found answer = {r.refusal, r.place, 0, 0, 0, 0};

    if (r.refusal)
        return answer;
    size_t hit = wrong == TABLE_ALWAYS_MISSES ? NOTHING : lowest_match(table, table_len / SLOT, key);
    if (hit == NOTHING) {
        answer.slot = answer.rule = NOTHING;
        return answer;
    }
    answer.refusal = output_refusal(REPORT, out_len).refusal;
    if (answer.refusal)
        return answer;
    uint8_t *slot = table + hit * SLOT;
    count_hit(slot);
    put_report(out, hit, slot);
    answer.hit = 1;
    answer.slot = (uint16_t)hit;
    answer.rule = (uint16_t)get16(slot + 36);
    answer.action = (uint16_t)get16(slot + 34);
    return answer;
}

static struct wg_done ends_write(uint8_t *table, size_t table_len, const uint8_t *message, size_t message_len, uint8_t *out, size_t out_len)
{
    struct wg_done r = said(first_of(slots_refusal(table_len), write_refusal(table_len, message, message_len)));

    r = first_of(r, output_refusal(REPORT, out_len));
    if (r.refusal)
        return r;
    uint8_t *slot = table + get16(message + 2) * SLOT;
    int newer = get32(message + 4) > get32(slot), stores = newer && (wrong != STORES_FIRST_WRITE_ONLY || is_empty(slot));
    if (stores) {
        memset(slot, 0, SLOT);
        memcpy(slot, message + 4, 4);
        memcpy(slot + 8, message + 8, 30);
    }
    put_report(out, get16(message + 2), slot);
    if (newer && !stores)
        memcpy(out + 4, message + 4, 4);
    return r;
}

/* ---- The keeper. */

static int gives_write(uint32_t outcome)
{
    return outcome == 2 || outcome == 3 || outcome == 5;
}

/* What a miss comes to, and in `slot` the keeper's slot as it then is. Changes nothing. */
static struct wg_outcome decide(const uint8_t *policy, size_t rules, const uint8_t *key, const uint8_t *keeper, size_t slots, uint8_t *slot)
{
    struct wg_outcome nothing = {0, 0, 0, 0, NOTHING, NOTHING, NOTHING}, o = nothing;
    size_t best = best_of(policy, rules, key), held = lowest_match(keeper, slots, key);
    uint32_t largest = largest_sequence(keeper, slots);

    if (best == NOTHING)
        return o;
    o.action = (uint16_t)action_of(policy, best);
    o.rule = (uint16_t)best;
    if (held != NOTHING) {
        memcpy(slot, keeper + held * SLOT, SLOT);
        if (wrong == RESENT_WRITE_ANEW)
            put32(slot, largest + 1);
        o.outcome = 5;
        o.action = (uint16_t)get16(slot + 34);
        o.rule = (uint16_t)get16(slot + 36);
        o.slot = (uint16_t)held;
        return o;
    }
    o.outcome = 4;
    if (largest == 4294967295u)
        return o;
    o.slot = (uint16_t)slot_to_use(keeper, slots);
    o.outcome = is_empty(keeper + o.slot * SLOT) ? 2 : 3;
    o.evicted = (uint16_t)(o.outcome == 3 ? get16(keeper + o.slot * SLOT + 36) : NOTHING);
    memset(slot, 0, SLOT);
    put32(slot, largest + 1);
    pattern_for(policy, rules, key, best, slot + 8, slot + 21);
    put16(slot + 34, o.action);
    put16(slot + 36, o.rule);
    return o;
}

static struct wg_outcome ends_miss(const uint8_t *policy, size_t policy_len, const uint8_t *key, size_t key_len, uint8_t *keeper,
                                   size_t keeper_len, uint8_t *out, size_t out_len)
{
    struct wg_done r = said(first_of(first_of(policy_refusal(policy, policy_len), key_refusal(key_len)), slots_refusal(keeper_len)));
    struct wg_outcome answer = {r.refusal, r.place, 0, 0, 0, 0, 0}, decided;
    uint8_t slot[SLOT];

    if (r.refusal)
        return answer;
    decided = decide(policy_read(policy, policy_len / RULE), policy_len / RULE, key, keeper, keeper_len / SLOT, slot);
    if (!gives_write(decided.outcome))
        return decided;
    answer.refusal = output_refusal(WRITE, out_len).refusal;
    if (answer.refusal)
        return answer;
    out[0] = 1;
    out[1] = out[38] = out[39] = 0;
    put16(out + 2, decided.slot);
    memcpy(out + 4, slot, 4);
    memcpy(out + 8, slot + 8, 30);
    if (wrong != KEEPER_CHANGES_NOTHING)
        memcpy(keeper + decided.slot * SLOT, slot, SLOT);
    return decided;
}

static struct wg_done ends_report(uint8_t *keeper, size_t keeper_len, const uint8_t *message, size_t message_len)
{
    struct wg_done r = said(first_of(slots_refusal(keeper_len), report_refusal(keeper, keeper_len, message, message_len)));

    if (r.refusal || wrong == KEEPER_CHANGES_NOTHING)
        return r;
    uint8_t *slot = keeper + get16(message + 2) * SLOT;
    int equal = get32(message + 4) == get32(slot);
    if (equal && get32(message + 8) > get32(slot + 4))
        memcpy(slot + 4, message + 8, 4);
    if ((equal || wrong == OLDER_REPORT_SETTLES) && wrong != KEEPER_NEVER_SETTLES)
        slot[38] = 1;
    return r;
}

/* The open slots' numbers, two bytes each; gives how many they are. */
static size_t list_open(const uint8_t *keeper, size_t slots, uint8_t *list)
{
    size_t listed = 0;

    for (size_t i = 0; i < slots; i++)
        if (is_open(keeper + i * SLOT))
            put16(list + 2 * listed++, (unsigned)i);
    return listed;
}

static struct wg_count ends_open(const uint8_t *keeper, size_t keeper_len, uint8_t *out, size_t out_len)
{
    struct wg_done r = said(slots_refusal(keeper_len));
    uint8_t list[2 * MOST_SLOTS];
    size_t count = r.refusal ? 0 : list_open(keeper, keeper_len / SLOT, list);

    r = first_of(r, output_refusal(2 * count, out_len));
    struct wg_count answer = {r.refusal, r.place, r.refusal ? 0 : count};
    if (answer.count > 0)
        memcpy(out, list, 2 * count);
    return answer;
}

/* ---- Both ends. */

static struct wg_shown ends_show(const uint8_t *policy, size_t policy_len, const uint8_t *key, size_t key_len, const uint8_t *table,
                                 size_t table_len)
{
    struct wg_done r = said(first_of(first_of(policy_refusal(policy, policy_len), key_refusal(key_len)), slots_refusal(table_len)));
    struct wg_shown answer = {r.refusal, r.place, 0, 0, 0, 0};

    if (r.refusal)
        return answer;
    size_t hit = wrong == TABLE_ALWAYS_MISSES ? NOTHING : lowest_match(table, table_len / SLOT, key);
    size_t best = best_of(policy_read(policy, policy_len / RULE), policy_len / RULE, key);
    answer.source = hit != NOTHING ? 1 : best != NOTHING ? 2 : 0;
    answer.number = hit != NOTHING ? hit : best;
    answer.length = hit != NOTHING ? SLOT : best != NOTHING ? RULE : 0;
    answer.offset = answer.number * answer.length;
    return answer;
}

/* One packet of a run. The table and the keeper are `length` bytes each. */
static struct wg_outcome run_packet(const uint8_t *policy, size_t policy_len, const uint8_t *key, uint8_t *table, uint8_t *keeper, size_t length)
{
    uint8_t report[REPORT], write[WRITE];
    struct wg_found found = ends_lookup(key, KEY, table, length, report, REPORT);
    struct wg_outcome hit = {0, 0, 1, found.action, found.rule, found.slot, NOTHING};

    if (found.hit) {
        ends_report(keeper, length, report, REPORT);
        return hit;
    }
    struct wg_outcome miss = ends_miss(policy, policy_len, key, KEY, keeper, length, write, WRITE);
    if (gives_write(miss.outcome) && ends_write(table, length, write, WRITE, report, REPORT).refusal == 0)
        ends_report(keeper, length, report, REPORT);
    return miss;
}

static void count_outcome(struct wg_totals *totals, uint32_t outcome)
{
    totals->packets++;
    totals->hits += outcome == 1;
    totals->misses += outcome >= 2;
    totals->none += outcome == 0;
    totals->evictions += outcome == 3 || (wrong == INVENTS_TOTALS && outcome == 2);
}

static struct wg_count ends_run(const uint8_t *policy, size_t policy_len, const uint8_t *trace, size_t trace_len, uint8_t *table,
                                size_t table_len, uint8_t *keeper, size_t keeper_len, uint8_t *out, size_t out_len, struct wg_totals *totals)
{
    size_t packets = trace_len / PACKET;
    struct wg_done r = first_of(policy_refusal(policy, policy_len), trace_refusal(trace, trace_len));

    r = first_of(first_of(r, slots_refusal(table_len)), slots_refusal(keeper_len));
    r = first_of(first_of(r, ends_refusal(table_len, keeper_len)), totals_refusal(totals));
    r = said(first_of(r, output_refusal(packets * OUTCOME, out_len)));
    struct wg_count answer = {r.refusal, r.place, r.refusal ? 0 : packets};
    for (size_t i = 0; i < answer.count; i++) {
        struct wg_outcome o = run_packet(policy, policy_len, trace + i * PACKET, table, keeper, table_len);
        uint8_t *record = out + i * OUTCOME;
        memset(record, 0, OUTCOME);
        record[0] = (uint8_t)o.outcome;
        put16(record + 2, o.action);
        put16(record + 4, o.rule);
        put16(record + 6, o.slot);
        put16(record + 8, o.evicted);
        count_outcome(totals, o.outcome);
    }
    return answer;
}

const struct calls plain_ends = {
    ends_check, ends_best, ends_rule, ends_cover, ends_isolate, ends_lookup,
    ends_write, ends_miss, ends_report, ends_open, ends_show, ends_run
};
