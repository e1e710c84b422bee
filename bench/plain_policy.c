/* Plain C: the check of a policy, and the best rule of a key. */
#include "plain_calls.h"

static struct wg_count refused(uint32_t refusal, size_t place)
{
    struct wg_count answer = {refusal, place, 0};

    return answer;
}

struct wg_count plain_check(const uint8_t *policy, size_t policy_len)
{
    struct wg_count answer = {WG_ACCEPTED, 0, policy_len / WG_RULE_SIZE};

    if (policy_len % WG_RULE_SIZE != 0)
        return refused(WG_RAGGED, 0);
    if (answer.count > WG_MOST_RULES)
        return refused(WG_TOO_MANY, 0);
    for (size_t i = 0; i < answer.count; i++) {
        const uint8_t *rule = policy + i * WG_RULE_SIZE;
        if (rule[30] != 0 || rule[31] != 0 || plain_strays(rule + WG_RULE_VALUE, rule + WG_RULE_MASK))
            return refused(WG_BAD_RECORD, i);
    }
    return answer;
}

size_t plain_search(const uint8_t *policy, size_t count, const uint8_t *key)
{
    size_t best = WG_NONE;
    unsigned most = 0;

    for (size_t i = 0; i < count; i++) {
        const uint8_t *rule = policy + i * WG_RULE_SIZE;
        if (!plain_matches(rule + WG_RULE_VALUE, rule + WG_RULE_MASK, key))
            continue;
        unsigned priority = wg_get16(rule + WG_RULE_PRIORITY);
        if (best == WG_NONE || priority > most) {
            best = i;
            most = priority;
        }
    }
    return best;
}

struct wg_best_answer plain_best(const uint8_t *policy, size_t policy_len, const uint8_t *key, size_t key_len)
{
    struct wg_count checked = plain_check(policy, policy_len);
    struct wg_best_answer answer = {checked.refusal, checked.place, 0, 0, 0};

    if (checked.refusal == WG_ACCEPTED && key_len != WG_KEY_SIZE)
        answer.refusal = WG_RAGGED;
    if (answer.refusal != WG_ACCEPTED)
        return answer;
    size_t best = plain_search(policy, checked.count, key);
    answer.rule = (uint16_t)best;
    answer.found = best != WG_NONE;
    if (answer.found)
        answer.action = wg_get16(policy + best * WG_RULE_SIZE + WG_RULE_ACTION);
    return answer;
}
