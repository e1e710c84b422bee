/* What is refused, in the plain reading: the numbers are those of docs/RULES.md, written out. */
#include "refusals.h"

#include "plain.h"

struct wg_done refused(uint32_t number, size_t place)
{
    struct wg_done answer = {number, place};

    return answer;
}

struct wg_done first_of(struct wg_done a, struct wg_done b)
{
    return a.refusal != 0 ? a : b;
}

/* Whether some bit of the value stands under a wildcard. */
static int has_stray(const uint8_t *value, const uint8_t *mask)
{
    for (int i = 0; i < KEY; i++)
        if (value[i] & ~mask[i])
            return 1;
    return 0;
}

struct wg_done policy_refusal(const uint8_t *policy, size_t length)
{
    if (length % RULE != 0)
        return refused(1, 0);
    if (length / RULE > MOST_RULES)
        return refused(2, 0);
    for (size_t i = 0; i < length / RULE; i++) {
        const uint8_t *rule = policy + i * RULE;
        if (rule[30] != 0 || rule[31] != 0 || has_stray(rule, rule + 13))
            return refused(3, i);
    }
    return refused(0, 0);
}

struct wg_done trace_refusal(const uint8_t *trace, size_t length)
{
    if (length % PACKET != 0)
        return refused(1, 0);
    if (length / PACKET > MOST_PACKETS)
        return refused(2, 0);
    for (size_t i = 0; i < length / PACKET; i++) {
        const uint8_t *packet = trace + i * PACKET;
        if (packet[13] != 0 || packet[14] != 0 || packet[15] != 0)
            return refused(3, i);
    }
    return refused(0, 0);
}

struct wg_done key_refusal(size_t length)
{
    return refused(length != KEY ? 1 : 0, 0);
}

struct wg_done slots_refusal(size_t length)
{
    return refused(length % SLOT != 0 || length < SLOT || length > MOST_SLOTS * SLOT ? 4 : 0, 0);
}

struct wg_done ends_refusal(size_t table_length, size_t keeper_length)
{
    return refused(table_length != keeper_length ? 12 : 0, 0);
}

/* What a message of either kind is refused for, whatever the keeper holds. */
static struct wg_done message_refusal(int kind_is_right, int zeros_are_zero, size_t slots, const uint8_t *message)
{
    if (!kind_is_right)
        return refused(8, 0);
    if (!zeros_are_zero)
        return refused(3, 0);
    if (get16(message + 2) >= slots)
        return refused(9, 0);
    return refused(get32(message + 4) == 0 ? 10 : 0, 0);
}

struct wg_done write_refusal(size_t table_length, const uint8_t *message, size_t length)
{
    if (length != WRITE)
        return refused(1, 0);
    int clean = message[1] == 0 && message[38] == 0 && message[39] == 0 && !has_stray(message + 8, message + 21);
    return message_refusal(message[0] == 1, clean, table_length / SLOT, message);
}

struct wg_done report_refusal(const uint8_t *keeper, size_t keeper_length, const uint8_t *message, size_t length)
{
    if (length != REPORT)
        return refused(1, 0);
    struct wg_done flaw = message_refusal(message[0] == 2, message[1] == 0, keeper_length / SLOT, message);
    if (flaw.refusal != 0)
        return flaw;
    return refused(get32(message + 4) > get32(keeper + get16(message + 2) * SLOT) ? 11 : 0, 0);
}

struct wg_done number_refusal(size_t policy_length, size_t number)
{
    return refused(number >= policy_length / RULE ? 6 : 0, 0);
}

struct wg_done totals_refusal(const struct wg_totals *t)
{
    const uint64_t most = 9000000000000000000u;

    return refused(t->packets > most || t->hits > most || t->misses > most || t->none > most || t->evictions > most ? 13 : 0, 0);
}

struct wg_done output_refusal(size_t needed, size_t length)
{
    return refused(length < needed ? 5 : 0, 0);
}
