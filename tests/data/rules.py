"""A plain reading of docs/RULES.md, for making test data: slow, short, and independent of the library.

A key is an int of 104 bits, position 0 the top one. A pattern is (value, mask). A policy is a list of Rule.
"""
from collections import namedtuple

KEY = 13                     # bytes of a key
BITS = 8 * KEY
MOST_RULES = 1024

Rule = namedtuple('Rule', 'value mask priority action')
Refused = namedtuple('Refused', 'number place')
Isolated = namedtuple('Isolated', 'value mask fixed wildcards')


def bit(row, p):
    return row >> (BITS - 1 - p) & 1


def matches(rule, key):
    return (rule.value ^ key) & rule.mask == 0


def overlap(a, b):
    return all(not (bit(a.mask, p) and bit(b.mask, p) and bit(a.value, p) != bit(b.value, p)) for p in range(BITS))


def goes_before(policy, a, b):
    """The larger priority first; of equal ones the lower record number."""
    return (-policy[a].priority, a) < (-policy[b].priority, b)


def by_precedence(policy, numbers):
    return sorted(numbers, key=lambda i: (-policy[i].priority, i))


def best(policy, key):
    """The matching rule that goes before all other matching rules, or None."""
    return next(iter(by_precedence(policy, [i for i, r in enumerate(policy) if matches(r, key)])), None)


def dependents(policy, i):
    """The rules that go before rule i and overlap it, in order of precedence: its cover list."""
    return by_precedence(policy, [j for j in range(len(policy)) if goes_before(policy, j, i) and overlap(policy[j], policy[i])])


def separates(policy, key, i, p, d):
    return not bit(policy[i].mask, p) and bit(policy[d].mask, p) and bit(policy[d].value, p) != bit(key, p)


def isolate(policy, key, i):
    """Each round fixes the position that separates the most standing dependents, the lowest on a tie."""
    value, mask, fixed = policy[i].value, policy[i].mask, 0
    standing = dependents(policy, i)
    while standing:
        weights = [sum(bool(separates(policy, key, i, p, d)) for d in standing) for p in range(BITS)]
        p = weights.index(max(weights))
        one = 1 << (BITS - 1 - p)
        value, mask, fixed = value & ~one | key & one, mask | one, fixed + 1
        standing = [d for d in standing if not separates(policy, key, i, p, d)]
    return Isolated(value, mask, fixed, BITS - bin(mask).count('1'))


# ---- bytes

def rule_bytes(rule, spare=0):
    return (rule.value.to_bytes(KEY, 'big') + rule.mask.to_bytes(KEY, 'big') + rule.priority.to_bytes(2, 'big')
            + rule.action.to_bytes(2, 'big') + spare.to_bytes(2, 'big'))


def policy_bytes(policy):
    return b''.join(map(rule_bytes, policy))


RULE = len(rule_bytes(Rule(0, 0, 0, 0)))


def read_rule(c):
    n = int.from_bytes
    return Rule(n(c[:KEY], 'big'), n(c[KEY:2 * KEY], 'big'), n(c[2 * KEY:2 * KEY + 2], 'big'), n(c[2 * KEY + 2:2 * KEY + 4], 'big'))


def read_policy(data):
    """The rules, or the refusal: 1 ragged, 2 too many, 3 with the first record that has a flaw of either kind."""
    if len(data) % RULE:
        return Refused(1, 0)
    records = [data[at:at + RULE] for at in range(0, len(data), RULE)]
    if len(records) > MOST_RULES:
        return Refused(2, 0)
    for place, c in enumerate(records):
        rule = read_rule(c)
        if c[2 * KEY + 4:] != b'\0\0' or rule.value & ~rule.mask:
            return Refused(3, place)
    return [read_rule(c) for c in records]


# ---- the calls that ask a policy: each gives its answer, or the first refusal in the order of the rules

def call_check(data):
    policy = read_policy(data)
    return policy if isinstance(policy, Refused) else len(policy)


def call_best(data, key):
    policy = read_policy(data)
    if isinstance(policy, Refused):
        return policy
    if len(key) != KEY:
        return Refused(1, 0)
    i = best(policy, int.from_bytes(key, 'big'))
    return None if i is None else (i, policy[i].action)


def call_record(data, number):
    policy = read_policy(data)
    if isinstance(policy, Refused):
        return policy
    if number >= len(policy):
        return Refused(6, 0)
    return data[RULE * number:RULE * (number + 1)]


def call_cover(data, number, room):
    policy = read_policy(data)
    if isinstance(policy, Refused):
        return policy
    if number >= len(policy):
        return Refused(6, 0)
    listed = dependents(policy, number)
    return Refused(5, 0) if room < 2 * len(listed) else listed


def call_isolate(data, key, number):
    policy = read_policy(data)
    if isinstance(policy, Refused):
        return policy
    if len(key) != KEY:
        return Refused(1, 0)
    if number >= len(policy):
        return Refused(6, 0)
    k = int.from_bytes(key, 'big')
    return isolate(policy, k, number) if best(policy, k) == number else Refused(7, 0)
