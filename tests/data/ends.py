"""A plain reading of docs/RULES.md on the two ends, for making test data: slow, short, and independent of the library.

An end is a list of Slot. Each call takes bytes and gives Answer: what it says, the table or keeper after it, and what is in the output.
"""
from collections import namedtuple

from rules import KEY, Refused, best, isolate, matches, read_policy, rule_bytes

Slot = namedtuple('Slot', 'sequence hits value mask action rule settled spare')
Write = namedtuple('Write', 'kind zero slot sequence value mask action rule spare')
Report = namedtuple('Report', 'kind zero slot sequence hits')
SIZES = {Slot: (4, 4, KEY, KEY, 2, 2, 1, 1), Write: (1, 1, 2, 4, KEY, KEY, 2, 2, 2), Report: (1, 1, 2, 4, 4)}

IS_WRITE, IS_REPORT = 1, 2
MOST_SLOTS = 256
LARGEST = 4294967295         # of sequences and of hits
NOTHING = 65535              # no rule, no slot, no evicted rule
EMPTY = Slot(0, 0, 0, 0, 0, 0, 0, 0)

Answer = namedtuple('Answer', 'said state output')


# ---- bytes

def size(kind):
    return sum(SIZES[kind])


def encode(record):
    return b''.join(n.to_bytes(size_, 'big') for n, size_ in zip(record, SIZES[type(record)]))


def decode(kind, data):
    numbers, at = [], 0
    for size_ in SIZES[kind]:
        numbers.append(int.from_bytes(data[at:at + size_], 'big'))
        at += size_
    return kind(*numbers)


def end_bytes(slots):
    return b''.join(map(encode, slots))


# ---- refusals, each raised where its test stands in the order of the rules

class Stop(Exception):
    """The refusal that a call ends in."""


def refuse_if(wrong, number):
    if wrong:
        raise Stop(Refused(number, 0))


def accepted_policy(data):
    policy = read_policy(data)
    if isinstance(policy, Refused):
        raise Stop(policy)
    return policy


def accepted_key(data):
    refuse_if(len(data) != KEY, 1)
    return int.from_bytes(data, 'big')


def accepted_end(data):
    each = size(Slot)
    refuse_if(len(data) % each or not 1 <= len(data) // each <= MOST_SLOTS, 4)
    return [decode(Slot, data[at:at + each]) for at in range(0, len(data), each)]


def accepted_write(data, slots):
    refuse_if(len(data) != size(Write), 1)
    w = decode(Write, data)
    refuse_if(w.kind != IS_WRITE, 8)
    refuse_if(w.zero or w.spare or w.value & ~w.mask, 3)
    refuse_if(w.slot >= len(slots), 9)
    refuse_if(w.sequence == 0, 10)
    return w


def accepted_report(data, slots):
    refuse_if(len(data) != size(Report), 1)
    r = decode(Report, data)
    refuse_if(r.kind != IS_REPORT, 8)
    refuse_if(r.zero, 3)
    refuse_if(r.slot >= len(slots), 9)
    refuse_if(r.sequence == 0, 10)
    refuse_if(r.sequence > slots[r.slot].sequence, 11)
    return r


# ---- the calls

def first_holding(slots, key):
    """The lowest slot that is not empty and matches, or None."""
    return next((i for i, s in enumerate(slots) if s.sequence != 0 and matches(s, key)), None)


def report_of(slots, i):
    return encode(Report(IS_REPORT, 0, i, slots[i].sequence, slots[i].hits))


def call_lookup(policy, key, table, room):
    k = accepted_key(key)
    slots = accepted_end(table)
    i = first_holding(slots, k)
    if i is None:
        return Answer('miss', table, b'')
    refuse_if(room < size(Report), 5)
    slots[i] = slots[i]._replace(hits=min(slots[i].hits + 1, LARGEST))
    return Answer(f'hit {i} rule {slots[i].rule} action {slots[i].action}', end_bytes(slots), report_of(slots, i))


def call_write(policy, message, table, room):
    slots = accepted_end(table)
    w = accepted_write(message, slots)
    refuse_if(room < size(Report), 5)
    if w.sequence > slots[w.slot].sequence:
        slots[w.slot] = Slot(w.sequence, 0, w.value, w.mask, w.action, w.rule, 0, 0)
    return Answer('taken', end_bytes(slots), report_of(slots, w.slot))


def outcome(number, action, rule, slot=NOTHING, evicted=NOTHING):
    return f'outcome {number} action {action} rule {rule} slot {slot} evicted {evicted}'


def write_of(slots, i):
    s = slots[i]
    return encode(Write(IS_WRITE, 0, i, s.sequence, s.value, s.mask, s.action, s.rule, 0))


def place_for_entry(slots):
    """The lowest empty slot; if there is none, the one with the fewest hits, then the smallest sequence, then the lowest number."""
    empty = [i for i, s in enumerate(slots) if s.sequence == 0]
    return empty[0] if empty else min(range(len(slots)), key=lambda i: (slots[i].hits, slots[i].sequence, i))


def call_miss(policy, key, keeper, room):
    rules = accepted_policy(policy)
    k = accepted_key(key)
    slots = accepted_end(keeper)
    rule = best(rules, k)
    if rule is None:
        return Answer(outcome(0, 0, NOTHING), keeper, b'')
    i = first_holding(slots, k)
    if i is not None:
        refuse_if(room < size(Write), 5)
        return Answer(outcome(5, slots[i].action, slots[i].rule, i), keeper, write_of(slots, i))
    action = rules[rule].action
    last = max(s.sequence for s in slots)
    if last == LARGEST:
        return Answer(outcome(4, action, rule), keeper, b'')
    refuse_if(room < size(Write), 5)
    i = place_for_entry(slots)
    said = outcome(2, action, rule, i) if slots[i].sequence == 0 else outcome(3, action, rule, i, slots[i].rule)
    pattern = isolate(rules, k, rule)
    slots[i] = Slot(last + 1, 0, pattern.value, pattern.mask, action, rule, 0, 0)
    return Answer(said, end_bytes(slots), write_of(slots, i))


def call_report(policy, message, keeper, room):
    slots = accepted_end(keeper)
    r = accepted_report(message, slots)
    s = slots[r.slot]
    if r.sequence == s.sequence:
        slots[r.slot] = s._replace(hits=max(s.hits, r.hits), settled=1)
    return Answer('taken', end_bytes(slots), b'')


def call_open(policy, given, keeper, room):
    slots = accepted_end(keeper)
    listed = [i for i, s in enumerate(slots) if s.sequence != 0 and s.settled != 1]
    refuse_if(room < 2 * len(listed), 5)
    return Answer(f'open {len(listed)}', keeper, b''.join(i.to_bytes(2, 'big') for i in listed))


def call_show(policy, key, table, room):
    """The record that is shown stands where other calls have their output."""
    rules = accepted_policy(policy)
    k = accepted_key(key)
    slots = accepted_end(table)
    i = first_holding(slots, k)
    if i is not None:
        return Answer(f'from table {i}', table, encode(slots[i]))
    rule = best(rules, k)
    if rule is None:
        return Answer('no rule', table, b'')
    return Answer(f'from policy {rule}', table, rule_bytes(rules[rule]))


def answer(call, policy, given, state, room):
    """A call's answer; a refusal changes nothing and gives nothing."""
    try:
        return call(policy, given, state, room)
    except Stop as stop:
        refused = stop.args[0]
        return Answer(f'refused {refused.number} {refused.place}', state, b'')
