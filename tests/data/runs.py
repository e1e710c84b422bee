"""A plain reading of docs/RULES.md on a trace run, for making test data: slow, short, and independent of the library."""
from collections import namedtuple

from ends import NOTHING, Stop, accepted_end, accepted_policy, answer, call_lookup, call_miss, call_report, call_write, refuse_if
from rules import KEY, Refused

PACKET, OUTCOME = 16, 12     # bytes of a trace's record and of an outcome's
MOST_PACKETS = 4096
MOST_TOTAL = 9000000000000000000

Totals = namedtuple('Totals', 'packets hits misses none evictions')
Run = namedtuple('Run', 'said table keeper totals outcomes')
CLEARED = Totals(0, 0, 0, 0, 0)


def packet(key, spare=bytes(PACKET - KEY)):
    return key + spare


def accepted_trace(data):
    """The keys; 1 ragged, 2 too many, 3 with the first record whose zero bytes are not zero."""
    refuse_if(len(data) % PACKET, 1)
    records = [data[at:at + PACKET] for at in range(0, len(data), PACKET)]
    refuse_if(len(records) > MOST_PACKETS, 2)
    for place, record in enumerate(records):
        if any(record[KEY:]):
            raise Stop(Refused(3, place))
    return [record[:KEY] for record in records]


def numbers_in(said):
    return [int(word) for word in said.split() if word.isdigit()]


def one_packet(policy, key, table, keeper):
    """The outcome's five numbers, and both ends after the packet. What an end refuses changes nothing there."""
    looked = answer(call_lookup, b'', key, table, 12)
    if looked.said != 'miss':
        slot, rule, action = numbers_in(looked.said)
        return (1, action, rule, slot, NOTHING), looked.state, answer(call_report, b'', looked.output, keeper, 0).state
    missed = answer(call_miss, policy, key, keeper, 40)
    keeper = missed.state
    if missed.output:
        written = answer(call_write, b'', missed.output, table, 12)
        table = written.state
        if written.output:
            keeper = answer(call_report, b'', written.output, keeper, 0).state
    return tuple(numbers_in(missed.said)), table, keeper


def outcome_bytes(told):
    outcome, action, rule, slot, evicted = told
    return bytes([outcome, 0]) + b''.join(n.to_bytes(2, 'big') for n in (action, rule, slot, evicted)) + b'\0\0'


def advanced(totals, outcomes):
    count = lambda *kinds: sum(told[0] in kinds for told in outcomes)
    return Totals(totals.packets + len(outcomes), totals.hits + count(1), totals.misses + count(2, 3, 4, 5), totals.none + count(0),
                  totals.evictions + count(3))


def accepted_run(policy, trace, table, keeper, totals, room):
    """The keys of a run that is not refused."""
    accepted_policy(policy)
    keys = accepted_trace(trace)
    accepted_end(table)
    accepted_end(keeper)
    refuse_if(len(table) != len(keeper), 12)
    refuse_if(max(totals) > MOST_TOTAL, 13)
    refuse_if(room < OUTCOME * len(keys), 5)
    return keys


def run(policy, trace, table, keeper, totals, room):
    try:
        keys = accepted_run(policy, trace, table, keeper, totals, room)
    except Stop as stop:
        refused = stop.args[0]
        return Run(f'refused {refused.number} {refused.place}', table, keeper, totals, [])
    outcomes = []
    for key in keys:
        told, table, keeper = one_packet(policy, key, table, keeper)
        outcomes.append(told)
    return Run(f'packets {len(keys)}', table, keeper, advanced(totals, outcomes), outcomes)
