"""A plain reading of docs/RULES.md on the program, for making test data: what it prints of the bytes of its three files."""
from ends import EMPTY, MOST_SLOTS, NOTHING, Stop, end_bytes, refuse_if
from runs import CLEARED, MOST_PACKETS, OUTCOME, run

MOST_POLICY_BYTES, MOST_TRACE_BYTES = 32768, 65536


def slot_count(text):
    """The number that slots.txt gives; 4 where it gives none."""
    counts = {f'{n}\n'.encode(): n for n in range(1, MOST_SLOTS + 1)}
    refuse_if(text not in counts, 4)
    return counts[text]


def line(numbers):
    return ' '.join(map(str, numbers)) + '\n'


def dashed(told):
    """An outcome's numbers, with a dash for no rule, no slot and no evicted rule; an action is always a number."""
    return told[:2] + tuple('-' if n == NOTHING else n for n in told[2:])


def printed(slots, policy, trace):
    try:
        count = slot_count(slots)
        refuse_if(len(policy) > MOST_POLICY_BYTES, 2)
        refuse_if(len(trace) > MOST_TRACE_BYTES, 2)
    except Stop as stop:
        return f'refused {stop.args[0].number} {stop.args[0].place}\n'
    cleared = end_bytes([EMPTY] * count)
    ran = run(policy, trace, cleared, cleared, CLEARED, OUTCOME * MOST_PACKETS)
    if ran.said.startswith('refused'):
        return ran.said + '\n'
    return ''.join(line(dashed(told)) for told in ran.outcomes) + line(ran.totals)
