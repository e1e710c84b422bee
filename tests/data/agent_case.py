"""What examples/agent.c prints, by a plain reading of the rules: its policy and its packets, told again here.

The third packet's write is lost; every other message is delivered at once.
"""
from ends import EMPTY, answer, call_lookup, call_miss, call_open, call_report, call_show, call_write, end_bytes
from policies import fields, tuple_rule
from rules import policy_bytes
from runs import numbers_in

RULES = [tuple_rule(30, dport=22, protocol=6, action=1), tuple_rule(20, dst=('10.1.0.0', 16), action=2), tuple_rule(10, action=3)]
POLICY = policy_bytes(RULES)
PACKETS = [fields('10.9.9.9', '10.1.0.5', 51201, 80, 6), fields('10.9.9.8', '10.1.7.7', 51202, 80, 6), fields('10.9.9.9', '10.1.0.5', 51203, 22, 6),
           fields('10.9.9.9', '10.1.0.5', 51203, 22, 6), fields('10.9.9.9', '192.0.2.1', 51204, 53, 17)]
LOST = 2                     # the packet whose write is lost
AGAIN = 5                    # the outcome of a write that is given again
ROOM = 64                    # more than any answer


def asked(call, given, state):
    told = answer(call, POLICY, given, state, ROOM)
    assert not told.said.startswith('refused')
    return told


def packet(key, table, keeper, lost):
    """What is printed of a packet, and both ends after it."""
    looked = asked(call_lookup, key, table)
    if looked.said != 'miss':
        slot, rule, action = numbers_in(looked.said)
        return f'hit, rule {rule}, action {action}', looked.state, asked(call_report, looked.output, keeper).state
    missed = asked(call_miss, key, keeper)
    outcome, action, rule, slot, evicted = numbers_in(missed.said)
    line = f'miss, rule {rule}, action {action}' + (', written again' if outcome == AGAIN else ', write lost' if lost else '')
    if lost:
        return line, table, missed.state
    written = asked(call_write, missed.output, table)
    return line, written.state, asked(call_report, written.output, missed.state).state


def console(key, table, keeper):
    """What decides for the key, and which slots are open."""
    shown, opened = asked(call_show, key, table), asked(call_open, b'', keeper)
    number, = numbers_in(shown.said)
    if shown.said.startswith('from table'):
        decided = f'slot {number}, of rule {int.from_bytes(shown.output[36:38], "big")}'
    else:
        decided = f'rule {number}, priority {RULES[number].priority}'
    listed = [int.from_bytes(opened.output[at:at + 2], 'big') for at in range(0, len(opened.output), 2)]
    return f'  decided by {decided}; open slots: {" ".join(map(str, listed)) or "none"}'


def make():
    table = keeper = end_bytes([EMPTY] * 2)
    text = ''
    for n, key in enumerate(PACKETS):
        line, table, keeper = packet(key, table, keeper, n == LOST)
        text += f'{line}\n{console(key, table, keeper)}\n'
    return {'examples/agent.expected': text.encode()}
