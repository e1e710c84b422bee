"""Runs of traces, with the answers that a plain reading of the rules gives.

Two files ask them: buffers.bin, in which each policy, trace, table, keeper and totals is a part, and cases.bin, a record for each run: zero 1,
label's length 1, zero 2, then ten numbers of four bytes: where the policy begins and how long it is, the same of the trace, the table and the
keeper, where the totals begin (five numbers of eight bytes), the output's length; then the label.
"""
from ends import EMPTY, LARGEST, MOST_SLOTS, NOTHING, Slot, end_bytes, size
from ends_cases import FILLER, FLAWED, slot
from policies import PAPER_TRACES, POLICY, PRINTED, key, packets
from questions import Questions
from runs import CLEARED, MOST_PACKETS, MOST_TOTAL, OUTCOME, PACKET, Totals, outcome_bytes, packet, run

SLOT = size(Slot)
TWO = end_bytes([EMPTY] * 2)


def changed(word, old, new):
    return ''.join(f' {word} {at // SLOT} {new[at:at + SLOT].hex()}' for at in range(0, len(old), SLOT) if new[at:at + SLOT] != old[at:at + SLOT])


class Cases(Questions):
    def run(self, label, trace, table=TWO, keeper=None, policy=POLICY, totals=CLEARED, room=None):
        """Asks one run, and gives what it comes to."""
        keeper = table if keeper is None else keeper
        room = OUTCOME * (len(trace) // PACKET) if room is None else room
        sums = b''.join(n.to_bytes(8, 'big') for n in totals)
        self.add([0, len(label), 0, 0], self.places(policy, trace, table, keeper) + [self.place(sums), room], label)
        ran = run(policy, trace, table, keeper, totals, room)
        gives = b''.join(map(outcome_bytes, ran.outcomes)).hex()
        self.text += (f'{label} {ran.said} totals {" ".join(map(str, ran.totals))} gives {gives}'
                      f'{changed("table", table, ran.table)}{changed("keeper", keeper, ran.keeper)}\n')
        return ran


def printed(cases):
    """The printed example, whole, and cut at every place: the second part goes on from what the first left."""
    whole = cases.run('printed', packets(*PRINTED))
    lines = [' '.join('-' if n == NOTHING and i > 1 else str(n) for i, n in enumerate(o)) for o in whole.outcomes]
    assert lines == ['2 9 2 0 -', '1 9 2 0 -', '2 8 1 1 -', '1 9 2 0 -', '3 7 0 1 1', '3 9 2 1 0'] and whole.totals == (6, 2, 4, 0, 2)
    for n in range(len(PRINTED) + 1):
        first = cases.run(f'cut.{n}.first', packets(*PRINTED[:n]))
        second = cases.run(f'cut.{n}.second', packets(*PRINTED[n:]), first.table, first.keeper, totals=first.totals)
        assert (second.table, second.keeper, second.totals, first.outcomes + second.outcomes) == whole[1:]


def papers(cases):
    """The papers' examples as traces."""
    ran = {name: cases.run(name, trace, end_bytes([EMPTY] * slots), policy=policy) for name, slots, policy, trace in PAPER_TRACES}
    assert ran['V2'].totals == (6, 2, 3, 1, 1) and ran['V5'].totals == (8, 2, 6, 0, 3)


def odd_states(cases):
    """Ends that did not grow from cleared ones."""
    hit = [slot(9, '1***', hits=4), EMPTY]
    ran = cases.run('hit.report.refused', packets('1111', '1111'), end_bytes(hit), end_bytes([slot(3, '0***'), EMPTY]))
    assert ran.keeper == end_bytes([slot(3, '0***'), EMPTY]) and ran.totals.hits == 2
    stray = end_bytes([slot(3, '10xx'), EMPTY])
    ran = cases.run('again.write.refused', packets('1010', '0000'), TWO, stray)
    assert [o[0] for o in ran.outcomes] == [5, 2] and ran.table[:SLOT] == TWO[:SLOT]
    cases.run('written.report.refused', packets('1111'), end_bytes([slot(9, '0***'), EMPTY]), TWO)
    cases.run('evicted.of.the.keeper', packets('1111'), end_bytes([slot(1, '0***', rule=77)]), end_bytes([slot(1, '00**', rule=55)]))
    cases.run('evicted.none', packets('1111'), end_bytes([slot(1, '0***')]), end_bytes([slot(1, '00**', rule=NOTHING)]))
    cases.run('used.up', packets('1111', '0000', '1010'), end_bytes([EMPTY] * 2), end_bytes([slot(LARGEST, '0***'), EMPTY]))
    cases.run('last.sequence', packets('1111', '1010'), TWO, end_bytes([slot(LARGEST - 1, '0***'), EMPTY]))
    cases.run('hits.stay', packets('1111'), end_bytes([slot(2, '1***', hits=LARGEST)]))


def lengths(cases):
    """No packets, as many as a run may have, no rule at all, 256 slots."""
    cases.run('none', b'', room=0)
    cases.run('none.with.room', b'', room=24)
    cases.run('room.over', packets('1111'), room=20)
    most = packets(*(f'{i % 7:03b}{i % 5:03b}' for i in range(MOST_PACKETS)))
    cases.run('most', most, end_bytes([EMPTY] * 3))
    cases.run('most.one.more', most + packets('1'), end_bytes([EMPTY] * 3), room=OUTCOME * MOST_PACKETS)
    cases.run('empty.policy', packets('1111', '0000'), policy=b'')
    cases.run('slots.256', packets('1111', '0000', '1010'), end_bytes([EMPTY] * MOST_SLOTS))


def totals(cases):
    """Totals go on from what they were; at the limit a run is taken, and one above it is refused, also for an empty trace."""
    cases.run('totals.go.on', packets(*PRINTED), totals=Totals(10, 20, 30, 40, 50))
    for n in range(5):
        at = Totals(*(MOST_TOTAL if i == n else 7 for i in range(5)))
        cases.run(f'totals.limit.{n}', packets('1111', '1111'), totals=at)
        above = Totals(*(MOST_TOTAL + 1 if i == n else 7 for i in range(5)))
        cases.run(f'totals.above.{n}', packets('1111'), totals=above)
        cases.run(f'totals.above.{n}.none', b'', totals=above)
    cases.run('totals.most', b'', totals=Totals(*[2 ** 64 - 1] * 5))


FULL = Totals(MOST_TOTAL + 1, 0, 0, 0, 0)
# what is wrong, by number, in the order of the rules
FAULTS = [('policy.1', dict(policy=POLICY + b'\0')), ('policy.2', dict(policy=(FILLER + POLICY)[-1025 * 32:])),
          ('policy.3', dict(policy=POLICY + FLAWED)), ('trace.1', dict(trace=packets('1111') + b'\0')),
          ('trace.2', dict(trace=packets('1111') * (MOST_PACKETS + 1))), ('trace.3', dict(trace=packets('1111') + packet(key('1'), b'\0\0\1'))),
          ('table.4', dict(table=TWO[:-1])), ('keeper.4', dict(keeper=TWO + b'\0')), ('12', dict(keeper=end_bytes([EMPTY] * 3))),
          ('13', dict(totals=FULL)), ('5', dict(room=11))]


def refusals(cases):
    """Each alone, and the first of every two."""
    good = dict(trace=packets('1111'), table=TWO, keeper=TWO, policy=POLICY, totals=CLEARED, room=12)
    for n, (number, fault) in enumerate(FAULTS):
        asked = lambda label, wrong: cases.run(f'refuse.{label}', **{**good, **wrong}).said.split()
        assert asked(number, fault)[:2] == ['refused', number.split('.')[-1]]
        for later, second in FAULTS[n + 1:]:
            if not set(fault) & set(second):
                assert asked(f'{number}.and.{later}', {**second, **fault})[1] == number.split('.')[-1]
    cases.run('refuse.place', packets('1', '0') + packet(key('1'), b'\0\1\0') + packet(key('1'), b'\1\0\0'))
    # several spare bytes of one packet, whose sum in one byte is zero
    cases.run('refuse.several', packets('1') + packet(key('1'), b'\x80\x40\x40') + packets('0'))
    cases.run('refuse.257.slots', packets('1'), end_bytes([EMPTY] * 257))
    cases.run('refuse.no.slots', packets('1'), b'')


def make():
    """The files of the test program, by their paths in the repository."""
    cases = Cases()
    # placed first, so that refused policies and traces are parts of them
    cases.place(FILLER + POLICY + FLAWED + b'\0')
    for ask in (refusals, printed, papers, odd_states, lengths, totals):
        ask(cases)
    return cases.files('test_run', 'buffers.bin')
