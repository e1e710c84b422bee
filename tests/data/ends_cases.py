"""Questions to the two ends, with the answers that a plain reading of the rules gives.

Two files ask them: buffers.bin, in which each policy, key, message, table and keeper is a part, and cases.bin, a record for each question:
call 1, label's length 1, zero 2, then seven numbers of four bytes: where the policy begins and how long it is, the same of the key or message
and of the table or keeper, the output's length; then the label. Every question stands alone: where calls follow each other, the later one's
parts are what this reading says of the earlier.
"""
from ends import EMPTY, IS_REPORT, IS_WRITE, LARGEST, MOST_SLOTS, NOTHING, Report, Slot, Write, answer
from ends import call_lookup, call_miss, call_open, call_report, call_show, call_write, encode, end_bytes, size
from policies import POLICY, PRINTED, SMALL, V4, key, row, top
from questions import Questions
from rules import policy_bytes, rule_bytes

CALLS = [call_lookup, call_write, call_miss, call_report, call_open, call_show]

# a rule that begins with a zero byte and whose last spare byte is not zero
FLAWED = rule_bytes(top('', 1, 1), spare=1)
# with the small policy's three, one rule more than a policy may have
FILLER = rule_bytes(top('', 0, 0)) * 1022
SLOT = size(Slot)
ROOM = 64                    # more than any answer but a long list


def line(answered, old):
    """What is said, each slot that changed, and what the output holds."""
    said = answered.said
    for at in range(0, len(old), SLOT):
        new = answered.state[at:at + SLOT]
        if new != old[at:at + SLOT]:
            said += f' slot {at // SLOT} {new.hex()}'
    return said + (f' gives {answered.output.hex()}' if answered.output else '')


class Cases(Questions):
    def __init__(self):
        super().__init__()
        self.labels = set()

    def ask(self, label, call, policy=b'', given=b'', state=b'', room=ROOM):
        """Asks one question, and gives its answer."""
        assert label not in self.labels
        self.labels.add(label)
        self.add([CALLS.index(call) + 1, len(label), 0, 0], self.places(policy, given, state) + [room], label)
        answered = answer(call, policy, given, state, room)
        self.text += f'{label} {line(answered, state)}\n'
        return answered

    def lookup(self, label, text, table, room=ROOM):
        return self.ask(label, call_lookup, given=key(text), state=end_bytes(table), room=room)

    def write(self, label, message, table, room=ROOM):
        return self.ask(label, call_write, given=encode(message), state=end_bytes(table), room=room)

    def miss(self, label, text, keeper, room=ROOM, policy=POLICY):
        return self.ask(label, call_miss, policy=policy, given=key(text), state=end_bytes(keeper), room=room)

    def report(self, label, message, keeper):
        return self.ask(label, call_report, given=encode(message), state=end_bytes(keeper))

    def open(self, label, keeper, room=ROOM):
        return self.ask(label, call_open, state=end_bytes(keeper), room=room)

    def show(self, label, text, table, policy=POLICY):
        return self.ask(label, call_show, policy=policy, given=key(text), state=end_bytes(table))


def slot(sequence, text, hits=0, action=9, rule=2, settled=0, spare=0):
    """A slot whose pattern's first positions are shown; an x is a value bit under a wildcard."""
    return Slot(sequence, hits, row(text, '1x'), row(text, '01'), action, rule, settled, spare)


def write(at, sequence, text, action=9, rule=2, kind=IS_WRITE, zero=0, spare=0):
    return Write(kind, zero, at, sequence, row(text, '1x'), row(text, '01'), action, rule, spare)


def report(at, sequence, hits=0, kind=IS_REPORT, zero=0):
    return Report(kind, zero, at, sequence, hits)


# as many slots as an end may have, all open, the last with the fewest hits
FULL = [slot(i + 1, f'0{i:08b}', hits=MOST_SLOTS - i, action=i, rule=i) for i in range(MOST_SLOTS)]


# ---- calls that follow each other

def printed_run(cases):
    """The printed example, call by call, with the open list after each."""
    table = keeper = end_bytes([EMPTY] * 2)
    told = []
    for n, text in enumerate(PRINTED):
        name = f'run.{n}.{text}'
        cases.ask(f'{name}.show', call_show, policy=POLICY, given=key(text), state=table)
        hit = cases.ask(f'{name}.lookup', call_lookup, given=key(text), state=table)
        table, message = hit.state, hit.output
        told.append(hit.said)
        if hit.said == 'miss':
            missed = cases.ask(f'{name}.miss', call_miss, policy=POLICY, given=key(text), state=keeper)
            keeper, told[n] = missed.state, missed.said
            cases.ask(f'{name}.open', call_open, state=keeper)
            written = cases.ask(f'{name}.write', call_write, given=missed.output, state=table)
            table, message = written.state, written.output
        keeper = cases.ask(f'{name}.report', call_report, given=message, state=keeper).state
        cases.ask(f'{name}.settled', call_open, state=keeper)
    assert told == ['outcome 2 action 9 rule 2 slot 0 evicted 65535', 'hit 0 rule 2 action 9', 'outcome 2 action 8 rule 1 slot 1 evicted 65535',
                    'hit 0 rule 2 action 9', 'outcome 3 action 7 rule 0 slot 1 evicted 1', 'outcome 3 action 9 rule 2 slot 1 evicted 0']


def two_writes(cases):
    """One slot, misses 1010 then 1111; the writes arrive in reverse, then in order with the first report late."""
    first = cases.ask('two.miss.1010', call_miss, policy=POLICY, given=key('1010'), state=encode(EMPTY))
    second = cases.ask('two.miss.1111', call_miss, policy=POLICY, given=key('1111'), state=first.state)
    keeper, cleared = second.state, encode(EMPTY)
    newer = cases.ask('reverse.write.2', call_write, given=second.output, state=cleared)
    older = cases.ask('reverse.write.1', call_write, given=first.output, state=newer.state)
    assert older.state == newer.state and older.output == newer.output
    cases.ask('reverse.open', call_open, state=keeper)
    settled = cases.ask('reverse.report.2', call_report, given=newer.output, state=keeper)
    cases.ask('reverse.settled', call_open, state=settled.state)
    cases.ask('reverse.report.again', call_report, given=older.output, state=settled.state)
    cases.ask('reverse.lookup.1111', call_lookup, given=key('1111'), state=older.state)
    cases.ask('reverse.lookup.1010', call_lookup, given=key('1010'), state=older.state)
    early = cases.ask('order.write.1', call_write, given=first.output, state=cleared)
    late = cases.ask('order.write.2', call_write, given=second.output, state=early.state)
    stays = cases.ask('order.report.1', call_report, given=early.output, state=keeper)
    assert stays.state == keeper
    cases.ask('order.open', call_open, state=stays.state)
    settled = cases.ask('order.report.2', call_report, given=late.output, state=keeper)
    cases.ask('order.report.late', call_report, given=early.output, state=settled.state)
    again = cases.ask('again.miss.1111', call_miss, policy=POLICY, given=key('1111'), state=keeper)
    assert again.output == second.output
    cases.ask('again.miss.settled', call_miss, policy=POLICY, given=key('1111'), state=settled.state)


# ---- the edges of each call

def lookups(cases):
    two = [slot(5, '1***', hits=3, action=8, rule=1), slot(4, '1111', hits=9)]
    cases.lookup('lookup.lowest', '1111', two)
    cases.lookup('lookup.second', '1111', [slot(7, '0***')] + two[1:])
    cases.lookup('lookup.miss', '0000', two)
    cases.lookup('lookup.miss.no.room', '0000', two, room=0)
    cases.lookup('lookup.exact.room', '1111', two, room=12)
    cases.lookup('lookup.short', '1111', two, room=11)
    cases.lookup('lookup.no.room', '1111', two, room=0)
    for name, hits in [('last', LARGEST - 1), ('stays', LARGEST), ('carry', 255), ('carry2', 65535)]:
        cases.lookup(f'lookup.hits.{name}', '1', [slot(1, '1', hits=hits)])
    cases.lookup('lookup.sequence', '1', [slot(LARGEST, '1')])
    cases.lookup('lookup.settled', '1', [slot(3, '1', settled=1, spare=7)])
    cases.lookup('lookup.empty', '1', [slot(0, '1', hits=2, settled=3), slot(1, '1')])
    cases.lookup('lookup.only.empty', '1', [slot(0, '1', hits=2)])
    cases.lookup('lookup.stray', '1010', [slot(1, '10xx', action=NOTHING, rule=NOTHING)])
    cases.lookup('lookup.all', '0', [slot(1, '')])
    for i in (0, 128, 255):
        cases.lookup(f'lookup.full.{i}', f'0{i:08b}', FULL)


def writes(cases):
    held = [slot(1, '0***'), slot(5, '10**', hits=77, action=3, rule=4, settled=1, spare=9)]
    cases.write('write.newer', write(1, 6, '11**', action=7, rule=0), held)
    cases.write('write.equal', write(1, 5, '11**', action=7, rule=0), held)
    cases.write('write.older', write(1, 4, '11**', action=7, rule=0), held)
    cases.write('write.first', write(0, 2, '', action=NOTHING, rule=NOTHING), held)
    cases.write('write.exact.room', write(1, 6, '11**'), held, room=12)
    cases.write('write.short', write(1, 6, '11**'), held, room=11)
    cases.write('write.older.short', write(1, 4, '11**'), held, room=11)
    cases.write('write.largest', write(0, LARGEST, '1'), [slot(LARGEST - 1, '0')])
    cases.write('write.largest.again', write(0, LARGEST, '1'), [slot(LARGEST, '0', hits=LARGEST)])
    cases.write('write.before.largest', write(0, LARGEST - 1, '1'), [slot(LARGEST, '0')])
    cases.write('write.high.byte', write(0, 256, '1'), [slot(255, '0')])
    cases.write('write.low.byte', write(0, 255, '1'), [slot(256, '0')])
    cases.write('write.to.empty', write(0, 1, '1'), [slot(0, '0xx', hits=6, settled=1, spare=1)])
    cases.write('write.full.255', write(255, 257, '1'), FULL)
    cases.write('write.full.256', write(256, 257, '1'), FULL)
    cases.write('write.far.slot', write(65535, 257, '1'), held)
    # the write of a slot with value bits under wildcards is given again as it is, and refused
    odd = cases.miss('odd.miss.stray', '1010', [slot(3, '10xx')])
    cases.ask('odd.write.stray', call_write, given=odd.output, state=encode(EMPTY))


def misses(cases):
    near, last = LARGEST - 1, LARGEST
    cases.miss('miss.near.empty', '1111', [slot(near, '0***'), EMPTY])
    cases.miss('miss.near.over', '1111', [slot(near, '0***', settled=1)])
    cases.miss('miss.last', '1111', [slot(last, '0***')])
    cases.miss('miss.last.empty', '1010', [EMPTY, slot(last, '0***')])
    cases.miss('miss.last.second', '1000', [slot(1, '0***'), slot(last, '11**')])
    cases.miss('miss.last.no.room', '1111', [slot(last, '0***')], room=0)
    cases.miss('miss.last.again', '0000', [EMPTY, slot(last, '0***')])
    cases.miss('miss.none', '0000', [EMPTY], policy=policy_bytes(SMALL[:1]))
    cases.miss('miss.none.no.room', '0000', [EMPTY], policy=policy_bytes(SMALL[:1]), room=0)
    cases.miss('miss.none.matched', '0000', [slot(1, '0***')], policy=policy_bytes(SMALL[:1]))
    cases.miss('miss.none.last', '0000', [slot(last, '0***')], policy=policy_bytes(SMALL[:1]))
    cases.miss('miss.empty.policy', '0000', [EMPTY], policy=b'')
    # room for the write
    over = [slot(4, '0***')]
    for name, text, keeper in [('empty', '1111', [EMPTY]), ('over', '1111', over), ('again', '0000', over)]:
        cases.miss(f'miss.{name}.exact.room', text, keeper, room=40)
        cases.miss(f'miss.{name}.short', text, keeper, room=39)
        cases.miss(f'miss.{name}.no.room', text, keeper, room=0)
    # the slot given up
    for name, numbers in [('fewest', [(9, 1), (3, 9), (5, 2)]), ('fewest.first', [(0, 9), (3, 1), (1, 2)]),
                          ('fewest.last', [(9, 1), (8, 2), (7, 3)]),
                          ('sequence', [(2, 7), (2, 5), (2, 6)]), ('sequence.last', [(2, 7), (2, 6), (2, 5)]), ('lowest', [(2, 5), (2, 5), (2, 5)]),
                          ('lowest.later', [(3, 4), (2, 5), (2, 5)]), ('bytes', [(256, 1), (255, 65536), (65535, 2)]),
                          ('most', [(LARGEST, 3), (LARGEST, 2), (LARGEST, 4)]), ('unsettled', [(1, 3), (1, 2), (2, 1)])]:
        keeper = [slot(sequence, f'0{i:03b}', hits=hits, rule=100 + i, settled=0 if i == 1 else 1) for i, (hits, sequence) in enumerate(numbers)]
        cases.miss(f'evict.{name}', '1111', keeper)
    # empty slots: the lowest, whatever they hold; sequences are not those of empty ones
    cases.miss('room.lowest.empty', '1010', [slot(8, '0***', hits=0), slot(0, '1010', hits=5, action=6, rule=6, settled=2, spare=3), EMPTY])
    cases.miss('room.only.empty', '1010', [slot(0, '1010', hits=LARGEST)])
    # slots that match
    cases.miss('again.lowest', '0000', [slot(3, '1***'), slot(2, '0***', hits=4, settled=1), slot(9, '00**')])
    cases.miss('again.other.rule', '1111', [slot(2, '1***', action=55, rule=1023)])
    cases.miss('again.rule.none', '1111', [slot(2, '1***', action=NOTHING, rule=NOTHING)])
    cases.miss('odd.evicted.none', '1111', [slot(2, '0***', rule=NOTHING)])
    cases.miss('odd.evicted.far', '1111', [slot(2, '0***', rule=1024)])
    # what is written
    for text in ('1000', '1001', '0111', '1011', '1101'):
        cases.miss(f'written.{text}', text, [EMPTY])
    # two bits fixed, both to 1, the lower of two positions on a tie; a rule with exact zeros that does not match; two rules of one priority
    cases.miss('written.V4', '010011111', [EMPTY], policy=policy_bytes(V4))
    cases.miss('written.V4.none', '110011111', [EMPTY], policy=policy_bytes(V4))
    cases.miss('written.first.of.two', '1', [EMPTY], policy=policy_bytes([top('1', 5, 1), top('1', 5, 2)]))
    cases.miss('written.1024.rules', '1010', [EMPTY], policy=(FILLER + POLICY)[len(FLAWED):])
    cases.miss('miss.full', '1111', FULL)
    cases.miss('miss.full.again', '0' + '1' * 8, FULL)
    cases.miss('miss.full.empty', '1111', FULL[:-1] + [EMPTY])


def reports(cases):
    held = [slot(3, '0***', hits=10), slot(5, '1***', hits=20, action=3, rule=4, settled=2, spare=9)]
    for name, message in [('equal', report(1, 5, 20)), ('more', report(1, 5, 21)), ('fewer', report(1, 5, 19)), ('zero', report(1, 5, 0)),
                          ('most', report(1, 5, LARGEST)), ('older', report(1, 4, 30)), ('oldest', report(1, 1, 30)), ('first', report(0, 3, 256)),
                          ('ahead', report(1, 6, 30)), ('ahead.other', report(0, 5, 30)), ('ahead.most', report(1, LARGEST, 0))]:
        cases.report(f'report.{name}', message, held)
    cases.report('report.settled', report(0, 3, 2), [slot(3, '0***', hits=1, settled=1)])
    cases.report('report.older.settled', report(0, 2, 9), [slot(3, '0***', hits=1, settled=1)])
    cases.report('report.empty', report(0, 1), [slot(0, '0***', settled=2)])
    cases.report('report.largest', report(0, LARGEST, 1), [slot(LARGEST, '0***')])
    cases.report('report.before.largest', report(0, LARGEST - 1, 1), [slot(LARGEST, '0***')])
    cases.report('report.odd', report(0, 3, 1), [slot(3, '0xxx', rule=NOTHING, settled=255, spare=255)])
    cases.report('report.full.255', report(255, 256, 9), FULL)
    cases.report('report.full.256', report(256, 256, 9), FULL)


def opens(cases):
    marks = [slot(1, '1', settled=mark) for mark in (0, 1, 2, 255, 1)]
    marks += [slot(0, '1', settled=0), slot(0, '1', settled=2), slot(LARGEST, '1', spare=1)]
    cases.open('open.marks', marks)
    cases.open('open.exact.room', marks, room=8)
    cases.open('open.short', marks, room=7)
    cases.open('open.no.room', marks, room=0)
    cases.open('open.none', [EMPTY] * 3, room=0)
    cases.open('open.all.settled', [slot(1, '1', settled=1)] * 3, room=0)
    cases.open('open.one', [EMPTY, slot(256, '1')], room=2)
    cases.open('open.one.short', [EMPTY, slot(256, '1')], room=1)
    cases.open('open.full', FULL, room=600)
    cases.open('open.full.exact.room', FULL, room=512)
    cases.open('open.full.short', FULL, room=511)
    cases.open('open.cleared.256', [EMPTY] * MOST_SLOTS, room=0)


def shows(cases):
    two = [slot(5, '1***', hits=3, action=8, rule=1), slot(4, '1111', hits=9)]
    cases.show('show.lowest', '1111', two)
    cases.show('show.rule', '0000', two)
    cases.show('show.rule.0', '1111', [EMPTY] * 2)
    cases.show('show.rule.1', '1010', [slot(0, '1010')])
    cases.show('show.none', '0000', [EMPTY], policy=policy_bytes(SMALL[:1]))
    cases.show('show.none.hit', '0000', [slot(1, '0***')], policy=policy_bytes(SMALL[:1]))
    cases.show('show.empty.policy', '0000', [EMPTY], policy=b'')
    cases.show('show.empty.policy.hit', '0000', [EMPTY, slot(1, '')], policy=b'')
    cases.show('show.odd', '1010', [EMPTY, slot(1, '10xx', hits=LARGEST, action=NOTHING, rule=NOTHING, settled=2, spare=3)])
    cases.show('show.full.0', '0' * 9, FULL)
    cases.show('show.full.255', '0' + '1' * 8, FULL)
    cases.show('show.1024.rules', '1010', [EMPTY], policy=(FILLER + POLICY)[len(FLAWED):])


# ---- refusals: each alone, and the first of every two

def with_bytes(at, *values):
    """Puts these bytes into the key or message."""
    return lambda q: q.update(given=q['given'][:at] + bytes(values) + q['given'][at + len(values):])


def long_message(q):
    q.update(given=q['given'] + b'\0')


def short_message(q):
    q.update(given=q['given'][:-1])


def no_message(q):
    q.update(given=b'')


def ends_of(length):
    """A table or keeper of that many bytes, whose whole slots are taken and open."""
    return lambda q: q.update(state=end_bytes(FULL + [slot(MOST_SLOTS + 1, '1')])[:length])


def less_room(q):
    q.update(room=q['room'] - 1)


def ragged_policy(q):
    q.update(policy=q['policy'] + b'\0')


def long_policy(q):
    rules = FILLER + q['policy']
    q.update(policy=rules[-1025 * len(FLAWED):])


def flawed_policy(q):
    q.update(policy=q['policy'] + FLAWED)


TWO = end_bytes([slot(2, '0***'), slot(3, '1***')])
POLICY_FAULTS = [('policy.1', ragged_policy), ('policy.2', long_policy), ('policy.3', flawed_policy), ('key.1', short_message)]
END_FAULTS = [('4', ends_of(40 * (MOST_SLOTS + 1)))]
MESSAGE_FAULTS = [('1', short_message), ('8', with_bytes(0, 3)), ('3', with_bytes(1, 1)), ('9', with_bytes(2, 1)), ('10', with_bytes(4, 0, 0, 0, 0))]

OTHER_KEYS = [('key.1.long', long_message), ('key.1.none', no_message)]

# of each call: a question that is not refused, its faults in the order of the rules, and other forms of one of them
REFUSALS = [
    ('lookup', call_lookup, dict(given=key('1111'), state=TWO, room=12), [('key.1', short_message)] + END_FAULTS + [('5', less_room)],
     OTHER_KEYS),
    ('write', call_write, dict(given=encode(write(1, 4, '11**')), state=TWO, room=12), END_FAULTS + MESSAGE_FAULTS + [('5', less_room)],
     [('1.long', long_message), ('1.none', no_message), ('8.report', with_bytes(0, IS_REPORT)), ('8.zero', with_bytes(0, 0)),
      ('3.byte.38', with_bytes(38, 1)), ('3.byte.39', with_bytes(39, 128)), ('3.stray', with_bytes(8, 224)), ('3.stray.last', with_bytes(20, 1)),
      ('9.next', with_bytes(2, 0, 2))]),
    ('miss', call_miss, dict(policy=POLICY, given=key('1111'), state=end_bytes([slot(2, '0***'), EMPTY]), room=40),
     POLICY_FAULTS + END_FAULTS + [('5', less_room)],
     OTHER_KEYS),
    ('report', call_report, dict(given=encode(report(1, 3, 7)), state=TWO, room=0),
     END_FAULTS + MESSAGE_FAULTS + [('11', with_bytes(4, 0, 0, 0, 4))],
     [('1.long', long_message), ('1.none', no_message), ('8.write', with_bytes(0, IS_WRITE)), ('9.next', with_bytes(2, 0, 2))]),
    ('open', call_open, dict(state=TWO, room=4), END_FAULTS + [('5', less_room)], []),
    ('show', call_show, dict(policy=POLICY, given=key('1111'), state=TWO, room=0), POLICY_FAULTS + END_FAULTS, OTHER_KEYS)]
LENGTHS = [('none', 0), ('39', 39), ('41', 41), ('79', 79), ('10241', 40 * MOST_SLOTS + 1)]


def faulty(question, *faults):
    changed = dict(question)
    for fault in faults:
        fault(changed)
    return changed


def refusals(cases):
    # placed first, so that the refused policies are parts of it
    cases.place(FILLER + POLICY + FLAWED + b'\0')
    for name, call, question, faults, others in REFUSALS:
        asked = lambda label, *wrong: cases.ask(f'refuse.{name}{label}', call, **faulty(question, *wrong))
        assert not asked('.not').said.startswith('refused')
        for n, (number, fault) in enumerate(faults):
            assert asked(f'.{number}', fault).said.split()[1] == number.split('.')[-1]
            for later, second in faults[n + 1:]:
                if (number, later) != ('10', '11'):
                    assert asked(f'.{number}.and.{later}', second, fault).said.split()[1] == number.split('.')[-1]
        for label, fault in others:
            assert asked(f'.{label}', fault).said.startswith('refused')
        for label, length in LENGTHS:
            assert asked(f'.4.{label}', ends_of(length)).said == 'refused 4 0'


def make():
    """The files of the test program, by their paths in the repository."""
    cases = Cases()
    for ask in (refusals, printed_run, two_writes, lookups, writes, misses, reports, opens, shows):
        ask(cases)
    return cases.files('test_ends', 'buffers.bin')
