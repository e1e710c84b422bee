"""Questions to a policy, with the answers that a plain reading of the rules gives.

Two files ask them: policies.bin, in which each policy is a part, and cases.bin, a record for each question:
question 1, label's length 1, key's length 1, zero 1, then five numbers of four bytes: where the policy begins and how long it is, the rule
number, the output's length (the other rule's number where the question is whether two overlap), zero; then the label and the key.
"""
from policies import OVERLAPS, PARTED, POLICY, SMALL, V2, V3, V4, V4_ONE_FIELD, V5, V6, V7, V8, V9, fields, key, to_v6, top
from questions import Questions
from rules import KEY, RULE, Refused, Rule, call_best, call_check, call_cover, call_isolate, call_record
from rules import matches, overlap, policy_bytes, read_policy, rule_bytes

CHECK, BEST, RECORD, COVER, ISOLATE, OVERLAP, MATCH = range(1, 8)

# a rule whose last spare byte is not zero
FLAWED = rule_bytes(SMALL[1], spare=1)


def said(answer):
    if isinstance(answer, Refused):
        return f'refused {answer.number} {answer.place}'
    return None


def line(question, data, key_, number, room):
    if question == CHECK:
        answer = call_check(data)
        return said(answer) or f'rules {answer}'
    if question == BEST:
        answer = call_best(data, key_)
        return said(answer) or ('none' if answer is None else f'rule {answer[0]} action {answer[1]}')
    if question == RECORD:
        answer = call_record(data, number)
        return said(answer) or answer.hex()
    if question == COVER:
        answer = call_cover(data, number, room)
        return said(answer) or ' '.join(['covers'] + [str(i) for i in answer])
    if question == OVERLAP:
        policy = read_policy(data)
        return 'overlap' if overlap(policy[number], policy[room]) else 'apart'
    if question == MATCH:
        rule = read_policy(data)[number]
        exact = bin(rule.mask).count('1')
        return f'{"matches" if matches(rule, int.from_bytes(key_, "big")) else "differs"} exact {exact} wildcards {8 * KEY - exact}'
    answer = call_isolate(data, key_, number)
    return said(answer) or (f'value {answer.value.to_bytes(KEY, "big").hex()} mask {answer.mask.to_bytes(KEY, "big").hex()}'
                            f' fixed {answer.fixed} wildcards {answer.wildcards}')


class Cases(Questions):
    def ask(self, label, question, data, key_=b'', number=0, room=4096):
        self.add([question, len(label), len(key_), 0], self.places(data) + [number, room, 0], label, key_)
        self.text += f'{label} {line(question, data, key_, number, room)}\n'

    def ask_all(self, name, policy, keys):
        """The check, every cover list, and for each key its best rule, isolated."""
        data = policy_bytes(policy)
        self.ask(f'{name}.check', CHECK, data)
        for i in range(len(policy)):
            self.ask(f'{name}.cover.{i}', COVER, data, number=i)
        for text, k in keys:
            self.ask(f'{name}.best.{text}', BEST, data, k)
            found = call_best(data, k)
            if found is not None:
                self.ask(f'{name}.isolate.{text}', ISOLATE, data, k, found[0])


def shown(*texts):
    return [(text, key(text)) for text in texts]


def vectors(cases):
    cases.ask_all('small', SMALL, shown('1111', '1010', '0000', '1000'))
    cases.ask_all('V1.lap', OVERLAPS, shown('011', '010', '111'))
    cases.ask_all('V1.part', PARTED, shown('100', '010'))
    cases.ask('V1.b', OVERLAP, policy_bytes(OVERLAPS), number=0, room=1)
    cases.ask('V1.c', OVERLAP, policy_bytes(PARTED), number=0, room=1)
    cases.ask_all('V2', V2, shown('010011', '000011', '000111', '010111', '011011', '001011', '001101', '001111', '011111', '111111'))
    cases.ask_all('V3', V3, shown('100', '010', '001', '101', '111'))
    cases.ask_all('V4', V4, shown('010011111'))
    cases.ask_all('V4.one', V4_ONE_FIELD, shown('010011111'))
    cases.ask_all('V5', V5, shown('000', '001', '010', '011', '100', '101', '110', '111'))
    cases.ask_all('V6', V6, [('R3', to_v6(69, 7, 6, 80)), ('R6', to_v6(67, 7, 6, 80)), ('R8', to_v6(100, 7, 17, 80)),
                             ('R1', to_v6(64, 1, 6, 179)), ('R6b', to_v6(64, 1, 17, 646)),
                             ('none', fields('10.0.0.1', '111.222.0.1', 1024, 80, 6))])
    cases.ask_all('V7', V7, [(f'{s}-{d}', fields(s, d, 0, 0, 0)) for s, d in
                             [('1.0.0.9', '2.0.0.3'), ('9.0.0.9', '2.0.0.1'), ('9.0.0.9', '2.0.0.2'), ('1.0.0.9', '2.0.0.1')]])
    cases.ask_all('V8', V8, shown('000100', '011100', '010000', '001000', '100000', '010001', '010011', '110111', '100100', '111000',
                                  '011000', '000010'))
    cases.ask_all('V9', V9, shown('110000', '110011', '000000', '100000', '001100', '110110', '111010', '000100'))


def patterns(cases):
    """Each rule against each key, and its bits counted."""
    for name, policy, keys in [('small', SMALL, shown('1111', '1010', '0000', '1000')), ('V9', V9, shown('110000', '000100')),
                               ('V6', V6, [('R3', to_v6(69, 7, 6, 80)), ('R1', to_v6(64, 1, 6, 179))])]:
        for i in range(len(policy)):
            for text, k in keys:
                cases.ask(f'{name}.match.{i}.{text}', MATCH, policy_bytes(policy), k, i)


def edges(cases):
    exact = Rule((1 << 8 * KEY) - 1, (1 << 8 * KEY) - 1, 65535, 65535)
    odd = [top('1', 0, 0), top('1', 0, 65535), top('', 65535, 0), top('0', 65535, 1), exact]
    cases.ask_all('odd', odd, shown('1', '0') + [('ones', b'\xff' * KEY)])
    cases.ask('none.check', CHECK, b'')
    cases.ask('none.best', BEST, b'', key('0000'))
    cases.ask_all('one', [top('1', 5, 6)], shown('1', '0'))
    # 1,025 rules, 1,024 of them for one value of the first ten bits each, between two flawed ones
    many = policy_bytes([top(f'{i % 1024:010b}', 1000 + i, i) for i in range(1025)])
    cases.place(FLAWED + many + FLAWED + b'\0')
    full = many[:1024 * RULE]
    cases.ask('full.check', CHECK, full)
    for i in (0, 511, 1023):
        cases.ask(f'full.best.{i}', BEST, full, key(f'{i:010b}'))
        cases.ask(f'full.record.{i}', RECORD, full, number=i)
    cases.ask('full.record.1024', RECORD, full, number=1024)
    cases.ask('many.check', CHECK, many)
    # 1,024 rules that match every key: the last has 1,023 dependents
    all_match = policy_bytes([top('', 2000 - i, i) for i in range(1023)] + [top('', 0, 9)])
    cases.ask('laps.best', BEST, all_match, key('0'))
    cases.ask('laps.cover.1023', COVER, all_match, number=1023)
    cases.ask('laps.short', COVER, all_match, number=1023, room=2045)
    cases.ask('laps.room', COVER, all_match, number=1023, room=2046)
    for name, data in [('ragged.many', many + FLAWED + b'\0'), ('many.flawed', FLAWED + full), ('last', many[2 * RULE:] + FLAWED)]:
        cases.ask(f'refuse.{name}', CHECK, data)


def refusals(cases):
    good = POLICY
    wide = b'\0' * 12
    spare = FLAWED
    spare_first = rule_bytes(SMALL[1], spare=256)
    strayed = SMALL[1]._replace(value=SMALL[1].value | 1)
    stray, both = rule_bytes(strayed), rule_bytes(strayed, spare=1)
    ok = rule_bytes(SMALL[0])
    for name, data in [('ragged', good + b'\0'), ('spare', ok + spare), ('spare.first', spare_first + ok), ('stray', ok + ok + stray + ok),
                       ('stray.spare', ok + stray + spare), ('spare.stray', ok + spare + stray), ('both', ok + both + ok)]:
        cases.ask(f'refuse.{name}', CHECK, data)
    bad = ok + spare
    cases.ask('refuse.best.key', BEST, good, wide)
    cases.ask('refuse.best.long', BEST, good, wide + b'\0\0')
    cases.ask('refuse.best.both', BEST, bad, wide)
    cases.ask('refuse.record', RECORD, good, number=3)
    cases.ask('refuse.record.far', RECORD, good, number=65536)
    cases.ask('refuse.record.both', RECORD, bad, number=9)
    cases.ask('record.0', RECORD, good, number=0)
    cases.ask('record.2', RECORD, good, number=2)
    cases.ask('refuse.cover', COVER, good, number=3)
    cases.ask('refuse.cover.both', COVER, good, number=3, room=0)
    cases.ask('refuse.cover.room', COVER, good, number=2, room=3)
    cases.ask('cover.room', COVER, good, number=2, room=4)
    cases.ask('cover.none', COVER, good, number=0, room=0)
    cases.ask('refuse.isolate.policy', ISOLATE, bad, wide, 9)
    cases.ask('refuse.isolate.key', ISOLATE, good, wide, 9)
    cases.ask('refuse.isolate.number', ISOLATE, good, key('1111'), 3)
    cases.ask('refuse.isolate.best', ISOLATE, good, key('1111'), 2)
    cases.ask('refuse.isolate.none', ISOLATE, rule_bytes(SMALL[0]), key('0000'), 0)


def make():
    """The files of the test program, by their paths in the repository."""
    cases = Cases()
    vectors(cases)
    patterns(cases)
    edges(cases)
    refusals(cases)
    return cases.files('test_policy', 'policies.bin')
