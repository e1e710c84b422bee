"""The files of the programs that replay, and cases for what they print, with what a plain reading of the rules prints.

Two files ask the cases: parts.bin, in which each slots.txt, policy.bin and trace.bin is a part, and cases.bin, a record for each case: label's
length 1, zero 3, then six numbers of four bytes: where slots.txt begins and how long it is, and the same of policy.bin and trace.bin; then the
label.
"""
from policies import PAPER_TRACES, POLICY, PRINTED, SMALL, packets, top
from policy_cases import FLAWED
from program import MOST_POLICY_BYTES, MOST_TRACE_BYTES, printed
from questions import Questions
from rules import policy_bytes, rule_bytes

# a rule with a value bit under a wildcard
STRAY = rule_bytes(SMALL[0]._replace(value=SMALL[0].value | 1))
TRACE = packets(*PRINTED)
TWO = b'2\n'

# a text that gives no number of slots
BAD_SLOTS = [b'', b'\n', b'0\n', b'00\n', b'01\n', b'002\n', b'257\n', b'260\n', b'300\n', b'999\n', b'1000\n', b'2560\n', b'65536\n', b'2',
             b'256', b'2\n\n', b'2\r\n', b'2\r', b'2 \n', b' 2\n', b'+2\n', b'-2\n', b'2\0', b'2\n2\n', b'\n2', b'/\n', b':\n', b'1/\n', b'1:\n',
             b'/1\n', b':1\n', b'1/0\n', b'10:\n', b'1a\n', b'0x2\n', b'1,0\n', b'two\n',
             b'04\n', b'+4\n', b' \n', b'99999999999999999999\n', '\u0662\n'.encode(), b'\xb2\n']
SLOTS = [1, 2, 3, 9, 10, 11, 19, 99, 100, 101, 199, 200, 249, 250, 255, 256]


class Cases(Questions):
    def ask(self, label, slots, policy=POLICY, trace=TRACE):
        self.add([len(label), 0, 0, 0], self.places(slots, policy, trace), label)
        self.text += f'{label}\n{printed(slots, policy, trace)}'


def large(cases):
    """A policy file and a trace file at their limits and one byte over, of flawed records that no other test may see first."""
    policy, trace = FLAWED * 1025, bytes([1] * 16 * 4097)
    cases.place(policy), cases.place(trace)
    good, bad = b'2\n', b'257\n'
    over, full = policy[:MOST_POLICY_BYTES + 1], policy[:MOST_POLICY_BYTES]
    long, most = trace[:MOST_TRACE_BYTES + 1], trace[:MOST_TRACE_BYTES]
    for label, slots, p, t in [('4.2.2', bad, over, long), ('2.2', good, over, long), ('2.policy', good, over, TRACE),
                               ('2.trace', good, POLICY, long), ('2.trace.flawed', good, FLAWED, long), ('full', good, full, most),
                               ('full.trace', good, POLICY, most),
                               ('ragged.most', good, full[:-1], most), ('1025.rules', good, policy, TRACE), ('4097.packets', good, POLICY, trace)]:
        cases.ask(f'large.{label}', slots, p, t)


def refusals(cases):
    for i, text in enumerate(BAD_SLOTS):
        cases.ask(f'slots.bad.{i}', text)
    good, short = b'2\n', TRACE[:-1]
    spare = TRACE[:32] + packets('1111')[:15] + b'\1' + TRACE[:16]
    for label, p, t in [('1.policy', POLICY[:-1], spare), ('1.trace', POLICY, short), ('3.policy', POLICY + FLAWED, short),
                        ('3.first', FLAWED + POLICY + FLAWED, TRACE), ('3.trace', POLICY, spare), ('3.last', POLICY, TRACE + spare),
                        ('1.both', POLICY[:-1], short), ('1.empty', b'\0', b'')]:
        cases.ask(f'refuse.{label}', good, p, t)
    # the first bad rule's place, for either flaw
    for name, bad in [('spare', FLAWED), ('stray', STRAY)]:
        for place in range(4):
            cases.ask(f'refuse.3.{name}.{place}', good, POLICY[:32 * place] + bad + POLICY[32 * place:], TRACE)
    cases.ask('refuse.3.stray.and.spare', good, POLICY + STRAY + FLAWED, TRACE)


def runs(cases):
    for n in SLOTS:
        cases.ask(f'slots.{n}', f'{n}\n'.encode())
    cases.ask('nothing', b'1\n', b'', b'')
    cases.ask('no.policy', b'3\n', b'')
    cases.ask('no.trace', b'3\n', POLICY, b'')
    # an action of 65,535 is a number; only the last three numbers can be a dash
    cases.ask('action', b'1\n', policy_bytes([top('1', 1, 65535), top('01', 1, 0), top('001', 1, 65534)]), packets('1', '01', '001', '0', '1'))
    # the last of 1,024 rules, evicted and written again
    many = policy_bytes([top(f'{i:010b}', i, 60000 + i) for i in range(1024)])
    cases.ask('many', b'2\n', many, packets(*(f'{i:010b}' for i in (1023, 0, 1023, 512, 0, 7, 1023, 1023, 99))))
    # more keys than slots, again and again: evictions by fewest hits, smallest sequence, lowest slot
    every = [f'{i:04b}' for i in range(16)]
    cases.ask('again', b'4\n', many, packets(*(every * 3 + every[::-1] * 2)))
    cases.ask('most', b'8\n', POLICY, packets(*every) * 256)
    for name, slots, policy, trace in PAPER_TRACES:
        cases.ask(name, f'{slots}\n'.encode(), policy, trace)


def program(name, files, text):
    return {**{f'crates/{name}/data/{path}': data for path, data in files.items()}, f'crates/{name}/stdout': text.encode()}


def refused():
    """Files that are missing, that can't be read or that are too long: each case in a folder of its own, told by the folder's name and the text."""
    policy, trace, slots = 'policy.bin', 'trace.bin', 'slots.txt'
    cases = {'missing': {},
             # a folder in the place of a file, which counts as empty
             'folder_policy': {f'{policy}/kept': POLICY, trace: TRACE, slots: TWO},
             'folder_trace': {policy: POLICY, f'{trace}/kept': TRACE, slots: TWO},
             'folder_slots': {policy: POLICY, trace: TRACE, f'{slots}/kept': TWO},
             'large_policy': {policy: bytes(MOST_POLICY_BYTES + 1), slots: TWO},
             'large_trace': {policy: POLICY, trace: bytes(MOST_TRACE_BYTES + 1), slots: TWO}}
    text = ''.join(f'{name}\n{printed(*(files.get(path, b"") for path in (slots, policy, trace)))}' for name, files in cases.items())
    return program('test_files', {f'{name}/{path}': data for name, files in cases.items() for path, data in files.items()}, text)


def make():
    """The files of the programs, by their paths in the repository."""
    cases = Cases()
    large(cases)
    refusals(cases)
    runs(cases)
    example = {'policy.bin': POLICY, 'trace.bin': TRACE, 'slots.txt': TWO}
    return {**{f'examples/small/{path}': data for path, data in example.items()},
            **program('replay', example, printed(TWO, POLICY, TRACE)),
            **refused(), **cases.files('test_replay', 'parts.bin')}
