"""Questions whose two files are read whole, with the answers that a plain reading of the rules gives.

parts.bin has the policies, each a part; cases.bin a record for each question: zero 0, label's length 1, filler's length 2, zero 3, then two numbers
of four bytes: where the policy begins and how long it is; then the label and the filler. Both are longer than what the other test programs read of
theirs, 262,144 bytes and 65,536, and the last policies and questions lie past that.
"""
from policies import POLICY, SMALL
from policy_cases import FLAWED
from questions import Questions
from rules import RULE, Refused, call_check, policy_bytes

PARTS_ROOM, CASES_ROOM = 262144, 65536
FILLER = bytes(255)


class Cases(Questions):
    def ask(self, label, data):
        answer = call_check(data)
        said, n = (f'refused {answer.number} {answer.place}', 0) if isinstance(answer, Refused) else ('accepted', answer)
        self.add([0, len(label), len(FILLER), 0], self.places(data), label, FILLER)
        self.text += f'{label} {said}: {n}\n'


def make():
    """The files of the test program, by their paths in the repository."""
    cases = Cases()
    # rules of zeros take every key
    cases.place(bytes(PARTS_ROOM))
    policies = {'small': POLICY, 'nothing': b'', 'full': bytes(1024 * RULE), 'many': bytes(1025 * RULE), 'ragged': POLICY + b'\0',
                'flawed': POLICY + FLAWED, 'two': policy_bytes(SMALL[1:3])}
    for i in range(35):
        for name, data in policies.items():
            cases.ask(f'{name}.{i}', data)
    assert len(cases.parts) > PARTS_ROOM and len(cases.cases) > CASES_ROOM
    # a file that is missing: nothing is asked; an answer that can't be said: nothing is asked after it
    cases.text += 'missing told true\nsmall.0 told true\n'
    return cases.files('test_asking', 'parts.bin')
