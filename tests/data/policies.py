"""The policies that tests ask about, with keys and traces: the small policy and the papers' examples (V1 to V9)."""
from rules import BITS, Rule, policy_bytes
from runs import packet


def row(text, one):
    """The bits of a pattern such as 0*1 that are `one`, at positions 0.."""
    return sum(1 << (BITS - 1 - p) for p, c in enumerate(text) if c in one)


def top(text, priority, action=0):
    """A rule whose first positions are shown and whose others are wildcards."""
    return Rule(row(text, '1'), row(text, '01'), priority, action)


def key(text):
    """A key whose first positions are shown and whose others are zero."""
    return row(text, '1').to_bytes(BITS // 8, 'big')


def packets(*texts):
    """A trace of such keys."""
    return b''.join(packet(key(text)) for text in texts)


def fields(src, dst, sport, dport, protocol):
    octets = lambda a: bytes(map(int, a.split('.')))
    return octets(src) + octets(dst) + sport.to_bytes(2, 'big') + dport.to_bytes(2, 'big') + bytes([protocol])


def prefix(length):
    return '.'.join(str((0xffffffff << (32 - length) & 0xffffffff) >> s & 255) for s in (24, 16, 8, 0))


def tuple_rule(priority, src=None, dst=None, dport=None, protocol=None, action=0):
    """A rule on a five-tuple: addresses as (network, prefix length)."""
    s, d, n = src or ('0.0.0.0', 0), dst or ('0.0.0.0', 0), int.from_bytes
    return Rule(n(fields(s[0], d[0], 0, dport or 0, protocol or 0), 'big'),
                n(fields(prefix(s[1]), prefix(d[1]), 0, 0 if dport is None else 65535, 0 if protocol is None else 255), 'big'),
                priority, action)


SMALL = [top('11**', 30, 7), top('1*1*', 20, 8), top('****', 10, 9)]
POLICY = policy_bytes(SMALL)
# the keys of the printed example
PRINTED = ['1000', '0000', '1010', '1001', '1111', '0100']

# V1: document 003, figure 4
OVERLAPS = [top('011', 3), top('*1*', 2), top('1**', 1)]
PARTED = [top('1**', 2), top('01*', 1)]

# V2: document 003, figures 2 and 5 to 9
V2 = [top(p, n, n) for n, p in enumerate(['0****1', '001**1', '0011*1', '0*1101', '0*1111', '0**101', '0***01'])]

# V3: document 000, figures 6 and 7
V3 = [top('***', 0), top('00*', 2), top('000', 3), top('011', 3), top('1**', 1), top('110', 3)]

# V4: document 000, figure 8, completed
V4 = [top('0***1****', 1), top('01**10***', 2), top('00**1110*', 3)]
V4_ONE_FIELD = [top('0***1****', 1), top('0***10***', 2), top('0***1110*', 3)]

# V5: document 002, figures 2(a) and 4, with its default rule last
V5 = [top(p, n) for p, n in [('000', 6), ('00*', 5), ('0**', 4), ('11*', 3), ('1*0', 2), ('10*', 1), ('***', 0)]]

# V6: document 002, figure 3(a): true five-tuples
V6 = [tuple_rule(32800, dport=179, protocol=6), tuple_rule(32800, dport=646, protocol=6),
      tuple_rule(16640, dst=('111.221.69.0', 24)), tuple_rule(16640, dst=('111.221.66.0', 24)), tuple_rule(16630, dst=('111.221.78.0', 23)),
      tuple_rule(16610, dst=('111.221.64.0', 21)), tuple_rule(16610, dst=('111.221.112.0', 21)), tuple_rule(16580, dst=('111.221.64.0', 18))]


def to_v6(third, fourth, protocol, dport):
    """A key to an address of V6's networks."""
    return fields('10.0.0.1', f'111.221.{third}.{fourth}', 1024, dport, protocol)


# V7: document 002, figure 3(c)
V7 = [tuple_rule(5, src=('1.0.0.0', 24), dst=('2.0.0.1', 32)), tuple_rule(4, src=('1.0.0.0', 24), dst=('2.0.0.2', 32)),
      tuple_rule(3, src=('1.0.0.0', 24)), tuple_rule(2, dst=('2.0.0.1', 32)), tuple_rule(1, dst=('2.0.0.2', 32))]

# V8: document 004, figure 1
V8 = [top(p, 6 - n) for n, p in enumerate(['00000*', '***000', '11****', '010***', '1**1**', '0**1**'])]

# V9: document 001, table I
V9 = [top(p, n) for p, n in [('111000', 9), ('***0**', 6), ('10*0**', 4), ('10*10*', 4), ('10*110', 4), ('1**110', 0), ('001***', 2),
                             ('11*001', 7), ('11*010', 7), ('110010', 8)]]


def numbered(rules, first=0):
    """A policy with an action for each rule, counted from `first`."""
    return policy_bytes([r._replace(action=i + first) for i, r in enumerate(rules)])


V6_KEYS = [to_v6(69, 7, 6, 80), to_v6(67, 7, 6, 80), to_v6(100, 7, 17, 80), to_v6(64, 1, 6, 179), to_v6(64, 1, 17, 646), to_v6(67, 7, 6, 80)]
# the papers' examples as traces: name, slots, policy, trace
PAPER_TRACES = [('V2', 2, numbered(V2), packets('010011', '000111', '011011', '010011', '001101', '111111')),
                ('V5', 3, numbered(V5[:6], 1), packets('101', '001', '010', '011', '100', '110', '111', '000')),
                ('V6', 4, numbered(V6), b''.join(map(packet, V6_KEYS)))]
