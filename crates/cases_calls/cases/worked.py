"""Worked examples with the results that 01's and 02's sentences give them: words, CALLs and walks. They hold the model to the papers."""
from rules.tables import *


from .bench import Bench
from .lines import leaves
from .resolutions import call, flat
from .verdicts import checked, lend

NAN = 0x7FF8000000000000


def integers(bench):
    """Wraps modulo 2^64; division truncates to zero."""
    for row, cells, word in (
            ('DIV n[0] 2', 'n0=-7', -3), ('DIV n[0] -1', f'n0={-2 ** 63}', -2 ** 63), ('ADD n[0] 1', f'n0={2 ** 63 - 1}', -2 ** 63),
            ('MUL n[0] n[1]', 'n0=-1 n1=-1', 1), ('NEG n[0]', f'n0={-2 ** 63}', -2 ** 63)):
        leaves(bench, row, cells, 'n0', word)
    bench.step(15, 'DIV n[0] 0', 'n0=5')
    leaves(bench, 'LT a[0] n[0] n[1]', 'n0=-1', 'a0', 1)


def reals(bench):
    """Each rounded once; a NaN result is always the same; NaN compares as 0."""
    for row, cells, word in (
            ('DIV r[0] r[1]', '', NAN), ('NEG r[0]', 'r0=0fFFF0000000000001', NAN), ('NEG r[0]', '', 2 ** 63),
            ('ADD r[0] r[1]', 'r0=0.1 r1=0.2', 0x3FD3333333333334), ('DIV r[0] r[1]', 'r0=1.0 r1=3.0', 0x3FD5555555555555),
            ('ADD r[0] r[0]', 'r0=0f7FEFFFFFFFFFFFFF', 0x7FF0000000000000), ('MUL r[0] r[0]', 'r0=0f0000000000000001', 0),
            ('LOAD r[0] r n[0]', 'n0=1 r1=0f0000000000000007', 7)):
        leaves(bench, row, cells, 'r0', word)
    for row, cells, word in (('EQ a[0] r[0] r[0]', 'r0=nan', 0), ('LE a[0] r[0] r[1]', 'r0=nan', 0), ('EQ a[0] r[0] r[1]', 'r0=-0.0', 1)):
        leaves(bench, row, cells, 'a0', word)


# INTEGERs, and the REALs that they become: exact ones, ties at 2^53, 2^54 and 2^63, the numbers beside them.
REAL_OF = (
    (0, 0), (1, 0x3FF0000000000000), (-1, 0xBFF0000000000000), (2 ** 53 - 1, 0x433FFFFFFFFFFFFF), (2 ** 53, 0x4340000000000000),
    (2 ** 53 + 1, 0x4340000000000000), (2 ** 53 + 2, 0x4340000000000001), (2 ** 53 + 3, 0x4340000000000002), (1 - 2 ** 53, 0xC33FFFFFFFFFFFFF),
    (-2 ** 53, 0xC340000000000000), (-2 ** 53 - 1, 0xC340000000000000), (-2 ** 53 - 2, 0xC340000000000001), (-2 ** 53 - 3, 0xC340000000000002),
    (2 ** 54 + 2, 0x4350000000000000), (2 ** 54 + 3, 0x4350000000000001), (2 ** 54 + 6, 0x4350000000000002), (2 ** 63 - 1024, 0x43DFFFFFFFFFFFFF),
    (2 ** 63 - 513, 0x43DFFFFFFFFFFFFF), (2 ** 63 - 512, 0x43E0000000000000), (2 ** 63 - 1, 0x43E0000000000000), (-2 ** 63, 0xC3E0000000000000),
    (1 - 2 ** 63, 0xC3E0000000000000), (512 - 2 ** 63, 0xC3E0000000000000), (513 - 2 ** 63, 0xC3DFFFFFFFFFFFFF))
# REALs, and the INTEGERs that they become: zeros, subnormals, below 1, halves, the last with a half, about 2^53, both ends.
INTEGER_OF = (
    ('0.0', 0), ('-0.0', 0), ('0f0000000000000001', 0), ('0f8000000000000001', 0), ('0f000FFFFFFFFFFFFF', 0), ('0f0010000000000000', 0), ('0.5', 0), ('-0.5', 0),
    ('-0.9', 0), ('0f3FEFFFFFFFFFFFFF', 0), ('0fBFEFFFFFFFFFFFFF', 0), ('1.0', 1), ('-1.0', -1), ('1.5', 1), ('-1.5', -1), ('2.5', 2), ('-2.5', -2),
    ('0f432FFFFFFFFFFFFF', 2 ** 52 - 1), ('0fC32FFFFFFFFFFFFF', 1 - 2 ** 52), ('0f433FFFFFFFFFFFFF', 2 ** 53 - 1), ('0f4340000000000000', 2 ** 53),
    ('0fC340000000000001', -2 ** 53 - 2), ('0f43DFFFFFFFFFFFFF', 2 ** 63 - 1024), ('0fC3DFFFFFFFFFFFFF', 1024 - 2 ** 63), ('0fC3E0000000000000', -2 ** 63))


def conversions(bench):
    """"INTEGER to REAL gives the nearest binary64, ties to even; REAL to INTEGER drops the fraction"."""
    for integer, word in REAL_OF:
        leaves(bench, 'CONVERT r[0] n[0]', f'n0={integer}', 'r0', word)
    for real, integer in INTEGER_OF:
        leaves(bench, 'CONVERT n[0] r[0]', f'r0={real}', 'n0', integer)


def bits(bench):
    """And, Ior and Xor take a literal's low bits; NOT is 1-v, 255-v, -1-v; at or past the width Shl and Shr give 0, Ashr copies of the top bit."""
    far = 2 ** 63 - 1
    for row, cells, word in (
            ('IOR o[0] 300', '', 44), ('AND o[0] 300', 'o0=255', 44), ('XOR o[0] -1', 'o0=1', 254), ('IOR a[0] 2', 'a0=0', 0), ('AND a[0] -1', 'a0=1', 1),
            ('NOT a[0]', 'a0=1', 0), ('NOT o[0]', 'o0=44', 211), ('NOT n[0]', 'n0=5', -6), ('ASHR o[0] 1', 'o0=128', 192),
            ('SHL o[0] 8', 'o0=128', 0), ('SHL o[0] 300', 'o0=1', 0), (f'SHL o[0] {far}', 'o0=1', 0), (f'ASHR o[0] {far}', 'o0=128', 255), ('ASHR a[0] 5', 'a0=1', 1),
            ('ASHR n[0] 1', 'n0=-7', -4), ('SHR n[0] 1', 'n0=-2', far)):
        leaves(bench, row, cells, row.split()[1].replace('[', '').replace(']', ''), word)
    bench.step(16, 'SHL o[0] -1', 'o0=128')


def kinds(bench):
    """A word beyond its kind has no rule, nor has a kind above 3."""
    for number, row, cells in ((0, 'NOT a[0]', 'a0=1'), (18, 'NOT a[0]', 'a0=2'), (0, 'NOT o[0]', 'o0=255'), (18, 'NOT o[0]', 'o0=256'),
                               (18, 'MOVE n[0] n[1]', 'n1=4:0')):
        bench.step(number, row, cells)


def verdicts(bench):
    """The bench examples of the type check, by check."""
    for row, answer in (('', ''), ('ADD a[0] 1.5', '2 0 1 3 0 5'), ('ADD a[0] 1', '4 0 1 0 0 9'), ('STORE n n[0] q[0]', '1 0 3 0 8 8')):
        checked(bench.script, row or 'no row', [row] if row else [])
        said(bench.script, 'check 5 | {} | |'.format(answer) if answer else 'check 0 | | |')
    for imaginary, answer in ((0x3CB0000000000000, 'check 0 | | |'), (0x3CB0000000000001, 'check 5 | 3 0 4 0 6 8 | |')):
        checked(bench.script, f'SET-PHASE of {imaginary:016X}i', ['SET-PHASE 0 1'], nodes=[NUMBER, 0, imaginary])
        said(bench.script, answer)


def said(script, answer):
    assert script.answers[-1] == answer, (script.answers[-1], answer)


# Regions 1 BIT[2] and 2 INTEGER[3]. 20 returns a BIT and takes a mutable INTEGER[] of any length and a REAL; 21 takes an INTEGER[2].
REGIONS = [1, BIT, 2, 2, INTEGER, 3]
EXTERNS = [20, BIT, 0, 2, 21, NONE, 2, 1]
PARAMETERS = flat([10, 1, VARIABLE, INTEGER, 0], [11, 0, SCALAR, REAL, 0], [12, 0, FIXED, INTEGER, 2])
# 1[1]; 2; an immediate whose real part is a NaN with a payload; 1; 9[0], which is undeclared.
PAYLOAD = 0x7FF8000000000002
ARGUMENTS = flat([REFERENCE, 1, 1], [IDENTIFIER, 2, 0], [IMMEDIATE, PAYLOAD, 0], [IDENTIFIER, 1, 0], [REFERENCE, 9, 0])


def call_lent(bench, extern, first, count):
    bench.script.heading(f'CALL {extern} of {count} from {first}')
    lend(bench.script, call(extern, first, count), REGIONS, EXTERNS, PARAMETERS, arguments=ARGUMENTS)
    return bench.script


def written(words):
    return ' '.join([''] + [f'{i}:{word}' for i, word in enumerate(words)])


def resolutions(bench):
    for extern, first, count, room, answer, words in (
            # A NaN's payload stays.
            (20, 0, 3, 21, '0 | 3', [1, 1, 1, 0, 1, 0, 2, 1, 3, 1, 2, PAYLOAD, 0, 3, 0]),
            # 3 for the return; 6, before the shape; 3.
            (20, 1, 3, 21, '8 | 3', [0, 0, 3, 0, 1, 0, 0, 1, 0, 6, 10, 0, 0, 0, 1, 1, 3, 3, 0, 0, 0]),
            # INTEGER[3] for INTEGER[2]; a reference to a vector before lookup.
            (21, 1, 1, 21, '8 | 1', [1, 0, 2, 1, 2, 1, 3]), (21, 4, 1, 21, '8 | 1', [1, 0, 4, 1, 9, 0, 0]),
            (22, 0, 3, 0, '6 |', []), (20, 0, 2, 0, '7 |', []), (20, 0, 3, 1, '4 |', [])):
        call_lent(bench, extern, first, count).resolve(0, room)
        said(bench.script, f'resolve {answer} |{written(words)} |')


def access_sets(bench):
    for extern, first, count, rooms, answer, read, write_set in (
            # The immediate adds nothing. An undeclared name is listed; counts are no matter; what drops off still asks for room.
            (20, 1, 3, (3, 3), '0 | 2 1', [1, 2], [2]), (20, 3, 2, (2, 2), '0 | 2 2', [1, 9], [1, 9]), (21, 0, 3, (3, 3), '0 | 1 0', [1], []),
            (21, 0, 3, (3, 2), '4 |', [], [])):
        call_lent(bench, extern, first, count).access(0, *rooms)
        said(bench.script, f'access {answer} |{written(read)} |{written(write_set)}')


def walks(bench):
    """Repeats are kept, an end is for good, left before right."""
    script = bench.script
    for what, nodes, first, count, steps in (
            ('pi; 7[1] + -7[1]', [4, 0, 0, 2, 0, 0, 0, 7, 1, 5, 0, 0, 0, 7, 1], 1, 4, ('2 1 7 1', '4 1 7 1', '4 0 0 0', '4 0 0 0')),
            ('(f(9[2]) + %3) + 8[0]', [2, 0, 0, 2, 0, 0, 1, 0, 0, 0, 9, 2, 6, 3, 0, 0, 8, 0], 0, 6, ('4 1 9 2', '6 1 8 0', '6 0 0 0'))):
        script.heading(what)
        script.table(NODE_TABLE, nodes)
        for step, answer in enumerate(steps):
            script.reference(first, count, 0 if step == 0 else None)
            said(script, f'reference 0 | {answer} | |')
    lists(script, 0, 6)


def lists(script, first, count):
    """As many as fit: none, one of two, both, both and the end; the place past the end is the end's."""
    for words, place, answer in ((1, 3, '3 0 |'), (2, 0, '4 1 | 0:9 1:2'), (3, 4, '6 1 | 0:8 1:0'), (4, 0, '6 2 | 0:9 1:2 2:8 3:0'),
                                 (4, 3, '6 2 | 0:9 1:2 2:8 3:0'), (6, 4, '6 1 | 0:8 1:0'), (2, 9, '6 0 |'), (0, 9, '9 0 |')):
        script.references(first, count, words, place)
        said(script, f'references 0 | {answer} |')


def write(script):
    bench = Bench(script)
    for group in (integers, reals, conversions, bits, kinds, verdicts, resolutions, access_sets, walks):
        script.heading('worked, ' + group.__name__.replace('_', ' ') + ':')
        group(bench)
