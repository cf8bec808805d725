"""Open: the cells it zeroes, and what it turns down."""
from rules.tables import BIT, INTEGER, OCTET, REAL

from . import quil
from .bench import Bench
from .calls import call_tables
from .script import marked


def opened(bench, number, what, memory=20, journal=6, **tables):
    """From marks, and from a position that open does not look at."""
    bench.script.heading(what)
    bench.tables(**{'instructions': [], **tables})
    bench.script.lend_memory(marked([], memory))
    bench.script.lend_journal(marked([], journal))
    bench.expect(number, bench.script.open(), what)


def layout(*regions):
    return [word for k, (kind, length) in enumerate(regions) for word in (40 + k, kind, length)]


def accepted(bench):
    opened(bench, 0, 'the bench, two words past its cells')
    opened(bench, 0, 'the bench, no word past its cells', memory=18)
    opened(bench, 0, 'the bench, no journal', journal=0)
    opened(bench, 0, 'no region', memory=3, regions=[])
    opened(bench, 0, 'no region and no memory', memory=0, journal=0, regions=[])
    opened(bench, 0, 'empty regions', memory=3, regions=layout((REAL, 0), (INTEGER, 0)))
    opened(bench, 0, 'empty regions around cells', memory=13, regions=layout((REAL, 0), (OCTET, 2), (BIT, 0), (INTEGER, 0), (REAL, 3), (BIT, 0)))
    opened(bench, 0, '64 regions', memory=130, regions=layout(*((k % 4, 1) for k in range(64))))
    opened(bench, 0, 'journal of 2048 entries', journal=6144)
    opened(bench, 0, 'NOP, a frame, a CALL and a MOVE', **program('MOVE n[9] 5', 'NOP', 'SET-SCALE 0 1', frame=True))
    opened(bench, 0, 'a row of each typing rule', **program(*WELL_TYPED))
    for imaginary in (0x3CB0000000000000, 0xBCB0000000000000, 0x7FF8000000000001):
        opened(bench, 0, f'a frame of 1 + i times {imaginary:016X}', **framed([3, ONE, imaginary]))
    opened(bench, 0, 'a frame of r, its index the bits of 1', **framed([0, quil.NAMES['r'], ONE]))
    opened(bench, 0, '130 cells', memory=262, regions=layout((OCTET, 1), (REAL, 129)))


def program(*rows, calls=(), frame=False):
    """The rows, then the CALLs."""
    tables = call_tables(*calls)
    tables['instructions'] = quil.program(*rows) + tables['instructions']
    if frame:
        tables['nodes'] = [4, 0, 0]
    return tables


def framed(node):
    """A frame of pi and the node, after a node that is not its own."""
    return {**program('NOP', 'SET-PHASE 1 3'), 'nodes': [6, 1, 0, 2, 0, 0, 4, 0, 0, *node]}


def refused(bench):
    opened(bench, 1, 'regions not whole', regions=[1, 2])
    opened(bench, 2, 'a node of tag 7', nodes=[7, 0, 0])
    opened(bench, 3, 'two regions of one name', regions=[1, 0, 1] * 2)
    opened(bench, 10, '4097 cells', memory=8194, regions=layout((BIT, 1), (REAL, 4096)))
    opened(bench, 10, '2^64 - 1 cells and 2', regions=layout((BIT, 2 ** 64 - 1), (REAL, 2)))
    opened(bench, 4, '4096 cells, a word short', memory=8191, regions=layout((OCTET, 1), (REAL, 4095)))
    for memory, journal in ((17, 6), (0, 6), (18, 7), (18, 5), (18, 6147), (18, 6145)):
        opened(bench, 4, f'{memory} words of memory, {journal} of journal', memory, journal)
    opened(bench, 9, 'OTHER', **program('NOP', 'OTHER'))
    for number, call in ((6, 'CALL q'), (7, 'CALL g n'), (8, 'CALL v q')):
        opened(bench, number, call, **program('NOP', calls=('CALL g', call)))


ONE = 0x3FF0000000000000
WELL_TYPED = (
    'ADD n[0] 1', 'SUB r[0] 1.5', 'MUL n[0] n[1]', 'DIV r[0] r[1]', 'EQ a[0] n[0] -5', 'GE a[0] o[0] 300', 'GT a[0] a[1] 1', 'LE a[0] r[0] 1.5',
    'LT a[0] o[0] o[1]', 'AND a[0] n[0]', 'IOR n[0] o[0]', 'XOR o[0] 5', 'SHL o[0] -1', 'NEG n[0]', 'NEG r[0]', 'NOT a[0]', 'NOT n[0]', 'NOT o[0]',
    'MOVE a[0] 1', 'MOVE n[7] 1', 'MOVE o[0] 1', 'MOVE r[0] 1.5', 'MOVE o[0] o[1]', 'EXCHANGE r[0] r[1]', 'LOAD r[0] r n[0]', 'LOAD n[0] e e[0]',
    'STORE r n[0] 1.5', 'STORE o n[0] 1', 'STORE n n[0] n[1]', 'STORE a e[0] a[0]')
TYPE_ERRORS = (
    'ADD a[0] 1.5', 'ADD a[0] 1', 'ADD r[0] 1', 'ADD q[0] 1', 'ADD n[0] q[0]', 'ADD o[0] q[0]', 'ADD n[0] o[0]', 'ADD n[0] a[0]',
    'ADD n[0] r[0]', 'ADD a[0] q[0]', 'EQ q[0] q[0] 1', 'EQ a[0] q[0] 1', 'EQ n[0] n[0] 1', 'EQ a[0] r[0] 1', 'EQ a[0] n[0] 1.5',
    'EQ a[0] n[0] q[0]', 'EQ a[0] n[0] o[0]', 'AND q[0] 1', 'AND r[0] 1', 'AND n[0] q[0]', 'AND n[0] r[0]', 'NEG q[0]',
    'NEG a[0]', 'NEG o[0]', 'NOT r[0]', 'NOT q[0]', 'AND r[0] q[0]', 'AND q[0] r[0]', 'MOVE q[0] 1', 'MOVE r[0] 1',
    'MOVE o[0] 1.5', 'MOVE n[0] q[0]', 'MOVE n[0] o[0]', 'EXCHANGE q[0] n[0]', 'EXCHANGE n[0] q[0]', 'EXCHANGE n[0] r[0]',
    'LOAD q[0] n n[0]', 'LOAD n[0] q n[0]', 'LOAD n[0] n q[0]', 'LOAD n[0] n r[0]', 'LOAD n[0] r n[0]', 'STORE q n[0] 1',
    'STORE n q[0] 1', 'STORE n r[0] 1', 'STORE n n[0] q[0]', 'STORE n n[0] 1.5', 'STORE n n[0] o[0]')


def type_errors(bench):
    for row in TYPE_ERRORS:
        opened(bench, 5, row, **program('NOP', row, 'ADD q[0] 1'))
    for what, node in (('q', [0, quil.NAMES['q'], 0]), ('n', [0, quil.NAMES['n'], 0]), ('1 + i', [3, ONE, ONE]), ('a variable', [6, 1, 0]),
                       ('1 + i times 3CB0000000000001', [3, ONE, 0x3CB0000000000001]), ('an infinite part', [3, ONE, 0xFFF0000000000000])):
        opened(bench, 5, f'a frame of {what}', **framed(node))


def orders(bench):
    """Neighbours among 1, 2, 3, 10, 4, 5, 9 and 6, 7, 8 by row; 20 and 21 are in labels.py, 22 in converts.py."""
    opened(bench, 1, 'not whole and a word', regions=[1, 2], nodes=[7, 0, 0])
    opened(bench, 2, 'a word and two names', regions=[1, 0, 1] * 2, nodes=[7, 0, 0])
    opened(bench, 3, 'two names and cells', regions=[1, 0, 4097] * 2)
    opened(bench, 10, 'cells and memory', memory=0, regions=[1, 0, 4097])
    opened(bench, 4, 'memory and a type error', memory=17, **program('ADD q[0] 1'))
    opened(bench, 5, 'OTHER and then a type error', **program('OTHER', 'ADD q[0] 1'))
    opened(bench, 5, 'a type error and CALLs', **program('ADD q[0] 1', calls=('CALL q',)))
    bad = program('NOP', calls=('CALL q', 'CALL g n', 'CALL v q'))
    opened(bench, 9, 'CALLs and OTHER', **{**bad, 'instructions': bad['instructions'] + quil.row('OTHER')})
    for number, calls in ((6, ('CALL q', 'CALL g n')), (7, ('CALL g n', 'CALL q')), (7, ('CALL g n', 'CALL v q')), (8, ('CALL v q', 'CALL g n')),
                          (8, ('CALL v q', 'CALL q')), (6, ('CALL q', 'CALL v q')), (7, ('CALL f q',))):
        opened(bench, number, ' and '.join(calls), **program(calls=calls))


def write(script):
    bench = Bench(script)
    script.heading('open:')
    for group in (accepted, refused, type_errors, orders):
        group(bench)
