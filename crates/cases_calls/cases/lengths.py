"""The journal's length: what is counted, what is turned down, and journals of just the sum and of one entry less."""
from rules.tables import *

from . import quil
from .bench import Bench
from .calls import F, call_tables
from .lists import row_at
from .opens import layout, opened, program
from .quil import operators
from .worked import said

# Operands, and what is counted for a row of families 0 to 8; 11 to 15 are in labels.py, 16 in converts.py. One row of each after the other runs to the end, with a CALL before the NOP.
FAMILIES = ((ARITHMETIC, 'n[0] 1', 2), (COMPARISON, 'a[0] n[0] 1', 2), (LOGIC, 'n[0] 1', 2), (UNARY, 'n[0]', 2), (MOVE, 'n[1] 1', 2),
            (EXCHANGE, 'n[0] n[1]', 3), (LOAD, 'n[2] n n[0]', 2), (STORE, 'n n[0] 5', 2), (FRAME, '0 1', 1))
ONE_OF_EACH = tuple(f'{operators(family)[0]} {operands}' for family, operands, _ in FAMILIES)
NOP, PI = quil.row('NOP'), [4, 0, 0]
# A reply of the most rows, to F.
REPLY = tuple(word for k in range(64) for word in (3, k % 2, OCTET, k))


def lent(bench, what, **tables):
    bench.script.heading(what)
    bench.tables(**{'instructions': [], **tables})


def counted(bench, entries):
    bench.script.journal_length()
    said(bench.script, f'journal_length 0 | {entries} | |')


def rows(bench):
    lent(bench, 'no row')
    counted(bench, 0)
    for (_, _, entries), row in zip(FAMILIES, ONE_OF_EACH):
        lent(bench, row, instructions=quil.row(row), nodes=PI)
        counted(bench, entries)
    lent(bench, 'NOP', instructions=NOP)
    counted(bench, 1)
    for call in ('CALL g', F):
        lent(bench, call, **call_tables(call))
        counted(bench, 65)


def sums(bench):
    lent(bench, 'a row of each family', **each_family())
    counted(bench, 84)
    lent(bench, 'a row of each operator, CALL and NOP apart', nodes=PI, instructions=quil.program(
        *(f'{name} {operands}' for family, operands, _ in FAMILIES for name in operators(family))))
    counted(bench, 48)
    lent(bench, '8 NOPs and a CALL over and over', **call_tables('CALL g'))
    call = bench.script.tables[INSTRUCTION_TABLE]
    for count, entries in ((255, 2047), (256, 2048), (257, 2049)):
        repeated(bench, count, NOP * 8 + call, entries)
    for row, entries in ((call, 33280), (quil.row('EXCHANGE n[0] n[1]'), 1536), (NOP, 512)):
        repeated(bench, 512, row, entries)


def each_family():
    tables = program(*ONE_OF_EACH, calls=(F,), frame=True)
    return {**tables, 'instructions': tables['instructions'] + NOP}


def repeated(bench, count, words, entries):
    """So many rows, these over and over."""
    bench.script.table(INSTRUCTION_TABLE, words, 9 * count)
    counted(bench, entries)


def turned_down(bench, number, what, **tables):
    lent(bench, what, **tables)
    bench.expect(number, bench.script.journal_length(), what)


def refused(bench):
    """1, 2, 3, 10, 5, 9, then 6, 7 and 8; 20 and 21 are in labels.py, 22 in converts.py."""
    turned_down(bench, 1, 'regions not whole', regions=[1, 2])
    lent(bench, '513 rows')
    bench.script.table(INSTRUCTION_TABLE, NOP, 9 * 513)
    bench.expect(1, bench.script.journal_length(), '513 rows')
    turned_down(bench, 2, 'a node of tag 7', nodes=[7, 0, 0])
    turned_down(bench, 3, 'two regions of one name', regions=[1, 0, 1] * 2)
    turned_down(bench, 10, '4097 cells', regions=layout((BIT, 1), (REAL, 4096)))
    turned_down(bench, 9, 'OTHER', **program('NOP', 'OTHER'))
    for number, call in ((6, 'CALL q'), (7, 'CALL g n'), (8, 'CALL v q')):
        turned_down(bench, number, call, **program('NOP', calls=('CALL g', call)))
    for row, error in (('ADD a[0] 1.5', '2 1 1 3 0 5'), ('STORE n n[0] q[0]', '1 1 3 0 8 8')):
        lent(bench, row, **program('NOP', row, 'ADD q[0] 1'))
        bench.script.journal_length()
        said(bench.script, f'journal_length 5 | {error} | |')


def orders(bench):
    """Neighbours among them; 6, 7 and 8 are those of the first row that has one."""
    turned_down(bench, 1, 'not whole and a word', regions=[1, 2], nodes=[7, 0, 0])
    turned_down(bench, 2, 'a word and two names', regions=[1, 0, 1] * 2, nodes=[7, 0, 0])
    turned_down(bench, 3, 'two names and cells', regions=[1, 0, 4097] * 2)
    turned_down(bench, 10, 'cells and a type error', **program('ADD q[0] 1'), regions=[1, 0, 4097])
    turned_down(bench, 5, 'OTHER and then a type error', **program('OTHER', 'ADD q[0] 1'))
    calls = ('CALL q', 'CALL g n', 'CALL v q')
    other = program(calls=calls)
    turned_down(bench, 9, 'CALLs and OTHER', **{**other, 'instructions': other['instructions'] + quil.row('OTHER')})
    for number, first in zip((6, 7, 8), calls):
        for second in calls:
            if second != first:
                turned_down(bench, number, f'{first} and {second}', **program(calls=(first, second)))


def buffers_apart(bench):
    """Lent so that open answers 4: what comes after it is told."""
    for number, row in ((0, 'NOP'), (5, 'ADD q[0] 1'), (9, 'OTHER')):
        opened(bench, 4, f'{row}, memory too short', memory=17, **program(row))
        bench.expect(number, bench.script.journal_length(), row)
        opened(bench, 4, f'{row}, journal not whole', journal=7, **program(row))
        bench.expect(number, bench.script.journal_length(), row)


def bought(bench, what, entries, **tables):
    """Opened with a journal of so many entries."""
    opened(bench, 0, f'{what}, {entries} entries', journal=3 * entries, **tables)


def pressed(bench, *numbers):
    """Forward again and again, a CALL with a reply of the most rows."""
    for number in numbers:
        row = row_at(bench.script)
        bench.expect(number, bench.script.forward(REPLY if row and row.family == CALL else ()), 'pressed')


def used(bench, entries):
    assert bench.script.position[2] == entries, bench.script.position


def journals(bench):
    """The sum is enough to the end, there and back; with one entry less the last row is 13."""
    steps = len(ONE_OF_EACH) + 2
    bought(bench, 'no row', 0)
    pressed(bench, 11)
    bought(bench, 'a row of each family', 84, **each_family())
    pressed(bench, *[0] * steps, 11)
    used(bench, 84)
    for _ in range(2):
        bench.expect(0, bench.script.back(), 'back')
    pressed(bench, 0, 0, 11)
    bought(bench, 'a row of each family', 83, **each_family())
    pressed(bench, *[0] * (steps - 1), 13)
    used(bench, 83)


def last_call(bench):
    """A CALL as the last row: with one entry less 64 reply rows are one too many."""
    calls = program('MOVE n[0] 5', calls=(F,))
    bought(bench, 'MOVE and CALL', 67, **calls)
    pressed(bench, 0, 0, 11)
    used(bench, 67)
    bought(bench, 'MOVE and CALL', 66, **calls)
    pressed(bench, 0, 13)
    bench.expect(0, bench.script.forward(REPLY[4:]), '63 rows')
    used(bench, 66)


def write(script):
    bench = Bench(script)
    for group in (rows, sums, refused, orders, buffers_apart, journals, last_call):
        script.heading("the journal's length, " + group.__name__.replace('_', ' ') + ':')
        group(bench)
