"""Family 16: its words, what calls on tables alone make of it, what is counted, 22 with its place in the order; which cell picks the direction and what is overwritten; loops to 23 and back."""
from rules.session import ALLOWANCE
from rules.tables import *
from rules.words import bits_of

from . import quil
from .bench import Bench
from .calls import F, call_tables
from .jumps import pressed
from .labels import BAD_CALLS, each_word, judged
from .lengths import counted, lent
from .lists import SCALED
from .opens import opened
from .orders import HUGE
from .quil import SMALL
from .runs import lent as lent_run, ran, stopped
from .verdicts import LETTERS

GOOD, BAD = 'CONVERT r[0] n[0]', 'CONVERT n[0] q[0]'


def words(bench):
    """"its first name and index the destination, its source a reference". The source's words are 0, which every form takes."""
    each_word(bench, 'CONVERT r[1] a[0]', (2, 3, 7, 8), SMALL)


def other_calls(bench):
    """Kinds are not their matter; such a row is no frame and no CALL."""
    script = bench.script
    lent(bench, 'CONVERT a[0] q[0]', instructions=quil.row('CONVERT a[0] q[0]'))
    bench.expect(0, script.check(), 'check')
    bench.expect(2, script.resolve(0, 0), 'resolve')
    bench.expect(2, script.access(0, 0, 0), 'access')
    bench.expect(2, script.frame(0), 'frame')
    for family in (MOVE, HALT, CONVERT, CONVERT + 1):
        bench.expect(0 if family == CONVERT else 2, script.look(0, family), 'look')


def entries(bench):
    """"2 for every other row"."""
    for rows, count in (((GOOD,), 2), ((GOOD, 'CONVERT n[0] r[0]', 'NOP', 'EXCHANGE n[0] n[1]', F), 73)):
        lent(bench, '; '.join(rows), **call_tables(*rows))
        counted(bench, count)


def kinds(bench):
    """22 is open's alone: a forward goes by the source's cell, and looks at no other row's kinds."""
    for first in LETTERS:
        for source in LETTERS:
            number = 0 if first + source in ('rn', 'nr') else 22
            judged(bench, number, f'CONVERT {first}[0] {source}[0]', stepped=0 if first != 'q' and source in 'nr' else 18)
    judged(bench, 0, 'CONVERT r[0] e[0]', stepped=14)
    judged(bench, 0, 'CONVERT r[2] n[0]', stepped=14)
    judged(bench, 22, 'CONVERT r[0] g[0]', stepped=18)
    judged(bench, 22, GOOD, 'CONVERT n[0] r[0]', 'CONVERT o[0] n[0]', stepped=0)
    judged(bench, 22, 'NOP', BAD, GOOD, stepped=0)


def orders_of_open(bench):
    """10, 4, 5, 9, 20, 21, 22, then 6, 7 and 8; 4 not of journal_length."""
    condition = ('JUMP-WHEN @1 q[0]', 'LABEL @1')
    for number, rows in (
            (5, (BAD, 'ADD q[0] 1')), (9, (BAD, 'OTHER')), (20, (BAD, 'JUMP @1')), (20, ('LABEL @1', 'LABEL @1', BAD)), (21, (BAD, *condition)), (21, (*condition, BAD)),
            *((22, (call, BAD)) for _, call in BAD_CALLS), *((22, (BAD, call)) for _, call in BAD_CALLS), *((number, (GOOD, call)) for number, call in BAD_CALLS)):
        opened(bench, number, '; '.join(rows), **call_tables(*rows))
        bench.expect(number, bench.script.journal_length(), rows)
    opened(bench, 4, f'memory, and {BAD}', memory=17, **call_tables(BAD))
    bench.expect(22, bench.script.journal_length(), BAD)
    opened(bench, 10, f'cells, and {BAD}', regions=HUGE, **call_tables(BAD))
    bench.expect(10, bench.script.journal_length(), BAD)


def cells(bench):
    """The source's cell picks the direction, whatever is declared; the destination gets the other kind, whatever it held."""
    for row, before, cell, kind, word in (
            *((GOOD, f'n0=5 r0={held}', 'r0', REAL, bits_of(5.0)) for held in ('4:9', 'BIT:2', 'OCTET:256', 'INTEGER:-1')),
            *(('CONVERT n[0] r[0]', f'r0=-2.5 n0={held}', 'n0', INTEGER, -2) for held in ('4:9', 'BIT:2', 'OCTET:256', 'REAL:nan')),
            (GOOD, 'n0=REAL:-2.5', 'r0', INTEGER, -2), ('CONVERT n[0] r[0]', 'r0=INTEGER:5', 'n0', REAL, bits_of(5.0)),
            ('CONVERT a[1] n[2]', 'n2=5', 'a1', REAL, bits_of(5.0)), ('CONVERT o[1] a[0]', 'a0=REAL:300.5', 'o1', INTEGER, 300),
            ('CONVERT n[0] n[0]', 'n0=5', 'n0', REAL, bits_of(5.0)), ('CONVERT r[1] r[1]', 'r1=-2.5', 'r1', INTEGER, -2)):
        bench.step(0, row, before)
        at = 2 * quil.cell_of(cell)
        assert bench.script.memory[at:at + 2] == [kind, word % 2 ** 64], row
        assert bench.script.position == (1, 1, 2), row


def both_ways(bench):
    """-2^63 comes back, 2^63-1 does not."""
    script = bench.script
    for number, integer in ((0, -2 ** 63), (23, 2 ** 63 - 1)):
        lent_run(bench, GOOD, 'CONVERT n[1] r[0]', cells=f'n0={integer}')
        bench.expect(0, script.forward(), 'to REAL')
        bench.expect(number, script.forward(), 'to INTEGER')


def loops(bench):
    """A run to 23, back key by key, and a part of the way again."""
    script = bench.script
    stopped(bench, 23, 9, *SCALED, entries=15)
    before = quil.cells()
    pressed(bench, script.back, 9, 'to the start')
    assert script.position == (0, 0, 0) and script.memory[:len(before)] == before
    ran(bench, 5, 5, ALLOWANCE)
    assert script.memory[2 * quil.cell_of('n0') + 1] == 40 * 10 ** 9


def write(script):
    bench = Bench(script)
    for group in (words, other_calls, entries, kinds, orders_of_open, cells, both_ways, loops):
        script.heading('converts, ' + group.__name__.replace('_', ' ') + ':')
        group(bench)
