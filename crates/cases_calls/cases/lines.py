"""Document 01's bench examples, with the results that it states, the STORE's and the MOVE's as 02 has them: they hold the model to the papers."""
from rules.words import WORD

from . import quil
from .bench import Bench
from .opens import framed, opened, program


def leaves(bench, row, cells, cell, word, entries_used=2):
    """The row on the cells, and the word that it leaves in one of them."""
    bench.step(0, row, cells)
    assert bench.script.memory[2 * quil.cell_of(cell) + 1] == word % WORD, row
    assert bench.script.position == (1, 1, entries_used), row


def unwritten(bench, number, row, cells=''):
    """The row turned down: no word of memory or journal changes, and the position is as it was."""
    bench.step(number, row, cells)
    assert bench.script.answers[-1] == f'forward {number} | 0 0 0 | |', row


def type_error(bench, row, kind, spot=1):
    opened(bench, 5, row, **program(row))
    kept = ' '.join(map(str, bench.script.position))
    assert bench.script.answers[-1].startswith(f'open 5 | {kept} {kind} 0 {spot} '), row


def checked(bench):
    opened(bench, 0, 'the empty program')
    bench.expect(11, bench.script.forward(), 'the empty program')
    type_error(bench, 'ADD a[0] 1.5', 2)
    type_error(bench, 'ADD a[0] 1', 4)
    type_error(bench, 'STORE n n[0] q[0]', 1, 3)
    opened(bench, 0, 'imaginary 3CB0000000000000', **framed([3, 0, 0x3CB0000000000000]))
    opened(bench, 5, 'imaginary 3CB0000000000001', **framed([3, 0, 0x3CB0000000000001]))


def stepped(bench):
    unwritten(bench, 24, 'MOVE o[0] 300')
    leaves(bench, 'DIV n[0] 2', 'n0=-7', 'n0', -3)
    leaves(bench, 'ASHR o[0] 1', 'o0=128', 'o0', 192)
    leaves(bench, 'SHL o[0] 8', 'o0=128', 'o0', 0)
    bench.step(16, 'SHL o[0] -1', 'o0=128')
    leaves(bench, 'LOAD r[0] r n[0]', 'n0=1 r1=0f3FF8000000000000', 'r0', 0x3FF8000000000000)
    bench.step(14, 'LOAD r[0] r n[0]', 'n0=2')
    leaves(bench, 'EXCHANGE n[0] n[0]', 'n0=7', 'n0', 7, entries_used=3)


def short_journal(bench):
    script = bench.script
    opened(bench, 0, 'a journal of 2', **program('MOVE n[0] 5', 'MOVE n[1] 6'))
    for number, play in ((0, script.forward), (13, script.forward), (0, script.back), (0, script.forward)):
        bench.expect(number, play(), 'a journal of 2')


def write(script):
    bench = Bench(script)
    script.heading('bench examples:')
    for group in (checked, stepped, short_journal):
        group(bench)
