"""Back: what it restores, and what it turns down."""
from rules.tables import BIT, INTEGER, OCTET

from . import quil
from .bench import Bench
from .calls import F, call_tables
from .script import marked


def there_and_back(bench, what, tables, cells='', reply=(), entries=6):
    """Forward and back, twice, from cells that may be foreign."""
    script = bench.script
    script.heading(what + (f' | {cells}' if cells else ''))
    bench.tables(**tables)
    bench.lend(cells, entries)
    before = list(script.memory)
    for _ in range(2):
        bench.expect(0, script.forward(reply), what)
        bench.expect(0, script.back(), what)
    assert script.memory == before and script.position == (0, 0, 0)
    bench.expect(12, script.back(), what)


def restored(bench):
    for row, cells in (('NOP', 'n0=9:9'), ('NEG n[0]', 'n0=5'), ('MOVE n[0] n[1]', 'n0=77:99 n1=OCTET:3'), ('EQ a[0] n[0] 0', 'a0=REAL:1.5'),
                       ('EXCHANGE n[0] n[1]', 'n0=3 n1=BIT:1'), ('EXCHANGE n[0] n[0]', 'n0=3'), ('STORE n n[0] 1', 'n0=2 n2=BIT:9'),
                       ('CONVERT r[0] n[0]', 'n0=7 r0=77:99'), ('CONVERT n[0] r[0]', 'n0=BIT:9 r0=-2.5'), ('CONVERT n[0] n[0]', 'n0=7')):
        there_and_back(bench, row, {'instructions': quil.row(row)}, cells)
    call = call_tables(F)
    there_and_back(bench, F, call)
    there_and_back(bench, F + ', one cell twice', call, 'o0=9', (3, 0, OCTET, 1, 3, 0, OCTET, 2))
    there_and_back(bench, F + ', one cell three times', call, 'n2=BIT:7', (0, 0, INTEGER, 1, 1, 0, BIT, 1, 0, 0, INTEGER, 2, 0, 0, INTEGER, 3))
    rows = [word for k in range(64) for word in (3, k % 2, OCTET, k + 1)]
    there_and_back(bench, F + ', 64 rows', call, 'o0=256 o1=4:4', rows, entries=65)


def taken_back(bench, number, what, journal, row=1, steps=1, used=None, cells='n0=5', memory=20, **tables):
    """Back on a journal as given, whatever wrote it."""
    script = bench.script
    script.heading(what)
    bench.tables(**{'instructions': quil.program('NEG n[0]', 'NOP'), **tables})
    script.lend_memory(marked(quil.cells(cells)[:memory], memory))
    script.lend_journal(journal)
    script.place(row, steps, len(journal) // 3 if used is None else used)
    bench.expect(number, script.back(), what)


def positions(bench):
    good = [2, 1, 7, 1, 0, 0]
    taken_back(bench, 19, 'a row past the rows', good, row=3)
    taken_back(bench, 19, 'a row far past the rows', good, row=2 ** 64 - 1)
    taken_back(bench, 19, 'a row past the rows, none done', good, row=3, steps=0)
    taken_back(bench, 19, 'more steps than entries used', good, steps=3)
    taken_back(bench, 19, 'far more steps than entries used', good, steps=2 ** 64 - 1)
    taken_back(bench, 19, 'more steps than entries used, not than entries', good, steps=2, used=1)
    taken_back(bench, 19, 'used past the entries', good, used=3)
    taken_back(bench, 19, 'used far past the entries', good, used=2 ** 64 - 1)
    taken_back(bench, 19, 'used past the entries, none done', good, steps=0, used=3)
    taken_back(bench, 12, 'none done', good, steps=0)
    taken_back(bench, 12, 'none done, none used', good, steps=0, used=0)
    taken_back(bench, 12, 'none done, an unreadable count', [9, 0, 0], steps=0)
    taken_back(bench, 12, 'none done, an absent row', [0, 2, 0], steps=0)
    taken_back(bench, 12, 'none done, at the end', good, row=2, steps=0)
    taken_back(bench, 19, 'none used', good, used=0)
    taken_back(bench, 19, 'none used of none', [])
    taken_back(bench, 0, 'one done', good)
    taken_back(bench, 0, 'two done', good, row=2, steps=2)
    taken_back(bench, 0, 'two done, the last without a change', good + [0, 1, 0], row=2, steps=2)
    taken_back(bench, 0, 'more done than there are rows', good + [0, 1, 0], steps=3)


def rows_left(bench):
    """Back goes to the closing entry's row, wherever the position is; "an absent row is 19"."""
    for row in (0, 1, 2):
        for left in (0, 1):
            taken_back(bench, 0, f'at row {row}, from row {left}', [2, 1, 7, 1, left, 0], row=row)
            assert bench.script.position == (left, 0, 0)
    for left in (2, 3, 2 ** 63, 2 ** 64 - 1):
        taken_back(bench, 19, f'from row {left} of 2', [2, 1, 7, 1, left, 0])
        taken_back(bench, 19, f'from row {left} of 2, no change', [0, left, 0])
        taken_back(bench, 0, f'from row {left} of 2, the step before', [0, left, 0, 0, 1, 0], steps=2)
    taken_back(bench, 19, 'from row 0 of none', [0, 0, 0], row=0, instructions=[])
    taken_back(bench, 12, 'none done of none', [0, 0, 0], row=0, steps=0, instructions=[])


def fewer_entries(bench):
    """Back does not set the steps that are left against the entries; the next call does."""
    script = bench.script
    taken_back(bench, 0, 'two steps in two entries', [2, 1, 7, 1, 0, 0], steps=2)
    assert script.position == (0, 1, 0)
    bench.expect(19, script.back(), 'back')
    bench.expect(19, script.forward(), 'forward')
    bench.expect(19, script.run(0), 'run')


def journals(bench):
    for count in (2, 3, 2 ** 63, 2 ** 64 - 1):
        taken_back(bench, 19, f'count {count} over one entry', [2, 1, 7, count, 0, 0])
    taken_back(bench, 19, 'count 1 over none', [1, 0, 0])
    taken_back(bench, 0, 'count 0 over one entry', [2, 1, 7, 0, 0, 0])
    for cell in (9, 10, 2 ** 63, 2 ** 64 - 1):
        taken_back(bench, 19, f'cell {cell} of 9', [cell, 1, 7, 1, 0, 0])
        taken_back(bench, 19, f'cell {cell} of 9, the first of two', [cell, 1, 7, 2, 1, 7, 2, 0, 0])
        taken_back(bench, 19, f'cell {cell} of 9, the second of two', [2, 1, 7, cell, 1, 7, 2, 0, 0])
        taken_back(bench, 0, f'cell {cell} of 9, before the step', [cell, 1, 7, 2, 1, 7, 1, 0, 0])
    taken_back(bench, 0, 'the last cell', [8, 1, 7, 1, 0, 0])
    taken_back(bench, 0, 'a foreign kind and word', [2, 99, 2 ** 64 - 1, 1, 0, 0])
    taken_back(bench, 0, 'a word beyond BIT', [0, BIT, 2, 1, 0, 0])
    for third in (6, 2 ** 64 - 1):
        taken_back(bench, 0, f'{third} as third word of the closing entry', [2, 1, 7, 1, 0, third])
    taken_back(bench, 0, 'one cell three times', [2, 1, 7, 2, 1, 8, 2, 2, 9, 3, 0, 0])
    taken_back(bench, 0, 'foreign words past the used part', [2, 1, 7, 1, 0, 0, 9, 9, 9], used=2)


def tables(bench):
    """The looks before the position."""
    good = [2, 1, 7, 1, 0, 0]
    taken_back(bench, 1, 'not whole', good, nodes=[4])
    taken_back(bench, 2, 'a word', good, nodes=[7, 0, 0])
    taken_back(bench, 3, 'two names', good, externs=[21, 4, 0, 0] * 2)
    taken_back(bench, 10, 'cells', good, regions=[11, 0, 4097])
    taken_back(bench, 4, 'memory', good, memory=17)
    taken_back(bench, 4, 'journal not whole', good + [0], used=2)
    taken_back(bench, 4, 'journal too long', marked(good, 6147), used=2)
    taken_back(bench, 1, 'not whole and a word', good, nodes=[7, 0, 0], externs=[1])
    taken_back(bench, 2, 'a word and two names', good, nodes=[7, 0, 0], externs=[21, 4, 0, 0] * 2)
    taken_back(bench, 3, 'two names and cells', good, regions=[11, 0, 4097] * 2)
    taken_back(bench, 10, 'cells and journal', good + [0], regions=[11, 0, 4097])
    taken_back(bench, 4, 'journal and position', good + [0], row=9)
    taken_back(bench, 0, 'OTHER and type errors are not looked at', good, instructions=quil.program('OTHER', 'ADD q[0] 1'))
    taken_back(bench, 0, 'a CALL of no extern is not looked at', good, instructions=quil.program('CALL q 0 0'))
    for rows in (('JUMP @1', 'NOP'), ('LABEL @1', 'LABEL @1'), ('LABEL @1', 'JUMP-WHEN @1 q[0]'), ('CONVERT n[0] q[0]',), ('MOVE o[0] 300',)):
        taken_back(bench, 0, ', '.join(rows) + ' are not looked at', good, instructions=quil.program(*rows))


def write(script):
    bench = Bench(script)
    script.heading('back:')
    for group in (restored, positions, rows_left, fewer_entries, journals, tables):
        group(bench)
