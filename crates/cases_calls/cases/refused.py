"""Rows that forward turns down: each refusal at each place where it can arise."""
from rules.tables import ARITHMETIC, COMPARISON, FRAME, LOGIC

from . import quil
from .bench import ENTRIES, Bench
from .quil import operators
from .script import marked

# Cells that no rule reads: a kind above 3, or a word beyond its kind.
FOREIGN = ('4:0', '18446744073709551615:0', 'BIT:2', 'OCTET:256')
# A row, cells that it reads, and the kinds that it does not take there.
NOT_NUMBERS, NOT_INTEGER, NOT_BITS = ('BIT:1', 'OCTET:1'), ('BIT:1', 'OCTET:1', 'REAL:0.0'), ('REAL:0.0',)
ROWS = (
    *((f'{name} n[0] n[1]', ('n0', 'n1'), NOT_INTEGER) for name in operators(ARITHMETIC)),
    *((f'{name} r[0] r[1]', ('r0', 'r1'), ('BIT:1', 'OCTET:1', 'INTEGER:1')) for name in operators(ARITHMETIC)),
    *((f'{name} n[0] 2', ('n0',), NOT_INTEGER) for name in operators(ARITHMETIC)),
    ('ADD r[0] 2.5', ('r0',), ('BIT:1', 'OCTET:1', 'INTEGER:1')),
    *((f'{name} a[0] n[0] n[1]', ('n0', 'n1'), NOT_INTEGER) for name in operators(COMPARISON)),
    ('EQ a[0] o[0] o[1]', ('o0', 'o1'), ('BIT:1', 'INTEGER:1', 'REAL:0.0')),
    ('GT a[0] r[0] r[1]', ('r0', 'r1'), ('BIT:1', 'OCTET:1', 'INTEGER:1')),
    ('LE a[0] a[0] a[1]', ('a0', 'a1'), ('INTEGER:1', 'OCTET:1', 'REAL:0.0')),
    ('LT a[0] n[0] 5', ('n0',), NOT_BITS),
    ('GE a[0] r[0] 5.0', ('r0',), ('BIT:1', 'OCTET:1', 'INTEGER:1')),
    *((f'{name} n[0] n[1]', ('n0', 'n1'), NOT_BITS) for name in operators(LOGIC)),
    *((f'{name} o[0] 1', ('o0',), NOT_BITS) for name in operators(LOGIC)),
    ('NEG n[0]', ('n0',), NOT_NUMBERS),
    ('NOT n[0]', ('n0',), NOT_BITS),
    ('MOVE n[0] 5', (), ()),
    ('MOVE r[0] 1.5', (), ()),
    ('MOVE n[0] n[1]', ('n1',), ()),
    ('EXCHANGE n[0] n[1]', ('n0', 'n1'), ()),
    ('LOAD n[0] r n[1]', ('n1',), NOT_INTEGER),
    ('STORE n n[1] n[2]', ('n2',), ()),
    ('STORE n n[1] n[2]', ('n1',), NOT_INTEGER),
    ('STORE n n[1] 5', ('n1',), NOT_INTEGER),
    ('STORE r n[1] 1.5', ('n1',), NOT_INTEGER),
    ('CONVERT r[0] n[1]', ('n1',), NOT_NUMBERS),
    ('CONVERT n[0] r[1]', ('r1',), NOT_NUMBERS),
)
LENGTHS = {name: length for name, _, length in quil.BENCH}


def one_of_each():
    """Each row once, whatever cells it is listed with."""
    return dict.fromkeys(row for row, _, _ in ROWS)


def names(bench):
    for row in one_of_each():
        name, *operands = row.split()
        for k, operand in enumerate(operands):
            if operand[0] in LENGTHS:
                bench.step(18, ' '.join([name, *operands[:k], 'q' + operand[1:], *operands[k + 1:]]))


def written_indices(bench):
    for row in one_of_each():
        name, *operands = row.split()
        for k, operand in enumerate(operands):
            if '[' in operand:
                length = LENGTHS[operand[0]]
                for region, index in ((operand[0], length), (operand[0], length + 1), (operand[0], -1), ('e', 0)):
                    bench.step(14, ' '.join([name, *operands[:k], f'{region}[{index}]', *operands[k + 1:]]))
    bench.step(14, f'MOVE n[{2 ** 63}] 1')
    bench.step(14, 'MOVE a[2] n[0]')


def read_cells(bench):
    for row, cells, kinds in ROWS:
        for cell in cells:
            for value in FOREIGN + tuple(kinds):
                bench.step(18, row, f'{cell}={value}')


def literal_targets(bench):
    """In move and store a literal's target is read for its kind alone."""
    for row, cells in (('MOVE n[0] 5', 'n0={}'), ('STORE n n[1] 5', 'n1=2 n2={}')):
        for kind in ('REAL:0.0', '4:0', '18446744073709551615:1'):
            bench.step(18, row, cells.format(kind))
    for row, cells in (('MOVE r[0] 1.5', 'r0={}'), ('STORE r n[1] 1.5', 'n1=1 r1={}')):
        for kind in ('BIT:0', 'INTEGER:0', 'OCTET:0', '4:0'):
            bench.step(18, row, cells.format(kind))


def index_from_a_cell(bench):
    for row in ('LOAD n[0] r n[1]', 'STORE r n[1] r[0]', 'STORE r n[1] 1.5'):
        for offset in (2, 3, -1, -2 ** 63):
            bench.step(14, row, f'n1={offset}')
    for row in ('LOAD n[0] e n[1]', 'STORE e n[1] n[0]', 'STORE e n[1] 5'):
        bench.step(14, row, 'n1=0')


def cell_reached(bench):
    for value in FOREIGN:
        bench.step(18, 'LOAD n[0] o n[1]', f'n1=1 o1={value}')


def unfit_literals(bench):
    """Literals outside a BIT's or an OCTET's numbers, whatever word the target has; more of them in literals.py."""
    for literal, targets in ((300, 'ao'), (-1, 'ao'), (255, 'a')):
        for target in targets:
            bench.step(24, f'MOVE {target}[0] {literal}')
    for cells in ('o0=BIT:7', 'o0=999'):
        bench.step(24, 'MOVE o[0] 300', cells)
    for offset in (0, 1):
        bench.step(24, 'STORE o n[2] -2', f'n2={offset}')
    for cells in ('n0=1 o1=BIT:9', 'n0=1 o1=256'):
        bench.step(24, 'STORE o n[0] 300', cells)


def zero_divisors(bench):
    bench.step(15, 'DIV n[0] n[1]', 'n0=5')
    bench.step(15, 'DIV n[0] 0', 'n0=-5')
    bench.step(15, 'DIV n[0] n[0]', 'n0=0')
    bench.step(15, 'DIV o[0] r[0]', 'o0=INTEGER:1 r0=INTEGER:0')


def negative_counts(bench):
    for name in ('SHL', 'SHR', 'ASHR'):
        for target in 'ano':
            for count in (-1, -2 ** 63):
                bench.step(16, f'{name} {target}[0] {count}')
            bench.step(16, f'{name} {target}[0] n[1]', 'n1=-1')
    bench.step(16, 'SHL n[0] n[0]', 'n0=-64')


def not_integers(bench):
    """NaNs, infinities and the greatest sizes; 2^63 and the REAL past it, the REAL past -2^63; 2^64 and the REAL before it, of both signs."""
    for word in ('7FF8000000000000', 'FFF8000000000000', '7FF0000000000001', 'FFF0000000000001', '7FFFFFFFFFFFFFFF', 'FFFFFFFFFFFFFFFF', '7FF0000000000000',
                 'FFF0000000000000', '7FEFFFFFFFFFFFFF', 'FFEFFFFFFFFFFFFF', '43E0000000000000', '43E0000000000001', 'C3E0000000000001', '43F0000000000000',
                 'C3F0000000000000', '43EFFFFFFFFFFFFF', 'C3EFFFFFFFFFFFFF'):
        bench.step(23, 'CONVERT n[0] r[0]', f'r0=0f{word}')
    bench.step(23, 'CONVERT r[0] r[0]', 'r0=inf')
    bench.step(23, 'CONVERT a[0] n[0]', 'n0=REAL:nan')


def journal_room(bench):
    """One entry short, and an exact fit."""
    for row, changes in (('NOP', 0), ('NEG n[0]', 1), ('MOVE o[0] 255', 1), ('STORE a n[0] 1', 1), ('EXCHANGE n[0] n[1]', 2),
                         ('CONVERT r[0] n[0]', 1), ('CONVERT n[0] r[0]', 1)):
        for used in (0, 1, 3):
            bench.step(13, row, entries=used + changes, used=used)
            bench.step(0, row, entries=used + changes + 1, used=used)


def replies(bench):
    """Outside a call any reply is unfit."""
    for row in ('NOP', 'NEG n[0]', 'EXCHANGE n[0] n[1]', 'LOAD n[0] n n[1]', 'STORE n n[1] 5', 'CONVERT r[0] n[0]'):
        bench.step(17, row, reply=(0, 0, 1, 5))
    bench.step(17, 'NOP', reply=(0,))
    bench.script.heading('SET-PHASE with a reply')
    bench.tables(quil.row('SET-PHASE 0 1'), nodes=[4, 0, 0])
    bench.lend()
    bench.expect(17, bench.script.forward((0, 0, 0, 0)), 'frame')


def other_instruction(bench):
    bench.step(9, 'OTHER')
    bench.step(9, 'OTHER', reply=(0, 0, 0, 0))


def positions(bench):
    bench.tables(quil.program('NOP', 'NEG n[0]'))
    for number, row, steps, used in (
            (11, 2, 0, 0), (11, 2, 2, ENTRIES), (11, 2, ENTRIES, ENTRIES), (19, 3, 0, 0), (19, 3, 3, ENTRIES), (19, 2 ** 64 - 1, 0, 0), (19, 0, 0, ENTRIES + 1),
            (19, 1, 1, 2 ** 64 - 1), (19, 2, 2, ENTRIES + 1), (19, 0, 1, 0), (19, 2, 2, 1), (19, 0, ENTRIES + 1, ENTRIES), (19, 0, 2 ** 64 - 1, ENTRIES),
            (13, 1, 1, ENTRIES - 1), (13, 0, 0, ENTRIES), (0, 1, 1, 2), (0, 1, 0, 0), (0, 0, 0, 3), (0, 0, 3, 3)):
        bench.script.heading(f'row {row} of 2, {steps} steps, used {used} of {ENTRIES}')
        bench.lend(used=used, row=row, steps=steps)
        bench.expect(number, bench.script.forward(), 'position')
    bench.script.heading('an empty program')
    bench.tables([])
    bench.lend()
    bench.expect(11, bench.script.forward(), 'empty')


def buffers(bench):
    """Memory of 9 cells, and journals not whole or too long."""
    bench.tables(quil.row('NEG n[0]'))
    for number, memory, journal in ((4, 17, 12), (4, 0, 12), (0, 18, 12), (0, 19, 12), (4, 18, 11), (4, 18, 13), (4, 18, 1), (13, 18, 0), (13, 18, 3),
                                    (0, 18, 6), (0, 18, 6144), (4, 18, 6145), (4, 18, 6147)):
        bench.script.heading(f'{memory} words of memory, {journal} of journal')
        bench.script.lend_memory(marked(quil.cells('n0=1')[:memory], memory))
        bench.script.lend_journal(marked([], journal))
        bench.script.place(0, 0, 0)
        bench.expect(number, bench.script.forward(), 'buffers')


def many_cells(bench):
    for number, lengths in ((0, (4096,)), (0, (4000, 0, 96)), (10, (4097,)), (10, (4000, 97)), (10, (2 ** 64 - 1, 1)), (10, (2 ** 63, 2 ** 63))):
        bench.script.heading(f'regions of {" and ".join(map(str, lengths))} cells')
        bench.tables(quil.row('NOP'), regions=[word for k, length in enumerate(lengths) for word in (k, 0, length)])
        bench.script.lend_memory(marked([], 8192))
        bench.script.lend_journal(marked([], 12))
        bench.script.place(0, 0, 0)
        bench.expect(number, bench.script.forward(), 'cells')


def loader(bench):
    """A few of each: the loader has its own program."""
    regions, nop = quil.regions(), quil.row('NOP')
    extern = [21, 4, 0, 0]
    for number, what, changed in (
            (1, 'regions not whole', {'regions': regions[:-1]}), (1, 'instructions not whole', {'instructions': nop[:8]}),
            (1, 'an extern and a word', {'externs': extern + [1]}), (2, 'a region of kind 4', {'regions': [11, 4, 1]}),
            (2, 'a frame of no node', {'instructions': [FRAME, 0, 0, 0, 0, 0, 3, 0, 0]}),
            (2, 'a CALL past the arguments', {'instructions': [9, 0, 21, 0, 1, 0, 3, 0, 0]}),
            (2, 'a region operand with an index', {'instructions': [7, 0, 12, 1, 12, 0, 0, 5, 0]}),
            (3, 'two regions a', {'regions': regions + [11, 0, 1]}), (3, 'two externs f', {'externs': extern * 2})):
        bench.script.heading(what)
        bench.tables(**{'instructions': nop, **changed})
        bench.lend()
        bench.expect(number, bench.script.forward(), what)
    over_limits(bench)


def over_limits(bench):
    rows = ([1, 0, 0], [1, 4, 0, 0], [1, 0, 0, 0, 0], [4, 0, 0], [0, 1, 0], quil.row('NOP'))
    for which, (row, limit) in enumerate(zip(rows, (64, 32, 256, 2048, 1024, 512))):
        for count, number in ((limit, 3 if which < 2 else 0), (limit + 1, 1)):
            bench.script.heading(f'{count} rows in table {which}')
            bench.tables(quil.row('NOP'), regions=[])
            bench.script.table(which, row, count * len(row))
            bench.lend()
            bench.expect(number, bench.script.forward(), 'limits')


def write(script):
    bench = Bench(script)
    for group in (names, written_indices, read_cells, literal_targets, index_from_a_cell, cell_reached, unfit_literals, zero_divisors, negative_counts,
                  not_integers, journal_room, replies, other_instruction, positions, buffers, many_cells, loader):
        script.heading(group.__name__.replace('_', ' ') + ':')
        group(bench)
