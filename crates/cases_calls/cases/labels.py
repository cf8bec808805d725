"""Families 11 to 15 in the tables: their words, what calls on tables alone make of them, what is counted, and 20 and 21 with their places in the order."""
from rules.tables import *

from . import quil
from .bench import ENTRIES, Bench
from .calls import F, call_tables
from .lengths import counted, lent
from .loads import FAMILIES, WORD_NAMES
from .opens import opened
from .orders import HUGE, REPLY
from .verdicts import lend
from .walks import MOST

# "First name and index are the condition, second name the label, source form 3": a row of each family, and its words that may be any.
ROWS = (('JUMP @1', (4,)), ('JUMP-WHEN @1 a[1]', (2, 3, 4)), ('JUMP-UNLESS @1 a[1]', (2, 3, 4)), ('LABEL @1', (4,)), ('HALT', ()))
VALUES = (0, 1, 2, 3, 4, MOST)
BAD_CALLS = ((6, 'CALL q'), (7, 'CALL g n'), (8, 'CALL v q'))


def each_word(bench, text, free, names=quil.NAMES):
    """Each wrong word alone is 2; the type check passes the rest. A family's number past the last is 2 with whatever words."""
    row = quil.row(text, names)
    for at, name in enumerate(WORD_NAMES['instructions']):
        bench.script.heading(f'{text}: {name}')
        for value in VALUES if at else FAMILIES:
            lend(bench.script, row[:at] + [value] + row[at + 1:], regions=())
            answer = bench.script.check()
            if at or value > CONVERT:
                bench.expect(0 if at in free or value == row[at] else 2, answer, text)


def words(bench):
    for text, free in ROWS:
        each_word(bench, text, free)


def other_calls(bench):
    """Labels and conditions are not their matter; such a row is no frame and no CALL."""
    script = bench.script
    rows = ('SET-PHASE 0 1', 'CALL g', 'JUMP @1', 'JUMP-WHEN @1 q[0]', 'JUMP-UNLESS @2 n[0]', 'LABEL @3', 'LABEL @3', 'HALT')
    families = (FRAME, CALL, JUMP, JUMP_WHEN, JUMP_UNLESS, LABEL, LABEL, HALT)
    lent(bench, '; '.join(rows), **call_tables(*rows), nodes=[PI, 0, 0])
    bench.expect(0, script.check(), 'check')
    for row, family in enumerate(families):
        bench.expect(0 if family == CALL else 2, script.resolve(row, 0), 'resolve')
        bench.expect(0 if family == CALL else 2, script.access(row, 0, 0), 'access')
        bench.expect(0 if family == FRAME else 2, script.frame(row), 'frame')
        for chosen in range(OTHER, HALT + 2):
            bench.expect(0 if family == chosen else 2, script.look(row, chosen), 'look')


def entries(bench):
    """"2 for every other row"."""
    for rows, count in ((('LABEL @1',), 2), (('HALT',), 2), (('JUMP @1', 'LABEL @1'), 4), (('JUMP-WHEN @1 a[0]', 'LABEL @1'), 4),
                        (('LABEL @1', 'JUMP-UNLESS @1 a[0]'), 4), (('NOP', 'LABEL @1', 'EXCHANGE n[0] n[1]', 'JUMP @1', 'HALT', F), 75)):
        lent(bench, '; '.join(rows), **call_tables(*rows))
        counted(bench, count)


def judged(bench, number, *rows, stepped=None, **tables):
    """By open and journal_length; then by a forward from row 0 on zero cells, which answers alike if not otherwise told."""
    tables = {**call_tables(*rows), **tables}
    opened(bench, number, '; '.join(rows) or 'no row', **tables)
    bench.expect(number, bench.script.journal_length(), rows)
    bench.lend()
    bench.expect(number if stepped is None else stepped, bench.script.forward(), rows)


def faulty_labels(bench):
    """"a label twice or a target absent anywhere in the program". A number that is no LABEL's second name is no label."""
    for rows in (
            ('LABEL @1', 'LABEL @1'), ('NOP', 'LABEL @1', 'LABEL @1', 'JUMP @1'), ('LABEL @1', 'NOP', 'LABEL @2', 'HALT', 'LABEL @1'),
            ('LABEL @0', 'LABEL @1', 'LABEL @0'), (f'LABEL @{MOST}', f'LABEL @{MOST}'), ('JUMP @1',), ('JUMP-WHEN @1 a[0]',), ('JUMP-UNLESS @1 a[0]',),
            ('NOP', 'JUMP @1'), ('HALT', 'JUMP-WHEN @1 a[0]'), ('NOP', 'NOP', 'JUMP-UNLESS @1 a[0]', 'NOP'), ('JUMP @1', 'JUMP @1'),
            ('LABEL @1', 'JUMP @1', 'JUMP @2'), ('LABEL @1', 'JUMP @2', 'JUMP @1'), ('JUMP @0', 'HALT'), ('NOP', 'MOVE n[0] 5', 'JUMP @0'),
            ('JUMP @n', 'EXCHANGE n[0] n[1]'), ('JUMP @a', 'LABEL @n', 'JUMP-WHEN @n a[0]'), ('JUMP @g', 'CALL g'), (f'LABEL @{MOST}', f'JUMP @{MOST - 1}')):
        judged(bench, 20, *rows)


def good_labels(bench):
    """Two jumps to one label, a LABEL never reached, numbers of regions and externs, a jump as the last row."""
    for rows in (
            (), ('LABEL @1',), ('LABEL @1', 'LABEL @2'), ('LABEL @0', 'JUMP @0'), (f'JUMP @{MOST}', f'LABEL @{MOST}'), ('JUMP @1', 'JUMP @1', 'LABEL @1'),
            ('LABEL @1', 'JUMP-WHEN @1 a[0]', 'JUMP-UNLESS @1 a[0]', 'JUMP @1'), ('HALT', 'LABEL @1', 'JUMP @1'), ('LABEL @a', 'JUMP-WHEN @a a[0]'),
            ('LABEL @g', 'CALL g', 'JUMP @g'), ('LABEL @q', 'JUMP @q'), ('LABEL @2', 'LABEL @1', 'LABEL @0', 'JUMP @1')):
        judged(bench, 0, *rows, stepped=0 if rows else 11)
    judged(bench, 0, 'JUMP @1', 'LABEL @1', 'HALT', regions=[])


def conditions(bench):
    """21 is open's alone: a forward goes by the cell, and looks at no other row's condition."""
    for name in ('JUMP-WHEN', 'JUMP-UNLESS'):
        for condition in ('q[0]', 'n[0]', 'o[0]', 'r[0]', 'e[0]', 'g[0]'):
            judged(bench, 21, 'NOP', f'{name} @1 {condition}', 'LABEL @1', stepped=0)
        judged(bench, 21, f'{name} @1 q[0]', 'LABEL @1', stepped=18)
        judged(bench, 21, f'{name} @1 n[0]', 'LABEL @1', stepped=18)
        judged(bench, 21, f'{name} @1 a[0]', 'LABEL @1', 'JUMP-WHEN @1 a[0]', f'{name} @1 o[0]', stepped=0)
        for index in (1, 2, -1):
            judged(bench, 0, f'{name} @1 a[{index}]', 'LABEL @1', stepped=0 if index == 1 else 14)
        judged(bench, 0, f'{name} @1 e[0]', 'LABEL @1', stepped=14, regions=[quil.NAMES['e'], BIT, 0])


def orders_of_open(bench):
    """10, 4, 5, 9, 20, 21, then 6, 7 and 8; 4 not of journal_length."""
    twice, bad = ('LABEL @1', 'LABEL @1'), ('JUMP-WHEN @1 q[0]', 'LABEL @1')
    for number, rows in (
            (5, ('JUMP @1', 'ADD q[0] 1')), (5, ('ADD q[0] 1', *twice)), (5, (*bad, 'ADD q[0] 1')), (9, ('JUMP @1', 'OTHER')), (9, ('OTHER', *twice)),
            (9, (*bad, 'OTHER')), (20, ('JUMP-WHEN @1 q[0]',)), (20, (*bad, 'LABEL @1')), (20, (*bad, 'JUMP @2')), (20, ('JUMP @2', *bad)),
            *((20, (call, *twice)) for _, call in BAD_CALLS), *((20, ('JUMP @1', call)) for _, call in BAD_CALLS),
            *((21, (call, *bad)) for _, call in BAD_CALLS), *((21, (*bad, call)) for _, call in BAD_CALLS),
            *((number, ('LABEL @1', 'JUMP @1', call)) for number, call in BAD_CALLS)):
        opened(bench, number, '; '.join(rows), **call_tables(*rows))
        bench.expect(number, bench.script.journal_length(), rows)
    for number, rows in ((20, ('JUMP @1',)), (21, bad)):
        opened(bench, 4, f'memory, and {"; ".join(rows)}', memory=17, **call_tables(*rows))
        bench.expect(number, bench.script.journal_length(), rows)
        opened(bench, 10, f'cells, and {"; ".join(rows)}', regions=HUGE, **call_tables(*rows))
        bench.expect(10, bench.script.journal_length(), rows)


def stepped(bench, number, *rows, at=(0, 0, 0), cells='', reply=(), entries=ENTRIES):
    bench.script.heading('; '.join(rows) + f' | at {at}' + (f' | {cells}' if cells else '') + (f' | reply {len(reply)} words' if reply else ''))
    bench.tables(**call_tables(*rows))
    row, steps, used = at
    bench.lend(cells, entries, used, row, steps)
    bench.expect(number, bench.script.forward(reply), rows)


def orders_of_forward(bench):
    """19, 11, 9, then 20 before all else, a CALL's looks and another row's; 9 is the row's own."""
    for at in ((2, 0, 0), (0, 1, 0), (0, 0, ENTRIES + 1)):
        stepped(bench, 19, 'JUMP @1', at=at)
    stepped(bench, 11, 'JUMP @1', at=(1, 0, 0))
    stepped(bench, 9, 'OTHER', 'JUMP @1')
    stepped(bench, 9, 'JUMP @1', 'OTHER', at=(1, 1, 1))
    stepped(bench, 20, 'JUMP @1', 'OTHER')
    stepped(bench, 20, 'NOP', 'OTHER', 'JUMP @1')
    for call in ('CALL q', 'CALL g n', 'CALL v q', 'CALL f n[9] a r o', F):
        stepped(bench, 20, call, 'JUMP @1')
    stepped(bench, 20, F, 'JUMP @1', reply=(0,))
    stepped(bench, 20, F, 'JUMP @1', entries=0)
    for row, cells in (('ADD q[0] 1', ''), ('ADD n[3] 1', ''), ('ADD n[0] 1', 'n0=4:0'), ('LOAD n[0] n n[1]', 'n1=3'), ('LOAD n[0] n n[1]', 'n1=2 n2=4:0'),
                       ('DIV n[0] 0', ''), ('SHL n[0] -1', ''), ('JUMP-WHEN @1 q[0]', ''), ('JUMP-UNLESS @1 a[2]', ''), ('JUMP-WHEN @1 a[0]', 'a0=2'),
                       ('CONVERT n[0] r[0]', 'r0=nan'), ('MOVE o[0] 300', ''), ('STORE a n[0] 2', '')):
        stepped(bench, 20, row, 'LABEL @2', 'LABEL @2', cells=cells)
    for row in ('NOP', 'JUMP @1', 'LABEL @1', 'HALT'):
        stepped(bench, 20, row, 'JUMP @2', reply=REPLY)
        stepped(bench, 20, row, 'JUMP @2', entries=0)


def limits(bench):
    """512 labels, of which the last is the first; 256 jumps to 256 labels, one of which is absent."""
    script = bench.script
    labels = [word for k in range(512) for word in quil.row(f'LABEL @{k}')]
    jumps = [word for k in range(256) for word in quil.row(f'JUMP @{k}')]
    for what, rows, led, place, wrong in (('512 labels', labels, 1, 511, 0), ('256 jumps and 256 labels', jumps + labels[:9 * 256], 256, 255, 256)):
        opened(bench, 0, what, instructions=rows)
        bench.expect(0, script.forward(), what)
        assert script.position == (led, 1, 1)
        bench.expect(0, script.journal_length(), what)
        opened(bench, 20, f'{what}, {wrong} as the one of row {place}', instructions=[*rows[:9 * place + 4], wrong, *rows[9 * place + 5:]])
        bench.expect(20, script.journal_length(), what)
        bench.lend()
        bench.expect(20, script.forward(), what)


def write(script):
    bench = Bench(script)
    for group in (words, other_calls, entries, faulty_labels, good_labels, conditions, orders_of_open, orders_of_forward, limits):
        script.heading('labels, ' + group.__name__.replace('_', ' ') + ':')
        group(bench)
