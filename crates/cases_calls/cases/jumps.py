"""Families 11 to 15 in forward and back: where each row leads, what a condition is, loops there and back."""
from . import quil
from .bench import ENTRIES, Bench
from .labels import stepped
from .lists import COUNTDOWN
from .opens import opened
from .orders import REPLY
from .refused import FOREIGN

# What is written at a row between two labels, cells, and the label that it leads to, or None for the next row.
WAYS = (
    ('JUMP @1', '', 1), ('JUMP @2', '', 2), ('LABEL @3', '', None), ('NOP', '', None),
    ('JUMP-WHEN @1 a[1]', 'a0=1 a1=0', None), ('JUMP-WHEN @1 a[1]', 'a0=0 a1=1', 1), ('JUMP-WHEN @2 a[1]', 'a0=1 a1=0', None),
    ('JUMP-WHEN @2 a[0]', 'a0=1 a1=0', 2), ('JUMP-UNLESS @1 a[1]', 'a0=1 a1=0', 1), ('JUMP-UNLESS @1 a[1]', 'a0=0 a1=1', None),
    ('JUMP-UNLESS @2 a[1]', 'a0=1 a1=0', 2), ('JUMP-UNLESS @2 a[0]', 'a0=1 a1=0', None),
    # Kinds are read from cells, never from declarations.
    ('JUMP-WHEN @1 n[2]', 'n2=BIT:1', 1), ('JUMP-UNLESS @2 r[0]', 'r0=BIT:0', 2))


def led(bench, rows, at, cells, to):
    """One entry, no change; back is at the row left. The steps taken are other than the row."""
    script = bench.script
    stepped(bench, 0, *rows, at=(at, 1, 2), cells=cells)
    assert script.position == (to, 2, 3), (rows, script.position)
    assert script.journal[6:9] == [0, at, 0], rows
    bench.expect(0, script.back(), rows)
    assert script.position == (at, 1, 2), rows


def ways(bench):
    """"A taken jump goes to its LABEL's row (WHEN on 1, UNLESS on 0), HALT to the end"."""
    for row, cells, label in WAYS:
        led(bench, ('NOP', 'LABEL @1', row, 'NOP', 'LABEL @2', 'NOP'), 2, cells, {1: 1, 2: 4, None: 3}[label])
        # As the last row: the next one is the end.
        led(bench, ('LABEL @2', 'NOP', 'LABEL @1', row), 3, cells, {1: 2, 2: 0, None: 4}[label])
        # As the first, before the LABEL.
        led(bench, (row, 'LABEL @1', 'LABEL @2'), 0, cells, {1: 1, 2: 2, None: 1}[label])
    for rows, at in ((('HALT',), 0), (('HALT', 'NOP', 'NOP'), 0), (('NOP', 'HALT', 'LABEL @1', 'JUMP @1'), 1), (('NOP', 'NOP', 'HALT'), 2)):
        led(bench, rows, at, '', len(rows))
    # A label's number is no row's, and no region's.
    led(bench, ('JUMP @0', 'LABEL @2', 'LABEL @1', 'LABEL @0'), 0, '', 3)
    led(bench, ('LABEL @n', 'JUMP-WHEN @a a[0]', 'LABEL @a'), 1, 'a0=1', 2)


def changes(bench):
    """A row's own entries come before the closing one, which has the row left."""
    for row, count in (('NEG n[0]', 1), ('EXCHANGE n[0] n[1]', 2)):
        stepped(bench, 0, 'NOP', 'NOP', row, at=(2, 0, 0), cells='n0=5')
        assert bench.script.journal[3 * count:3 * count + 3] == [count, 2, 0]
        bench.expect(0, bench.script.back(), row)


def conditions(bench):
    """A name (18), a written index (14), a cell that has a rule only as BIT (18), in this order and before 13; a reply is 17 before them."""
    for name in ('JUMP-WHEN', 'JUMP-UNLESS'):
        for number, condition, cells in (
                (18, 'q[0]', ''), (18, 'q[9]', ''), (18, 'g[0]', ''), (14, 'a[2]', 'a0=4:0 a1=4:0'), (14, 'a[-1]', ''), (14, f'a[{2 ** 63}]', ''),
                (14, 'e[0]', ''), (18, 'n[0]', ''), (18, 'o[0]', 'o0=1'), (18, 'r[0]', ''), *((18, 'a[0]', f'a0={value}') for value in FOREIGN),
                *((18, 'a[0]', f'a0={kind}:{word}') for kind in ('INTEGER', 'OCTET') for word in (0, 1)), (18, 'a[0]', 'a0=REAL:0.0')):
            stepped(bench, number, f'{name} @1 {condition}', 'LABEL @1', cells=cells)
            stepped(bench, 17, f'{name} @1 {condition}', 'LABEL @1', cells=cells, reply=REPLY)
            stepped(bench, number, f'{name} @1 {condition}', 'LABEL @1', cells=cells, entries=0)
        # Not the other cell of the region.
        stepped(bench, 0, f'{name} @1 a[0]', 'LABEL @1', cells='a1=4:9')


def room(bench):
    """One entry each: none left is 13, one is enough; outside a CALL a reply is 17."""
    for row in ('JUMP @1', 'JUMP-WHEN @1 a[0]', 'JUMP-UNLESS @1 a[0]', 'LABEL @2', 'HALT'):
        for number, used in ((0, ENTRIES - 1), (13, ENTRIES)):
            stepped(bench, number, row, 'LABEL @1', at=(0, 0, used))
        stepped(bench, 17, row, 'LABEL @1', reply=REPLY)
        stepped(bench, 17, row, 'LABEL @1', reply=(0,), at=(0, 0, ENTRIES))


def pressed(bench, play, count, what):
    for _ in range(count):
        bench.expect(0, play(), what)


def loops(bench):
    """Key by key to the end and to the start again; more steps than rows."""
    script = bench.script
    opened(bench, 0, '; '.join(COUNTDOWN), journal=3 * 27, instructions=quil.program(*COUNTDOWN))
    start = list(script.memory)
    pressed(bench, script.forward, 5, 'once round')
    assert script.position == (1, 5, 8)
    pressed(bench, script.back, 2, 'back over the jump')
    assert script.position == (3, 3, 5)
    pressed(bench, script.forward, 15, 'to the end')
    assert script.position == (7, 18, 27)
    bench.expect(11, script.forward(), 'the end')
    pressed(bench, script.back, 18, 'to the start')
    assert script.position == (0, 0, 0) and script.memory == start
    bench.expect(12, script.back(), 'the start')


def full_journals(bench):
    """"P2's sum holds without jumps": the sum's entries are soon used in a loop, and suffice where it is not."""
    script = bench.script
    opened(bench, 0, 'LABEL @1; JUMP @1, the sum of 4 entries', journal=12, instructions=quil.program('LABEL @1', 'JUMP @1'))
    pressed(bench, script.forward, 4, 'twice round')
    bench.expect(13, script.forward(), 'full')
    pressed(bench, script.back, 3, 'back')
    assert script.position == (1, 1, 1)
    bench.expect(0, script.forward(), 'again')
    opened(bench, 0, 'LABEL, NEG and HALT, the sum of 6 entries', journal=18, instructions=quil.program('LABEL @1', 'NEG n[0]', 'HALT'))
    pressed(bench, script.forward, 3, 'to the end')
    assert script.position == (3, 3, 4)


def foreign_rows(bench):
    """A forward takes the row that it is given, whatever steps were done; the row past the last is the end."""
    rows = ('NEG n[0]', 'JUMP @1', 'NOP', 'LABEL @1', 'NEG n[1]')
    for row, steps, used, to in ((4, 0, 0, 5), (4, 2, 2, 5), (1, 0, 2, 3), (0, 2, 2, 1)):
        stepped(bench, 0, *rows, at=(row, steps, used))
        assert bench.script.position[:2] == (to, steps + 1)
    for number, row in ((11, 5), (19, 6), (19, 2 ** 63), (19, 2 ** 64 - 1)):
        stepped(bench, number, *rows, at=(row, 0, 0))
        stepped(bench, number, *rows, at=(row, ENTRIES, ENTRIES))


def write(script):
    bench = Bench(script)
    for group in (ways, changes, conditions, room, loops, full_journals, foreign_rows):
        script.heading('jumps, ' + group.__name__.replace('_', ' ') + ':')
        group(bench)
