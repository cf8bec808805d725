"""Integer literals of MOVE and STORE: the edges of each kind, whose kind counts, what of the target is read, what is not meant; calls that pass such rows; sessions and loops to 24, back and on."""
from rules.session import ALLOWANCE, END, REFUSAL
from rules.tables import CALL, FRAME, INTEGER, MOVE, PI
from rules.words import bits_of

from . import quil
from .bench import Bench
from .calls import call_tables
from .jumps import pressed
from .labels import judged
from .lengths import counted
from .lines import leaves, unwritten
from .lists import Draw, drawn
from .opens import opened
from .runs import ran, stopped
from .script import marked
from .worked import said

# Literals as typed: every kind's, an OCTET's and an INTEGER's, an INTEGER's alone. Of the last some have low bits that would fit.
BITS, OCTETS = (0, 1), (2, 3, 127, 128, 254, 255)
INTEGERS = (256, 257, 300, 511, 2 ** 16, 2 ** 32, 2 ** 32 + 1, 2 ** 63 - 1, 2 ** 63, 2 ** 64 - 256, 2 ** 64 - 1, -1, -2, -128, -255, -256, -2 ** 32, -2 ** 63)
TAKEN = {'BIT': BITS, 'OCTET': BITS + OCTETS, 'INTEGER': BITS + OCTETS + INTEGERS}
# "outside 0 to 1 for BIT or 0 to 255 for OCTET", by what is declared.
UNFIT = ('MOVE a[0] 2', 'MOVE a[1] -1', 'MOVE o[0] 300', f'MOVE o[1] {-2 ** 63}', 'STORE a n[0] 255', 'STORE a n[1] -2', 'STORE o n[0] 256', f'STORE o n[2] {2 ** 63 - 1}')


def rows_into(region, literal, held):
    """A MOVE and a STORE into a region's second cell, which holds a kind and a word."""
    yield f'MOVE {region}[1] {literal}', f'{region}1={held}'
    yield f'STORE {region} n[2] {literal}', f'n2=1 {region}1={held}'


def put(bench, region, literal, kind, word=None):
    """Into a cell of the kind, with another word if none is told: the literal whole and the cell's kind, or 24."""
    word = int(literal == 0) if word is None else word
    for row, cells in rows_into(region, literal, f'{kind}:{word}'):
        if literal not in TAKEN[kind]:
            unwritten(bench, 24, row, cells)
            continue
        leaves(bench, row, cells, f'{region}1', literal)
        assert bench.script.memory[2 * quil.cell_of(f'{region}1')] == quil.KINDS[kind], row


def edges(bench):
    """A literal is a signed number: the words from 2^63 on are negative ones. An INTEGER takes each."""
    for region, kind in (('a', 'BIT'), ('o', 'OCTET'), ('n', 'INTEGER')):
        for literal in TAKEN['INTEGER']:
            put(bench, region, literal, kind)


def kinds(bench):
    """"A step reads kinds from cells, never declarations"."""
    for region, others in (('a', ('OCTET', 'INTEGER')), ('o', ('BIT', 'INTEGER')), ('n', ('BIT', 'OCTET')), ('r', TAKEN)):
        for kind in others:
            for literal in (0, 1, 2, 255, 256, -1):
                put(bench, region, literal, kind)


def foreign_words(bench):
    """The target "is read for its kind alone": its word may be beyond it."""
    for region in 'ao':
        for kind, words in (('BIT', (2, 256, -1)), ('OCTET', (256, -1)), ('INTEGER', (-1,))):
            for word in words:
                for literal in (1, 2, 255, 256):
                    put(bench, region, literal, kind, word)


def without_rule(bench):
    """"No rule for REAL", nor for a kind above 3, whatever the literal."""
    for region, held in (('r', 'REAL:1.5'), ('o', 'REAL:0.0'), ('o', '4:0'), ('a', '4:2'), ('n', f'{2 ** 64 - 1}:1')):
        for literal in (0, 1, 300, -1):
            for row, cells in rows_into(region, literal, held):
                unwritten(bench, 18, row, cells)


def not_meant(bench):
    """Words that are copied, real literals whatever their bits, literals in other rows."""
    for row, cells, cell, word in (
            ('MOVE o[0] n[1]', 'n1=300', 'o0', 300), ('STORE a n[0] n[1]', 'n0=1 n1=-1', 'a1', -1), ('LOAD a[0] n n[1]', 'n1=2 n2=256', 'a0', 256),
            ('MOVE a[0] 1.5', 'a0=REAL:0.0', 'a0', bits_of(1.5)), ('STORE r n[0] 300.0', 'n0=1', 'r1', bits_of(300.0)),
            ('ADD o[0] 300', 'o0=INTEGER:4', 'o0', 304), ('GT a[0] o[0] -1', 'o0=5', 'a0', 1), ('EQ a[0] o[0] 261', 'a0=1 o0=5', 'a0', 0)):
        leaves(bench, row, cells, cell, word)
    for row in ('MOVE o[0] 0f0000000000000001', 'STORE a n[0] 0f0000000000000002', 'MOVE n[0] 300.0', 'ADD o[0] 300', 'SUB a[0] -1'):
        unwritten(bench, 18, row)


def other_calls(bench):
    """"the type check still passes such rows": 24 is forward's, at the row itself."""
    script = bench.script
    rows = ('SET-PHASE 0 1', 'CALL g', *UNFIT)
    opened(bench, 0, '; '.join(rows), **call_tables(*rows), nodes=[PI, 0, 0])
    counted(bench, 1 + 65 + 2 * len(UNFIT))
    bench.expect(0, script.check(), 'check')
    bench.expect(0, script.frame(0), 'frame')
    bench.expect(0, script.resolve(1, 0), 'resolve')
    bench.expect(0, script.access(1, 0, 0), 'access')
    for row, family in enumerate((FRAME, CALL, MOVE)):
        bench.expect(0, script.look(row, family), 'look')
    for row in UNFIT:
        judged(bench, 0, row, stepped=24)
        judged(bench, 0, 'NOP', row, stepped=0)


def sessions(bench):
    """To 24 by key and by run, back and there again; past it once the target has another kind."""
    script, rows = bench.script, ('MOVE n[0] 5', 'MOVE o[0] 300', 'NOP')
    opened(bench, 0, '; '.join(rows), journal=15, instructions=quil.program(*rows))
    pressed(bench, script.forward, 1, 'the first row')
    for _ in range(2):
        bench.expect(24, script.forward(), 'forward')
        said(script, 'forward 24 | 1 1 2 | |')
    ran(bench, 5, 0, REFUSAL, 24)
    pressed(bench, script.back, 1, 'to the start')
    bench.expect(12, script.back(), 'the start')
    ran(bench, 5, 1, REFUSAL, 24)
    script.lend_memory(marked(quil.cells('n0=5 o0=INTEGER:7'), 20))
    ran(bench, 5, 2, END)
    said(script, 'run 0 | 3 3 5 2 1 0 | 11:300 | 6:5 7:1 8:7 9:1 10:1 11:0 12:0 13:2 14:0')
    pressed(bench, script.back, 2, 'before the literal')
    said(script, 'back 0 | 1 1 2 | 11:7 |')
    script.lend_memory(marked(quil.cells('n0=5 o0=BIT:1'), 20))
    bench.expect(24, script.forward(), 'forward')


def after_fitting(bench):
    """The steps before are kept: literals that fit, up to the one that does not."""
    rows = ('MOVE a[1] 1', 'STORE o n[0] 255', 'MOVE n[0] 300', 'STORE a n[1] 2', 'NOP')
    stopped(bench, 24, 3, *rows, entries=6)
    assert bench.script.memory[:18] == quil.cells('a1=1 o0=255 n0=300')


# Once round; then the cells are as they were, and the target is the OCTET. 6 steps in 11 entries.
SWAPPED = ('LABEL @1', 'EXCHANGE o[0] n[0]', 'MOVE o[0] 300', 'JUMP @1')
# Once round; then the offset is that of the OCTET. 6 steps in 10 entries.
PASSED = ('EXCHANGE o[0] n[2]', 'LABEL @1', 'STORE o n[0] 300', 'ADD n[0] 1', 'JUMP @1')


def loops(bench):
    """A row that is taken and then is 24, in programs that open turns down: a run to 24, back key by key, and a part of the way again."""
    script, before = bench.script, quil.cells()
    for rows, entries in ((SWAPPED, 11), (PASSED, 10)):
        stopped(bench, 24, 6, *rows, entries=entries)
        bench.expect(24, script.forward(), 'forward')
        pressed(bench, script.back, 6, 'to the start')
        assert script.position == (0, 0, 0) and script.memory[:len(before)] == before
        ran(bench, 3, 3, ALLOWANCE)
        at = 2 * quil.cell_of('o0')
        assert script.memory[at:at + 2] == [INTEGER, 300]


def lists(bench):
    """Drawn lists of calls, which come to 24 from either side."""
    draw = Draw(24)
    for entries in (8, 12, 16, 20):
        for rows in (('MOVE a[0] 1', 'MOVE n[0] -1', 'STORE o n[1] 300', 'NOP'), SWAPPED, PASSED):
            bench.script.place(0, 0, 0)
            drawn(bench, draw, '; '.join(rows), entries, {'instructions': quil.program(*rows)})


def write(script):
    bench = Bench(script)
    for group in (edges, kinds, foreign_words, without_rule, not_meant, other_calls, sessions, after_fitting, loops, lists):
        script.heading('literals, ' + group.__name__.replace('_', ' ') + ':')
        group(bench)
