"""Lists of calls over a few programs, drawn by a fixed generator."""
from rules import calls as resolving
from rules.outcome import Refused
from rules.tables import *
from rules.words import bits_of

from . import quil
from .bench import Bench
from .calls import F, H, call_tables
from .script import marked

LISTS, SHORTEST, LONGEST = 84, 10, 30
ENTRY_COUNTS = (0, 1, 2, 3, 3, 5, 8, 12, 20)
ALLOWANCES = (0, 1, 2, 5, 2 ** 64 - 1)
FOREIGN_WORDS = (0, 1, 2, 3, 4, 255, 256, 2 ** 63, 2 ** 64 - 1)
VALUES = {BIT: (0, 1), INTEGER: (0, 1, 5, 2 ** 64 - 1), OCTET: (0, 7, 255), REAL: (0, bits_of(-1.5), 0x7FF0000000000001)}
# 18 steps in 27 entries: MOVE, four times round, then HALT before a row that is never reached.
COUNTDOWN = ('MOVE n[0] 5', 'LABEL @1', 'SUB n[0] 1', 'GT a[0] n[0] 1', 'JUMP-WHEN @1 a[0]', 'HALT', 'MOVE n[1] 9')

# The count 40 times 1.0e9 by way of a REAL, again and again: the second time it is no INTEGER, after 9 steps in 15 entries.
SCALED = ('MOVE n[0] 40', 'LABEL @1', 'CONVERT r[0] n[0]', 'MUL r[0] 1.0e9', 'CONVERT n[0] r[0]', 'JUMP @1')


class Draw:
    """A linear congruential generator (Knuth's MMIX), so that the lists are the same everywhere."""

    def __init__(self, seed):
        self.state = seed

    def below(self, limit):
        self.state = (self.state * 6364136223846793005 + 1442695040888963407) % 2 ** 64
        return (self.state >> 33) % limit

    def of(self, choices):
        return choices[self.below(len(choices))]


def programs():
    plain = ('MOVE n[0] 5', 'MOVE o[0] 44', 'ADD n[0] n[1]', 'EXCHANGE n[0] n[2]', 'NOT o[0]', 'GT a[0] n[0] 2', 'NOP', 'MOVE n[1] 1',
             'STORE n n[1] 9')
    divides = ('MOVE n[1] 0', 'DIV n[0] n[1]', 'MOVE n[1] 2')
    shifts = ('MOVE n[0] -1', 'SHL o[0] n[0]', 'NEG n[0]')
    reals = ('MOVE r[0] 1.5', 'DIV r[0] r[1]', 'EXCHANGE r[0] r[1]', 'LT a[1] r[0] r[1]', 'LOAD r[1] r n[0]', 'SUB r[0] r[0]', 'XOR a[1] a[0]')
    others = ('NEG n[0]', 'EXCHANGE n[0] n[0]', 'OTHER', 'NOP')
    yield 'no CALL', {'instructions': quil.program(*plain)}
    yield 'REAL', {'instructions': quil.program(*reals)}
    yield 'divided by 0', {'instructions': quil.program(*divides)}
    yield 'shifted by -1', {'instructions': quil.program(*shifts)}
    yield 'OTHER inside', {'instructions': quil.program(*others)}
    yield 'CALLs', call_tables(F, H, 'CALL g', F)
    yield 'CALLs and others', call_tables('MOVE n[0] 1', F, 'ADD n[2] n[0]', 'CALL v n')
    yield 'a loop', {'instructions': quil.program(*COUNTDOWN)}
    yield 'a loop around a CALL', call_tables('LABEL @a', F, 'NOT a[0]', 'JUMP-UNLESS @a a[1]', 'JUMP-WHEN @n a[0]', 'EXCHANGE n[0] n[2]', 'LABEL @n', 'HALT')
    yield 'a loop of CONVERTs', {'instructions': quil.program(*SCALED)}
    yield 'a label twice', {'instructions': quil.program('NEG n[0]', 'LABEL @1', 'JUMP @1', 'LABEL @1')}
    yield 'a condition not BIT', {'instructions': quil.program('LABEL @1', 'NOT n[0]', 'JUMP-UNLESS @1 n[0]')}


def row_at(script):
    rows = rows_of(script.tables[5], 5)
    return rows[script.position[0]] if script.position[0] < len(rows) else None


def targets(script, row):
    tables = decoded(script.tables)
    try:
        return [(k, target) for k, target in enumerate(resolving.resolve(tables, row)) if target.mutable]
    except Refused:
        return []


def reply(draw, script):
    """For a CALL a few rows, mostly fit; else mostly none."""
    row = row_at(script)
    if row is None or row.family != CALL:
        return () if draw.below(8) else (0, 0, 1, 1)
    found, words = targets(script, row), []
    for _ in range(draw.below(4)):
        if not found:
            break
        k, target = draw.of(found)
        offset = draw.below(target.length) if isinstance(target, resolving.Vector) and target.length else 0
        words += [k, offset, target.kind, draw.of(VALUES[target.kind])]
    if words and draw.below(4) == 0:
        words[draw.below(len(words))] = draw.of(FOREIGN_WORDS)
    return tuple(words)


def plant(draw, script):
    """A foreign word in a cell, or in the journal."""
    held, lend = draw.of(((script.memory, script.lend_memory), (script.journal, script.lend_journal)))
    if held:
        words = list(held)
        words[draw.below(len(words))] = draw.of(FOREIGN_WORDS)
        lend(words)


def play(draw, script):
    chosen = draw.below(24)
    if chosen < 11:
        script.forward(reply(draw, script))
    elif chosen < 17:
        script.back()
    elif chosen < 19:
        plant(draw, script)
    elif chosen < 20:
        script.open()
    elif chosen < 21:
        misplaced(draw, script)
    else:
        script.run(draw.of(ALLOWANCES))


def misplaced(draw, script):
    """A call from a foreign position, which is then put back."""
    kept = script.position
    script.place(draw.below(12), draw.below(5), draw.below(8))
    draw.of((script.forward, script.back, lambda: script.run(draw.below(5))))()
    script.place(*kept)


def drawn(bench, draw, what, entries, tables):
    """A list over the program, on zero cells where open turns it down."""
    script = bench.script
    script.heading(f'{what}, {entries} entries')
    bench.tables(**tables)
    script.lend_memory(marked([], 20))
    script.lend_journal(marked([], 3 * entries))
    if script.open() != 0:
        script.lend_memory(marked(quil.cells(), 20))
    for _ in range(SHORTEST + draw.below(LONGEST - SHORTEST + 1)):
        play(draw, script)


def write(script):
    bench = Bench(script)
    draw = Draw(2026)
    listed = list(programs())
    for number in range(LISTS):
        what, tables = listed[number % len(listed)]
        drawn(bench, draw, f'list {number}: {what}', draw.of(ENTRY_COUNTS), tables)
