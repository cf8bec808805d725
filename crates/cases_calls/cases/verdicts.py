"""The type check: every family with every kind of each operand, every operator, frames, programs of several rows."""
from rules.tables import *

from . import quil
from .quil import SMALL, operators

# a BIT[2], n INTEGER[3], o OCTET[1], r REAL[2]. q is undeclared.
REGIONS = [0, BIT, 2, 1, INTEGER, 3, 2, OCTET, 1, 3, REAL, 2]
LETTERS = 'anorq'
REFERENCES = [f'{name}[0]' for name in LETTERS]
LITERALS = ['1.5', '1']
ONE = 0x3FF0000000000000


def lend(script, instructions=(), regions=REGIONS, externs=(), parameters=(), nodes=(), arguments=()):
    script.all_tables([list(regions), list(externs), list(parameters), list(nodes), list(arguments), list(instructions)])


def checked(script, what, rows=None, **tables):
    """The rows as text, or the tables."""
    script.heading(what)
    lend(script, **({'instructions': quil.program(*rows, names=SMALL)} if rows is not None else {}), **tables)
    return script.check()


def operand_rows(family, name):
    """An operator's rows with every kind of each operand."""
    sources = LITERALS + REFERENCES
    return {
        ARITHMETIC: lambda: [f'{name} {x}[0] {s}' for x in LETTERS for s in sources],
        COMPARISON: lambda: [f'{name} {x}[0] {y}[0] {s}' for x in LETTERS for y in LETTERS for s in sources],
        LOGIC: lambda: [f'{name} {x}[0] {s}' for x in LETTERS for s in sources[1:]],
        UNARY: lambda: [f'{name} {x}[0]' for x in LETTERS],
        MOVE: lambda: [f'{name} {x}[0] {s}' for x in LETTERS for s in sources],
        EXCHANGE: lambda: [f'{name} {x}[0] {y}[0]' for x in LETTERS for y in LETTERS],
        LOAD: lambda: [f'{name} {x}[0] {y} {s}' for x in LETTERS for y in LETTERS for s in REFERENCES],
        STORE: lambda: [f'{name} {x} {y}[0] {s}' for x in LETTERS for y in LETTERS for s in sources],
    }[family]()


def rows(script):
    """The 610 verdicts on one row."""
    count = 0
    for family in range(FRAME):
        for name in operators(family) if family == UNARY else operators(family)[:1]:
            for row in operand_rows(family, name):
                checked(script, row, [row])
                count += 1
    assert count == 610


def other_operators(script):
    """Arithmetic and logic on n, comparisons of n written to a."""
    for family, first in ((ARITHMETIC, 'n[0]'), (COMPARISON, 'a[0] n[0]'), (LOGIC, 'n[0]')):
        for name in operators(family)[1:]:
            for source in (LITERALS if family != LOGIC else LITERALS[1:]) + REFERENCES:
                row = f'{name} {first} {source}'
                checked(script, row, [row])


def frame_addresses(script):
    for name in operators(FRAME):
        for letter in LETTERS:
            checked(script, f'{name} {letter}[7]', [f'{name} 0 1'], nodes=[ADDRESS, SMALL[letter], 7])


# Real and imaginary bits: about 2^-52 of both signs, zeros, least and greatest sizes, infinities, NaNs.
NUMBERS = [(ONE, imaginary) for imaginary in (
    0x3CB0000000000000, 0x3CB0000000000001, 0x3CAFFFFFFFFFFFFF, 0xBCB0000000000000, 0xBCB0000000000001, 0xBCAFFFFFFFFFFFFF, 0,
    0x8000000000000000, 1, 0x3FF0000000000000, 0xBFF0000000000000, 0x7FEFFFFFFFFFFFFF, 0x7FF0000000000000, 0xFFF0000000000000,
    0x7FF0000000000001, 0x7FF8000000000000, 0xFFFFFFFFFFFFFFFF, 0x7FF8000000000001)] + [
    (0x7FF0000000000000, 0), (0x7FF8000000000000, 0), (0x7FF8000000000000, 0x3CB0000000000001), (0, 0x3CB0000000000000), (0, 0x3CB0000000000001)]


def frame_numbers(script):
    for real, imaginary in NUMBERS:
        checked(script, f'{real:016X} {imaginary:016X}i', ['SET-FREQUENCY 0 1'], nodes=[NUMBER, real, imaginary])


def node(text):
    """`r` and the like an address, `%` a variable, `i` the imaginary unit, `1`, `pi`, `f` a function call, `-` a prefix, `+` an infix."""
    marks = {'%': [VARIABLE_NODE, 4, 0], 'i': [NUMBER, 0, ONE], '1': [NUMBER, ONE, 0], 'pi': [PI, 0, 0], 'f': [FUNCTION_CALL, 0, 0], '-': [PREFIX, 0, 0], '+': [INFIX, 0, 0]}
    return marks[text] if text in marks else [ADDRESS, SMALL[text[0]], int(text[1:] or 0)]


# First node, count and nodes, parents first: the failing one at each place, the first of several.
EXPRESSIONS = (
    (0, 1, 'pi % % % %'), (0, 1, '% pi pi pi pi'), (0, 2, 'f % pi pi pi'), (0, 2, '- q pi pi pi'), (0, 3, '+ r pi % %'), (0, 3, '+ r n pi pi'),
    (0, 3, '+ n q pi pi'), (0, 3, '+ q n pi pi'), (0, 3, '+ i % pi pi'), (0, 3, '+ % i pi pi'), (0, 5, '+ f r - q'), (0, 5, '+ + r r1 a'),
    (0, 5, '+ r + r1 o'), (3, 2, '+ - r - q'), (2, 1, '+ - r - q'), (3, 2, '+ - r pi q'))


def frame_expressions(script):
    for first, count, text in EXPRESSIONS:
        checked(script, f'nodes {first} to {first + count - 1} of {text}', [f'SET-FREQUENCY {first} {count}'],
                nodes=[word for one in text.split() for word in node(one)])


def programs(script):
    for texts in (('NOP', 'NOP'), ('OTHER', 'CALL q 0 0'), ('NOP', 'ADD a[0] 1.5'), ('ADD a[0] 1.5', 'MOVE q[0] 1'),
                  ('MOVE q[0] 1', 'ADD a[0] 1.5'), ('CALL q 0 0', 'ADD a[0] 1'), ('OTHER', 'STORE n n[0] q[0]'),
                  ('MOVE n[9] n[8]', 'MOVE n[9] r[8]'), ('MOVE n[9] n[8]', 'EXCHANGE r[9] r[8]'), ()):
        checked(script, ', '.join(texts) or 'no row', texts)
    for last in ('NEG a[0]', 'NOT a[0]'):
        script.heading(f'511 NOPs, {last}')
        script.table(INSTRUCTION_TABLE, quil.row('NOP'), 512 * 9)
        script.table(INSTRUCTION_TABLE, quil.row('NOP') * 511 + quil.row(last, SMALL))
        script.check()


# A table that is good, has half a row, a bad word or a name twice.
TABLES = (
    ('regions', 'good', [0, 0, 2]), ('regions', 'half a row', [0, 0]), ('regions', 'kind 4', [0, 4, 2]), ('regions', 'a name twice', [0, 0, 2, 0, 1, 3]),
    ('externs', 'good', [0, 4, 0, 0]), ('externs', 'half a row', [0, 4]), ('externs', 'kind 5', [0, 5, 0, 0]),
    ('externs', 'a name twice', [5, 4, 0, 0, 5, 0, 0, 0]), ('parameters', 'good', [0, 0, 0, 0, 0]), ('parameters', 'half a row', [0, 0]),
    ('parameters', 'shape 3', [0, 0, 3, 0, 0]), ('nodes', 'good', [4, 0, 0]), ('nodes', 'half a row', [4, 0]), ('nodes', 'tag 7', [7, 0, 0]),
    ('arguments', 'half a row', [0, 0]), ('arguments', 'form 3', [3, 0, 0]))


def before_the_verdict(script):
    """1, 2 and 3 before 5."""
    for table, what, words in TABLES:
        checked(script, f'ADD a[0] 1.5 beside {table}: {what}', ['ADD a[0] 1.5'], **{table: words})


def write(script):
    for group in (rows, other_operators, frame_addresses, frame_numbers, frame_expressions, programs, before_the_verdict):
        script.heading('check, ' + group.__name__.replace('_', ' ') + ':')
        group(script)
