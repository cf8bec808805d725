"""The looks at the tables: each word of each sort of row takes every value, limits, ranges, chosen rows, and the order of 1, 2 and 3."""
from rules.tables import *

from .resolutions import call, flat
from .script import marked
from .verdicts import REGIONS, lend

# Every value that a word is given: small ones, and 2^64 - 1, with which a sum of a range would wrap.
VALUES = (*range(12), 2 ** 64 - 1)
# A family's too, up to the first number that is none.
FAMILIES = (*range(CONVERT + 2), 2 ** 64 - 1)
# No return, and all parameters. It shares its name with a region.
EXTERNS = [0, NONE, 0, 3]
# A scalar, a fixed vector, a variable vector.
PARAMETERS = [0, 0, SCALAR, INTEGER, 0, 1, 1, FIXED, BIT, 2, 2, 1, VARIABLE, REAL, 0]
# infix(call(address), prefix(number)), and a prefix without a child.
NODES = flat([INFIX, 0, 0], [FUNCTION_CALL, 0, 0], [ADDRESS, 3, 1], [PREFIX, 0, 0], [NUMBER, 7, 7], [PREFIX, 0, 0])
# An identifier, a reference, an immediate.
ARGUMENTS = [IDENTIFIER, 0, 0, REFERENCE, 1, 2, IMMEDIATE, 7, 7]
FRAME_AND_CALL = [FRAME, 0, 0, 5, 0, 0, NO_SOURCE, 0, 0] + call(0, 0, 3)

TABLES = ('regions', 'externs', 'parameters', 'nodes', 'arguments', 'instructions')
# The good tables that a tried one's ranges lie in or that share names with it.
BESIDE = {'regions': {'externs': EXTERNS, 'parameters': PARAMETERS}, 'externs': {'regions': REGIONS, 'parameters': PARAMETERS},
          'instructions': {'nodes': NODES, 'arguments': ARGUMENTS}}
WORD_NAMES = {
    'regions': ('name', 'kind', 'length'), 'externs': ('name', 'return kind', 'first parameter', 'parameter count'),
    'parameters': ('name', 'mutable', 'shape', 'kind', 'length'), 'nodes': ('tag', 'first word', 'second word'),
    'arguments': ('form', 'first word', 'second word'),
    'instructions': ('family', 'operator', 'first name', 'first index', 'second name', 'second index', 'source form', 'source first', 'source second')}
SWEPT = (
    ('regions', 'two', [0, 0, 2, 1, 3, 2]), ('regions', 'two of one name', [0, 0, 2, 0, 3, 2]),
    ('externs', 'parameters 1 and 2', [9, 4, 1, 2]), ('externs', 'no parameters', [9, 0, 3, 0]), ('externs', 'two', [4, 0, 0, 0, 5, 0, 0, 0]),
    ('externs', 'two of one name', [4, 0, 0, 0, 4, 0, 0, 0]),
    ('parameters', 'scalar', [0, 0, 0, 1, 0]), ('parameters', 'fixed vector', [0, 1, 1, 0, 2]), ('parameters', 'variable vector', [0, 1, 2, 3, 0]),
    ('nodes', 'address', [0, 3, 1]), ('nodes', 'function call', [1, 0, 0]), ('nodes', 'infix', [2, 0, 0]), ('nodes', 'number', [3, 7, 7]),
    ('nodes', 'pi', [4, 0, 0]), ('nodes', 'prefix', [5, 0, 0]), ('nodes', 'variable', [6, 8, 0]),
    ('arguments', 'identifier', [0, 1, 0]), ('arguments', 'reference', [1, 1, 2]), ('arguments', 'immediate', [2, 7, 7]),
    # The source's words are 0 where every form is to be tried, since they are then good under each.
    ('instructions', 'arithmetic, integer', [0, 0, 1, 0, 0, 0, 0, 0, 0]), ('instructions', 'arithmetic, real', [0, 3, 3, 1, 0, 0, 1, 7, 0]),
    ('instructions', 'comparison', [1, 4, 0, 0, 1, 1, 2, 0, 0]), ('instructions', 'binary logic', [2, 5, 0, 0, 0, 0, 2, 0, 0]),
    ('instructions', 'unary', [3, 1, 1, 0, 0, 0, 3, 0, 0]), ('instructions', 'move', [4, 0, 1, 0, 0, 0, 0, 0, 0]),
    ('instructions', 'exchange', [5, 0, 1, 0, 1, 1, 3, 0, 0]), ('instructions', 'load', [6, 0, 3, 0, 3, 0, 2, 0, 0]),
    ('instructions', 'store', [7, 0, 3, 0, 1, 2, 1, 0, 0]), ('instructions', 'frame, nodes 0 to 4', [8, 4, 0, 5, 0, 0, 3, 0, 0]),
    ('instructions', 'frame, nodes 3 and 4', [8, 0, 3, 2, 0, 0, 3, 0, 0]), ('instructions', 'CALL, arguments 1 and 2', [9, 0, 9, 1, 2, 0, 3, 0, 0]),
    ('instructions', 'CALL, no arguments', [9, 0, 9, 3, 0, 0, 3, 0, 0]), ('instructions', 'NOP', [10, 0, 0, 0, 0, 0, 3, 0, 0]))


def beside(table, words):
    return {'regions': (), **BESIDE.get(table, {}), table: words}


def words(script):
    """A word takes every value, 0 to 11 or a family 0 to 17, and 2^64 - 1. What passes the looks is checked: no region is declared beside instructions."""
    for table, what, row in SWEPT:
        for at in range(len(row)):
            script.heading(f'{table}, {what}: {WORD_NAMES[table][at % len(WORD_NAMES[table])]} of row {at // len(WORD_NAMES[table])}')
            for value in FAMILIES if (table, at) == ('instructions', 0) else VALUES:
                lend(script, **beside(table, row[:at] + [value] + row[at + 1:]))
                script.check()


# With the look's answer where a row is chosen that is there and of the family, and where it is not.
CHOSEN = (('good', [0, 0, 2], 0, 2), ('a name twice', [0, 0, 2, 0, 3, 2], 3, 2), ('a kind 4', [0, 0, 2, 0, 4, 2], 2, 2),
          ('half a row', [0, 0, 2, 0, 4], 1, 1))


def chosen_rows(script):
    """Row 0 is a frame, row 1 a CALL. Frame takes a frame's row, the other calls that take one a CALL's; the look takes a family too."""
    for what, regions, fit, unfit in CHOSEN:
        script.heading(f'chosen row 0 to 11 and 2^64 - 1, regions: {what}')
        lend(script, FRAME_AND_CALL, regions, nodes=NODES, arguments=ARGUMENTS)
        for row in VALUES:
            script.resolve(row, 0)
            script.access(row, 0, 0)
            script.frame(row)
        for family in VALUES:
            script.heading(f'chosen row 0 to 11 and 2^64 - 1 of family {family}, regions: {what}')
            for row in VALUES:
                assert script.look(row, family) == (fit if (row, family) in ((0, FRAME), (1, CALL)) else unfit)


def node_ranges(script):
    """A walk's range, a count 0 to 11 and 2^64 - 1 from each first node; words outside the range are looked at too."""
    script.table(NODE_TABLE, NODES)
    for first in VALUES:
        ranges(script, 'six nodes', first)
    for what, nodes, length in (('a variable after', [4, 0, 0, 6, 0, 0], 6), ('a tag 7 after', [4, 0, 0, 7, 0, 0], 6), ('and half a row', [4, 0, 0, 7, 0], 5),
                                ('2048 nodes', [0], 6144), ('2049 nodes', [0], 6147)):
        script.table(NODE_TABLE, nodes, length)
        ranges(script, what, 0)


def ranges(script, what, first):
    script.heading(f'{what}, counts from node {first}')
    for count in VALUES:
        script.reference(first, count, 0)


def named(width):
    """Rows that differ in their names, and are 0 otherwise."""
    return [at if at % width == 0 else 0 for at in range(195)]


def limits(script):
    """From one row below the limit to one above it, word by word."""
    for table, (width, limit) in enumerate(zip(WIDTHS, LIMITS)):
        script.heading(f'{TABLES[table]}, {(limit - 1) * width} to {(limit + 1) * width} words')
        lend(script, **beside(TABLES[table], ()))
        for length in range((limit - 1) * width, (limit + 1) * width + 1):
            if table in (REGION_TABLE, EXTERN_TABLE):
                script.table(table, named(width)[:length])
            else:
                script.table(table, [0], length)
            script.check()
    script.heading('instructions, 0 to 9 words')
    for length in range(10):
        script.table(INSTRUCTION_TABLE, [0], length)
        script.check()


def orders(script):
    """Two words of arguments for 1, a family 17 for 2, a second region of the first's name for 3."""
    for arguments in ([0, 0, 0], [0, 0]):
        for family in (OTHER, CONVERT + 1):
            for name in (1, 0):
                script.heading(f'arguments of {len(arguments)} words, family {family}, second region {name}')
                lend(script, [family, 0, 0, 0, 0, 0, 3, 0, 0], [0, 0, 2, name, 3, 2], arguments=arguments)
                assert script.check() == (1 if len(arguments) == 2 else 2 if family > CONVERT else 3 if name == 0 else 0)


def cells(script):
    """Lengths of two regions; memory of just as many cells, as open leaves it, and of a word less."""
    for first, second in ((0, 0), (4096, 0), (4095, 1), (4097, 0), (4095, 2), (1, 2 ** 64 - 1), (2 ** 64 - 1, 1), (2 ** 64 - 1, 2 ** 64 - 1)):
        script.heading(f'{first} and {second} cells')
        lend(script, regions=[0, BIT, first, 1, REAL, second])
        script.lend_journal([])
        if first + second > 4096:
            assert script.open() == 10
            continue
        script.lend_memory([BIT, 0] * first + [REAL, 0] * second)
        assert script.open() == 0
    script.heading('4095 and 1 cells, a word less')
    lend(script, regions=[0, BIT, 4095, 1, REAL, 1])
    script.lend_memory(marked([], 8191))
    assert script.open() == 4


def write(script):
    for group in (words, chosen_rows, node_ranges, limits, orders, cells):
        script.heading('tables, ' + group.__name__.replace('_', ' ') + ':')
        group(script)
