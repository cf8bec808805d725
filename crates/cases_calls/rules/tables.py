"""The six tables: rows, limits and the refusals 1, 2 and 3."""
from typing import NamedTuple

WIDTHS = (3, 4, 5, 3, 3, 9)
LIMITS = (64, 32, 256, 2048, 1024, 512)
REGION_TABLE, EXTERN_TABLE, PARAMETER_TABLE, NODE_TABLE, ARGUMENT_TABLE, INSTRUCTION_TABLE = range(6)

BIT, INTEGER, OCTET, REAL, NONE = range(5)
SCALAR, FIXED, VARIABLE = range(3)
ADDRESS, FUNCTION_CALL, INFIX, NUMBER, PI, PREFIX, VARIABLE_NODE = range(7)
IDENTIFIER, REFERENCE, IMMEDIATE = range(3)
ARITHMETIC, COMPARISON, LOGIC, UNARY, MOVE, EXCHANGE, LOAD, STORE, FRAME, CALL, OTHER, JUMP, JUMP_WHEN, JUMP_UNLESS, LABEL, HALT, CONVERT = range(17)
JUMPS, CONDITIONAL = (JUMP, JUMP_WHEN, JUMP_UNLESS), (JUMP_WHEN, JUMP_UNLESS)
INTEGER_LITERAL, REAL_LITERAL, SOURCE_REFERENCE, NO_SOURCE = range(4)


class Tables(NamedTuple):
    regions: list
    externs: list
    parameters: list
    nodes: list
    arguments: list
    instructions: list


class Region(NamedTuple):
    name: int
    kind: int
    length: int


class Extern(NamedTuple):
    name: int
    returns: int
    first: int
    count: int


class Parameter(NamedTuple):
    name: int
    mutable: int
    shape: int
    kind: int
    length: int


class Node(NamedTuple):
    tag: int
    left: int
    right: int


class Argument(NamedTuple):
    form: int
    left: int
    right: int


class Instruction(NamedTuple):
    family: int
    operator: int
    first: int
    first_index: int
    second: int
    second_index: int
    form: int
    source: int
    source_index: int


ROWS = (Region, Extern, Parameter, Node, Argument, Instruction)


def rows_of(words, table):
    width = WIDTHS[table]
    return [ROWS[table](*words[i:i + width]) for i in range(0, len(words) - width + 1, width)]


def decoded(tables):
    """The tables as lists of rows."""
    return Tables(*(rows_of(words, k) for k, words in enumerate(tables)))


def named(rows, name):
    """The row of a name, or None."""
    return next((row for row in rows if row.name == name), None)


def table_sized(words, table):
    return len(words) % WIDTHS[table] == 0 and len(words) // WIDTHS[table] <= LIMITS[table]


def well_sized(tables):
    return all(table_sized(words, table) for table, words in enumerate(tables))


def is_range(first, count, rows):
    return first + count <= len(rows)


def one_tree(nodes):
    """Whether the rows are exactly one tree, parents first."""
    missing = 1
    for node in nodes:
        if missing == 0:
            return False
        missing += {FUNCTION_CALL: 1, INFIX: 2, PREFIX: 1}.get(node.tag, 0) - 1
    return missing == 0


def region_allowed(row):
    return row.kind <= REAL


def extern_allowed(row, parameters):
    return row.returns <= NONE and is_range(row.first, row.count, parameters)


def parameter_allowed(row):
    return row.mutable <= 1 and row.shape <= VARIABLE and row.kind <= REAL and (row.shape == FIXED or row.length == 0)


def node_allowed(row):
    if row.tag > VARIABLE_NODE:
        return False
    if row.tag in (ADDRESS, NUMBER):
        return True
    return row.right == 0 and (row.tag == VARIABLE_NODE or row.left == 0)


def argument_allowed(row):
    return row.form <= IMMEDIATE and (row.form != IDENTIFIER or row.right == 0)


OPERATORS = {ARITHMETIC: 4, COMPARISON: 5, LOGIC: 6, UNARY: 2, FRAME: 5, OTHER: 2}
FORMS = {LOGIC: (INTEGER_LITERAL, SOURCE_REFERENCE), LOAD: (SOURCE_REFERENCE,), CONVERT: (SOURCE_REFERENCE,)}
WITHOUT_SOURCE = (UNARY, EXCHANGE, FRAME, CALL, OTHER, *JUMPS, LABEL, HALT)


def source_allowed(row):
    if row.family in WITHOUT_SOURCE:
        return row.form == NO_SOURCE and row.source == 0 and row.source_index == 0
    if row.form not in FORMS.get(row.family, (INTEGER_LITERAL, REAL_LITERAL, SOURCE_REFERENCE)):
        return False
    return row.form == SOURCE_REFERENCE or row.source_index == 0


def operands_allowed(row, tables):
    if row.family in (ARITHMETIC, LOGIC, UNARY, MOVE, CONVERT):
        return row.second == 0 and row.second_index == 0
    if row.family == LOAD:
        return row.second_index == 0
    if row.family == STORE:
        return row.first_index == 0
    if row.family == FRAME:
        tree = is_range(row.first, row.first_index, tables.nodes) and one_tree(
            tables.nodes[row.first:row.first + row.first_index])
        return tree and row.second == 0 and row.second_index == 0
    if row.family == CALL:
        return is_range(row.first_index, row.second, tables.arguments) and row.second_index == 0
    if row.family in (OTHER, HALT):
        return row.first == row.first_index == row.second == row.second_index == 0
    if row.family in (JUMP, LABEL):
        return row.first == row.first_index == row.second_index == 0
    if row.family in CONDITIONAL:
        return row.second_index == 0
    return True


def instruction_allowed(row, tables):
    return (row.family <= CONVERT and row.operator < OPERATORS.get(row.family, 1)
            and source_allowed(row) and operands_allowed(row, tables))


def words_allowed(tables):
    return (all(map(region_allowed, tables.regions))
            and all(extern_allowed(row, tables.parameters) for row in tables.externs)
            and all(map(parameter_allowed, tables.parameters))
            and all(map(node_allowed, tables.nodes))
            and all(map(argument_allowed, tables.arguments))
            and all(instruction_allowed(row, tables) for row in tables.instructions))


def twice_named(rows):
    return len({row.name for row in rows}) < len(rows)


def has_row(rows, number, family):
    return number < len(rows) and rows[number].family == family


def load(words, chosen=None, family=None):
    """The loader's refusal, or 0 where it accepts. A chosen row must be of the family."""
    if not well_sized(words):
        return 1
    tables = decoded(words)
    if not words_allowed(tables) or chosen is not None and not has_row(tables.instructions, chosen, family):
        return 2
    return 3 if twice_named(tables.regions) or twice_named(tables.externs) else 0
