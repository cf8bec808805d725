"""The type check: the first bad row's error as six words, or None; a frame's also with the nodes looked at."""
from .tables import *
from .words import real_of

UNDEFINED, DATA_TYPE, REAL_REQUIRED, OPERAND = 1, 2, 3, 4
CODE_INTEGER, CODE_REAL, CODE_IMAGINARY, CODE_VARIABLE, ABSENT, REAL_OR_INTEGRAL, INTEGRAL, CODE_BIT = range(4, 12)
FIRST, SECOND, SOURCE, NODES = 1, 2, 3, 4
EPSILON = 2.0 ** -52


def undefined(spot):
    return UNDEFINED, spot, 0, ABSENT, ABSENT


def data_type(spot, src_spot, dst, src):
    return DATA_TYPE, spot, src_spot, dst, src


def operand(spot, found, required):
    return OPERAND, spot, 0, found, required


def kind_of(regions, name):
    region = named(regions, name)
    return None if region is None else region.kind


def literal_fits(form, kind):
    return (form == INTEGER_LITERAL) == (kind != REAL)


def literal_code(form):
    return CODE_INTEGER if form == INTEGER_LITERAL else CODE_REAL


def arithmetic(row, regions):
    kind = kind_of(regions, row.first)
    if kind is None:
        return undefined(FIRST)
    if row.form == REAL_LITERAL and kind != REAL or row.form == INTEGER_LITERAL and kind == REAL:
        return data_type(FIRST, SOURCE, kind, literal_code(row.form))
    if kind in (BIT, OCTET):
        return operand(FIRST, kind, REAL_OR_INTEGRAL)
    if row.form != SOURCE_REFERENCE:
        return None
    source = kind_of(regions, row.source)
    if source is None:
        return undefined(SOURCE)
    if source in (BIT, OCTET):
        return operand(SOURCE, source, REAL_OR_INTEGRAL)
    return None if source == kind else data_type(FIRST, SOURCE, kind, source)


def against(row, regions, kind, spot):
    """A source of the kind: a literal that fits it, or a declared reference of the same kind."""
    if row.form != SOURCE_REFERENCE:
        return None if literal_fits(row.form, kind) else data_type(spot, SOURCE, kind, literal_code(row.form))
    source = kind_of(regions, row.source)
    if source is None:
        return undefined(SOURCE)
    return None if source == kind else data_type(spot, SOURCE, kind, source)


def comparison(row, regions):
    destination, lhs = kind_of(regions, row.first), kind_of(regions, row.second)
    if destination is None:
        return undefined(FIRST)
    if lhs is None:
        return undefined(SECOND)
    if destination != BIT:
        return operand(FIRST, destination, CODE_BIT)
    return against(row, regions, lhs, SECOND)


def integral(regions, name, spot):
    kind = kind_of(regions, name)
    if kind is None:
        return undefined(spot)
    return operand(spot, kind, INTEGRAL) if kind == REAL else None


def logic(row, regions):
    error = integral(regions, row.first, FIRST)
    if error or row.form != SOURCE_REFERENCE:
        return error
    return integral(regions, row.source, SOURCE)


NEG, NOT = 0, 1


def unary(row, regions):
    if row.operator == NOT:
        return integral(regions, row.first, FIRST)
    kind = kind_of(regions, row.first)
    if kind is None:
        return undefined(FIRST)
    return operand(FIRST, kind, REAL_OR_INTEGRAL) if kind in (BIT, OCTET) else None


def move(row, regions):
    kind = kind_of(regions, row.first)
    return undefined(FIRST) if kind is None else against(row, regions, kind, FIRST)


def exchange(row, regions):
    first, second = kind_of(regions, row.first), kind_of(regions, row.second)
    if first is None:
        return undefined(FIRST)
    if second is None:
        return undefined(SECOND)
    return None if first == second else data_type(FIRST, SECOND, first, second)


def load_row(row, regions):
    kinds = [kind_of(regions, name) for name in (row.first, row.second, row.source)]
    for spot, kind in zip((FIRST, SECOND, SOURCE), kinds):
        if kind is None:
            return undefined(spot)
    if kinds[2] != INTEGER:
        return operand(SOURCE, kinds[2], INTEGRAL)
    return None if kinds[0] == kinds[1] else data_type(FIRST, SECOND, kinds[0], kinds[1])


def store_row(row, regions):
    kind, offset = kind_of(regions, row.first), kind_of(regions, row.second)
    if kind is None:
        return undefined(FIRST)
    if offset is None:
        return undefined(SECOND)
    if offset != INTEGER:
        return operand(SECOND, offset, INTEGRAL)
    if row.form != SOURCE_REFERENCE:
        return None if literal_fits(row.form, kind) else data_type(SOURCE, FIRST, literal_code(row.form), kind)
    source = kind_of(regions, row.source)
    if source is None:
        return undefined(SOURCE)
    return None if source == kind else data_type(SOURCE, FIRST, source, kind)


def frame_node(node, spot, regions):
    if node.tag == ADDRESS:
        kind = kind_of(regions, node.left)
        if kind is None:
            return undefined(spot)
        return None if kind == REAL else (REAL_REQUIRED, spot, 0, kind, ABSENT)
    if node.tag == NUMBER and abs(real_of(node.right)) > EPSILON:
        return REAL_REQUIRED, spot, 0, CODE_IMAGINARY, ABSENT
    return (REAL_REQUIRED, spot, 0, CODE_VARIABLE, ABSENT) if node.tag == VARIABLE_NODE else None


def frame(row, tables):
    """The error, and the count: "let the frame check end at the first failure .. and count the nodes it looked at"."""
    looked = 0
    for place, node in enumerate(tables.nodes[row.first:row.first + row.first_index]):
        looked += 1
        error = frame_node(node, NODES + place, tables.regions)
        if error:
            return error, looked
    return None, looked


RULES = {ARITHMETIC: arithmetic, COMPARISON: comparison, LOGIC: logic, UNARY: unary, MOVE: move, EXCHANGE: exchange,
         LOAD: load_row, STORE: store_row}


def row_error(row, tables):
    if row.family == FRAME:
        return frame(row, tables)[0]
    rule = RULES.get(row.family)
    return rule(row, tables.regions) if rule else None


def numbered(number, error):
    """Kind, row, spot, spot of `src`, and two codes."""
    return (error[0], number) + error[1:]


def type_error(tables):
    for number, row in enumerate(tables.instructions):
        error = row_error(row, tables)
        if error:
            return numbered(number, error)
    return None
