"""Rows, cells and replies written as text, so that a case's heading says all of it."""
import re

from rules.tables import *
from rules.words import WORD, bits_of, real_of

KINDS = {'BIT': BIT, 'INTEGER': INTEGER, 'OCTET': OCTET, 'REAL': REAL}
# The bench's regions: a, n, o, r, with e that has no cell between them. q is undeclared.
NAMES = {'a': 11, 'n': 12, 'e': 13, 'o': 14, 'r': 15, 'q': 19, 'f': 21, 'g': 22, 'h': 23, 'v': 24, 'w': 25}
# The same regions without e, by small numbers.
SMALL = {name: k for k, name in enumerate('anorq')}
BENCH = (('a', BIT, 2), ('n', INTEGER, 3), ('e', INTEGER, 0), ('o', OCTET, 2), ('r', REAL, 2))

OPERATOR_NAMES = {
    ARITHMETIC: 'ADD SUB DIV MUL', COMPARISON: 'EQ GE GT LE LT', LOGIC: 'AND IOR XOR SHL SHR ASHR', UNARY: 'NEG NOT',
    MOVE: 'MOVE', EXCHANGE: 'EXCHANGE', LOAD: 'LOAD', STORE: 'STORE', CALL: 'CALL', OTHER: 'NOP OTHER',
    JUMP: 'JUMP', JUMP_WHEN: 'JUMP-WHEN', JUMP_UNLESS: 'JUMP-UNLESS', LABEL: 'LABEL', HALT: 'HALT', CONVERT: 'CONVERT',
    FRAME: 'SET-FREQUENCY SET-PHASE SET-SCALE SHIFT-FREQUENCY SHIFT-PHASE'}
OPERATORS_OF = {name: (family, k) for family, names in OPERATOR_NAMES.items() for k, name in enumerate(names.split())}


def operators(family):
    return OPERATOR_NAMES[family].split()


def real_bits(text):
    """A real literal: a number with a point, inf, nan, or its bits after 0f."""
    return int(text[2:], 16) if text.startswith('0f') else bits_of(float(text))


def is_real(text):
    return text.startswith('0f') or '.' in text or text.lstrip('-') in ('inf', 'nan')


def reference(text, names=NAMES):
    name, index = re.fullmatch(r'(\w)(?:\[(-?\d+)\])?', text).groups()
    return names[name], int(index or 0) % WORD


def source(text, names=NAMES):
    if re.match(r'[a-z]\[', text):
        return (SOURCE_REFERENCE, *reference(text, names))
    if is_real(text):
        return REAL_LITERAL, real_bits(text), 0
    return INTEGER_LITERAL, int(text) % WORD, 0


def label(text, names=NAMES):
    """`@` and a number, or a letter whose number it is."""
    return names[text[1:]] if text[1:] in names else int(text[1:])


def row(text, names=NAMES):
    """The nine words of an instruction. A frame's operands are first node and count, a CALL's an extern, first argument and count, a jump's a label and a condition."""
    name, *operands = text.split()
    family, operator = OPERATORS_OF[name]
    if family == FRAME:
        return [family, operator, int(operands[0]), int(operands[1]), 0, 0, NO_SOURCE, 0, 0]
    if family == CALL:
        return [family, operator, names[operands[0]], int(operands[1]), int(operands[2]), 0, NO_SOURCE, 0, 0]
    if family in (OTHER, HALT):
        return [family, operator, 0, 0, 0, 0, NO_SOURCE, 0, 0]
    if family in (LABEL, *JUMPS):
        condition = reference(operands[1], names) if family in CONDITIONAL else (0, 0)
        return [family, operator, *condition, label(operands[0], names), 0, NO_SOURCE, 0, 0]
    if family in (UNARY, EXCHANGE):
        references, tail = operands, (NO_SOURCE, 0, 0)
    else:
        references, tail = operands[:-1], source(operands[-1], names)
    written = [word for operand in references for word in reference(operand, names)]
    return [family, operator, *written, *[0] * (4 - len(written)), *tail]


def program(*texts, names=NAMES):
    return [word for text in texts for word in row(text, names)]


def regions(layout=BENCH):
    return [word for name, kind, length in layout for word in (NAMES[name], kind, length)]


def cell_of(text, layout=BENCH):
    """The place of a cell written as its region's letter and index."""
    place = 0
    for name, _, length in layout:
        if name == text[0]:
            return place + int(text[1:])
        place += length
    raise KeyError(text)


def word_of(kind, text):
    return real_bits(text) if kind == REAL else int(text) % WORD


def cells(text='', layout=BENCH):
    """Zero cells of the declared kinds but for `n0=5`, with another kind `n0=OCTET:5`, or `n0=7:5` for a kind that is none."""
    words = [word for _, kind, length in layout for _ in range(length) for word in (kind, 0)]
    for item in text.split():
        name, value = item.split('=')
        at = 2 * cell_of(name, layout)
        if ':' in value:
            kind, value = value.split(':')
            words[at] = KINDS[kind] if kind in KINDS else int(kind) % WORD
        words[at + 1] = word_of(words[at], value)
    return words
