"""The six tables of a text file, read as docs/FORMAT.md says and the laboratory's paper numbers them: `read(bytes)`.

Written from those two pages, not from the code, so that the two readers can be held against each other.
"""
import re
import struct

HEADINGS = 'regions externs parameters nodes arguments instructions'.split()
OTHER_LINES = 'word memory journal cell entry position'.split()
WIDTHS = dict(zip(HEADINGS, (3, 4, 5, 3, 3, 9)))

LISTS = {
    'kind': 'BIT INTEGER OCTET REAL',
    'return kind': 'BIT INTEGER OCTET REAL none',
    'mutability': 'immutable mutable',
    'shape': 'scalar fixed variable',
    'tag': 'address function infix number pi prefix variable',
    'form': 'identifier reference immediate',
    'source form': 'integer real reference none',
}
LISTS = {place: words.split() for place, words in LISTS.items()}

FAMILIES = [line.split() for line in '''ADD SUB DIV MUL
EQ GE GT LE LT
AND IOR XOR SHL SHR ASHR
NEG NOT
MOVE
EXCHANGE
LOAD
STORE
SET-FREQUENCY SET-PHASE SET-SCALE SHIFT-FREQUENCY SHIFT-PHASE
CALL
NOP OTHER
JUMP
JUMP-WHEN
JUMP-UNLESS
LABEL
HALT
CONVERT'''.split('\n')]
OPERATIONS = {word: (family, operator) for family, words in enumerate(FAMILIES) for operator, word in enumerate(words)}

RESERVED = {word.lower() for words in [HEADINGS, OTHER_LINES, OPERATIONS, *LISTS.values()] for word in words}

CELL, REGION, LABEL, NONE = ['name', 'whole'], ['name', 'unused'], ['label', 'unused'], ['unused', 'unused']
OPERANDS = {
    0: CELL + NONE,
    1: CELL + CELL,
    2: CELL + NONE,
    3: CELL + NONE,
    4: CELL + NONE,
    5: CELL + CELL,
    6: CELL + REGION,
    7: REGION + CELL,
    8: ['whole', 'whole'] + NONE,
    9: CELL + ['whole', 'unused'],
    10: NONE + NONE,
    11: NONE + LABEL,
    12: CELL + LABEL,
    13: CELL + LABEL,
    14: NONE + LABEL,
    15: NONE + NONE,
    16: CELL + NONE,
}
ONE_OPERATOR = {4, 5, 6, 7, 9, 11, 12, 13, 14, 15, 16}
SOURCES = {0: ['whole', 'unused'], 1: ['real', 'unused'], 2: CELL, 3: NONE}
NODES = {0: CELL, 3: ['real', 'real'], 6: REGION}
ARGUMENTS = {0: REGION, 1: CELL, 2: ['real', 'real']}

MOST_BYTES, MOST_NAMES, MOST_WORDS, MOST_ON_A_LINE = 65535, 1024, 6184, 16


class Refused(Exception):
    """A word or a line that is not taken."""


def places(table, row):
    """What stands at each word of a row whose first words are `row`."""
    word = dict(enumerate(row)).get
    if table == 'regions':
        return ['name', 'kind', 'whole']
    if table == 'externs':
        return ['name', 'return kind', 'whole', 'whole']
    if table == 'parameters':
        return ['name', 'mutability', 'shape', 'kind', 'whole' if word(2) == 1 else 'unused']
    if table == 'nodes':
        return ['tag'] + NODES.get(word(0), NONE)
    if table == 'arguments':
        return ['form'] + ARGUMENTS.get(word(0), NONE)
    if word(0, 0) >= len(FAMILIES):
        return ['operation'] + ['unused'] * 8
    operator = 'unused' if word(0) in ONE_OPERATOR else 'operator'
    return ['operation', operator] + OPERANDS[word(0, 0)] + ['source form'] + SOURCES.get(word(6), NONE)


def whole(word):
    if re.fullmatch(r'[0-9]+', word):
        number = int(word)
        if number < 1 << 64:
            return number
    elif re.fullmatch(r'-[0-9]+', word):
        number = int(word)
        if number >= -(1 << 63):
            return number % (1 << 64)
    elif re.fullmatch(r'0x[0-9a-fA-F]+', word):
        number = int(word, 16)
        if number < 1 << 64:
            return number
    raise Refused


def real(word):
    if word.startswith('0x'):
        return whole(word)
    decimal = re.fullmatch(r'-?([0-9]*)(\.[0-9]*)?([eE][+-]?[0-9]{1,15})?', word)
    if not decimal or not (decimal[2] or decimal[3]):
        raise Refused
    after = len(decimal[2] or '.') - 1
    exponent = int(decimal[3][1:]) if decimal[3] else 0
    if not 1 <= len(decimal[1]) + after <= 15 or abs(exponent - after) > 22:
        raise Refused
    return struct.unpack('<Q', struct.pack('<d', float(word)))[0]


class File:
    """What was read so far."""

    def __init__(self):
        self.tables = {heading: [] for heading in HEADINGS}
        self.heading = None
        self.names = {}
        self.numbers = False

    def name(self, word):
        if re.fullmatch(r'[A-Za-z_][A-Za-z0-9_-]*', word):
            if word.lower() in RESERVED or self.numbers:
                raise Refused
            number = self.names.setdefault(word, len(self.names))
            if number >= MOST_NAMES:
                raise Refused
            return number
        number = whole(word)
        if self.names:
            raise Refused
        self.numbers = True
        return number

    def words(self, word, place):
        """The one or two numbers of a word at its place."""
        if place == 'name':
            return [self.name(word)]
        if place == 'label':
            if not word.startswith('@'):
                raise Refused
            return [self.name(word[1:])]
        if place == 'real':
            return [real(word)]
        if place == 'unused' and word == '-':
            return [0]
        if place == 'operation' and word in OPERATIONS:
            return list(OPERATIONS[word])
        if word in LISTS.get(place, []):
            return [LISTS[place].index(word)]
        return [whole(word)]

    def row(self, written, table):
        row = []
        for word in written:
            if len(row) >= WIDTHS[table]:
                raise Refused
            row += self.words(word, places(table, row)[len(row)])
        if len(row) != WIDTHS[table]:
            raise Refused
        return row

    def append(self, words):
        if len(self.tables[self.heading]) > MOST_WORDS:
            raise Refused
        self.tables[self.heading] += words

    def setting(self, first, written):
        if first == 'cell':
            if len(written) != 3:
                raise Refused
            whole(written[0])
            kind, = self.words(written[1], 'kind')
            self.words(written[2], 'real' if kind == 3 else 'whole')
            return
        if len(written) != {'memory': 1, 'journal': 1, 'entry': 4, 'position': 3}[first]:
            raise Refused
        for word in written:
            whole(word)

    def line(self, text):
        text = re.sub(r'(^|[ \t\r])#.*', r'\1', text, flags=re.S)
        if '#' in text:
            raise Refused
        written = [word for word in re.split(r'[ \t\r]+', text) if word]
        if not written:
            return
        first, rest = written[0], written[1:]
        if first in HEADINGS:
            if rest:
                raise Refused
            self.heading = first
        elif first in OTHER_LINES and first != 'word':
            self.setting(first, rest)
        elif self.heading is None:
            raise Refused
        elif first == 'word':
            if self.names or len(rest) > MOST_ON_A_LINE:
                raise Refused
            self.append([whole(word) for word in rest])
            self.numbers = True
        else:
            self.append(self.row(written, self.heading))


def read(data):
    """The tables, heading to words; or the number of the line that is refused, 0 where the file has too few or too many bytes."""
    if not 0 < len(data) <= MOST_BYTES:
        return 0
    file = File()
    for number, text in enumerate(data.decode('latin-1').split('\n'), 1):
        try:
            file.line(text)
        except Refused:
            return number
    return file.tables
