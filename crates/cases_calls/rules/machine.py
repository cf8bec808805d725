"""One row's outcome on the cells: a refusal, or its writes as (cell, kind, word) in order and the row that it leads to."""
from .calls import Immediate, Vector, resolve
from .labels import row_of_label
from .outcome import need
from .tables import *
from .words import *

WIDTH_OF = {BIT: 1, INTEGER: 64, OCTET: 8}
# The greatest word of a kind that does not take every one.
GREATEST = {BIT: 1, OCTET: 255}
NEG, NOT = 0, 1
REPLY_ROWS = 64


def fits(kind, word):
    return kind <= REAL and word <= GREATEST.get(kind, WORD - 1)


class Machine:
    """The regions over lent memory."""

    def __init__(self, regions, memory):
        self.regions, self.memory = regions, memory

    def cell(self, place):
        return self.memory[2 * place], self.memory[2 * place + 1]

    def start(self, name):
        """The first cell of a declared region."""
        before = 0
        for region in self.regions:
            if region.name == name:
                return before
            before += region.length
        raise KeyError(name)

    def length(self, name):
        return named(self.regions, name).length

    def declared(self, *names):
        for name in names:
            need(named(self.regions, name) is not None, 18)

    def places(self, *references):
        """The cells of written references: every name, then every index."""
        self.declared(*(name for name, _ in references))
        return self.indexed(*references)

    def indexed(self, *references):
        for name, index in references:
            need(index < self.length(name), 14)
        return [self.start(name) + index for name, index in references]

    def read(self, place, kinds=(BIT, INTEGER, OCTET, REAL)):
        kind, word = self.cell(place)
        need(fits(kind, word) and kind in kinds, 18)
        return kind, word

    def from_cell(self, name, offset):
        """The cell of a region that an INTEGER cell's word points to."""
        need(offset < self.length(name), 14)
        return self.start(name) + offset

    def literal_for(self, place, form, word):
        """A literal in the target cell, of which the kind alone is read; 24 for an integer "outside 0 to 1 for BIT or 0 to 255 for OCTET"."""
        kind, _ = self.cell(place)
        if form == REAL_LITERAL:
            need(kind == REAL, 18)
            return REAL, word
        need(kind in WIDTH_OF, 18)
        need(kind not in GREATEST or 0 <= signed(word) <= GREATEST[kind], 24)
        return kind, word


def written(row):
    """The references of a row that has a first operand and perhaps a source."""
    references = [(row.first, row.first_index)]
    return references + [(row.source, row.source_index)] if row.form == SOURCE_REFERENCE else references


def arithmetic(machine, row):
    places = machine.places(*written(row))
    kind, value = machine.read(places[0], (INTEGER, REAL))
    if row.form == SOURCE_REFERENCE:
        _, other = machine.read(places[1], (kind,))
    else:
        need(kind == (INTEGER if row.form == INTEGER_LITERAL else REAL), 18)
        other = row.source
    if kind == REAL:
        return [(places[0], REAL, real_arithmetic(row.operator, value, other))]
    need(row.operator != DIV or other != 0, 15)
    return [(places[0], INTEGER, integer_arithmetic(row.operator, value, other))]


def ordered(kind, word):
    """A word as the number that comparisons see."""
    return real_of(word) if kind == REAL else signed(word) if kind == INTEGER else word


def comparison(machine, row):
    references = [(row.first, row.first_index), (row.second, row.second_index)]
    if row.form == SOURCE_REFERENCE:
        references.append((row.source, row.source_index))
    places = machine.places(*references)
    kind, lhs = machine.read(places[1])
    if row.form == SOURCE_REFERENCE:
        _, rhs = machine.read(places[2], (kind,))
        other = ordered(kind, rhs)
    else:
        need((row.form == REAL_LITERAL) == (kind == REAL), 18)
        other = ordered(REAL if kind == REAL else INTEGER, row.source)
    return [(places[0], BIT, compared(row.operator, ordered(kind, lhs), other))]


def logic(machine, row):
    places = machine.places(*written(row))
    kind, value = machine.read(places[0], tuple(WIDTH_OF))
    other_kind, other = INTEGER, row.source
    if row.form == SOURCE_REFERENCE:
        other_kind, other = machine.read(places[1], tuple(WIDTH_OF))
    if row.operator in (AND, IOR, XOR):
        return [(places[0], kind, bitwise(row.operator, value, other, WIDTH_OF[kind]))]
    count = ordered(other_kind, other)
    need(count >= 0, 16)
    return [(places[0], kind, shifted(row.operator, value, count, WIDTH_OF[kind]))]


def unary(machine, row):
    place, = machine.places((row.first, row.first_index))
    kind, value = machine.read(place, (INTEGER, REAL) if row.operator == NEG else tuple(WIDTH_OF))
    if row.operator == NOT:
        return [(place, kind, (1 << WIDTH_OF[kind]) - 1 - value)]
    return [(place, kind, bits_of(-real_of(value)) if kind == REAL else -value % WORD)]


def move(machine, row):
    places = machine.places(*written(row))
    if row.form == SOURCE_REFERENCE:
        return [(places[0], *machine.read(places[1]))]
    return [(places[0], *machine.literal_for(places[0], row.form, row.source))]


def exchange(machine, row):
    first, second = machine.places((row.first, row.first_index), (row.second, row.second_index))
    one, other = machine.read(first), machine.read(second)
    return [(first, *other), (second, *one)]


def load(machine, row):
    machine.declared(row.first, row.second, row.source)
    target, offset_place = machine.indexed((row.first, row.first_index), (row.source, row.source_index))
    _, offset = machine.read(offset_place, (INTEGER,))
    return [(target, *machine.read(machine.from_cell(row.second, offset)))]


def store(machine, row):
    references = [(row.second, row.second_index)]
    if row.form == SOURCE_REFERENCE:
        references.append((row.source, row.source_index))
    machine.declared(row.first, *(name for name, _ in references))
    places = machine.indexed(*references)
    _, offset = machine.read(places[0], (INTEGER,))
    copied = machine.read(places[1]) if row.form == SOURCE_REFERENCE else None
    target = machine.from_cell(row.first, offset)
    return [(target, *(copied or machine.literal_for(target, row.form, row.source)))]


def convert(machine, row):
    """The source's "cell's kind picks the direction; BIT or OCTET there has no rule". The destination is only overwritten."""
    target, place = machine.places(*written(row))
    kind, word = machine.read(place, (INTEGER, REAL))
    if kind == INTEGER:
        return [(target, REAL, nearest_real(word))]
    whole = whole_part(word)
    need(whole is not None, 23)
    return [(target, INTEGER, whole)]


STEPS = {ARITHMETIC: arithmetic, COMPARISON: comparison, LOGIC: logic, UNARY: unary, MOVE: move, EXCHANGE: exchange,
         LOAD: load, STORE: store, CONVERT: convert}


def reply_write(machine, resolved, argument, offset, kind, word):
    need(argument < len(resolved), 17)
    target = resolved[argument]
    need(target.mutable == 1 and not isinstance(target, Immediate), 17)
    need(offset < (target.length if isinstance(target, Vector) else 1), 17)
    need(kind == target.kind and fits(kind, word), 17)
    return machine.start(target.name) + (offset if isinstance(target, Vector) else target.index), kind, word


def call(machine, tables, row, reply):
    resolved = resolve(tables, row)
    for target in resolved:
        if not isinstance(target, (Vector, Immediate)):
            need(target.index < machine.length(target.name), 14)
    need(len(reply) % 4 == 0 and len(reply) <= 4 * REPLY_ROWS, 17)
    return [reply_write(machine, resolved, *reply[i:i + 4]) for i in range(0, len(reply), 4)]


def is_taken(machine, row):
    """A jump "WHEN on 1, UNLESS on 0", where "only a BIT cell .. has a rule"."""
    if row.family == JUMP:
        return True
    place, = machine.places((row.first, row.first_index))
    _, word = machine.read(place, (BIT,))
    return word == int(row.family == JUMP_WHEN)


def led_to(machine, rows, number):
    """The next row, but "a taken jump goes to its LABEL's row .., HALT to the end"."""
    row = rows[number]
    if row.family == HALT:
        return len(rows)
    if row.family in JUMPS and is_taken(machine, row):
        return row_of_label(rows, row.second)
    return number + 1


def outcome(tables, memory, number, reply):
    machine = Machine(tables.regions, memory)
    row = tables.instructions[number]
    if row.family == CALL:
        return call(machine, tables, row, reply), number + 1
    need(not reply, 17)
    step = STEPS.get(row.family)
    writes = step(machine, row) if step else []
    return writes, led_to(machine, tables.instructions, number)
