"""The journal's length for a program; open, forward, back and run on lent memory and journal. A position is row, steps not taken back, entries used."""
from .calls import resolve
from .check import type_error
from .converts import converts_fit
from .kept import loaded
from .labels import conditions_fit, labels_fit
from .machine import outcome
from .outcome import Refused, TypeErrors, need
from .tables import CALL, EXCHANGE, FRAME, OTHER

CELL_LIMIT, ENTRY_LIMIT = 4096, 2048
OTHER_INSTRUCTION = 1
# Where a run stops.
ALLOWANCE, END, BEFORE_CALL, REFUSAL = range(4)


def cell_count(tables):
    return sum(region.length for region in tables.regions)


def sized(words):
    """The decoded tables, after the refusals 1, 2, 3 and 10."""
    tables = loaded(words)
    need(cell_count(tables) <= CELL_LIMIT, 10)
    return tables


def prepare(words, memory, journal):
    """The decoded tables, after the refusals 1, 2, 3, 10 and 4."""
    tables = sized(words)
    need(len(memory) >= 2 * cell_count(tables) and len(journal) % 3 == 0 and len(journal) <= 3 * ENTRY_LIMIT, 4)
    return tables


def is_other(row):
    return row.family == OTHER and row.operator == OTHER_INSTRUCTION


def accept(tables):
    """The refusals 5, 9, 20, 21, 22, and 6, 7, 8 by row."""
    error = type_error(tables)
    if error:
        raise TypeErrors(error)
    need(not any(map(is_other, tables.instructions)), 9)
    labels_fit(tables.instructions)
    conditions_fit(tables)
    converts_fit(tables)
    for row in tables.instructions:
        if row.family == CALL:
            resolve(tables, row)


# "1 entry for NOP and frame rows, 3 for EXCHANGE, 65 for CALL"; of its family NOP alone is accepted.
COUNTED = {OTHER: 1, FRAME: 1, EXCHANGE: 3, CALL: 65}


def journal_length(words):
    """The sum, with "2 for every other row"; "a program that open would turn down gets open's number, buffers apart"."""
    tables = sized(words)
    accept(tables)
    return (sum(COUNTED.get(row.family, 2) for row in tables.instructions),)


def open_session(words, memory, journal):
    """The first position; memory's cells are zeroed."""
    tables = prepare(words, memory, journal)
    accept(tables)
    cells = [word for region in tables.regions for _ in range(region.length) for word in (region.kind, 0)]
    memory[:len(cells)] = cells
    return 0, 0, 0


def prepare_at(words, memory, journal, position):
    """The decoded tables, after the refusals up to 19: "more steps than entries is 19"; the row just past the last is the end and no 19."""
    tables = prepare(words, memory, journal)
    row, steps, used = position
    need(row <= len(tables.instructions) and steps <= used <= len(journal) // 3, 19)
    return tables


def step(tables, memory, journal, position, reply):
    """Forward after 19."""
    number, steps, used = position
    need(number < len(tables.instructions), 11)
    need(not is_other(tables.instructions[number]), 9)
    labels_fit(tables.instructions)
    writes, led = outcome(tables, memory, number, reply)
    need(len(writes) + 1 <= len(journal) // 3 - used, 13)
    for cell, kind, word in writes:
        journal[3 * used:3 * used + 3] = [cell, memory[2 * cell], memory[2 * cell + 1]]
        memory[2 * cell:2 * cell + 2] = [kind, word]
        used += 1
    journal[3 * used:3 * used + 3] = [len(writes), number, 0]
    return led, steps + 1, used + 1


def forward(words, memory, journal, position, reply):
    """The next position; the writes and their entries are made."""
    return step(prepare_at(words, memory, journal, position), memory, journal, position, reply)


def run(words, memory, journal, position, allowance):
    """The next position, the steps taken, the stop and a refusal's number: "before each step, come allowance, end, CALL, refusal"."""
    tables = prepare_at(words, memory, journal, position)
    rows, taken = tables.instructions, 0
    while True:
        if taken == allowance:
            return *position, taken, ALLOWANCE, 0
        if position[0] == len(rows):
            return *position, taken, END, 0
        if rows[position[0]].family == CALL:
            return *position, taken, BEFORE_CALL, 0
        try:
            position = step(tables, memory, journal, position, [])
        except Refused as refusal:
            return *position, taken, REFUSAL, refusal.number
        taken += 1


def back(words, memory, journal, position):
    """The position before; the last step's writes are taken back. A step without an entry was 19 with the position."""
    tables = prepare_at(words, memory, journal, position)
    _, steps, used = position
    need(steps > 0, 12)
    changes, left, _ = journal[3 * (used - 1):3 * used]
    need(changes <= used - 1, 19)
    need(left < len(tables.instructions), 19)
    entries = [journal[3 * i:3 * i + 3] for i in range(used - 1 - changes, used - 1)]
    need(all(cell < cell_count(tables) for cell, _, _ in entries), 19)
    for cell, kind, word in reversed(entries):
        memory[2 * cell:2 * cell + 2] = [kind, word]
    return left, steps - 1, used - 1 - changes
