#!/usr/bin/env python3
"""Random tables: of each refusal 1, 2, 3, 20, 21 and 22 the console's program must name the place.

Usage: compare/damage/where.py [--seed N] [--runs N] [--show N] [--program PATH]

N (2000) sets of six tables are made at random, about a third of jumps, labels and CONVERT alone, damaged, written as numbers
and given to `crates/stepper/out/stepper check FILE` (`rt run` there builds it).
The refusal is that of the model of crates/cases_calls, the place and its words are worked out here from the laboratory's paper;
of 20, 21 and 22, of which the papers name no place, from docs/DECISIONS.md (K11), in the words of crates/stepper/stdout.
Of any other refusal the number alone is compared.
The last line has the counts; ends with 0 only if nothing differs and every kind of place was met.
"""
import argparse
import collections
import pathlib
import random
import re
import subprocess
import sys
import tempfile

ROOT = pathlib.Path(__file__).resolve().parents[2]
sys.path.insert(0, str(ROOT / 'crates' / 'cases_calls'))
from rules.outcome import Refused  # noqa: E402
from rules.session import journal_length  # noqa: E402
from rules.tables import LIMITS, WIDTHS, decoded, is_range, one_tree  # noqa: E402

HEADINGS = 'regions externs parameters nodes arguments instructions'.split()
COLUMNS = [
    ['name', 'kind', 'length'],
    ['name', 'return kind', 'first parameter', 'parameter count'],
    ['name', 'mutability', 'shape', 'kind', 'length'],
    ['tag', 'first word', 'second word'],
    ['form', 'first word', 'second word'],
    ['family', 'operator', 'first name', 'first index', 'second name', 'second index', 'source form',
     'first source word', 'second source word'],
]
TAGS = 'address function infix number pi prefix variable'.split()
MNEMONICS = [line.split() for line in (
    'ADD SUB DIV MUL', 'EQ GE GT LE LT', 'AND IOR XOR SHL SHR ASHR', 'NEG NOT', 'MOVE', 'EXCHANGE', 'LOAD', 'STORE',
    'SET-FREQUENCY SET-PHASE SET-SCALE SHIFT-FREQUENCY SHIFT-PHASE', 'CALL', 'NOP OTHER',
    'JUMP', 'JUMP-WHEN', 'JUMP-UNLESS', 'LABEL', 'HALT', 'CONVERT')]
KINDS = 'BIT INTEGER OCTET REAL'.split()
FRAME, CALL, NOP, JUMP, JUMP_WHEN, JUMP_UNLESS, LABEL, HALT, CONVERT = 8, 9, 10, 11, 12, 13, 14, 15, 16

ANY, UNUSED = 'any', 'unused'
# Of each family the last operator (UNUSED where there is one alone), which of words 3 to 6 are used, the source forms.
FAMILIES = [
    (3, '11..', (0, 1, 2)), (4, '1111', (0, 1, 2)), (5, '11..', (0, 2)), (1, '11..', (3,)), (UNUSED, '11..', (0, 1, 2)),
    (UNUSED, '1111', (3,)), (UNUSED, '111.', (2,)), (UNUSED, '1.11', (0, 1, 2)), (4, '11..', (3,)), (UNUSED, '111.', (3,)),
    (1, '....', (3,)), (UNUSED, '..1.', (3,)), (UNUSED, '111.', (3,)), (UNUSED, '111.', (3,)), (UNUSED, '..1.', (3,)),
    (UNUSED, '....', (3,)), (UNUSED, '11..', (2,)),
]
LAST_FAMILY = len(FAMILIES) - 1


def rules(table, row):
    """What each word of a row may be: any, unused, the last of those from 0, or a tuple of all."""
    if table == 0:
        return [ANY, 3, ANY]
    if table == 1:
        return [ANY, 4, ANY, ANY]
    if table == 2:
        return [ANY, 1, 2, 3, ANY if row[2] == 1 else UNUSED]
    if table == 3:
        return [6] + {0: [ANY, ANY], 3: [ANY, ANY], 6: [ANY, UNUSED]}.get(row[0], [UNUSED, UNUSED])
    if table == 4:
        return [2] + {0: [ANY, UNUSED]}.get(row[0], [ANY, ANY])
    if row[0] > LAST_FAMILY:
        return [LAST_FAMILY] + [ANY] * 8
    operators, operands, forms = FAMILIES[row[0]]
    source = {0: [ANY, UNUSED], 1: [ANY, UNUSED], 2: [ANY, ANY]}.get(row[6], [UNUSED, UNUSED])
    return [LAST_FAMILY, operators] + [ANY if used == '1' else UNUSED for used in operands] + [forms] + source


def fits(rule, word):
    if rule == ANY:
        return True
    if rule == UNUSED:
        return word == 0
    return word in rule if isinstance(rule, tuple) else word <= rule


def in_words(rule):
    if rule == UNUSED:
        return 'unused, it must be 0'
    if isinstance(rule, tuple) and rule != (0, 1, 2):
        return 'allowed are 0 and 2' if len(rule) == 2 else f'allowed is {rule[0]}'
    return f'allowed are 0 to {2 if isinstance(rule, tuple) else rule}'


def head(table, number, row):
    known = ''
    if table < 3:
        known = f' (#{row[0]})'
    elif table == 3 and row[0] < len(TAGS):
        known = f' ({TAGS[row[0]]})'
    elif table == 5 and row[0] < len(MNEMONICS) and row[1] < len(MNEMONICS[row[0]]):
        known = f' ({MNEMONICS[row[0]][row[1]]})'
    return f'{HEADINGS[table]}, row {number}{known}'


def shape(tables):
    for table, words in enumerate(tables):
        width, limit = WIDTHS[table], LIMITS[table]
        if len(words) % width:
            return 'words', [f'{HEADINGS[table]}: {len(words):,} word{"s" * (len(words) != 1)}, not whole rows of {width}']
        if len(words) // width > limit:
            return 'limit', [f'{HEADINGS[table]}: {len(words) // width:,} rows, at most {limit:,}']
    raise AssertionError('no table of another shape')


def asked_for(table, row):
    """First row, count and table of the rows that a row asks for."""
    if table == 1:
        return row[2], row[3], 2
    if table == 5 and row[0] == FRAME:
        return row[2], row[3], 3
    if table == 5 and row[0] == CALL:
        return row[3], row[4], 4
    return 0, 0, 2


def tree_end(nodes):
    return next((k for k in range(1, len(nodes)) if one_tree(nodes[:k])), 0)


def row_place(rows, table, number, row):
    for column, (rule, word) in enumerate(zip(rules(table, row), row)):
        if not fits(rule, word):
            return 'word', [head(table, number, row) + ':',
                            f'  word {column + 1}, the {COLUMNS[table][column]}, is {word}; {in_words(rule)}']
    first, count, of = asked_for(table, row)
    asked = f'  {HEADINGS[of]} from row {first}, count {count}'
    if not is_range(first, count, rows[of]):
        return 'range', [head(table, number, row) + ' asks for', f'{asked}, of {len(rows[of]):,}']
    tree = rows[3][first:first + count]
    if table == 5 and row[0] == FRAME and not one_tree(tree):
        end = tree_end(tree)
        return 'tree', [head(table, number, row) + ':',
                        asked + ': not exactly one tree; ' + (f'one ends after {end}' if end else 'more are needed')]
    return None


def word(tables):
    rows = decoded(tables)
    for table in range(6):
        for number, row in enumerate(rows[table]):
            place = row_place(rows, table, number, row)
            if place:
                return place
    raise AssertionError('no row with a word, a range or nodes that are not allowed')


def names(tables):
    for table in range(2):
        seen = {}
        for number, row in enumerate(decoded(tables)[table]):
            if row.name in seen:
                return HEADINGS[table], [f'{HEADINGS[table]}, rows {seen[row.name]} and {number} have the same name (#{row.name})']
            seen[row.name] = number
    raise AssertionError('no name twice')


def labels(tables):
    """The first row whose label an earlier one has, else the first jump whose label is on no row."""
    rows = decoded(tables).instructions
    seen = {}
    for number, row in enumerate(rows):
        if row.family == LABEL:
            if row.second in seen:
                return 'labels', [f'instructions, rows {seen[row.second]} and {number} have the same label (@#{row.second})']
            seen[row.second] = number
    for number, row in enumerate(rows):
        if row.family in (JUMP, JUMP_WHEN, JUMP_UNLESS) and row.second not in seen:
            return 'target', [head(5, number, row) + ':', f'  no LABEL row has its label (@#{row.second})']
    raise AssertionError('no label twice and none absent')


def conditions(tables):
    rows = decoded(tables)
    kinds = {region.name: region.kind for region in rows.regions}
    for number, row in enumerate(rows.instructions):
        if row.family in (JUMP_WHEN, JUMP_UNLESS) and kinds.get(row.first) != 0:
            if row.first not in kinds:
                return 'undeclared', [head(5, number, row) + ':', f'  the condition (#{row.first}) is not declared']
            return 'kind', [head(5, number, row) + ':',
                            f'  the condition (#{row.first}) is {KINDS[kinds[row.first]]}, where BIT is required']
    raise AssertionError('no condition that is not declared or not BIT')


def conversions(tables):
    """The first CONVERT with a name that is not declared, the destination's before the source's, or of other kinds."""
    rows = decoded(tables)
    kinds = {region.name: region.kind for region in rows.regions}
    for number, row in enumerate(rows.instructions):
        if row.family != CONVERT:
            continue
        for operand, name in (('destination', row.first), ('source', row.source)):
            if name not in kinds:
                return f'no {operand}', [head(5, number, row) + ':', f'  the {operand} (#{name}) is not declared']
        to, source = KINDS[kinds[row.first]], KINDS[kinds[row.source]]
        if {to, source} != {'INTEGER', 'REAL'}:
            return 'pair', [head(5, number, row) + ':',
                            f'  from {source} to {to}, where INTEGER to REAL or REAL to INTEGER is required']
    raise AssertionError('no CONVERT that is not declared or of other kinds')


PLACES = {1: shape, 2: word, 3: names, 20: labels, 21: conditions, 22: conversions}


def refused(tables):
    """Open's refusal, or 0. What is lent is long enough, so there is no 4."""
    try:
        journal_length(tables)
    except Refused as refusal:
        return refusal.number
    return 0


def expected(tables):
    """The refusal, the kind of place, and the lines that tell it."""
    refusal = refused(tables)
    kind, lines = PLACES[refusal](tables) if refusal in PLACES else ('other' if refusal else 'none', [])
    return refusal, kind, lines


def tree(rng, size):
    """A random tree of nodes, parents first."""
    if size == 1:
        return [rng.choice([(0, rng.randrange(4), rng.randrange(3)), (3, rng.getrandbits(64), 0), (4, 0, 0), (6, rng.randrange(4), 0)])]
    if size == 2 or rng.random() < 0.4:
        return [(rng.choice([1, 5]), 0, 0)] + tree(rng, size - 1)
    left = rng.randrange(1, size - 1)
    return [(2, 0, 0)] + tree(rng, left) + tree(rng, size - 1 - left)


def instruction(rng, frames, arguments):
    family = rng.randrange(len(FAMILIES))
    operators, operands, forms = FAMILIES[family]
    operator = 0 if operators == UNUSED else rng.randrange(operators + 1)
    first = [rng.randrange(4) if used == '1' else 0 for used in operands]
    if family == FRAME:
        first[:2] = rng.choice(frames)
    if family == CALL:
        first[1] = rng.randrange(arguments + 1)
        first[2] = rng.randrange(arguments - first[1] + 1)
    form = rng.choice(forms)
    source = [0, 0] if form == 3 else [rng.choice([rng.randrange(4), rng.getrandbits(64)]), rng.randrange(3) if form == 2 else 0]
    return [family, operator, *first, form, *source]


def allowed_tables(rng):
    """Six tables that the loader takes."""
    parameters = []
    for _ in range(rng.randrange(5)):
        shape_word = rng.randrange(3)
        parameters.append([rng.randrange(9), rng.randrange(2), shape_word, rng.randrange(4), rng.randrange(9) if shape_word == 1 else 0])
    externs = []
    for name in rng.sample(range(9), rng.randrange(4)):
        first = rng.randrange(len(parameters) + 1)
        externs.append([name, rng.randrange(5), first, rng.randrange(len(parameters) - first + 1)])
    nodes, frames = [], []
    for _ in range(rng.randrange(1, 4)):
        expression = tree(rng, rng.randrange(1, 8))
        frames.append((len(nodes), len(expression)))
        nodes += expression
    arguments = [[form := rng.randrange(3), rng.randrange(9), 0 if form == 0 else rng.randrange(9)] for _ in range(rng.randrange(5))]
    regions = [[name, rng.randrange(4), rng.randrange(9)] for name in rng.sample(range(9), rng.randrange(5))]
    instructions = [instruction(rng, frames, len(arguments)) for _ in range(rng.randrange(7))]
    return [[w for row in rows for w in row] for rows in (regions, externs, parameters, nodes, arguments, instructions)]


def conversion(rng, regions):
    """Half of them of INTEGER and REAL, if there are such; the rest of any names."""
    integers, reals = ([region[0] for region in regions if region[1] == kind] for kind in (1, 3))
    pair = [rng.choice([rng.choice(regions)[0], rng.choice(regions)[0], rng.randrange(9)]) for _ in range(2)]
    if integers and reals and rng.random() < 0.5:
        pair = rng.sample([rng.choice(integers), rng.choice(reals)], 2)
    return [CONVERT, 0, pair[0], rng.randrange(3), 0, 0, 2, pair[1], rng.randrange(3)]


def jumping_tables(rng):
    """Six tables of regions, labels, jumps and CONVERT, so that open comes to 20, 21 and 22; most of the labels fit."""
    regions = [[name, rng.choice([0, 0, 0, 1, 2, 3]), rng.randrange(4)] for name in rng.sample(range(6), rng.randrange(3, 7))]
    known = rng.sample(range(9), rng.randrange(1, 5))
    rows = [[LABEL, 0, 0, 0, label, 0, 3, 0, 0] for label in known]
    for _ in range(rng.randrange(7)):
        family = rng.choice([NOP, JUMP, JUMP_WHEN, JUMP_WHEN, JUMP_UNLESS, JUMP_UNLESS, HALT])
        condition = [rng.choice(regions)[0], rng.randrange(3)] if family in (JUMP_WHEN, JUMP_UNLESS) else [0, 0]
        label = rng.choice(known) if family in (JUMP, JUMP_WHEN, JUMP_UNLESS) else 0
        rows.append([family, 0, *condition, label, 0, 3, 0, 0])
    rows += [conversion(rng, regions) for _ in range(rng.choice([0, 0, 1, 1, 2]))]
    rng.shuffle(rows)
    return [[w for row in regions for w in row], [], [], [], [], [w for row in rows for w in row]]


def label_changed(rng, tables):
    """One row's label or condition."""
    rows = [at for at in range(0, len(tables[5]) - 8, 9) if JUMP <= tables[5][at] <= LABEL]
    if rows:
        at = rng.choice(rows)
        column = rng.choice([2, 4]) if tables[5][at] in (JUMP_WHEN, JUMP_UNLESS) else 4
        tables[5][at + column] = rng.choice([tables[5][rng.choice(rows) + 4], rng.randrange(9), rng.getrandbits(64)])


def word_changed(rng, tables):
    words = rng.choice([t for t in tables if t] or [[0]])
    words[rng.randrange(len(words))] = rng.choice([rng.randrange(18), rng.randrange(18), rng.getrandbits(64), 2**64 - 1])


def words_dropped(rng, tables):
    words = rng.choice(tables)
    del words[len(words) - min(len(words), rng.randrange(1, 4)):]


def row_copied(rng, tables):
    table = rng.randrange(6)
    width = WIDTHS[table]
    if len(tables[table]) >= width:
        row = rng.randrange(len(tables[table]) // width) * width
        tables[table] += tables[table][row:row + width]


def frame_changed(rng, tables):
    """One node more or fewer, or another tag inside."""
    words = tables[5]
    for at in range(0, len(words) - 8, 9):
        if words[at] == FRAME:
            words[at + 3] = max(0, words[at + 3] + rng.choice([-1, 0, 1]))
    node = rng.randrange(len(tables[3]) // 3 + 1) * 3
    if tables[3][node:]:
        tables[3][node:node + 3] = [rng.choice([1, 2, 4, 5]), 0, 0]


def over_limit(rng, tables):
    table = rng.randrange(6)
    width = WIDTHS[table]
    row = (tables[table] or [0] * width)[:width]
    tables[table][:] = row * (LIMITS[table] + rng.randrange(3))


def damaged(rng):
    if rng.randrange(3) == 0:
        tables = jumping_tables(rng)
        for _ in range(rng.randrange(4)):
            rng.choices([label_changed, row_copied], [4, 1])[0](rng, tables)
        return tables
    tables = allowed_tables(rng)
    for _ in range(rng.choice([1, 1, 1, 2, 3])):
        rng.choices([word_changed, words_dropped, row_copied, frame_changed, over_limit], [6, 1, 3, 2, 1])[0](rng, tables)
    return tables


def made(rng):
    """Damaged tables that a file has room for."""
    tables = damaged(rng)
    while len(written(tables)) > 65535:
        tables = damaged(rng)
    return tables


def written(tables):
    lines = []
    for heading, words in zip(HEADINGS, tables):
        lines.append(heading)
        lines += ['word ' + ' '.join(map(str, words[i:i + 9])) for i in range(0, len(words), 9)]
    return '\n'.join(lines) + '\n'


def told(program, path):
    """The refusal that the program tells, and the lines between it and the verdict."""
    out = subprocess.run([program, 'check', path], capture_output=True, text=True).stdout.split('\n')[:-1]
    refused = re.match(r'refused (\d+): ', out[0])
    return int(refused[1]) if refused else 0, out[1:-1], out[-1]


def agrees(answer, refusal, lines):
    number, place, verdict = answer
    if refusal not in PLACES:
        return number == refusal
    return number == refusal and place == lines and verdict == f'turned down {refusal}' and all(len(line) <= 80 for line in place)


def main():
    parser = argparse.ArgumentParser()
    parser.add_argument('--seed', type=int, default=1)
    parser.add_argument('--runs', type=int, default=2000)
    parser.add_argument('--show', type=int, default=3)
    parser.add_argument('--program', default=str(ROOT / 'crates/stepper/out/stepper'))
    chosen = parser.parse_args()
    rng = random.Random(chosen.seed)
    counts, differ = collections.Counter(), 0
    with tempfile.TemporaryDirectory() as room:
        path = pathlib.Path(room) / 'made.tables'
        for _ in range(chosen.runs):
            tables = made(rng)
            refusal, kind, lines = expected(tables)
            counts[kind] += 1
            path.write_text(written(tables))
            answer = told(chosen.program, path)
            if not agrees(answer, refusal, lines):
                differ += 1
                if differ <= chosen.show:
                    print(path.read_text(), 'expected', refusal, lines, '\ntold', answer)
    missing = [kind for kind in ('words', 'limit', 'word', 'range', 'tree', 'regions', 'externs', 'labels', 'target', 'undeclared', 'kind',
                                'no destination', 'no source', 'pair') if not counts[kind]]
    kinds = ', '.join(f'{kind} {counts[kind]}' for kind in sorted(counts))
    print(f'{chosen.runs} programs: {kinds}; never met: {" ".join(missing) or "none"}; {differ} differ')
    return 1 if differ or missing else 0


if __name__ == '__main__':
    sys.exit(main())
