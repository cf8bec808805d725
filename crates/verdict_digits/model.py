#!/usr/bin/env python3
"""Writes what the programs of the chart of verdicts must write: `stdout` here and in verdict_counts, chart_text and chart_page, and docs/chart.html, the page again.

The verdicts come from the rules of cases_calls, whose model.py says what those were written from; forms and order are 02's, P7.
Seen of the code: the console's mnemonics and its words for the type errors.
With `--check` nothing is written: it ends with 1, and names each file that is not what it would write.
"""
import sys
from collections import Counter
from itertools import product
from pathlib import Path
from typing import NamedTuple

sys.dont_write_bytecode = True
CRATES = Path(__file__).resolve().parent.parent
sys.path.insert(0, str(CRATES / 'cases_calls'))

from rules.kept import check  # noqa: E402
from rules.outcome import TypeErrors  # noqa: E402
from rules.tables import INTEGER_LITERAL, NO_SOURCE, REAL_LITERAL, SOURCE_REFERENCE, Instruction  # noqa: E402

# 02: "each as undeclared, BIT, INTEGER, OCTET, REAL, integer literal, real literal"; a name is one of the first five.
OPERANDS = ('undeclared', 'BIT', 'INTEGER', 'OCTET', 'REAL', 'integer literal', 'real literal')
NAMES = 5
LITERALS = {5: INTEGER_LITERAL, 6: REAL_LITERAL}


class Family(NamedTuple):
    """Its name, its operators in 01's order, what its operands are called, '' for none, and how many a source may be."""
    name: str
    operators: str
    first: str
    second: str
    source: str
    sources: int


FAMILIES = (
    Family('arithmetic', 'ADD SUB DIV MUL', 'destination', '', 'source', 7),
    Family('comparison', 'EQ GE GT LE LT', 'destination', 'lhs', 'rhs', 7),
    Family('binary logic', 'AND IOR XOR SHL SHR ASHR', 'destination', '', 'source', 6),
    Family('unary', 'NEG NOT', 'operand', '', '', 0),
    Family('move', 'MOVE', 'destination', '', 'source', 7),
    Family('exchange', 'EXCHANGE', 'left', 'right', '', 0),
    Family('load', 'LOAD', 'destination', 'source', 'offset', 5),
    Family('store', 'STORE', 'destination', 'offset', 'source', 7))
ARITHMETIC, COMPARISON, LOGIC, UNARY, MOVE, EXCHANGE, LOAD, STORE = range(8)

# The verdicts' letters, and for each error its name in 01 and the console's words. No form is of a frame, and so none has error 3.
MARKS = 'AUDRO'
MEANINGS = (
    'accepted',
    'type error 1 (undefined): an operand is not declared',
    'type error 2 (data type): kinds differ',
    'type error 3 (real required): a frame needs a real value; no frame is here',
    'type error 4 (operand): the operator does not take the operand')


def region(name, operand):
    """The words that declare a name; none for an operand that is undeclared, a literal or not there."""
    return [name, operand - 1, 1] if operand in range(1, NAMES) else []


def source_words(name, operand):
    """Form and two words."""
    if operand is None:
        return NO_SOURCE, 0, 0
    return (LITERALS[operand], 0, 0) if operand in LITERALS else (SOURCE_REFERENCE, name, 0)


def error_kind(number, operator, first, second, source):
    """The error kind of a program of one row, or 0. "Each operand, a separate name": 0, 1 and 2."""
    regions = region(0, first) + region(1, second) + region(2, source)
    row = Instruction(number, operator, 0, 0, 0 if second is None else 1, 0, *source_words(2, source))
    try:
        check([regions, [], [], [], [], list(row)])
    except TypeErrors as refusal:
        return refusal.error[0]
    return 0


def verdict(number, operators, operands):
    """The one verdict of the operators: "operators share a form, except NEG and NOT"."""
    kinds = {error_kind(number, operator, *operands) for operator in operators}
    assert len(kinds) == 1, (number, operands, kinds)
    return kinds.pop()


def forms(number):
    """The family's forms in order: operators that share one, and the operands, None for one that it has not."""
    family = FAMILIES[number]
    operators = range(len(family.operators.split()))
    shared = [(operator,) for operator in operators] if number == UNARY else [operators]
    seconds = range(NAMES) if family.second else [None]
    sources = range(family.sources) if family.source else [None]
    return [(which, operands) for *operands, which in product(range(NAMES), seconds, sources, shared)]


def verdicts():
    """A string of digits a family."""
    return [''.join(str(verdict(number, *form)) for form in forms(number)) for number in range(len(FAMILIES))]


def hold(digits):
    """02 has the forms by family and the 53; the rest was written down from 01 and 02 before this model."""
    assert [len(block) for block in digits] == [35, 175, 30, 10, 35, 25, 125, 175]
    assert Counter(''.join(digits)) == {'0': 53, '1': 235, '2': 78, '4': 244}
    assert [block.count('0') for block in digits] == [4, 8, 12, 5, 8, 4, 4, 8]
    assert digits[ARITHMETIC] == '11111114444442140420244444421424020'
    assert digits[UNARY] == '1140004004'
    assert digits[EXCHANGE] == '1111110222120221220212220'


def counted(digits):
    """Forms, then those under each verdict."""
    return [len(digits), *(digits.count(str(kind)) for kind in range(len(MARKS)))]


def counts(digits):
    """A name and its numbers a row, the sum last."""
    named = [(family.name, counted(block)) for family, block in zip(FAMILIES, digits)]
    return [*named, ('all', counted(''.join(digits)))]


def report(digits):
    heads = ('forms', 'accepted', *(f'error {kind}' for kind in range(1, len(MARKS))))
    lines = ['family      ' + ''.join(f'{head:>10}' for head in heads)]
    lines += [f'{name:12}' + ''.join(f'{number:>10}' for number in numbers) for name, numbers in counts(digits)]
    return lines


def marks(digits):
    return ''.join(MARKS[int(digit)] for digit in digits)


def pieces(string, size):
    return [string[at:at + size] for at in range(0, len(string), size)]


def columns(number):
    """How many stand in a group: what the last operand may be, or in unary the operators."""
    family = FAMILIES[number]
    return family.sources or (NAMES if family.second else len(family.operators.split()))


def rows(number, digits):
    """The five rows of a block: for each first operand the groups of its marks, one group where there are two operands."""
    block = digits[number]
    return [pieces(marks(row), columns(number)) for row in pieces(block, len(block) // NAMES)]


def called(number):
    """What rows, groups and columns are."""
    family = FAMILIES[number]
    return [name for name in (family.first, family.second, family.source) if name] + ['operator'] * (number == UNARY)


# The chart as text. A label and cells a row; a group of columns is as wide as seven cells.
COLUMN_LETTERS = 'ubiornx'
LABEL, GROUP = 11, 13
TITLE = """\
Verdicts of the type check
Operands: u undeclared, b BIT, i INTEGER, o OCTET, r REAL, n integer literal,
x real literal. Rows by columns. Operators share verdicts, NEG and NOT apart."""


def column_heads(number):
    return FAMILIES[number].operators if number == UNARY else ' '.join(COLUMN_LETTERS[:columns(number)])


def narrow(number, digits):
    """A block of one group; unary's cells stand under NEG and NOT."""
    family = FAMILIES[number]
    space = '   ' if number == UNARY else ' '
    lines = [f'{label:{LABEL}}{space.join(row)}' for label, (row,) in zip(OPERANDS, rows(number, digits))]
    return [f'{family.name}: {family.operators}', ' by '.join(called(number)), ' ' * LABEL + column_heads(number), *lines]


def grouped(label, between, groups):
    return f'{label:{LABEL}}' + between.join(f'{group:{GROUP}}' for group in groups).rstrip()


def wide(number, digits):
    """A block of five groups, one for each second operand."""
    family = FAMILIES[number]
    heads = [f'{family.name}: {family.operators}; {" by ".join(called(number))}',
             grouped(family.second, ' ', OPERANDS[:NAMES]), grouped(family.source, '|', [column_heads(number)] * NAMES)]
    return heads + [grouped(label, '|', map(' '.join, groups)) for label, groups in zip(OPERANDS, rows(number, digits))]


def beside(starts, blocks):
    """Blocks side by side, each from its column on."""
    lines = [''] * len(blocks[0])
    for start, block in zip(starts, blocks):
        lines = [line.ljust(start) + part for line, part in zip(lines, block)]
    return lines


def text(digits):
    """The columns of a terminal, and the lines of a printed page."""
    legend = [f'{mark} {meaning}' for mark, meaning in zip(MARKS, MEANINGS)]
    bands = [beside((0, 42), [narrow(ARITHMETIC, digits), narrow(LOGIC, digits)]),
             beside((0, 27, 56), [narrow(number, digits) for number in (UNARY, MOVE, EXCHANGE)]),
             *(wide(number, digits) for number in (COMPARISON, LOAD, STORE)), report(digits)]
    lines = TITLE.split('\n') + legend + [line for band in bands for line in ['', *band]]
    assert max(map(len, lines)) <= 80 and len(lines) <= 64
    return lines


# The chart as a page. Short forms of OPERANDS stand above the columns; 1 fits every kind but REAL.
COLUMN_WORDS = ('und.', 'BIT', 'INT', 'OCT', 'REAL', '1', '0.5')
PAGE = CRATES / 'chart_page' / 'stdout'


def page_head():
    """The style is the page's own, as it stands: it is judged by looking at it."""
    style = PAGE.read_text().partition('<style>\n')[2].partition('</style>\n')[0]
    return f"""\
<!DOCTYPE html>
<html lang=en>
<meta charset=utf-8>
<meta name=viewport content='width=device-width, initial-scale=1'>
<title>Verdicts of the type check</title>
<style>
{style}</style>
<body>
<header>
<h1>Verdicts of the type check</h1>
<p>Rows are the first operand and columns the last; where there are three, each group of columns is a second operand. The operators of a block share its verdicts, NEG and NOT apart.
<p><b>und.</b> undeclared, <b>INT</b> INTEGER, <b>OCT</b> OCTET, <b>1</b> an integer literal, <b>0.5</b> a real literal
</header>""".split('\n')


def page_legend():
    items = [f'<li><b class={mark.lower()}>{mark}</b> {meaning}' for mark, meaning in zip(MARKS, MEANINGS)]
    return ['<aside>', '<ul>', *items, '</ul>', '</aside>']


def table(name, caption, heads, lines):
    return [f'<div id={name.replace(" ", "-")}>', '<table>', f'<caption><b>{name}</b>{caption}</caption>', *heads, '<tbody>', *lines, '</table>', '</div>']


def cells(kind, contents):
    return ''.join(f'<{kind}>{content}' for content in contents)


def column_cells(number):
    return cells('th scope=col', FAMILIES[number].operators.split() if number == UNARY else COLUMN_WORDS[:columns(number)])


def across(number):
    """What stands above the columns: the second of two operands, or the second of three in its five groups."""
    first, second, *third = called(number)
    return [f'<i>{second}</i> {operand}' for operand in OPERANDS[:NAMES]] if third else [f'<i>{second}</i>']


def page_block(number, digits):
    family, groups = FAMILIES[number], across(number)
    caption = f'<br>{family.operators}' if len(groups) == 1 else f' {family.operators} <i>{" by ".join(called(number))}</i>'
    heads = ['<thead><tr><td>' + cells(f'th scope=col colspan={columns(number)}', groups),
             f'<tr><th scope=col><i>{family.first}</i>' + column_cells(number) * len(groups)]
    lines = [f'<tr><th scope=row>{operand}' + marked('td', ''.join(row)) for operand, row in zip(OPERANDS, rows(number, digits))]
    return table(family.name, caption, heads, lines)


def marked(kind, row):
    return ''.join(f'<{kind} class={mark.lower()}>{mark}' for mark in row)


def page_counts(digits):
    heads = ['<thead><tr><td><th scope=col>all' + marked('th scope=col', MARKS)]
    lines = [f'<tr><th scope=row>{name}' + cells('td', numbers) for name, numbers in counts(digits)]
    return table('counts', ' forms under each verdict', heads, lines)


def page(digits):
    """In the order of the table."""
    blocks = [line for number in range(len(FAMILIES)) for line in page_block(number, digits)]
    return [*page_head(), *page_legend(), *blocks, *page_counts(digits)]


def outputs():
    """What each program must write, by its crate."""
    digits = verdicts()
    hold(digits)
    lines = {'verdict_digits': [''.join(digits)], 'verdict_counts': report(digits), 'chart_text': text(digits), 'chart_page': page(digits)}
    return {crate: '\n'.join(content) + '\n' for crate, content in lines.items()}


def differs(path, content):
    return not path.is_file() or path.read_bytes() != content.encode()


def compare(paths):
    """1 where a file differs."""
    wrong = [str(path.relative_to(CRATES.parent)) for path, content in paths.items() if differs(path, content)]
    if wrong:
        print('not what the model writes:', *wrong, file=sys.stderr)
    return 1 if wrong else 0


def write(paths):
    for path, content in paths.items():
        path.write_bytes(content.encode())
    return 0


def main(arguments):
    if arguments not in ([], ['--check']):
        print('usage: model.py [--check]', file=sys.stderr)
        return 2
    made = outputs()
    paths = {CRATES / crate / 'stdout': content for crate, content in made.items()}
    paths[CRATES.parent / 'docs' / 'chart.html'] = made['chart_page']
    return compare(paths) if arguments else write(paths)


if __name__ == '__main__':
    sys.exit(main(sys.argv[1:]))
