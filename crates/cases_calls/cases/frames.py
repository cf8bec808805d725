"""One frame's check: the nodes that it counts, by shape and failing leaves and by the way to fail, and what it turns down."""
from itertools import cycle, product

from rules.tables import *

from . import quil
from .quil import SMALL, operators
from .references import shapes
from .verdicts import LETTERS, NUMBERS, REGIONS, TABLES, lend, node
from .walks import MOST
from .worked import said

# Leaves as verdicts.py's `node` writes them; the failing ones with what they give: the error's kind and what is found.
PASSING = ('pi', 'r', '1')
FAILING = {'%': (3, 7), 'q': (1, 8), 'i': (3, 6), 'n': (3, 1), 'a': (3, 0), 'o': (3, 2)}
ONE_CHILD = ('f', '-')
NOP, ADD_UNDECLARED = quil.row('NOP'), quil.row('ADD q[0] 1', SMALL)


def frame(first, count, operator=0):
    return [FRAME, operator, first, count, 0, 0, NO_SOURCE, 0, 0]


def words(text):
    return [word for one in text.split() for word in node(one)]


def counted(script, looked, row=0):
    """It passes, after so many nodes."""
    script.frame(row)
    said(script, f'frame 0 | {looked} | |')


def failed(script, looked, kind, found, row=0):
    """It fails at the last of so many nodes, whose spot is 4 and its place."""
    script.frame(row)
    said(script, f'frame 5 | {looked} {kind} {row} {4 + looked - 1} 0 {found} 8 | |')


def told(script, text, *failing):
    """The nodes as one frame, of which those at these places fail."""
    nodes = text.split()
    script.heading(f'{text}: ' + ('fails at ' + ', '.join(map(str, failing)) if failing else 'none fails'))
    lend(script, frame(0, len(nodes)), nodes=words(text))
    if failing:
        failed(script, failing[0] + 1, *FAILING[nodes[failing[0]]])
    else:
        counted(script, len(nodes))


def every_shape(script):
    """1 to 5 nodes in every shape, with every set of failing leaves."""
    assert [len(list(shapes(count))) for count in range(1, 6)] == [1, 1, 2, 4, 9]
    script.heading('the nodes parents first, + of two children, f and - of one; the answer is how many were looked at, then the error')
    inner, passing, failing = {1: cycle(ONE_CHILD), 2: cycle('+')}, cycle(PASSING), cycle(FAILING)
    for shape in (shape for count in range(1, 6) for shape in shapes(count)):
        leaves = [at for at, children in enumerate(shape) if children == 0]
        for chosen in product((False, True), repeat=len(leaves)):
            places = [at for at, fails in zip(leaves, chosen) if fails]
            choices = (inner[children] if children else failing if at in places else passing for at, children in enumerate(shape))
            told(script, ' '.join(map(next, choices)), *places)


def every_leaf(script):
    """Each way to fail and to pass at each leaf of four; where it fails, also before another that does."""
    for at, leaf in product((2, 3, 6, 7), (*FAILING, *PASSING)):
        nodes = '+ + r pi f + 1 r'.split()
        nodes[at] = leaf
        places = [at] if leaf in FAILING else []
        told(script, ' '.join(nodes), *places)
        if places and at < 7:
            told(script, ' '.join([*nodes[:7], '%']), at, 7)


def single_nodes(script):
    """Each operator with each address; numbers about 2^-52, infinities and NaNs."""
    for (operator, name), letter in product(enumerate(operators(FRAME)), LETTERS):
        script.heading(f'{name} {letter}[7]')
        lend(script, frame(0, 1, operator), nodes=[ADDRESS, SMALL[letter], 7])
        if letter in FAILING:
            failed(script, 1, *FAILING[letter])
        else:
            counted(script, 1)
    for real, imaginary in NUMBERS:
        script.heading(f'{real:016X} {imaginary:016X}i')
        lend(script, frame(0, 1), nodes=[NUMBER, real, imaginary])
        script.frame(0)


def this_row(script):
    """Frames among rows of which others fail; trees that begin past node 0, overlap, and lie before failing nodes."""
    script.heading('ADD q[0] 1; nodes 1 to 4, 5, 3 to 4, 0 and 1 to 4 of % + r - % pi; ADD q[0] 1; OTHER; CALL of no extern')
    rows = ADD_UNDECLARED + frame(1, 4) + frame(5, 1, 1) + frame(3, 2, 2) + frame(0, 1, 3) + frame(1, 4, 4) + ADD_UNDECLARED
    lend(script, rows + quil.program('OTHER', 'CALL q 0 0', names=SMALL), nodes=words('% + r - % pi'))
    for row, looked in ((1, 4), (3, 2), (4, 1), (5, 4)):
        failed(script, looked, *FAILING['%'], row)
    counted(script, 1, 2)
    for row in (0, 6, 7, 8, 9, MOST):
        refused(script, 2, row)
    script.heading('more than 4096 cells')
    lend(script, frame(0, 1), [0, REAL, MOST, 1, REAL, MOST], nodes=[ADDRESS, 1, 0])
    counted(script, 1)
    script.heading('511 NOPs and a frame')
    script.table(INSTRUCTION_TABLE, NOP, 9 * 512)
    script.table(INSTRUCTION_TABLE, NOP * 511 + frame(0, 1))
    counted(script, 1, 511)
    refused(script, 2, 510)


def refused(script, number, row):
    script.frame(row)
    said(script, f'frame {number} | | |')


def tables(script):
    """Tables that are none, beside a frame that passes and one that fails; no row; 513 rows."""
    for (table, what, half), leaf in product(TABLES, ('pi', '%')):
        script.heading(f'{leaf} beside {table}: {what}')
        lend(script, frame(0, 1), **{'nodes': words(leaf), table: words(leaf) + half if table == 'nodes' else half})
        script.frame(0)
    script.heading('no row, and 513')
    lend(script)
    for row in (0, 1, MOST):
        refused(script, 2, row)
    script.table(INSTRUCTION_TABLE, frame(0, 1), 9 * 513)
    script.table(NODE_TABLE, words('pi'))
    for row in (0, 513):
        refused(script, 1, row)


def no_trees(script):
    """Ranges of + r pi pi that are not one tree, of the chosen row and of another."""
    for first, count in ((0, 0), (0, 2), (0, 4), (1, 2), (4, 0), (4, 1), (MOST, 2), (0, MOST)):
        script.heading(f'{count} from {first}')
        lend(script, frame(0, 3) + frame(first, count), nodes=words('+ r pi pi'))
        for row in (0, 1):
            refused(script, 2, row)


def orders(script):
    """Two words of arguments for 1, a node of tag 7 or the chosen row for 2, a second region of the first's name for 3, a variable for 5."""
    for arguments, tag, name, leaf, row in product((2, 0), (7, 4), (0, 9), ('%', 'pi'), (0, 1, 2, MOST)):
        number = 1 if arguments else 2 if tag == 7 or row else 3 if name == 0 else 5 if leaf == '%' else 0
        script.heading(f'words of arguments {arguments}, a tag {tag}, last region {name}, {leaf}, row {row}')
        lend(script, frame(0, 1) + NOP, REGIONS + [name, REAL, 1], nodes=[*words(leaf), tag, 0, 0], arguments=[0] * arguments)
        assert script.frame(row) == number


def long_trees(script):
    """A chain and a comb as long as a table may be; a tree whose left operands are the deeper ones."""
    script.heading('+ and a leaf, then 2045 prefixes and a leaf')
    script.table(INSTRUCTION_TABLE, frame(0, 2048))
    script.table(NODE_TABLE, words('-'), 3 * 2048)
    judged(script, words('+ %') + words('-') * 2045 + words('%'), 2)
    judged(script, words('+ pi') + words('-') * 2045 + words('%'), 2048)
    judged(script, words('+ pi') + words('-') * 2045 + words('pi'))
    script.heading('1023 times + and r, and a leaf')
    script.table(INSTRUCTION_TABLE, frame(0, 2047))
    comb = words('+ r') * 1023 + words('pi')
    script.table(NODE_TABLE, words('+ r'), 3 * 2047)
    judged(script, comb)
    for place in (1, 1023, 2045, 2046):
        judged(script, comb[:3 * place] + words('%') + comb[3 * place + 3:], place + 1)
    script.heading('200 infixes and 201 leaves')
    script.table(INSTRUCTION_TABLE, frame(0, 401))
    deep = words('+') * 200 + words('r') * 201
    judged(script, deep)
    for place in (200, 201, 399, 400):
        judged(script, deep[:3 * place] + words('%') * (401 - place), place + 1)


def judged(script, nodes, looked=None):
    """All nodes of the row's frame; a variable fails."""
    script.table(NODE_TABLE, nodes)
    if looked is None:
        counted(script, len(nodes) // WIDTHS[NODE_TABLE])
    else:
        failed(script, looked, *FAILING['%'])


def write(script):
    for group in (every_shape, every_leaf, single_nodes, this_row, tables, no_trees, orders, long_trees):
        script.heading('frame, ' + group.__name__.replace('_', ' ') + ':')
        group(script)
