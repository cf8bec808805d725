"""The walk: expressions walked to their end and beyond, ranges that are no tree, tables that are none."""
from rules.tables import *

STEPS = 6
MOST = 2 ** 64 - 1
# -; r[1] + f(a[0]) * -r[1]; n[2] + pi; (q[9] + n[0]) + q[9]; -x[y] of the greatest x and y; a number; %v.
NODES = [word for row in (
    (PREFIX, 0, 0), (INFIX, 0, 0), (ADDRESS, 3, 1), (INFIX, 0, 0), (FUNCTION_CALL, 0, 0), (ADDRESS, 0, 0), (PREFIX, 0, 0), (ADDRESS, 3, 1),
    (INFIX, 0, 0), (ADDRESS, 1, 2), (PI, 0, 0), (INFIX, 0, 0), (INFIX, 0, 0), (ADDRESS, 4, 9), (ADDRESS, 1, 0), (ADDRESS, 4, 9),
    (PREFIX, 0, 0), (ADDRESS, MOST, MOST), (NUMBER, 7, 7), (VARIABLE_NODE, 3, 0)) for word in row]
TREES = ((1, 7), (3, 5), (4, 2), (6, 2), (8, 3), (9, 1), (10, 1), (11, 5), (12, 3), (16, 2), (18, 1), (19, 1))
NO_TREES = ((1, 0), (1, 6), (1, 8), (18, 2), (0, 1), (19, 2), (20, 0), (20, 1), (MOST, 2), (1, MOST))


def walked(script, what, first, count, number=0):
    """Steps from the first place."""
    script.heading(f'{what}, {count} from {first}')
    for step in range(STEPS):
        assert script.reference(first, count, 0 if step == 0 else None) == number, what


def trees(script):
    script.table(NODE_TABLE, NODES)
    for first, count in TREES:
        walked(script, 'nodes', first, count)
    for first, count in NO_TREES:
        walked(script, 'nodes', first, count, 2)


def places(script):
    """The first step from each place, past the tree too."""
    for first, count in ((1, 7), (8, 3), (18, 1)):
        script.heading(f'nodes, {count} from {first}, from the places 0 to 8 and {MOST}')
        for place in (*range(9), MOST):
            script.reference(first, count, place)


def tables(script):
    """Refusals 1 and 2 of the table itself, in rows outside the range too; a chain of prefixes as long as a table may be."""
    script.table(NODE_TABLE, [PREFIX, 0, 0], 2048 * 3)
    script.table(NODE_TABLE, [PREFIX, 0, 0] * 2047 + [ADDRESS, 3, 1])
    walked(script, '2047 prefixes and an address', 0, 2048)
    script.table(NODE_TABLE, [0], 2049 * 3)
    walked(script, '2049 nodes', 0, 1, 1)
    for number, words, count in ((1, [4, 0, 0, 4, 0], 1), (1, [4, 0, 0, 7, 0], 0), (2, [4, 0, 0, 7, 0, 0], 1), (2, [4, 0, 0, 4, 0, 1], 1)):
        script.table(NODE_TABLE, words)
        walked(script, f'nodes {" ".join(map(str, words))}', 0, count, number)
    script.table(NODE_TABLE, [6, 0, 1, 4, 0, 0])
    walked(script, 'nodes 6 0 1 4 0 0', 1, 1, 2)


def write(script):
    for group in (trees, places, tables):
        script.heading('walk, ' + group.__name__ + ':')
        group(script)
