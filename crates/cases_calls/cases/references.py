"""The walk in lists: every small tree from every place into every room, lists that go on, the order of the table's refusals."""
from rules import kept
from rules.tables import *

from .walks import MOST, NODES, NO_TREES, TREES

LEAVES = ((NUMBER, 7, 7), (PI, 0, 0), (VARIABLE_NODE, 8, 0))


def shapes(count):
    """The children of each node, of every tree of so many nodes."""
    if count == 1:
        yield (0,)
    if count > 1:
        for below in shapes(count - 1):
            yield (1, *below)
    for left in range(1, count - 1):
        for one in shapes(left):
            for other in shapes(count - 1 - left):
                yield (2, *one, *other)


def node(at, children, address):
    if children == 2:
        return INFIX, 0, 0
    if children == 1:
        return (PREFIX, FUNCTION_CALL)[at % 2], 0, 0
    return (ADDRESS, 20 + at, at) if address else LEAVES[at % 3]


def small_trees():
    """Every shape up to 5 nodes, each leaf an address or not."""
    for count in range(1, 6):
        for shape in shapes(count):
            leaves = [at for at in range(count) if shape[at] == 0]
            for chosen in range(2 ** len(leaves)):
                addresses = [at for k, at in enumerate(leaves) if chosen >> k & 1]
                yield [node(at, children, at in addresses) for at, children in enumerate(shape)]


def addresses_of(nodes):
    return sum(tag == ADDRESS for tag, _, _ in nodes)


def every_place(script):
    """From each place, and from one past the end, into rooms of no word up to one reference more than there are."""
    for nodes in small_trees():
        script.heading('nodes ' + ' '.join(str(tag) for tag, _, _ in nodes))
        script.table(NODE_TABLE, [word for row in nodes for word in row])
        for words in range(2 * addresses_of(nodes) + 3):
            for place in range(len(nodes) + 2):
                assert script.references(0, len(nodes), words, place) == 0


def going_on(script, first, count, words):
    """List after list, until two have met the end; together they have what single steps have."""
    script.heading(f'nodes, {count} from {first}, lists of {words} words')
    listed, ends, place = [], 0, 0
    while ends < 2:
        script.references(first, count, words, place)
        place, handed = script.passed, int(script.answers[-1].split()[4])
        listed += script.memory[:2 * handed]
        ends += handed < words // 2
    singles, place = [], 0
    while True:
        place, found, *reference = kept.reference(script.tables[NODE_TABLE], first, count, place)
        if not found:
            break
        singles += reference
    assert listed == singles


def lists(script):
    script.table(NODE_TABLE, NODES)
    for first, count in TREES:
        for words in (2, 3, 4, 7):
            going_on(script, first, count, words)
    for first, count in TREES[:3]:
        script.heading(f'nodes, {count} from {first}, from place {MOST}')
        for words in (0, 1, 2, 4):
            script.references(first, count, words, MOST)


def long_trees(script):
    """A chain, and a comb of as many addresses as a table may have; lists of a few, of all, of more."""
    script.table(NODE_TABLE, [PREFIX, 0, 0] * 2047 + [ADDRESS, 3, 1])
    for words in (2, 3, 4):
        going_on(script, 0, 2048, words)
    script.table(NODE_TABLE, [word for k in range(1023) for word in (INFIX, 0, 0, ADDRESS, k, 2 * k)] + [ADDRESS, 1023, 1])
    for words in (900, 2047, 2048, 2050):
        going_on(script, 0, 2047, words)


def refused(script, number, first, count):
    script.heading(f'{number}: {count} from {first}')
    for words, place in ((0, 0), (4, 0), (4, 1), (3, MOST)):
        assert script.references(first, count, words, place) == number


def no_trees(script):
    script.table(NODE_TABLE, NODES)
    for first, count in NO_TREES:
        refused(script, 2, first, count)


def tables(script):
    """1 before 2, and 2 for words outside the range too."""
    script.table(NODE_TABLE, [0], 2049 * 3)
    refused(script, 1, 0, 1)
    for number, words, count in ((1, [4, 0, 0, 4, 0], 1), (1, [4, 0, 0, 7, 0], 0), (2, [0, 3, 1, 7, 0, 0], 1), (2, [0, 3, 1, 4, 0, 1], 1)):
        script.table(NODE_TABLE, words)
        refused(script, number, 0, count)


def write(script):
    for group in (every_place, lists, long_trees, no_trees, tables):
        script.heading('references, ' + group.__name__.replace('_', ' ') + ':')
        group(script)
