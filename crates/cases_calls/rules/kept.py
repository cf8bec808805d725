"""The calls that take tables alone: check, frame, resolve, access and the walk; and the loader's look at a chosen row."""
from .calls import ERROR_WORDS, Failed, access_sets, error_rows, resolve_all
from .check import frame as frame_verdict, numbered, type_error
from .outcome import Refused, TypeErrors, need
from .tables import ADDRESS, CALL, FRAME, NODE_TABLE, Node, decoded, load, node_allowed, one_tree, rows_of, table_sized


# A reference's name and index.
REFERENCE_WORDS = 2


class FrameError(TypeErrors):
    """5, with the count of nodes looked at before the type error's words."""

    def __init__(self, looked, error):
        super().__init__((looked, *error))


class ArgumentErrors(Refused):
    """8, with the count of error rows."""

    def __init__(self, count):
        super().__init__(8)
        self.error = (count,)


def loaded(words, row=None, family=CALL):
    """The decoded tables, after the refusals 1, 2 and 3; a chosen row is of the family."""
    refusal = load(words, row, family)
    need(refusal == 0, refusal)
    return decoded(words)


def look(words, row, family):
    loaded(words, row, family)
    return ()


def check(words):
    error = type_error(loaded(words))
    if error:
        raise TypeErrors(error)
    return ()


def frame(words, row):
    """How many nodes of the frame were looked at."""
    tables = loaded(words, row, FRAME)
    error, looked = frame_verdict(tables.instructions[row], tables)
    if error:
        raise FrameError(looked, numbered(row, error))
    return looked,


def resolve(words, row, rows):
    """The count of rows written."""
    tables = loaded(words, row)
    call = tables.instructions[row]
    resolved = resolve_all(tables, call)
    need(len(rows) >= ERROR_WORDS * len(resolved), 4)
    failed = any(isinstance(one, Failed) for one in resolved)
    written = error_rows(tables, call, resolved) if failed else [one.words() for one in resolved]
    flat = [word for one in written for word in one]
    rows[:len(flat)] = flat
    if failed:
        raise ArgumentErrors(len(written))
    return len(written),


def access(words, row, reads, writes):
    """How many names are read, and how many written."""
    tables = loaded(words, row)
    call = tables.instructions[row]
    read, written = access_sets(tables, call)
    need(len(reads) >= call.second and len(writes) >= call.second, 4)
    reads[:len(read)], writes[:len(written)] = read, written
    return len(read), len(written)


def tree_of(nodes, first, count) -> list[Node]:
    """The nodes of the range, after the refusals 1 and 2."""
    need(table_sized(nodes, NODE_TABLE), 1)
    rows = rows_of(nodes, NODE_TABLE)
    need(all(map(node_allowed, rows)) and first + count <= len(rows) and one_tree(rows[first:first + count]), 2)
    return rows[first:first + count]


def reference(nodes, first, count, place):
    """The nodes passed, and 1 with the next reference from a place on, or zeros at the end."""
    tree = tree_of(nodes, first, count)
    for at in range(place, count):
        if tree[at].tag == ADDRESS:
            return at + 1, 1, tree[at].left, tree[at].right
    return count, 0, 0, 0


def references(nodes, first, count, place, rows):
    """The nodes passed, and how many references from a place on are written, as many as fit. The end is met by a list that has room left."""
    tree = tree_of(nodes, first, count)
    room = len(rows) // REFERENCE_WORDS
    handed = [at for at in range(place, count) if tree[at].tag == ADDRESS][:room]
    flat = [word for at in handed for word in (tree[at].left, tree[at].right)]
    rows[:len(flat)] = flat
    if len(handed) < room:
        return count, len(handed)
    return handed[-1] + 1 if handed else place, len(handed)
