"""quil-rs's answers, one parting apart (compare/oracle/src/parting.rs): the fixed list that compare/compare/src/vectors.rs makes and lays out, asked again.

The answers that must come are the list's; the rules here have to give the same.
"""
from pathlib import Path

from rules.tables import WIDTHS

LIST = Path(__file__).resolve().parent.parent / 'quil-rs.answers'
# The words of a row in the list. What a table has besides is 0 there.
LISTED = (3, 4, 5, 3, 3, 9)
CHECK, RESOLVE, ACCESS, WALK = range(1, 5)


class Words:
    """A line's words, from left to right."""

    def __init__(self, line):
        self.left = [int(word, 16) for word in line.split()]

    def take(self, count):
        taken, self.left = self.left[:count], self.left[count:]
        assert len(taken) == count
        return taken

    def list(self):
        return self.take(*self.take(1))


def widened(words, listed, width):
    return [word for at in range(0, len(words), listed) for word in words[at:at + listed] + [0] * (width - listed)]


def line(name, number, shown, first=(), second=()):
    """What the program has to write where lent lists start with these words."""
    def written(words):
        return [f'{i}:{word}' for i, word in enumerate(words)]
    return ' '.join([name, str(number), '|', *map(str, shown), '|', *written(first), '|', *written(second)])


def checked(script, words):
    number, *error = words.take(7)
    script.check()
    return line('check', number, error if number == 5 else ())


def resolved(script, words):
    row, room, number, count = words.take(4)
    script.resolve(row, room)
    return line('resolve', number, [count] if number in (0, 8) else (), words.list())


def accessed(script, words):
    row, read_room, write_room, number, *counts = words.take(6)
    script.access(row, read_room, write_room)
    return line('access', number, counts if number == 0 else (), words.list(), words.list())


def walked(script, words):
    """One by one, and then all in a list with room for one more."""
    first, count, steps = words.take(3)
    references = []
    for step in range(steps):
        found, *reference = words.take(3)
        references += reference if found else []
        script.reference(first, count, 0 if step == 0 else None)
        expected = line('reference', 0, [script.passed, found, *reference])
        assert script.answers[-1] == expected, (script.answers[-1], expected)
    script.references(first, count, len(references) + 2, 0)
    return line('references', 0, [count, len(references) // 2], references)


ASKED = {CHECK: checked, RESOLVE: resolved, ACCESS: accessed, WALK: walked}


def write(script):
    script.heading('quil-rs:')
    lines = [text for text in LIST.read_text().splitlines() if not text.startswith('#')]
    for k, text in enumerate(lines):
        words = Words(text)
        call, = words.take(1)
        script.heading(f'question {k}')
        script.all_tables([widened(words.list(), *widths) for widths in zip(LISTED, WIDTHS)])
        expected = ASKED[call](script, words)
        assert not words.left and script.answers[-1] == expected, (script.answers[-1], expected)
