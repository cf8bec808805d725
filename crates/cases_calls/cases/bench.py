"""A case: one row on planted cells, and the number that forward is to answer."""
from . import quil
from .script import Script, marked

ENTRIES = 4


class Bench:
    """Regions of the bench, two words of memory past the cells, and a journal of four entries."""

    def __init__(self, script: Script):
        self.script = script

    def tables(self, instructions, regions=None, externs=(), parameters=(), nodes=(), arguments=()):
        self.script.all_tables([quil.regions() if regions is None else regions, list(externs), list(parameters), list(nodes),
                                list(arguments), list(instructions)])

    def lend(self, cells='', entries=ENTRIES, used=0, row=0, steps=0):
        words = quil.cells(cells)
        self.script.lend_memory(marked(words, len(words) + 2))
        self.script.lend_journal(marked([], 3 * entries))
        self.script.place(row, steps, used)

    def step(self, number, row, cells='', reply=(), entries=ENTRIES, used=0):
        """The row alone on the cells."""
        note = ''.join([f' | {cells}' if cells else '', f' | reply {len(reply)} words' if reply else '',
                        f' | {used} of {entries} entries' if (entries, used) != (ENTRIES, 0) else ''])
        self.script.heading(row + note)
        self.tables(quil.row(row))
        self.lend(cells, entries, used)
        self.expect(number, self.script.forward(reply), row + note)

    def expect(self, number, answer, what):
        assert answer == number, f'{what}: {answer}, not {number}'
