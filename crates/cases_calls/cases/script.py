"""A script as it is written, with the answers that the model gives to its calls."""
from rules import kept, session
from rules.outcome import Refused
from rules.tables import NODE_TABLE

TABLE_SIGNS = 'REPNAI'
GIVEN = 6
# How far apart the program keeps the tables.
TABLE_ROOM = 6150
MARK = 1000
# What the program has in an out-array before a call, and does not show after it.
UNWRITTEN = 0x5555555555555555


def marked(words, length):
    """The given words, then words that tell where they stand."""
    return list(words) + [MARK + i for i in range(len(words), length)]


def joined(sign, *numbers):
    return ' '.join([sign, *map(str, numbers)])


def planted(sign, held, wanted, start=0):
    """Each word that differs."""
    return ' '.join(joined(sign, start + i, w) for i, w in enumerate(wanted) if held[i] != w)


class Script:
    def __init__(self):
        self.lines, self.answers = ['# Written by model.py, with what each call must answer.'], []
        self.tables = [[] for _ in TABLE_SIGNS]
        self.given = []
        self.memory, self.journal, self.position, self.passed = [], [], (0, 0, 0), 0

    def heading(self, text):
        self.lines.append('= ' + text)
        self.answers.append('= ' + text)

    def shorter(self, whole, held, wanted, planting):
        """Of two ways to lend words: all of them, or where as many are held those that differ."""
        if len(held) == len(wanted):
            differing = planting()
            if len(differing) < len(whole):
                whole = differing
        self.lines.append(whole)

    def table(self, which, words, length=None):
        """The words over and over up to the length."""
        length = len(words) if length is None else length
        wanted = [words[i % len(words)] for i in range(length)] if words else []
        held, self.tables[which] = self.tables[which], wanted
        if wanted != held:
            self.shorter(joined(TABLE_SIGNS[which], length, len(words), *words), held, wanted,
                         lambda: planted('t', held, wanted, which * TABLE_ROOM))

    def all_tables(self, tables):
        for which, words in enumerate(tables):
            self.table(which, words)

    def lend(self, sign, held, wanted):
        if held == wanted:
            return
        given = len(wanted)
        while given > 0 and wanted[given - 1] == MARK + given - 1:
            given -= 1
        self.shorter(joined(sign, len(wanted), given, *wanted[:given]), held, wanted, lambda: planted(sign.lower(), held, wanted))
        held[:] = wanted

    def lend_memory(self, words):
        self.lend('M', self.memory, words)

    def lend_journal(self, words):
        self.lend('J', self.journal, words)

    def place(self, row, steps, used):
        if (row, steps, used) != self.position:
            self.position = row, steps, used
            self.lines.append(joined('p', row, steps, used))

    def walk_from(self, passed):
        """The place that the next walk begins at, nodes passed."""
        if passed != self.passed:
            self.passed = passed
            self.lines.append(joined('k', passed))

    def give(self, *numbers):
        """The numbers that the next call takes."""
        held, self.given = self.given, list(numbers)
        if held != self.given:
            self.shorter(joined('G', len(numbers), len(numbers), *numbers), held, self.given, lambda: planted('t', held, self.given, GIVEN * TABLE_ROOM))

    def call(self, name, command, play, kept=()):
        """Plays the call on copies of memory and journal, and tells what changed; a refusal shows what is kept, then its error."""
        self.lines.append(command)
        memory, journal = list(self.memory), list(self.journal)
        number = 0
        try:
            shown = play(memory, journal)
        except Refused as refusal:
            number = refusal.number
            shown = (*kept, *getattr(refusal, 'error', ()))
        assert UNWRITTEN not in shown
        self.answers.append(' '.join([name, str(number), '|', *map(str, shown), '|', *changes(self.memory, memory), '|',
                                      *changes(self.journal, journal)]))
        self.memory, self.journal = memory, journal
        return number

    def moved(self, position):
        self.position = position
        return position

    def went(self, shown):
        self.passed = shown[0]
        return shown

    def journal_length(self):
        return self.call('journal_length', 'e', lambda memory, journal: session.journal_length(self.tables))

    def open(self):
        def play(memory, journal):
            return self.moved(session.open_session(self.tables, memory, journal))
        return self.call('open', 'o', play, self.position)

    def forward(self, reply=()):
        def play(memory, journal):
            return self.moved(session.forward(self.tables, memory, journal, self.position, list(reply)))
        self.give(*reply)
        return self.call('forward', 'f', play, self.position)

    def back(self):
        def play(memory, journal):
            return self.moved(session.back(self.tables, memory, journal, self.position))
        return self.call('back', 'b', play, self.position)

    def run(self, allowance):
        def play(memory, journal):
            shown = session.run(self.tables, memory, journal, self.position, allowance)
            self.moved(shown[:3])
            return shown
        self.give(allowance)
        return self.call('run', 'u', play, self.position)

    def check(self):
        return self.call('check', 'c', lambda memory, journal: kept.check(self.tables))

    def frame(self, row):
        self.give(row)
        return self.call('frame', 'n', lambda memory, journal: kept.frame(self.tables, row))

    def resolve(self, row, room):
        """Into memory of so many words."""
        def play(memory, journal):
            return kept.resolve(self.tables, row, memory)
        self.lend_lists(play, room, len(self.journal))
        self.give(row)
        return self.call('resolve', 'v', play)

    def access(self, row, read_room, write_room):
        """Into memory and journal of so many words."""
        def play(memory, journal):
            return kept.access(self.tables, row, memory, journal)
        self.lend_lists(play, read_room, write_room)
        self.give(row)
        return self.call('access', 's', play)

    def reference(self, first, count, place=None):
        """A walk's next reference from a place, or from where the last one ended."""
        self.walk_from(self.passed if place is None else place)

        def play(memory, journal):
            return self.went(kept.reference(self.tables[NODE_TABLE], first, count, self.passed))
        self.give(first, count)
        return self.call('reference', 'w', play, (self.passed,))

    def references(self, first, count, room, place=None):
        """A walk's next references into memory of so many words, from a place, or from where the last ended."""
        self.walk_from(self.passed if place is None else place)

        def play(memory, journal):
            return kept.references(self.tables[NODE_TABLE], first, count, self.passed, memory)
        self.lend_lists(play, room, len(self.journal))
        self.give(first, count)
        return self.call('references', 'r', lambda memory, journal: self.went(play(memory, journal)), (self.passed,))

    def look(self, row, family):
        """The loader's, at a row that must be of the family."""
        self.give(row, family)
        return self.call('look', 'l', lambda memory, journal: kept.look(self.tables, row, family))

    def lend_lists(self, play, first, second):
        """Words that all change where the call writes: marks, or else zeros less one, two and so on."""
        for start, step in ((MARK, 1), (2 ** 64 - 1, -1)):
            lists = [[start + step * i for i in range(length)] for length in (first, second)]
            if not hides(play, lists):
                self.lend_memory(lists[0])
                self.lend_journal(lists[1])
                return
        raise AssertionError('a written word cannot be told')


def hides(play, lists):
    """Whether the call writes a word that was there already."""
    def written(start):
        after = [list(start(words)) for words in lists]
        before = [list(words) for words in after]
        try:
            play(*after)
        except Refused:
            pass
        return [[i for i, pair in enumerate(zip(*both)) if pair[0] != pair[1]] for both in zip(before, after)]
    return written(lambda words: words) != written(lambda words: [word ^ 2 ** 62 for word in words])


def changes(before, after):
    return [f'{i}:{new}' for i, (old, new) in enumerate(zip(before, after)) if old != new]
