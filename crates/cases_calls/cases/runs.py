"""The run key: its own refusals, each stop with the allowances around it, loops, and runs among forward and back."""
from rules.session import ALLOWANCE, BEFORE_CALL, END, REFUSAL

from . import quil
from .bench import ENTRIES, Bench
from .calls import F, call_tables
from .jumps import pressed
from .lists import COUNTDOWN
from .opens import opened
from .orders import CAUSES, lend_changed, two_of
from .script import marked
from .walks import MOST
from .worked import said

# The stops are told by these numbers.
assert (ALLOWANCE, END, BEFORE_CALL, REFUSAL) == (0, 1, 2, 3)


def lent(bench, *rows, at=(0, 0, 0), cells='', entries=ENTRIES):
    bench.script.heading('; '.join(rows) + f' | at {at}, {entries} entries' + (f' | {cells}' if cells else ''))
    bench.tables(**call_tables(*rows))
    row, steps, used = at
    bench.lend(cells, entries, used, row, steps)


def ran(bench, allowance, taken, stop, number=0):
    """It takes so many steps and says which stop; a run that takes none changes nothing."""
    script = bench.script
    before, steps = (script.position, list(script.memory), list(script.journal)), script.position[1]
    bench.expect(0, script.run(allowance), 'run')
    assert script.answers[-1].split(' |')[1].split()[3:] == [str(word) for word in (taken, stop, number)], script.answers[-1]
    assert script.position[1] == steps + taken <= steps + allowance
    assert taken or before == (script.position, script.memory, script.journal)


def stopped(bench, number, taken, *rows, **lending):
    """At a step's refusal: with one step less, or just as many, the allowance is used up before."""
    for allowance in sorted({max(taken - 1, 0), taken, taken + 1, MOST}):
        lent(bench, *rows, **lending)
        if allowance <= taken:
            ran(bench, allowance, allowance, ALLOWANCE)
        else:
            ran(bench, allowance, taken, REFUSAL, number)


def refused(bench):
    """"It makes forward's looks up to 19 first", with an allowance of 0 too; no later cause is the run's own."""
    up_to_19 = CAUSES[:-1]
    for number, what, change in [*up_to_19, *two_of(up_to_19)]:
        for allowance in (0, 2):
            lend_changed(bench, f'{what}, allowance {allowance}', {'instructions': quil.program('NEG n[0]', 'OTHER', 'JUMP @1'), **change})
            bench.expect(number, bench.script.run(allowance), what)


def positions(bench):
    """19 as for a forward; the row past the last is the end, any other may be run from."""
    rows = ('NEG n[0]', 'NOP')
    for row, steps, used in ((3, 0, 0), (MOST, 0, 0), (0, 1, 0), (2, 2, 1), (0, MOST, ENTRIES), (0, 0, ENTRIES + 1), (2, 0, MOST)):
        for allowance in (0, 1):
            lent(bench, *rows, at=(row, steps, used))
            bench.expect(19, bench.script.run(allowance), 'position')
    for at, taken in (((2, 0, 0), 0), ((2, ENTRIES, ENTRIES), 0), ((1, 0, 0), 1), ((1, 3, 3), 1), ((0, 0, 1), 2)):
        lent(bench, *rows, at=at)
        ran(bench, 5, taken, END)


def buffers(bench):
    """4: memory a word short, journals not whole and too long; the longest one."""
    for number, memory, journal in ((4, 17, 12), (4, 18, 11), (4, 18, 6147), (0, 18, 6144)):
        bench.script.heading(f'{memory} words of memory, {journal} of journal')
        bench.tables(quil.row('NEG n[0]'))
        bench.script.lend_memory(marked(quil.cells('n0=1')[:memory], memory))
        bench.script.lend_journal(marked([], journal))
        bench.script.place(0, 0, 0)
        bench.expect(number, bench.script.run(1), 'buffers')


def ends(bench):
    """The allowance is looked at before the end, which is no refusal 11. Type errors and conditions of other rows are open's matter."""
    for rows, steps in (((), 0), (('NEG n[0]',), 1), (('NEG n[0]', 'LABEL @1', 'NOP'), 3), (('NOP', 'HALT', 'NOP'), 2), (('JUMP @1', 'NOP', 'LABEL @1'), 2),
                        (('NOP', 'HALT', 'ADD a[0] 1.5', 'LABEL @1', 'JUMP-UNLESS @1 q[0]'), 2)):
        for allowance in sorted({0, 1, max(steps - 1, 0), steps, steps + 1, MOST}):
            lent(bench, *rows)
            ran(bench, allowance, min(allowance, steps), ALLOWANCE if allowance <= steps else END)
            assert allowance < steps or bench.script.position[0] == len(rows)


def calls(bench):
    """Before a CALL no refusal is looked for: neither its own, nor the labels', nor the journal's."""
    for call in (F, 'CALL q', 'CALL g n', 'CALL v q', 'CALL f n[9] a r o'):
        for rest in ((), ('JUMP @1',)):
            lent(bench, call, *rest)
            ran(bench, 0, 0, ALLOWANCE)
            ran(bench, 1, 0, BEFORE_CALL)
            ran(bench, MOST, 0, BEFORE_CALL)
    lent(bench, F, entries=0)
    ran(bench, 1, 0, BEFORE_CALL)
    for allowance in (0, 1, 2, 3, MOST):
        lent(bench, 'NEG n[0]', 'NOP', F, 'NOP')
        ran(bench, allowance, min(allowance, 2), ALLOWANCE if allowance <= 2 else BEFORE_CALL)


def through_a_call(bench):
    """A run up to the CALL, a forward with its reply, a run to the end; from a jump too."""
    lent(bench, 'NEG n[0]', 'JUMP @1', 'NOP', 'LABEL @1', F, 'NEG n[2]', entries=8)
    ran(bench, 9, 3, BEFORE_CALL)
    ran(bench, 9, 0, BEFORE_CALL)
    bench.expect(0, bench.script.forward((0, 0, 1, 7)), 'reply')
    ran(bench, 9, 1, END)
    assert bench.script.position == (6, 5, 8)


def refusals(bench):
    """"A stop at a step's refusal is an answer that gives its number and keeps the steps already taken"."""
    for number, row, cells in (
            (9, 'OTHER', ''), (18, 'ADD q[0] 1', ''), (14, 'ADD n[3] 1', ''), (18, 'ADD n[1] 1', 'n1=4:0'), (14, 'LOAD n[0] n n[1]', 'n1=3'),
            (18, 'LOAD n[0] n n[1]', 'n1=2 n2=4:0'), (15, 'DIV n[1] 0', ''), (16, 'SHL n[1] -1', ''), (18, 'JUMP-WHEN @1 q[0]', ''), (14, 'JUMP-WHEN @1 a[2]', ''),
            (18, 'JUMP-UNLESS @1 a[0]', 'a0=2'), (23, 'CONVERT n[1] r[0]', 'r0=nan'), (24, 'MOVE o[0] 300', ''), (24, 'STORE a n[1] 2', '')):
        stopped(bench, number, 2, 'LABEL @1', 'NEG n[0]', row, 'NOP', cells=cells)
    stopped(bench, 18, 0, 'NEG q[0]')
    stopped(bench, 24, 0, 'MOVE a[0] -1')
    stopped(bench, 9, 0, 'OTHER')


def faulty_labels(bench):
    """20 at the first step, wherever the fault is; not with an allowance of 0 or at the end."""
    stopped(bench, 20, 0, 'NOP', 'JUMP @1')
    stopped(bench, 20, 0, 'NEG q[0]', 'LABEL @1', 'LABEL @1')
    stopped(bench, 20, 0, 'NOP', 'OTHER', 'JUMP @1')
    stopped(bench, 9, 0, 'NOP', 'OTHER', 'JUMP @1', at=(1, 0, 0))
    lent(bench, 'JUMP @1', at=(1, 0, 0))
    ran(bench, 0, 0, ALLOWANCE)
    ran(bench, MOST, 0, END)


def full_journals(bench):
    """13 where the next step's entries do not fit, at once, after steps, and in loops that do not end; the end needs no entry."""
    stopped(bench, 13, 0, 'NOP', entries=0)
    stopped(bench, 13, 0, 'NEG n[0]', at=(0, 0, 3))
    stopped(bench, 13, 2, 'NOP', 'NEG n[0]', 'EXCHANGE n[0] n[1]', entries=5)
    stopped(bench, 13, 4, 'LABEL @1', 'JUMP @1')
    stopped(bench, 13, 5, 'LABEL @1', 'NEG n[0]', 'JUMP @1', entries=7)
    lent(bench, 'NOP', 'NEG n[0]', entries=3)
    ran(bench, MOST, 2, END)
    # More steps than a program can have rows, and the last entries of the longest journal.
    stopped(bench, 13, 520, 'LABEL @1', 'JUMP @1', entries=520)
    stopped(bench, 13, 8, 'LABEL @1', 'JUMP @1', at=(0, 2040, 2040), entries=2048)


def loops(bench):
    """Through a loop in one run, in runs of each length, and back key by key; a run after back goes on from there."""
    script = bench.script
    rows = quil.program(*COUNTDOWN)
    for allowance in (1, 3, 17, 18):
        opened(bench, 0, f'{"; ".join(COUNTDOWN)}, in runs of {allowance}', journal=3 * 27, instructions=rows)
        for taken in range(0, 18, allowance):
            ran(bench, allowance, min(allowance, 18 - taken), ALLOWANCE if taken + allowance <= 18 else END)
        assert script.position == (7, 18, 27)
        ran(bench, 1, 0, END)
    opened(bench, 0, 'there, back and there', journal=3 * 27, instructions=rows)
    start = list(script.memory)
    ran(bench, MOST, 18, END)
    end = list(script.memory), list(script.journal)
    pressed(bench, script.back, 18, 'to the start')
    assert script.memory == start and script.position == (0, 0, 0)
    bench.expect(12, script.back(), 'the start')
    ran(bench, 7, 7, ALLOWANCE)
    pressed(bench, script.back, 3, 'over the jump')
    assert script.position == (4, 4, 7)
    ran(bench, MOST, 14, END)
    assert (script.memory, script.journal) == end


def as_many_forwards(bench):
    """"leaves what that many forwards leave": memory, journal and position."""
    rows = ('MOVE n[0] 2', 'LABEL @n', 'EXCHANGE n[1] n[2]', 'SUB n[0] 1', 'EQ a[0] n[0] 0', 'JUMP-UNLESS @n a[0]', 'STORE n n[0] 9')
    for allowance in (3, 6, 9, 12):
        left = []
        for press in (lambda: ran(bench, allowance, allowance, ALLOWANCE), lambda: pressed(bench, bench.script.forward, allowance, 'forward')):
            lent(bench, *rows, entries=24)
            press()
            left.append((bench.script.position, list(bench.script.memory), list(bench.script.journal)))
        assert left[0] == left[1]


def after_a_refusal(bench):
    """A refused run and a stop leave a session that goes on."""
    script = bench.script
    lent(bench, 'NEG n[0]', 'DIV n[0] n[1]', 'NOP', cells='n0=6', entries=6)
    ran(bench, 3, 1, REFUSAL, 15)
    bench.expect(15, script.forward(), 'forward')
    ran(bench, 3, 0, REFUSAL, 15)
    bench.expect(0, script.back(), 'back')
    ran(bench, 1, 1, ALLOWANCE)
    script.lend_memory(marked(quil.cells('n0=-6 n1=2'), 20))
    ran(bench, 3, 2, END)
    said(script, 'run 0 | 3 3 5 2 1 0 | 5:18446744073709551613 | 6:2 7:1 8:18446744073709551610 9:1 10:1 11:0 12:0 13:2 14:0')


def write(script):
    bench = Bench(script)
    for group in (refused, positions, buffers, ends, calls, through_a_call, refusals, faulty_labels, full_journals, loops, as_many_forwards, after_a_refusal):
        script.heading('run, ' + group.__name__.replace('_', ' ') + ':')
        group(bench)
