"""Two causes at once in forward: the earlier one is answered."""
from rules.tables import INTEGER, OCTET

from . import quil
from .bench import Bench
from .calls import called
from .script import marked

REPLY = (0, 0, INTEGER, 5)
HUGE = [11, 0, 4097]
# In the order of forward's looks, which are a run's up to 19.
CAUSES = (
    (1, 'not whole', {'arguments': [1]}), (2, 'word', {'nodes': [7, 0, 0]}), (3, 'two externs', {'externs': [21, 4, 0, 0] * 2}),
    (10, 'cells', {'regions': HUGE}), (4, 'journal', {'journal': 5}), (19, 'used', {'used': 9}), (9, 'OTHER', {'instructions': quil.row('OTHER')}))


def two_of(causes):
    """The earlier one's number, with each later one."""
    for k, (number, what, change) in enumerate(causes):
        for _, later, other in causes[k + 1:]:
            yield number, f'{what} and {later}', {**other, **change}


def whole_tables(bench):
    """1, 2, 3, 10, 4, 19, then 11 and 9, each with the next and with the last."""
    for number, what, change in two_of(CAUSES):
        together(bench, number, what, change)
    together(bench, 19, 'used and the end', {'used': 9, 'instructions': []})
    together(bench, 19, 'row and OTHER', {'row': 2, 'instructions': quil.row('OTHER')})
    together(bench, 19, 'steps and OTHER', {'steps': 1, 'instructions': quil.row('OTHER')})
    together(bench, 11, 'the end and a reply', {'instructions': [], 'reply': REPLY})
    together(bench, 9, 'OTHER and a full journal', {'instructions': quil.row('OTHER'), 'journal': 0})
    together(bench, 11, 'the end and a full journal', {'instructions': [], 'journal': 0})


def lend_changed(bench, what, change):
    """A NOP but for what is changed."""
    tables = {key: change[key] for key in ('regions', 'externs', 'nodes', 'arguments') if key in change}
    bench.script.heading(what)
    bench.tables(change.get('instructions', quil.row('NOP')), **tables)
    bench.script.lend_memory(marked(quil.cells(), 20))
    bench.script.lend_journal(marked([], change.get('journal', 12)))
    bench.script.place(*(change.get(word, 0) for word in ('row', 'steps', 'used')))


def together(bench, number, what, change):
    lend_changed(bench, what, change)
    bench.expect(number, bench.script.forward(change.get('reply', ())), what)


def rows(bench):
    step = bench.step
    step(17, 'ADD q[0] n[0]', reply=REPLY)
    step(17, 'NOP', reply=REPLY, entries=0)
    for row in ('ADD q[0] n[5]', 'ADD n[5] q[0]', 'EQ a[9] q[0] n[0]', 'EQ a[9] n[9] q[0]', 'EXCHANGE n[9] q[0]', 'LOAD n[9] q n[0]',
                'LOAD n[9] r q[0]', 'STORE q n[9] 5', 'STORE n n[9] q[0]', 'MOVE q[0] n[9]', 'AND n[9] q[0]', 'CONVERT r[9] q[0]', 'CONVERT q[0] n[9]'):
        step(18, row)
    for row in ('ADD n[0] n[3]', 'EQ a[2] n[0] n[1]', 'AND n[0] o[2]', 'EXCHANGE n[0] n[3]', 'LOAD n[3] n n[0]', 'STORE n n[0] n[3]',
                'DIV n[3] n[0]', 'SHL n[3] n[0]', 'MOVE n[3] n[0]', 'CONVERT r[2] n[0]'):
        step(14, row, 'n0=4:0')
    step(18, 'STORE r n[0] n[1]', 'n0=2 n1=4:0')
    step(18, 'LOAD n[1] r n[0]', 'n0=REAL:inf')
    step(14, 'STORE r n[0] 5', 'n0=2')
    step(18, 'DIV n[0] n[1]', 'n0=4:0 n1=0')
    step(18, 'DIV n[0] 0', 'n0=OCTET:1')
    step(18, 'SHL n[0] n[1]', 'n0=REAL:1.0 n1=-1')
    step(18, 'SHL o[0] -1', 'o0=256')
    step(14, 'CONVERT n[3] r[0]', 'r0=nan')
    step(18, 'CONVERT n[0] r[0]', 'r0=4:-1')
    step(17, 'CONVERT n[0] r[0]', 'r0=nan', reply=REPLY)


def unfit_literals(bench):
    """17, 18 names, 14 written indices, 18 row's cells, 14 index from a cell and 18 cell reached come before 24."""
    for row, offset in (('MOVE o[0] 300', ''), ('STORE a n[0] -1', 'n0=1')):
        bench.step(17, row, offset, reply=REPLY)
    for row in ('MOVE q[0] 300', 'STORE q n[0] 300', 'STORE o q[0] 300'):
        bench.step(18, row)
    for row in ('MOVE o[2] 300', 'MOVE a[-1] 2', 'STORE o n[3] 300', 'STORE a e[0] -1'):
        bench.step(14, row)
    for offset in ('4:1', 'BIT:1', 'OCTET:1', 'REAL:0.0'):
        bench.step(18, 'STORE o n[0] 300', f'n0={offset}')
    for offset in (2, -1):
        bench.step(14, 'STORE o n[0] 300', f'n0={offset}')
    for held in ('REAL:0.0', '4:0'):
        bench.step(18, 'MOVE o[0] 300', f'o0={held}')
        bench.step(18, 'STORE o n[0] 300', f'n0=1 o1={held}')


def full_journals(bench):
    for number, row, cells in ((18, 'ADD q[0] 1', ''), (14, 'ADD n[3] 1', ''), (18, 'ADD n[0] 1', 'n0=4:0'), (14, 'LOAD n[0] n n[1]', 'n1=3'),
                               (18, 'LOAD n[0] n n[1]', 'n1=2 n2=4:0'), (15, 'DIV n[0] 0', ''), (16, 'SHL n[0] -1', ''), (23, 'CONVERT n[0] r[0]', 'r0=nan'),
                               (24, 'MOVE o[0] 300', ''), (24, 'STORE a n[0] 2', '')):
        bench.step(number, row, cells, entries=1)
        bench.step(number, row, cells, entries=0)


def calls(bench):
    bad = (1, 0, INTEGER, 0)
    called(bench, 6, 'CALL q n q', bad, entries=0)
    called(bench, 7, 'CALL f q', bad, entries=0)
    called(bench, 8, 'CALL f n[9] q r o', bad, entries=0)
    called(bench, 8, 'CALL f q a[9] r o', bad, entries=0)
    called(bench, 14, 'CALL f n[9] a r o', bad, entries=0)
    called(bench, 14, 'CALL f n a[9] r o', (0,), entries=0)
    called(bench, 17, 'CALL f n a r o', bad, entries=0)
    called(bench, 17, 'CALL f n a r o', (3, 0, OCTET, 1) + bad, entries=2)
    called(bench, 17, 'CALL f n a r o', (0,), entries=0)


def write(script):
    bench = Bench(script)
    script.heading('two causes at once:')
    for group in (whole_tables, rows, unfit_literals, full_journals, calls):
        group(bench)
