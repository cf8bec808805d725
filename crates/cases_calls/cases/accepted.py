"""Rows that have a rule: every family and operator, with the values at which they turn."""
from rules.tables import ARITHMETIC, COMPARISON, FRAME, LOGIC

from . import quil
from .bench import Bench
from .quil import operators

LEAST, MOST = -2 ** 63, 2 ** 63 - 1
INTEGER_PAIRS = ((MOST, 1), (LEAST, -1), (-7, 2), (7, -2), (-7, -2), (6, 3), (0, 5), (0x123456789ABCDEF, 0xFEDCBA987654321))
REAL_PAIRS = (('1.5', '0.1'), ('inf', '-inf'), ('-0.0', '0.0'), ('1.0', '-0.0'), ('1.0e308', '-1.0e308'), ('0f0000000000000001', '0.5'),
              ('nan', '1.0'), ('nan', '0.0'), ('1.0', '0fFFF0000000000001'), ('9007199254740993.0', '3.0'), ('inf', '0.0'))
COMPARED = (('n', '-1', '1'), ('n', '5', '5'), ('n', str(MOST), str(LEAST)), ('o', '200', '100'), ('o', '127', '128'), ('a', '0', '1'),
            ('a', '1', '1'), ('r', '-0.0', '0.0'), ('r', 'nan', 'nan'), ('r', 'nan', '1.0'), ('r', '1.0', '-inf'), ('r', '-1.5', '-1.25'))
WITH_LITERAL = (('n', '-1', '18446744073709551615'), ('n', '4', '-5'), ('o', '5', '-1'), ('o', '5', '261'), ('a', '1', '-1'), ('a', '1', '1'),
                ('r', '1.0', 'nan'), ('r', 'inf', '0f7FEFFFFFFFFFFFFF'))
COUNTS = {'a': (0, 1, 2, MOST), 'o': (0, 1, 7, 8, 64, MOST), 'n': (0, 1, 63, 64, 65, MOST)}
SHIFTED = {'a': '1', 'o': '129', 'n': '-9223372036854775807'}


def arithmetic(bench):
    for name in operators(ARITHMETIC):
        for a, b in INTEGER_PAIRS:
            bench.step(0, f'{name} n[0] n[1]', f'n0={a} n1={b}')
        for a, b in REAL_PAIRS:
            bench.step(0, f'{name} r[1] r[0]', f'r1={a} r0={b}')
        bench.step(0, f'{name} n[2] -3', 'n2=10')
        bench.step(0, f'{name} r[0] -0.25', 'r0=-3.0')
        bench.step(0, f'{name} r[0] 0f7FF0000000000001', 'r0=1.0')
        bench.step(0, f'{name} n[2] n[2]', 'n2=-5')
    bench.step(0, 'DIV r[0] 0.0', 'r0=0.0')
    bench.step(0, 'DIV n[0] -1', f'n0={LEAST}')
    bench.step(0, 'ADD o[0] 3', 'o0=INTEGER:4')
    bench.step(0, 'MUL a[0] n[0]', 'a0=REAL:1.5 n0=REAL:3.0')


def comparison(bench):
    for name in operators(COMPARISON):
        for region, a, b in COMPARED:
            bench.step(0, f'{name} a[0] {region}[0] {region}[1]', f'{region}0={a} {region}1={b}')
        for region, a, b in WITH_LITERAL:
            bench.step(0, f'{name} a[1] {region}[0] {b}', f'{region}0={a}')
    bench.step(0, 'EQ a[1] n[0] 5', 'a1=REAL:1.0 n0=5')
    bench.step(0, 'EQ a[1] n[0] 5', 'a1=9:7 n0=5')
    bench.step(0, 'EQ n[0] n[0] 5', 'n0=5')
    bench.step(0, 'LT a[1] n[0] r[0]', 'n0=REAL:0.5 r0=1.0')


def logic(bench):
    values = {'a': '1', 'o': '181', 'n': '-240'}
    for name in ('AND', 'IOR', 'XOR'):
        for target in values:
            for other in values:
                bench.step(0, f'{name} {target}[0] {other}[1]', f'{target}0={values[target]} {other}1={values[other]}')
            for literal in (-1, 300, 2):
                bench.step(0, f'{name} {target}[0] {literal}', f'{target}0={values[target]}')
        bench.step(0, f'{name} n[0] n[0]', 'n0=-2')


def shifts(bench):
    for name in ('SHL', 'SHR', 'ASHR'):
        for target, counts in COUNTS.items():
            for count in counts:
                bench.step(0, f'{name} {target}[0] {count}', f'{target}0={SHIFTED[target]}')
            bench.step(0, f'{name} {target}[0] n[2]', f'{target}0={SHIFTED[target]} n2=3')
            bench.step(0, f'{name} {target}[0] o[1]', f'{target}0={SHIFTED[target]} o1=255')
            bench.step(0, f'{name} {target}[0] a[1]', f'{target}0={SHIFTED[target]} a1=1')
    bench.step(0, 'ASHR o[0] 1', 'o0=127')
    bench.step(0, 'ASHR n[0] 62', f'n0={MOST}')
    bench.step(0, 'ASHR a[0] 1', 'a0=0')
    bench.step(0, 'SHR o[0] o[0]', 'o0=4')
    assert operators(LOGIC) == ['AND', 'IOR', 'XOR', 'SHL', 'SHR', 'ASHR']


def unary(bench):
    for value in (0, 1, LEAST, MOST):
        bench.step(0, 'NEG n[0]', f'n0={value}')
        bench.step(0, 'NOT n[0]', f'n0={value}')
    for value in ('0.0', '-0.0', '1.5', '-inf', '0fFFF8000000000001'):
        bench.step(0, 'NEG r[1]', f'r1={value}')
    for cells in ('a0=0', 'a0=1', 'a0=OCTET:200'):
        bench.step(0, 'NOT a[0]', cells)
    for value in (0, 255, 170):
        bench.step(0, 'NOT o[1]', f'o1={value}')


def move(bench):
    for literal, targets in ((300, 'n'), (-1, 'n'), (0, 'aon'), (1, 'a'), (255, 'on')):
        for target in targets:
            bench.step(0, f'MOVE {target}[0] {literal}')
    for literal in ('1.5', '-0.0', '0fFFF0000000000001'):
        bench.step(0, f'MOVE r[0] {literal}', 'r0=2.0')
    for literal, cells in ((1, 'o0=BIT:7'), (255, 'o0=999'), (300, 'o0=INTEGER:1')):
        bench.step(0, f'MOVE o[0] {literal}', cells)
    bench.step(0, 'MOVE n[0] 1.5', 'n0=REAL:0.0')
    for source, cells in (('n[1]', 'n1=-5'), ('o[1]', 'o1=255'), ('a[0]', 'a0=1'), ('r[0]', 'r0=0fFFF0000000000001')):
        bench.step(0, f'MOVE {source[0]}[1] {source}', cells)
    for cells in ('n1=REAL:1.5', 'n1=BIT:1', 'n0=9:99 n1=OCTET:255', 'n0=BIT:2 n1=7'):
        bench.step(0, 'MOVE n[0] n[1]', cells)


def exchange(bench):
    bench.step(0, 'EXCHANGE n[0] n[0]', 'n0=3')
    for cells in ('n0=3 n2=-3', 'n0=OCTET:255 n2=4', 'n0=REAL:nan n2=BIT:1'):
        bench.step(0, 'EXCHANGE n[0] n[2]', cells)
    bench.step(0, 'EXCHANGE a[1] r[1]', 'a1=1 r1=0f7FF0000000000001')


def load_and_store(bench):
    for offset in (0, 1):
        bench.step(0, 'LOAD r[0] r n[0]', f'n0={offset} r0=0.5 r1=1.5')
        bench.step(0, 'STORE r n[0] r[1]', f'n0={offset} r0=0.5 r1=1.5')
        bench.step(0, 'STORE r n[0] 0fFFF0000000000001', f'n0={offset}')
        bench.step(0, 'STORE o n[2] 254', f'n2={offset}')
    bench.step(0, 'LOAD n[1] n n[1]', 'n1=2 n2=77')
    bench.step(0, 'STORE n n[1] n[1]', 'n1=1')
    bench.step(0, 'STORE n n[1] n[0]', 'n0=8 n1=1')
    for cells in ('n0=2 n2=OCTET:9', 'n0=2 n2=REAL:1.5 n1=9:9'):
        bench.step(0, 'LOAD n[1] n n[0]', cells)
    for cells in ('n0=2 n1=OCTET:9', 'n0=2 n1=7 n2=9:9', 'n0=2 n2=BIT:2 n1=REAL:inf'):
        bench.step(0, 'STORE n n[0] n[1]', cells)
    for literal, cells in ((1, 'n0=1 o1=BIT:9'), (255, 'n0=1 o1=256'), (300, 'n0=1 o1=INTEGER:0')):
        bench.step(0, f'STORE o n[0] {literal}', cells)
    bench.step(0, 'STORE a n[0] 2.5', 'a0=REAL:0.0')
    bench.step(0, 'LOAD o[0] o n[0]', 'n0=1 o1=8')


def without_change(bench):
    bench.step(0, 'NOP', 'n0=9:9')
    for name in operators(FRAME):
        bench.script.heading(f'{name} of the undeclared q[7]')
        bench.tables(quil.row(f'{name} 0 1'), nodes=[0, quil.NAMES['q'], 7])
        bench.lend()
        bench.expect(0, bench.script.forward(), name)


def write(script):
    bench = Bench(script)
    for group in (arithmetic, comparison, logic, shifts, unary, move, exchange, load_and_store, without_change):
        script.heading(group.__name__.replace('_', ' ') + ':')
        group(bench)
