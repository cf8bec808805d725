"""CALLs: their refusals at each argument, and replies fit and unfit."""
from rules.tables import *
from rules.words import WORD, bits_of

from . import quil
from .bench import ENTRIES, Bench
from .quil import NAMES

# f takes a mutable BIT, a REAL[2] and a mutable OCTET[] of any length and returns an INTEGER; g takes nothing;
# h takes an INTEGER, a mutable REAL[], a mutable INTEGER and an OCTET[]; v takes a mutable INTEGER[] of any length; w a mutable BIT[2].
EXTERNS = [NAMES['f'], INTEGER, 0, 3, NAMES['g'], NONE, 0, 0, NAMES['h'], NONE, 3, 4, NAMES['v'], NONE, 7, 1, NAMES['w'], NONE, 8, 1]
PARAMETERS = [1, 1, SCALAR, BIT, 0, 2, 0, FIXED, REAL, 2, 3, 1, VARIABLE, OCTET, 0, 4, 0, SCALAR, INTEGER, 0, 5, 1, VARIABLE, REAL, 0,
              6, 1, SCALAR, INTEGER, 0, 7, 0, VARIABLE, OCTET, 0, 8, 1, VARIABLE, INTEGER, 0, 9, 1, FIXED, BIT, 2]


def argument(text):
    """`n[2]`, `n`, or an immediate: a number with a point."""
    if text[0] in '-0123456789':
        return [IMMEDIATE, bits_of(float(text)), 0]
    return [REFERENCE if '[' in text else IDENTIFIER, *quil.reference(text)]


def call_tables(*texts):
    """The arguments of all CALLs one after the other, and a row for each; other rows among them."""
    arguments, rows = [], []
    for text in texts:
        if not text.startswith('CALL'):
            rows += quil.row(text)
            continue
        name, *given = text.split()[1:]
        rows += quil.row(f'CALL {name} {len(arguments) // 3} {len(given)}')
        arguments += [word for item in given for word in argument(item)]
    return {'instructions': rows, 'externs': EXTERNS, 'parameters': PARAMETERS, 'arguments': arguments}


def shown(reply):
    if len(reply) > 20:
        return f'{len(reply)} words'
    return ', '.join(' '.join(map(str, reply[i:i + 4])) for i in range(0, len(reply), 4))


def called(bench, number, text, reply=(), cells='', entries=ENTRIES, used=0):
    bench.script.heading(text + (f' | {cells}' if cells else '') + (f' | reply {shown(reply)}' if reply else '')
                         + (f' | {used} of {entries} entries' if (entries, used) != (ENTRIES, 0) else ''))
    bench.tables(**call_tables(text))
    bench.lend(cells, entries, used)
    bench.expect(number, bench.script.forward(reply), f'{text} {reply}')


F, H = 'CALL f n[2] a[1] r o', 'CALL h n[0] r n[1] o'


def fit(bench):
    for reply in ((), (0, 0, INTEGER, WORD - 1), (1, 0, BIT, 1), (3, 1, OCTET, 255), (3, 0, OCTET, 7, 1, 0, BIT, 0, 0, 0, INTEGER, 9)):
        called(bench, 0, F, reply)
        called(bench, 0, 'CALL f n a r o', reply)
    for reply in ((1, 0, REAL, bits_of(1.5), 1, 1, REAL, 0x7FF0000000000001), (2, 0, INTEGER, 5)):
        called(bench, 0, H, reply)
        called(bench, 0, 'CALL h 2.5 r n[1] o', reply)
    called(bench, 0, 'CALL g')
    called(bench, 0, 'CALL v e')
    called(bench, 0, 'CALL v n', (0, 2, INTEGER, 3))
    called(bench, 0, 'CALL w a', (0, 1, BIT, 1))


def written_twice(bench):
    """The same cell by one argument, and by two."""
    called(bench, 0, F, (3, 0, OCTET, 1, 3, 0, OCTET, 2), 'o0=9')
    called(bench, 0, 'CALL h n[0] r n[0] o', (2, 0, INTEGER, 1, 2, 0, INTEGER, 2, 2, 0, INTEGER, 3), 'n0=7')
    called(bench, 0, F, (3, 1, OCTET, 4, 0, 0, INTEGER, 4), 'o1=9:99 n2=BIT:2')


def many_rows(bench):
    rows = [word for k in range(65) for word in (3, k % 2, OCTET, k)]
    called(bench, 0, F, rows[:256], entries=65)
    called(bench, 13, F, rows[:256], entries=64)
    called(bench, 0, F, rows[:256], entries=70, used=5)
    called(bench, 13, F, rows[:256], entries=70, used=6)
    called(bench, 17, F, rows, entries=70)
    called(bench, 17, F, rows[:257], entries=70)


def room(bench):
    for reply, changes in (((), 0), ((1, 0, BIT, 1), 1), ((1, 0, BIT, 1, 0, 0, INTEGER, 1), 2)):
        for used in (0, 2):
            called(bench, 13, F, reply, entries=used + changes, used=used)
            called(bench, 0, F, reply, entries=used + changes + 1, used=used)


def not_found(bench):
    called(bench, 6, 'CALL q n a')
    called(bench, 6, 'CALL a n a')


def counts(bench):
    for text in ('CALL f n[2] a[1] r', 'CALL f n[2] a[1] r o o', 'CALL f', 'CALL g n', 'CALL h n[0] r n[1]', 'CALL v', 'CALL v n n'):
        called(bench, 7, text)


def argument_errors(bench):
    """Undeclared, a kind or length that differs, a reference to a vector, immediates where none fits; of the return and of each parameter."""
    for text in ('CALL f q[0] a[1] r o', 'CALL f q a[1] r o', 'CALL f o[0] a[1] r o', 'CALL f 1.0 a[1] r o',
                 'CALL f n[2] q[1] r o', 'CALL f n[2] n[1] r o', 'CALL f n[2] 1.0 r o',
                 'CALL f n[2] a[1] q o', 'CALL f n[2] a[1] r[0] o', 'CALL f n[2] a[1] n o', 'CALL f n[2] a[1] 1.0 o',
                 'CALL f n[2] a[1] r q', 'CALL f n[2] a[1] r o[0]', 'CALL f n[2] a[1] r n', 'CALL f n[2] a[1] r 1.0',
                 'CALL h r[0] r n[1] o', 'CALL h q r n[1] o', 'CALL h n[0] r n[1] 1.0', 'CALL w r', 'CALL w o', 'CALL v q[0]'):
        called(bench, 8, text)
    bench.script.heading('CALL w a, a of three cells')
    bench.tables(**call_tables('CALL w a'), regions=[NAMES['a'], BIT, 3])
    bench.lend()
    bench.expect(8, bench.script.forward(), 'length')


def indices(bench):
    for text in ('CALL f n[3] a[1] r o', 'CALL f n[-1] a[1] r o', 'CALL f e a[1] r o', 'CALL f n[2] a[2] r o', 'CALL f n[2] a[-1] r o',
                 'CALL h n[3] r n[1] o', 'CALL h e r n[1] o', 'CALL h e[0] r n[1] o', 'CALL h n[0] r n[3] o', 'CALL h 1.0 r e o'):
        called(bench, 14, text)


def unfit(bench):
    for reply in ((0,), (0, 0), (0, 0, INTEGER), (0, 0, INTEGER, 1, 0)):
        called(bench, 17, F, reply)
    for row in ((4, 0, INTEGER, 0), (WORD - 1, 0, INTEGER, 0), (2, 0, REAL, 0), (3, 2, OCTET, 0), (3, WORD - 1, OCTET, 0),
                (0, 1, INTEGER, 0), (1, 1, BIT, 0), (0, 0, REAL, 0), (0, 0, BIT, 0), (1, 0, OCTET, 0), (1, 0, 4, 0), (3, 0, INTEGER, 0),
                (1, 0, BIT, 2), (3, 0, OCTET, 256), (3, 0, OCTET, WORD - 1)):
        called(bench, 17, F, row)
        called(bench, 17, F, (0, 0, INTEGER, 5, 3, 1, OCTET, 8) + row)
    for row in ((0, 0, INTEGER, 0), (3, 0, OCTET, 0), (1, 2, REAL, 0), (2, 1, INTEGER, 0)):
        called(bench, 17, H, row)
    called(bench, 17, 'CALL h 2.5 r n[1] o', (0, 0, INTEGER, 0))
    called(bench, 17, 'CALL v e', (0, 0, INTEGER, 0))
    called(bench, 17, 'CALL g', (0, 0, INTEGER, 0))


def write(script):
    bench = Bench(script)
    for group in (fit, written_twice, many_rows, room, not_found, counts, argument_errors, indices, unfit):
        script.heading('CALL, ' + group.__name__.replace('_', ' ') + ':')
        group(bench)
