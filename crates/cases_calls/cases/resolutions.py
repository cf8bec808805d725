"""resolve and access: one argument of every form for every parameter, whole CALLs, the room that is lent, the order of refusals."""
from rules.tables import *

from .quil import SMALL, reference
from .verdicts import LETTERS, REGIONS, lend

EXTERN = 9
NAN, OTHER_NAN = 0x7FF0000000000001, 0xFFF8000000000007


def argument(text):
    """`n`, `n[2]`, or an immediate's two words as `7+8i`."""
    if text[0].isdigit():
        return [IMMEDIATE, *map(int, text[:-1].split('+'))]
    return [REFERENCE if '[' in text else IDENTIFIER, *reference(text, SMALL)]


def flat(*lists):
    return [word for one in lists for word in one]


def call(name, first, count):
    return [CALL, 0, name, first, count, 0, NO_SOURCE, 0, 0]


def resolved(script, what, room, externs, parameters, arguments, row=None):
    """One row, a CALL of the extern with all arguments where none is given."""
    script.heading(what)
    lend(script, row or call(EXTERN, 0, len(arguments) // 3), externs=externs, parameters=parameters, arguments=arguments)
    return script.resolve(0, room)


def accessed(script, what, rooms, externs, parameters, arguments, row=None):
    script.heading(what)
    lend(script, row or call(EXTERN, 0, len(arguments) // 3), externs=externs, parameters=parameters, arguments=arguments)
    return script.access(0, *rooms)


ARGUMENTS = [*LETTERS, *(f'{name}[9]' for name in LETTERS), '7+8i']
SHAPES, KINDS = ('scalar', 'vector of 2', 'vector'), ('BIT', 'INTEGER', 'OCTET', 'REAL')


def parameters(script):
    for mutable in (0, 1):
        for shape, shape_name in enumerate(SHAPES):
            for kind, kind_name in enumerate(KINDS):
                for text in ARGUMENTS:
                    resolved(script, f'{text} for a {"mutable " if mutable else ""}{shape_name} {kind_name}', 8, [EXTERN, NONE, 0, 1],
                             [20, mutable, shape, kind, 2 if shape == FIXED else 0], argument(text))


def returns(script):
    for kind, kind_name in enumerate(KINDS):
        for text in ARGUMENTS:
            resolved(script, f'{text} for the return of {kind_name}', 8, [EXTERN, kind, 0, 0], [], argument(text))


def single_arguments(script):
    """Vectors of the regions' lengths, and bits of NaNs."""
    number = [IMMEDIATE, NAN, OTHER_NAN]
    for what, extern, parameter, words in (
            ('n for a mutable INTEGER[3]', [NONE, 0, 1], [1, FIXED, INTEGER, 3], argument('n')),
            ('o for an OCTET[1]', [NONE, 0, 1], [0, FIXED, OCTET, 1], argument('o')), ('o for an OCTET[0]', [NONE, 0, 1], [0, FIXED, OCTET, 0], argument('o')),
            ('NaNs for a REAL', [NONE, 0, 1], [0, SCALAR, REAL, 0], number), ('NaNs for a REAL[]', [NONE, 0, 1], [0, VARIABLE, REAL, 0], number),
            ('NaNs for the return', [REAL, 1, 0], [0, SCALAR, REAL, 0], number)):
        resolved(script, what, 8, [EXTERN, *extern], [20, *parameter], words)


# 9 takes a mutable BIT, a REAL[2] and an OCTET[] of any length, and returns an INTEGER; 8 takes the last two.
EXTERNS = [EXTERN, INTEGER, 0, 3, 8, NONE, 1, 2]
PARAMETERS = [20, 1, SCALAR, BIT, 0, 21, 0, FIXED, REAL, 2, 22, 0, VARIABLE, OCTET, 0]
FIT, UNFIT = 'n[2] a r o', '7+8i 5+6i r[0] q'


def four_arguments(script):
    for texts in (FIT, 'n a[1] r o', UNFIT, 'q q q q', 'r r n n', 'n a q[0] o[0]', 'n a 7+8i 5+6i', 'q a r o', 'n 5+6i r o', 'n a a o', 'n a r a',
                  'n o[0] r q'):
        resolved(script, texts, 30, EXTERNS, PARAMETERS, flat(*map(argument, texts.split())))


def resolve_rooms(script):
    """Arguments of which none fits, those that fit, and one more; a CALL's extern, first argument and count, and the room."""
    words = flat(*map(argument, f'{UNFIT} {FIT} a'.split()))
    for number, extern, first, count, room in (
            (0, 9, 4, 4, 28), (4, 9, 4, 4, 27), (8, 9, 0, 4, 28), (4, 9, 0, 4, 27), (7, 9, 4, 3, 21), (7, 9, 4, 3, 0), (7, 9, 4, 5, 30), (7, 9, 4, 5, 0),
            (7, 9, 9, 0, 0), (0, 8, 6, 2, 15), (4, 8, 6, 2, 13), (8, 8, 5, 2, 14), (6, 7, 4, 4, 28), (6, 7, 4, 3, 0)):
        what = f'CALL {extern} of {count} from {first}, room {room}'
        assert resolved(script, what, room, EXTERNS, PARAMETERS, words, call(extern, first, count)) == number, what


def access_of_three(script):
    """For the return, a mutable parameter and another, or for the parameters with one too many."""
    two = [20, 1, SCALAR, INTEGER, 0, 21, 0, SCALAR, INTEGER, 0]
    choices = ([IDENTIFIER, 5, 0], [REFERENCE, 2, 7], [IMMEDIATE, 3, 4])
    for kind in (REAL, NONE):
        for x in choices:
            for y in choices:
                for z in choices:
                    what = 'a return and ' if kind == REAL else ''
                    accessed(script, f'{what}two parameters, arguments {x} {y} {z}', (4, 4), [EXTERN, kind, 0, 2], two, flat(x, y, z))


# Five parameters, of every shape; the second and the fifth are mutable.
FIVE = flat([20, 0, 0, 1, 0], [21, 1, 1, 1, 4], [22, 0, 2, 1, 0], [23, 0, 0, 1, 0], [24, 1, 2, 0, 0])


def access_counts(script):
    """Fewer and more arguments than parameters, repeated, descending, undeclared."""
    descending = flat(*([IDENTIFIER, name, 0] for name in (9, 8, 7, 6, 5, 4)))
    repeated = [0, 6, 0, 1, 6, 1, 0, 6, 0, 1, 6, 2, 0, 6, 0]
    mixed = [0, 3, 0, 1, 1, 5, 0, 2, 0, 0, 1, 0, 1, 0, 9]
    large = [0, 1, 0, 1, 3, 5, 0, 2 ** 64 - 1, 0, 2, 1, 1, 0, 3, 0, 1, 0, 4]
    for kind, words in ((NONE, descending[:15]), (BIT, descending[:15]), (BIT, descending), (NONE, descending), (BIT, []), (BIT, descending[:3]),
                        (NONE, descending[:3]), (NONE, descending[:6]), (NONE, repeated), (NONE, mixed), (BIT, large)):
        what = 'a return and ' if kind == BIT else ''
        accessed(script, f'{what}five parameters, arguments {" ".join(map(str, words))}', (7, 7), [EXTERN, kind, 0, 5], FIVE, words)


def access_rooms(script):
    """A CALL of four arguments of an extern without parameters, whose name is the CALL's or another."""
    words = flat(*([IDENTIFIER, name, 0] for name in (1, 2, 3, 4)))
    for extern in (8, 9):
        for rooms in ((3, 3), (3, 4), (4, 3), (4, 4)):
            number = 6 if extern == 8 else 0 if rooms == (4, 4) else 4
            what = f'extern {extern}, rooms {rooms[0]} and {rooms[1]}'
            assert accessed(script, what, rooms, [extern, NONE, 0, 0], [], words) == number, what


def before_the_call(script):
    """1, 2 and 3 before the calls' own, with every choice of externs, arguments and row: row 0 is a CALL of no extern, row 1 a NOP."""
    rows = call(8, 0, 0) + [OTHER, 0, 0, 0, 0, 0, NO_SOURCE, 0, 0]
    for externs in (1, 2):
        for arguments in (0, 3, 2):
            for row in (0, 1, 2, 2 ** 64 - 1):
                number = 1 if arguments == 2 else 2 if arguments == 3 or row != 0 else 3 if externs == 2 else 6
                script.heading(f'externs {externs}, words of arguments {arguments}, row {row}')
                lend(script, rows, externs=[EXTERN, NONE, 0, 0] * externs, arguments=[3, 0, 0][:arguments])
                assert script.resolve(row, 1) == script.access(row, 1, 1) == number


def write(script):
    for group in (parameters, returns, single_arguments, four_arguments, resolve_rooms, access_of_three, access_counts, access_rooms, before_the_call):
        script.heading('CALL, ' + group.__name__.replace('_', ' ') + ':')
        group(script)
