"""Operators on 64-bit words."""
import math
import struct

WORD = 1 << 64
CANONICAL_NAN = 0x7FF8000000000000


def signed(word, width=64):
    return word - (1 << width) if word >> (width - 1) else word


def real_of(word):
    return struct.unpack('<d', struct.pack('<Q', word))[0]


def bits_of(real):
    """A result's bits: every NaN is the same."""
    return CANONICAL_NAN if math.isnan(real) else struct.unpack('<Q', struct.pack('<d', real))[0]


def truncated_quotient(a, b):
    quotient = abs(a) // abs(b)
    return quotient if (a < 0) == (b < 0) else -quotient


def real_quotient(a, b):
    if b != 0:
        return a / b
    if a == 0 or math.isnan(a):
        return math.nan
    return math.copysign(math.inf, a) * math.copysign(1.0, b)


ADD, SUB, DIV, MUL = range(4)


def integer_arithmetic(operator, a, b):
    a, b = signed(a), signed(b)
    results = {ADD: lambda: a + b, SUB: lambda: a - b, DIV: lambda: truncated_quotient(a, b), MUL: lambda: a * b}
    return results[operator]() % WORD


def real_arithmetic(operator, a, b):
    a, b = real_of(a), real_of(b)
    results = {ADD: lambda: a + b, SUB: lambda: a - b, DIV: lambda: real_quotient(a, b), MUL: lambda: a * b}
    return bits_of(results[operator]())


AND, IOR, XOR, SHL, SHR, ASHR = range(6)


def bitwise(operator, value, other, width):
    """`other` counts only by its low bits."""
    other %= 1 << width
    return {AND: value & other, IOR: value | other, XOR: value ^ other}[operator]


def shifted(operator, value, count, width):
    count = min(count, width)
    if operator == SHL:
        return (value << count) % (1 << width)
    if operator == SHR:
        return value >> count
    return (signed(value, width) >> count) % (1 << width)


LEAST_INTEGER, MOST_INTEGER = -2 ** 63, 2 ** 63 - 1


def nearest_real(word):
    """"the nearest binary64, ties to even": so Python rounds an int."""
    return bits_of(float(signed(word)))


def whole_part(word):
    """A REAL "drops the fraction", as Python's int does; None for "a NaN, an infinity or a value outside -2^63 to 2^63-1"."""
    real = real_of(word)
    if not math.isfinite(real):
        return None
    whole = int(real)
    return whole % WORD if LEAST_INTEGER <= whole <= MOST_INTEGER else None


EQ, GE, GT, LE, LT = range(5)


def compared(operator, a, b):
    return int({EQ: a == b, GE: a >= b, GT: a > b, LE: a <= b, LT: a < b}[operator])
