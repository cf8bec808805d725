#!/usr/bin/env python3
"""Writes `stdin` and `stdout` beside itself: words of REALs with Python's repr of each, short decimals with their words, and
conversions both ways, as Python's float rounds an int and its int drops a fraction.

With a number N it writes N random words to standard output instead, and with `answers` after it what must come out.
"""
import math, os, random, re, struct, sys


def real(word):
    return struct.unpack("<d", struct.pack("<Q", word))[0]


def word(x):
    return struct.unpack("<Q", struct.pack("<d", x))[0]


def to_real(integer):
    return "%016x" % word(float(integer))


def to_integer(x):
    whole = int(x) if math.isfinite(x) else None
    return "outside" if whole is None or not -2 ** 63 <= whole < 2 ** 63 else "%016x" % (whole % 2 ** 64)


def answer(line):
    way, _, value = line.partition(" ")
    if way == "to-real":
        return to_real(int(value))
    if way == "to-integer":
        return to_integer(real(int(value, 16)))
    if line.startswith("0x"):
        return repr(real(int(line, 16))).lstrip("-") if "7ff" in line[2:6] and real(int(line, 16)) != real(int(line, 16)) else repr(real(int(line, 16)))
    decimal = re.fullmatch(r"-?(\d*)(?:\.(\d*))?(?:[eE]([+-]?\d+))?", line)
    if not decimal:
        return "no short decimal"
    before, after, exponent = (part or "" for part in decimal.groups())
    digits, tens = len(before + after), int(exponent or 0) - len(after)
    # 15 digits and a power of ten of at most 22 are exact in binary64
    if not 1 <= digits <= 15 or len(exponent.lstrip("+-")) > 15 or abs(tens) > 22:
        return "no short decimal"
    return "%016x %r" % (word(float(line)), float(line))


def hexadecimal(w):
    return "0x%016x" % w


EDGES = [0, 1, 2, 3, 0xFFFFFFFFFFFFF, 0x10000000000000, 0x10000000000001, 0x7FEFFFFFFFFFFFFF, 0x7FF0000000000000,
         0x7FF8000000000000, 0x7FF0000000000001, 0x3CB0000000000000, 0x3CB0000000000001, 0x4340000000000000, 0x4340000000000001,
         0x44B52D02C7E14AF6, 0x44B52D02C7E14AF7, 0x3FD3333333333333, 0x3FB999999999999A, 0x3FF0000000000000, 0x400921FB54442D18]


def words(count, seed):
    rng = random.Random(seed)
    out = []
    for i in range(count):
        way = i % 4
        if way == 0:
            out.append(rng.getrandbits(64))
        elif way == 1:
            out.append(rng.randrange(2047) << 52 | rng.choice([0, 1, (1 << 52) - 1, 1 << rng.randrange(52)]))
        elif way == 2:
            out.append(word(rng.randrange(10 ** rng.randrange(1, 18)) / 10 ** rng.randrange(0, 23)))
        else:
            out.append(word(float("%de%d" % (rng.randrange(1, 10 ** rng.randrange(1, 4)), rng.randrange(-320, 300)))))
    return out


SHORT = ["0.5", "-0.5", "0.1", "-0.0", "3", "3.25", ".5", "5.", "123456789012345", "0.00000000000001", "999999999999.999",
         "1234567890123456", "1.2.3", "-", ".", "-.5", "1" * 1030 + ".5", "1e-07", "1.5e3", "-2E+2", "123456789012345e-22", "9e22",
         "1e23", "1.5e-21", "1.5e-22", "123456789012345e22", "1e", "e5", "1e+", "1e-", "1e1.5", "1ee2", "0e0", "0.001e25", "0.001e26",
         "1e0000000000000007", "1e18446744073709551617"]


# About 0, where the last digit is worth 1, 2 and 4, ties among them, and at both ends.
INTEGERS = [0, 1, 2, 3, 10, 2 ** 32 - 1, 2 ** 32, 2 ** 52 - 1, 2 ** 52, 2 ** 52 + 1, *range(2 ** 53 - 2, 2 ** 53 + 8), *range(2 ** 54 - 4, 2 ** 54 + 11),
            2 ** 62 - 256, 2 ** 62 - 255, 2 ** 62, 2 ** 62 + 511, 2 ** 62 + 512, 2 ** 62 + 513, 2 ** 62 + 1536, *range(2 ** 63 - 1537, 2 ** 63 - 1534),
            2 ** 63 - 1025, 2 ** 63 - 1024, 2 ** 63 - 1023, 2 ** 63 - 513, 2 ** 63 - 512, 2 ** 63 - 511, 2 ** 63 - 2, 2 ** 63 - 1, 2 ** 63]
# Zero, subnormals, about 1/2, 1, 3/2, 2 and 5/2, the last with halves, about 2^53, 2^62, 2^63 and 2^64, the greatest, the infinity, NaNs.
REALS = [0, 1, 2, 0xFFFFFFFFFFFFF, 0x10000000000000, 0x3FDFFFFFFFFFFFFF, 0x3FE0000000000000, 0x3FE0000000000001, 0x3FECCCCCCCCCCCCD, 0x3FEFFFFFFFFFFFFF,
         0x3FF0000000000000, 0x3FF0000000000001, 0x3FF8000000000000, 0x3FFFFFFFFFFFFFFF, 0x4000000000000000, 0x4004000000000000, 0x400FFFFFFFFFFFFF,
         0x432FFFFFFFFFFFFE, 0x432FFFFFFFFFFFFF, 0x4330000000000000, 0x4330000000000001, 0x433FFFFFFFFFFFFF, 0x4340000000000000, 0x4340000000000001,
         0x43CFFFFFFFFFFFFF, 0x43D0000000000000, 0x43DFFFFFFFFFFFFE, 0x43DFFFFFFFFFFFFF, 0x43E0000000000000, 0x43E0000000000001, 0x43EFFFFFFFFFFFFF,
         0x43F0000000000000, 0x43F0000000000001, 0x7E37E43C8800759C, 0x7FEFFFFFFFFFFFFF, 0x7FF0000000000000, 0x7FF0000000000001, 0x7FF8000000000000,
         0x7FF8000000000001, 0x7FFFFFFFFFFFFFFF]


def conversions(count, seed):
    """The edges of both signs; random INTEGERs that are rounded, of 54 to 63 digits, every other one a tie; random REALs from 2^-2 to 2^64."""
    rng = random.Random(seed)
    integers = [n for size in INTEGERS for n in sorted({size, -size}, reverse=True) if n < 2 ** 63]
    reals = [w | sign for w in REALS for sign in (0, 1 << 63)]
    for i in range(count):
        digits = rng.randrange(54, 64)
        size = rng.randrange(1 << digits - 1, 1 << digits)
        if i % 2:
            size = size >> digits - 53 << digits - 53 | 1 << digits - 54
        integers.append(rng.choice([size, -size]))
        reals.append(rng.getrandbits(1) << 63 | rng.randrange(1021, 1087) << 52 | rng.getrandbits(52))
    return ["to-real %d" % n for n in integers] + ["to-integer " + hexadecimal(w) for w in reals]


def main():
    if len(sys.argv) > 1:
        for w in words(int(sys.argv[1]), 7):
            line = hexadecimal(w)
            print(answer(line) if len(sys.argv) > 2 else line)
        return
    here = os.path.dirname(os.path.abspath(__file__))
    lines = [hexadecimal(w) for w in EDGES + [w | 1 << 63 for w in EDGES] + words(200, 1)] + SHORT + conversions(64, 2)
    with open(os.path.join(here, "stdin"), "w") as out:
        out.write("# A REAL's word, a short decimal, or a conversion of an INTEGER or a REAL's word, a line; by model.py.\n" + "".join(x + "\n" for x in lines))
    with open(os.path.join(here, "stdout"), "w") as out:
        out.write("".join(answer(x) + "\n" for x in lines))


main()
