"""IEEE 754 doubles over exact fractions: each operation is done exactly and rounded once, to nearest, ties to even, at 53
bits, with subnormals and overflow. No float of Python's takes part.
"""
from fractions import Fraction
from math import floor

TOP = 2**63


# Doubles: 'nan', or a sign (0 or 1) and a size, which is a fraction or 'inf'.

NAN = 'nan'


def nearest(sign, size):
    """The double nearest to a fraction that is not negative."""
    if size == 0:
        return (sign, Fraction(0))
    # size lies in [2^e, 2^(e + 1)); below 2^-1022 the last digit stays at 2^-1074
    e = size.numerator.bit_length() - size.denominator.bit_length()
    if Fraction(2) ** e > size:
        e -= 1
    last = Fraction(2) ** (max(e, -1022) - 52)
    size = even(size / last) * last
    return (sign, 'inf' if size >= Fraction(2) ** 1024 else size)


def even(q):
    """The whole number nearest to a fraction, ties to even."""
    low = floor(q)
    rest = q - low
    return low + (1 if rest > Fraction(1, 2) or rest == Fraction(1, 2) and low % 2 == 1 else 0)


def of_bits(b):
    sign, e, t = b >> 63, b >> 52 & 2047, b & 2**52 - 1
    if e == 2047:
        return NAN if t else (sign, 'inf')
    if e == 0:
        return (sign, Fraction(t, 2**1074))
    return (sign, (2**52 + t) * Fraction(2) ** (e - 1075))


def bits(x):
    """The pattern of a double; every NaN has the one that a case expects."""
    if x == NAN:
        return 0x7ff8000000000000
    sign, size = x
    if size == 'inf':
        return sign << 63 | 2047 << 52
    units = size * 2**1074
    assert units.denominator == 1
    digits, e = units.numerator, 0
    while digits >= 2**53:
        digits, e = digits // 2, e + 1
    # a normal number's exponent is one more, and its first digit, which is not written, adds that one
    return (sign << 63) + (e << 52) + digits


def of(n):
    """A number as a double: a fraction, or a whole number."""
    return nearest(1 if n < 0 else 0, abs(Fraction(n)))


def signed(x):
    return -x[1] if x[0] else x[1]


def add(x, y):
    if NAN in (x, y):
        return NAN
    if 'inf' in (x[1], y[1]):
        both = x[1] == y[1] and x[0] != y[0]
        return NAN if both else x if x[1] == 'inf' else y
    s = signed(x) + signed(y)
    if s == 0:
        return (x[0] & y[0], Fraction(0))
    return of(s)


def negated(x):
    return x if x == NAN else (1 - x[0], x[1])


def mul(x, y):
    if NAN in (x, y):
        return NAN
    sign = x[0] ^ y[0]
    if 'inf' in (x[1], y[1]):
        return NAN if 0 in (x[1], y[1]) else (sign, 'inf')
    return nearest(sign, x[1] * y[1])


def div(x, y):
    if NAN in (x, y):
        return NAN
    sign = x[0] ^ y[0]
    if x[1] == 'inf' or y[1] == 0:
        return NAN if x[1] == y[1] else (sign, 'inf')
    return nearest(sign, Fraction(0) if y[1] == 'inf' else x[1] / y[1])


def placed(x):
    """A double that is no NaN as a fraction; an infinity lies past every other."""
    return signed((x[0], Fraction(2) ** 2000)) if x[1] == 'inf' else signed(x)


def less(x, y):
    return NAN not in (x, y) and placed(x) < placed(y)


# Patterns.

SPECIAL = [
    (0, 'zero'), (TOP, 'minus zero'),
    (1, 'smallest subnormal'), (TOP + 1, 'minus that'),
    (2**52 - 1, 'largest subnormal'), (2**52, 'smallest normal'), (TOP + 2**52, 'minus that'),
    (0x7fefffffffffffff, 'largest'),
    (0x7ff0000000000000, 'infinity'), (0xfff0000000000000, 'minus infinity'),
    (0x7ff8000000000000, 'NaN'), (0x7ff0000000000001, 'NaN'), (0xffffffffffffffff, 'NaN'),
]


def around(value, name):
    b = bits(of(value))
    assert signed(of_bits(b)) == value
    return [(b - 1, f'below {name}'), (b, name), (b + 1, f'above {name}')]
