#!/usr/bin/env python3
"""Prints the cases of doubles and octets that the program `cases` runs; `make vectors` puts them first.

Every expected value is worked out with exact fractions (tools/ieee.py), from document 01 (Numbers in the stream) and
from IEEE 754. No float of Python's takes part.

With --check it prints no cases: it compares these operations with Python's floats on random patterns. struct serves that alone.
"""
import random
import struct
import sys
from fractions import Fraction
from math import ceil, floor

from ieee import NAN, SPECIAL, TOP, add, around, bits, div, even, less, mul, nearest, negated, of, of_bits, signed
from lines import line, pattern, put, title, word
from rates import doubled

MOST = 2**64 - 1
# more than are accepted: these functions take any rate
RATES = doubled(48000, 5)


# What the functions are to give.

def whole(x, take):
    """take of a double as a u64: 0 of a NaN and of what is negative, and at most the largest."""
    if x == NAN or x[0]:
        return 0
    return MOST if x[1] == 'inf' else min(take(x[1]), MOST)


def away(size):
    """Half away from zero, of a size."""
    return floor(size + Fraction(1, 2))


def rounded(x):
    if x == NAN or x[1] == 'inf':
        return x
    return nearest(x[0], Fraction(away(x[1])))


def seconds(ns):
    return add(of(ns // 10**9), div(of(ns % 10**9), of(10**9)))


def nanoseconds(x):
    return whole(x, lambda size: even(size * 10**9))


SLACK = nearest(0, Fraction(101, 100))


def jump_limit(ns, rate):
    return limit(mul(mul(seconds(ns), div(rate, of(238))), SLACK))


def limit(lost):
    return min(whole(lost, ceil) + 8192, MOST)


def restart_missing(ns, rate):
    return whole(add(rounded(mul(seconds(ns), rate)), of(-238)), floor)


def account_time(n, rate):
    return nanoseconds(div(of(n), rate))


def covered_time(n, rate):
    return nanoseconds(div(mul(of(n), of(238)), rate))


def below_half(n, rate):
    return int(less(of(n), div(rate, of(2))))


OF_DOUBLE = {
    'is_finite': lambda x: int(x != NAN and x[1] != 'inf'),
    'is_whole': lambda x: int(x != NAN and x[1] != 'inf' and x[1].denominator == 1),
    'floor_u64': lambda x: whole(x, floor),
    'ceil_u64': lambda x: whole(x, ceil),
    'round_u64': lambda x: whole(x, away),
    'cast_u32': lambda x: min(whole(x, floor), 2**32 - 1),
    'round': rounded,
    'nanoseconds': nanoseconds,
}
OF_STREAM = {
    'jump_limit': jump_limit,
    'restart_missing': restart_missing,
    'account_time': account_time,
    'covered_time': covered_time,
    'below_half': below_half,
}


# Lines.

def of_double(name, b, why=''):
    r = OF_DOUBLE[name](of_bits(b))
    line(name, [pattern(b)], r if isinstance(r, int) else pattern(bits(r)), why)


def of_stream(name, n, rate, why=''):
    """rate is a number, or the pattern of a double as a str."""
    b = int(rate, 16) if isinstance(rate, str) else bits(of(rate))
    line(name, [str(n), pattern(b)], OF_STREAM[name](n, of_bits(b)), why)


def of_seconds(ns, why=''):
    line('seconds', [str(ns)], pattern(bits(seconds(ns))), why)


def head():
    print('''# Cases of doubles and octets: a function, what it is given, and what it is to give. A number is decimal, a double
# stands by its bits, octets stand after x:. Made by tools/double_cases.py (`make vectors`), which works every expected
# value out with exact fractions, from document 01 and IEEE 754, and runs none of the code tried here.''')


# Patterns.

NEGATIVE = [Fraction(-3, 10), Fraction(-1, 2), Fraction(-3, 2), Fraction(-5, 2), -(2**52) - 1]
EDGES = [
    (Fraction(1, 2), '0.5'), (1, '1'), (Fraction(3, 2), '1.5'), (Fraction(5, 2), '2.5'),
    (2**52 - Fraction(1, 2), '2^52 - 0.5'), (2**52, '2^52'), (2**53, '2^53'), (2**63, '2^63'), (2**64, '2^64'),
]
U32_EDGES = [(2**31, '2^31'), (2**32 - 1, '2^32 - 1'), (2**32 - Fraction(1, 2), '2^32 - 0.5'), (2**32, '2^32')]

EDGES_OF = {'is_finite': EDGES[:1], 'is_whole': EDGES[:7], 'round': EDGES[:7], 'cast_u32': EDGES[:4] + U32_EDGES}


def random_double(r, low, high):
    """A pattern with an exponent between two powers of two, negative one time in four."""
    return r.choice([0, 0, 0, TOP]) + (r.randint(low, high) + 1023 << 52) + r.getrandbits(52)


def unary(r):
    for name in OF_DOUBLE:
        if name == 'nanoseconds':
            continue
        title(name)
        edges = EDGES_OF.get(name, EDGES)
        for b, why in SPECIAL + [(bits(of(v)), '') for v in NEGATIVE]:
            of_double(name, b, why)
        for b, why in [p for v, s in edges for p in around(v, s)]:
            of_double(name, b, why)
        for _ in range(2):
            of_double(name, random_double(r, -3, 66))


def times(r):
    title('seconds')
    for ns in [0, 1, 2, 10**8, 499999999, 5 * 10**8, 999999999, 10**9, 10**9 + 1, 1500000000, 1234567890123, 86400 * 10**9]:
        of_seconds(ns)
    for ns in [2**53 - 1, 2**53, 2**53 + 1, 2**63 - 1, 2**63, 2**63 + 1, MOST - 1, MOST]:
        of_seconds(ns)
    ns = first(r, lambda: r.randint(10**9, 4 * 10**9), lambda n: seconds(n) != nearest(0, Fraction(n, 10**9)))
    of_seconds(ns, 'the sum of two rounded parts, not the fraction rounded once')
    for _ in range(5):
        of_seconds(r.getrandbits(r.randint(20, 64)))
    title('nanoseconds')
    for b, why in SPECIAL + [(bits(of(v)), '') for v in NEGATIVE[:3]]:
        of_double('nanoseconds', b, why)
    for j in [1, 3, 5, 7, 1025, 1027, 2**34 + 1, 2**34 + 3]:
        odd = even(Fraction(j * 5**9, 2)) * 2 > j * 5**9
        of_double('nanoseconds', bits(of(Fraction(j, 1024))), 'a tie, up from odd' if odd else 'a tie, down to even')
    for v, name in [(1, '0.5 ns'), (2, '1 ns'), (3, '1.5 ns'), (5, '2.5 ns'), (2 * MOST, '2^64 - 1 ns')]:
        b = bits(of(Fraction(v, 2 * 10**9)))
        for k in [-1, 0, 1]:
            of_double('nanoseconds', b + k, f'near {name}')
    seams(r)
    x = first(r, lambda: random_double(r, 0, 33) % TOP, lambda b: nanoseconds(of_bits(b)) != even(mul(of_bits(b), of(10**9))[1]))
    of_double('nanoseconds', x, 'the product with 1e9 rounded to a double would give another number')
    for _ in range(5):
        of_double('nanoseconds', random_double(r, -31, 34))


def readings(r):
    title('since: the reading now, and the one before; 0 where it lies behind')
    pairs = [(n + k, n) for n in [1, 10**9, 2**32, 2**63, MOST - 1] for k in [-1, 0, 1]]
    pairs += [(0, 0), (1, 0), (0, 1), (MOST, 0), (0, MOST), (MOST, MOST), (MOST - 1, 0), (0, MOST - 1), (MOST, 2**63)]
    for now, then in pairs + [(r.getrandbits(64), r.getrandbits(b)) for b in [20, 40, 64, 64, 64, 64]]:
        line('since', [str(now), str(then)], max(now - then, 0))


def sums():
    title('saturating_add: slots and the park account stay at 2^64 - 1')
    pairs = [(0, 0), (0, 1), (1, 0), (MOST, 0), (0, MOST), (MOST - 1, 1), (1, MOST - 1), (MOST, 1), (MOST - 1, 2), (MOST, MOST)]
    for n, k in pairs + [(2**63, 2**63 - 1), (2**63, 2**63), (MOST - 238, 238), (MOST - 237, 238)]:
        line('saturating_add', [str(n), str(k)], min(n + k, MOST))


def seams(r):
    """Doubles of 53 digits at 2^(k - 1074), about the scales at which the code takes another way."""
    for k in [990, 991]:
        scaled(k, 2**52 + r.getrandbits(52), 'any part')
    for k in range(1046, 1051):
        # the nanoseconds d * 5^9 * 2^(k - 1065) have so many binary places: d is chosen by what stands in them
        places = 1065 - k
        half = 2 ** (places - 1)
        parts = [(0, 'whole'), (1, 'the least part'), (half - 1, 'below a half'), (half, 'a half'), (half + 1, 'above a half')]
        # one more in the upper limb, and nothing in the lower
        parts += [(half + 2**17, 'one limb above a half')] * 3 if k == 1046 else []
        for part, why in parts:
            low = part * pow(5**9, -1, 2**places) % 2**places
            scaled(k, 2**52 + (r.getrandbits(52) >> places << places) + low, why)


def scaled(k, d, why):
    of_double('nanoseconds', bits((0, d * Fraction(2) ** (k - 1074))), f'scale {k}, {why}')


def first(r, draw, holds):
    """The first drawn value at which something holds that the case is to show."""
    while True:
        x = draw()
        if holds(x):
            return x


ODD_RATES = ['0000000000000000', '8000000000000000', 'c0e7700000000000', '7ff8000000000000', '7ff0000000000000', 'fff0000000000000']
ODD_VALUES = [Fraction(1, 10**300), Fraction(88201, 2)]
NS = [0, 1, 999999999, 10**9, 1234567890123, 86400 * 10**9, 2**63, MOST]


def streams(r):
    for name in OF_STREAM:
        title(name)
        ns = NS if name in ('jump_limit', 'restart_missing') else [0, 1, 238, 23800, 48000, 2**53 + 1, 2**63, MOST]
        for n in ns:
            of_stream(name, n, 48000)
        for n in ns[3:]:
            of_stream(name, n, 1536000)
        for rate in RATES[1:] + ODD_RATES + ODD_VALUES:
            of_stream(name, ns[4], rate)
        for rate in ODD_RATES[::2]:
            of_stream(name, 0, rate)
        for _ in range(4):
            of_stream(name, r.getrandbits(r.randint(20, 64)), r.choice(RATES))
        shown[name](r)


def show_jump_limit(r):
    def twice(ns, rate):
        return limit(mul(div(mul(seconds(ns), of(rate)), of(238)), SLACK))

    def slack_first(ns, rate):
        return limit(mul(seconds(ns), div(mul(of(rate), SLACK), of(238))))

    # where the exact product is a whole number, and at times so long that the last digit of a double tells
    draws = [lambda: (r.randint(1, 10**6) * 119 * 10**7, r.choice(RATES)), lambda: (r.randint(2**62, MOST), 1536000)]
    forms = [(twice, '(seconds * rate) / 238 * 1.01', draws), (slack_first, 'seconds * (rate * 1.01 / 238)', draws[1:])]
    for other, form, ways in forms:
        for draw in ways:
            ns, rate = first(r, draw, lambda d: other(*d) != jump_limit(d[0], of(d[1])))
            of_stream('jump_limit', ns, rate, f'{form} would give {other(ns, rate)}')
    b = bits(of(Fraction((2**64 - 8192) * 238 * 100, 101)))
    for k in range(-4, 2):
        of_stream('jump_limit', 10**9, f'{b + k:x}', 'about the cap')


def show_restart(r):
    def after_cast(ns):
        return max(whole(rounded(mul(seconds(ns), of(1536000))), floor) - 238, 0)

    def to_even(ns):
        return max(even(signed(mul(seconds(ns), of(48000)))) - 238, 0)

    for _ in range(2):
        ns = first(r, lambda: r.randint(12 * 10**18, MOST), lambda n: after_cast(n) != restart_missing(n, of(1536000)))
        of_stream('restart_missing', ns, 1536000, f'past 2^54 samples: 238 subtracted after the cast would give {after_cast(ns)}')
    for _ in range(2):
        ns = first(r, lambda: 31250 * r.randint(160, 10**4), lambda n: to_even(n) != restart_missing(n, of(48000)))
        of_stream('restart_missing', ns, 48000, f'a half: to even it would give {to_even(ns)}')
    of_stream('restart_missing', 31250, 48000, '1.5 samples')
    for ns in [4958333, 4958334, 4979166, 4979167]:
        of_stream('restart_missing', ns, 48000, 'about 238 samples and 239')


def show_account(r):
    def once(n):
        return even(Fraction(n * 10**9, 1536000))

    n = first(r, lambda: r.getrandbits(54), lambda v: account_time(v, of(1536000)) != once(v))
    of_stream('account_time', n, 1536000, f'the quotient is a double before it is time: else {once(n)}')
    for rate, accounts in [(768000, [2**53 + 1, 2**53 + 3]), (1536000, [2**53 + 3, 2**54 + 2, 2**54 + 6])]:
        for n in accounts:
            other = nanoseconds(nearest(0, Fraction(n, rate)))
            assert account_time(n, of(rate)) != other
            of_stream('account_time', n, rate, f'the account is a double before it is divided: else {other}')


def show_covered(r):
    def other(n):
        return nanoseconds(mul(of(n), div(of(238), of(48000))))

    n = first(r, lambda: r.getrandbits(40), lambda v: other(v) != covered_time(v, of(48000)))
    of_stream('covered_time', n, 48000, f'n * (238 / rate) would give {other(n)}')
    assert covered_time(394633349, of(48000)) == 1956723688791667
    of_stream('covered_time', 394633349, 48000, 'n / rate * 238 would give 1956723688791666')
    for n in [2**53 + 1, 2**53 + 3]:
        unrounded = nanoseconds(nearest(0, Fraction(n * 238, 2**31)))
        assert covered_time(n, of(2**31)) != unrounded
        of_stream('covered_time', n, 2**31, f'the total is a double before it is multiplied: else {unrounded}')


def show_below_half(r):
    for n in [23999, 24000, 24001]:
        of_stream('below_half', n, 48000)
    for n in [767999, 768000]:
        of_stream('below_half', n, 1536000)
    for n in [22050, 22051]:
        of_stream('below_half', n, Fraction(88201, 2), 'half is 22050.25')
    of_stream('below_half', 2**53 + 1, 2**54 + 4, 'n is rounded to a double, down to even')
    of_stream('below_half', 2**53 + 1, 2**54, 'so it is not below 2^53')


shown = {
    'jump_limit': show_jump_limit,
    'restart_missing': show_restart,
    'account_time': show_account,
    'covered_time': show_covered,
    'below_half': show_below_half,
}


# 01's edges, by the numbers that it gives: 48 kHz, and the gaps on either side of half of 1536 kHz.
DOCUMENTED = [
    ('jump_limit', 0, 48000, 8192), ('restart_missing', 0, 48000, 0), ('restart_missing', 10**9, 48000, 47762),
    ('below_half', 23800, 48000, 1), ('below_half', 24038, 48000, 0),
    ('below_half', 767788, 1536000, 1), ('below_half', 768026, 1536000, 0),
    # gaps of 201 and 202, 403 and 404, 806 and 807 at the other accepted rates
    ('below_half', 47838, 96000, 1), ('below_half', 48076, 96000, 0), ('below_half', 95914, 192000, 1),
    ('below_half', 96152, 192000, 0), ('below_half', 191828, 384000, 1), ('below_half', 192066, 384000, 0),
]


def documented():
    title("document 01's own edges")
    for name, n, rate, number in DOCUMENTED:
        assert OF_STREAM[name](n, of(rate)) == number
        of_stream(name, n, rate)


def octets():
    title('octets: at the first, a middle and the last place')
    p = [0x01, 0x80, 0xff, 0x00, 0x7f, 0xfe, 0x10]
    for wide, name in [(2, 'u16'), (3, 'u24'), (4, 'u32')]:
        for at in [0, 2, len(p) - wide]:
            n = sum(v * 256 ** (wide - 1 - i) for i, v in enumerate(p[at:at + wide]))
            if wide != 3:
                line(f'get_{name}', [str(at), word(p)], n)
        for at, v in [(0, 0), (1, 0x12345678 % 256**wide), (len(p) - wide, 256**wide - 1)]:
            line(f'put_{name}', [str(at), str(v), word(p)], word(put(p, at, wide, v)))
    line('put_u24', ['1', str(0x12345678), word(p)], word(put(p, 1, 3, 0x345678)), 'the lower 24 bits')
    line('put_u16', ['0', '43981', 'x:0000'], 'x:abcd', 'nothing beside it')
    line('get_u32', ['0', 'x:ffffffff'], MOST >> 32)
    for n in [0, 1, 4, len(p)]:
        line('clear', [str(n), word(p)], word([0] * n + p[n:]))
    line('clear', ['0', 'x:'], 'x:', 'no octets')
    for q in [[0] * 4, *(put([0] * 4, i, 1, v) for i in range(4) for v in [1, 0x80])]:
        for start, end in [(0, 4), (1, 3), (1, 1), (2, 1), (4, 4), (9, 4)]:
            line('is_zero', [str(start), str(end), word(q)], int(not any(q[start:end])))


def float_of(b):
    return struct.unpack('<d', struct.pack('<Q', b))[0]


def told(f):
    return bits(NAN) if f != f else struct.unpack('<Q', struct.pack('<d', f))[0]


def check_operations(r, turns):
    for i in range(turns):
        a = r.getrandbits(64) if i % 4 else r.choice(SPECIAL)[0]
        b = r.getrandbits(64) if i % 3 else a ^ r.getrandbits(r.choice([1, 8, 54, 64]))
        x, y, u, v = of_bits(a), of_bits(b), float_of(a), float_of(b)
        assert bits(x) == told(u)
        assert bits(add(x, y)) == told(u + v)
        assert bits(add(x, negated(y))) == told(u - v)
        assert bits(mul(x, y)) == told(u * v)
        assert v == 0 or bits(div(x, y)) == told(u / v)
        assert less(x, y) == (u < v)


def check_functions(r, turns):
    for _ in range(turns):
        n = r.getrandbits(r.randint(1, 64))
        rate = r.choice(RATES)
        u = float(n // 10**9) + float(n % 10**9) / 1e9
        assert bits(of(n)) == told(float(n))
        assert bits(seconds(n)) == told(u)
        assert jump_limit(n, of(rate)) == ceil(u * (rate / 238) * 1.01) + 8192
        assert restart_missing(n, of(rate)) == max(int(float(floor(Fraction(u * rate) + Fraction(1, 2))) - 238), 0)
        assert below_half(n, of(rate)) == int(float(n) < rate / 2)


def check():
    r = random.Random(2)
    check_operations(r, 20000)
    check_functions(r, 20000)
    print('as Python has it, on 20000 pairs of patterns and 20000 numbers')


def main():
    if sys.argv[1:] == ['--check']:
        check()
        return
    r = random.Random(1)
    head()
    octets()
    documented()
    unary(r)
    times(r)
    streams(r)
    readings(r)
    sums()


if __name__ == '__main__':
    main()
