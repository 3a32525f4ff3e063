#!/usr/bin/env python3
"""Prints the cases of wire that the program `cases` runs; `make vectors` puts them after those of tools/double_cases.py.

Every expected value is worked out from document 01 (Which number, at which check; Numbers in the stream, first
paragraph; Packets and fields; Edges) and, for boards and filters, from the Rust's table and ladders in wire.rs, as they
stand there. Doubles are exact fractions (tools/ieee.py), a sample's f32 pattern is made from the fraction, and packets
are lists of numbers. It shares nothing with the definitions or the code tried here, and runs neither.
"""
import random
from fractions import Fraction
from math import floor

from ieee import NAN, TOP, around, bits, div, less, mul, of, of_bits
from lines import line, pattern, put, title, word
from rates import HZ, KHZ

U32 = 2**32
CLOCK = 122880000
INFINITY, NO_NUMBER = 0x7ff0000000000000, 0x7ff8000000000000


# Phase word and rates.

def phase_word(x):
    """f * 2^32 over the clock in doubles, then floored: 0 of NaN and below 0, at most the largest u32."""
    q = div(mul(x, of(U32)), of(CLOCK))
    if q == NAN or q[0]:
        return 0
    return U32 - 1 if q[1] == 'inf' else min(floor(q[1]), U32 - 1)


def rate_khz(x):
    return next((khz for khz, hz in zip(KHZ, HZ) if x == of(hz)), 'r:3')


def of_phase(b, why=''):
    line('phase_word', [pattern(b)], phase_word(of_bits(b)), why)


def centre(f, why=''):
    """An accepted centre: 01's whole-number formula gives the same word."""
    assert 0 < f < CLOCK // 2 and phase_word(of(f)) == f * 65536 // 1875
    of_phase(bits(of(f)), why)


def phases(r):
    title("phase_word: 01's own, what is no centre, and about half the clock and the clock")
    for f, word_of in [(1, 34), (7000000, 244667733), (61439999, 2147483613)]:
        assert phase_word(of(f)) == word_of
        centre(f, f'{f} Hz')
    special = [(0, 'zero'), (TOP, 'minus zero'), (NO_NUMBER, 'NaN'), (TOP + INFINITY + 1, 'NaN'), (INFINITY, 'infinity')]
    special += [(TOP + INFINITY, 'minus infinity'), (1, 'smallest subnormal'), (2**52 - 1, 'largest subnormal')]
    special += [(TOP + 1, 'minus the smallest subnormal'), (INFINITY - 1, 'largest')]
    values = [(Fraction(1, 2), '0.5'), (-1, '-1'), (-7000000, '-7,000,000'), (2**53 - 1, '2^53 - 1'), (2**53 + 2, '2^53 + 2')]
    for b, why in special + [(bits(of(v)), why) for v, why in values]:
        of_phase(b, why)
    for value in [CLOCK // 2, CLOCK]:
        for b, why in around(value, f'{value} Hz'):
            of_phase(b, why)
    title('phase_word: accepted centres whose words are whole, and those with the least part above and below a whole number')
    for rest in [0, 1, 1874]:
        first = rest * pow(65536, -1, 1875) % 1875
        most = (CLOCK // 2 - 1 - first) // 1875
        turns = [0 if first else 1, most] + sorted(r.randint(1, most - 1) for _ in range(18))
        for k in turns:
            f = first + 1875 * k
            assert f * 65536 % 1875 == rest
            centre(f, f'{f} Hz, {rest} over 1875')
    other_order(r)


def other_order(r):
    title('phase_word: doubles just below a frequency whose quotient is whole, where another order of rounding tells')
    step = div(of(U32), of(CLOCK))
    found = 0
    while found < 4:
        b = bits(of(Fraction(r.randint(1, U32 - 1) * 1875, 65536))) - 1
        other = floor(mul(of_bits(b), step)[1])
        if other != phase_word(of_bits(b)):
            of_phase(b, f'f * (2^32 / 122,880,000) would give {other}')
            found += 1


def rates():
    title('rate_khz: the accepted rates, half the lowest and twice the highest, each with the doubles beside it, and other rates')
    near = [p for hz in [*HZ, 24000, 2 * HZ[-1]] for p in around(hz, f'{hz} Hz')]
    other = [(bits(of(v)), f'{v} Hz') for v in [48, 384, 144000, 4 * HZ[-1], 48000 + U32, -24000] + [-hz for hz in HZ]]
    other += [(bits(of(hz + k)), f'{hz} Hz, {k:+d}') for hz in HZ for k in [-1, 1]]
    other += [(0, 'zero'), (TOP, 'minus zero'), (NO_NUMBER, 'NaN'), (INFINITY, 'infinity'), (TOP + INFINITY, 'minus infinity')]
    other += [(1, 'smallest subnormal'), (INFINITY - 1, 'largest')]
    for b, why in near + other:
        line('rate_khz', [pattern(b)], rate_khz(of_bits(b)), why)
    title('is_rate_khz: the accepted rates, the numbers beside them, and others')
    near = [khz + k for khz in KHZ for k in [-1, 0, 1]]
    for khz in [*near, 0, 1, 24, 144, 480, 2 * KHZ[-1], 4 * KHZ[-1], 48 * 256, 48000, 65535]:
        line('is_rate_khz', [str(khz)], int(khz in KHZ))


# Boards and filters: the Rust's table and ladders.

NONE, CLASSIC, DUAL, BAND_PASS, BYPASS = range(5)
SKIPPED = 256
BOARDS = {
    0: (1, 0x00, NONE), 6: (1, 0x00, NONE),
    1: (1, 0x01, CLASSIC), 2: (1, 0x01, CLASSIC),
    3: (2, 0x01, CLASSIC), 4: (2, 0x01, CLASSIC),
    5: (2, 0x03, DUAL), 10: (2, 0x03, DUAL), 11: (2, 0x03, DUAL),
    20: (1, 0x01, BAND_PASS),
}
UNKNOWN = (1, 0x01, BYPASS)
OFF = 0x1000
HPF = [(1800000, OFF), (6500000, 0x40), (9500000, 0x20), (13000000, 0x10), (20000000, 0x02), (50000000, 0x04)], 0x08
LPF = [(35600000, 0x20000000), (24000000, 0x40000000), (16500000, 0x80000000), (8000000, 0x00100000), (5000000, 0x00200000),
       (2500000, 0x00400000)], 0x00800000
BPF = [(1500000, OFF), (2100000, 0x40), (5500000, 0x20), (11000000, 0x10), (22000000, 0x02), (35000000, 0x04)], 0x08


def below(ladder, x):
    return next((b for limit, b in ladder[0] if less(x, of(limit))), ladder[1])


def above(ladder, x):
    return next((b for limit, b in ladder[0] if less(of(limit), x)), ladder[1])


def alex(scheme, x):
    """Alex0 and Alex1."""
    low = above(LPF, x)
    return {
        NONE: (0, 0),
        CLASSIC: (below(HPF, x) | low, low),
        DUAL: (below(BPF, x) | low, OFF | low),
        BAND_PASS: (below(BPF, x) | low, low),
        BYPASS: (0x20001000, 0x20000000),
    }[scheme]


def of_alex(scheme, b, why, words=(0, 1)):
    for i in words:
        line(f'alex{i}', [str(scheme), pattern(b)], f'0x{alex(scheme, of_bits(b))[i]:08x}', why)


def filters():
    title("Alex words: 01's own, NaN, infinities and zeros, and the schemes without a ladder")
    assert alex(CLASSIC, of(7000000)) == (0x00200020, 0x00200000)
    assert above(LPF, of(8000000)) == 0x00200000 and above(LPF, of(8000001)) == 0x00100000
    for f in [7000000, 8000000, 8000001]:
        of_alex(CLASSIC, bits(of(f)), f'{f} Hz')
    special = [(NO_NUMBER, 'NaN'), (INFINITY, 'infinity'), (TOP + INFINITY, 'minus infinity'), (0, 'zero'), (TOP, 'minus zero')]
    for scheme in [CLASSIC, DUAL, BAND_PASS]:
        for b, why in special:
            of_alex(scheme, b, why)
    for scheme in [NONE, BYPASS]:
        for b, why in [(bits(of(7000000)), '7000000 Hz'), (NO_NUMBER, 'NaN')]:
            of_alex(scheme, b, why)
    for ladder, name, words in [
        (HPF, 'high-pass', {CLASSIC: (0,)}),
        (LPF, 'low-pass', {CLASSIC: (0, 1), DUAL: (0, 1), BAND_PASS: (0, 1)}),
        (BPF, 'band-pass', {DUAL: (0,), BAND_PASS: (0,)}),
    ]:
        title(f'Alex words: the {name} limits and the doubles beside them, in each word that has the ladder')
        for limit, _ in ladder[0]:
            for b, why in around(limit, f'{limit} Hz'):
                for scheme in words:
                    of_alex(scheme, b, why, words[scheme])


def boards():
    title(f'boards: each number of the table and those beside them; {SKIPPED} stands for a skipped discovery')
    for n in [*range(22), 255, SKIPPED]:
        for name, value in zip(['board_adcs', 'board_enable', 'board_scheme'], BOARDS.get(n, UNKNOWN)):
            line(name, [str(n)], value)


# The tracker.

IN_ORDER, GAP, STALE, RESTART = range(4)


def observe(has, expected, run, seq):
    """The event, its gap, and the number expected and the stale run after it."""
    event, gap = meant(has, expected, run, seq)
    if event == STALE:
        return event, gap, expected, run + 1
    return event, gap, (seq + 1) % U32, 0


def meant(has, expected, run, seq):
    d = (seq - expected) % U32
    d -= U32 if d >= 2**31 else 0
    if not has or d == 0:
        return IN_ORDER, 0
    if seq == 0:
        return RESTART, 0
    if d > 0:
        return GAP, d
    return STALE if d >= -64 and run + 1 < 8 else RESTART, 0


ARRIVALS = [
    ('nothing expected', [(0, 0, 0, 0), (0, 0, 0, 5), (0, 0, 0, U32 - 1), (0, 100, 7, 36)]),
    ('in order', [(1, 100, 0, 100), (1, 100, 7, 100)]),
    ('the last number', [(1, U32 - 1, 0, U32 - 1)]),
    ('number 0, expected', [(1, 0, 0, 0), (1, 0, 7, 0)]),
    ('number 0, not expected', [(1, 5, 0, 0), (1, 3, 0, 0), (1, 1, 7, 0), (1, 2**31, 0, 0), (1, U32 - 1, 3, 0)]),
    ('one ahead', [(1, 100, 0, 101), (1, 100, 7, 101), (1, 0, 0, 1)]),
    ('ahead, across the wrap', [(1, U32 - 6, 0, 1), (1, U32 - 1, 0, 2**31 - 2)]),
    ('2^31 - 1 ahead', [(1, 100, 0, 100 + 2**31 - 1), (1, 0, 0, 2**31 - 1)]),
    ('2^31 off', [(1, 100, 0, 100 + 2**31), (1, 0, 0, 2**31), (1, U32 - 1, 0, 2**31 - 1)]),
    ('64 behind', [(1, 100, 0, 36), (1, 10, 0, U32 - 54), (1, U32 - 1, 0, U32 - 65)]),
    ('65 behind', [(1, 100, 0, 35), (1, 10, 0, U32 - 55), (1, 100, 7, 35)]),
    ('one behind', [(1, 100, 0, 99), (1, 0, 0, U32 - 1)]),
    ('the seventh stale one', [(1, 100, 6, 99), (1, 3, 6, U32 - 1)]),
    ('the eighth stale one', [(1, 100, 7, 99), (1, 3, 7, U32 - 1), (1, 100, 7, 36)]),
    ('past the eighth', [(1, 100, 8, 99), (1, 100, U32 - 1, 99), (1, 3, U32 - 1, U32 - 1)]),
]


def arrivals():
    title('observe: whether a number is expected, that number, the stale run, and the number that arrives')
    assert [meant(1, *a)[0] for a in [(100, 0, 36), (100, 0, 35), (5, 0, 0)]] == [STALE, RESTART, RESTART]
    for why, given in ARRIVALS:
        for args in given:
            for name, value in zip(['event', 'gap', 'expected', 'run'], observe(*args)):
                line(f'observe_{name}', [str(v) for v in args], value, why)


# Packets: fields over zeros, a place, a width and a value each.

def packet(length, fields):
    p = [0] * length
    for at, wide, v in fields:
        p = put(p, at, wide, v)
    return p


def general(count, adcs, enable):
    return packet(60, [(0, 4, count), (37, 1, 8), (38, 1, 1), (59, 1, enable)])


def receive(count, adcs, enable, khz):
    return packet(1444, [(0, 4, count), (4, 1, adcs), (7, 1, 1), (18, 2, khz), (22, 1, 24)])


def transmit(count):
    return packet(60, [(0, 4, count), (4, 1, 1)])


def high(count, run, phase, alex0, alex1, db):
    fields = [(0, 4, count), (4, 1, run), (9, 4, phase), (329, 4, phase), (1428, 4, alex1), (1432, 4, alex0)]
    return packet(1444, fields + [(1443, 1, min(db, 31))])


def sent(name, made, args, room):
    """A packet that is to be written to so many octets of 0xee."""
    p = made(*args)
    given = [0xee] * room
    expected = word(p + given[len(p):]) if room >= len(p) else 'r:15'
    why = {0: 'just room enough', 3: 'the rest stays'}.get(room - len(p), f'{room} octets')
    line(name, [*map(str, args), word(given)], expected, why)


def packets():
    title('packets, over octets of 0xee: just room enough, room to spare, one octet too few, and none')
    for args, room in [((0, 1, 0), 60), ((1, 2, 3), 60), ((U32 - 1, 2, 1), 63), ((1, 1, 1), 59), ((1, 1, 1), 0)]:
        sent('general_packet', general, args, room)
    for args, room in [((0, 1, 3, 48), 1444), ((U32 - 1, 2, 1, 384), 1447), ((1, 1, 1, 96), 1443), ((1, 1, 1, 96), 0)]:
        sent('rx_specific_packet', receive, args, room)
    for count, room in [(0, 60), (1, 60), (U32 - 1, 63), (1, 59), (1, 0)]:
        sent('tx_specific_packet', transmit, (count,), room)
    words = (0x01020304, 0x05060708, 0x090a0b0c)
    for args, room in [
        ((1, 0, *words, 30), 1444), ((U32 - 1, 1, U32 - 1, U32 - 1, U32 - 1, 31), 1447), ((0, 1, *words, 32), 1444),
        ((0, 0, 0, 0, 0, 255), 1444), ((1, 1, *words, 0), 1443), ((1, 1, *words, 0), 0),
    ]:
        sent('high_priority_packet', high, args, room)
    worked()
    left()


def worked():
    """Packets as a session sends them: 01's fields with 01's own words."""
    title("packets of 01's own values: each ADC count and filter enable of the boards, each rate")
    for adcs, enable in sorted({b[:2] for b in BOARDS.values()}):
        sent('general_packet', general, (1, adcs, enable), 60)
    for n, khz in enumerate(KHZ):
        sent('rx_specific_packet', receive, (1, 1 + n % 2, 1, khz), 1444)
    title('the high priority packet of a Classic board at 7,000,000 Hz, by attenuation and run; at either end of the centres')
    for db in [0, 6, 30]:
        sent('high_priority_packet', high, (1, 1, 244667733, 0x00200020, 0x00200000, db), 1444)
    sent('high_priority_packet', high, (2, 0, 244667733, 0x00200020, 0x00200000, 30), 1444)
    for f in [1, 61439999]:
        sent('high_priority_packet', high, (1, 1, phase_word(of(f)), *alex(CLASSIC, of(f)), 0), 1444)


def left():
    title('refused_left: octets of 0xee after packet 0 to 3 (general, receive, transmit, high priority) was to be written')
    for i, p in enumerate([general(0, 1, 1), receive(0, 1, 1, 48), transmit(0), high(0, 0, 0, 0, 0, 0)]):
        for n in [0, 1, len(p) - 1]:
            line('refused_left', [str(i), word([0xee] * n)], word([0xee] * n), 'refused, and as it was')
        line('refused_left', [str(i), word([0xee] * len(p))], word(p), 'written')


# Status.

def status():
    title('the overload bits of a status datagram: octet 5 of 60, with 0xee beside it')
    for length, v in [(60, 0), (60, 1), (60, 2), (60, 0x81), (60, 0xfe), (60, 0xff), (59, 1), (61, 1)]:
        line('adc_overload_bits', [word(put([0xee] * length, 5, 1, v))], v if length == 60 else 'none', f'{length} octets')
    line('adc_overload_bits', [word([])], 'none', 'no octets')
    for v in [0, 1, 2, 3, 0x7f, 0x80, 0x81, 0xfe, 0xff]:
        line('adc0_overload', [str(v)], v % 2)


# I/Q datagrams.

def single(x):
    """The pattern of a fraction that an f32 holds exactly, a normal number or 0."""
    if x == 0:
        return 0
    size = abs(x)
    e = max(k for k in range(-126, 128) if Fraction(2) ** k <= size)
    digits = (size / Fraction(2) ** e - 1) * 2**23
    assert digits.denominator == 1
    return (2**31 if x < 0 else 0) + (e + 127 << 23) + digits.numerator


def sample(v):
    """24 bits, read as a signed number, over 2^23."""
    return Fraction(v - 2**24 if v >= 2**23 else v, 2**23)


COUNT = 0x81020384
PLACES = 476


def datagram(length=1444, field=24, pairs=238, values=()):
    """With 0xee in the octets that nobody reads, and in the samples that values does not give."""
    p = [0xee] * 1447
    for at, wide, v in [(0, 4, COUNT), (12, 2, field), (14, 2, pairs)] + [(16 + 3 * i, 3, v) for i, v in values]:
        p = put(p, at, wide, v)
    return p[:length]


def told(p, room=PLACES):
    """The answer, and what it gives: 01's rows 7, 8, 9 and 16 in order."""
    if len(p) != 1444:
        return 'r:7', len(p)
    field, pairs = p[12] * 256 + p[13], p[14] * 256 + p[15]
    if field != 24:
        return 'r:8', field
    if pairs != 238:
        return 'r:9', pairs
    return (COUNT, COUNT) if room >= PLACES else ('r:16', None)


def headers():
    title('I/Q headers: the count, or the row of 01 that refuses, and what it gives')
    short = [({'length': n}, f'{n} octets') for n in [0, 1, 16]]
    short += [({'length': 17, 'field': 16, 'pairs': 1}, 'the length wins')]
    lengths = [({'length': n}, f'{n} octets') for n in [1443, 1444, 1445]]
    fields = [({'field': v}, f'bits {v}') for v in [23, 25]] + [({'pairs': v}, f'samples {v}') for v in [237]]
    fields += [({'pairs': 238 + 256}, 'samples with a wrong high octet')]
    both = [({'field': 24 + 256}, 'bits with a wrong high octet'), ({'pairs': 239}, 'samples 239')]
    both += [({'field': 16, 'pairs': 239}, 'the bits win')]
    for given, why in short + lengths + fields + both:
        line('iq_header', [word(datagram(**given))], told(datagram(**given))[0], why)
    ends = [({'field': v}, f'bits {v}') for v in [0, 65535]] + [({'pairs': v}, f'samples {v}') for v in [0, 65535]]
    for given, why in short + both + lengths + fields + ends:
        line('iq_value', [word(datagram(**given))], told(datagram(**given))[1], why)


VALUES = [0x800000, 0x7fffff, 0x000000, 0xffffff, 0x000001, 0x800001, 0x7ffffe, 0x400000, 0xc00000, 0x3fffff, 0xbfffff]


def samples():
    title('I/Q samples by their f32 patterns: places 0 to 475 of an output of 480 that holds 7, and the first past them')
    assert (sample(0x800000), sample(0x7fffff)) == (-1, Fraction(8388607, 8388608))
    values = [*enumerate(VALUES), (PLACES - 1, 0x123456)]
    p = datagram(values=values)
    for i, v in values:
        line('iq_sample', [str(i), word(p)], f'0x{single(sample(v)):08x}', f'{v:06x}')
    line('iq_sample', [str(PLACES), word(p)], f'0x{single(Fraction(7)):08x}', 'stays 7')
    line('iq_sample', ['0', word(datagram(17))], 'r:7')
    title('I/Q output: 476 places or more, and a wrong header comes first')
    for room in [0, PLACES - 1, PLACES, PLACES + 1]:
        line('iq_room', [str(room), word(datagram())], told(datagram(), room)[0])
    line('iq_room', ['0', word(datagram(17))], 'r:7')
    kept(p, values)


def kept(p, values):
    title('iq_left: places of the output, then a place of 480 that hold 7: a refusal leaves all, an answer those from 476 on')
    seven = f'0x{single(Fraction(7)):08x}'
    for places, i in [(0, 0), (PLACES - 1, 0), (PLACES - 1, PLACES - 2), (PLACES - 1, PLACES - 1)]:
        line('iq_left', [str(places), str(i), word(p)], seven, '16')
    for given, row in [({'length': 1443}, 7), ({'length': 1445}, 7), ({'field': 23}, 8), ({'pairs': 237}, 9)]:
        line('iq_left', ['480', '0', word(datagram(**given))], seven, str(row))
    for places, i in [(PLACES, PLACES - 1), (PLACES + 1, PLACES - 1)]:
        line('iq_left', [str(places), str(i), word(p)], f'0x{single(sample(dict(values)[i])):08x}', 'written')
    for places, i in [(PLACES, PLACES), (PLACES + 1, PLACES), (480, 479)]:
        line('iq_left', [str(places), str(i), word(p)], seven, 'past them')


def main():
    print('''
# Cases of wire, made by tools/wire_cases.py (`make vectors`) from document 01 and the Rust's table and ladders. A refusal
# stands as r: and its number in 01; none is what 01 gives no number.''')
    r = random.Random(1)
    phases(r)
    rates()
    filters()
    boards()
    arrivals()
    packets()
    status()
    headers()
    samples()


if __name__ == '__main__':
    main()
