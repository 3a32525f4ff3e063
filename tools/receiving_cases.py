#!/usr/bin/env python3
"""Prints the cases of a receiver's rules that the program `cases` runs; `make vectors` puts them after those of the session's
parts.

Every expected value is worked out from document 01 (The session, Begin; Numbers in the stream), with the arithmetic of
tools/double_cases.py and the tracker of tools/wire_cases.py. A window is None or its anchor, account and arrivals left; a
slot is None or what it holds. It shares nothing with the definitions or the code tried here, and runs neither.
"""
from double_cases import MOST, account_time, below_half, covered_time, jump_limit, restart_missing
from ieee import bits, of
from lines import line, pattern, title, word
from rates import HZ
from wire_cases import GAP, IN_ORDER, RESTART, STALE, observe

SECOND = 10**9
PAUSE = 100000000
U32, U64 = 2**32, 2**64


def numbers(*values):
    return [v // 256 ** (7 - i) % 256 for v in values for i in range(8)]


def of_window(w):
    return numbers(1, *w) if w else numbers(0, 0, 0, 0)


def rate_word(rate):
    return pattern(bits(of(rate)))


def since(now, then):
    return max(now - then, 0)


# Elapsed time and the jump limit.

def elapsed(rate, accepted, window, now):
    """E: since the last accepted arrival or, if more, from the window's anchor less its account over the rate."""
    if not window:
        return since(now, accepted)
    return max(since(now, accepted), since(since(now, window[0]), account_time(window[1], of(rate))))


def of_elapsed(accepted, window, now, why, rate=48000):
    args = [rate_word(rate), str(accepted), str(now), word(of_window(window))]
    line('unaccounted', args, elapsed(rate, accepted, window, now), why)


def elapsed_times():
    title('unaccounted: rate, last accepted reading, reading now; the window is 1 or 0, its anchor, account and arrivals left')
    for k in [-1, 0, 1, SECOND]:
        of_elapsed(7 * SECOND, None, 7 * SECOND + k, 'no window')
    of_elapsed(0, None, MOST, 'no window')
    # 48,000 samples are one second, so that two of the three since the anchor are not accounted
    for k in [-1, 0, 1]:
        of_elapsed(SECOND + k, (0, 48000, 5), 3 * SECOND, 'about where the two times are equal')
        of_elapsed(3 * SECOND, (0, 48000 * 3 + k, 5), 3 * SECOND, 'about where the account is all of it')
        of_elapsed(3 * SECOND, (3 * SECOND + k, 0, 5), 3 * SECOND, 'about the anchor')
    for rate in HZ:
        of_elapsed(5 * SECOND, (SECOND, rate * 3, 1), 5 * SECOND, 'three seconds of the rate', rate)
    of_elapsed(30000, (0, 1, 1), 30000, 'one sample is 20833 ns')
    # 7812.5 ns as a fraction, but the double's seconds lie above it
    assert elapsed(384000, 2000000001, (0, 3, 1), 2000000001) == 1999992188
    of_elapsed(2000000001, (0, 3, 1), 2000000001, 'three samples are 7813 ns: the tie is that of the double, which is none', 384000)
    of_elapsed(MOST, (0, MOST, 1), MOST, 'the account takes more than any time')
    of_elapsed(MOST - 1, (0, MOST, 1), MOST, 'and is cut before it is subtracted')
    of_elapsed(9, (8, 0, 1), 7, 'the reading fell')
    of_elapsed(0, (0, 0, 0), MOST, 'the largest')


EVENTS = [(IN_ORDER, 'in order'), (STALE, 'stale'), (RESTART, 'restart')]


def caps():
    title('capped: the limit, the event (0 in order, 1 gap, 2 stale, 3 restart) and the gap: a gap over the limit is a restart')
    for limit in [0, 1, 8192, U32 - 2, U32 - 1, MOST]:
        for k in [1, limit - 1, limit, limit + 1, U32 - 1]:
            if 0 < k < U32:
                line('capped', [str(limit), str(GAP), str(k)], GAP if k <= limit else RESTART)
    for event, why in EVENTS:
        for limit in [0, MOST]:
            line('capped', [str(limit), str(event), '0'], event, why)


# The park window.

def begun(window, size, taken, now):
    if since(now, taken) < PAUSE:
        return window
    return (*window[:2], size) if window else (taken, 0, size)


def used(window, missing):
    """One arrival less; at none left it closes. The account saturates."""
    if not window or window[2] <= 1:
        return None
    return window[0], min(window[1] + 238 + missing, MOST), window[2] - 1


def of_begun(window, size, taken, now, why=''):
    args = [str(size), str(taken), str(now), word(of_window(window))]
    line('window_begun', args, word(of_window(begun(window, size, taken, now))), why)


def windows():
    title('window_begun: its size, the last Take, the reading: 100 ms open one at that Take, or refill what is open')
    for window in [None, (3, 476, 2), (3, 476, 0)]:
        for size in [8192, 0]:
            for k in [-1, 0, 1]:
                of_begun(window, size, SECOND, SECOND + PAUSE + k, f'100 ms, {k:+d} ns')
    for taken, now in [(5, 4), (MOST, 0), (0, MOST), (MOST - PAUSE, MOST), (MOST - PAUSE + 1, MOST)]:
        for window in [None, (1, 2, 3)]:
            of_begun(window, MOST, taken, now)
    title('window_used: what an accepted arrival was told missing; 238 and that are accounted, and the last arrival closes it')
    for missing in [0, 238, 47762]:
        for window in [None, (7, 0, 0), (7, 0, 1), (7, 0, 2), (7, 476, 8192), (7, 476, MOST)]:
            line('window_used', [str(missing), word(of_window(window))], word(of_window(used(window, missing))))
    near = [(MOST - 239, 0), (MOST - 238, 0), (MOST - 237, 0), (MOST - 239, 1), (MOST - 238, 1)]
    for account, missing in near + [(MOST, MOST), (0, MOST)]:
        given = (7, account, 2)
        line('window_used', [str(missing), word(of_window(given))], word(of_window(used(given, missing))), 'about the largest')


# A restart's outage.

def backlog(limit, following, waiting):
    """The datagrams that the waiting numbers stand for, by a copy of the tracker."""
    total, run = 0, 0
    for n in waiting:
        event, gap, following, run = observe(1, following, run, n)
        total += {IN_ORDER: 1, STALE: 0, RESTART: 1, GAP: gap + 1 if gap <= limit else 1}[event]
    return total


def outage(rate, accepted, window, reading, later, following, waiting):
    if not window:
        return since(reading, accepted)
    bound = elapsed(rate, reading, window, later)
    total = backlog(jump_limit(bound, of(rate)), following, waiting)
    return since(bound, covered_time(total, of(rate)))


def of_outage(window, waiting, why, rate=48000, accepted=SECOND, reading=5 * SECOND, later=5 * SECOND, following=101):
    octets = of_window(window) + [v // 256 ** (3 - i) % 256 for v in waiting for i in range(4)]
    args = [rate_word(rate), *map(str, [accepted, reading, later, following]), word(octets)]
    line('restart_outage', args, outage(rate, accepted, window, reading, later, following, waiting), why)


PARKED = (SECOND, 0, 9)


def outages():
    title('restart_outage: rate, last accepted, arrival, later reading, the next number; then window and waiting numbers')
    of_outage(None, [], 'no window')
    of_outage(None, [101, 102], 'no window: what waits makes no difference')
    of_outage(None, [101], 'nor does the later reading', later=9 * SECOND)
    of_outage(None, [], 'the reading fell', accepted=5 * SECOND + 1)
    of_outage(PARKED, [], 'the window, at the later reading', later=6 * SECOND)
    of_outage((SECOND, 48000, 9), [], 'less its account')
    of_outage((SECOND, 48000 * 9, 9), [], 'an account past it: since this arrival', later=5 * SECOND + 3)
    walks = [
        ('in order', [101, 102, 103]), ('a gap of 5', [106]), ('stale: none', [100, 99, 37]),
        ('64 behind', [37]), ('65 behind', [36]),
        ('number 0', [0, 1, 2]), ('the eighth stale one', [100] * 7 + [99]), ('seven stale ones', [100] * 7),
        ('a gap over the limit is one, and moves the copy', [20101, 20102]), ('in order behind a stale one', [100, 101]),
    ]
    assert [backlog(8192, 101, waiting) for waiting in [[106], [100, 99, 37], [20101, 20102]]] == [6, 0, 2]
    for why, waiting in walks:
        of_outage(PARKED, waiting, why)
    # E is 4 s
    limit = jump_limit(4 * SECOND, of(48000))
    assert limit == 9007
    for k in [-1, 0, 1]:
        of_outage(PARKED, [101 + limit + k], f'a gap of the limit, {k:+d}')
    of_outage(PARKED, [U32 - 1, 0, 1], 'over the wrap', following=U32 - 1)
    of_outage(PARKED, [101 + i for i in range(500)], '500 waiting numbers')
    # 4 s at 48 kHz are 806.7 datagrams
    for n in [806, 807]:
        of_outage(PARKED, [101 + n - 1], f'{n} datagrams of four seconds')
    for rate in HZ:
        of_outage(PARKED, [101, 102], 'two datagrams', rate)


# What an event misses.

def added(slot, n):
    return min((slot or 0) + n, MOST)


def reported(rate, event, k, ns, slots, counts):
    """The slots, the counts and what is told missing."""
    missing, discontinuity = slots
    dropped, gaps, malformed = counts
    told = 0
    if event == GAP:
        told, dropped, gaps = 238 * k, (dropped + k) % U64, (gaps + 1) % U64
    if event == RESTART:
        told, gaps = restart_missing(ns, of(rate)), (gaps + 1) % U64
    if event == GAP and below_half(told, of(rate)):
        missing = added(missing, told)
    elif event in (GAP, RESTART):
        discontinuity = added(discontinuity, told)
    return (missing, discontinuity), (dropped, gaps, malformed), told


def of_slots(slots, counts, told):
    return numbers(*(v for s in slots for v in ((0, 0) if s is None else (1, s))), *counts, told)


def of_report(event, k, ns, why, rate=48000, slots=(None, None), counts=(11, 12, 13)):
    args = [rate_word(rate), str(event), str(k), str(ns), word(of_slots(slots, counts, 0))]
    line('report_event', args, word(of_slots(*reported(rate, event, k, ns, slots, counts))), why)


def reports():
    title('report_event: rate, event, gap, time; then the slots (1 or 0, what it holds), dropped, gaps, malformed, missing')
    assert reported(48000, GAP, 100, 0, (None, None), (0, 0, 0)) == ((23800, None), (100, 1, 0), 23800)
    assert reported(48000, GAP, 101, 0, (None, None), (0, 0, 0)) == ((None, 24038), (101, 1, 0), 24038)
    assert reported(48000, RESTART, 0, SECOND, (None, None), (0, 0, 0)) == ((None, 47762), (0, 1, 0), 47762)
    for rate, k in zip(HZ, [100, 201, 403, 806], strict=True):
        assert below_half(238 * k, of(rate)) and not below_half(238 * (k + 1), of(rate))
        of_report(GAP, k, SECOND, 'the largest below half the rate', rate)
        of_report(GAP, k + 1, SECOND, 'one more', rate)
    for event, why in EVENTS[:2]:
        of_report(event, 0, SECOND, f'{why}: nothing missing')
        of_report(event, 0, SECOND, f'{why}: the slots stay', slots=(5, 0))
    of_report(RESTART, 0, 0, 'a restart with nothing missing: the slot holds 0')
    for ns in [4958333, 4979166, 4979167, SECOND, 3 * SECOND]:
        of_report(RESTART, 0, ns, 'no dropped count, one gap')
    title('report_event: slots that are empty, hold 0, and saturate; counts modulo 2^64')
    for held in [None, 0, 1, MOST - 238, MOST - 237, MOST]:
        of_report(GAP, 1, SECOND, 'to the missing', slots=(held, 9))
        of_report(GAP, 101, SECOND, 'to the discontinuity', slots=(9, held))
        of_report(RESTART, 0, SECOND, 'a restart', slots=(9, held))
    for counts in [(MOST - 2, MOST - 1, 0), (MOST - 1, MOST, MOST), (MOST, 0, MOST)]:
        of_report(GAP, 2, SECOND, 'counts', counts=counts)
        of_report(RESTART, 2, SECOND, 'counts', counts=counts)
    of_report(GAP, U32 - 1, MOST, 'the largest gap')


def ports():
    title("destination: the settings' port and a stream's offset")
    for port in [0, 1024, 65524]:
        for offset in [0, 1, 2, 3]:
            line('destination', [str(port), str(offset)], port + offset)


def main():
    print('''
# Cases of a receiver's rules, made by tools/receiving_cases.py (`make vectors`) from document 01. A number has eight octets.''')
    elapsed_times()
    caps()
    windows()
    outages()
    reports()
    ports()


if __name__ == '__main__':
    main()
