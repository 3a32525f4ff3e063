#!/usr/bin/env python3
"""Prints the cases of the soft stall, of discovery and of the counts that the program `cases` runs; `make vectors` puts them
after those of the attenuator.

Every expected value is worked out from document 01 (Which number, at which check; The session) and the Rust's text in
stall.rs and discovery.rs. A stall's flags are told from the calls before, and a reply is a list of numbers. It shares
nothing with the definitions or the code tried here, and runs neither.
"""
import random
from itertools import product

from lines import line, put, title, word

U64 = 2**64
MOST = U64 - 1


# The soft stall.

SOFT, HARD = 4500000000, 30000000000
DELIVERY, REPORT, TAKE = range(3)


def due(soft, delivering, last, now, hard):
    return int(delivering and hard > soft and max(now - last, 0) >= soft)


def dues():
    title('stall_due: soft time, whether samples came, the last reading, the reading now, hard time')
    now = 9 * SOFT
    for why, given in [
        ('about the soft time', [(SOFT, 1, now - SOFT + k, now, HARD) for k in [1, 0, -1]]),
        ('nothing came', [(SOFT, 0, now - SOFT + k, now, HARD) for k in [1, 0, -1]]),
        ('the hard time about the soft one', [(SOFT, 1, 0, SOFT, SOFT + k) for k in [-1, 0, 1]]),
        ('the hard time is past too', [(SOFT, 1, 0, HARD + k, HARD) for k in [-1, 0, 1]]),
        ('no hard time', [(SOFT, 1, 0, now, 0), (0, 1, 0, now, 0)]),
        ('at once', [(0, 1, 5, 5, 1), (0, 0, 5, 5, 1), (1, 1, 5, 5, 2), (1, 1, 5, 6, 2)]),
        ('the reading fell', [(0, 1, 6, 5, 1), (1, 1, 6, 5, 2), (1, 1, MOST, 0, MOST), (0, 1, MOST, 0, MOST)]),
        ('the largest', [(MOST - 1, 1, k, MOST, MOST) for k in [0, 1, 2]] + [(MOST, 1, 0, MOST, MOST), (0, 1, 0, MOST, MOST)]),
    ]:
        for args in given:
            line('stall_due', [*map(str, args)], due(*args), why)


def waits(calls, what, ends):
    """Whether one of what came since the last of ends."""
    since = max([i for i, k in enumerate(calls) if k == ends], default=-1)
    return int(what in calls[since + 1:])


def after(calls):
    """Of the last call: four times what a take gave, twice delivering, and pending."""
    gave = waits(calls[:-1], REPORT, TAKE) if calls[-1] == TAKE else 0
    return 4 * gave + 2 * waits(calls, DELIVERY, REPORT) + waits(calls, REPORT, TAKE)


def stall_calls(r):
    title('stall_calls: 0 a delivery, 1 a report, 2 a take; each becomes 4 if it handed the report out, 2 delivering, 1 pending')
    short = [list(calls) for n in range(4) for calls in product(range(3), repeat=n)]
    for calls in short + [[r.randrange(3) for _ in range(24)] for _ in range(4)]:
        for soft in [SOFT, 0, MOST] if len(calls) == 24 else [SOFT]:
            line('stall_calls', [str(soft), word(calls)], word([after(calls[:i + 1]) for i in range(len(calls))]))


# Discovery.

P1, P2 = [0xef, 0xfe], [0] * 4


def reply(signature, length, status=2, front=()):
    """The signature, the status and octets that differ, with places of front put over them."""
    p = [*signature, status, *(0x80 + i for i in range(len(signature) + 1, 64))]
    for i, v in front:
        p[i] = v
    return p[:length]


def parsed(p):
    """Protocol, status, board, firmware, receivers and the address; None for no reply."""
    if len(p) >= 11 and p[:2] == P1:
        status, told = p[2], [1, p[2], p[10], p[9], 0, *p[3:9]]
    elif len(p) >= 21 and p[:4] == P2:
        status, told = p[4], [2, p[4], p[11], p[13], p[20], *p[5:11]]
    else:
        return None
    return told if status in [2, 3] else None


def replied(p, why, is_reply):
    told = parsed(p)
    assert (told is not None) == is_reply
    line('parse_reply', [word(p)], word(told + p[11:]) if told else 'r:18', why)


def lengths():
    title('parse_reply: protocol, status, board, firmware, receivers and address over the front, by signature and length')
    for signature, name, least in [(P1, 'Protocol 1', 11), (P2, 'Protocol 2', 21)]:
        for n in [*range(23), 60, 63]:
            replied(reply(signature, n), f'{name}, {n} octets', n >= least)
    title('parse_reply: the status')
    for signature, name, least in [(P1, 'Protocol 1', 11), (P2, 'Protocol 2', 21)]:
        for status in [0, 1, 2, 3, 4, 5, 255]:
            replied(reply(signature, least, status), f'{name}, status {status}', status in [2, 3])


def signatures():
    title('parse_reply: a signature with an octet wrong')
    for i, v in [(0, 0xee), (0, 0), (0, 0xff), (1, 0xff), (1, 0), (1, 0xef)]:
        replied(reply(P1, 21, front=[(i, v)]), f'Protocol 1, octet {i}', False)
    replied(reply(P1, 60, front=[(0, 0xfe), (1, 0xef)]), 'Protocol 1, turned round', False)
    for i, v in product(range(4), [1, 0x80]):
        replied(reply(P2, 21, front=[(i, v)]), f'Protocol 2, octet {i}', False)
    title("parse_reply: Protocol 1's signature with Protocol 2's status, and the reverse")
    for n in [10, 11, 20, 21]:
        replied(reply(P2, n, 2, [(0, 0xef), (1, 0xfe)]), f'Protocol 1 with status 0, {n} octets', False)
        replied(reply(P2, n, 2, [(0, 0xef), (1, 0xfe), (2, 3)]), f'Protocol 1 with status 3, {n} octets', n >= 11)
        replied(reply(P2, n, 4, [(3, 2)]), f'no signature, {n} octets', False)
    replied(reply(P1, 60, 0, [(4, 2)]), 'status 2 in the other place', False)
    replied(reply(P2, 60, 0, [(2, 2)]), 'status 2 in the other place', False)


def values():
    title('parse_reply: addresses, boards and receivers of 0 and 255')
    for signature, n, at in [(P1, 11, 3), (P2, 21, 5)]:
        for v in [0, 255]:
            fields = [(i, v) for i in range(at, n)]
            replied(reply(signature, n, 3, fields), f'all {v}', True)
            replied(reply(signature, n, 3, fields[:6]), f'the address {v}', True)


def requests():
    title('discovery_request, over octets of 0xff')
    for n in [0, 5, 59, 60, 61, 64]:
        p = put([0] * 60, 4, 1, 2) + [0xff] * (n - 60)
        line('discovery_request', [word([0xff] * n)], word(p) if n >= 60 else 'r:15', f'{n} octets')
    title('request_left: octets of 0xff after the request was to be written; a refusal leaves them')
    for n in [0, 1, 59]:
        line('request_left', [word([0xff] * n)], word([0xff] * n), 'refused, and as it was')
    line('request_left', [word([0xff] * 60)], word(put([0] * 60, 4, 1, 2)), 'written')


# The counts.

EDGES = [0, 1, 2**32 - 1, 2**32, 2**63 - 1, 2**63, MOST - 1, MOST]


def counts(r):
    title('the counts, modulo 2^64')
    pairs = [(0, 0), (0, 1), (1, 0), (5, 7), (MOST, 0), (MOST, 1), (MOST, 2), (MOST - 1, 1), (0, MOST), (MOST, MOST)]
    pairs += [(2**63, 2**63), (2**63, 2**63 - 1), (2**32 - 1, 1), (1001, 2002)]
    for n, k in pairs + [(r.getrandbits(64), r.getrandbits(b)) for b in [8, 31, 32, 62, 64, 64]]:
        line('record_dropped', [str(n), str(k)], (n + k) % U64)
    for name in ['record_gap', 'record_malformed']:
        for n in EDGES + [1001, 2002, 3003, r.getrandbits(64)]:
            line(name, [str(n)], (n + 1) % U64)


def losses(r):
    title('loss_total: 238 samples for each datagram, modulo 2^64')
    fits = U64 // 238
    assert fits * 238 < U64 <= (fits + 1) * 238
    near = [b + k for b in [2**56, fits, 2**63, 2**32, 2**57, 255 * 2**56, U64 // 119] for k in [-1, 0, 1]]
    for n in [0, 1, 2, 1001, *near, MOST - 1, MOST] + [r.getrandbits(b) for b in [20, 40, 56, 57, 60, 62, 63, 64, 64, 64]]:
        line('loss_total', [str(n)], n * 238 % U64)


def main():
    print('''
# Cases of the soft stall, of discovery and of the counts, made by tools/part_cases.py (`make vectors`) from document 01 and
# the Rust's text.''')
    r = random.Random(1)
    dues()
    stall_calls(r)
    lengths()
    signatures()
    values()
    requests()
    counts(r)
    losses(r)


if __name__ == '__main__':
    main()
