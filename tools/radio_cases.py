#!/usr/bin/env python3
"""Prints the cases of the practice radio that the program `cases` runs; `make vectors` puts them after those of a receiver.

Every expected value is worked out from document 01 (Packets and fields) and request 2026-02. A packet is a list of numbers;
what a radio keeps is the octets of the fields that it keeps. What is written is read back by the models of the host's
readers, and the packets that are read are those of the model of the host's writers (tools/wire_cases.py, tools/part_cases.py).
It shares nothing with the definitions or the code tried here, and runs neither.
"""
import random

from lines import line, put, title, word
from part_cases import parsed
from rates import KHZ
from wire_cases import general, high, receive, transmit

U32 = 2**32


# Command packets, by the offsets of their streams.

GENERAL, RECEIVE, TRANSMIT, HIGH = STREAMS = range(4)
NAMES = ['general', 'receive', 'transmit', 'high priority']
LENGTHS = [60, 1444, 60, 1444]

# Places and widths of what is kept of each packet, and the octets beside it that are not 0.
FIELDS = [
    [(0, 4), (59, 1)],
    [(0, 4), (4, 1), (18, 2)],
    [(0, 4)],
    [(0, 4), (4, 1), (9, 4), (329, 4), (1428, 4), (1432, 4), (1443, 1)],
]
FIXED = [{37: 8, 38: 1}, {7: 1, 22: 24}, {4: 1}, {}]
RUN, DDC_PHASE, DUC_PHASE, ATTENUATION, RATE = 4, 9, 329, 1443, 18

KEPT = [[i for at, wide in fields for i in range(at, at + wide)] for fields in FIELDS]
BEFORE = [sum(map(len, KEPT[:stream])) for stream in STREAMS]
RADIO = sum(map(len, KEPT))

# Each octet is another, but for run, which is on.
KEPT_RUN = BEFORE[HIGH] + KEPT[HIGH].index(RUN)
FULL = put([0x81 + i for i in range(RADIO)], KEPT_RUN, 1, 1)


def is_wrong(stream, p):
    """What 2026-02 names under 21."""
    if any(v != FIXED[stream].get(i, 0) for i, v in enumerate(p) if i not in KEPT[stream]):
        return True
    if stream == RECEIVE:
        return p[RATE] * 256 + p[RATE + 1] not in KHZ
    if stream == HIGH:
        return p[RUN] not in [0, 1] or p[DDC_PHASE:][:4] != p[DUC_PHASE:][:4] or p[ATTENUATION] > 31
    return False


def read(radio, stream, p):
    """The number of the refusal, or None, and the radio after it."""
    if len(p) != LENGTHS[stream]:
        return 20, radio
    if is_wrong(stream, p):
        return 21, radio
    kept = [p[i] for i in KEPT[stream]]
    return None, radio[:BEFORE[stream]] + kept + radio[BEFORE[stream] + len(kept):]


def placed(p):
    """The octets that are not 0, each behind its place."""
    return [octet for i, v in enumerate(p) if v for octet in [i // 256, i % 256, v]]


def heard(stream, p, why, number, radio=FULL):
    """A packet with the refusal that it is made for, or None; a refusal is tried for what it leaves, too."""
    refusal, after = read(radio, stream, p)
    assert refusal == number, (NAMES[stream], why, refusal)
    args = [str(stream), str(len(p))]
    given, left = word(radio + placed(p)), word(after + placed(p))
    why = f'{NAMES[stream]}, {why}'
    line('read_command', [*args, given], f'r:{refusal}' if refusal else left, why)
    if refusal:
        line('command_left', [*args, given], left, why)


WORDS = 0x01020304, 0x05060708, 0x090a0b0c
USUAL = [general(0x11121314, 2, 3), receive(0x21222324, 2, 3, 192), transmit(0x31323334), high(0x41424344, 1, *WORDS, 30)]


def cut(p, length):
    return (p + [0] * length)[:length]


def lengths():
    title("read_command: the stream's offset, the packet's length, and as octets what the radio keeps:")
    print("""# general count and filter enable (4, 1 octets), receive count, ADCs and rate (4, 1, 2), transmit count (4), high priority
# count, run, the two phase words, Alex1, Alex0 and attenuation (4, 1, 4, 4, 4, 4, 1). Behind it stand place (2) and value (1)
# of each octet of the packet that is not 0. command_left: what the radio keeps then, though the packet was refused""")
    for stream, p in zip(STREAMS, USUAL):
        for n in [0, 1, 4, len(p) - 1, len(p), len(p) + 1, 1504 - len(p)]:
            heard(stream, cut(p, n), f'{n} octets', None if n == len(p) else 20)
    title('read_command: 20 before 21')
    for stream, p in zip(STREAMS, USUAL):
        for n in [len(p) - 1, len(p) + 1]:
            heard(stream, cut(put(p, 5, 1, 1), n), f'{n} octets, one wrong', 20)
    title('read_command: of no stream')
    for offset in [4, 5, 255]:
        line('read_command', [str(offset), '60', word(FULL + placed(USUAL[TRANSMIT]))], 'none', f'offset {offset}')


def unnamed(stream):
    """The first and the last octet of each run that nothing is said of."""
    rest = [i for i in range(LENGTHS[stream]) if i not in KEPT[stream] and i not in FIXED[stream]]
    return [i for i in rest if i - 1 not in rest or i + 1 not in rest]


def fixed():
    title('read_command: an octet that is fixed has another value')
    for stream, p in zip(STREAMS, USUAL):
        for i, v in FIXED[stream].items():
            for other in sorted({0, v - 1, v + 1, v + 128, 255}):
                heard(stream, put(p, i, 1, other), f'octet {i} is {other}', 21)
    title('read_command: the first and the last of each run of octets that are 0')
    for stream, p in zip(STREAMS, USUAL):
        for i in unnamed(stream):
            for v in [1, 128]:
                heard(stream, put(p, i, 1, v), f'octet {i} is {v}', 21)


def values():
    title('read_command: rates')
    near = [khz + k for khz in KHZ for k in [0, -1, 1]]
    for khz in [*near, 0, 1, 24, 128, 144, 256, 2 * KHZ[-1], 4 * KHZ[-1], 48 * 256, 65535]:
        heard(RECEIVE, put(USUAL[RECEIVE], RATE, 2, khz), f'{khz} kHz', None if khz in KHZ else 21)
    title('read_command: run')
    for v in [0, 1, 2, 3, 128, 129, 255]:
        heard(HIGH, put(USUAL[HIGH], RUN, 1, v), f'run {v}', None if v < 2 else 21)
    title('read_command: phase words that differ in one octet')
    for at in [DDC_PHASE, DUC_PHASE]:
        for i in range(at, at + 4):
            for v in [1, 128]:
                heard(HIGH, put(USUAL[HIGH], i, 1, USUAL[HIGH][i] ^ v), f'octet {i}', 21)
    title('read_command: attenuation')
    for db in [0, 1, 30, 31, 32, 33, 63, 128, 255]:
        heard(HIGH, put(USUAL[HIGH], ATTENUATION, 1, db), f'{db} dB', None if db <= 31 else 21)


def free():
    title('read_command: each field at 0 and at its largest; the parts of the other streams stay')
    for stream, p in zip(STREAMS, USUAL):
        for at, wide in FIELDS[stream]:
            if (stream, at) in [(RECEIVE, RATE), (HIGH, RUN), (HIGH, DUC_PHASE), (HIGH, ATTENUATION)]:
                continue
            for v in [0, 256**wide - 1]:
                q = put(p, at, wide, v)
                q = put(q, DUC_PHASE, wide, v) if (stream, at) == (HIGH, DDC_PHASE) else q
                heard(stream, q, f'{wide} octets at {at} are {v}', None)
    title('read_command: the first packet of each stream, and one with all at 0 that may be')
    line('new_radio', [word(FULL)], word([0] * RADIO), 'before any packet')
    for stream, p in zip(STREAMS, USUAL):
        heard(stream, p, 'the first', None, [0] * RADIO)
    for stream, p in zip(STREAMS, [general(0, 0, 0), receive(0, 0, 0, 48), transmit(0), high(0, 0, 0, 0, 0, 0)]):
        heard(stream, p, 'the least', None)


def drawn(r):
    """A packet of the host's for each stream, and the values that it was made from, in the order in which they are kept."""
    count = [r.choice([0, U32 - 1, r.getrandbits(32)]) for _ in STREAMS]
    adcs, enable, khz, db, run = r.getrandbits(8), r.getrandbits(8), r.choice(KHZ), r.randrange(32), r.randrange(2)
    phase, alex0, alex1 = [r.getrandbits(32) for _ in range(3)]
    packets = [general(count[0], adcs, enable), receive(count[1], adcs, enable, khz), transmit(count[2])]
    packets += [high(count[3], run, phase, alex0, alex1, db)]
    return packets, [[count[0], enable], [count[1], adcs, khz], [count[2]], [count[3], run, phase, phase, alex1, alex0, db]]


def octets(stream, given):
    return [octet for (_, wide), v in zip(FIELDS[stream], given) for octet in v.to_bytes(wide, 'big')]


def any_radio(r):
    return put([r.getrandbits(8) for _ in range(RADIO)], KEPT_RUN, 1, r.randrange(2))


def round_trips(r):
    title("read_command: the host's packets of any values, read by any radio")
    for _ in range(10):
        packets, given = drawn(r)
        for stream, p in zip(STREAMS, packets):
            before = any_radio(r)
            after = read(before, stream, p)[1]
            assert after[BEFORE[stream]:][:len(KEPT[stream])] == octets(stream, given[stream])
            heard(stream, p, 'any values', None, before)
    title("read_command: the host's packets with one octet changed")
    for _ in range(6):
        for stream, p in zip(STREAMS, drawn(r)[0]):
            i = r.randrange(len(p)) if r.randrange(2) else r.choice(KEPT[stream])
            p, radio = put(p, i, 1, p[i] ^ 1 << r.randrange(8)), any_radio(r)
            heard(stream, p, f'octet {i}', read(radio, stream, p)[0], radio)


# Several packets, one behind the other.

def read_all(radio, offsets, packets):
    """The radio after them, and how many it accepted."""
    accepted = 0
    for offset in offsets:
        if offset not in STREAMS:
            break
        refusal, radio = read(radio, offset, packets[:LENGTHS[offset]])
        accepted += refusal is None
        packets = packets[LENGTHS[offset]:]
    return radio, accepted


def listened(offsets, packets, why, number, radio=FULL):
    after, accepted = read_all(radio, offsets, packets)
    assert accepted == number, (why, accepted)
    args = [str(len(offsets)), str(len(packets))]
    given, left = [word(front + offsets + placed(packets)) for front in [radio, after]]
    line('read_commands', [*args, given], left, why)
    line('commands_accepted', [*args, given], accepted, why)


def bursts(r):
    title('read_commands: how many offsets, and the length of the packets; the octets are the radio, the offsets, and places and')
    print('# values. commands_accepted: how many of the packets the radio accepted')
    packets, order = drawn(r)[0], [*STREAMS]
    burst = sum(packets, [])
    listened(order, burst, 'one of each', 4)
    listened(order, burst, 'one of each, to a new radio', 4, [0] * RADIO)
    listened(order[::-1], sum(packets[::-1], []), 'the other way round', 4)
    listened([], [], 'none', 0)
    listened([], burst, 'no offsets', 0)
    listened(order, [], 'no octets', 0)
    for n in [1, 2, 3]:
        listened(order[:n], burst, f'{n} of four', n)
        listened(order, burst[:sum(LENGTHS[:n])], f'{n} are there', n)
    for n in [1, 59, 60, 61, 1503, 1504, 1505, 3007]:
        listened(order, burst[:n], f'{n} octets', sum(sum(LENGTHS[:k]) <= n for k in [1, 2, 3, 4]))
    listened(order, burst + [1], 'an octet behind them', 4)
    for i in STREAMS:
        wrong = [put(p, 5, 1, 1) if k == i else p for k, p in enumerate(packets)]
        listened(order, sum(wrong, []), f'the {NAMES[i]} one is refused', 3)
        listened(order[:i] + [4] + order[i + 1:], burst, f'no stream at {i}', i)
    listened([2, 0, 2, 255, 2], sum([packets[k] for k in [2, 0, 2, 2]], []), 'ended by 255', 3)
    title('read_commands: the later of two of a stream is kept')
    for stream in [GENERAL, TRANSMIT, HIGH]:
        listened([stream] * 2, packets[stream] + USUAL[stream], NAMES[stream], 2)
        listened([stream] * 2, packets[stream] + put(USUAL[stream], 5, 1, 1), f'{NAMES[stream]}, refused', 1)


# I/Q datagrams.

SAMPLES, DATAGRAM, LEAST, MOST = 476, 1444, -2**23, 2**23 - 1
NO_PLACE = 512


def signed(v, bits):
    v %= 2**bits
    return v - 2**bits if v >= 2**(bits - 1) else v


def datagram(count, samples):
    p = put(put(put([0] * 16, 0, 4, count), 12, 2, 24), 14, 2, 238)
    p += [octet for x in samples for octet in (x % 2**24).to_bytes(3, 'big')]
    assert [int.from_bytes(p[i:i + 3], 'big', signed=True) for i in range(16, DATAGRAM, 3)] == samples
    return p


def written(name, left, args, packet, room, why):
    """A packet, or the number of its refusal, over so many octets of 0xee; a refusal is tried for what it leaves, too."""
    given = [0xee] * room
    refused = f'r:{packet}' if isinstance(packet, int) else 'r:15' if room < len(packet) else None
    line(name, [*map(str, args), word(given)], refused or word(packet + given[len(packet):]), f'{why}, {room} octets')
    if refused:
        line(left, [*map(str, args), word(given)], word(given), f'{why}, {room} octets')


def sent(count, many, first, step, place, value, room, why):
    samples = [signed(first + i * step, 24) for i in range(many)]
    samples = [value if i == place else x for i, x in enumerate(samples)]
    fits = many == SAMPLES and all(LEAST <= x <= MOST for x in samples)
    args = count, many, first % 2**24, step % 2**24, place, f'0x{value % U32:08x}'
    written('iq_datagram', 'datagram_left', args, datagram(count, samples) if fits else 21, room, why)


def datagrams(r):
    title('iq_datagram: the count; how many samples there are, the first, and the step from each to the next, modulo 2^24;')
    print(f'''# a place with another sample, and that one by its 32 bits ({NO_PLACE} is past the samples); over octets of 0xee.
# datagram_left: what a refusal leaves''')
    for room in [0, 16, 1443, 1444, 1445]:
        sent(U32 - 1, SAMPLES, 1, 3, NO_PLACE, 0, room, 'room')
    title('iq_datagram: the ends of the range at the first and the last place, all 0, and all -1')
    for place in [0, SAMPLES - 1]:
        for value in [LEAST, MOST]:
            sent(1, SAMPLES, 0, 0, place, value, DATAGRAM, f'{value} at {place}')
    for value in [0, -1]:
        sent(0, SAMPLES, value, 0, NO_PLACE, 0, DATAGRAM, f'all {value}')
    title('iq_datagram: a sample past the range, which is told before the room')
    for value in [LEAST - 1, MOST + 1, -2**31, 2**31 - 1, -2**24, 2**24]:
        for place in [0, 1, 238, SAMPLES - 1]:
            sent(1, SAMPLES, 0, 0, place, value, 60, f'{value} at {place}')
    for place in [0, SAMPLES - 1]:
        sent(1, SAMPLES, 5, 7, place, MOST + 1, DATAGRAM, f'{MOST + 1} at {place}')
    title('iq_datagram: how many samples')
    for many in [0, 1, 238, 475, 477, 512]:
        sent(1, many, 0, 0, NO_PLACE, 0, 60, f'{many} samples')
    for many in [475, 477]:
        sent(1, many, 5, 7, NO_PLACE, 0, DATAGRAM, f'{many} samples')
    sent(1, SAMPLES, 0, 0, SAMPLES, MOST + 1, 1443, 'past the samples')
    title('iq_datagram: any samples')
    for _ in range(24):
        given = r.getrandbits(32), SAMPLES, r.getrandbits(24), r.getrandbits(24), r.randrange(SAMPLES), r.randint(LEAST, MOST)
        sent(*given, r.randint(DATAGRAM, DATAGRAM + 3), 'any')


# Status packets and discovery replies.

def statuses():
    title('status_packet: the overload bit, over octets of 0xee. status_left: what a refusal leaves')
    for bit in [0, 1]:
        for room in [0, 1, 5, 6, 59, 60, 61, 64]:
            written('status_packet', 'status_left', [bit], put([0] * 60, 5, 1, bit), room, f'bit {bit}')


def replied(protocol, status, board, firmware, receivers, mac, room, why):
    p = 21
    if protocol == 2:
        p = [0] * 4 + [status, *mac.to_bytes(6, 'big'), board, 0, firmware] + [0] * 6 + [receivers] + [0] * 39
        assert parsed(p) == [2, status, board, firmware, receivers, *mac.to_bytes(6, 'big')]
    args = protocol, status, board, firmware, receivers, f'0x{mac:012x}'
    written('discovery_reply', 'reply_left', args, p, room, why)


def replies(r):
    title('discovery_reply: protocol (0 is no reply), status, board, firmware, receivers and address, over octets of 0xee.')
    print('# reply_left: what a refusal leaves')
    mac = 0x010203040506
    for status in [2, 3]:
        for room in [0, 20, 21, 59, 60, 61, 64]:
            replied(2, status, 10, 21, 7, mac, room, f'status {status}')
    title('discovery_reply: no reply of Protocol 2, which is told before the room')
    for protocol in [0, 1]:
        for status in [2, 3]:
            for room in [0, 59, 60, 64]:
                replied(protocol, status, 10, 21, 0, mac, room, f'protocol {protocol}')
        replied(protocol, 2, 0, 0, 0, 0, 60, f'protocol {protocol}, all 0')
    title('discovery_reply: octets of 0 and 255')
    for status in [2, 3]:
        for v in [0, 255]:
            replied(2, status, v, v, v, v * 0x010101010101, 60, f'all {v}')
            for i in range(3):
                replied(2, status, *[v if k == i else 255 - v for k in range(3)], mac, 60, f'field {i} {v}')
    for i in range(6):
        replied(2, 2, 0, 0, 0, 255 << 8 * i, 60, 'one octet of the address')
    title('discovery_reply: any')
    for _ in range(24):
        fields = [r.getrandbits(8) for _ in range(3)]
        replied(2, r.choice([2, 3]), *fields, r.getrandbits(48), r.randint(60, 64), 'any')


def main():
    print('''
# Cases of the practice radio, made by tools/radio_cases.py (`make vectors`) from document 01 and request 2026-02.''')
    r = random.Random(1)
    lengths()
    fixed()
    values()
    free()
    round_trips(r)
    bursts(r)
    datagrams(r)
    statuses()
    replies(r)


if __name__ == '__main__':
    main()
