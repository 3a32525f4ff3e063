#!/usr/bin/env python3
"""Prints the cases that are wrong on purpose; `make vectors` puts them last.

A program that says "as expected" of whatever it is given would pass with all the others. So there are some of each kind of
answer of which it must tell what came. That stands behind each, and is what the program's stored output has; it was worked
out by hand from document 01, as the other expected values are.
"""

KHZ = 'rate_khz 0x40e7700000000000'  # of 48000 Hz: 48
SECOND = 'seconds 1000000000'
REFUSED = 'parse_reply x:'
ABSENT = 'adc_overload_bits x:'
STALL = 'stall_calls 4500000000 x:0001'  # a delivery, then a report
RADIO = '00' * 38  # a new radio
TRANSMIT = '000305000401'  # octet 3 is 5 and octet 4 is 1: count 5
READ = f'read_command 2 60 x:{RADIO}{TRANSMIT}'
KEPT = RADIO[:30] + '05' + RADIO[32:]
BIT = 'ee' * 60
STATUS = '0000000000' + '01' + '00' * 54

WRONG = [
    ('numbers', [
        (f'{KHZ} = 49', 'gave 48'), (f'{KHZ} = 480', 'gave 48'), (f'{KHZ} = {2**64 + 48}', 'gave 48'),
        (f'{KHZ} = 48x', 'gave 48'), (f'{KHZ} = r:48', 'gave 48'), (f'{KHZ} = x:30', 'gave 48'), (f'{KHZ} = none', 'gave 48'),
    ]),
    ('doubles, by their bits', [
        (f'{SECOND} = 0x3ff0000000000001', 'gave 0x3ff0000000000000'),
        ('round 0x8000000000000000 = 0x0000000000000000', 'gave 0x8000000000000000'),
    ]),
    ('refusals', [
        (f'{REFUSED} = r:17', 'gave r:18'), (f'{REFUSED} = r:1', 'gave r:18'), (f'{REFUSED} = r:', 'gave r:18'),
        (f'{REFUSED} = 18', 'gave r:18'), (f'{REFUSED} = x:', 'gave r:18'), (f'{REFUSED} = none', 'gave r:18'),
    ]),
    ('what has no number in 01', [
        (f'{ABSENT} = 0', 'gave none'), (f'{ABSENT} = r:7', 'gave none'), (f'{ABSENT} = x:', 'gave none'),
        (f'{ABSENT} = nothing', 'gave none'),
    ]),
    ('octets', [
        (f'{STALL} = x:0200', 'gave x:0201'), (f'{STALL} = x:0101', 'gave x:0201'), (f'{STALL} = x:02', 'gave x:0201'),
        (f'{STALL} = x:020100', 'gave x:0201'), (f'{STALL} = x:', 'gave x:0201'), (f'{STALL} = 0201', 'gave x:0201'),
    ]),
    ('what a radio keeps, its refusals, and what it writes', [
        (f'{READ} = x:{RADIO}{TRANSMIT}', f'gave x:{KEPT}{TRANSMIT}'), (f'{READ} = r:20', f'gave x:{KEPT}{TRANSMIT}'),
        (f'read_command 2 61 x:{RADIO}{TRANSMIT} = r:21', 'gave r:20'),
        (f'read_command 2 60 x:{RADIO}000402 = r:20', 'gave r:21'),
        (f'command_left 2 60 x:{RADIO}000402 = r:21', f'gave x:{RADIO}000402'),
        (f'status_packet 1 x:{BIT} = x:{BIT}', f'gave x:{STATUS}'), (f'status_packet 1 x:{BIT} = r:15', f'gave x:{STATUS}'),
        (f'status_packet 1 x:{BIT} = x:{STATUS[:10]}03{STATUS[12:]}', f'gave x:{STATUS}'),
    ]),
    ('a function that there is not, and one that is given something else', [
        ('no_such_function 1 = 1', 'gave nothing'), ('no_such_function 1 = nothing', 'gave nothing'),
        (f'{KHZ} 1 = 48', 'gave nothing'), (f'{KHZ} x:00 = 48', 'gave nothing'), ('rate_khz = 48', 'gave nothing'),
    ]),
    ('no case', [
        (KHZ, 'not understood'), (f'{KHZ} =', 'not understood'), (f'{KHZ} = 48 48', 'not understood'),
    ]),
]


def main():
    print('''
# Wrong on purpose, made by tools/wrong_cases.py (`make vectors`): what must be told of each stands behind it.''')
    for kind, lines in WRONG:
        print(f'\n# {kind}')
        for case, told in lines:
            print(f'{case}  # wrong: {told}')


if __name__ == '__main__':
    main()
