"""The lines of a text of cases."""

SEEN = set()


def pattern(b):
    return f'0x{b:016x}'


def line(name, args, expected, why=''):
    text = f'{" ".join([name, *args])} = {expected}'
    if text not in SEEN:
        SEEN.add(text)
        print(text + (f'  # {why}' if why else ''))


def title(text):
    print(f'\n# {text}')


# Octets, as a list of numbers.

def word(p):
    return 'x:' + ''.join(f'{v:02x}' for v in p)


def put(p, at, wide, v):
    return p[:at] + [v // 256 ** (wide - 1 - i) % 256 for i in range(wide)] + p[at + wide:]
