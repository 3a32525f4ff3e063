"""The rates that are accepted, by request 2026-03: 48 kHz, doubled none to MOST_DOUBLINGS times."""

MOST_DOUBLINGS = 3


def doubled(n, times):
    """n, and n doubled once and so on, up to so many times."""
    return [n << k for k in range(times + 1)]


KHZ = doubled(48, MOST_DOUBLINGS)
HZ = doubled(48000, MOST_DOUBLINGS)
