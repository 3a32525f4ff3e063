#!/usr/bin/env python3
"""Prints the cases of the attenuator that the program `cases` runs; `make vectors` puts them after those of wire.

A case is a list of calls on one controller. What each call is to tell is worked out from the calls before it, by document
01 (The session, Attenuator; Edges) and the Rust's text in attenuator.rs: the overload reports of the run are walked back to
its start, and the quiet time is since the last of what restarts it. No state of the Rust's or of the code tried here is kept.
"""
import random

from lines import line, put, title, word

SECOND = 10**9
HOLD, TRIP, RELEASE = SECOND // 2, 2 * SECOND, 600 * SECOND
USUAL = HOLD, TRIP, RELEASE
STEP, MOST_DB = 6, 30
MOST = 2**64 - 1
CLEAR, OVERLOAD, TICK = range(3)
NO_STEP, UP, DOWN = range(3)


def lasted(now, then):
    return max(now - then, 0)


def run_start(reports, hold):
    """The first reading of the run that the last report is in, or in it that of the last step up."""
    i = len(reports) - 1
    while i > 0 and not reports[i][1] and lasted(reports[i][0], reports[i - 1][0]) <= hold:
        i -= 1
    return reports[i][0]


def told(db, times, opening, calls):
    """Of each call: the step, the level that it left and the one that it led to, and the level after the call."""
    hold, trip, release = times
    level, reports, restarts, out = min(db, MOST_DB), [], [opening], []
    for kind, now in calls:
        before, step = level, NO_STEP
        if kind == OVERLOAD:
            reports.append((now, False))
            restarts.append(now)
            if level < MOST_DB and lasted(now, run_start(reports, hold)) >= trip:
                step, level = UP, min(level + STEP, MOST_DB)
                reports[-1] = now, True
        elif kind == TICK and level > 0 and lasted(now, restarts[-1]) >= release:
            step, level = DOWN, max(level - STEP, 0)
            restarts.append(now)
        out.append((step, before, level, level) if step else (NO_STEP, 0, 0, level))
    return out


def show(why, calls, db=0, times=USUAL, opening=0):
    """The front of each call's octets is overwritten by what it tells."""
    given, expected = [], []
    for (kind, now), tells in zip(calls, told(db, times, opening, calls)):
        octets = put([kind] + [0] * 8, 1, 8, now)
        given += octets
        expected += [*tells, *octets[len(tells):]]
    line('attenuator', [*map(str, [db, *times, opening]), word(given)], word(expected), why)


def overloads(*readings):
    return [(OVERLOAD, t) for t in readings]


def ticks(*readings):
    return [(TICK, t) for t in readings]


def clears(*readings):
    return [(CLEAR, t) for t in readings]


def steps(db, times, opening, calls):
    return [t[0] for t in told(db, times, opening, calls)]


def usual_times():
    title("the attenuator's usual times")
    for name, value in [('hold', HOLD), ('trip', TRIP), ('release', RELEASE)]:
        line(f'timing_{name}', [], value)


START = 7 * SECOND


def runs():
    title('attenuator: level, hold, trip, release, opening, and calls of a kind (0 clear, 1 overload, 2 tick) and a reading')
    show('no calls', [])
    on = [START + HOLD * k for k in range(5)]
    late = [START] + [t + 1 for t in on[1:]]
    assert steps(0, USUAL, 0, overloads(*on)) == [NO_STEP] * 4 + [UP]
    assert UP not in steps(0, USUAL, 0, overloads(*late))
    show('reports as far apart as the hold are one run', overloads(*on))
    show('one more starts anew: the run is 2 s old later', overloads(*late, late[1] + TRIP - 1, late[1] + TRIP))
    show('a trip at 2 s, and not one less', overloads(*on[:4], on[4] - 1, on[4]))
    show('from a report past 2 s', overloads(*on[:4], on[3] + HOLD - 1, on[4] + HOLD - 1))
    again = [START + HOLD * k for k in range(8)]
    show('a step up restarts the run', overloads(*again, START + 2 * TRIP - 1, START + 2 * TRIP))
    most = overloads(*[START + HOLD * k for k in range(26)])
    assert told(0, USUAL, 0, most)[-1] == (NO_STEP, 0, 0, MOST_DB) and steps(0, USUAL, 0, most).count(UP) == 5
    show('up to 30 dB, and no further', most)
    show('a report after the hold, then a run', overloads(START, START + TRIP, *[START + TRIP + HOLD * k for k in range(1, 5)]))


def clear_reports():
    title('attenuator: clear reports neither end a run, nor keep it, nor restart the quiet time')
    beside = [((OVERLOAD, CLEAR)[i % 2], START + HOLD // 2 * i) for i in range(9)]
    show('between the reports of a run', beside)
    show('they keep no run', [*overloads(START), *clears(START + HOLD), *overloads(START + 2 * HOLD, START + TRIP)])
    show('nor the quiet time', [*clears(RELEASE - 1), *ticks(RELEASE)], db=12)
    show('at any level', clears(0, START, MOST), db=30)


def releases():
    title('attenuator: the quiet time is since the opening, the last overload or the last change, whichever came last')
    show('since the opening', ticks(START, START + RELEASE - 1, START + RELEASE), db=30, opening=START)
    over = START + RELEASE - 1
    show('since an overload', [*overloads(over), *ticks(START + RELEASE, over + RELEASE - 1, over + RELEASE)], 12, opening=START)
    down = START + RELEASE + 5
    show('since a step down', ticks(down, START + 2 * RELEASE, down + RELEASE - 1, down + RELEASE), 18, opening=START)
    up = [START + HOLD * k for k in range(5)]
    show('since a step up', [*overloads(*up), *ticks(up[0] + RELEASE, up[4] + RELEASE - 1, up[4] + RELEASE)])
    show('an overload at 30 dB restarts it', [*overloads(START), *ticks(RELEASE, START + RELEASE - 1, START + RELEASE)], 30)
    for db in [0, 1, 3, 5, 6, 7]:
        show(f'down from {db} dB', ticks(*[RELEASE * k for k in range(1, 4)]), db)


QUICK = 10, 10, 20


def levels():
    title('attenuator: the level that a controller is given, at most 30, and a step from it')
    for db in [0, 6, 24, 25, 29, 30, 31, 255]:
        show(f'{db} dB', [*clears(100), *overloads(100, 109, 110, 119, 120), *ticks(139, 140, 160)], db, QUICK, 100)


def parted():
    title('attenuator: what a step leaves alone')
    long = 1000, 100, 10
    show('a step down leaves the run', [*overloads(0), *ticks(10), *overloads(99, 100)], 12, long)
    at_most = [*overloads(0, 5, 120), *ticks(130), *overloads(131, 231)]
    show('a run goes on at 30 dB, and trips below it', at_most, 30, long)
    show('a tick that takes no step leaves the run', [*overloads(0), *ticks(9, 9), *overloads(99, 100)], 12, long)
    show('a step up leaves the hold', overloads(0, 1000, 1001, 1100, 2100, 2200, 3201, 3300), 0, long)


def falling():
    title('attenuator: readings that fall, whose differences are 0')
    short = 100, 200, 300
    show('the run goes on', overloads(1000, 900, 1000, 1099, 1199, 1200), 0, short)
    show('the hold is since the last report', overloads(1000, 900, 1001, 1200), 0, short)
    show('before the run', overloads(1000, 500, 1000, 600, 700, 800), 0, short)
    show('the quiet time is since the last report', [*overloads(1000, 900), *ticks(0, 1199, 1200)], 6, short, 2000)
    show('before the opening', ticks(0, 1999, 2000, 2299, 2300), 6, short, 2000)
    show('a step down before the last one', ticks(2300, 2000, 2599, 2600), 12, short, 2000)
    show('a step up before the last one', overloads(0, 100, 200, 150, 250, 349, 350), 0, short)


def extremes():
    title('attenuator: times of 0 and of the largest number')
    show('hold 0: equal and falling readings alone', overloads(50, 50, 40, 41, 41, 51), 0, (0, 10, 100))
    show('hold 0, trip 0', overloads(50, 50, 51, 40), 0, (0, 0, 100))
    show('trip 0: a step at each report', [*overloads(*[5] * 6), *clears(5)], 2, (10, 0, 100))
    show('release 0: a step at each tick', [*ticks(*[5] * 6), *overloads(5)], 29, (10, 10, 0), 5)
    show('release 0, at readings before the opening', ticks(4, 3, 2), 13, (10, 10, 0), 5)
    show('all 0', [*overloads(1, 0), *ticks(0, 0, 0), *overloads(0), *ticks(MOST)], 3, (0, 0, 0), MOST)
    show('the largest hold', overloads(0, MOST, 0, MOST - 1, MOST), 0, (MOST, MOST, MOST))
    show('one less', overloads(0, MOST, MOST), 0, (MOST - 1, 1, MOST))
    show('the largest trip', overloads(0, MOST - 1, MOST), 0, (MOST, MOST, MOST))
    show('the largest release', ticks(MOST - 1, MOST), 6, (0, 0, MOST))
    show('the same from 1', [*ticks(MOST), *overloads(0), *ticks(MOST - 1, MOST)], 6, (0, 1, MOST), 1)
    title('attenuator: readings up to the largest')
    top = [MOST - TRIP + HOLD * k for k in range(5)]
    show('a trip at the largest', overloads(*top[:4], MOST - 1, MOST), opening=MOST - TRIP)
    show('a release there', ticks(MOST - 1, MOST, MOST), 6, opening=MOST - RELEASE)
    show('opened there', [*overloads(MOST, MOST), *ticks(MOST, 0), *overloads(0)], 30, opening=MOST)


def drawn(r):
    """Short times, so that every edge is met; readings that mostly rise, by little; overloads for a while, then ticks."""
    times = hold, _, release = r.choice([0, 2, 3, 4, 5, 6]), r.randint(0, 7), r.randint(0, 12)
    opening = now = r.choice([0, 50, 2**32 - 20, MOST - 60])
    calls, usual = [], OVERLOAD
    for _ in range(r.choice([8, 8, 10, 12, 14, 40])):
        now += r.choice([0, 1, 1, 1, 2, 2, 2, hold, hold, hold, -1, r.choice([hold + 1, release, -4])])
        now = min(max(now, 0), MOST)
        usual = r.choice([usual] * 9 + [OVERLOAD, TICK])
        calls.append((r.choice([usual] * 4 + [CLEAR, OVERLOAD, TICK]), now))
    return r.choice([0, 0, 3, 6, 12, 20, 24, 30, 31]), times, opening, calls


def random_lists(r):
    title('attenuator: random lists')
    lists = [drawn(r) for _ in range(30)]
    seen = [s for given in lists for s in steps(*given)]
    assert min(seen.count(s) for s in [NO_STEP, UP, DOWN]) > 40
    for db, times, opening, calls in lists:
        show(f'{len(calls)} calls', calls, db, times, opening)


def main():
    print('''
# Cases of the attenuator, made by tools/attenuator_cases.py (`make vectors`) from document 01 and the Rust's text. A call is
# nine octets, of which it overwrites the first four: 0 no step, 1 up, 2 down; from; to; the level.''')
    usual_times()
    runs()
    clear_reports()
    releases()
    levels()
    parted()
    falling()
    extremes()
    random_lists(random.Random(9))


if __name__ == '__main__':
    main()
