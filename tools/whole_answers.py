#!/usr/bin/env python3
"""Makes what the program `whole` is run on, and what it must write, from lists/ and the Rust's answers to them:

    python3 -B tools/whole_answers.py ANSWERS FOLDER

FOLDER/stdin has the sessions of lists/*.calls, without their `state` and `radio` lines. FOLDER/stdout has their answers
from ANSWERS, and behind each session's account a line of what is read off it: rate and centre as its `open` has them, the
attenuation as its last `state` told it. A session is left out where its attenuation may have moved after that; LEFT_OUT
says how many there are.
"""
import struct
import sys
from pathlib import Path

LISTS = Path(__file__).resolve().parent.parent / 'lists'
LEFT_OUT = 5

# The lines that are no calls.
ASKS = {'state', 'radio'}

# The calls that can't move the attenuation.
STILL = {'begin', 'take', 'missing', 'discontinuity', 'stalled', 'close'}


class Session:
    def __init__(self, text, words):
        self.text = text
        self.settings = dict(word.split('=', 1) for word in words[1:])
        self.answers = []
        # of a session just opened; None where it is not known
        self.level = '0'


def words_of(line):
    return line.split('#')[0].split()


def sessions(path):
    """The sessions of a list, each with its lines and the comment above it."""
    found, comment = [], []
    for line in path.read_text().splitlines():
        words = words_of(line)
        if not words:
            comment.append(line)
            continue
        if words[0] == 'open':
            found.append(Session([], words))
        found[-1].text += [*comment, line]
        comment = []
    return found


def follow(session, words, answer):
    """A call and its answer: what is known of the attenuation then."""
    if words[0] == 'state':
        told = answer.split(' attenuation ')[1].split()[0]
        session.level = '0' if told == 'off' else told
    elif session.settings.get('attenuation') == 'on' and words[0] not in STILL | ASKS:
        session.level = None


def give(session, answers):
    """Takes the answers of a session off the front: an answer a call, and the account where it was opened."""
    for line in session.text:
        words = words_of(line)
        if not words:
            continue
        answer = next(answers)
        if words[0] != 'open':
            follow(session, words, answer)
        if words[0] not in ASKS:
            session.answers.append(answer)
    if session.answers[0] != 'opened':
        return
    while not session.answers[-1].startswith('counters '):
        session.answers.append(next(answers))


def hertz(word):
    value = struct.unpack('>d', bytes.fromhex(word[5:]))[0] if word.startswith('bits:') else float(word)
    assert value == int(value), word
    return int(value)


def reads(session):
    """What is read off a session that was opened."""
    if session.answers[0] != 'opened':
        return []
    rate = hertz(session.settings.get('rate', '48000'))
    centre = hertz(session.settings.get('centre', '7000000'))
    return [f'reads rate {rate} centre {centre} attenuation {session.level}']


def main(answers, folder):
    given, told, left_out = [], [], []
    for path in sorted(LISTS.glob('*.calls')):
        lines = iter((answers / f'{path.stem}.answers').read_text().splitlines())
        for session in sessions(path):
            give(session, lines)
            if session.level is None:
                left_out.append(path.stem)
                continue
            given += [line for line in session.text if not ASKS.intersection(words_of(line)[:1])]
            told += session.answers + reads(session)
        assert next(lines, None) is None, f'{path.stem}: more answers than calls'
    assert len(left_out) == LEFT_OUT, f'sessions are left out of {left_out}, and not {LEFT_OUT}'
    (folder / 'stdin').write_text('\n'.join(given) + '\n')
    (folder / 'stdout').write_text('\n'.join(told) + '\n')


main(Path(sys.argv[1]), Path(sys.argv[2]))
