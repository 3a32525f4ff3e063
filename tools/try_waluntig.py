#!/usr/bin/env python3
"""Tries the program as a person meets it: what it writes, what it tells on standard error, and its status.

    python3 -B tools/try_waluntig.py ./waluntig

Every expected text is of lists/, whose answers are the Rust's, or stands here. What can't be tried where it is run is left out,
and told.
"""
import errno
import os
import re
import select
import signal
import subprocess
import sys
import tempfile
import time
import tty
from pathlib import Path
from typing import NamedTuple

LISTS = Path(__file__).resolve().parent.parent / 'lists'
# Seconds that a trial may take; that the program may take to be there at all; and that an answer may take.
TIME, FIRST_TIME, ANSWER_TIME = 30, 600, 10
# After so many trials that have not ended in time the rest is left out.
MOST_LATE = 3
FINE, WRONG_LIST, FAILED = 0, 1, 2

# The status of one that has not ended in time.
LATE = 'none in time'

# What standard error may hold: nothing, anything, or something.
NOTHING, ANYTHING, SOMETHING = r'\A\Z', '', r'\S'

UNREADABLE = b"error line 1: the list can't be read on\n"


class Came(NamedTuple):
    out: bytes
    err: str
    status: object


def contains(text):
    return re.escape(text)


def one_line_with(text):
    return rf'\A[^\n]*{re.escape(text)}[^\n]*\n?\Z'


def finish(process, given=None, seconds=TIME):
    """What came of a process. One that has not ended in time is ended, with all that it started."""
    try:
        out, err = process.communicate(given, timeout=seconds)
        status = process.returncode
    except subprocess.TimeoutExpired:
        os.killpg(process.pid, signal.SIGKILL)
        out, err = process.communicate()
        status = LATE
    return Came(out or b'', (err or b'').decode(errors='replace'), status)


def about(expected, came):
    """Both texts from a little before they differ."""
    same = next((i for i, (a, b) in enumerate(zip(expected, came)) if a != b), min(len(expected), len(came)))
    start = max(same - 60, 0)
    return [f'{".." if start else ""}{text[start:same + 200]!r}' for text in [expected, came]]


class Trials:
    def __init__(self, program, folder):
        self.program, self.folder = os.path.abspath(program), Path(folder)
        self.count = self.bad = self.late = 0

    def start(self, words, before=(), **how):
        pipes = {name: how.get(name, subprocess.PIPE) for name in ['stdin', 'stdout', 'stderr']}
        env = dict(os.environ, LC_ALL='C')
        # a group of its own, so that what hangs can be ended
        return subprocess.Popen([*before, self.program, *words], env=env, start_new_session=True, **(how | pipes))

    def run(self, words, given=b'', **how):
        """Given these octets on a pipe, unless `how` says what standard input is."""
        return finish(self.start(words, **how), None if 'stdin' in how else given)

    def file(self, octets):
        path = self.folder / 'list.calls'
        path.write_bytes(octets)
        return str(path)

    def expect(self, name, came, out, status, err):
        """Exactly this output and status, and standard error as the expression says."""
        self.count += 1
        if (came.out, came.status) == (out, status) and re.search(err, came.err):
            return
        self.bad += 1
        self.late += came.status == LATE
        print(f'{name}: not as it should be')
        if came.out != out:
            print('  expected output: {}\n  came:            {}'.format(*about(out, came.out)))
        if came.status != status:
            print(f'  expected status: {status}\n  came:            {came.status}')
        if not re.search(err, came.err):
            print(f'  expected on standard error: {err}\n  came: {came.err!r}')

    def left_out(self, name, why):
        print(f'left out: {name}: {why}')


# Lists and their answers.

def calls_of(name):
    return (LISTS / f'{name}.calls').read_bytes()


def answers_of(name):
    return (LISTS / f'{name}.answers').read_bytes()


def has_call(line):
    return bool(line.split(b'#')[0].split())


def all_lists():
    """Each begins with open, so that one after the other they are a list: the answers are more than 64 KiB."""
    names = sorted(path.stem for path in LISTS.glob('*.calls'))
    return b''.join(map(calls_of, names)), b''.join(map(answers_of, names))


def first_part():
    """The lines of the list first up to a Take, and their answers."""
    lines = calls_of('first').splitlines(keepends=True)
    end = next(i for i, line in enumerate(lines) if line.startswith(b'take 40ms 476')) + 1
    answers = answers_of('first').splitlines(keepends=True)
    return lines[:end], b''.join(answers[:sum(map(has_call, lines[:end]))])


SMALL = b'''# the numbers wrap in a gap
open
begin 1ms
pass 1ms
iq 5ms 5ms 4294967294
take 5ms 476

begin 6ms
pass 6ms
iq 30ms 30ms 1
take 30ms 476
missing
'''
SMALL_ANSWERS = '''2: opened
3: begun
4: sent none
5: in order 0
6: took 238 digest 5ef7cce3
8: begun
9: sent none
10: gap 476
gap stretch 1 after 4294967294 datagrams 2 samples 476
11: took 238 digest 55f1cce3
12: missing 476
stretch 1 at 5000000 last 30000000 first 4294967294 highest 4294967297 samples 476 missing 476 restart 0
total stretches 1 samples 476 missing 476 restart 0 handed 476 waiting 0
counters dropped 2 gaps 1 malformed 0 loss 476
'''


def small_answers(gaps, numbered):
    lines = SMALL_ANSWERS.splitlines(keepends=True)
    lines = [line for line in lines if gaps or not line.startswith('gap stretch')]
    return ''.join(line if numbered else re.sub(r'^\d+: ', '', line) for line in lines).encode()


# Reading that fails.

def broken_input(octets):
    """Gives these octets, and then fails: a terminal whose other side is closed."""
    master, slave = os.openpty()
    tty.setraw(slave)
    os.write(slave, octets)
    os.close(slave)
    return master


def fails_after(octets):
    """Whether such an input gives these octets and then fails, as on Linux."""
    came = b''
    try:
        master = broken_input(octets)
        while len(came) <= len(octets):
            came += os.read(master, 4096) or b'its end'
    except OSError as error:
        return came == octets and error.errno == errno.EIO
    return False


def try_reads_that_fail_half_way(t):
    lines, answers = first_part()
    if not fails_after(b''.join(lines)):
        return t.left_out('a read that fails half way', 'a terminal whose other side is closed gives no error here')
    told = answers + b"error line %d: the list can't be read on\n" % (len(lines) + 1)
    cases = [
        ('after a line', b''.join(lines), told),
        ('after half a line', b''.join(lines) + b'begin 41m', told),
        ('after half a comment', b''.join(lines) + b'# the radio', told),
        ('at once', b'', UNREADABLE),
    ]
    for name, given, out in cases:
        for words in [['calls'], ['calls', '-']]:
            master = broken_input(given)
            came = t.run(words, stdin=master)
            os.close(master)
            err = contains('standard input: Input/output error')
            t.expect(f'a read that fails {name}, {" ".join(words)}', came, out, FAILED, err)


def try_files_that_fail(t):
    missing, long = str(t.folder / 'missing.calls'), 'n' * 5000
    cases = [
        ('a directory', str(t.folder), contains(f'{t.folder}: Is a directory')),
        ('no such file', missing, contains(f'{missing}: No such file or directory')),
        ('an empty name', '', '(?i)empty'),
        ('a name of 5000 octets', long, contains('File name too long')),
    ]
    for name, file, err in cases:
        came = t.run(['calls', file], stdin=subprocess.DEVNULL)
        t.expect(name, came, UNREADABLE, FAILED, err)


def try_a_file_without_permission(t):
    if os.geteuid() == 0:
        return t.left_out('a file without permission', 'root may read any')
    file = t.file(b'open\n')
    os.chmod(file, 0)
    came = t.run(['calls', file], stdin=subprocess.DEVNULL)
    os.remove(file)
    t.expect('a file without permission', came, UNREADABLE, FAILED, contains(f'{file}: Permission denied'))


def with_closed(redirection):
    return ['sh', '-c', f'exec "$@" {redirection}', 'sh']


def try_closed_input(t):
    for words in [['calls'], ['calls', '-']]:
        came = t.run(words, before=with_closed('<&-'), stdin=subprocess.DEVNULL)
        err = contains('standard input: Bad file descriptor')
        t.expect(f'closed standard input, {" ".join(words)}', came, UNREADABLE, FAILED, err)
    came = t.run(['calls', t.file(SMALL)], before=with_closed('<&-'), stdin=subprocess.DEVNULL)
    t.expect('closed standard input and a file', came, small_answers(False, False), FINE, NOTHING)


# Writing that fails.

def short_and_long(t):
    yield 'a short list', t.file(SMALL)
    yield 'a long list', t.file(all_lists()[0])


def try_closed_output(t):
    for name, file in short_and_long(t):
        came = t.run(['calls', file], before=with_closed('>&-'))
        t.expect(f'closed standard output, {name}', came, b'', FAILED, one_line_with('standard output'))


def try_full_output(t):
    if not os.path.exists('/dev/full'):
        return t.left_out('a full standard output', 'there is no /dev/full')
    for name, file in short_and_long(t):
        with open('/dev/full', 'wb') as full:
            came = t.run(['calls', file], stdout=full)
        err = one_line_with('standard output: No space left on device')
        t.expect(f'a full standard output, {name}', came, b'', FAILED, err)


def read_line(fd, seconds=ANSWER_TIME):
    """A line, or what has come of it until no more comes in time."""
    line, end = b'', time.monotonic() + seconds
    while not line.endswith(b'\n'):
        if not select.select([fd], [], [], max(end - time.monotonic(), 0))[0]:
            break
        octet = os.read(fd, 1)
        if not octet:
            break
        line += octet
    return line


def try_a_reader_that_goes_away(t):
    text, answers = all_lists()
    file = t.file(text * 10)
    assert len(answers) * 10 > 1 << 20
    # with the signal of a broken pipe as a shell leaves it, and ignored
    for name, restored in [('', True), (', its signal ignored', False)]:
        process = t.start(['calls', file], stdin=subprocess.DEVNULL, restore_signals=restored)
        line = read_line(process.stdout.fileno(), TIME)
        process.stdout.close()
        process.stdout = None
        came = finish(process)._replace(out=line)
        err = one_line_with('standard output: Broken pipe')
        t.expect(f'a reader that goes away{name}', came, answers.splitlines(keepends=True)[0], FAILED, err)


# The text of a list.

def try_line_ends(t):
    text, answers = calls_of('first'), answers_of('first')
    cases = [
        ('lines that end with a carriage return and a newline', text.replace(b'\n', b'\r\n')),
        ('no last newline', text.rstrip(b'\n')),
        ('no last newline, with a carriage return', text.replace(b'\n', b'\r\n').rstrip(b'\n')),
        ('empty lines at the end', text + b'\n\r\n\n'),
    ]
    for name, given in cases:
        t.expect(name, t.run(['calls', t.file(given)]), answers, FINE, NOTHING)
        t.expect(f'{name}, on a pipe', t.run(['calls'], given), answers, FINE, NOTHING)
    for name, given in [('an empty list', b''), ('comments alone', b'# open\n\n\t# begin 1\r\n#'), ('newlines alone', b'\n\n')]:
        t.expect(name, t.run(['calls', t.file(given)]), b'', FINE, NOTHING)
        t.expect(f'{name}, on a pipe', t.run(['calls'], given), b'', FINE, NOTHING)


def try_wrong_octets(t):
    mark = b'\xef\xbb\xbf'
    cases = [
        ('a NUL', b'\x00\n', b"error line 1: expected a call, found '\\x00'\n"),
        ('a NUL behind a name', b'open\x00\n', b"error line 1: expected a call, found 'open\\x00'\n"),
        ('a byte order mark', mark + b'open\n', b'error line 1: expected a call, found a byte order mark\n'),
        ('a byte order mark alone', mark, b'error line 1: expected a call, found a byte order mark\n'),
        ('an octet that is no UTF-8', b'open\nbegin \x80\n', b"opened\nerror line 2: expected a reading, found '\\x80'\n"),
        ('a backslash', b'open\nbegin \\n\n', b"opened\nerror line 2: expected a reading, found '\\x5cn'\n"),
    ]
    for name, given, out in cases:
        t.expect(name, t.run(['calls', t.file(given)]), out, WRONG_LIST, ANYTHING)
    came = t.run(['calls', t.file(b'# \x00\x80\xff' + mark + b'\n' + SMALL)])
    t.expect('any octets in a comment', came, small_answers(False, False), FINE, NOTHING)


def try_long_lines(t):
    answers = small_answers(False, False)
    too_long = b'error line %d: expected a shorter line, found more than 100000 octets\n'
    for octets in [16384, 16385, 65536, 99999, 100000]:
        comment = b'#' + b'-' * (octets - 1)
        came = t.run(['calls', t.file(comment + b'\n' + SMALL)])
        t.expect(f'a line of {octets} octets', came, answers, FINE, NOTHING)
        came = t.run(['calls', t.file(SMALL + comment)])
        t.expect(f'a last line of {octets} octets', came, answers, FINE, NOTHING)
    account = answers[answers.index(b'stretch'):]
    for octets in [100001, 300000]:
        comment = b'#' + b'-' * (octets - 1)
        came = t.run(['calls', t.file(comment + b'\n' + SMALL)])
        t.expect(f'a line of {octets} octets', came, too_long % 1, WRONG_LIST, ANYTHING)
        came = t.run(['calls', t.file(SMALL + comment)])
        out = answers.removesuffix(account) + too_long % (SMALL.count(b'\n') + 1)
        t.expect(f'a last line of {octets} octets', came, out, WRONG_LIST, ANYTHING)


def try_lists(t):
    for path in sorted(LISTS.glob('*.calls')):
        came = t.run(['calls', str(path)], stdin=subprocess.DEVNULL)
        t.expect(f'lists/{path.name}', came, answers_of(path.stem), FINE, NOTHING)
    text, answers = all_lists()
    t.expect('all lists, on a pipe', t.run(['calls'], text), answers, FINE, NOTHING)


def try_wrong_lists(t):
    cases = [
        ('a word that is no call', b'opne\n', b"error line 1: expected a call, found 'opne'\n"),
        ('no session', b'begin 1\n', b"error line 1: expected open, found 'begin'\n"),
        ('a value', b'open rate=48000.0\n', b"error line 1: expected a value of rate, found 'rate=48000.0'\n"),
        ('a word that is missing', b'open\nbegin', b'opened\nerror line 2: expected a reading, found the end of the line\n'),
        ('a word too many', b'open\nbegin 1 2\nstate\n', b"opened\nerror line 2: expected the end of the line, found '2'\n"),
        ('the radio of no session', b'radio\nopen\n', b"error line 1: expected open, found 'radio'\n"),
        ('a word behind radio', b'open\nradio all\n', b"opened\nerror line 2: expected the end of the line, found 'all'\n"),
    ]
    for name, given, out in cases:
        t.expect(f'a list with an error: {name}', t.run(['calls', t.file(given)]), out, WRONG_LIST, ANYTHING)
        t.expect(f'a list with an error, on a pipe: {name}', t.run(['calls'], given), out, WRONG_LIST, ANYTHING)
    came = t.run(['calls', t.file(b'open rate=1\n')])
    t.expect('settings that are refused', came, b'refused 3\n', FINE, NOTHING)


# Pipes.

def write(process, octets):
    """One that has ended reads no more: its output and status tell that."""
    try:
        os.write(process.stdin.fileno(), octets)
    except BrokenPipeError:
        pass


def write_octet_by_octet(process, octets):
    for octet in octets:
        write(process, bytes([octet]))
        time.sleep(0.0002)


def try_octet_by_octet(t):
    for name in ['first', 'gaps']:
        process = t.start(['calls'])
        write_octet_by_octet(process, calls_of(name))
        t.expect(f'{name}, an octet at a time', finish(process), answers_of(name), FINE, NOTHING)


def try_answers_at_once(t):
    """Each call is written once the one before it is answered."""
    for words in [['calls'], ['calls', '-']]:
        process, came = t.start(words), b''
        for line in calls_of('first').splitlines(keepends=True):
            write(process, line)
            if has_call(line):
                answer = read_line(process.stdout.fileno())
                came += answer
                if not answer.endswith(b'\n'):
                    came += b'(no answer in time)'
                    break
        rest = finish(process)
        rest = rest._replace(out=came + rest.out)
        t.expect(f'answers as soon as they can, {" ".join(words)}', rest, answers_of('first'), FINE, NOTHING)


# Words.

def try_where_the_list_stands(t):
    file, text, answers = str(LISTS / 'gaps.calls'), calls_of('gaps'), answers_of('gaps')
    t.expect('a file', t.run(['calls', file]), answers, FINE, NOTHING)
    t.expect('-', t.run(['calls', '-'], text), answers, FINE, NOTHING)
    t.expect('standard input', t.run(['calls'], text), answers, FINE, NOTHING)
    with open(file, 'rb') as opened:
        t.expect('a file as standard input', t.run(['calls'], stdin=opened), answers, FINE, NOTHING)
    spaced = t.folder / 'a list; of $calls.calls'
    spaced.write_bytes(text)
    t.expect('a name with spaces', t.run(['calls', str(spaced)]), answers, FINE, NOTHING)
    t.expect('from another folder', t.run(['calls', spaced.name], cwd=t.folder), answers, FINE, NOTHING)


def try_flags(t):
    file = t.file(SMALL)
    for flags in [
        ['--gaps'], ['--numbered'], ['--gaps', '--numbered'], ['--numbered', '--gaps'],
        ['--gaps', '--gaps'], ['--numbered', '--gaps', '--numbered'],
    ]:
        out = small_answers('--gaps' in flags, '--numbered' in flags)
        name = ' '.join(flags)
        t.expect(name, t.run(['calls', *flags, file]), out, FINE, NOTHING)
        t.expect(f'{name} -', t.run(['calls', *flags, '-'], SMALL), out, FINE, NOTHING)
        t.expect(f'{name}, on a pipe', t.run(['calls', *flags], SMALL), out, FINE, NOTHING)
    came = t.run(['calls', '--numbered'], b'\nopen\nbegin x\n')
    out = b"2: opened\nerror line 3: expected a reading, found 'x'\n"
    t.expect('--numbered, a list with an error', came, out, WRONG_LIST, ANYTHING)
    untold = answers_of('radio').splitlines(keepends=True)[1]
    account = b'total stretches 0 samples 0 missing 0 restart 0 handed 0 waiting 0\ncounters dropped 0 gaps 0 malformed 0 loss 0\n'
    came = t.run(['calls', '--numbered'], b'open\n\nradio\n')
    t.expect('--numbered, the radio', came, b'1: opened\n3: ' + untold + account, FINE, NOTHING)


def try_wrong_use(t):
    file = t.file(SMALL)
    cases = [
        [], ['clals'], ['clals', file], [''], ['--speed'], ['calls', '--speed'], ['calls', '--speed', file],
        ['calls', '--gaps=1', file], ['calls', file, file], ['calls', '-', file], ['calls', '--gaps', file, file],
    ]
    for words in cases:
        name = ' '.join(['wrong use: waluntig', *words]).replace(file, 'FILE')
        t.expect(name, t.run(words, stdin=subprocess.DEVNULL), b'', FAILED, SOMETHING)


def try_help(t):
    for words in [['--help'], ['calls', '--help']]:
        came = t.run(words, stdin=subprocess.DEVNULL)
        named = b'calls' in came.out and b'--gaps' in came.out and b'--numbered' in came.out
        expected = came.out if named else b'a text with calls, --gaps and --numbered'
        t.expect(' '.join(words), came, expected, FINE, NOTHING)


# Signals.

def children(pid):
    found = []
    for path in Path('/proc').glob('[0-9]*/stat'):
        try:
            name, rest = path.read_text(errors='replace').rsplit(')', 1)
        except OSError:
            continue
        if int(rest.split()[1]) == pid:
            found.append((int(path.parent.name), name.split('(', 1)[1]))
    return found


def descendants(pid):
    for child, name in children(pid):
        yield child, name
        yield from descendants(child)


def program_of(pid):
    """The program that the script started: the one named calls, or else the first child."""
    below = list(descendants(pid))
    named = [child for child, name in below if name == 'calls']
    return (named or [child for child, _ in below] or [None])[0]


def finish_with_open_input(process):
    """The script must end by itself: the end of the input would end it as well."""
    try:
        process.wait(TIME)
    except subprocess.TimeoutExpired:
        return finish(process)._replace(status=LATE)
    return finish(process)


def try_a_program_that_a_signal_ends(t):
    if not os.path.exists('/proc/self/stat'):
        return t.left_out('a program that a signal ends', 'there is no /proc to find it by')
    for name, number in [('SIGKILL', signal.SIGKILL), ('SIGTERM', signal.SIGTERM)]:
        process = t.start(['calls'])
        write(process, b'open\n')
        line = read_line(process.stdout.fileno())
        child = program_of(process.pid)
        if child is not None:
            os.kill(child, number)
        came = finish_with_open_input(process)
        came = came._replace(out=line + came.out)
        t.expect(f'a program that {name} ends', came, b'opened\n', FAILED, '(?i)signal|kill|terminated')


TRIALS = [trial for name, trial in list(globals().items()) if name.startswith('try_')]


def main():
    if len(sys.argv) != 2 or not os.access(sys.argv[1], os.X_OK):
        sys.exit('python3 -B tools/try_waluntig.py WALUNTIG, the script to try')
    with tempfile.TemporaryDirectory() as folder:
        t = Trials(sys.argv[1], folder)
        # where the program is not built yet, this may build it
        finish(t.start(['calls'], stdin=subprocess.DEVNULL), seconds=FIRST_TIME)
        for trial in TRIALS:
            if t.late >= MOST_LATE:
                t.left_out(trial.__name__, 'too many trials have not ended in time')
            else:
                trial(t)
    print(f'{t.count} trials of waluntig, {t.bad} not as they should be')
    sys.exit(t.bad > 0)


main()
