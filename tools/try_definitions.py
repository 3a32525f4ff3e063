#!/usr/bin/env python3
"""Changes definitions one by one (definition_changes.txt), and asks of each that something shows it: tools/try_definitions.py
[TEXT...]. With a TEXT it tries the changes alone that have one of them in their first line.

Each change is made in a copy of the repository, its code too. It is shown by
- a proof: model or account, which hold the calls' definitions, their theorems and their worked cases, are refused; the code of
  the calls stands in other crates, and is not proved here;
- a list: the program `calls`, compiled without proof, answers one of lists/ otherwise, or lists/refusals.txt.
A change that neither shows is told, and the run fails. Of the repository as it is nothing may be shown.
"""
import os
import re
import shutil
import subprocess
import sys
import tempfile
from pathlib import Path

HERE = Path(__file__).resolve().parent
TOP = HERE.parent
RT = shutil.which('rt') or os.path.join(os.environ.get('RATTLE_HOME', ''), 'bin/rt')


def changes():
    blocks = (HERE / 'definition_changes.txt').read_text().split('\n\n')
    for block in filter(str.strip, blocks[1:]):
        what, *lines = block.strip().split('\n')
        edits = [lines[i:i + 3] for i in range(0, len(lines), 3)]
        yield what, [(f.removeprefix('file: '), o.removeprefix('old: '), n.removeprefix('new:').strip()) for f, o, n in edits]


class Broken(Exception):
    """A change whose text is not there, or is none of the language."""


def first(text):
    """The first line of what the toolchain says that tells a place, or else its last."""
    lines = text.strip().splitlines() or ['']
    return next((line for line in lines if re.search(r':\d+:\d+: ', line)), lines[-1])


def changed(work, edits):
    for file, old, new in edits:
        path = work / file
        text = path.read_text()
        if text.count(old) != 1:
            raise Broken(f'{file} has {text.count(old)} times: {old}')
        path.write_text(text.replace(old, new.replace('\\n', '\n')))


def restored(work, edits):
    for file, _, _ in edits:
        shutil.copy(TOP / file, work / file)


# Proofs.

# rt names the crate that it turns to, and then what it says of a file of that crate.
CRATE = re.compile(r'rt: chose --jobs \d+ for (\w+)')
ERROR = re.compile(r'\./(\w+)/([^:]+)\.(?:antt|rt):\d+:\d+: error\S* (?:`([^`]+)`)?')


def proof(work):
    """The proof that is refused first, or None."""
    came = subprocess.run([RT, 'check'], cwd=work / 'crates/account', stdout=subprocess.PIPE, stderr=subprocess.STDOUT, text=True)
    if came.returncode == 0:
        return None
    crate = 'account'
    for line in came.stdout.splitlines():
        crate = (CRATE.match(line) or [0, crate])[1]
        found = ERROR.match(line)
        if found:
            folder, file, name = found.groups()
            if folder != 'proofs':
                raise Broken(line)
            return f'{crate} {file} {name or ""}'.strip()
    raise Broken(first(came.stdout))


# Lists.

def lists():
    """Each list's name, its calls and its answers."""
    for path in sorted((TOP / 'lists').glob('*.calls')):
        yield path.stem, path.read_text(), path.with_suffix('.answers').read_text()
    lines = [s for s in (TOP / 'lists/refusals.txt').read_text().splitlines() if '=> ' in s and not s.startswith('#')]
    split = [s.split('=> ', 1) for s in lines]
    yield 'refusals', ''.join(f'{call}\n' for call, _ in split if call), ''.join(f'{answer}\n' for _, answer in split)


def answered(work):
    """The first list that `calls`, compiled without proof, answers otherwise, or None."""
    came = subprocess.run([RT, 'try', '--cases', work / 'lists'], cwd=work / 'crates/calls', stdout=subprocess.PIPE, stderr=subprocess.STDOUT,
                          text=True, errors='replace')
    ran = re.findall(r'^case=(\S+) run=(\S+) (.*)$', came.stdout, re.M)
    if len(ran) != sum(1 for _ in lists()):
        raise Broken(first(came.stdout))
    return next((f'lists/{name}' for name, end, more in ran if end != 'ended' or 'output=differs' in more), None)


def copied(work):
    shutil.copytree(TOP / 'crates', work / 'crates', ignore=shutil.ignore_patterns('out', 'must-fail'))
    shutil.copy(TOP / 'crates.txt', work)
    (work / 'lists').mkdir()
    for name, calls, answers in lists():
        (work / 'lists' / name).write_text(calls)
        (work / 'lists' / f'{name}.stdout').write_text(answers)


def shown(work, edits):
    """The proof and the list that show a change."""
    try:
        changed(work, edits)
        return proof(work), answered(work)
    finally:
        restored(work, edits)


def main():
    texts = sys.argv[1:] or ['']
    proofs = listed = missed = count = 0
    with tempfile.TemporaryDirectory() as name:
        work = Path(name)
        copied(work)
        assert shown(work, []) == (None, None), 'something is shown of the repository as it is'
        for what, edits in changes():
            if not any(text in what for text in texts):
                continue
            count += 1
            try:
                by = shown(work, edits)
            except Broken as why:
                by = (None, None)
                print(f'broken: {why}')
            proofs, listed, missed = proofs + bool(by[0]), listed + bool(by[1]), missed + (by == (None, None))
            print(f'{what}: {", ".join(filter(None, by)) or "NOT SHOWN"}', flush=True)
    print(f'{count} changes of definitions tried, {proofs} shown by a proof, {listed} by a list, {missed} by nothing')
    sys.exit(missed > 0)


if __name__ == '__main__':
    main()
