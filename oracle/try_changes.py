#!/usr/bin/env python3
"""Changes manta's files one by one (changes.txt), and asks of each that lists/ shows it: oracle/try_changes.py [LISTS].

MANTA_SRC names the folder with manta's crates/. A change that no list shows is told, and the run fails. Of the Rust as it is
no list may show anything, so that what is shown is the change.
"""
import os
import shutil
import subprocess
import sys
import tempfile
from pathlib import Path

HERE = Path(__file__).resolve().parent
MANTA = Path(os.environ.get('MANTA_SRC', HERE.parent.parent / 'shared/docs/src'))
SOURCES = 'crates/manta-input/src'


def changes():
    blocks = (HERE / 'changes.txt').read_text().split('\n\n')
    for block in filter(str.strip, blocks[1:]):
        file, old, new = block.strip().split('\n')
        yield file, old.removeprefix('old: '), new.removeprefix('new: ')


def run(env, *words):
    return subprocess.run(words, env=env, capture_output=True, text=True)


def changed(manta, file, old, new):
    path = manta / SOURCES / file
    text = path.read_text()
    assert text.count(old) == 1, f'{file} has {old!r} {text.count(old)} times'
    path.write_text(text.replace(old, new))


def shown(work, lists, *change):
    """Whether the oracle, built with the change, gives another answer to some list, or stops in the middle of one."""
    manta = work / 'manta'
    shutil.copytree(MANTA, manta, dirs_exist_ok=True)
    if change:
        changed(manta, *change)
    env = dict(os.environ, MANTA_SRC=str(manta), CARGO_TARGET_DIR=str(work / 'target'))
    built = run(env, 'cargo', 'build', '--quiet', '--offline', '--manifest-path', str(HERE / 'Cargo.toml'))
    assert built.returncode == 0, built.stderr
    return any(differs(env, work, path) for path in sorted(lists.glob('*.calls')))


def differs(env, work, path):
    came = run(env, str(work / 'target/debug/oracle'), 'calls', str(path))
    return came.stdout != path.with_suffix('.answers').read_text()


def main():
    lists = Path(sys.argv[1]) if len(sys.argv) > 1 else HERE.parent / 'lists'
    missed = count = 0
    with tempfile.TemporaryDirectory() as work:
        assert not shown(Path(work), lists), 'a list is answered otherwise by the Rust as it is'
        for file, old, new in changes():
            count += 1
            if not shown(Path(work), lists, file, old, new):
                missed += 1
                print(f'not shown: {file}: {new}', flush=True)
    print(f'{count} changes of the Rust tried, {missed} not shown by {lists.name}/')
    sys.exit(missed > 0)


main()
