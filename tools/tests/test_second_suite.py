"""The script that tries the second suite of mutants, with a program in the place of `rt`."""
import os
import shutil
import subprocess
from pathlib import Path

import pytest

from tools import ROOT, write

SCRIPT = 'tools/gate/check_must_fail_release.sh'
# It rejects each mutant that does not say otherwise, and notes how it was called.
RT = r'''#!/usr/bin/env bash
echo "$*" >>"$CALLS"
case $1 in
    version) echo 'kit logic 1' ;;
    must-fail)
        for edit in crates/"$2"/must-fail/*.edit; do
            name="rt: must-fail $2/${edit##*/}:"
            ! grep -q stops "$edit" || exit 1
            grep -q passes "$edit" && echo "$name NOT REFUSED: it is proved" ||
                echo "$name refused, as it must be: src/lib.rt:1:1"
        done ;;
esac
'''


@pytest.fixture(name='root')
def repository(tmp_path: Path) -> Path:
    """A repository with two crates, the second over the first, and three mutants."""
    suite = 'must-fail-release'
    write(tmp_path, {'crates.txt': 'low:\nabove: low\n', 'HANDLES': 'none\n', 'programs/rt': RT,
                     'crates/low/src/lib.rt': 'a\n', 'crates/above/src/lib.rt': 'b\n',
                     f'crates/low/{suite}/one.edit': '1\n', f'crates/low/{suite}/two.edit': '2\n',
                     f'crates/above/{suite}/one.edit': '3\n'})
    (tmp_path / 'programs/rt').chmod(0o755)
    (tmp_path / 'tools/gate').mkdir(parents=True)
    (tmp_path / 'tools/checks').mkdir()
    for name in (SCRIPT, 'tools/gate/lib.sh', 'tools/gate/together.py', 'tools/__init__.py',
                 'tools/checks/edits.py', 'tools/gate/debian.toml'):
        shutil.copy(ROOT / name, tmp_path / name)
    return tmp_path


def tried(root: Path, *names: str) -> tuple[int, list[str], list[str]]:
    """The status of a run, the beginnings of its lines, and the crates whose mutants were tried."""
    calls = root / 'calls'
    calls.write_text('')
    paths = f'{root}/programs:{os.environ["PATH"]}'
    given = os.environ | {'PATH': paths, 'CALLS': str(calls), 'RT_JOBS': '2'}
    ran = subprocess.run([f'{root}/{SCRIPT}', *names], cwd=root, env=given, capture_output=True,
                         text=True, check=False)
    words = [line.split() for line in calls.read_text().splitlines()]
    return (ran.returncode, sorted(line.split(': src')[0] for line in ran.stdout.splitlines()),
            sorted(each[1] for each in words if each[0] == 'must-fail'))


REJECTED = [f'must-fail {name}: refused, as it must be'
            for name in ('above/one.edit', 'low/one.edit', 'low/two.edit')]


def test_goes_on(root: Path) -> None:
    """What was rejected is not tried again, until a source below it changes."""
    whole = sorted(['check_must_fail_release.sh: 3 passed, 0 failed', *REJECTED])
    assert tried(root) == (0, whole, ['above', 'low'])
    assert tried(root) == (0, whole, [])
    write(root, {'crates/above/src/lib.rt': 'c\n'})
    assert tried(root) == (0, whole, ['above'])
    write(root, {'crates/low/src/lib.rt': 'c\n'})
    assert tried(root) == (0, whole, ['above', 'low'])
    write(root, {'crates/low/must-fail-release/two.edit': '4\n'})
    assert tried(root, 'above')[2] == []
    assert tried(root) == (0, whole, ['low'])


@pytest.mark.parametrize('text, line', [('it passes\n', 'NOT REFUSED: it is proved'),
                                        ('it stops\n', '')])
def test_not_rejected(root: Path, text: str, line: str) -> None:
    """A mutant that passes is tried each time, and so is one at which `rt` stops."""
    write(root, {'crates/low/must-fail-release/two.edit': text})
    for crates in (['above', 'low'], ['low']):
        status, lines, found = tried(root)
        assert (status, found) == (1, crates) and REJECTED[0] in lines
        assert any(line in each for each in lines) and not REJECTED[2] in lines
        assert any(each.endswith('failed') and ', 0 failed' not in each for each in lines)


def test_unknown_crate(root: Path) -> None:
    assert tried(root, 'other')[:2] == (2, ['other: no such crate with mutants'])
