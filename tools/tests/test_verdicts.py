"""What a release takes of a run of `rt ci`, with a program in the place of `rt`."""
import os
import shutil
import subprocess
from pathlib import Path

import pytest

from tools import ROOT, write

LINE = 'logic=proved sum=1 fns=2'
# What is kept of a log, after sources have changed or not, and what is found once they have.
SCRIPT = '''set -euo pipefail
source tools/gate/lib.sh
sums >"$work/sums"
{during}
keeps_verdicts log "$work/sums"
{after}
for name in low above; do
    if line=$(verdict_of "$name"); then echo "$name $line"; fi
done
'''


@pytest.fixture(name='root')
def repository(tmp_path: Path) -> Path:
    """A repository with two crates, the second over the first."""
    write(tmp_path, {'crates.txt': 'low:\nabove: low\n', 'HANDLES': 'none\n',
                     'programs/rt': '#!/bin/sh\necho kit logic 1\n',
                     'crates/low/src/lib.rt': 'a\n', 'crates/above/src/lib.rt': 'b\n'})
    (tmp_path / 'programs/rt').chmod(0o755)
    (tmp_path / 'tools/gate').mkdir(parents=True)
    shutil.copy(ROOT / 'tools/gate/lib.sh', tmp_path / 'tools/gate')
    return tmp_path


def found(root: Path, low: str, during: str = ':', after: str = ':') -> list[str]:
    """The crates of which a line is found, if a log says this of the first one."""
    write(root, {'log': f'{low}== above\nnotes\n{LINE}\nrt: above proved\n2 passed, 0 failed\n'})
    given = os.environ | {'PATH': f'{root}/programs:{os.environ["PATH"]}'}
    script = SCRIPT.format(during=during, after=after)
    ran = subprocess.run(['bash', '-c', script], cwd=root, env=given, capture_output=True,
                         text=True, check=True)
    names = [line.partition(' ') for line in ran.stdout.splitlines()]
    assert all(line == LINE for _, _, line in names)
    return [name for name, _, _ in names]


PROVED = f'== low\n{LINE}\nrt: low proved\n'


@pytest.mark.parametrize('low', [
    PROVED, f'== low\n{LINE}\nrt: low is kept: nothing has changed\n',
    f'== low: its tests\nlogic=proved sum=3\nrt: low: its tests are proved\n{PROVED}',
    f'== low\nlogic=not-proved\nrt: once more\n{LINE}\nrt: low proved\n'])
def test_kept(root: Path, low: str) -> None:
    assert found(root, low) == ['low', 'above']


@pytest.mark.parametrize('low', [
    f"== low\n{LINE} foreign=1\nrt: rattle's last line has a word\nrt: low NOT PROVED\n",
    f'== low\n{LINE}\n', f'== low\n{LINE}\nrt: lower proved\n', f'{LINE}\nrt: low proved\n',
    f'== low\n{LINE}\nrt: the check was killed\nlogic=not-proved\nrt: low proved\n',
    f'== low: its tests\n{LINE}\nrt: low: its tests are proved\nrt: low proved\n',
    'rt: low NOT PROVED\n', '== low\nrt: low is kept\n', '== low\nrt: low proved\n',
    f'== low\n{LINE}\nrt: low NOT PROVED\n== lower\n{LINE}\nrt: lower proved\n'])
def test_not_kept(root: Path, low: str) -> None:
    """Nothing is kept of a crate that `rt` does not call proved after its line."""
    assert found(root, low) == ['above']


@pytest.mark.parametrize('when', ['during', 'after'])
@pytest.mark.parametrize('change, names', [
    ('echo c >crates/low/src/lib.rt', []), ('echo c >crates/above/src/lib.rt', ['low']),
    ('printf "low: anyhow\\nabove: low\\n" >crates.txt', []),
    ('printf "low:\\nabove staticlib: low\\n" >crates.txt', ['low']),
    ('echo Threads >HANDLES', []), ('echo echo kit logic 2 >programs/rt', []),
    ('echo c >other', ['low', 'above'])])
def test_changed(root: Path, when: str, change: str, names: list[str]) -> None:
    """No line is found if the sources, their lines in crates.txt or the kit have changed, while the
    gate ran or after it."""
    assert found(root, PROVED, **{when: change}) == names


def test_kept_without_a_line(root: Path) -> None:
    """Of a crate whose proof was kept, the line is the one that was printed when it was proved."""
    kept = 'rt: low is kept: an earlier run on this machine proved the same files\n'
    assert found(root, kept) == ['above']
    assert found(root, PROVED) == ['low', 'above']
    file = root / 'out/verdicts/low'
    os.utime(file, (0, 0))
    assert found(root, kept) == ['low', 'above']
    assert file.stat().st_mtime > 0


LEFT = '''source tools/gate/lib.sh
mkdir -p out/verdicts crates/above/out/rlib/above.rlib
touch -d 2026-01-01 crates/*/src crates/*/src/lib.rt
touch -d 2026-01-02 crates/above/out/rlib/above.rlib/format
echo "$(sum_of above) logic=proved" >out/verdicts/above
touch -d 2026-01-03 out/verdicts/above
{command}
was_left above
'''


@pytest.mark.parametrize('command, why', [
    (':', ''), ('echo "$(sum_of above) " >out/verdicts/above', ''),
    ('touch -d 2025-01-01 crates/above/out/rlib/above.rlib/format', ''),
    ('rm -r crates/above/out', 'is not there'),
    ('touch crates/above/out/rlib/stamp', 'has a stamp'),
    ('touch crates/low/src/lib.rt', 'sources that have changed since'),
    ('touch crates/above/out/rlib/above.rlib/format', 'has changed since'),
    ('rm out/verdicts/above', 'has not proved'),
    ('echo c >crates/low/src/lib.rt; touch -d 2026-01-01 crates/low/src/lib.rt',
     'has not proved')])
def test_left(root: Path, command: str, why: str) -> None:
    """Which libraries a release does not take from a checkout, and why."""
    given = os.environ | {'PATH': f'{root}/programs:{os.environ["PATH"]}'}
    ran = subprocess.run(['bash', '-c', LEFT.format(command=command)], cwd=root, env=given,
                         capture_output=True, text=True, check=False)
    assert (ran.returncode == 0, why in ran.stdout) == (not why, True)
    assert (ran.stdout == '') == (not why)
