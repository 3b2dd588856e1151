"""The manual page, the comparison of two programs, the versions and the bill of materials."""
import re
from pathlib import Path

import pytest

from tools import ROOT, write
from tools.checks import programs, versions
from tools.pages import bill, manual


def test_the_page_has_each_call() -> None:
    assert manual.calls().keys() == programs.calls().keys()
    for name, text in manual.files().items():
        assert all(re.search(rf'(?:\\fB|\b){call}\b', text) for call in programs.calls()), name


def test_lines_of_the_manual_page() -> None:
    assert manual.roff("`a -1` isn't [b](c.md) \\") == r'\fBa \-1\fR isn\(cqt b \e'
    assert manual.roff('.x') == r'\&.x'


def test_rows_of_the_tests() -> None:
    rows = [*programs.worked_rows()]
    assert (['i8', 'div_floor', '-128', '-1'], 'refused 6 NotFitting') in rows
    assert len(rows) > 300
    assert [*programs.at_random(50)] == [*programs.at_random(50)]


def test_lines_of_the_package_for_python() -> None:
    """What is written by hand has at most 100 columns, and is little in C."""
    package = ROOT / 'bindings/python'
    in_c = [package / 'src' / name for name in ('driver.h', 'ufuncs.h')]
    in_python = [package / name for name in (
        'hatch_build.py', 'src/cellarcove/__init__.py', 'src/cellarcove/_columns.py',
        'tests/test_columns.py')]
    for path in in_c + in_python:
        assert [line for line in path.read_text().splitlines() if len(line) > 100] == [], path
    assert sum(len(path.read_text().splitlines()) for path in in_c) < 840


@pytest.mark.parametrize('script, passed', [
    ('echo 6', True), ('echo 7', False), ('echo 6; exit 1', False), ('printf 6', False)])
def test_a_program_that_prints_otherwise(tmp_path: Path, script: str, passed: bool) -> None:
    names = []
    for name, text in (('one', 'echo 6'), ('other', script)):
        (tmp_path / name).write_text(f'#!/bin/sh\n{text}\n')
        (tmp_path / name).chmod(0o755)
        names.append(str(tmp_path / name))
    assert programs.same(names, (['i64', 'gcd', '12', '18'], None), '')[1] == passed
    assert not programs.same(names, (['i64', 'gcd', '12', '18'], None), 'full')[1]


def test_another_version(tmp_path: Path, monkeypatch: pytest.MonkeyPatch) -> None:
    version = re.findall(versions.CARGO, (ROOT / 'rust/Cargo.toml').read_text(), re.M)[0]
    minor = version.rpartition('.')[0]
    names = [name.format(minor) for name in versions.PLACES]
    write(tmp_path, {name: (ROOT / name).read_text() for name in names})
    monkeypatch.setattr(versions, 'ROOT', tmp_path)
    assert all(passed for _, passed in versions.named(version))
    assert versions.dated(version)[1]
    for name in names[:-1]:
        text = (tmp_path / name).read_text()
        (tmp_path / name).write_text(text.replace(version if version in text else minor, '9.9.9',
                                                  1))
        assert [line.split()[0] for line, passed in versions.named(version) if not passed] == [name]
        (tmp_path / name).write_text(text)
    (tmp_path / names[-1]).unlink()
    assert [line.split()[0] for line, passed in versions.named(version) if not passed] == names[-1:]
    cited = (tmp_path / 'CITATION.cff').read_text()
    (tmp_path / 'CITATION.cff').write_text(re.sub('(?m)^date-released: .*',
                                                  'date-released: 2001-01-01', cited))
    assert not versions.dated(version)[1]


def test_bill(tmp_path: Path) -> None:
    write(tmp_path,
          {'files/a.crate': 'text',
           'num-traits-0.2.9/Cargo.toml': '[package]\nname = "num-traits"\nversion = "0.2.9"\n'
           'license = "MIT/Apache-2.0"'})
    found = bill.bill(tmp_path / 'files', tmp_path)
    assert '982d9e3eb996f559e633f4d194def3761d909f5a3b647d1a851fead67c32c9d1' in str(found)
    assert 'MIT OR Apache-2.0' in str(found) and str(found).count('DEPENDS_ON') == 1
