"""The counts of a run, and where they stand."""
from pathlib import Path

import pytest

from tools.checks import erased
from tools.pages import counts

LOG = '''\
those of its library, 130 tests: passed
those of averages, 48 tests: passed
those of roots, 65 tests: passed
those of num, 1 tests: passed
CPython's own tests, all of Python 3.11.7: 30666 pass, 37292 are beyond 64 bits, 3 fail: passed
its tests, 290 tests: passed
'''


def test_counts_of_a_run() -> None:
    """Only one of the six packages is there, so they are not counted."""
    assert counts.in_run(LOG) == {'num_integer': 243, 'cpython': 30666, 'crate': 290}


@pytest.mark.parametrize('said, slip', [
    ('130 tests', '131 tests'), ('30666 pass', '30665 pass'), ('its tests, 290', 'its tests, 1')])
def test_another_count(tmp_path: Path, monkeypatch: pytest.MonkeyPatch, said: str,
                       slip: str) -> None:
    table, log = tmp_path / 'counts.txt', tmp_path / 'log'
    table.write_text('# head\nnum_integer = 0\npackages = 473\ncpython = 0\ncrate = 0\n')
    monkeypatch.setattr(counts, 'TABLE', table)
    log.write_text(LOG)
    assert counts.make_counted([str(log)]) and counts.check_counted([str(log)])
    assert counts.of_runs()['packages'] == 473
    log.write_text(LOG.replace(said, slip))
    assert not counts.check_counted([str(log)])


def test_places() -> None:
    """A page has one place for the counts, and nothing else changes."""
    pages = counts.made()
    assert set(pages) == {counts.PAGE, counts.FRONT, *erased.PAGES, counts.TRUST}
    assert counts.ROWS.sub('', pages[counts.PAGE]).count('| what | how many |') == 0
    assert len(counts.SENTENCE.findall(pages[counts.FRONT])) == 1


def test_numbers_of_a_sentence() -> None:
    page = 'It has 2 of them.\nOf 7 functions,\n1,000 are  here. Of 7 others, none.\n'
    assert counts.renumbered(page, 'Of 10 functions, 999 are here.') == (
        'It has 2 of them.\nOf 10 functions,\n999 are  here. Of 7 others, none.\n')
    for slip in ('Of 7 functions are here.', 'Of 7 '):
        with pytest.raises(AssertionError):
            counts.renumbered(page, slip)
