"""A slip in the sources changes what is made of them."""
import contextlib
import re
import shutil
from pathlib import Path
from typing import Any

import pytest

from tools import ROOT, as_made, write
from tools.bindings import by_python, examples, exports, files, fuzz, languages, orders, python
from tools.erase import documentation
from tools.erase.source import Source, Unknown
from tools.pages import api, crate_page, picture, reference
from tools.tests import samples


@pytest.mark.parametrize('name, slip', samples.cases('exports'))
def test_exports(tmp_path: Path, monkeypatch: pytest.MonkeyPatch, name: str, slip: str) -> None:
    before = files.made() | files.calls()
    monkeypatch.setattr(exports, 'SOURCES', shutil.copytree(exports.SOURCES, tmp_path / 'src'))
    samples.change(tmp_path / 'src' / name, slip)
    exports.EXPORTS.cache_clear()
    after = dict[str, str]()
    with contextlib.suppress(AssertionError):       # a call of another name has no example
        after = files.made() | files.calls()
    monkeypatch.undo()
    exports.EXPORTS.cache_clear()
    assert before != after


@pytest.mark.parametrize('name, forms', python.public_calls())
def test_examples_of_python(name: str, forms: list[exports.Call]) -> None:
    """Each example of a comment is one that the tests of the package run."""
    def numbers(*given: Any, **named: Any) -> list[Any]:
        return [*fuzz.flat([*given, *named.values()])]
    words = dict.fromkeys(('Date', 'Congruence', 'Schedule', name), numbers)
    shown = [eval(given, words) for given, _ in python.examples(name)]
    assert all(numbers(*example.arguments) in shown for example in examples.of_call(forms[0]))


@pytest.mark.parametrize('name, doc', [
    ('gcd', 'Returns the greatest common divisor.'), ('gcd', 'That of 56 is 14.'),
    ('gcd', 'That of 56, 42 and 7 is 7.'), ('gcd', 'That of 56 and 42 is 14 and 7.'),
    ('gcd', 'For most of 56 and 42 it is 14.'), ('gcd', 'That of 56 and 42 is large.'),
    ('gcd', 'For 56 and 42 it is 14, which divides 7.'), ('is_square', 'For 144 it is 12 and 12.'),
    ('plus_days', 'That of 2000 and -1 is 1999-12-31.'),
    ('fraction_to_decimal', 'That of 1/20 and 2 is 5.'),
    ('fraction_to_decimal', 'That of 1/20 and 2 is 0.5.')])
def test_no_example(name: str, doc: str) -> None:
    call = exports.EXPORTS().forms()[name][0]._replace(doc=doc)
    with pytest.raises(examples.Unclear):
        examples.of_call(call)


@pytest.mark.parametrize('name, doc, result', [
    ('gcd', 'That of 56 and 42 is 7.', [7]), ('gcd_of', 'That of no numbers is 1.', [1]),
    ('shares', 'For 1002 and the weights 1, 1, 1 and 1 they are 251, 251, 250 and 250.',
     [251, 251, 250, 250]),
    ('iso_week', 'That of 2005-01-01 is week 52 of 2004.', [52, 2004]),
    ('fraction_to_decimal', 'That of 1/20 and 2 is 0.50.', [0, 0, 50]),
    ('is_leap_year', 'For 1900 it is `true`.', [1]),
    ('extended_gcd', 'For 240 and 46 they are 2, 9 and 47.', [2, 9, 47]),
    ('lcm', 'That of 2^62 + 1 and 0 is 2^62 - 1.', [2**62 - 1])])
def test_wrong_example(name: str, doc: str, result: list[int]) -> None:
    """An example that is read, with a wrong result."""
    call = exports.EXPORTS().forms()[name][-1]._replace(name=name, doc=doc)
    shown = examples.of_call(call)[0]
    assert shown.result == result and not examples.holds(shown)


def test_call_without_an_example() -> None:
    with pytest.raises(AssertionError, match='div_flo: the last part of rows.txt has no example'):
        python.examples('div_flo')


def test_reference(tmp_path: Path, monkeypatch: pytest.MonkeyPatch) -> None:
    before, crates = reference.Reference().made(), tmp_path / 'crates'
    shutil.copytree(ROOT / 'crates', crates, ignore=shutil.ignore_patterns('out'))
    brief = reference.Reference(whole=False).made()
    monkeypatch.setattr(reference, 'CRATES', crates)
    assert reference.Reference().made() == before
    slips = [(head.split(', '), slip) for head, slip in samples.cases('reference')]
    for (_, name, *_), slip in slips:
        samples.change(crates / name, slip)
    for pages, whole in ((before, True), (brief, False)):
        after = reference.Reference(whole).made()
        changed = {page.rpartition('/')[2] for page in pages if pages[page] != after[page]}
        assert changed >= {page for (page, _, *of_whole), _ in slips if whole or not of_whole}


@pytest.mark.parametrize('code, heads', samples.cases('signatures'))
def test_brief_heads(code: str, heads: str) -> None:
    """The head of an item in a line, and the clauses that say something."""
    source = Source('sample.rt', heads.partition('\n----\n')[0])
    item = source.items()[0]
    lines = [crate_page.signature(source, item), *documentation.clauses_of(source, item)]
    assert lines == heads.partition('\n----\n')[2].splitlines(), code


@pytest.fixture(name='crates', scope='module')
def copy_of_crates(tmp_path_factory: pytest.TempPathFactory) -> Path:
    """A copy of the crates."""
    crates = tmp_path_factory.mktemp('reference') / 'crates'
    shutil.copytree(ROOT / 'crates', crates, ignore=shutil.ignore_patterns('out'))
    return crates


@pytest.mark.parametrize('head, slip', samples.cases('reference_slips'))
def test_words_without_a_definition(crates: Path, monkeypatch: pytest.MonkeyPatch, head: str,
                                    slip: str) -> None:
    name, _, said = head.partition(', ')
    monkeypatch.setattr(reference, 'CRATES', crates)
    before = (crates / name).read_text()
    samples.change(crates / name, slip)
    with pytest.raises(Unknown, match=re.escape(said)):
        reference.Reference().made()
    (crates / name).write_text(before)


def test_as_made(tmp_path: Path) -> None:
    made = {'a/b': 'text\n'}
    assert not as_made(tmp_path, made)
    assert write(tmp_path, made) and as_made(tmp_path, made)
    assert not as_made(tmp_path, {'a/b': 'other\n'})
    assert not as_made(tmp_path, {'a/b': None})
    assert write(tmp_path, {'a/b': None}) and as_made(tmp_path, {'a/b': None})


@pytest.mark.parametrize('old, new, line', [
    ('div_ceil, div_floor,', 'div_ceil as div_floor, div_floor as div_ceil,',
     'use div_floor = integer_core::div_ceil'),
    ('div_ceil,', 'div_ceil, div_ceil as above,', 'use above = div_ceil')])
def test_exported_names(tmp_path: Path, old: str, new: str, line: str) -> None:
    """The list of public items has the names of exports."""
    shutil.copytree(ROOT / api.CRATE / 'src', tmp_path / api.CRATE / 'src')
    root = tmp_path / api.CRATE / 'src' / 'lib.rs'
    before = [*api.lines_of(api.Shown(tmp_path / api.CRATE))]
    root.write_text(root.read_text().replace(old, new, 1))
    after = [*api.lines_of(api.Shown(tmp_path / api.CRATE))]
    assert line in after and line not in before


def test_picture() -> None:
    page = (ROOT / 'docs/TRUST.md').read_text()
    drawn = picture.picture(page)
    assert drawn.count('<line ') == len(picture.ROW.findall(page)) > 0
    assert drawn != picture.picture(page.replace('**proved**', '**tested**'))
    with pytest.raises(KeyError):
        picture.picture(page.replace('| contracts | Rattle source', '| contract | Rattle source'))


@pytest.mark.parametrize('name',
                         ['fraction_times', 'fraction_limit_denominator', 'date_from_iso_week',
                          'fraction_to_decimal'])
def test_orders_of_statuses(name: str) -> None:
    """The words of a call say what it returns, and those in another order do not."""
    call = next(call for call in exports.EXPORTS().calls if call.name == name)
    assert not orders.wrong(call)
    others = call.statuses[::-1]
    if name == 'fraction_times':    # the words before
        others = [sentence.replace(' and the argument, reduced, fits', '')
                  for sentence in call.statuses]
    assert 'the comment says' in orders.wrong(call._replace(statuses=others))


def test_files_of_a_new_export(tmp_path: Path, monkeypatch: pytest.MonkeyPatch) -> None:
    """A call and its export need three files by hand: its source, that of the export, and what
    Python computes. All else that languages know of it is made, with the examples of its
    comment."""
    name, old = 'has_no_common_factor', 'is_coprime'
    sources = shutil.copytree(exports.SOURCES, tmp_path / 'src')
    text = (sources / 'coprime.rt').read_text()                 # of the export
    added = text[
        text.index('/// Returns `true` if the greatest'):text.index('/// Returns both numbers')]
    (sources / 'coprime.rt').write_text(text + '\n' + added.replace(old, name))
    paths = [*languages.paths(), f'applied::coprime::{name}']   # of the source
    results = {**by_python.RESULTS, name: by_python.RESULTS[old]}   # of by_python.toml
    monkeypatch.setattr(exports, 'SOURCES', sources)
    monkeypatch.setattr(languages, 'paths', lambda: paths)
    monkeypatch.setattr(examples, 'RESULTS', results)
    exports.EXPORTS.cache_clear()
    made = files.made() | files.calls()
    call = exports.EXPORTS().forms()[name][0]
    shown = python.examples(name)
    assert all(examples.holds(example) for example in examples.of_call(call))
    monkeypatch.undo()
    exports.EXPORTS.cache_clear()
    assert shown == [(f'{name}(8, 15)', 'True'), (f'{name}(8, 6)', 'False')]
    lacking = {place for place, text in made.items()
               if not re.search(f'{name}|hasNoCommonFactor', text)}
    assert lacking == {files.ERRORS, languages.LIST}    # which have other calls alone, or none
