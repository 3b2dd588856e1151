"""What the pages quote, link, name and show."""
from fractions import Fraction
from pathlib import Path

import pytest

from tools.checks import pages
from tools.tests import samples

RUST = ('pub fn half(x: u64) -> u64\n    requires { 0 < x }\n{\n    use std::cmp::{max, '
        'min};\n    x / 2\n}\n')
PROOF = 'pub half : ℕ → ℕ\nhalf n = n / 2\n'
CLASSES = {'Refused ValueError', 'NotFitting Refused, OverflowError'}


@pytest.mark.parametrize('head, text', samples.cases('blocks'))
def test_blocks(head: str, text: str) -> None:
    files, (kind, wanted) = pages.Files([RUST], [PROOF], 'half: std\n'), head.split(', ')
    quoted = {'quoted': [True], 'in no file': [False], 'not read': []}[wanted]
    assert [files.has(block) for block in pages.blocks(f'```{kind}\n{text}```\n')] == quoted


@pytest.mark.parametrize('wanted, text', samples.cases('sessions'))
def test_sessions(tmp_path: Path, wanted: str, text: str) -> None:
    program = tmp_path / 'program'
    program.write_text('#!/bin/sh\necho seven\nexit 3\n')
    program.chmod(0o755)
    found = [found
             for _, found in pages.sessions(program, [('sample', f'```console\n{text}```\n')])]
    assert found and all(found) == (wanted == 'right')


@pytest.mark.parametrize('link, leads',
                         [('[a](sample.md)', True), ('[a](sample.md#one)', True),
                          ('[a](#a-b-1)', True), ('[a](#a-b-2)', False), ('[a](other.md)', False),
                          ('[a](sample.md#two)', False), ('`[a](other.md)`', True),
                          ('[a](https://example.org/)', True),])
def test_links(tmp_path: Path, link: str, leads: bool) -> None:
    page = tmp_path / 'sample.md'
    page.write_text(f'# One\n\n## A, b\n\n## A, b\n\n```sh\n# Two\n```\n\n{link}\n')
    assert bool(list(pages.broken_links(page))) != leads


def test_fractions_of_python() -> None:
    """What docs/DIFFERENCES.md says of the class `Fraction` of Python."""
    assert round(Fraction(5, 2)) == 2
    assert (Fraction('+1') == 1 and Fraction(' 1/2 ') == Fraction(1, 2)
            and Fraction('1.5') == Fraction(3, 2))
    with pytest.raises(ValueError):
        Fraction('6/-4')


@pytest.mark.parametrize('link, dead', [
    ('#one', False), ('https://example.org/', False), ('../docs/ERRORS.md', True), ('b.md', True)])
def test_pages_alone(tmp_path: Path, link: str, dead: bool) -> None:
    page = tmp_path / 'README.md'
    page.write_text(f'# One\n\n[it]({link}) `[code](x.md)`\n')
    assert pages.links_to_others(page) == [link] * dead


@pytest.mark.parametrize('copied, lines, lacking', [
    ('a,b', 'a: b std\nb: std\n', []), ('a,b', 'a: b std\n', ['no line of b']),
    ('a', 'a: b std\n', ['b is not copied']), ('a,b', '', ['no line of a', 'no line of b'])])
@pytest.mark.parametrize('command', ['cp -r cellarcove/crates/{} crates/',
                                     'tar -xf ../some-*.tar.xz crates/{}'])
def test_crates_to_copy(command: str, copied: str, lines: str, lacking: list[str]) -> None:
    command = command.replace('{}', f'{{{copied}}}')
    text = f'1. It:\n\n   ```sh\n   {command}\n   ```\n\n```crates\n{lines}```\n'
    assert list(pages.lacking_lines(text, {'a', 'b'})) == lacking


@pytest.mark.parametrize('text, absent',
                         [('see `half` of\n`crates/a/src/b.rt`', []),
                          ('`half` and `third` of `crates/a/src/b.rt`',
                           ['crates/a/src/b.rt third']),
                          ('in `crates/a/src/c.rt`', ['crates/a/src/c.rt']),
                          ('`half`, `crates/a/src/b.rt`', []),])
def test_names(text: str, absent: list[str]) -> None:
    assert list(pages.absent_names(text, {'crates/a/src/b.rt': RUST})) == absent


def test_errors() -> None:
    golden = dict(samples.cases('errors'))
    assert pages.messages_in(golden['code']) == {
        'the first', 'the second', 'the third', 'the fourth', 'the fifth', '`n` is the sixth',
        'a date, as "2024-02-29"'}
    assert pages.messages_on(golden['page']) == {'the first', 'the second',
                                                 'a date, as "2024-02-29"'}
    assert (pages.exceptions_in(golden['package'], golden['driver']) == CLASSES
            | {'OverflowError ', 'TypeError ', 'MemoryError '})
    assert pages.rows_on(golden['page']) == CLASSES | {'2 CELLARCOVE_NOT_FITTING', 'TypeError '}
    assert [passed for _, passed in pages.compared({'a', 'b'}, {'b', 'c'})] == [False, True, False]
