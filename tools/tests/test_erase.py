"""What tools/erase makes of a source, and what it rejects.

The pairs of tools/tests/golden are sources of Rattle, in files that the prover does not take for
its own, and the Rust that is made of them. A file is named for its crate and for what it shows."""
import re
from pathlib import Path

import pytest

from tools import write
from tools.erase import documentation, examples
from tools.erase.additions import Additions
from tools.erase.callers import Callers
from tools.erase.source import Unknown
from tools.tests import samples


# What a crate other than `integer_core` needs of that one.
INTEGER = 'pub trait Integer: Copy + Num {}\n'


def texts_of(crate: str, text: str) -> dict[str, str]:
    return {crate: text} if crate == 'integer_core' else {'integer_core': INTEGER, crate: text}


@pytest.mark.parametrize('name', sorted(source.stem for source in samples.GOLDEN.glob('*.rattle')))
def test_rust_of_a_source(name: str) -> None:
    source, crate = samples.GOLDEN / f'{name}.rattle', name.split('.')[0]
    made = samples.erased(crate, texts_of(crate, source.read_text()))
    assert samples.formatted(made) == source.with_suffix('.rs').read_text()


@pytest.mark.parametrize('refusal, text', samples.cases('refused'))
def test_forms_that_are_not_known(refusal: str, text: str) -> None:
    crate, reason = refusal.split(':', 1)
    with pytest.raises(Unknown) as refused:
        samples.erased(crate, {crate: text})
    assert str(refused.value) == f'crates/{crate}/src/lib.rt:{reason}'


def test_functions_on_the_way_to_a_panic(tmp_path: Path) -> None:
    """The functions of golden/callers get `#[track_caller]` that have it, but for the one in
    guards.rs, which has it by hand."""
    wanted = {f'made/src/{file.name}': file.read_text()
              for file in (samples.GOLDEN / 'callers').glob('*.rs')}
    without = {name: re.sub(r' *#\[track_caller\]\n', '', text) for name, text in wanted.items()
               if not name.endswith('guards.rs')}
    write(tmp_path, wanted | without)
    Callers(tmp_path / 'made').put()
    for name, text in wanted.items():
        assert (tmp_path / name).read_text().split() == text.split()


MADE, BY_HAND, JOINED = ((samples.GOLDEN / f'additions/{name}.rs').read_text()
                         for name in ('made', 'by_hand', 'joined'))


def additions(folder: Path, text: str) -> Additions:
    (folder / 'row.rs').write_text(text)
    return Additions(folder)


def test_a_function_takes_the_place_of_the_made_one(tmp_path: Path) -> None:
    text, note = additions(tmp_path, BY_HAND).add('row.rs', MADE)
    assert text == JOINED
    assert (note == '// It also has what rust/by_hand/src/row.rs adds, and next, sum as they stand '
            'there.\n')


@pytest.mark.parametrize('made', ['use crate::one;\nfn high() {}\n', 'fn high() {}\nfn low() {}\n'])
def test_a_file_that_has_each_function_is_the_whole_file(tmp_path: Path, made: str) -> None:
    by_hand = 'use crate::two;\nfn high() { two() }\nfn refuse() {}\n'
    text, note = additions(tmp_path, by_hand).add('row.rs', made)
    assert (text == by_hand) == ('low' not in made)
    assert ('each function' in note) == ('low' not in made)


def test_a_file_with_another_path_is_a_module(tmp_path: Path) -> None:
    there = additions(tmp_path, BY_HAND)
    assert there.add('column.rs', MADE) == (MADE, '')
    assert there.modules() == {'row.rs': BY_HAND}
    there.add('row.rs', MADE)
    assert there.modules() == {}


@pytest.mark.parametrize('sentence, wanted', samples.cases('assertions'))
def test_assertion(sentence: str, wanted: str) -> None:
    (pair,) = examples.SENTENCE.findall(sentence)
    assert examples.assertion(*pair) == wanted.splitlines()


def test_comment_of_the_reference() -> None:
    lines = ['Returns the half.', '', '# Panics', '', 'In plain Rust, if it is', 'odd.', '',
             '# Errors', '', '- `Odd` never.']
    assert documentation.of_rattle(lines) == ['Returns the half.', '',
                                              'Plain Rust panics if it is odd.', '', 'Errors:', '',
                                              '- `Odd` never.']


def test_contracts() -> None:
    """The comment of an item leads to its contract, which stands below the title that the
    reference gives it."""
    rust = samples.erased('calendar', dict(samples.cases('contracts')))
    for title in ('half', 'twice', 'default-for-twice', 'twicetimes'):
        label = 'Laws' if title == 'half' else 'Contract'
        assert f'/// [{label}](crate::definitions::calendar#{title})\n' in rust
