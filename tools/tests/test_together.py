"""Mutants of different functions, which one check tries."""
from pathlib import Path

import pytest

from tools import write
from tools.gate.together import Mutant, own_faults, read, rounds

CODE = '''const SIZE: usize = size();

impl<T: Copy> Add<Pair<T>> for Pair<T> {
    fn add(self, other: Pair<T>) -> Pair<T>
        ensures sum { result ≡ self }
    {
        self
    }
}

const fn size() -> usize {
    1
}

pub(crate) fn zero() -> u8
    ensures { result ≡ 0 }
{
    0
}
'''


@pytest.fixture(name='crate')
def folder(tmp_path: Path) -> Path:
    write(tmp_path, {'low/src/pair.rt': CODE})
    return tmp_path / 'low'


@pytest.mark.parametrize('old, new, function', [
    ('        self', '        other', 'PairAdd::add'),
    ('    0', '    1', 'low::pair::zero'), ('    1', '    2', None),
    ('result ≡ 0', 'result ≡ 1', None),
    ('= size();', '= 2;', None)])
def test_functions(crate: Path, old: str, new: str, function: str | None) -> None:
    """A mutant of one body has the name of its function. Any other has none."""
    edit = crate / 'one.edit'
    edit.write_text(f'wrong (not run: no): it.\nfile: src/pair.rt\nold: {old}\nnew: {new}\n')
    found = read(crate, edit)
    assert (found and found.function) == function


def test_rounds() -> None:
    one, two, other = (Mutant(Path(name), name[0], '', {}) for name in ('a1', 'a2', 'b'))
    assert rounds([one, two, other]) == [[one, other], [two]]


@pytest.mark.parametrize('said, is_fault', [
    ('fn c::a::f: no proof: expected answers in ./proofs/a/f/Answers.antt; `search` did not '
     'prove `x`', True),
    ('./proofs/a/f/Answers.antt:4:5: error: `x`: the two types first differ', True),
    ('./proofs/a/f/Answers.antt:4:5: error: `x`: `y` is not in scope', False),
    ('./proofs/a/f/Answers.antt:4:5: error: `x`: `y` was not admitted', False),
    ('./proofs/a/f/Answers.antt:4:5: error: antt ran out of stack', False),
    ('./proofs/a/g/Answers.antt:4:5: error: `x`: the two types first differ', False),
    ('fn c::a::f: no proof: it calls `c::a::g`, which is not proved', False),
    ('fn c::a::f: not proved; it calls `c::a::g`, which is not proved', False),
    ('fn c::a::f: could not tell', False), ('fn c::a::f: proved', False)])
def test_faults(said: str, is_fault: bool) -> None:
    """Only a goal of the function itself counts."""
    found = own_faults(f'first\n{said}\n', 'c', {'c::a::f'})
    assert found == ({'c::a::f': said} if is_fault else {})
