"""The lines in Rust that the page docs/try shows."""
import pytest

from tools.bindings import trial
from tools.bindings.exports import EXPORTS

API = '''\
fn checked::gcd<T: Integer + Fits>(x: T, y: T) -> Option<T>
fn calendar::Date::plus_days(&self, days: i64) -> Option<Self>
fn applied::lists::gcd_of<T: Integer>(numbers: &[T]) -> T
fn meeting<T>(now: T, a: (T, T)) -> T
'''


@pytest.mark.parametrize('path, export, line', [
    ('checked::gcd', 'gcd', 'cellarcove::checked::gcd({0!}, {1})'),
    ('calendar::Date::plus_days', 'plus_days', '{0}.plus_days({1})'),
    ('applied::lists::gcd_of', 'gcd_of', 'cellarcove::applied::lists::gcd_of(&[{0!}])'),
    ('meeting', 'gcd', ''), ('checked::gcd', 'product_modulo', ''), ('other', 'gcd', '')])
def test_lines(path: str, export: str, line: str) -> None:
    assert trial.line_in_rust(path, EXPORTS().forms()[export][0], API) == line


@pytest.mark.parametrize('kind, value, text', [
    ('i64', -8, '-8'), ('Fraction', (1, 2), '1/2'), ('Date', (2024, 2, 9), '2024-02-09'),
    ('&[i64]', [1, 2], '1, 2'), ('&[I64Congruence]', [(1, 4), (3, 6)], '1 mod 4, 3 mod 6')])
def test_texts(kind: str, value: object, text: str) -> None:
    assert trial.text_of(kind, value) == text


def test_each_call_has_a_line() -> None:
    assert [name for name, known in trial.facts() if not known[4]] == []
