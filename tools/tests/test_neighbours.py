"""The wrong conditions and arguments of guards that tools/checks/neighbours.py lists."""
import pytest

from tools.checks.neighbours import neighbours

PLACE = 'crate::integer_core::operators::'


@pytest.mark.parametrize('condition, wanted',
                         [('m > zero()', ['m >= zero()', f'm > {PLACE}one()']),
                          ('*self >= zero()',
                           ['*self > zero()',
                            '(*self >= zero() || *self == crate::taken_out::minus_one())']),
                          ('month <= 12', ['month < 12', '(month <= 12 || month == 12 + 1)']),
                          ('!is_negative(n)',
                           [f'{PLACE}is_below({PLACE}zero(), n)',
                            f'(!is_negative(n) || {PLACE}is_minus_one(n))']),
                          ('n != 0', ['n != 1']), ('a.f(&b) || b.f(&a)', ['a.f(&b)', 'b.f(&a)']),
                          ('n % 2 != 0 || x', ['n % 2 != 1 || x', 'n % 2 != 0', 'x']),
                          ('pairs.iter().all(|pair| pair.1 > T::zero())',
                           ['pairs.iter().all(|pair| pair.1 >= T::zero())',
                            f'pairs.iter().all(|pair| pair.1 > {PLACE}one())',
                            'pairs.iter().any(|pair| pair.1 > T::zero())']),
                          ('choices.map_or(true, |choices| rank < choices)',
                           ['choices.map_or(true, |choices| rank <= choices)',
                            'choices.map_or(true, |choices| rank + 1 < choices)',
                            'choices.map_or(false, |choices| rank < choices)'])])
def test_neighbours_of_a_condition(condition: str, wanted: list[str]) -> None:
    assert [text for _, text in neighbours('check', [condition], {})] == wanted


def test_neighbours_of_other_arguments() -> None:
    types = {'m': 'T', 'n': 'T', 'k': 'u32'}
    assert list(neighbours('check', ['is_below(a, m)'], types))[2:] == [(0, 'is_below(a, n)')]
    assert list(neighbours('check_lcm', ['&m', '&n'], types)) == [(0, '&n'), (1, '&m')]
    assert list(neighbours('check_choice', ['choice', 'n'], {})) == [
        (0, '&choice[choice.len().min(1)..]'), (0, '&choice[..choice.len().saturating_sub(1)]'),
        (1, 'n.wrapping_add(1)'), (1, 'n.wrapping_sub(1)')]
    assert not list(neighbours('some', ['m.checked_add(&n)'], types))
