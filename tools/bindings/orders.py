"""Compares the statuses of each export in words with what it returns: of the reasons that hold, the
status is the one that the comment names first, and of two fractions both reasons of the first come
before those of the second.

What an export returns is by_python.py's, which `check fuzz` compares with the exports. A reason is
a row of `REASONS` by its words, in which `X` stands for a name; one without a row fails the check.
It tries numbers at the ends of their types and beside 0, small ones, and random ones, so that
several reasons hold at a time."""
import itertools
import math
import random
import re
from collections.abc import Callable, Iterator, Sequence
from typing import Any

from tools import counted
from tools.bindings.by_python import I64, NOT_FITTING, RESULTS, ZERO_DENOMINATOR, Day
from tools.bindings.exports import EACH, EXPORTS, Call
from tools.bindings.fuzz import RANGES, columns, small, with_lists
from tools.bindings.python import grouped
from tools.bindings.rows import corners

STATUSES = {status.name: status.number for status in EXPORTS().statuses}
TRIED = 300
ROUNDS = 30  # of corners
Reason = Callable[[Sequence[Any], Sequence[Any]], Any]  # of the named arguments, and of all


def exists(date: tuple[int, int, int]) -> bool:
    """Whether there is such a date."""
    try:
        return bool(Day(*date).valid())
    except ValueError:
        return False


def has_week(year: int, week: int) -> bool:
    """Whether a year has this week."""
    return 1 <= week <= (52 if RESULTS['weeks_in_year'](I64, year) == (52,) else 53)


REASONS: dict[str, Reason] = {
    'X is 0': lambda x, _: x[0] == 0,
    'X is not positive': lambda x, _: x[0] <= 0,
    'the divisor is 0, or if there is not one quotient for each number': lambda _, every: (
        every[1] == 0
    ),
    'the three do not have the same length': lambda _, every: False,
    'X or X is 0': lambda x, _: 0 in x,
    'X or X is not positive': lambda x, _: min(x) <= 0,
    'X is negative': lambda x, _: x[0] < 0,
    'a number is negative': lambda _, every: min(every) < 0,
    'X is negative or not below X': lambda x, _: not 0 <= x[0] < x[1],
    'X is not below X': lambda x, _: x[0] >= x[1],
    'the numbers do not increase or are not all below X': lambda x, every: any(
        a >= b for a, b in itertools.pairwise([*every[0], x[0]])
    ),
    'there is no inverse': lambda _, every: every[1] > 0 and math.gcd(*every) != 1,
    'X has no inverse modulo X': lambda x, _: x[1] > 0 and math.gcd(*x) != 1,
    'there are more congruences': lambda _, every: len(every[1]) > 64,
    'a modulus is not positive': lambda _, every: any(modulus <= 0 for _, modulus in every[1]),
    'a modulus is 0': lambda _, every: any(modulus == 0 for _, modulus in every[1]),
    'X is not from 1 to 7': lambda x, _: not 1 <= x[0] <= 7,
    'X is not from 1 to 12': lambda x, _: not 1 <= x[0] <= 12,
    'there are more than 18 places': lambda _, every: every[1] > 18,
    'the year has no such week': lambda _, every: not has_week(every[0], every[1]),
    'the denominator is 0': lambda _, every: any(
        is_fraction(each) and each[1] == 0 for each in every
    ),
    'a denominator is 0': lambda _, every: any(
        is_fraction(each) and each[1] == 0 for each in every
    ),
    'X is 0 and the exponent is negative': lambda x, every: x[0][0] == 0 and every[1] < 0,
    'X is 0 and the argument, reduced, fits': lambda x, every: x[0] == 0 and not beyond(every[0]),
    'the fraction X is 0': lambda x, _: x[0][0] == 0,
    'a date does not exist': lambda _, every: not all(
        exists(each) for each in every if is_date(each)
    ),
}
# Reasons that are the model's own, if the result may be of any size.
BY_MODEL = {
    'there is no such number',
    'there is no such time',
    'there is no such date',
    'there is one, and the step does not fit',
    'it does not fit',
    'the number is negative',
}
ANY = (-(10**400), 10**400)


def is_fraction(argument: Any) -> bool:
    return isinstance(argument, tuple) and len(argument) == 2


def is_date(argument: Any) -> bool:
    return isinstance(argument, tuple) and len(argument) == 3


def beyond(fraction: tuple[int, int]) -> bool:
    """Whether a part of a fraction, reduced, does not fit."""
    common = math.gcd(*fraction)
    parts = (
        [part // common * (-1 if fraction[1] < 0 else 1) for part in fraction]
        if fraction[1]
        else [0]
    )
    return not all(I64[0] <= part <= I64[1] for part in parts)


def by_model(call: Call, status: int, arguments: Sequence[Any]) -> bool:
    """Whether the model has the status, or a result that does not fit, if it may be of any size."""
    if any(is_fraction(each) and (each[1] == 0 or beyond(each)) for each in arguments):
        return status == NOT_FITTING and any(
            is_fraction(each) and beyond(each) for each in arguments
        )
    found, bounds = RESULTS[call.name](ANY, *arguments), RANGES.get(call.form, I64)
    if isinstance(found, int) or status != NOT_FITTING:
        return found == status
    return RESULTS[call.name](bounds, *arguments) == NOT_FITTING


def holds(call: Call, sentence: str, arguments: Sequence[Any]) -> bool:
    """Whether the reason of a sentence holds."""
    _, name, words = sentence.rstrip('.').split('`', 2)
    values = dict(zip((parameter.name for parameter in call.parameters), arguments))
    parts = re.split(
        ', and if ', re.sub(', whatever .*| and neither holds', '', words.removeprefix(' if '))
    )
    for part in parts:
        named = [values[word] for word in re.findall('`(.*?)`', part)]
        said = re.sub('`.*?`', 'X', part)
        said = f'the fraction {said}' if said == 'X is 0' and is_fraction(named[0]) else said
        if said in BY_MODEL or 'fit' in said and said not in REASONS:
            found = by_model(call, STATUSES[name], arguments)
        else:
            found = REASONS[said](named, arguments)
        if found:
            return True
    return False


def in_words(call: Call, arguments: Sequence[Any]) -> int:
    """The status that the comment names."""
    fractions = [each for each in arguments if is_fraction(each)]
    if len(fractions) == 2:
        for each in fractions:
            if each[1] == 0 or beyond(each):
                return ZERO_DENOMINATOR if each[1] == 0 else NOT_FITTING
    return next(
        (
            STATUSES[sentence.split('`')[1]]
            for sentence in call.statuses
            if holds(call, sentence, arguments)
        ),
        0,
    )


def tried(call: Call) -> Iterator[Sequence[Any]]:
    """Arguments of a call."""
    if call.is_each:
        forms = EXPORTS().forms()[call.name.removesuffix(EACH)]
        [of_one] = [form for form in forms if form.form == call.form]
        for given in tried(of_one):
            yield [[each] if parameter.item else each
                   for parameter, each in zip(call.taken, given, strict=True)]
        return
    if call.has_slice:
        yield from (with_lists(call) for _ in range(TRIED))
        return
    rows = [list(zip(*small(call))), list(zip(*columns(call)))]
    for found in rows:
        yield from (
            grouped(call, numbers) for numbers in random.sample(found, min(TRIED, len(found)))
        )
    for _ in range(ROUNDS):
        yield from corners(call)


def wrong(call: Call) -> str:
    """Arguments for which the words of a call do not say what it returns, or an empty text."""
    bounds = RANGES.get(call.form, I64)
    for arguments in tried(call):
        result = RESULTS[call.name](bounds, *arguments)
        status, said = result if isinstance(result, int) else 0, in_words(call, arguments)
        if status != said:
            return f'{tuple(arguments)}: status {status}, and the comment says {said}'
    return ''


def check(_: list[str]) -> bool:
    random.seed(1)
    calls = [
        call
        for call in EXPORTS().calls
        if len(call.statuses) > 1 and 'text' not in ' '.join(call.statuses)
    ]
    return counted(
        (f'{call.symbol}{words}', not words) for call in calls for words in [wrong(call)]
    )
