"""Calls all exports on random numbers, and with --small first on all small ones, and compares what
they return with the integers, the fractions and the dates of Python (by_python.py). The package
`cellarcove` makes the calls, as it is installed: over arrays of numpy that lie in memory in any
way, and of one number.

It prints each call that is wrong, and at the end how many calls it made of how many exports. Its
status is 1 if a call was wrong, or if by_python.py does not say what an export returns. First it
wants of some calls what another returns, and each has to be found."""
from __future__ import annotations

import argparse
import array
import contextlib
import datetime
import itertools
import random
import time
from collections.abc import Callable, Iterable, Iterator, Sequence
from decimal import Decimal
from fractions import Fraction
from functools import partial
from types import SimpleNamespace
from typing import Any

with contextlib.suppress(ImportError):  # the rows for JavaScript need only the arguments
    import cellarcove

from tools.bindings.by_python import (BAD_MODULUS, I64, NOT_FITTING, OUTSIDE, PROPERTIES, RESULTS,
                                      U64, ZERO_DENOMINATOR)
from tools.bindings.exports import EXPORTS, PAIRS, Call, by_names, in_pairs
from tools.bindings.python import DIVIDES, LETTERS, MODULI, cells, grouped, public_calls

COUNT = 200                                     # elements of an array
ONE_BY_ONE = 8                                  # of them, which are called alone too
# numbers of each cell in the calls of all small ones, by the number of cells
SMALL = {1: 600, 2: 144, 3: 20, 4: 14, 5: 7, 6: 5}
RANGES = {'i64': I64, 'u64': U64, 'u32': (0, 2**32 - 1), 'i32': (-2**31, 2**31 - 1),
          'u16': (0, 2**16 - 1), 'u8': (0, 255)}
MOST_SHOWN = 20


class Wrong(Exception):
    """A call returns something else than it should."""


def number(kind: str, width: int) -> int:
    """A number of a type: most have as many bits as the width, and some are small, or beside an
    end of the type."""
    low, high = RANGES[kind]
    choice = random.random()
    if choice < 0.25 or kind not in ('i64', 'u64'):
        found = (random.randrange(-3 if low else 0, 370 if kind == 'u16' else 70) if choice < 0.9
                 else random.randint(low, high))
    elif choice < 0.4:
        found = random.choice((low, high, 0, 2**31, 2**32, 2**63)) + random.randint(-2, 2)
    else:
        found = random.getrandbits(width) * random.choice((1, 1, -1))
    return found if low <= found <= high else random.randint(low, high)


def columns(call: Call) -> list[array.array[int]]:
    """Arrays of random numbers, one for each cell of a call."""
    width = random.randint(1, 64)
    return [array.array(LETTERS[kind],
                        [number(kind, random.choice((width, 64))) for _ in range(COUNT)])
            for kind in cells(call)]


def small(call: Call) -> list[array.array[int]]:
    """All small numbers, from those below 0 to those above it, as arrays for the cells of a
    call."""
    kinds = cells(call)
    count = SMALL[len(kinds)]
    ranges = (range(-count // 2, count - count // 2) if kind == 'i64' else range(min(count, 256))
              for kind in kinds)
    return [array.array(LETTERS[kind], column)
            for kind, column in zip(kinds, zip(*itertools.product(*ranges)))]


def as_object(value: Any) -> Any:
    """A number; or a fraction or a date, at times as an object in place of a tuple."""
    if not isinstance(value, tuple) or random.random() < 0.3:
        return value
    if len(value) == 2:
        return Fraction(*value) if value[1] > 0 else value
    try:
        return random.choice((datetime.date, cellarcove.Date))(*value)
    except (OverflowError, ValueError):
        return SimpleNamespace(year=value[0], month=value[1], day=value[2])


def by_classes(call: Call, arguments: Sequence[Any]) -> Sequence[Any]:
    """The arguments with a congruence or a schedule for each pair of numbers."""
    def made(kind: str, pair: Any) -> Any:
        return getattr(cellarcove, kind)(**dict(zip(dict(PAIRS.values())[kind], pair)))
    if call.name == 'next_common_solution_of':
        start, items = arguments
        return start, (made('Congruence', item) for item in items)
    if call.module not in PAIRS:
        return arguments
    return [made(parameter.pair, given) if parameter.pair else given
            for parameter, given in zip(by_names(call).parameters, in_pairs(call, arguments))]


def plain(result: Any) -> tuple[int, ...]:
    """The numbers of a result."""
    if isinstance(result, Fraction):
        return result.numerator, result.denominator
    if isinstance(result, Decimal):
        sign, digits, exponent = result.as_tuple()
        assert isinstance(exponent, int)
        return sign, *divmod(int(''.join(map(str, digits))), 10**-exponent)
    if isinstance(result, cellarcove.Date):
        return result.year, result.month, result.day
    if hasattr(result, 'tolist'):
        return tuple(result.tolist())
    return tuple(map(int, result)) if isinstance(result, tuple) else (int(result),)


def judge(call: Call, arguments: Sequence[Any], status: int, values: Sequence[int] | None) -> None:
    """Raises if a call of these arguments does not return what it should. `values` is None if an
    error has the status."""
    bounds = RANGES.get(call.form, I64)
    if call.name in PROPERTIES:
        right, said = PROPERTIES[call.name](bounds, *arguments, status, values), 'what it should be'
    else:
        wanted = RESULTS[call.name](bounds, *arguments)
        right, said = (status == wanted if isinstance(wanted, int) else status == 0
                       and values == wanted, str(wanted))
    if status and values is not None and any(values):
        right, said = False, f'status {status} and zeros'
    if not right:
        raise Wrong(
            f'{call.symbol}{tuple(arguments)} is {values} with status {status}, and not {said}')


def placed(numpy: Any, column: array.array[int], kind: str) -> Any:
    """A column as an array of numpy: as it is, with its items far apart, at any byte, in the other
    order of bytes, or of a wider type if the parameter has a smaller one."""
    found, choice = numpy.array(column), random.randrange(6)
    if choice == 0:
        found = numpy.repeat(found, 3)[::3]
    elif choice == 1:
        found = numpy.frombuffer(b'x' + found.tobytes(), found.dtype, offset=1)
    elif choice == 2:
        found = found.astype(found.dtype.newbyteorder())
    elif choice == 3 and kind not in ('i64', 'u64'):
        found = found.astype(random.choice(('i8', 'u8') if min(column) >= 0 else ('i8',)))
    return found


def of_arrays(name: str, call: Call, taken: list[array.array[int]],
              number_last: bool = False) -> int:
    """Calls of arrays, of which the last may be a number beside the others."""
    import numpy  # noqa: PLC0415
    count, given = len(taken[0]), [placed(numpy, *each) for each in zip(taken, cells(call))]
    if number_last:
        given[-1] = taken[-1][0]
        taken = [*taken[:-1], array.array(taken[-1].typecode, given[-1:]) * count]
    found = getattr(cellarcove, name)(*by_classes(call, grouped(call, given)), errors='status')
    assert {len(column) for column in found} == {count}
    statuses, columns = found[-1].tolist(), [column.tolist() for column in found[:-1]]
    for numbers, status, values in zip(zip(*taken), statuses, zip(*columns)):
        judge(call, grouped(call, numbers), status, values)
    raises(name, call, given, statuses)
    return count


def raises(name: str, call: Call, given: Sequence[Any], statuses: Sequence[int]) -> None:
    """The same call raises the first status, or masks each."""
    arguments, first = (by_classes(call, grouped(call, given)),
                        next((status for status in statuses if status), 0))
    try:
        getattr(cellarcove, name)(*arguments)
        right = first == 0
    except cellarcove.Refused as refused:
        right = (refused.status, refused.count) == (first, sum(map(bool, statuses)))
        right &= refused.index is not None and refused.index == statuses.index(first)
    masked = getattr(cellarcove, name)(*arguments, errors='mask')
    mask = (masked if not isinstance(masked, tuple) else masked[0]).mask.tolist()
    if not right or mask != [status > 0 for status in statuses]:
        raise Wrong(f'{call.symbol} of arrays does not raise or mask status {first}')


def flat(arguments: Any) -> Iterator[int]:
    """All numbers of some arguments."""
    for argument in arguments:
        yield from flat(argument) if isinstance(argument, (list, tuple)) else [argument]


def chosen(forms: list[Call], arguments: Sequence[Any]) -> Call | None:
    """The form that a call of numbers has: one that fits the arguments, and the result if one
    does; or None."""
    if len(forms) == 1:
        return forms[0]
    numbers = list(flat(given
                        for given, p, q in zip(arguments, *(form.parameters for form in forms))
                        if p.kind != q.kind))
    fit = [form for form in forms
           if all(RANGES[form.form][0] <= number <= RANGES[form.form][1] for number in numbers)]
    return next((form for form in fit if RESULTS[form.name](RANGES[form.form], *arguments)
                 != NOT_FITTING), fit[-1] if fit else None)


def alone(name: str, forms: list[Call], numbers: Sequence[int]) -> int:
    """A call of numbers that are no arrays, if a form fits them."""
    arguments = grouped(forms[0], numbers)
    call = chosen(forms, arguments)
    if call:
        judge_one(name, call, [as_object(argument) for argument in arguments], arguments)
    return bool(call)


def listed(call: Call) -> list[Any]:
    """Random items of the list of a call: numbers with a common divisor, or congruences, most of
    which have a solution."""
    kind, width = (next(parameter.item for parameter in call.parameters if parameter.item),
                   random.randint(1, 64))
    low, common = RANGES[call.form][0], random.choice((1, 1, 6, 2**20))

    def some() -> int:
        if random.random() < 0.2:
            return number(call.form, width)
        return random.randrange(-6 if low else 0, 12) * common
    if kind in RANGES:
        return [some() for _ in range(random.randrange(8))]
    solution, count = some(), random.choice((0, 1, 2, 3, 3, 5, 8, 64, 65))
    moduli = [random.choice((2, 3, 4, 5, 7, 9, 11, 13,
                             random.randrange(1, 2**random.randint(1, 62)))) for _ in range(count)]
    if random.random() < 0.1 and moduli:
        moduli[-1] = some()
    return [(solution % m if m > 0 and random.random() < 0.97 else some(), m) for m in moduli]


def text() -> str:
    """A text of a date, a fraction or a decimal, of which a character may be another."""
    high = 10 ** random.choice((1, 4, 5, 18, 19, 20, 38, 40))
    year, day = random.randrange(-high, high), random.randrange(1, 33)
    found = random.choice((f'{year:04}-{random.randrange(14):02}-{day:02}',
                           f'{year:+05}-12-{day:02}', f'{year}/{random.randrange(-9, 9)}',
                           str(year), f'{year * day}/{day}', f'{year}.{day:0{day}}',
                           f'{year}.{day}{"0" * (day // 2)}'))
    place = random.randrange(len(found))
    return (found[:place] + random.choice('0129+-/.x \xe9') + found[place + random.randrange(2):]
            if random.random() < 0.3 else found)


def with_lists(call: Call) -> list[Any]:
    """Random arguments of a call with lists or with a text. The last one of a call that writes is
    the count, and not of one with weights."""
    lists, width = [parameter.item for parameter in call.parameters
                    if parameter.item], random.randint(1, 64)
    if lists == ['u8']:
        return [text()]
    if len(lists) == 2:
        return [number(call.form, width),
                [number('u64', random.choice((3, width))) for _ in range(random.randrange(6))]]
    if call.writes:
        return [*(number('u64', random.choice((width, 64, 8))) for _ in call.parameters[1:]),
                random.choice((0, 1, 2, 3, 5, 20))]
    items = listed(call)
    items = sorted(set(items)) if call.name == 'rank' and random.random() < 0.7 else items
    return [items if parameter.item else number(parameter.kind, width)
            for parameter in call.parameters]


def of_slice(name: str, forms: list[Call]) -> int:
    """A call with a list, or with an array, whose type is that of the form; or with a text."""
    form, in_buffer = random.choice(forms), random.random() < 0.5
    arguments, lists = (with_lists(form),
                        [parameter.item for parameter in form.parameters if parameter.item])
    in_buffer &= lists[0] in RANGES
    given = list[Any](arguments)
    for place in (place for place, value in enumerate(arguments) if isinstance(value, list)):
        given[place] = (array.array(LETTERS[lists[0]], given[place]) if in_buffer
                        else iter(given[place]) if random.random() < 0.5 else given[place])
    call = form if in_buffer and lists == [form.form] else chosen(forms, arguments)
    if not call:
        return 0
    if call.name in ('gcd_of', 'lcm_of') and not in_buffer and random.random() < 0.5:
        judge_one(call.name.removesuffix('_of'), call, arguments[0], arguments)
    judge_one(name, call, given, arguments)
    return 1


def is_by_zero(call: Call, status: int, arguments: Sequence[Any]) -> bool:
    """Whether the reason of a status is that a divisor, a modulus or a denominator is 0."""
    if status != BAD_MODULUS:
        return status == ZERO_DENOMINATOR or status == OUTSIDE and call.module in DIVIDES
    pairs = zip((parameter.name for parameter in call.parameters), arguments)
    return any(m == 0 for name, given in pairs
               for m in ((item[1] for item in given) if isinstance(given, list) else [given])
               if isinstance(given, list) or name in MODULI)


def judge_one(name: str, call: Call, given: Sequence[Any], arguments: Sequence[Any]) -> None:
    """Makes a call, and judges what it returns for the arguments, or the class of the error."""
    try:
        status, values = 0, plain(getattr(cellarcove, name)(*by_classes(call, given)))
    except cellarcove.Refused as refused:
        status, values = int(refused.status), None
        kinds = {ZeroDivisionError: is_by_zero(call, status, arguments),
                 OverflowError: status == NOT_FITTING}
        if any(isinstance(refused, kind) != wanted for kind, wanted in kinds.items()):
            raise Wrong(
                f'{call.symbol}{tuple(arguments)} raises {type(refused).__name__} with status '
                f'{status}') from refused
    judge(call, arguments, status, values)


def of_package(name: str, forms: list[Call]) -> int:
    """Some calls of the package, and how many."""
    if forms[0].has_slice:
        return sum(of_slice(name, forms) for _ in range(COUNT // 4))
    done = 0
    for call in forms:
        taken = columns(call)
        done += of_arrays(name, call, taken, len(taken) > 1 and random.random() < 0.3)
        done += sum(alone(name, forms, numbers) for numbers in list(zip(*taken))[:ONE_BY_ONE])
    return done


# Pairs of calls that differ at few arguments.
EXCHANGED = (('div_floor', 'div_ceil'), ('average_floor', 'average_ceil'), ('gcd', 'lcm'),
             ('sum_modulo', 'difference_modulo'), ('next_congruent', 'previous_congruent'),
             ('fraction_round', 'fraction_floor'), ('sqrt', 'cbrt'))


def not_found() -> Iterator[str]:
    """The exchanged calls that are not found."""
    for name, other in EXCHANGED:
        right, RESULTS[name] = RESULTS[name], RESULTS[other]
        if run(1, 0, [partial(of_package, name, dict(public_calls())[name])])[1] == 0:
            yield name
        RESULTS[name] = right


def run(seed: int, minutes: float, runners: Iterable[Callable[[], int]],
        shown: int = 0) -> tuple[int, int]:
    """How many calls were made, and how many runs were wrong, of which the first are shown."""
    random.seed(seed)
    done, wrong, end = 0, 0, time.monotonic() + 60 * minutes
    while True:
        for runner in runners:
            try:
                done += runner()
            except Wrong as error:
                wrong += 1
                if wrong <= shown:
                    print(error)
        if time.monotonic() >= end:
            return done, wrong


def check(words: list[str]) -> bool:
    parser = argparse.ArgumentParser(prog='tools/cellarcove check fuzz')
    parser.add_argument('--seed', type=int, default=1)
    parser.add_argument('--minutes', type=float, default=1)
    parser.add_argument('--small', action='store_true')
    options = parser.parse_args(words)
    unknown = sorted({call.name for call in EXPORTS().calls} - RESULTS.keys() - PROPERTIES.keys())
    missed = list(not_found())
    if unknown or missed:
        print(f'tools/bindings/by_python.py does not say what these return: {unknown}; '
              f'exchanged calls that are not found: {missed}')
        return False
    pairs = [(name, form) for name, forms in public_calls() for form in forms]
    if options.small:
        done, wrong = run(options.seed, 0,
                          [partial(of_arrays, name, form, small(form)) for name, form in pairs
                           if not form.has_slice], MOST_SHOWN)
        print(f'all small numbers: {done:,} calls; {wrong} runs are wrong')
        if wrong:
            return False
    begin = time.monotonic()
    done, wrong = run(options.seed, options.minutes,
                      [partial(of_package, name, forms) for name, forms in public_calls()],
                      MOST_SHOWN)
    spent = (time.monotonic() - begin) / 60
    print(f'seed {options.seed}: {done:,} calls of {len(pairs)} exports in {spent:.1f} '
          f'minutes, {done / spent:,.0f} a minute; {wrong} runs are wrong')
    return wrong == 0
