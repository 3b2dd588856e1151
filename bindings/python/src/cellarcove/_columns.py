"""The calls of what is no number: columns of numpy, pandas and dask, and numbers of other types.

`_calls` sends here what is not made of integers. `leaves_of` makes the numbers of each argument:
integers, or columns. If there is no column, the call is made again with integers. If there is one,
it goes to the ufunc of the call. numpy is imported by the first column."""

from __future__ import annotations

import array
import functools
import importlib
import operator
import sys
import warnings
from collections.abc import Callable, Iterable, Sequence
from decimal import Decimal
from typing import Any, NamedTuple

from . import _calls
from ._table import CALLS, Call

RANGES = {
    'q': (-(2**63), 2**63 - 1),
    'Q': (0, 2**64 - 1),
    'i': (-(2**31), 2**31 - 1),
    'I': (0, 2**32 - 1),
    'H': (0, 2**16 - 1),
    'B': (0, 2**8 - 1),
    '?': (0, 1),
}
NAMED = ('out', 'where', 'errors')
OF_ANY_COUNT = ('gcd', 'lcm')  # which take any count of numbers
ERRORS = ('raise', 'mask', 'status')
NO_DAY = -(2**63)  # the number of `NaT`
DAYS = 'days'  # the parameter that takes a `timedelta64[D]`: no other one counts days
NOT_FITTING = 2  # the status
COUNTED = '_counted'  # the end of the name of a ufunc that counts failures, and returns no statuses
ORDER = '<' if sys.byteorder == 'little' else '>'
WORDS = {ORDER + 'i8': 'q', ORDER + 'u8': 'Q', 'q': 'q', 'l': 'q', 'Q': 'Q', 'L': 'Q'}
PER_DAY = {'D': 1, 'h': 24, 'm': 1440} | {
    unit: 86400 * 1000**k for k, unit in enumerate(('s', 'ms', 'us', 'ns', 'ps'))
}
WITH_MISSING = (
    ": with missing values, pass pandas' Int64 by `.astype('Int64')`, which raises for a number "
    'that is no integer'
)
OF_TIMES = (
    ': a number of days is timedelta64[D], or an integer: `.dt.days`, with missing values '
    "`.dt.days.astype('Int64')`"
)
OF_FLOATS = "; 19.99 as cents is `(series * 100).round().astype('Int64')`, which rounds a float"

refusal: Callable[..., Exception]  # these three are of the package
out_of_range: Callable[..., Exception]
classes: dict[str, Any]


class Leaf(NamedTuple):
    """A number of a call, or a column of it. A column of dates stands for three numbers."""

    value: Any
    parameter: str
    is_dates: bool = False


class Task(NamedTuple):
    """A call of columns, but for these."""

    name: str
    errors: str
    leaves: tuple[Leaf, ...]

    def of(self, values: Iterable[Any]) -> tuple[Leaf, ...]:
        """The leaves with these in the place of the columns."""
        rest = iter(values)
        return tuple(
            leaf._replace(value=next(rest)) if is_column(leaf.value) or leaf.value is None else leaf
            for leaf in self.leaves
        )


# ---- arguments


def is_column(value: object) -> bool:
    """Whether an argument is an array: of numpy, pandas or dask, or a buffer."""
    return (
        isinstance(value, (array.array, memoryview))
        or hasattr(value, 'dtype')
        and hasattr(value, '__len__')
        and not is_of(value, 'dask.delayed', 'Delayed')  # which has any attribute
    )


def is_table(value: object) -> bool:
    """Whether an argument is a `DataFrame` of pandas, whose columns are taken one by one."""
    return is_of(value, 'pandas', 'DataFrame')


def wrong_type(name: str, parameter: str, value: object, wanted: str) -> TypeError:
    """The error of an argument of another type, with what to pass."""
    words = f'{name}(): {parameter} is no {wanted}, but of {type(value)}'
    if isinstance(value, (list, tuple)):
        words += ': pass an array of numpy'
    elif hasattr(value, 'columns'):
        words += ': pass one of its columns'
    elif unit(value).startswith('m8') and parameter == DAYS:
        words += ': a number of days is an int, or a timedelta64[D]'
    elif wanted == 'integer' and (hasattr(value, 'toordinal') or unit(value).startswith('M8')):
        words += ': its number is `day_from_date` of it'
    elif wanted == 'fraction':
        words += ': pass a Fraction, an int, a Decimal, or a tuple of a numerator and a denominator'
    elif wanted == 'date':
        words += ': pass a Date, a datetime.date, a datetime64[D], or a tuple of its three parts'
    return TypeError(words)


def unit(value: Any) -> str:
    """The kind and the unit of what counts time, such as `M8[D]`, or an empty text."""
    kind = getattr(getattr(value, 'dtype', None), 'kind', '')
    return str(value.dtype.str[1:]) if kind and kind in 'mM' and hasattr(value.dtype, 'str') else ''


def index(value: Any) -> int:
    """The integer of an object. That of a bool of numpy warns of its `__index__`."""
    return int(value) if is_of(value, 'numpy', 'bool_') else operator.index(value)


def cell(name: str, parameter: str, value: Any, wanted: str = 'integer') -> Leaf:
    """A number, as an `int`, or a column of numbers."""
    if is_table(value) or is_column(value):
        return Leaf(value, parameter)
    if unit(value) == 'm8[D]' and parameter == DAYS:
        value = value.astype('int64')
        if value == NO_DAY:
            raise TypeError(f'{name}(): {parameter} is NaT')
    try:
        return Leaf(index(value), parameter)
    except TypeError:
        raise wrong_type(name, parameter, value, wanted) from None


def date_cells(name: str, parameter: str, value: Any) -> list[Leaf]:
    """The numbers of a date, or its columns, of which there may be one. A table that has them has
    the columns `year`, `month` and `day`, and another one has columns of dates."""
    named = all(hasattr(value, part) for part in ('year', 'month', 'day'))
    if is_column(value) or is_table(value) and not named:
        return [Leaf(value, parameter, is_dates=True)]
    parts: Sequence[Any] = ()
    if isinstance(value, tuple):
        parts = value
    elif unit(value) == 'M8[D]':
        day = int(value.astype('int64'))
        parts = (
            ()
            if day == NO_DAY
            else operator.attrgetter('year', 'month', 'day')(_calls.date_from_day(day))
        )
    elif named and not isinstance(value.year, float):  # as that of pandas.NaT is
        parts = value.year, value.month, value.day
    if isinstance(value, tuple) and len(parts) != 3:
        raise ValueError(
            f'{name}(): {parameter}: a date has 3 parts, and the tuple has {len(parts)}'
        )
    if not parts:
        raise wrong_type(name, parameter, value, 'date')
    return [cell(name, parameter, part) for part in parts]


def fraction_cells(name: str, parameter: str, value: Any) -> list[Leaf]:
    """The numbers of a fraction, or its columns."""
    if isinstance(value, Decimal) and value.is_finite():
        value = value.as_integer_ratio()
    elif is_table(value) or is_column(value):
        value = value, 1
    elif (
        not isinstance(value, tuple)
        and hasattr(value, 'numerator')
        and hasattr(value, 'denominator')
    ):
        value = value.numerator, value.denominator
    if not isinstance(value, tuple):
        raise wrong_type(name, parameter, value, 'fraction')
    if len(value) != 2:
        raise ValueError(
            f'{name}(): {parameter}: a fraction has 2 parts, and the tuple has {len(value)}'
        )
    return [cell(name, parameter, part) for part in value]


def weight_cell(name: str, parameter: str, value: Any) -> Leaf:
    """A column of weights, or a list of them."""
    if is_column(value) or hasattr(value, 'columns'):
        return Leaf(value, parameter)
    return Leaf(list(map(index, value)), parameter)


def pair_cells(name: str, parameter: str, value: Any, wanted: Any) -> list[Leaf]:
    """The numbers of a congruence or of a schedule, or their columns."""
    if not isinstance(value, wanted):
        raise TypeError(f'{name}(): {parameter} is {value!r:.60}: pass {written(wanted)}')
    named = zip(wanted.__match_args__, value)
    return [cell(name, f'{parameter}.{part}', number) for part, number in named]


def written(pair: Any) -> str:
    """How a congruence or a schedule is written."""
    return f'{pair.__name__}({", ".join(f"{name}=.." for name in pair.__match_args__)})'


def leaves_of(name: str, call: Call, given: Sequence[Any]) -> list[list[Leaf]]:
    """The numbers and the columns of each argument."""
    found = []
    for parameter, shape, value in zip(call.names, call.shapes, given):
        if shape == 'd':
            found.append(date_cells(name, parameter, value))
        elif shape == 'f':
            found.append(fraction_cells(name, parameter, value))
        elif shape in {'c', 's'}:
            found.append(pair_cells(name, parameter, value, classes[shape]))
        elif shape == 'l':
            found.append([weight_cell(name, parameter, value)])
        else:
            value = value.value if shape == 'w' and isinstance(value, classes['Weekday']) else value
            found.append([cell(name, parameter, value)])
    return found


def call_of_others(name: str, given: Sequence[Any], names: Sequence[str] | None) -> Any:
    """A call with names, the last arguments, or whose arguments are not all integers."""
    call, count = CALLS[name], len(given) - len(names or ())
    if count == len(call.names) and (names is None or names == ('out',)):
        found = quick(name, given[:count], *given[count:])
        if found is not None:
            return found
        if names is None:
            return run(name, given, {})
    if name in OF_ANY_COUNT and count != 2:
        return of_any_count(name, given, names)
    named, given = dict(zip(names or (), given[count:])), given[:count]
    options = {key: named.pop(key) for key in NAMED if key in named}
    if call.numbers:
        given = [value for value in given if value is not None]
        named = {key: value for key, value in named.items() if value is not None}
    if call.numbers and (len(given) > len(call.names) or named.keys() & set(call.pairs)):
        bound = alone(name, given, named)
    else:
        bound = bind(name, call.names, given, named)
    return run(name, bound, options) if options else getattr(_calls, name)(*bound)


def of_any_count(name: str, given: Sequence[Any], names: Sequence[str] | None) -> Any:
    """A call of two numbers with another count of them: that of a list."""
    if names is not None:
        raise TypeError(f'{name}() takes two arrays with names')
    if any(hasattr(value, '__getitem__') for value in given):
        raise TypeError(f'{name}() takes arrays two at a time, and not {len(given)}')
    return getattr(_calls, f'{name}_of')(given)


def run(name: str, given: Sequence[Any], named: dict[str, Any]) -> Any:
    """A call of all its arguments, with `out`, `where` and `errors` by their names."""
    errors = named.get('errors', 'raise')
    if errors not in ERRORS:
        raise ValueError(f'{name}(): errors is one of {", ".join(ERRORS)}, and not {errors!r}')
    found = leaves_of(name, CALLS[name], given)
    leaves = tuple(leaf for group in found for leaf in group)
    if any(is_column(leaf.value) or hasattr(leaf.value, 'columns') for leaf in leaves):
        return of_columns(Task(name, errors, leaves), named.get('out'), named.get('where', True))
    if named:
        raise TypeError(f'{name}() takes {next(iter(named))} with an array, and none is given')
    if CALLS[name].shapes == 'nl':
        return shares_of_list(name, leaves[0].value, leaves[1].value)
    arguments = [
        pair_of(classes[shape], (leaf.value for leaf in group))
        if shape in {'c', 's'}
        else group[0].value
        if len(group) == 1
        else tuple(leaf.value for leaf in group)
        for shape, group in zip(CALLS[name].shapes, found)
    ]
    return getattr(_calls, name)(*arguments)


# ---- congruences and schedules


def alone(name: str, given: Sequence[Any], named: dict[str, Any]) -> list[Any]:
    """The arguments of a call of congruences or schedules whose numbers stand alone."""
    call = CALLS[name]
    bound = bind(name, call.numbers, given, named)
    start, pair = call.shapes.count('n'), classes[call.shapes[-1]]
    if any(isinstance(value, pair) for value in bound):
        raise TypeError(f'{name}() takes {written(pair)}, or its numbers by their names')
    if len(call.shapes) - start > 1 or len(given) > start:
        words = f'{name}() takes {written(pair)}: numbers alone are easily swapped'
        warnings.warn(words, DeprecationWarning, stacklevel=3)
    rest = iter(bound[start:])
    return [*bound[:start], *(pair_of(pair, both) for both in zip(rest, rest))]


def pair_of(pair: Any, numbers: Iterable[Any]) -> Any:
    """A congruence or a schedule of its numbers."""
    return pair(**dict(zip(pair.__match_args__, numbers)))


def bind(
    name: str, names: Sequence[str], given: Sequence[Any], named: dict[str, Any]
) -> list[Any]:
    """The arguments in the order of the parameters."""
    if len(given) > len(names):
        raise TypeError(f'{name}() takes {len(names)} arguments and was given {len(given)}')
    bound = dict(zip(names, given))
    for key, value in named.items():
        if key not in names:
            raise TypeError(f'{name}() has no parameter {key}')
        if key in bound:
            raise TypeError(f'{name}() was given {key} twice')
        bound[key] = value
    missing = [key for key in names if key not in bound]
    if missing:
        raise TypeError(f'{name}() was given no {missing[0]}')
    return [bound[key] for key in names]


def shares_of_list(name: str, amount: int, weights: list[int]) -> Any:
    """The shares of a number by a list of weights."""
    kind = 'q' if amount < 0 else 'Q'
    if not RANGES[kind][0] <= amount <= RANGES[kind][1]:
        raise out_of_range(amount, kind)
    return getattr(_calls, name)(amount, weights)


# ---- lists


def listed(value: Any, width: int) -> list[Any]:
    """The items of an iterable, which are congruences if each has several numbers."""
    found = list(value)
    if width == 1:
        return found
    if not all(isinstance(item, classes['c']) for item in found):
        words = f'a pair is easily swapped: pass {written(classes["c"])}'
        warnings.warn(words, DeprecationWarning, stacklevel=3)
    pairs = [tuple(item) for item in found]
    if any(len(pair) != width for pair in pairs):
        raise ValueError(f'an item has not {width} numbers')
    return [pair_of(classes['c'], pair) for pair in pairs]


def words_of(numpy: Any, value: Any) -> tuple[Any, str]:
    """An array of integers of 64 bits that lie side by side, or its bytes, with the letter of
    their type. The letter of what is no such array is none."""
    if isinstance(value, array.array) and value.itemsize == 8:
        return value.tobytes(), WORDS.get(value.typecode, '')
    if type(value) is not numpy.ndarray or value.ndim != 1:
        return value, ''
    lies_so = value.flags.c_contiguous and value.flags.aligned
    return value, WORDS.get(value.dtype.str, '') if lies_so else ''


def items(name: str, value: Any, width: int, has_signed: bool) -> list[Any] | tuple[Any, str]:
    """The items of an iterable, or an array of one dimension, or its bytes, with the letter of
    their type."""
    if width > 1 or not is_column(value):
        return listed(value, width)
    numpy, _ = modules(name)
    words, letter = words_of(numpy, value)
    if letter == 'Q' or letter and has_signed:
        return words, letter
    data, missing = plain(numpy, name, Leaf(value, 'the list'))
    if missing is not None and missing.any():
        raise ValueError(f'{name}(): an item of the array is missing')
    if data.ndim != 1:
        raise ValueError(f'{name}(): the array has {data.ndim} dimensions, and not one')
    kind = 'Q' if not has_signed or data.dtype.kind == 'u' and data.dtype.itemsize == 8 else 'q'
    made = as_kind(numpy, name, Leaf(data, 'the list'), None, kind)
    return numpy.ascontiguousarray(made, 'int64' if kind == 'q' else 'uint64').tobytes(), kind


# ---- columns


@functools.lru_cache(maxsize=1)
def imported() -> tuple[Any, Any]:
    return importlib.import_module('numpy'), importlib.import_module('._ufuncs', __package__)


def modules(name: str) -> tuple[Any, Any]:
    """numpy and the ufuncs."""
    try:
        return imported()
    except ImportError as error:
        words = 'which is not there: install numpy'
        if sys.modules.get('numpy'):
            words = 'and was built with another version of it: build it with this one'
        raise ImportError(f'{name}() takes arrays by numpy, {words} ({error})') from error


def is_of(value: object, module: str, name: str) -> bool:
    """Whether a value is of a class of a module, which is not imported here."""
    found = sys.modules.get(module)
    return found is not None and isinstance(value, getattr(found, name))


def of_columns(task: Task, out: Any, where: Any) -> Any:
    """A call of columns, by the library whose they are."""
    numpy, _ = modules(task.name)
    if where is not True:
        where = chosen(numpy, task.name, where)
    if CALLS[task.name].shapes != 'nl' and any(is_table(leaf.value) for leaf in task.leaves):
        if out is not None or where is not True:
            raise TypeError(f'{task.name}() takes no out and no where with a table')
        return of_tables(task)
    leaves = task.leaves
    if isinstance(leaves[-1].value, list):
        leaves = (*leaves[:-1], leaves[-1]._replace(value=numpy.asarray(leaves[-1].value)))
        task = task._replace(leaves=leaves)
    columns = [leaf.value for leaf in task.leaves if is_column(leaf.value)]
    if any(
        is_of(column, 'dask.array', 'Array') or hasattr(column, '__dask_graph__')
        for column in columns
    ):
        if out is not None or where is not True:
            raise TypeError(f'{task.name}() takes no out and no where with an array of dask')
        return classed(task, of_dask(task, columns))
    series = [column for column in columns if is_of(column, 'pandas', 'Series')]
    if CALLS[task.name].shapes == 'nl':
        if out is not None or where is not True:
            raise TypeError(f'{task.name}() takes no out and no where')
        return of_shares(numpy, task)
    if series and out is None:
        return classed(task, of_pandas(task, series, where))
    if is_of(where, 'pandas', 'Series'):
        series, where = [*series, where], numpy.asarray(where)
    if any(not column.index.equals(series[0].index) for column in series):
        raise ValueError(f'{task.name}(): the columns have not the same index, and out has none')
    return classed(task, of_numpy(task, task.leaves, out, where))


def chosen(numpy: Any, name: str, where: Any) -> Any:
    """Which elements have a result: a column of pandas, or an array, of bools."""
    flags = numpy.asarray(where)
    if flags.dtype.kind != 'b':
        raise TypeError(f'{name}(): where is of {flags.dtype}, and not of bools')
    return where if is_of(where, 'pandas', 'Series') else flags


def classed(task: Task, found: Sequence[Any]) -> Any:
    """The columns of a result: one, or several as their class."""
    if len(found) == 1:
        return found[0]
    named = classes.get(CALLS[task.name].result) if task.errors != 'status' else None
    return tuple(found) if named is None else named(*found)


def plain(numpy: Any, name: str, leaf: Leaf) -> tuple[Any, Any]:
    """The numbers of a column as an array of numpy, and where they are missing, or `None`."""
    value = leaf.value
    if isinstance(value, numpy.ma.MaskedArray):
        return value.data, None if value.mask is numpy.ma.nomask else value.mask
    masked = getattr(getattr(value, 'dtype', None), 'numpy_dtype', None)
    if (
        masked is not None and masked.kind in 'iub'
    ):  # a column of pandas whose numbers may be missing
        return value.to_numpy(dtype=masked, na_value=0), numpy.asarray(value.isna())
    data = numpy.asarray(value)
    if data.dtype.kind == 'O':
        raise wrong_items(name, leaf, data)
    if data.dtype.kind in 'mM':
        return data, numpy.isnat(data)
    return data, None


def wrong_items(name: str, leaf: Leaf, data: Any) -> TypeError:
    """The error of a column of another type, with what to do. Its numbers are these."""
    kind = getattr(leaf.value, 'dtype', data.dtype)  # of pandas, whose numbers may be objects
    wanted = 'datetime64' if leaf.is_dates else 'integers'
    words = f'{name}(): {leaf.parameter} is a column of {kind}, and not of {wanted}'
    if hasattr(kind, 'tz'):
        words += ': without its time zone it is `.dt.tz_localize(None)`'
    elif leaf.is_dates:
        words += ': pass a tuple of a year, a month and a day'
        words += ', or `pandas.to_datetime` of it' * (data.dtype.kind in 'OU')
    else:
        words += {
            'M': ': pass its day numbers, by `cellarcove.day_from_date`',
            'm': OF_TIMES * (leaf.parameter == DAYS),
            'f': WITH_MISSING + OF_FLOATS,
            'O': with_objects(data),
            'U': with_objects(data),
        }.get(data.dtype.kind, '')
    return TypeError(words)


def with_objects(data: Any) -> str:
    """What to do with a column of objects, by its first one of a type that is known here."""
    found = next((item for item in data.flat if isinstance(item, (Decimal, str, float))), None)
    if not isinstance(found, (Decimal, str)):
        return WITH_MISSING + OF_FLOATS * isinstance(found, float)
    number = 'd' if isinstance(found, Decimal) else 'decimal.Decimal(d)'
    return (
        ': 19.99 as cents is '
        f'`series.map(lambda d: cellarcove.fraction_round_even_times({number}, 100))`, after '
        '`.dropna()` if some are missing'
    )


def as_kind(numpy: Any, name: str, leaf: Leaf, missing: Any, kind: str) -> Any:
    """A column or a number whose numbers are in the range of a type."""
    value = leaf.value
    low, high = RANGES[kind]
    if isinstance(value, int):
        if not low <= value <= high:
            raise out_of_range(value, kind)
        return numpy.array(value, kind)
    if value.dtype.str[1:] == 'm8[D]' and leaf.parameter == DAYS:
        value = value.astype('int64')
    if value.dtype.kind not in 'iub':
        raise wrong_items(name, leaf, value)
    if numpy.can_cast(value.dtype, kind, 'safe') or value.size == 0:
        return value
    value = value if missing is None else numpy.where(missing, 0, value)
    if low <= int(value.min()) and int(value.max()) <= high:
        return value
    beyond = (
        (value < low)
        if low > RANGES[value.dtype.char if value.dtype.char in RANGES else 'q'][0]
        else False
    )
    place = int(
        numpy.argmax(
            beyond | (value > high) if high < 2**63 or value.dtype.kind == 'u' else beyond
        )
    )
    raise out_of_range(int(value.flat[place]), kind, place)


def days_of(numpy: Any, name: str, leaf: Leaf, data: Any) -> Any:
    """The day numbers of a column of dates. A time counts as its day."""
    if data.dtype.kind != 'M':
        raise wrong_items(name, leaf, data)
    unit, count = numpy.datetime_data(data.dtype)
    # numpy's own cast wraps, also for the first day of a unit
    if count > 1 or unit not in PER_DAY:
        unit = unit if unit in PER_DAY else 'D'
        cast = data.astype(f'M8[{unit}]')
        if ((cast.astype(data.dtype) != data) & ~numpy.isnat(data)).any():
            raise OverflowError(
                f'{name}(): {leaf.parameter} has a date that is no datetime64[{unit}]'
            )
        data = cast
    if unit == 'D':
        return data.astype('M8[D]', copy=False).view('int64')
    return data.astype('int64') // PER_DAY[unit]


def cells_of(numpy: Any, ufuncs: Any, name: str, leaves: Sequence[Leaf]) -> tuple[list[Leaf], Any]:
    """The columns and numbers of all cells, and where one is missing, or `None`."""
    found: list[Leaf] = []
    missing = None
    for leaf in leaves:
        if isinstance(leaf.value, int):
            found.append(leaf)
            continue
        data, mask = plain(numpy, name, leaf)
        mask = mask if mask is not None and mask.any() else None
        if mask is not None:
            missing = mask if missing is None else missing | mask
        if leaf.is_dates:
            days = days_of(numpy, name, leaf, data)
            days = days if mask is None else numpy.where(mask, 0, days)
            found += [Leaf(part, leaf.parameter) for part in ufuncs.date_from_day(days)]
        else:
            found.append(leaf._replace(value=data))
    return found, missing


def form_of(name: str, call: Call, cells: Sequence[Leaf]) -> int:
    """Which form a call of columns has: the unsigned one if a column is unsigned and of 64 bits, or
    if a number is beyond the other one and nothing is signed."""
    if len(call.forms) == 1:
        return 0
    follow = [
        leaf.value
        for leaf, *kinds in zip(cells, *(form[0] for form in call.forms))
        if kinds[0] != kinds[1]
    ]
    kinds = {
        value.dtype.str[1:]
        for value in follow
        if not isinstance(value, int) and value.dtype.kind in 'iu'
    }
    numbers = [value for value in follow if isinstance(value, int)]
    signed = any(kind[0] == 'i' for kind in kinds)
    if 'u8' in kinds and signed:
        raise TypeError(
            f'{name}(): a column is signed and another one is uint64: pass columns of one type'
        )
    return int(
        'u8' in kinds
        or not signed
        and all(number >= 0 for number in numbers)
        and max(numbers, default=0) >= 2**63
    )


def of_numpy(
    task: Task, leaves: Sequence[Leaf], out: Any, where: Any, last_day: int = 2**63 - 1
) -> list[Any]:
    """The columns of a result as arrays of numpy, and that of the statuses if asked for. A date has
    no result if it is after the last day, or as long before 1970."""
    numpy, ufuncs = modules(task.name)
    call = CALLS[task.name]
    cells, missing = cells_of(numpy, ufuncs, task.name, leaves)
    taken, returned = call.forms[form_of(task.name, call, cells)]
    given = [as_kind(numpy, task.name, leaf, missing, kind) for leaf, kind in zip(cells, taken)]
    dated = call.result == 'Date' and any(leaf.is_dates for leaf in leaves)
    if out is not None and (dated or missing is not None or task.errors == 'mask'):
        raise TypeError(f'{task.name}() takes no out for dates or for what may be missing')
    outputs, status = None, None
    if task.errors == 'raise' and out is None and where is True and missing is None:
        outputs = without_failure(numpy, task.name, given, taken, returned, call)
    if outputs is None:
        outputs, status = ran(numpy, task.name, given, taken, returned, call, out, where)
    if where is not True:
        missing = ~where if missing is None else missing | ~where
    if dated:
        outputs, status = as_dates(numpy, ufuncs, outputs, status, last_day)
    if status is not None and missing is not None:
        status = numpy.where(missing, 0, status).astype('u1')
    shape = numpy.broadcast_shapes(*(numpy.shape(value) for value in given))
    if task.errors == 'raise' and status is not None and status.max(initial=0):
        raise first_error(numpy, call, given, status)
    if task.errors == 'mask':
        failed = numpy.zeros(shape, bool) if status is None else status != 0
        missing = failed if missing is None else missing | failed
    made = (
        [with_missing(numpy, output, missing) for output in outputs]
        if out is None
        else list(outputs)
    )
    if task.errors == 'status':
        made.append(numpy.zeros(shape, 'u1') if status is None else status)
    return made


def places(numpy: Any, name: str, returned: str, out: Any) -> tuple[Any, ...]:
    """The arrays that get the results, which have their types."""
    found = out if isinstance(out, tuple) else (out,)
    if len(found) != len(returned):
        raise ValueError(f'{name}(): out is a tuple of {len(returned)} arrays')
    for given, kind in zip(found, returned):
        dtype = numpy.dtype(kind)
        is_array = isinstance(given, numpy.ndarray)
        if not is_array or given.dtype.newbyteorder('=') != dtype:
            raise TypeError(
                f'{name}(): out is of {given.dtype if is_array else type(given)}, '
                f'and a result is of {dtype}'
            )
    return found


def ran(
    numpy: Any,
    name: str,
    given: Sequence[Any],
    taken: str,
    returned: str,
    call: Call,
    out: Any,
    where: Any,
) -> tuple[Any, Any]:
    """What a ufunc returns, and the statuses or `None`. The ranges of the numbers have been
    compared, so that a cast loses nothing."""
    count, ufunc = len(returned), getattr(modules(name)[1], name)
    named: dict[str, Any] = {}
    if out is not None:
        named['out'] = (*places(numpy, name, returned, out), *(None,) * call.has_status)
    if where is not True:
        shape = numpy.broadcast_shapes(numpy.shape(where), *(numpy.shape(value) for value in given))
        named['where'] = where
        named['out'] = (
            *named.get('out', (None,) * count)[:count],
            *(numpy.zeros(shape, 'u1'),) * call.has_status,
        )
    signature = signature_of(numpy, taken, returned + 'B' * call.has_status)
    found = ufunc(*given, signature=signature, casting='unsafe', **named)
    found = found if isinstance(found, tuple) else (found,)
    return found[:count], numpy.asarray(found[count]) if call.has_status else None


def without_failure(
    numpy: Any, name: str, given: Sequence[Any], taken: str, returned: str, call: Call
) -> Any:
    """What a ufunc returns, or `None` if an element has no result."""
    _, ufuncs = modules(name)
    ufunc, before = getattr(ufuncs, name + COUNTED * call.has_status), ufuncs.failures()
    found = ufunc(*given, signature=signature_of(numpy, taken, returned), casting='unsafe')
    if ufuncs.failures() != before:
        return None
    return found if isinstance(found, tuple) else (found,)


def signature_of(numpy: Any, taken: str, returned: str) -> str:
    """The types of a loop of a ufunc, as numpy writes them."""

    def letters(kinds: str) -> str:
        return ''.join(numpy.dtype({'q': 'i8', 'Q': 'u8'}.get(kind, kind)).char for kind in kinds)

    return f'{letters(taken)}->{letters(returned)}'


def as_dates(
    numpy: Any, ufuncs: Any, outputs: Any, status: Any, last_day: int
) -> tuple[Any, Any]:
    """A column of dates in the place of three, and the statuses. No day is that of `NaT`."""
    if status is None:
        before, days = ufuncs.failures(), ufuncs.day_from_date_counted(*outputs)
        low, high = days.min(initial=0), days.max(initial=0)
        if ufuncs.failures() == before and -last_day <= low and high <= last_day:
            return (numpy.asarray(days).view('M8[D]'),), None
    days, failed = ufuncs.day_from_date(*outputs)
    failed = numpy.where((days < -last_day) | (days > last_day), NOT_FITTING, failed)
    status = failed if status is None else numpy.where(status != 0, status, failed)
    days = numpy.where(status != 0, NO_DAY, days)
    return (numpy.asarray(days).view('M8[D]'),), status


def with_missing(numpy: Any, output: Any, missing: Any) -> Any:
    """A column in which some are missing: `NaT`, or those of an array with a mask."""
    if missing is None:
        return output
    mask = numpy.broadcast_to(missing, numpy.shape(output))
    if output.dtype.kind == 'M':
        return numpy.where(mask, numpy.datetime64('NaT'), output)
    return numpy.ma.MaskedArray(output, mask.copy())


def first_error(numpy: Any, call: Call, given: Sequence[Any], status: Any) -> Exception:
    """The error of the first element that has no result."""
    failed = status != 0
    place = int(numpy.argmax(failed))
    index = tuple(map(int, numpy.unravel_index(place, status.shape)))
    numbers = (
        [numpy.broadcast_to(value, status.shape)[index] for value in given] if call.divisors else []
    )
    by_zero = any(numbers[k] == 0 for k in call.divisors)
    where = index[0] if len(index) == 1 else index
    return refusal(int(status[index]), by_zero, where, int(numpy.count_nonzero(failed)))


class Plan(NamedTuple):
    """How a call of arrays of numpy runs whose types are those of a form, or smaller."""

    ufunc: Any
    checked: Any  # the ufunc that returns statuses, or `None`
    failures: Callable[[], int]
    signature: str
    results: int
    made: Any  # the type of the first result
    numbers: tuple[
        tuple[int, int, int, Any], ...
    ]  # the places of numbers with their ranges and their types
    result: Any


@functools.lru_cache(maxsize=1024)
def plan_of(name: str, kinds: tuple[Any, ...]) -> Plan | None:
    """The plan for arguments of these types, which are those of the items of arrays, or `int`."""
    call = CALLS[name]
    if set(call.shapes) > {'n', 'w'} or not all(
        kind is int or getattr(kind, 'kind', '') in {'i', 'u', 'b'} for kind in kinds
    ):
        return None
    numpy, ufuncs = modules(name)
    samples = [Leaf(0 if kind is int else numpy.empty(1, kind), '') for kind in kinds]
    taken, returned = call.forms[form_of(name, call, samples)]
    if not all(
        kind is int or numpy.can_cast(kind, letter, 'safe') for kind, letter in zip(kinds, taken)
    ):
        return None
    numbers = tuple(
        (k, *RANGES[taken[k]], numpy.dtype(taken[k])) for k, kind in enumerate(kinds) if kind is int
    )
    return Plan(
        getattr(ufuncs, name + COUNTED * call.has_status),
        getattr(ufuncs, name) if call.has_status else None,
        ufuncs.failures,
        signature_of(numpy, taken, returned),
        len(returned),
        numpy.dtype(returned[0]),
        numbers,
        classes.get(call.result),
    )


def quick(name: str, given: Sequence[Any], out: Any = None) -> Any:
    """The result of a call of arrays of numpy and of `int`s, or `None` if there is more to do, such
    as to raise an error."""
    numpy = sys.modules.get('numpy')
    if (
        numpy is None
        or 'd' in CALLS[name].shapes
        or 'f' in CALLS[name].shapes
        or 'l' in CALLS[name].shapes
    ):
        return None
    array_type = numpy.ndarray
    kinds = tuple([value.dtype if type(value) is array_type else type(value) for value in given])
    plan = plan_of(name, kinds) if array_type in map(type, given) else None
    if plan is None:
        return None
    if plan.numbers:
        given = list(given)
        for place, low, high, kind in plan.numbers:
            if not low <= given[place] <= high:
                return None
            given[place] = numpy.array(given[place], kind)
    if out is not None:
        return into(numpy, name, plan, given, out)
    before = plan.failures()
    found = plan.ufunc(*given, signature=plan.signature)
    if plan.failures() != before:
        return None
    return found if plan.results == 1 or plan.result is None else plan.result(*found)


def into(numpy: Any, name: str, plan: Plan, given: Sequence[Any], out: Any) -> Any:
    """The same in an array, which may be one that is given: so no call is made again. `None` if it
    is another array than one of the result."""
    if plan.results > 1 or type(out) is not numpy.ndarray or out.dtype != plan.made:
        return None
    if plan.checked is None:
        return plan.ufunc(*given, out=out, signature=plan.signature)
    _, status = plan.checked(*given, out=(out, None), signature=plan.signature + 'B')
    if status.any():
        raise first_error(numpy, CALLS[name], given, numpy.asarray(status))
    return out


# ---- shares


def of_shares(numpy: Any, task: Task) -> Any:
    """The shares of each amount by weights, which lie along the last axis."""
    amount, weights = task.leaves
    if is_table(weights.value):
        index = weights.value.index
        amount = amount._replace(value=joined(numpy, task.name, amount, index))
    parts_of, none = weights_of(numpy, task.name, weights)
    amounts, missing = (
        (amount.value, None) if isinstance(amount.value, int) else plain(numpy, task.name, amount)
    )
    if none is not None and none.any() or missing is not None and missing.any():
        raise ValueError(f'{task.name}(): an amount or a weight is missing')
    call, cells = CALLS[task.name], [
        Leaf(amounts, amount.parameter),
        Leaf(parts_of, weights.parameter),
    ]
    if not isinstance(parts_of, numpy.ndarray) or parts_of.ndim == 0:
        raise TypeError(f'{task.name}(): weights is no array')
    kind = call.forms[form_of(task.name, call, cells)][0][0]
    first = as_kind(numpy, task.name, cells[0], None, kind)
    given = [first, as_kind(numpy, task.name, cells[1], None, 'Q')]
    taken, returned = call.forms[0 if kind == 'q' else -1]
    (parts,), status = ran(numpy, task.name, given, taken, returned, call, None, True)
    return divided(numpy, task, weights.value, parts, status)


def weights_of(numpy: Any, name: str, leaf: Leaf) -> tuple[Any, Any]:
    """The weights as an array of numpy, and where they are missing, or `None`. A table has a weight
    in each column."""
    if not is_table(leaf.value) or leaf.value.shape[1] == 0:
        return plain(numpy, name, leaf)
    columns = [
        plain(numpy, name, leaf._replace(value=leaf.value.iloc[:, k]))
        for k in range(leaf.value.shape[1])
    ]
    missing = [numpy.zeros(data.shape, bool) if mask is None else mask for data, mask in columns]
    return numpy.stack([data for data, _ in columns], -1), numpy.stack(missing, -1)


def joined(numpy: Any, name: str, amount: Leaf, index: Any) -> Any:
    """The amounts of a `Series`, each in the place of its label in the index of the weights. Other
    amounts have no index, and stay in their places."""
    if is_table(amount.value):
        raise wrong_type(name, amount.parameter, amount.value, 'column')
    if not is_of(amount.value, 'pandas', 'Series') or amount.value.index.equals(index):
        return amount.value
    if amount.value.index.is_unique:
        found = amount.value.index.get_indexer(index)
        # each row has an amount, and each amount has a row
        if (found >= 0).all() and numpy.unique(found).size == len(amount.value):
            return amount.value.iloc[found]
    raise ValueError(
        f'{name}(): the amounts and the rows of weights have not the same index: for those in the '
        'same place, pass the amounts by `.to_numpy()`'
    )


def divided(numpy: Any, task: Task, weights: Any, parts: Any, status: Any) -> Any:
    """The shares of each row, as what the weights are."""
    if task.errors == 'raise' and status.max(initial=0):
        raise first_error(numpy, CALLS[task.name], [], status)
    if task.errors == 'mask':
        parts = with_missing(numpy, parts, (status != 0)[..., None])
    parts = as_weights(weights, parts)
    return (parts, status) if task.errors == 'status' else parts


def as_weights(weights: Any, parts: Any) -> Any:
    """The shares in the places of the weights of a table, or of a `Series` by which one amount is
    divided. Other ones are an array."""
    if is_of(weights, 'pandas', 'Series') and parts.ndim == 1:
        return type(weights)(nullable(parts), index=weights.index, name=weights.name)
    if not is_table(weights):
        return parts
    if hasattr(parts, 'mask'):
        parts = {k: nullable(parts[:, k]) for k in range(parts.shape[1])}
    found = type(weights)(parts, index=weights.index)
    found.columns = weights.columns
    return found


# ---- pandas


class Ufunc:
    """A call as pandas wants a ufunc of its columns alone: it joins them by their index, and makes
    the columns of the result."""

    def __init__(self, task: Task, where: Any) -> None:
        self.task, self.where, self.__name__ = task, where, 'cellarcove'
        self.nout, self.nin = results_of(task), max(len(task.leaves) + 1, 3)

    def __call__(self, *columns: Any) -> Any:
        rest = iter(columns)
        leaves = [
            leaf._replace(value=next(rest)) if is_of(leaf.value, 'pandas', 'Series') else leaf
            for leaf in self.task.leaves
        ]
        where = next(rest, self.where)
        joined = [(leaf.value, given.value) for leaf, given in zip(leaves, self.task.leaves)]
        for column, given in [*joined, (where, self.where)]:
            # a label that another index lacks makes floats of integers
            if column is not given and column.dtype != given.dtype:
                raise ValueError(
                    f'{self.task.name}(): the columns have not the same index: with missing '
                    "values, pass pandas' Int64 by `.astype('Int64')`"
                )
        found = of_numpy(self.task, leaves, None, where, last_day())
        made = tuple(map(nullable, found))
        return made if self.nout > 1 else made[0]


@functools.lru_cache(maxsize=1)
def last_day() -> int:
    """The last day that pandas has in a column of dates: one of 2262 if it counts nanoseconds, as
    before its version 2."""
    numpy, pandas = map(importlib.import_module, ('numpy', 'pandas'))
    unit, _ = numpy.datetime_data(pandas.Series(numpy.array([0], 'M8[D]')).dtype)
    return (2**63 - 1) // PER_DAY[unit]


def nullable(column: Any) -> Any:
    """A column of pandas in which values are missing, of one with a mask."""
    numpy, pandas = map(importlib.import_module, ('numpy', 'pandas'))
    if not isinstance(column, numpy.ma.MaskedArray):
        return column
    kind = pandas.arrays.BooleanArray if column.dtype.kind == 'b' else pandas.arrays.IntegerArray
    return kind(column.data, numpy.ma.getmaskarray(column).copy())


def results_of(task: Task) -> int:
    """How many columns a call returns. Dates are one if they are given as columns of dates."""
    call = CALLS[task.name]
    is_day = call.result == 'Date' and any(leaf.is_dates for leaf in task.leaves)
    return (1 if is_day else len(call.forms[0][1])) + (task.errors == 'status')


def of_pandas(task: Task, series: Sequence[Any], where: Any) -> Sequence[Any]:
    """The columns of a result, with the index of the columns."""
    if is_of(where, 'pandas', 'Series'):
        series = [*series, where.rename(series[0].name)]
    ufunc = Ufunc(task, where)
    found = series[0].__array_ufunc__(ufunc, '__call__', *series)
    if found is NotImplemented:
        raise TypeError(f'{task.name}(): pandas has no way to join these columns')
    return found if isinstance(found, tuple) else (found,)


def of_tables(task: Task) -> Any:
    """A call of tables, column by column: a table, or one for each number of the result."""
    tables = [leaf.value for leaf in task.leaves if is_table(leaf.value)]
    names = tables[0].columns
    if any(not table.columns.equals(names) for table in tables):
        raise ValueError(f'{task.name}(): the tables have not the same columns')
    if any(is_column(leaf.value) and not is_table(leaf.value) for leaf in task.leaves):
        raise TypeError(f'{task.name}(): beside a table there is a column: pass one of its columns')

    def column(k: int) -> Any:
        leaves = [
            leaf._replace(value=leaf.value.iloc[:, k]) if is_table(leaf.value) else leaf
            for leaf in task.leaves
        ]
        return of_columns(task._replace(leaves=tuple(leaves)), None, True)

    made = [column(k) for k in range(len(names))]
    if not made or not isinstance(made[0], tuple):
        return table_of(tables[0], made)
    found = [table_of(tables[0], columns) for columns in zip(*made)]
    return type(made[0])(*found) if hasattr(made[0], '_fields') else tuple(found)


def table_of(like: Any, columns: Sequence[Any]) -> Any:
    """The table of these columns, which has the names of another one."""
    if not columns:
        return like.copy()
    found = importlib.import_module('pandas').concat(columns, axis=1)
    found.columns = like.columns
    return found


# ---- dask


def of_block(task: Task, *columns: Any) -> Any:
    """A call of the blocks of the columns."""
    return call_again(task, task.of(columns))


def call_again(task: Task, leaves: tuple[Leaf, ...]) -> Any:
    again = of_columns(Task(task.name, task.errors, leaves), None, True)
    return tuple(again) if isinstance(again, tuple) else again


def of_dask(task: Task, columns: Sequence[Any]) -> Sequence[Any]:
    """The columns of a result, which are not computed yet."""
    numpy, _ = modules(task.name)
    empty = task._replace(
        leaves=tuple(
            leaf._replace(value=None) if is_column(leaf.value) else leaf for leaf in task.leaves
        )
    )
    block = functools.partial(of_block, empty)
    if any(hasattr(column, 'map_partitions') for column in columns):
        return of_partitions(task, block, columns)
    shares = CALLS[task.name].shapes == 'nl'
    # dask.array takes no `Series` and no buffer
    columns = [
        numpy.asarray(c)
        if is_of(c, 'pandas', 'Series') or isinstance(c, (array.array, memoryview))
        else c
        for c in columns
    ]
    cores = [
        '(n)' if shares and leaf is task.leaves[-1] else '()'
        for leaf in task.leaves
        if is_column(leaf.value)
    ]
    # the types of the results are those of ones, for which the call may have no result
    masked = empty._replace(errors='mask') if task.errors == 'raise' else empty
    sample = of_block(
        masked,
        *(numpy.ones((1,) * (core == '(n)'), column.dtype) for core, column in zip(cores, columns)),
    )
    if not shares:
        return of_each_block(numpy, block, columns, sample, task.errors == 'mask')
    made = sample if isinstance(sample, tuple) else (sample,)
    ends = ['(n)' if k == 0 else '()' for k in range(len(made))]
    signature = f'{",".join(cores)}->{",".join(ends)}'
    types = [each.dtype for each in made] if isinstance(sample, tuple) else sample.dtype
    found = importlib.import_module('dask.array').apply_gufunc(
        block, signature, *columns, output_dtypes=types, allow_rechunk=True
    )
    return found if isinstance(found, tuple) else (found,)


def of_partitions(task: Task, block: Any, columns: Sequence[Any]) -> Sequence[Any]:
    """The column of a result of those of `dask.dataframe`. Its type is that of no rows."""
    shares = CALLS[task.name].shapes == 'nl'
    if shares and hasattr(columns[-1], 'map_partitions'):
        raise TypeError(
            f'{task.name}(): weights is a column of dask.dataframe, which lies in parts: pass an '
            'array, by `.to_dask_array(lengths=True)`'
        )
    if results_of(task) > 1:
        raise TypeError(
            f'{task.name}() returns one column of dask.dataframe: for {results_of(task)} pass '
            'arrays, by `.to_dask_array()`'
        )
    none = [
        column._meta
        if hasattr(column, '_meta')
        else column[: len(column) * (shares and column is columns[-1])]
        for column in columns
    ]
    map_partitions = importlib.import_module('dask.dataframe').map_partitions
    return (map_partitions(block, *columns, meta=block(*none)),)


def of_each_block(
    numpy: Any, block: Any, columns: Sequence[Any], sample: Any, masked: bool
) -> Sequence[Any]:
    """The columns of a call of blocks, whose lengths may be unknown. Several results are made at
    once, and have the types of those of a sample."""
    elemwise = importlib.import_module('dask.array.core').elemwise
    if not isinstance(sample, tuple):
        return (elemwise(block, *columns, dtype=sample.dtype),)
    found = elemwise(block, *columns, dtype=object)
    metas = sample if masked else map(numpy.ma.getdata, sample)
    return [
        found.map_blocks(operator.itemgetter(k), dtype=meta.dtype, meta=meta[(None,) * found.ndim])
        for k, meta in enumerate(metas)
    ]
