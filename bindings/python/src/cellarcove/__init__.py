"""Proved integer arithmetic, fractions and dates.

If all numbers of a call are at least 0, they lie below 2**64, and otherwise from -2**63 to
2**63 - 1. If they lie from 0 to 2**63 - 1, the result may be negative. Those of `extended_gcd`, the
parts of fractions, years, numbers of days, and how many days or months are added, are always from
-2**63 to 2**63 - 1; those of `multinomial`, `rank`, `choice_of_rank` and `is_perfect_power`,
weights and exponents are always from 0 to 2**64 - 1, and degrees and places from 0 to 2**32 - 1.
The exponent of a fraction is from -2**31 to 2**31 - 1. A month, a week, a day of the month or of
the week, and its count, are from 0 to 255, and a day of the year is from 0 to 2**16 - 1.

A number out of its range raises `OverflowError`, and what is no integer raises `TypeError`. So
`days_in_month` raises `Refused` for month 13 and `OverflowError` for month 256, and `Date` raises
`Refused` for both.

If a call has no result, it raises `Refused`, a `ValueError` that has the status. If the reason is
that a divisor, a modulus or a denominator is 0, it is `DivisionByZero`, which is a
`ZeroDivisionError` too. If the reason is that the result does not fit, it is `NotFitting`, which is
an `OverflowError` too.

Each number of a call may be a column: an array of numpy or of dask, a `Series` of pandas, or a
buffer such as an `array.array`. The call returns columns. An element that has no result raises;
with `errors='mask'` it is missing, and with `errors='status'` the call returns the statuses after
the result. The GIL is free meanwhile.
"""

from __future__ import annotations

import datetime
import enum
import functools
import operator
from decimal import Decimal
from fractions import Fraction
from typing import Any, NamedTuple, NoReturn, Protocol, SupportsIndex, TypeVar, Union

from . import _calls, _columns
from ._calls import *  # noqa: F401, F403

__version__ = _calls.VERSION
__all__ = [
    'BUILT_BY', 'Congruence', 'Date', 'DivisionByZero', 'ExtendedGcd', 'IsoWeek', 'NotFitting',
    'Refused', 'Schedule', 'Solutions', 'Status', 'SupportsColumn', 'SupportsColumns',
    'SupportsDate', 'SupportsFraction', 'Weekday',
]
__all__ += _calls.__all__

BUILT_BY = _calls.BUILT_BY
"""The compiler that made the calls: `rattle` or `cargo`."""

_RANGES = {
    'q': 'from -2**63 to 2**63 - 1', 'Q': 'from 0 to 2**64 - 1', 'I': 'from 0 to 2**32 - 1',
    'i': 'from -2**31 to 2**31 - 1', 'H': 'from 0 to 2**16 - 1', 'B': 'from 0 to 255',
}
_SHOWN = 10**40  # a number in a message is below this
_Index = Union[int, tuple[int, ...]]


class Status(enum.IntEnum):
    """Whether a call has a result, and why not."""

    ANSWER = 0
    ZERO_DENOMINATOR = 1
    NOT_FITTING = 2
    OUTSIDE = 3
    NO_SOLUTION = 4
    BAD_MODULUS = 5
    NO_DATE = 6


class Refused(ValueError):
    """A call has no result. Its `status` says why."""

    _reasons = {
        Status.ANSWER: 'there is a result',
        Status.ZERO_DENOMINATOR: 'a denominator or a divisor is 0',
        Status.NOT_FITTING: 'the result is out of range',
        Status.OUTSIDE: 'nothing is defined for the arguments',
        Status.NO_SOLUTION: 'no number solves the congruences',
        Status.BAD_MODULUS: 'a modulus is not positive',
        Status.NO_DATE: 'there is no such date',
    }
    _reasons_of_text = {
        Status.OUTSIDE: 'a text of a fraction is 3, -3 or 3/4, with at most 38 digits in a number; '
        'fraction_from_decimal reads 3, -3 or 0.19, with at most 18 places',
        Status.NO_DATE: 'a text of a date is 2026-11-28, -0001-12-31 or +12000-04-02, of a day '
        'that there is',
    }

    def __init__(
        self,
        status: int,
        index: _Index | None = None,
        count: int | None = None,
        of_text: bool = False,
    ) -> None:
        # the arguments of an exception are what `pickle` and `copy` make it of again
        others = () if index is None else (index, count)
        super().__init__(Status(status), *((index, count, of_text) if of_text else others))

    @property
    def status(self) -> Status:
        """Why there is no result."""
        status: Status = self.args[0]
        return status

    @property
    def index(self) -> _Index | None:
        """The first element of a column that has no result."""
        return self.args[1] if len(self.args) > 1 else None

    @property
    def count(self) -> int | None:
        """How many elements of a column have no result."""
        return self.args[2] if len(self.args) > 1 else None

    def __str__(self) -> str:
        reasons = self._reasons_of_text if self.args[3:] else self._reasons
        words = f'{self.status.name}: {reasons[self.status]}'
        if self.index is None:
            return words
        return f'{words}, in the element {self.index}; {self.count} in all have no result'


class DivisionByZero(Refused, ZeroDivisionError):
    """A call has no result, since a divisor, a modulus or a denominator is 0."""

    _reasons = Refused._reasons | {
        Status.OUTSIDE: 'the divisor is 0',
        Status.BAD_MODULUS: 'a modulus is 0',
    }


class NotFitting(Refused, OverflowError):
    """A call has no result, since the result does not fit."""


class SupportsFraction(Protocol):
    """A number with a numerator and a denominator, such as a `Fraction` or an `int`."""

    @property
    def numerator(self) -> SupportsIndex: ...
    @property
    def denominator(self) -> SupportsIndex: ...


class SupportsDate(Protocol):
    """A date: a `Date`, or a `datetime.date`."""

    @property
    def year(self) -> int: ...
    @property
    def month(self) -> int: ...
    @property
    def day(self) -> int: ...


class SupportsColumn(Protocol):
    """A column: an array of numpy or of dask, or a `Series` of pandas. An `array.array` and a
    `memoryview` are columns too."""

    @property
    def dtype(self) -> Any: ...
    def __len__(self) -> int: ...


class SupportsColumns(Protocol):
    """A table whose columns are taken one by one: a `DataFrame` of pandas."""

    @property
    def columns(self) -> Any: ...
    @property
    def iloc(self) -> Any: ...


_Number = TypeVar('_Number', covariant=True)


class _Pair(tuple[_Number, _Number]):
    """Two numbers, which are given by their names, since their positions are easily swapped."""

    __slots__ = ()
    __match_args__: tuple[str, str]
    __array_ufunc__ = None  # numpy would add the two numbers to those of an array

    def __repr__(self) -> str:
        parts = ', '.join(f'{name}={value!r}' for name, value in zip(self.__match_args__, self))
        return f'{type(self).__qualname__}({parts})'

    def __reduce__(self) -> tuple[Any, ...]:
        return functools.partial(type(self), **dict(zip(self.__match_args__, self))), ()


class Congruence(_Pair[_Number]):
    """The numbers that are `residue` modulo `modulus`. Either may be a column."""

    __slots__ = ()
    __match_args__ = ('residue', 'modulus')

    def __new__(cls, *, residue: _Number, modulus: _Number) -> Congruence[_Number]:
        return tuple.__new__(cls, (residue, modulus))

    @property
    def residue(self) -> _Number:
        return self[0]

    @property
    def modulus(self) -> _Number:
        return self[1]


class Schedule(_Pair[_Number]):
    """The times `first`, `first + period` and so on. Either number may be a column."""

    __slots__ = ()
    __match_args__ = ('first', 'period')

    def __new__(cls, *, first: _Number, period: _Number) -> Schedule[_Number]:
        return tuple.__new__(cls, (first, period))

    @property
    def first(self) -> _Number:
        return self[0]

    @property
    def period(self) -> _Number:
        return self[1]


class ExtendedGcd(NamedTuple):
    """The greatest common divisor, and coefficients with which the two numbers add up to it."""

    gcd: int
    x: int
    y: int


class Solutions(NamedTuple):
    """The first solution that is not negative, and the step from each to the next."""

    first: int
    step: int


class IsoWeek(NamedTuple):
    """A week of ISO 8601: its year, which is that of its Thursday, and its number."""

    year: int
    week: int

    def __str__(self) -> str:
        """The week as `2026-W05`. The year has a sign if it is not from 0 to 9999."""
        if not isinstance(self.year, int):
            return repr(self)  # of columns
        year = f'{self.year:04}' if 0 <= self.year <= 9999 else f'{self.year:+05}'
        return f'{year}-W{self.week:02}'


for _result in (ExtendedGcd, Solutions, IsoWeek):
    # numpy would add their numbers to those of an array
    setattr(_result, '__array_ufunc__', None)


class Weekday(enum.Enum):
    """A day of the week. Its `value` is its number in ISO 8601, from 1 for Monday to 7 for Sunday.

    A parameter `weekday` takes either. It is no `int`, and raises `TypeError` if it is compared
    with one, since `weekday` of `datetime.date` counts from 0.
    """

    MONDAY = 1
    TUESDAY = 2
    WEDNESDAY = 3
    THURSDAY = 4
    FRIDAY = 5
    SATURDAY = 6
    SUNDAY = 7

    def __eq__(self, other: object) -> bool:
        if isinstance(other, SupportsIndex):
            raise TypeError(
                f'a Weekday is no number: compare it with a Weekday, such as {self}, '
                'or compare its value, which is from 1 to 7'
            )
        return self is other

    __hash__ = enum.Enum.__hash__


class _Tuple(tuple[int, ...]):
    """A class of tuples, by which the calls make those of the others."""

    __slots__ = ()


class Date(_calls._BaseDate):
    """A date of the proleptic Gregorian calendar, of any year from -2**63 to 2**63 - 1. The year
    before year 1 is year 0.

    Raises `Refused` with `NO_DATE` if there is no such date. Dates are in the order of their days.
    `date + days` is a date, and `date - other` the number of days between two.
    """

    __slots__ = ()
    __match_args__ = ('year', 'month', 'day')
    __array_ufunc__ = None  # an operator with an array of numpy is an error, or that of this class

    def __setattr__(self, name: str, value: object) -> NoReturn:
        raise AttributeError(f'a date does not change: {name} is set by `replace`')

    def __delattr__(self, name: str) -> NoReturn:
        raise AttributeError('a date does not change')

    def __reduce__(self) -> tuple[type, tuple[int, int, int]]:
        return type(self), (self.year, self.month, self.day)

    def __repr__(self) -> str:
        return f'{type(self).__qualname__}(year={self.year}, month={self.month}, day={self.day})'

    def __format__(self, spec: str) -> str:
        """The date as `isoformat` writes it, padded, or as `strftime` if the text has a `%`."""
        return self.strftime(spec) if '%' in spec else format(str(self), spec)

    def isoformat(self) -> str:
        """The date as `2000-02-29`; the year has a sign if it is not from 0 to 9999."""
        return str(self)

    @classmethod
    def fromisoformat(cls, text: str) -> Date:
        """The date that `isoformat` writes so. Raises `Refused` with `NO_DATE`, a `ValueError`, if
        there is none."""
        date = _calls.date_from_text(text)
        return date if cls is Date else cls(date.year, date.month, date.day)

    def strftime(self, format: str) -> str:
        """What `datetime.date.strftime` writes. Raises `OverflowError` if the year is not from 1 to
        9999."""
        return self.to_date().strftime(format)

    def replace(
        self,
        year: SupportsIndex | None = None,
        month: SupportsIndex | None = None,
        day: SupportsIndex | None = None,
    ) -> Date:
        """The date with another year, month or day."""
        return type(self)(
            self.year if year is None else year,
            self.month if month is None else month,
            self.day if day is None else day,
        )

    __replace__ = replace

    def weekday(self) -> Weekday:
        """The day of the week. That of `datetime.date` is a number from 0 for Monday to 6 for
        Sunday."""
        return _WEEKDAYS[_calls.weekday_of_date(self) - 1]

    def isoweekday(self) -> int:
        """The day of the week, from 1 for Monday to 7 for Sunday, as that of `datetime.date`."""
        return _calls.weekday_of_date(self)

    @classmethod
    def from_date(cls, date: datetime.date) -> Date:
        """The same date as one of `datetime`."""
        return cls(date.year, date.month, date.day)

    def to_date(self) -> datetime.date:
        """The same date for `datetime`. Raises `OverflowError` if the year is not from 1 to
        9999."""
        first, last = datetime.MINYEAR, datetime.MAXYEAR
        if not first <= self.year <= last:
            raise OverflowError(f'year {self.year} is not from {first} to {last}')
        return datetime.date(self.year, self.month, self.day)


def _count_of_days(value: Any) -> int | None:
    """The number of days that an operator has beside a date: an integer, or a `timedelta64[D]` of
    numpy."""
    if _columns.is_column(value):
        return None
    try:
        count: int = _columns.cell('Date', 'days', value).value
        return count
    except TypeError:
        return None


def _is_date(value: object) -> bool:
    """Whether what an operator has beside a date is a date too."""
    return (
        isinstance(value, (Date, datetime.date))
        or _columns.unit(value) == 'M8[D]'
        and not _columns.is_column(value)
    )


def _add(date: Date, days: Any) -> Any:
    """A date plus what is no `int`."""
    count = _count_of_days(days)
    return NotImplemented if count is None else _calls.plus_days(date, count)


def _subtract(a: Any, b: Any) -> Any:
    """What an operator makes of a date, and of what is no other `Date` and no `int`."""
    if _is_date(a) and _is_date(b):
        return _calls.days_between(b, a)
    count = _count_of_days(b) if isinstance(a, Date) else None
    if count is None:
        return NotImplemented
    # A number of days may be 2**63, whose negation fits, or -2**63, whose negation does not.
    return _calls.minus_days(a, count) if count < 0 else _calls.plus_days(a, -count)


_WEEKDAYS = tuple(Weekday)


def _refusal(
    status: int,
    by_zero: bool,
    index: _Index | None = None,
    count: int | None = None,
    of_text: bool = False,
) -> Refused:
    if status == Status.NOT_FITTING:
        return NotFitting(status, index, count)
    kind = DivisionByZero if status == Status.ZERO_DENOMINATOR or by_zero else Refused
    return kind(status, index, count, of_text and status in Refused._reasons_of_text)


def _refusal_of_text(status: int) -> Refused:
    return _refusal(status, False, of_text=True)


def _out_of_range(number: SupportsIndex, kind: str, place: int | None = None) -> OverflowError:
    number = operator.index(number)
    shown = str(number) if abs(number) < _SHOWN else f'a number of {number.bit_length()} bits'
    words = f'{shown} is not {_RANGES[kind]}'
    return OverflowError(words if place is None else f'{words}, in the element {place}')


_columns.refusal, _columns.out_of_range = _refusal, _out_of_range
_columns.classes = {
    'Weekday': Weekday, 'ExtendedGcd': ExtendedGcd, 'Solutions': Solutions, 'IsoWeek': IsoWeek,
    'c': Congruence, 's': Schedule,
}
_calls._install(
    _refusal, _refusal_of_text, _out_of_range, _columns.call_of_others, _columns.items, _add,
    _subtract, Fraction, Decimal, _Tuple,
    ('numerator', 'denominator', 'year', 'month', 'day', 'value'), Date, ExtendedGcd, Solutions,
    IsoWeek, Weekday, Congruence, Schedule,
)
