"""What each call returns by the integers, the fractions and the dates of Python, for arguments of
any size.

`RESULTS` has a function for each call, by its name in C without the ending. It takes the range of
the form and the arguments: a number, a pair for a fraction, a triple for a date, a list. It
returns the numbers of the result, or the status. It is made of a row of by_python.toml, which is a
function of Python's own numbers: it makes a number, a fraction or numbers of any size, or raises
what Python raises. `PROPERTIES` has the calls whose result is tested instead: their function takes
the numbers of the result too."""
import datetime
import math
import re
import tomllib
from collections.abc import Callable, Sequence
from fractions import Fraction
from functools import partial
from pathlib import Path
from typing import Any, NamedTuple

Pair = tuple[int, int]
Result = tuple[int, ...] | int                  # the numbers of a result, or the status
Made = int | Fraction | tuple[int, ...]
Maker = Callable[..., Any]                      # it returns what is made
Model = Callable[..., Result]

ZERO_DENOMINATOR, NOT_FITTING, OUTSIDE, NO_SOLUTION, BAD_MODULUS, NO_DATE = range(1, 7)
I64, U64 = (-(2**63), 2**63 - 1), (0, 2**64 - 1)
DAY_0 = datetime.date(1970, 1, 1).toordinal()
CYCLE = 400                                     # years, after which the calendar repeats
DAYS_OF_CYCLE = 146_097
MOST_CONGRUENCES = 64                           # of a call with a list of them
MOST_PLACES = 18                                # of a decimal number
# of 2k things, k of them can be chosen in more than 2**64 ways from here on
WIDEST_CHOICE = 34


class No(Exception):
    """There is no result, for the reason of a status."""


def fitting(bounds: Pair, *values: int) -> Result:
    """The numbers, or the status if one of them is out of range."""
    low, high = bounds
    return values if all(low <= value <= high for value in values) else NOT_FITTING


def parts(made: Made) -> tuple[int, ...]:
    """The numbers of a result."""
    return (made if isinstance(made, tuple) else made.as_integer_ratio()
            if isinstance(made, Fraction) else (made,))


def taken(argument: Any) -> Any:
    """An argument: a pair as the fraction, and a triple as the date."""
    if not isinstance(argument, tuple):
        return argument
    if len(argument) == 3:
        return Day(*argument).valid()
    made = Fraction(*argument)
    if fitting(I64, *parts(made)) == NOT_FITTING:
        raise No(NOT_FITTING)
    return made


def model(make: Maker, by_zero: int, by_value: int) -> Model:
    """The call whose result is made so. The statuses are those of a division by 0, and of another
    argument for which there is no result."""
    def result(bounds: Pair, *arguments: Any) -> Result:
        try:
            return fitting(bounds, *parts(make(*map(taken, arguments))))
        except ZeroDivisionError:
            return by_zero
        except ValueError:
            return by_value
        except No as reason:
            return int(reason.args[0])
    return result


def let(condition: bool, status: int = OUTSIDE) -> bool:
    """Ends with the status if the condition does not hold."""
    if not condition:
        raise No(status)
    return True


def positive(number: int, status: int = OUTSIDE) -> int:
    """A number that has to be positive."""
    let(number > 0, status)
    return number


modulus = partial(positive, status=BAD_MODULUS)


def ceil(x: int, y: int) -> int:
    return -(-x // y)


def is_bezout(bounds: Pair, x: int, y: int, status: int, values: Sequence[int] | None) -> bool:
    """Whether the result of extended_gcd is one: the equation holds, and the coefficients are
    small. Of 0 and 0 they are 1 and 0."""
    gcd = math.gcd(x, y)
    if gcd > bounds[1] or values is None:
        return gcd > bounds[1] and status == NOT_FITTING
    found, p, q = values
    if y and x % y == 0:
        small = (p, q) == (0, 1 if y > 0 else -1)
    elif y == 0 or (x and y % x == 0):
        small = (p, q) == (-1 if x < 0 else 1, 0)
    else:
        small = 2 * abs(p) * gcd <= abs(y) and 2 * abs(q) * gcd <= abs(x)
    return status == 0 and found == gcd == p * x + q * y and small


def last(end: int, holds: Callable[[int], Any]) -> int:
    """The last number below an end for which something holds that holds for 0, and for no number
    after one for which it does not."""
    first = 0
    while first + 1 < end:
        middle = (first + end) // 2
        first, end = (middle, end) if holds(middle) else (first, middle)
    return first


def root(x: int, degree: int) -> int:
    """The root rounded toward 0."""
    let(degree > 0 and (x >= 0 or degree % 2 == 1))
    return (-root(-x, degree) if x < 0
            else last(2 << x.bit_length() // degree, lambda found: found**degree <= x))


def is_power(x: int, degree: int) -> bool:
    """Whether the number is a power of this degree of an integer."""
    if degree == 0 or x in (0, 1):
        return x == 1 or x == 0 < degree
    return (x > 0 or degree % 2 == 1) and root(x, degree) ** degree == x


def ilog(x: int, base: int) -> int:
    let(x >= 1 and base >= 2)
    return last(x.bit_length(), lambda degree: base**degree <= x)


def coefficient(n: int, k: int) -> int:
    """The number of choices of k of n things. If it is above 2**64, it may be another such
    number."""
    return 2**64 if min(k, n - k) >= WIDEST_CHOICE else math.comb(n, k)


def rank(choice: Sequence[int], n: int) -> int:
    """The number of the choices of so many numbers below n that come before it: the largest number
    that differs is smaller."""
    let(all(low < high for low, high in zip(choice, [*choice[1:], n])))
    return sum(coefficient(number, place) for place, number in enumerate(choice, 1))


def choice_of_rank(number: int, n: int, count: int) -> tuple[int, ...]:
    """The choice of this rank: its largest number is the largest of which so many choices lie
    below it, and so on."""
    let(coefficient(n, count) > number)
    found = [n]
    for place in range(count, 0, -1):
        found.insert(0, last(found[0], lambda low: coefficient(low, place) <= number))
        number -= coefficient(found[0], place)
    return tuple(found[:-1])


def shares(amount: int, weights: Sequence[int]) -> tuple[int, ...]:
    """The shares of an amount, of which the first ones together are rounded up."""
    ends = [ceil(abs(amount) * sum(weights[:k]), sum(weights)) for k in range(len(weights) + 1)]
    return tuple((end - start) * (-1 if amount < 0 else 1) for start, end in zip(ends, ends[1:]))


def shares_by_largest_remainder(amount: int, weights: Sequence[int]) -> tuple[int, ...]:
    let(any(weights))
    exact = [Fraction(abs(amount) * weight, sum(weights)) for weight in weights]
    found = [math.floor(share) for share in exact]
    order = sorted(range(len(found)), key=lambda k: (found[k] - exact[k], k))
    for place in order[:abs(amount) - sum(found)]:
        found[place] += 1
    return tuple(-share if amount < 0 else share for share in found)


def range_of_page(page: int, size: int, items: int) -> Pair:
    let(items >= 0)
    first, end = max(0, page * positive(size)), min(items, (page + 1) * size)
    return (first, end) if first < end else (items, items)


def range_of_part(part: int, parts: int, items: int) -> Pair:
    let(0 <= part < parts and items >= 0)
    size, longer = divmod(items, parts)
    first = part * size + min(part, longer)
    return first, first + size + (part < longer)


def solutions(a: int, b: int, m: int) -> Pair:
    gcd = math.gcd(a, modulus(m))
    let(b % gcd == 0, NO_SOLUTION)
    step = m // gcd
    return b // gcd * pow(a // gcd, -1, step) % step, step


def chinese_remainder(a: int, m: int, b: int, n: int) -> Pair:
    """The first number that is not negative, is a modulo m and b modulo n, and the step to the
    next."""
    gcd = math.gcd(modulus(m), modulus(n))
    let((b - a) % gcd == 0, NO_SOLUTION)
    step = m // gcd * n
    return (a + m * ((b - a) // gcd * pow(m // gcd, -1, n // gcd))) % step, step


def next_common_solution_of(start: int, congruences: Sequence[Pair]) -> int:
    let(len(congruences) <= MOST_CONGRUENCES)
    let(all(m > 0 for _, m in congruences), BAD_MODULUS)
    first, step = 0, 1
    for residue, m in congruences:
        first, step = chinese_remainder(first, step, residue, m)
    return next_congruent(start, first, step)


def next_congruent(start: int, residue: int, m: int) -> int:
    return start + (residue - start) % modulus(m)


def count_congruent(start: int, end: int, residue: int, m: int) -> int:
    return max(0, (end - residue) // modulus(m) - ceil(start - residue, m) + 1)


def fraction_from_text(text: str) -> Fraction:
    found = re.fullmatch('(-?[0-9]+)(?:/(-?[0-9]+))?', text)
    numbers = [int(part) for part in found.groups('1')] if found else [10**38]
    let(all(abs(part) < 10**38 for part in numbers))
    return Fraction(*numbers)


def fraction_from_decimal(text: str) -> Fraction:
    found = re.fullmatch('-?[0-9]+(?:[.][0-9]+)?', text)
    let(found is not None and not text.partition('.')[2][MOST_PLACES:].strip('0'))
    return Fraction(text)


def away_from_zero(x: Fraction) -> int:
    """The nearest integer; of two the one farther from 0."""
    size = math.floor(abs(x) + Fraction(1, 2))
    return size if x >= 0 else -size


def over(make: Maker, by_zero: int, by_value: int) -> Model:
    """A call of a fraction and of a positive number, which is looked at first."""
    made = model(make, by_zero, by_value)
    return lambda bounds, pair, number: OUTSIDE if number <= 0 else made(bounds, pair, number)


def to_decimal(a: Fraction, places: int) -> tuple[int, ...]:
    """The sign, the integer part and the digits after the point."""
    let(places <= MOST_PLACES)
    units = round(a * 10**places)
    return int(units < 0), *divmod(abs(units), 10**places)


def near(year: int) -> int:
    """A year of `datetime` with the same calendar."""
    return year % CYCLE + 2000


class Day(NamedTuple):
    """A date of any year."""
    year: int
    month: int
    day: int

    def near(self) -> datetime.date:
        """The date of `datetime` a number of cycles away, if there is such a date."""
        return datetime.date(near(self.year), self.month, self.day)

    def valid(self) -> 'Day':
        """The date, if there is such a date."""
        self.near()
        return self

    def number(self) -> int:
        return (self.near().toordinal() - DAY_0 + (self.year - near(self.year)) // CYCLE
                * DAYS_OF_CYCLE)

    def iso_week(self) -> Pair:
        year, week = self.near().isocalendar()[:2]
        return year + self.year - near(self.year), week

    def plus_months(self, months: int) -> 'Day':
        """The date so many months later, with the last day of a shorter month."""
        years, month = divmod(self.month - 1 + months, 12)
        return Day(self.year + years, month + 1,
                   min(self.day, days_in(self.year + years, month + 1)))


def dated(year: int, found: datetime.date) -> Day:
    """The date of `datetime` as one beside this year."""
    return Day(found.year + year - near(year), found.month, found.day)


def of_number(number: int) -> Day:
    cycles, rest = divmod(number - Day(2000, 1, 1).number(), DAYS_OF_CYCLE)
    year = 2000 + cycles * CYCLE
    return dated(year, Day(year, 1, 1).near() + datetime.timedelta(rest))


def date_from_text(text: str) -> Day:
    """A year of ISO 8601 has at least four digits, and a sign if it is not from 0 to 9999."""
    found = re.fullmatch(
        '(-(?!0000)[0-9]{4}|-[1-9][0-9]{4,}|[0-9]{4}|[+][1-9][0-9]{4,})-([0-9]{2})-([0-9]{2})',
        text, re.ASCII)
    made = Day(*map(int, found.groups() if found else (0, 0, 0)))
    let(I64[0] <= made.year <= I64[1], NO_DATE)
    return made.valid()


def days_in(year: int, month: int) -> int:
    """The number of days of a month."""
    return Day(year + month // 12, month % 12 + 1, 1).number() - Day(year, month, 1).number()


def is_leap(year: int) -> bool:
    return days_in(year, 2) == 29


def months_between(start: Day, end: Day) -> int:
    months = 12 * (end.year - start.year) + end.month - start.month
    return months - (start.plus_months(months) > end)


def see_weekday(weekday: int) -> bool:
    return let(1 <= weekday <= 7)


def near_weekday(day: int, weekday: int, step: int) -> int:
    """The first day from one on, or by the step -1 the last day up to one, that is a day of the
    week."""
    see_weekday(weekday)
    return day + step * (step * (weekday - (day + 3) % 7 - 1) % 7)


def weeks_in(year: int) -> int:
    """The number of weeks of ISO 8601 of a year."""
    return Day(year, 12, 28).iso_week()[1]


def easter(year: int) -> Day:
    """By the rule of Meeus, Jones and Butcher, which repeats after 5,700,000 years."""
    y = year % 5_700_000
    golden, (century, rest) = y % 19, divmod(y, 100)
    moon = (19 * golden + century - century // 4 - (century - (century + 8) // 25 + 1) // 3
            + 15) % 30
    sunday = (32 + 2 * (century % 4) + 2 * (rest // 4) - moon - rest % 4) % 7
    late = (golden + 11 * moon + 22 * sunday) // 451
    month, day = divmod(moon + sunday - 7 * late + 114, 31)
    return Day(year, month, day + 1)


def weekdays(year: int, month: int, weekday: int) -> list[Day]:
    """The dates of a month that are this day of the week."""
    see_weekday(weekday)
    dates = (Day(year, month, day) for day in range(1, days_in(year, month) + 1))
    return [date for date in dates if date.near().isoweekday() == weekday]


def nth_weekday_of_month(year: int, month: int, weekday: int, n: int) -> Day:
    dates = weekdays(year, month, weekday)
    let(1 <= n <= len(dates), NO_DATE)
    return dates[n - 1]


# Of the tables of by_python.toml what a row makes, and the statuses of a division by 0 and of
# another argument for which there is no result.
KINDS: dict[str,
            tuple[Callable[[Maker, int, int], Model], int,
                  int]] = ({'numbers': (model, OUTSIDE, OUTSIDE),
                            'congruences': (model, BAD_MODULUS, NO_SOLUTION),
                            'fractions': (model, ZERO_DENOMINATOR, OUTSIDE),
                            'fractions_over': (over, ZERO_DENOMINATOR, OUTSIDE),
                            'dates': (model, NO_DATE, NO_DATE)})
TABLES = tomllib.loads(Path(__file__).with_suffix('.toml').read_text())
RESULTS = {name: KINDS[table][0](eval(f'lambda {row}', globals()), *KINDS[table][1:])
           for table, rows in TABLES.items() for name, row in rows.items()}
# the integer part of a decimal number is below 2**64
RESULTS['fraction_to_decimal'] = (lambda _, *given: model(to_decimal, ZERO_DENOMINATOR,
                                                          OUTSIDE)(U64, *given))
PROPERTIES: dict[str, Callable[..., bool]] = {'extended_gcd': is_bezout}
