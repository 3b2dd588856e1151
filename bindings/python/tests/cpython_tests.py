"""Runs tests of CPython, those of the machine's Python, with the calls of `cellarcove` in the
place of its own, and counts the assertions: those that pass, those whose numbers or result are
beyond 64 bits, and those that fail.

An assertion that fails does not end its test. A call that raises `OverflowError` returns `BEYOND`,
and so does what is computed of it; an assertion about it is one that is beyond. The words of an
error are not compared, since they are those of the package."""
import contextlib
import datetime
import importlib
import math
import pathlib
import re
import sys
import time
import types
import unittest
from fractions import Fraction

import cellarcove

DAY_0 = datetime.date(1970, 1, 1).toordinal()
IsoCalendarDate = type(datetime.date(1970, 1, 1).isocalendar())
LISTED = pathlib.Path(__file__).with_suffix('.txt')


class Beyond:
    """A number that the package has not."""

    def same(self, *_):
        return self

    __add__ = __radd__ = __sub__ = __rsub__ = __mul__ = __rmul__ = same
    __floordiv__ = __rfloordiv__ = __neg__ = __getitem__ = same

    def __getattr__(self, name):
        return self


BEYOND = Beyond()
waiting = []                                    # the assertions that wait for an error


def is_beyond(value):
    return (any(map(is_beyond, value)) if isinstance(value, (tuple, list))
            else isinstance(value, Beyond) or value is Beyond)


def bounded(call):
    """The call, which returns `BEYOND` in place of `OverflowError` if no assertion waits for an
    error."""
    def within(*arguments):
        if is_beyond(arguments):
            return BEYOND
        try:
            return call(*arguments)
        except OverflowError:
            if waiting:
                raise
            return BEYOND
    return within


class Rounded(Fraction):
    """A fraction that the package rounds, and for which it finds the nearest with a small
    denominator."""

    limit_denominator = bounded(cellarcove.limit_denominator)

    def __round__(self, digits=None):
        if digits is None:
            return bounded(cellarcove.fraction_round)(self)
        shift = 10 ** abs(digits)
        if digits > 0:
            return Rounded(bounded(cellarcove.fraction_round_times)(self, shift), shift)
        return Rounded(bounded(cellarcove.fraction_round)(self / shift) * shift)


class Day(datetime.date):
    """A date for which the package counts."""

    def toordinal(self):
        return cellarcove.day_from_date(self) + DAY_0

    @classmethod
    def fromordinal(cls, ordinal):
        return cls.of(cellarcove.date_from_day(ordinal - DAY_0))

    def weekday(self):
        return self.isoweekday() - 1

    def isoweekday(self):
        return cellarcove.weekday(cellarcove.day_from_date(self))

    def isocalendar(self):
        return IsoCalendarDate(*cellarcove.iso_week(self), self.isoweekday())

    @classmethod
    def fromisocalendar(cls, year, week, day):
        return cls.of(cellarcove.date_from_iso_week(year, week, day))

    def isoformat(self):
        return cellarcove.Date.from_date(self).isoformat()

    def timetuple(self):
        return time.struct_time(super().timetuple()[:6]
                                + (self.weekday(), cellarcove.day_of_year(self), -1))

    def later(self, days):
        return Day.of(cellarcove.plus_days(self, days).to_date())

    @classmethod
    def of(cls, date):
        return date if date is BEYOND else cls(date.year, date.month, date.day)

    def __add__(self, other):
        return self.later(other.days) if isinstance(other, datetime.timedelta) else NotImplemented

    __radd__ = __add__

    def __sub__(self, other):
        if isinstance(other, datetime.timedelta):
            return self.later(-other.days)
        return (datetime.timedelta(cellarcove.days_between(other, self))
                if isinstance(other, datetime.date) else NotImplemented)


Day.min, Day.max = Day.of(datetime.date.min), Day.of(datetime.date.max)


class Counting:
    """The assertions of a test, each counted by itself."""

    counts = dict.fromkeys(('pass', 'limit', 'fail'), 0)

    def judge(self, outcome, words=''):
        self.counts[outcome] += 1
        if outcome == 'fail':
            self.failures.append(f'{self._testMethodName}: {words}')

    def setUp(self):
        super().setUp()
        self.failures, self.depth = [], 0

    def assertRaises(self, expected, call=None, *arguments, **named):
        if call is None:
            return self.raising(expected)
        with self.raising(expected):
            call(*arguments, **named)
        return None

    def assertRaisesMessage(self, expected, _, call, *arguments):
        self.assertRaises(expected, call, *arguments)

    @contextlib.contextmanager
    def raising(self, expected):
        """What runs in it raises the error; or that a number is beyond 64 bits, which is an error
        of another class."""
        waiting.append(expected)
        try:
            yield types.SimpleNamespace()
        except expected:
            self.judge('pass')
        except OverflowError:
            self.judge('limit')
        except Exception as error:
            self.judge('fail', repr(error))
        else:
            self.judge('fail', f'no {expected}')
        finally:
            waiting.pop()


def counted(name):
    """An assertion of `unittest` that is counted, unless it is a part of one."""
    def check(self, *arguments, **named):
        below = getattr(super(Counting, self), name)
        if self.depth:
            return below(*arguments, **named)
        if is_beyond(arguments):
            return self.judge('limit')
        self.depth += 1
        try:
            below(*arguments, **named)
        except self.failureException as failure:
            return self.judge('fail', str(failure))
        finally:
            self.depth -= 1
        return self.judge('pass')
    return check


for assertion in ('assertEqual', 'assertNotEqual', 'assertTrue', 'assertFalse', 'assertIs',
                  'assertLess', 'assertLessEqual', 'assertIsInstance', 'assertAlmostEqual',
                  'assertTypedEquals'):
    setattr(Counting, assertion, counted(assertion))


def cases():
    """The tests, each of a class whose calls are those of the package, with the number of
    assertions that fail."""
    of_math, of_fractions = map(importlib.import_module, ('test.test_math', 'test.test_fractions'))
    of_math.math = types.SimpleNamespace(**vars(math)
                                         | {name: bounded(getattr(cellarcove, name))
                                            for name in ('gcd', 'lcm', 'comb', 'isqrt')})
    of_fractions.F = Rounded
    for module, name, tests in re.findall(r'^([\w.]+)\.(\w+): (.*)', LISTED.read_text(), re.M):
        base = getattr(importlib.import_module(module), name)
        kind = type(f'Counted{name}', (Counting, base), {'theclass': Day} if name == 'TestDate'
                    else {})
        yield from ((kind(test), int(fail or 0))
                    for test, _, fail in (word.partition('=') for word in tests.split())
                    if hasattr(base, test))


def main():
    try:
        tests = list(cases())
    except ImportError:
        print("the machine's Python has no tests of its own: nothing is run")
        return 0
    total, unexpected = dict.fromkeys(Counting.counts, 0), 0
    for case, expected in tests:
        counts = Counting.counts = dict.fromkeys(total, 0)
        result = unittest.TestResult()
        case.run(result)
        others = [f'{case._testMethodName}: {text.splitlines()[-1]}' for _, text in result.errors
                  + result.failures]
        counts['fail'] += len(others)
        total = {name: total[name] + count for name, count in counts.items()}
        print(f'{case._testMethodName}: {counts["pass"]} pass, {counts["limit"]} are beyond 64 '
              f'bits, {counts["fail"]} fail, {expected} expected')
        if counts['fail'] != expected:
            unexpected += 1
            print('\n'.join((case.failures + others)[:10]))
    print(f'all of Python {sys.version.split()[0]}: {total["pass"]} pass, {total["limit"]} '
          f'are beyond 64 bits, {total["fail"]} fail')
    return unexpected > 0


if __name__ == '__main__':
    sys.exit(main())
