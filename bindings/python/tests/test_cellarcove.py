"""Calls the package: the rows of rows.txt, its classes and errors, its threads, its end, and the
examples of the pages.

`tools/cellarcove check fuzz` compares all calls with Python, on small arguments and on random
ones."""

import array
import ast
import contextlib
import copy
import ctypes
import datetime
import doctest
import importlib.util
import inspect
import itertools
import pathlib
import pickle
import random
import re
import subprocess
import sys
import types
import unittest
import warnings
from decimal import Decimal
from fractions import Fraction

import cellarcove
from cellarcove import Date, DivisionByZero, NotFitting, Refused, Status

HERE = pathlib.Path(__file__).resolve().parent
ROOT = HERE.parents[2]
# A source distribution has the first of these pages.
PAGES = [HERE.parent / 'README.md',
         *(ROOT / name for name in ('README.md', 'docs/PYTHON.md', 'docs/TABLES.md',
                                    'docs/COOKBOOK.md') if (ROOT / 'bindings').is_dir())]
ROW_NAMES = {**vars(cellarcove), 'array': array.array, 'copy': copy, 'date': datetime.date,
             'Fraction': Fraction, 'Decimal': Decimal, 'SimpleNamespace': types.SimpleNamespace,
             'addressof': ctypes.addressof, 'c_char': ctypes.c_char}
random.seed(64)
if importlib.util.find_spec('numpy'):
    import numpy

    if numpy.__version__ >= '2':                # whose numbers print as those of Python only so
        numpy.set_printoptions(legacy='1.25')


def has_modules(block):
    """Whether the modules are there that a block imports. What is left out is printed."""
    names = ', '.join(re.findall('^ *(?:import|from) ([\\w., ]+?)(?: import .*| as .*)?$', block,
                                 re.M)).split(', ')
    missing = [name for name in names if name and not importlib.util.find_spec(name.split('.')[0])]
    if missing:
        print(f'left out, since there is no {missing[0]}: {block.strip().splitlines()[0]}',
              file=sys.stderr)
    return not missing


class Rows(unittest.TestCase):
    """Each line is an expression, and after ` # ` its value or the error that it raises. A line
    without a value prepares others."""

    def test_rows(self):
        for block in [block for name in ('rows.txt', 'columns.txt')
                      for block in (HERE / name).read_text().split('\n\n')]:
            if has_modules(block):
                with self.subTest(block.splitlines()[0]):
                    self.holds(block, ROW_NAMES.copy(), lambda said, names: repr(eval(said, names)))

    def test_pages(self):
        for page in PAGES:
            for block in filter(has_modules,
                                re.findall('```python\n(.*?)```', page.read_text(), re.S)):
                with self.subTest(page=page.name):
                    self.holds(block, {}, lambda said, names: said)

    def holds(self, block, names, value):
        for line in block.splitlines():
            code, _, said = (part.strip() for part in line.partition('# '))
            with self.subTest(line):
                if said.startswith('raises '):
                    self.raises(said.removeprefix('raises '), code, names)
                elif said and code:
                    self.assertEqual(repr(eval(code, names)), value(said, names))
                elif code:
                    self.assertNotIsInstance(ast.parse(code).body[0], ast.Expr, 'it has no value')
                    exec(code, names)

    def raises(self, said, code, names):
        errors, _, words = said.partition(': ')
        with self.assertRaises(Exception) as raised:
            eval(code, names)
        self.assertIn(type(raised.exception).__name__, errors.split(' or '))
        self.assertTrue(str(raised.exception).startswith(words), raised.exception)


class Small(unittest.TestCase):
    """Calls of all small arguments, beside another way to count."""

    def test_ranks(self):
        for n, count in ((n, count) for n in range(8) for count in range(n + 1)):
            choices = sorted(itertools.combinations(range(n), count),
                             key=lambda choice: choice[::-1])
            self.assertEqual([cellarcove.rank(choice, n) for choice in choices],
                             list(range(len(choices))))
            self.assertEqual([cellarcove.choice_of_rank(rank, n, count)
                              for rank in range(len(choices))], choices)
            with self.assertRaisesRegex(Refused, 'OUTSIDE'):
                cellarcove.choice_of_rank(len(choices), n, count)


class Pairs(unittest.TestCase):
    """Congruences and schedules, which have names and no positions."""

    def test_positions_warn(self):
        """Numbers whose positions are easily swapped warn where they are written, and names do
        not."""
        one = cellarcove.Congruence(residue=1, modulus=4)
        bus = cellarcove.Schedule(first=1, period=4)
        calls = {'chinese_remainder': ([], 2), 'next_common_solution': ([5], 2),
                 'next_meeting': ([5], 2), 'next_congruent': ([5], 1),
                 'previous_congruent': ([5], 1), 'count_congruent': ([1, 5], 1),
                 'count_times': ([1, 5], 1), 'next_common_solution_of': ([5], 0)}
        of_numbers = {name for name, call in cellarcove._columns.CALLS.items() if call.numbers}
        self.assertEqual(of_numbers | {'next_common_solution_of'}, calls.keys())
        for name, (start, count) in calls.items():
            call = getattr(cellarcove, name)
            pair = bus if name in ('next_meeting', 'count_times') else one
            named, numbers = [*start, *[pair] * count], [*start, *[1, 4] * count]
            if not count:
                named, numbers = [*start, [one]], [*start, [(1, 4)]]
            with warnings.catch_warnings(record=True) as caught:
                warnings.simplefilter('always')
                found = call(*named)
                self.assertEqual((name, caught), (name, []))
                self.assertEqual(call(*numbers), found)
                warned = [(each.category, each.filename) for each in caught]
                self.assertEqual(warned, [(DeprecationWarning, __file__)], name)
                parts = ', '.join(f'{part}=..' for part in pair.__match_args__)
                self.assertIn(f'{type(pair).__name__}({parts})', str(caught[0].message))
        with warnings.catch_warnings():
            warnings.simplefilter('error')
            self.assertEqual(cellarcove.next_congruent(5, residue=1, modulus=4), 5)
            self.assertEqual(cellarcove.count_times(1, 5, period=4, first=1), 2)
            for given in ({'a': 1, 'm': 4, 'b': 1, 'n': 4}, {'one': one, 'b': 1}):
                with self.assertRaises((DeprecationWarning, TypeError)):
                    cellarcove.chinese_remainder(**given)

    def test_copies(self):
        protocols = range(pickle.HIGHEST_PROTOCOL + 1)
        for pair in (cellarcove.Congruence(residue=1, modulus=2**70),
                     cellarcove.Schedule(first=-1, period=4)):
            pickled = [pickle.loads(pickle.dumps(pair, protocol)) for protocol in protocols]
            for other in (*pickled, copy.copy(pair), copy.deepcopy(pair)):
                self.assertEqual(type(other), type(pair))
                self.assertEqual((other, repr(other)), (pair, repr(pair)))
            for part in pair.__match_args__:
                self.assertRaises(AttributeError, setattr, pair, part, 5)

    def test_signatures(self):
        expected = {'chinese_remainder': 'one, other, *', 'next_meeting': 'now, one, other, *',
                    'count_times': 'start, end, schedule=None, *, first=None, period=None'}
        for name, words in expected.items():
            signature = str(inspect.signature(getattr(cellarcove, name)))
            self.assertEqual(signature, f"({words}, out=None, where=True, errors='raise')")


class Ranges(unittest.TestCase):
    def test_docstring(self):
        """The calls that the docstring of the package names as such take no negative number, and
        the shares do."""
        tries = {'multinomial': ([-1],), 'rank': ([-1], 5), 'choice_of_rank': (-1, 5, 2),
                 'is_perfect_power': (-1,)}
        words = re.search(
            'those of (`multinomial`[^;]*?),\\s+weights and exponents are always from 0',
            cellarcove.__doc__)[1]
        self.assertEqual(re.findall('`(\\w+)`', words), list(tries))
        for name, arguments in tries.items():
            with self.assertRaisesRegex(OverflowError, '-1 is not from 0'):
                getattr(cellarcove, name)(*arguments)
        for shares in (cellarcove.shares, cellarcove.shares_by_largest_remainder):
            self.assertEqual(shares(-100, [1, 1, 1]), (-34, -33, -33))
            self.assertEqual(shares(2**64 - 1, [1]), (2**64 - 1,))
            with self.assertRaisesRegex(OverflowError, '-1 is not from 0'):
                shares(5, [-1])


class Dates(unittest.TestCase):
    def test_copies(self):
        for date in (Date(2**63 - 1, 12, 31), Date(2000, 2, 29)):
            pickled = [pickle.loads(pickle.dumps(date, protocol))
                       for protocol in range(pickle.HIGHEST_PROTOCOL + 1)]
            for other in (*pickled, copy.copy(date), copy.deepcopy(date)):
                self.assertIs(type(other), Date)
                self.assertEqual(other, date)
        for weekday in cellarcove.Weekday:
            for other in (copy.deepcopy(weekday), pickle.loads(pickle.dumps(weekday))):
                self.assertIs(other, weekday)

    def test_arguments_that_run_code(self):
        """An error of one argument is raised before the code of the next one runs."""
        class Odd:
            def __index__(self):
                return len('1')
        self.assertEqual(Date(2024, Odd(), Odd()), Date(2024, 1, 1))
        for wrong in (('x', 1, Odd()), (2024, 'x', Odd()), (Odd(), Odd(), 'x'),
                      (1.5, Odd(), Odd())):
            self.assertRaises(TypeError, Date, *wrong)

    def test_subclass(self):
        class Day(Date):
            pass
        day = Day(2024, 2, 29)
        self.assertEqual((type(day), type(day.replace(day=1)), type(day + 1),
                          type(Day.fromisoformat('2024-02-29'))), (Day, Day, Date, Day))
        self.assertEqual(day, Date(2024, 2, 29))

    def test_dates_of_datetime(self):
        for _ in range(1000):
            date = datetime.date.fromordinal(random.randint(1, datetime.date.max.toordinal()))
            same = Date.from_date(date)
            self.assertEqual((same.to_date(), same.weekday().value, same.isoweekday()),
                             (date, date.weekday() + 1, date.isoweekday()))
            self.assertEqual(same.isoformat(), date.isoformat())

    def test_sums(self):
        date = Date(2024, 2, 27)
        sums = [date + days for days in range(-800, 400)]
        self.assertEqual([later - date for later in sums], list(range(-800, 400)))
        self.assertEqual([later - days for days, later in zip(range(-800, 400), sums)],
                         [date] * 1200)

    def test_weekdays(self):
        """The day of the week that a date gives is the one that the calls take. It is not taken
        for a number from 0."""
        for days in range(7):
            date = cellarcove.plus_days(Date(2024, 1, 2), days)
            weekday, number = date.weekday(), date.isoweekday()
            self.assertIs(weekday,
                          cellarcove.Weekday(cellarcove.weekday(cellarcove.day_from_date(date))))
            for same in (number, weekday):
                self.assertEqual(cellarcove.date_from_iso_week(*cellarcove.iso_week(date), same),
                                 date)
                found = cellarcove.nth_weekday_of_month(2024, 1, weekday=same,
                                                        n=(date.day + 6) // 7)
                self.assertEqual(found, date)
                last = cellarcove.last_weekday_of_month(2024, 2, same)
                self.assertEqual(last.isoweekday(), number)
            for wrong in (lambda: weekday == number, lambda: number != weekday, lambda: weekday < 5,
                          lambda: 'MTWTFSS'[weekday], lambda: weekday + 1,
                          lambda: cellarcove.nth_weekday_of_month(2024, weekday, 1, 1),
                          lambda: cellarcove.gcd(weekday, 1)):
                self.assertRaises(TypeError, wrong)
            self.assertEqual({weekday: 1}[weekday], 1)
            self.assertFalse(weekday == 'MONDAY')


class Errors(unittest.TestCase):
    def each(self):
        """An error for each status and class."""
        yield from (Refused(status) for status in Status if status != Status.ANSWER)
        yield from (DivisionByZero(status) for status in (Status.OUTSIDE, Status.BAD_MODULUS,
                                                          Status.ZERO_DENOMINATOR))
        yield NotFitting(Status.NOT_FITTING)

    def test_copies(self):
        """A copy, and what another process gets, is the same error."""
        for error in self.each():
            copies = [copy.copy(error), copy.deepcopy(error)]
            copies += [pickle.loads(pickle.dumps(error, protocol))
                       for protocol in range(pickle.HIGHEST_PROTOCOL + 1)]
            for other in copies:
                self.assertIs(type(other), type(error))
                self.assertIs(other.status, error.status)
                self.assertEqual((str(other), repr(other)), (str(error), repr(error)))

    def test_few_digits(self):
        """A message has few digits, whatever the number."""
        calls = (cellarcove.gcd, cellarcove.sqrt, cellarcove.weekday, cellarcove.easter,
                 cellarcove.fraction_round)
        for size, sign, call in itertools.product((10**39, 10**40, 10**5001, 2**100_000), (1, -1),
                                                  calls):
            with self.assertRaises(OverflowError) as raised:
                call(sign * size)
            self.assertLessEqual(len(re.findall(r'\d', str(raised.exception))), 50)


class Programs(unittest.TestCase):
    """The end of a program, other interpreters, and a module that is imported again: the programs
    of programs.txt. They run in a folder without the sources of the package, since Python looks
    for modules in the current one first."""

    def test_programs(self):
        for program in (HERE / 'programs.txt').read_text().split('\n\n')[1:]:
            said = re.search('^# may print: (.*)', program, re.M)
            with self.subTest(program.splitlines()[0]):
                ran = subprocess.run([sys.executable, '-c', program], cwd=HERE, capture_output=True,
                                     text=True, timeout=120)
                self.assertEqual(ran.returncode, 0, ran.stderr)
                self.assertEqual([line for line in ran.stderr.splitlines()
                                  if not (said and re.search(said[1], line))], [])


class Names(unittest.TestCase):
    def test_all(self):
        """`__all__` has each class and call that is there, and nothing of another module."""
        public = {name for name, value in vars(cellarcove).items() if not name.startswith('_')
                  and (getattr(value, '__module__', '') or '').split('.')[0] == 'cellarcove'}
        self.assertEqual(set(cellarcove.__all__), public | {'BUILT_BY'})
        self.assertRegex(cellarcove.__version__, r'^\d+\.\d+\.\d+$')
        self.assertIn(cellarcove.BUILT_BY, ('rattle', 'cargo'))

    def test_docstrings(self):
        """Each call says what it does, with examples, which are run."""
        found = {test.name.rpartition('.')[2]
                 for test in doctest.DocTestFinder().find(cellarcove._calls) if test.examples}
        self.assertEqual(found, set(cellarcove._calls.__all__))
        self.assertTrue(all(getattr(cellarcove, name).__doc__ for name in cellarcove.__all__))
        for module in (cellarcove._calls, cellarcove):
            self.assertEqual(doctest.testmod(module, globs=vars(cellarcove).copy()).failed, 0)

    def test_any_argument(self):
        """An argument of any type is an error of Python, and never a crash."""
        odd = [None, 1.5, 'x', b'', b'12345678', [], (), (1, 2), (1, 2, 3), {}, object(),
               array.array('d', [1.0]), memoryview(b'x'), Fraction(1, 3), datetime.date(2000, 1, 1),
               types.SimpleNamespace(year=None, month=1, day=1), float('nan'), 2**64, -(2**63) - 1,
               True, cellarcove.Weekday.MONDAY]
        for name in cellarcove.__all__:
            call = getattr(cellarcove, name)
            if not callable(call) or isinstance(call, type):
                continue
            for first in odd:
                for others in ((), (first,), (first, 1), (first, 1, 1), (1, first, 1, 1),
                               (first, 1, 1, 1, first), (1,) * 9):
                    # there may be no numpy
                    with contextlib.suppress(TypeError, ValueError, OverflowError,
                                             ZeroDivisionError, ImportError):
                        call(first, *others)


if __name__ == '__main__':
    unittest.main()
