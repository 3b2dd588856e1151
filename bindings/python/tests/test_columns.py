"""Calls the package with columns: a matrix of types, layouts and kinds beside Python's integers,
threads, and a cluster of dask."""

import ast
import calendar
import functools
import importlib.util
import itertools
import math
import pathlib
import subprocess
import sys
import threading
import time
import unittest
import unittest.mock
import warnings

import cellarcove

missing = [
    name
    for name in ('numpy', 'pandas', 'dask', 'distributed')
    if not importlib.util.find_spec(name)
]
if missing:
    print(f'the tests of columns are left out: there is no {", ".join(missing)}', file=sys.stderr)
else:
    import dask.array
    import numpy
    import pandas

    dask.config.set(scheduler='synchronous')

SIGNED, UNSIGNED = 'i1 i2 i4 i8 >i8 <i2 >i4', 'u1 u2 u4 u8 >u8 >u2 ?'
REFUSED = 'f2 f4 f8 >f8 c16 O U3 S3 M8[D] M8[ns] m8[h] V4'
NUMBERS = [12, 100, 7, 1, 96, 30, 60, 2, 5, 18, 64, 9]
OTHERS = [8, 3, 7, 2, 4, 12, 25, 1, 5, 27, 48, 6]

WITHOUT_ONE = ('base', 'page_size', 'parts')  # parameters of which 1 has no result with a 1

# A call, and what it returns by the integers of Python.
CALLS = {
    'gcd': math.gcd,
    'div_floor': lambda x, y: x // y,
    'div_ceil': lambda x, y: -(-x // y),
    'average_floor': lambda x, y: (x + y) // 2,
    'checked_product': lambda x, y: x * y,
    'is_multiple_of': lambda x, y: x % y == 0,
    'binomial': math.comb,
    'div_mod_floor': divmod,
}


def as_type(numbers, kind):
    """An array of a type. For bools the numbers are 0 and 1."""
    return numpy.array([number % 2 for number in numbers] if kind == '?' else numbers).astype(kind)


def unaligned(x):
    room = numpy.zeros(x.nbytes + 1, 'u1')
    found = room[1:].view(x.dtype)
    found[:] = x
    return found


def strided(x):
    room = numpy.zeros((len(x), 3), x.dtype)
    room[:, 1] = x
    return room[:, 1]


def read_only(x):
    x.flags.writeable = False
    return x


def of_record(x):
    room = numpy.zeros(len(x), [('a', 'u1'), ('x', x.dtype)])
    room['x'] = x
    return room['x']


# How an array lies in memory.
LAYOUTS = {
    'contiguous': lambda x: x,
    'strided': strided,
    'reversed': lambda x: x[::-1].copy()[::-1],
    'unaligned': unaligned,
    'in a record': of_record,
    'read only': read_only,
    'two dimensions': lambda x: x.reshape(3, 4),
    'columns first': lambda x: numpy.asfortranarray(x.reshape(3, 4)),
    'a part of two dimensions': lambda x: numpy.repeat(x.reshape(3, 4), 2, axis=1)[:, ::2],
    'broadcast': lambda x: numpy.broadcast_to(x, (2, 12)),
    'empty': lambda x: x[:0],
    'one': lambda x: x[:1],
    'no dimension': lambda x: x[0:1].reshape(()),
    'swapped': lambda x: x.astype(x.dtype.newbyteorder()),
}


def masked(x):
    return numpy.ma.array(x, mask=numpy.arange(x.size).reshape(x.shape) % 3 == 1)


def nullable(x):
    """A column of pandas in which some are missing."""
    kinds = {'b': pandas.BooleanDtype, 'i': pandas.Int64Dtype, 'u': pandas.UInt64Dtype}
    column = pandas.Series(x.astype(x.dtype.newbyteorder('='))).astype(kinds[x.dtype.kind]())
    column[1::3] = pandas.NA
    return column


# Which kind of array it is. The last three are of one dimension.
KINDS = {
    'numpy': lambda x: x,
    'masked': masked,
    'dask': lambda x: dask.array.from_array(x, chunks=2),
    'Series': lambda x: pandas.Series(
        x.astype(x.dtype.newbyteorder('=')), index=range(5, 5 + len(x))
    ),
    'nullable': nullable,
}
OF_ONE_DIMENSION = ('Series', 'nullable')


def plain(x):
    """The numbers of a column, `None` where they are missing."""
    x = x.compute() if hasattr(x, 'compute') else x
    values = x.tolist()
    return (
        [None if value is pandas.NA else value for value in values]
        if isinstance(values, list)
        else values
    )


def wanted(function, x, y):
    """What is wanted of nested lists and numbers."""
    if isinstance(x, list):
        return [wanted(function, a, b) for a, b in zip(x, y)]
    return None if x is None or y is None else function(int(x), int(y))


@unittest.skipIf(missing, f'there is no {missing}')
class Matrix(unittest.TestCase):
    def cases(self, types, numbers=(NUMBERS, OTHERS)):
        """Two columns of each type, layout and kind, with the words for them. The second one of
        bools is true."""
        for kind in types.split():
            for layout, lies in LAYOUTS.items():
                for name, made in KINDS.items():
                    x, y = (
                        lies(as_type(each, kind))
                        for each in (numbers[0], [1] * 12 if kind == '?' else numbers[1])
                    )
                    if x.ndim == 1 or name not in OF_ONE_DIMENSION:
                        yield f'{kind}, {layout}, {name}', made(x), made(y)

    def test_integers(self):
        done = 0
        for words, x, y in self.cases(f'{SIGNED} {UNSIGNED}'):
            for call, function in CALLS.items():
                with self.subTest(words, call=call):
                    found = getattr(cellarcove, call)(x, y)
                    columns = (
                        [plain(column) for column in found]
                        if isinstance(found, tuple)
                        else plain(found)
                    )
                    right = wanted(function, plain(x), plain(y))
                    self.assertEqual(
                        columns,
                        [pick(right, k) for k in range(2)] if isinstance(found, tuple) else right,
                    )
                    done += 1
        print(f'columns beside the integers of Python: {done} cases', file=sys.stderr)
        self.assertGreater(done, 310)

    def test_others(self):
        """A type of no integers is an error that names it."""
        done = 0
        for kind in REFUSED.split():
            for layout, lies in LAYOUTS.items():
                if kind == 'O' and layout == 'unaligned':
                    continue
                x = lies(numpy.zeros(12, kind))
                with self.subTest(f'{kind}, {layout}'):
                    for call in (
                        lambda x=x: cellarcove.gcd(x, 6),
                        lambda x=x: cellarcove.gcd(12, x),
                        lambda x=x: cellarcove.days_in_month(2024, x),
                        lambda x=x: cellarcove.fraction_floor((6, x)),
                    ):
                        with self.assertRaisesRegex(TypeError, 'column of'):
                            call()
                        done += 1
        self.assertGreater(done, 310)

    def test_small_parameters(self):
        """A month of any type of integers is compared with its range."""
        months = list(range(1, 13))
        for words, x, _ in self.cases(
            f'{SIGNED} {UNSIGNED}'.replace(' ?', ''), numbers=(months, months)
        ):
            with self.subTest(words):
                found = plain(cellarcove.days_in_month(2024, x))
                self.assertEqual(
                    found,
                    wanted(
                        lambda month, _: calendar.monthrange(2024, month)[1], plain(x), plain(x)
                    ),
                )
        for kind in 'i2 i4 i8 u2 u4 u8 >i8'.split():
            for wrong in [256, 2**15 - 1] + [-1, -256] * (kind.strip('>')[0] == 'i'):
                with self.assertRaisesRegex(
                    OverflowError, f'{wrong} is not from 0 to 255, in the element 1'
                ):
                    cellarcove.days_in_month(2024, numpy.array([1, wrong, 2]).astype(kind))

    def test_by_one(self):
        """Numbers divided by one, of which many are divided at a time."""
        ends = [-(2**63), 1 - 2**63, -8, -3, -1, 0, 1, 3, 7, 2**62, 2**63 - 1]
        for kind, low in (('i8', -(2**63)), ('u8', 0)):
            high = low + 2**64 - 1
            given = [number for number in [*ends, high] if low <= number <= high]
            many = numpy.random.default_rng(3).integers(low, high, 1300, kind, endpoint=True)
            many[: len(given)] = given
            sizes = [1, 2, 3, 7, 100, 2**32 + 1, 2**62, 2**62 + 1, high - 1, high]
            for divisor in [*sizes, *(-size for size in sizes[1:] if size <= -low), low, low + 1]:
                if divisor == 0:
                    continue
                right = [number // divisor for number in many.tolist()]
                with self.subTest(f'{kind} by {divisor}'):
                    for count in (0, 1, 511, 512, 513, 1300):
                        found = cellarcove.div_floor(many[:count], divisor)
                        self.assertEqual(found.tolist(), right[:count])
                    for part in (slice(None, None, 2), slice(None, None, -1)):
                        found = cellarcove.div_floor(many[part], divisor)
                        self.assertEqual(found.tolist(), right[part])
                    for part in (slice(None), slice(1, None), slice(None, -1)):
                        room = numpy.zeros(1301, kind)
                        x, out = room[:-1][part], room[1:][part]
                        for to in (x, out):
                            x[:] = many[part]
                            cellarcove.div_floor(x, divisor, out=to)
                            self.assertEqual(to.tolist(), right[part])

    def test_small_by_one(self):
        """All small numbers, and those next to both ends, divided by all small numbers."""
        ends = [*range(-(2**63) + 1, -(2**63) + 18), *range(2**63 - 17, 2**63)]
        numbers = numpy.array([*range(-40, 41), *ends])
        chosen = numbers % 3 == 0
        for divisor in [*range(-40, 0), *range(1, 41)]:
            right = [number // divisor for number in numbers.tolist()]
            with self.subTest(divisor):
                self.assertEqual(cellarcove.div_floor(numbers, divisor).tolist(), right)
                part = cellarcove.div_floor(
                    numbers, divisor, where=chosen, out=numpy.zeros_like(numbers)
                )
                self.assertEqual(
                    part.tolist(), [q if k else 0 for q, k in zip(right, chosen.tolist())]
                )

    def test_least_by_minus_one(self):
        """The one quotient that does not fit, in any block: it has its status, and the others are
        there."""
        for place in (0, 511, 512, 1299):
            numbers = numpy.arange(1300)
            numbers[place] = -(2**63)
            found, statuses = cellarcove.div_floor(numbers, -1, errors='status')
            right = [0 if k == place else -k for k in range(1300)]
            self.assertEqual(found.tolist(), right)
            self.assertEqual(statuses.tolist(), [2 * (k == place) for k in range(1300)])

    def test_sums_of_columns(self):
        """Numbers added to numbers, or to one, many at a time, in any layout."""
        for kind, low in (('i8', -(2**62)), ('u8', 0)):
            many = numpy.random.default_rng(5).integers(low, low + 2**63, (2, 1300), kind)
            x, y = many
            right = [a + b for a, b in zip(x.tolist(), y.tolist())]
            for count in (0, 1, 511, 512, 513, 1300):
                found = cellarcove.checked_sum(x[:count], y[:count])
                self.assertEqual(found.tolist(), right[:count])
            for part in (slice(None, None, 2), slice(None, None, -1)):
                found = cellarcove.checked_sum(x[part], y[part])
                self.assertEqual(found.tolist(), right[part])
            for pair in ((x, 5), (5, x)):
                found = cellarcove.checked_sum(*pair)
                self.assertEqual(found.tolist(), [a + 5 for a in x.tolist()])
            for part in (slice(None), slice(1, None), slice(None, -1)):
                room = numpy.zeros(1301, kind)
                a, out = room[:-1][part], room[1:][part]
                for to in (a, out):
                    a[:] = x[part]
                    cellarcove.checked_sum(y[part], a, out=to)
                    self.assertEqual(to.tolist(), right[part])

    def test_sums_that_do_not_fit(self):
        """Sums that do not fit, in any block: each has its status, and the others are there."""
        for kind, first, step in (('i8', 2**63 - 1, 1), ('i8', -(2**63), -1), ('u8', 2**64 - 1, 1)):
            for places in ((0,), (511,), (512,), (7, 1299), tuple(range(1300))):
                x = numpy.zeros(1300, kind)
                x[list(places)] = first
                found, statuses = cellarcove.checked_sum(x, step, errors='status')
                right = [0 if k in places else step for k in range(1300)]
                self.assertEqual(found.tolist(), right)
                self.assertEqual(statuses.tolist(), [2 * (k in places) for k in range(1300)])
                with self.assertRaises(cellarcove.NotFitting) as raised:
                    cellarcove.checked_sum(x, numpy.full(1300, step, kind))
                self.assertEqual(
                    (raised.exception.index, raised.exception.count), (places[0], len(places))
                )

    def test_outputs(self):
        """An output of any layout gets the results, also one that is an input."""
        for layout in (
            'contiguous',
            'strided',
            'unaligned',
            'in a record',
            'two dimensions',
            'columns first',
            'reversed',
        ):
            x = LAYOUTS[layout](numpy.array(NUMBERS))
            right, out = wanted(lambda a, _: math.gcd(a, 8), x.tolist(), x.tolist()), LAYOUTS[
                layout
            ](numpy.zeros(12, int))
            self.assertIs(cellarcove.gcd(x, 8, out=out), out)
            self.assertEqual(out.tolist(), right)
            cellarcove.gcd(x, 8, out=x)
            self.assertEqual(x.tolist(), right)
        x = numpy.arange(1, 100_001)
        cellarcove.average_floor(x[:-1], x[1:], out=x[1:])
        self.assertEqual(x.tolist(), [1, *range(1, 100_000)])

    def test_quick_outputs(self):
        """An output of the type of the results is filled without what other columns need, also if
        it is an input, and an element without a result raises for its own inputs."""
        x, out = numpy.arange(1, 5), numpy.zeros(4, int)
        with unittest.mock.patch('cellarcove._columns.run', None):
            self.assertIs(cellarcove.gcd(x, 6, out=out), out)
            self.assertEqual(out.tolist(), [1, 2, 3, 2])
            self.assertEqual(cellarcove.average_floor(x, 9, out=x).tolist(), [5, 5, 6, 6])
            self.assertEqual(cellarcove.checked_sum(x, out, out=out[::-1]).tolist(), [6, 7, 9, 8])
            for wrong, error in ((numpy.array([3, 0, 0, 5]), cellarcove.DivisionByZero),
                                 (numpy.array([3, -1, -1, 5]), cellarcove.NotFitting)):
                with self.assertRaises(error) as raised:
                    cellarcove.div_floor(numpy.full(4, -(2**63)), wrong, out=wrong)
                self.assertEqual((raised.exception.index, raised.exception.count), (1, 2))


@unittest.skipIf(missing, f'there is no {missing}')
class Imports(unittest.TestCase):
    def test_missing(self):
        """An array is an error without numpy, and without an extension that numpy can load."""
        program = (
            'import array, sys, cellarcove\n'
            'sys.modules[sys.argv[1]] = None\n'
            'try: cellarcove.gcd(array.array("q", [12]), 8)\n'
            'except ImportError as error: print(error)\n'
            'print(cellarcove.gcd(12, 8))'
        )
        for name, words in (
            ('numpy', 'numpy, which is not there: install numpy ('),
            ('cellarcove._ufuncs', 'numpy, and was built with another version of it: build it'),
        ):
            with self.subTest(name):
                command = [sys.executable, '-c', program, name]
                found = subprocess.check_output(command, text=True)
                self.assertTrue(found.startswith(f'gcd() takes arrays by {words}'), found)
                self.assertTrue(found.endswith('\n4\n'), found)


@unittest.skipIf(missing, f'there is no {missing}')
class Dates(unittest.TestCase):
    def test_last_day(self):
        """A `Series` gets each date that pandas has, and no result for the next one."""
        first = pandas.Series(numpy.array([0], 'M8[D]'))
        unit, _ = numpy.datetime_data(first.dtype)
        per_day = 86400 * {'s': 1, 'ms': 10**3, 'us': 10**6, 'ns': 10**9}[unit]
        last = (2**63 - 1) // per_day
        for days in (last, -last):
            found = cellarcove.plus_days(first, days)
            self.assertEqual((found.to_numpy().view('int64') // per_day).tolist(), [days])
            self.assertEqual(cellarcove.day_from_date(found).tolist(), [days])
            beyond = days + (1 if days > 0 else -1)
            with self.assertRaises(cellarcove.NotFitting):
                cellarcove.plus_days(first, beyond)
            self.assertTrue(cellarcove.plus_days(first, beyond, errors='mask').isna().all())


@unittest.skipIf(missing, f'there is no {missing}')
class Scalars(unittest.TestCase):
    def test_bools(self):
        """A bool of numpy is 0 or 1, and its `__index__`, which warns, is not called."""
        yes, no = numpy.bool_(True), numpy.bool_(False)
        with warnings.catch_warnings():
            warnings.simplefilter('error')
            self.assertEqual((cellarcove.gcd(12, yes), cellarcove.gcd(no, 12)), (1, 12))
            self.assertEqual(cellarcove.gcd(numpy.array([12, 18]), no).tolist(), [12, 18])
            self.assertEqual((cellarcove.sum_of([yes, 4, no]), cellarcove.gcd_of((yes, 3))), (5, 1))
            self.assertEqual(cellarcove.shares(numpy.array([3]), [yes, 1]).tolist(), [[2, 1]])
            self.assertEqual(cellarcove.fraction_floor((yes, 1)), 1)
            self.assertEqual(str(cellarcove.Date(2024, yes, yes) + yes), '2024-01-02')


def parts_of(kind):
    """The types of a union, or of the items of a tuple."""
    if isinstance(kind, ast.BinOp):
        return [*parts_of(kind.left), *parts_of(kind.right)]
    return kind.elts if isinstance(kind, ast.Tuple) else [kind]


def samples(kind, number, shape):
    """A value of each type of a union in the stub. An array has the number twice, or days."""
    days = numpy.array([0, 1], 'M8[D]')
    known = {
        'None': None,
        'SupportsColumn': days if shape == 'd' else numpy.array([number, number]),
        '_Number': number,
        '_Date': cellarcove.Date(2024, 1, 31),
        '_Days': days[1] - days[0],
        '_Fraction': (1, 2),
        'Congruence[_Number]': cellarcove.Congruence(residue=0, modulus=1),
        'Iterable[_Number]': [number, number],
        'Schedule[_Number]': cellarcove.Schedule(first=0, period=1),
        'Weekday': cellarcove.Weekday.MONDAY,
    }
    for part in parts_of(kind):
        if ast.unparse(part).startswith('tuple['):
            items = (samples(item, number, 'n') for item in parts_of(part.slice))
            yield from itertools.product(*items)
        else:
            yield known[ast.unparse(part)]


def calls_of(function):
    """The arguments of an overload, of each type that it may take, without its options."""
    given = [each.arg for each in function.args.posonlyargs]
    call = cellarcove._columns.CALLS[function.name]
    shapes = dict(zip(call.names, call.shapes))
    taken = [*function.args.posonlyargs, *function.args.args, *function.args.kwonlyargs]
    values = {
        each.arg: [*samples(each.annotation, 1 + (each.arg in WITHOUT_ONE), shapes.get(each.arg))]
        for each in taken
        if each.arg not in cellarcove._columns.NAMED
    }
    for chosen in itertools.product(*values.values()):
        named = dict(zip(values, chosen))
        yield [named.pop(name) for name in given], named


def type_of(found):
    """The type of a result as the stub writes it."""
    if isinstance(found, numpy.ndarray):
        return 'NDArray[Any]'
    items = ', '.join(map(type_of, found))
    return f'tuple[{items}]' if type(found) is tuple else f'_{type(found).__name__}Arrays'


def fields_of(stub):
    """The names of the fields of each class in the stub."""
    return {
        each.name: [part.target.id for part in each.body if isinstance(part, ast.AnnAssign)]
        for each in stub.body
        if isinstance(each, ast.ClassDef)
    }


@unittest.skipIf(missing, f'there is no {missing}')
class Types(unittest.TestCase):
    def test_arrays(self):
        """A call of arrays returns what the stub says: an array, several, or those of a class,
        whose fields have the names in the stub. It takes `out` if the stub does."""
        text = pathlib.Path(cellarcove.__file__).with_name('_calls.pyi').read_text()
        stub = ast.parse(text)
        fields = fields_of(stub)
        made = [
            (function, ast.unparse(function.returns))
            for function in stub.body
            if isinstance(function, ast.FunctionDef)
        ]
        made = [each for each in made if 'NDArray' in each[1] or each[1].endswith('Arrays')]
        self.assertGreater(len(made), 200)
        for function, wanted in made:
            for given, named in calls_of(function):
                with self.subTest(function.name, given=given, named=named):
                    call = functools.partial(getattr(cellarcove, function.name), *given, **named)
                    found = call()
                    self.assertEqual(type_of(found), wanted)
                    self.assertEqual([*getattr(found, '_fields', [])], fields.get(wanted, []))
                    arrays = [found] if isinstance(found, numpy.ndarray) else found
                    self.assertEqual({type(each) for each in arrays}, {numpy.ndarray})
                    self.write(call, arrays, [each.arg for each in function.args.kwonlyargs])

    def write(self, call, right, names):
        """A call writes its results into other arrays, or it is an error if it has no `out`."""
        out = tuple(map(numpy.zeros_like, right))
        if 'out' not in names:
            self.assertRaisesRegex(TypeError, 'takes no out', call, out=out)
            return
        call(out=out)
        self.assertEqual([each.tolist() for each in out], [each.tolist() for each in right])


def pick(nested, k):
    return [pick(item, k) for item in nested] if isinstance(nested, list) else nested and nested[k]


@unittest.skipIf(missing, f'there is no {missing}')
class Threads(unittest.TestCase):
    def test_threads(self):
        """Calls of several threads at a time, over arrays and over numbers."""
        x, y, z = (
            numpy.random.default_rng(seed).integers(1, 2**63, 2000, 'u8') for seed in range(3)
        )
        wanted, failed = cellarcove.power_modulo(x, y, z), []

        def run():
            for _ in range(20):
                if (cellarcove.power_modulo(x, y, z) != wanted).any() or cellarcove.gcd(
                    12, 18
                ) != 6:
                    failed.append(1)

        together([run] * 8)
        self.assertEqual(failed, [])

    def test_free(self):
        """The lock of Python is free in a loop: another thread counts meanwhile."""
        x, counts, done = numpy.random.default_rng(1).integers(1, 2**62, 400_000), [0], []

        def count():
            while not done:
                counts[0] += 1
                time.sleep(0)

        def run():
            before = counts[0]
            cellarcove.gcd(x, x[::-1])
            done.append(counts[0] - before)

        together([count, run])
        self.assertGreater(done[0], 1)

    def test_halves(self):
        """Two threads over the halves of an array return what one returns. It prints how long they
        take beside one, which depends on what else the machine does."""
        x = numpy.random.default_rng(2).integers(1, 2**62, 400_000)
        y, whole, out = x[::-1].copy(), numpy.empty_like(x), numpy.empty_like(x)
        halves, times = (slice(0, 200_000), slice(200_000, None)), {1: [], 2: []}

        def run(part, to):
            cellarcove.gcd(x[part], y[part], out=to[part])

        for _ in range(7):
            for parts, to in (((slice(None),), whole), (halves, out)):
                start = time.perf_counter()
                together([lambda part=part, to=to: run(part, to) for part in parts])
                times[len(parts)].append(time.perf_counter() - start)
        self.assertTrue((out == whole).all())
        ratio = min(times[2]) / min(times[1])
        print(f'two threads took {ratio:.2f} of the time of one', file=sys.stderr)

    def test_failures(self):
        """A call raises for its own element without a result, and for none of another thread."""
        x, failed = numpy.arange(5000), []
        good, bad = numpy.ones(5000, int), x % 4999

        def run(divisors):
            for _ in range(50):
                try:
                    found = cellarcove.mod_floor(x, divisors)
                    failed.append(found.any() or divisors is bad)
                except cellarcove.DivisionByZero as error:
                    failed.append((error.index, error.count) != (0, 2) or divisors is good)

        together([lambda: run(good), lambda: run(bad)] * 4)
        self.assertEqual((len(failed), any(failed)), (400, False))


def together(runners):
    threads = [threading.Thread(target=run) for run in runners]
    for thread in threads:
        thread.start()
    for thread in threads:
        thread.join()


@unittest.skipIf(missing, f'there is no {missing}')
class Cluster(unittest.TestCase):
    def test_two_processes(self):
        """Blocks that two processes send each other, which lie at any byte: of two dimensions,
        broadcast, and of dates."""
        program = (pathlib.Path(__file__).parent / 'cluster.py').read_text()
        names = {}
        exec(compile(program, 'cluster.py', 'exec'), names)
        self.assertEqual(names['main'](), 'equal')


if __name__ == '__main__':
    unittest.main()
