"""What Python knows of the exports: the table of calls in C, and the stubs."""
import itertools
import re
import textwrap
from collections.abc import Callable, Sequence
from typing import Any

from tools import ROOT
from tools.bindings.examples import DOCS, of_call, without_examples
from tools.bindings.exports import (EXPORTS, PAIRS, Call, Field, by_names, c_type, filled,
                                    reworded, without_returns)

RENAMED = {'fraction_limit_denominator': 'limit_denominator'}
ALIASES = {'comb': 'binomial', 'isqrt': 'sqrt'}
PARAMETERS = {'from': 'start', 'to': 'end', 'max': 'max_denominator'}
OF_MANY = ('gcd', 'lcm')  # which take any count of numbers
WEEKDAY = 'weekday'        # the parameter that may be a `Weekday`
WRITTEN = 'count'          # the parameter in place of an array that is written
TAKEN = 'PyObject *const *args, Py_ssize_t given'  # what a function of several arguments takes
ROWS = (ROOT / 'bindings/python/tests/rows.txt').read_text().rpartition('\n\n')[2]

LETTERS = {'i64': 'q', 'u64': 'Q', 'u32': 'I', 'u16': 'H', 'u8': 'B', 'i32': 'i', 'bool': '?'}
TYPES = {'q': 'int64_t', 'Q': 'uint64_t', 'I': 'uint32_t', 'H': 'uint16_t', 'B': 'uint8_t',
         'i': 'int32_t', '?': 'uint8_t'}
OBJECTS = {'i64': 'PyLong_FromLongLong', 'u64': 'PyLong_FromUnsignedLongLong',
           'u8': 'PyLong_FromLong', 'u16': 'PyLong_FromLong', 'i32': 'PyLong_FromLong',
           'bool': 'PyBool_FromLong'}
# The class of a result, and the scalar result of the stubs.
CLASSES = {'Bezout': ('class_gcd', 'ExtendedGcd'), 'Solutions': ('class_solutions', 'Solutions'),
           'IsoWeek': ('class_week', 'IsoWeek')}
SHAPES = {'Fraction': 'f', 'Date': 'd', 'Congruence': 'c', 'Schedule': 's'}
# the parameters whose 0 is the reason of `BAD_MODULUS`
MODULI = {'m', 'n', 'modulus', 'p', 'q', 'period'}
# a reason of a status that Python never meets, since it makes the parts
SEEN_TO = 'there is not one part for each weight, or if '
DIVIDES = ('division', 'products')  # the modules whose parameters `y` and `d` are divisors
ERRORS = "errors='raise'"  # of a call with columns
OPTIONS = f'out=None, where=True, {ERRORS}'  # of one that writes one number for each element
# What says, before there is room for the numbers that a call writes, whether it has a result.
ASKED = {'choice_of_rank': 'is_below_binomial(numbers)'}


def public_calls() -> list[tuple[str, list[Call]]]:
    """The calls of Python: the name, and the forms."""
    return [(RENAMED.get(name, name), forms) for name, forms in EXPORTS().forms().items()]


def parameter_names(call: Call) -> list[str]:
    return [WRITTEN if parameter.is_written else PARAMETERS.get(parameter.name, parameter.name)
            for parameter in by_names(call).taken]


def number_names(call: Call) -> list[str]:
    """The parameters of a call of pairs with a name for each number, and none of another call."""
    names = [PARAMETERS.get(parameter.name, parameter.name) for parameter in call.parameters]
    return names if by_names(call) != call else []


def shapes(call: Call) -> str:
    """The letters of the parameters of a call."""
    return ''.join('w' if parameter.name == WEEKDAY
                   else SHAPES.get(parameter.pair or parameter.kind, 'n')
                   for parameter in by_names(call).parameters)


def names_of_one(call: Call) -> list[str]:
    """The names of the numbers of a pair that is the only one, which a call takes too."""
    found = [parameter.pair for parameter in by_names(call).parameters if parameter.pair]
    return [*dict(PAIRS.values())[found[0]]] if len(found) == 1 else []


def cells(call: Call) -> list[str]:
    """The types of the numbers that a call takes."""
    return [leaf for parameter in call.parameters for _, leaf in EXPORTS().leaves(parameter.kind)]


def results(call: Call) -> list[tuple[str, str]]:
    """The paths and types of the numbers that it returns. A week of ISO 8601 has its year first."""
    found = EXPORTS().leaves(call.result)
    return (sorted(found, key=lambda leaf: leaf[0] != '.year') if call.result.startswith('IsoWeek')
            else found)


def divides(call: Call) -> list[bool]:
    """Whether each number is a divisor, whose 0 is the reason of a status."""
    reasons = ' '.join(call.statuses)
    divisors = {'y', 'd'} if call.module in DIVIDES else set()
    divisors |= MODULI if '`BAD_MODULUS`' in reasons else set()
    return [parameter.name in divisors for parameter in call.parameters
            for _ in EXPORTS().leaves(parameter.kind)]


def grouped(call: Call, numbers: Sequence[Any]) -> list[Any]:
    """The arguments that are made of the numbers of the cells: a number, or a tuple of those of a
    fraction or a date."""
    rest, counts = (iter(numbers),
                    [len(EXPORTS().leaves(parameter.kind)) for parameter in call.parameters])
    return [next(rest) if count == 1 else tuple(itertools.islice(rest, count)) for count in counts]


def arguments(call: Call, number: Callable[[int, str], str]) -> str:
    """The arguments in C, made of the numbers of the cells."""
    given = zip(call.parameters,
                grouped(call, [number(k, kind) for k, kind in enumerate(cells(call))]))
    return ', '.join(made if isinstance(made, str)
                     else f'({c_type(parameter.kind)}){{{", ".join(made)}}}'
                     for parameter, made in given)


def object_of(call: Call) -> str:
    """The result in Python of the result `r` in C."""
    whole = {'FractionAnswer': 'fraction_of(r.value)', 'DateAnswer': 'date_of(r.date)',
             'Date': 'date_of(r)',
             'DecimalAnswer': f'decimal_of(r, (uint32_t)a[{len(cells(call)) - 1}])'}
    items = [f'{OBJECTS[kind]}(r{path})' for path, kind in results(call)]
    if call.result in whole or len(items) == 1:
        return whole.get(call.result, items[0])
    kinds = {kind for _, kind in results(call)}
    assert 'u64' not in kinds or kinds == {'u64'}, f'{call.symbol}: numbers of both signs'
    numbers = ', '.join(f'(uint64_t)r{path}' for path, _ in results(call))
    are_signed = 'false' if 'u64' in kinds else 'true'
    made = f'{len(items)}, (const uint64_t[]){{{numbers}}}, {are_signed}'
    return next((f'object_of({name}, {made})' for end, (name, _) in CLASSES.items()
                 if end in call.result), f'tuple_of({made})')


def form_text(call: Call) -> str:
    """The functions of a form, and its entry."""
    has_status = EXPORTS().has_status(call)
    refused = '''    if (r.status != CELLARCOVE_ANSWER) {
        *status = r.status;
        return NULL;
    }''' if has_status else '    (void)status;'
    return filled(
        'form.c', name=call.symbol.removeprefix('cellarcove_'), type=c_type(call.result),
        symbol=call.symbol, refused=refused,
        taken=arguments(call, lambda k, kind: (
            f'({TYPES[LETTERS[kind]]})a[{k}]')),
        object=object_of(call), cells=''.join(LETTERS[kind] for kind in cells(call)))


def bools(values: Sequence[bool]) -> str:
    return f'(const bool[]){{{", ".join("true" if value else "false" for value in values)}}}'


def quoted(names: Sequence[str]) -> str:
    return ', '.join(f'"{name}"' for name in names)


def signature(name: str, forms: list[Call]) -> str:
    if name in OF_MANY:
        return f'{name}($module, /, *numbers, {OPTIONS})'
    if forms[0].has_slice and len(forms[0].taken) == len(forms[0].parameters):
        return f'{name}($module, {", ".join(parameter_names(forms[0]))}, /)'
    given, numbers = parameter_names(forms[0]), names_of_one(forms[0])
    given = [*given[:-1], f'{given[-1]}=None', '*',
             *(f'{number}=None' for number in numbers)] if numbers else [*given, '*']
    return f'{name}($module, /, {", ".join(given)}, {ERRORS if forms[0].has_slice else OPTIONS})'


RAISED = {'NOT_FITTING': '`NotFitting`', 'ZERO_DENOMINATOR': '`DivisionByZero`'}


def raised(call: Call, unsigned: Call | None = None) -> str:
    """What a docstring says of the errors."""
    return reworded(call, raised_by(call, unsigned))


def raised_by(call: Call, unsigned: Call | None) -> str:
    names = RAISED | ({'OUTSIDE': '`DivisionByZero`'} if call.module in DIVIDES else {})
    others, said = {sentence.split('`')[1] for sentence in (unsigned or call).statuses}, list[str]()
    for sentence in call.statuses:
        _, status, rest = sentence.replace(SEEN_TO, '').removesuffix('.').split('`', 2)
        end = '.' if status in others else ', which takes a negative number.'
        said.append(f'Raises {names.get(status, f"`Refused` with `{status}`")}{rest}{end}')
    return ' '.join(said)


def examples(name: str) -> list[tuple[str, str]]:
    """The calls of a name of which the docstring has the results, with these: those of the last
    part of rows.txt, or if it has none those of the comment of the export."""
    found = [(call, value) for call, value in re.findall(r'^(\w+\(.*\))  # (.*)$', ROWS, re.M)
             if call.startswith(f'{name}(')]
    return found or examples_of_comment(name)


def examples_of_comment(name: str) -> list[tuple[str, str]]:
    """The calls in the comment of an export, as Python writes them and what they return."""
    call = next((forms[0] for other, forms in public_calls() if other == name), None)
    classes = (*CLASSES, 'Decimal')
    assert call and not any(end in call.result for end in classes if not call.writes), (
        f'{name}: the last part of rows.txt has no example')
    return [(f'{name}({", ".join(map(argument, call.taken, shown.arguments))})',
             returned(call, shown.result)) for shown in of_call(call)]


def returned(call: Call, parts: list[int]) -> str:
    """What a call returns in an example, as Python writes it."""
    if call.result.startswith('Date'):
        return 'Date(year={}, month={}, day={})'.format(*parts)
    if call.result.startswith('Fraction'):
        return f'Fraction({parts[0]}, {parts[1]})'
    if call.result == 'bool':
        return str(bool(parts[0]))
    return str((*parts,) if call.writes or len(parts) > 1 else parts[0])


def argument(parameter: Field, value: Any) -> str:
    """An argument of an example, as Python writes it."""
    return f'Date{value!r}' if parameter.kind == 'Date' else repr(value)


def of_columns(call: Call) -> str:
    """What a docstring says of columns."""
    if call.has_slice:
        shared = len(call.taken) < len(call.parameters)
        return ('Of a column of amounts, or of weights, it is an array, whose last axis is that '
                'of the weights, or a table or a `Series` with their index.' * shared)
    if call.result.startswith('Date'):
        days = any(parameter.kind == 'Date' for parameter in call.parameters)
        return ('Of columns it is '
                f'{"a column of `datetime64[D]` if a date is one, and else " * days}three '
                'columns: year, month and day.')
    if call.result.startswith('Decimal'):
        return ''
    named = next((name for end, (_, name) in CLASSES.items() if end in call.result), '')
    count = len(results(call))
    return ('Of columns it is a column.' if count == 1
            else f'Of columns it is {f"a `{named}` of" if named else "a tuple of"} {count} '
            'columns.')


def docstring(name: str, forms: list[Call]) -> str:
    """What a call does, its errors, its columns, and its examples, which the tests of the package
    run."""
    many = 'It takes any count of numbers, or two columns. ' * (name in OF_MANY)
    said = without_examples(without_returns(DOCS.get(name, forms[0].doc)))
    said = said.replace('For arrays it is', 'Of columns it is three columns:')
    parts = [said, raised(*forms), many + of_columns(forms[0])]
    for old, new in PARAMETERS.items():
        parts = [part.replace(f'`{old}`', f'`{new}`') for part in parts]
    text = ['\n'.join(textwrap.wrap(part, 88)) for part in parts if part]
    return '\n\n'.join([*text,
                        '\n'.join(f'>>> {given}\n{result}' for given, result in examples(name))])


def call_text(name: str, forms: list[Call]) -> str:
    """The entry of a call, and its function."""
    call, ends = forms[0], (forms[0], forms[-1])
    of_many = filled('of_many.c', name=name) if name in OF_MANY else ''
    forms_of_it = ', '.join(f'&form_{form.symbol.removeprefix("cellarcove_")}' for form in ends)

    def row(symbol: str, names: list[str], letters: str, of_parts: str) -> str:
        return filled('row.c', symbol=symbol, name=name, count=str(len(letters)),
                      names=quoted(names), shapes=letters,
                      of_numbers='true' if set(letters) <= {'n', 'w'} else 'false',
                      divides=bools(divides(call)), forms=forms_of_it, of_parts=of_parts)
    parts = number_names(call) if names_of_one(call) else []
    rows = row(f'parts_{name}', parts, 'n' * len(parts), 'NULL') if parts else ''
    rows += row(f'call_{name}', parameter_names(call), shapes(call),
                f'&parts_{name}' if parts else 'NULL')
    return rows + filled('call.c', name=name, of_many=of_many)


def list_text(name: str, forms: list[Call]) -> str:
    """The function of a call with a list, whose other parameters are numbers of the form."""
    count, kinds = len(forms[0].parameters), [parameter.item for parameter in forms[0].parameters]
    place, width = next((k, len(EXPORTS().leaves(kind))) for k, kind in enumerate(kinds) if kind)
    for form in forms:
        assert {parameter.kind for parameter in form.parameters
                if not parameter.item} <= {form.form} and not form.writes, form

    def case(form: Call) -> str:
        number = f'({TYPES[LETTERS[form.form]]})other'
        items = 'of.items, (size_t)of.count' + f' / {width}' * (width > 1)
        passed = ', '.join(items if parameter.item else number for parameter in form.parameters)
        return filled('list_case.c', type=c_type(form.result), symbol=form.symbol, passed=passed,
                      object=OBJECTS[form.form])
    signed = f'\n    if (of.kind == \'q\') {{\n{case(forms[0])}    }}\n' if len(forms) == 2 else ''
    taken, given = (('PyObject *object', 'object, NULL') if count == 1 else
                    (TAKEN, f'args[{place}], args[{1 - place}]'))
    return filled('list.c', name=name, taken=taken, counted=counted(name, count) * (count > 1),
                  given=given, width=str(width), has_signed='true' if len(forms) == 2 else 'false',
                  signed=signed, unsigned=case(forms[-1]))


def counted(name: str, count: int) -> str:
    """What a function that is given its arguments in an array asks first."""
    return f'!has_count("{name}", given, {count}) || '


def written_text(name: str, call: Call) -> str:
    """The function of a call that writes unsigned numbers, whose other parameters are unsigned
    numbers before it."""
    last = len(call.parameters) - 1
    assert call.parameters[-1].is_written and {parameter.item or parameter.kind
                                               for parameter in call.parameters} == {'u64'}, call
    read = ' || '.join(f"!read_number(args[{k}], 'Q', &numbers[{k}])" for k in range(last + 1))
    return filled('written.c', name=name, taken=TAKEN, symbol=call.symbol, asked=ASKED[name],
                  count=str(last + 1), last=str(last), read=counted(name, last + 1) + read,
                  passed=', '.join(f'(uint64_t)numbers[{k}]' for k in range(last)))


def method(name: str, forms: list[Call]) -> str:
    lines = (f'{signature(name, forms)}\n--\n\n{docstring(name, forms)}'.replace('\\',
                                                                                 '\\\\').replace(
                                                                                     '"',
                                                                                     '\\"').split(
                                                                                         '\n'))
    doc = '\n    '.join(f'"{line}\\n"' for line in lines)
    named = not forms[0].has_slice or len(forms[0].taken) < len(forms[0].parameters)
    several = len(forms[0].parameters) > 1
    flags = 'METH_FASTCALL' + ' | METH_KEYWORDS' * named if named or several else 'METH_O'
    cast = '(PyCFunction)(void (*)(void))' * (named or several)
    return f'    {{"{name}", {cast}py_{name}, {flags},\n    {doc}}},\n'


def calls_c() -> str:
    """The table of calls."""
    named = public_calls()
    text = ''
    for name, forms in named:
        kinds = [parameter.item for parameter in forms[0].parameters if parameter.item]
        if len(kinds) == 2:
            text += filled('divided.c', name=name, names=quoted(parameter_names(forms[0])),
                           signed=forms[0].symbol if len(forms) == 2 else 'NULL',
                           unsigned=forms[-1].symbol)
        elif kinds == ['u8']:
            text += filled('text.c', name=name, symbol=forms[0].symbol,
                           kind=c_type(forms[0].result), result=object_of(forms[0]))
        elif kinds:
            text += written_text(name, forms[0]) if forms[0].writes else list_text(name, forms)
    for name, forms in named:
        if not forms[0].has_slice:
            text += ''.join(map(form_text, forms)) + call_text(name, forms)
    methods = ''.join(method(name, forms) for name, forms in named)
    methods += ''.join(method(alias, dict(named)[name]).replace(f'py_{alias}', f'py_{name}')
                       for alias, name in ALIASES.items())
    public = [*(name for name, _ in named), *ALIASES]
    return filled('calls.c', calls=text, methods=methods, strings='s' * len(public),
                  names='\n        '.join(textwrap.wrap(quoted(public), 92)))


PYTHON = {'Fraction': '_Fraction', 'Date': '_Date'} | {f'{sign}64{name}': f'{name}[SupportsIndex]'
                                                       for sign in 'IU'
                                                       for name, _ in PAIRS.values()}
NUMBER, COLUMN = 'SupportsIndex', '_Column'
# A column for which a call may return no array of numpy, any other, and what it makes of this.
KEPT, OTHER, MADE = '_Kept', 'SupportsColumn', 'NDArray[Any]'
EITHER = f'{COLUMN} | {NUMBER}'
# The types of parameters that may be other numbers.
NUMBERS = {WEEKDAY: f'Weekday | {NUMBER}', 'days': f'_Days | {NUMBER}'}
# The parameters of a call with columns that have names alone.
NAMED_ERRORS = 'errors: _Errors = ...'
OUT, WHERE = 'out: Any = ..., ', 'where: Any = ..., '
NAMED = f'{OUT}{WHERE}{NAMED_ERRORS}'


def scalar_result(call: Call) -> str:
    found = results(call)
    for name in ('Fraction', 'Date', 'Decimal'):
        if call.result.startswith(name):
            return name
    if len(found) == 1:
        return 'bool' if call.result == 'bool' else 'int'
    return next((name for end, (_, name) in CLASSES.items() if end in call.result),
                f'tuple[{", ".join(["int"] * len(found))}]')


def scalar_type(parameter: Field) -> str:
    """The type of a parameter that has no column."""
    return NUMBERS.get(parameter.name, PYTHON.get(parameter.kind, NUMBER))


def column_types(parameter: Field) -> str:
    """The type of a parameter of which one number may be a column."""
    leaves = len(EXPORTS().leaves(parameter.kind))
    if leaves == 1:
        return f'{COLUMN} | {scalar_type(parameter)}'
    return f'{COLUMN} | {PYTHON[parameter.kind]} | tuple[{", ".join([EITHER] * leaves)}]'


def with_column(parameter: Field) -> str:
    """The type of a parameter of which one number is a column: it is one, or a tuple has one."""
    leaves = len(EXPORTS().leaves(parameter.kind))
    shapes = ([NUMBER] * first + [COLUMN] + [EITHER] * (leaves - first - 1)
              for first in range(leaves) if leaves > 1)
    return ' | '.join([COLUMN, *(f'tuple[{", ".join(shape)}]' for shape in shapes)])


def listed_type(parameter: Field) -> str:
    """The type of a parameter of a call with a list."""
    if not parameter.item or parameter.is_written:
        return NUMBER
    if parameter.item == 'u8':
        return 'str'
    if parameter.item in PYTHON:
        return f'Iterable[{PYTHON[parameter.item]}]'
    return f'{COLUMN} | Iterable[{NUMBER}]'


def overloads(name: str, taken: list[tuple[str, str]]) -> str:
    """A call that is overloaded: what it takes, and returns. A number is no array of numpy: for
    mypy a call has any type if it fits several overloads with an array of an unknown type, and an
    array has an `__index__`."""
    taken = [(given.replace(NUMBER, '_Number'), result) for given, result in taken]
    return ''.join(f'@overload\ndef {name}({given}) -> {result}: ...\n' for given, result in taken)


def of_arrays(given: list[tuple[str, str]]) -> list[tuple[str, str]]:
    """The overloads with arrays of numpy: those that make others, and those with errors that do not
    raise or a `where`, which make arrays with a mask, or statuses."""
    found = []
    for taken, result in given:
        raising = taken.replace(WHERE, '').replace('_Errors', '_Raise').replace(COLUMN, OTHER)
        found.append((raising, result))
    others = {NAMED_ERRORS: 'errors: _Marks', WHERE: 'where: Any, '}
    return found + [(taken.replace(old, new), 'Any') for old, new in others.items()
                    for taken, _ in given if old in taken]


def made(call: Call, is_day: bool = False) -> str:
    """What a call of arrays of numpy returns: an array, or those of the numbers of its result.
    Those of a date are one if a date is given as one."""
    named = next((name for end, (_, name) in CLASSES.items() if end in call.result), None)
    count = 1 if is_day else len(results(call))
    return (f'_{named}Arrays' if named else
            MADE if count == 1 else f'tuple[{", ".join([MADE] * count)}]')


def kept_types(parameter: Field) -> str:
    """The type of a parameter of which one number is a column that is no array of numpy."""
    leaves = len(EXPORTS().leaves(parameter.kind))
    shapes = ([EITHER] * first + [KEPT] + [EITHER] * (leaves - first - 1)
              for first in range(leaves) if leaves > 1)
    return ' | '.join([KEPT, *(f'tuple[{", ".join(shape)}]' for shape in shapes)])


def stub_of_shares(name: str, amount: str, weights: str) -> str:
    """A call of an amount and weights. A `Series` of weights is no list of them."""
    listed, named = f'Iterable[{NUMBER}]', f'*, {NAMED_ERRORS}'
    return overloads(name, [
        (f'{amount}: {EITHER}, {weights}: {KEPT}, {named}', 'Any'),
        (f'{amount}: {KEPT}, {weights}: {COLUMN} | {listed}, {named}', 'Any'),
        *of_arrays([(f'{amount}: {EITHER}, {weights}: {COLUMN}, {named}', MADE),
                    (f'{amount}: {COLUMN}, {weights}: {listed}, {named}', MADE)]),
        (f'{amount}: {NUMBER}, {weights}: {listed}', 'tuple[int, ...]')])


def by_days(call: Call, kinds: list[str]) -> list[tuple[list[str], bool]]:
    """The types of the parameters, and whether the result is one column of dates. If the first one
    may be a column of dates, of which a call makes another, that stands apart from its other
    types."""
    first, _, others = kinds[0].partition(' | ')
    of_dates = call.result.startswith('Date') and call.parameters[0].kind == 'Date'
    if of_dates and first in {COLUMN, KEPT}:
        return [([first, *kinds[1:]], True), ([others, *kinds[1:]], False)]
    return [(kinds, False)]


def stub_of_numbers(names: list[str], end: str, call: Call) -> list[tuple[str, str]]:
    """The overloads of a call of numbers with columns. `end` is what comes after these. A column
    of dates gets no `out`."""
    scalars = [scalar_type(parameter) for parameter in call.parameters]
    either = [column_types(parameter) for parameter in call.parameters]
    found, kept = [], []

    def taken(kinds: list[str]) -> list[tuple[str, bool]]:
        return [(typed(names, each) + (end.replace(OUT, '') if is_day else end), is_day)
                for each, is_day in by_days(call, kinds)]
    for k, parameter in enumerate(call.parameters):
        rest = either[k + 1:]
        kept += [(given, 'Any') for given, _ in taken([*either[:k], kept_types(parameter), *rest])]
        found += [(given, made(call, is_day))
                  for given, is_day in taken([*scalars[:k], with_column(parameter), *rest])]
    return [*kept, *of_arrays(found)]


def typed(names: list[str], kinds: list[str]) -> str:
    return ', '.join(f'{name}: {kind}' for name, kind in zip(names, kinds))


def stub(name: str, forms: list[Call]) -> str:
    call = forms[0]
    names = parameter_names(call)
    if len(call.taken) < len(call.parameters):
        return stub_of_shares(name, *names)
    if call.has_slice:
        taken = ', '.join(f'{given}: {listed_type(parameter)}'
                          for given, parameter in zip(names, call.parameters))
        return (f'def {name}({taken}, /) -> '
                f'{"tuple[int, ...]" if call.writes else scalar_result(call)}: ...\n')
    if name in OF_MANY:
        return overloads(name, [*stub_of_numbers(['x', 'y'], f', /, *, {NAMED}', call),
                                (f'*numbers: {NUMBER}', 'int')])
    if number_names(call):
        return stub_of_pairs(name, call)
    scalars = typed(names, [scalar_type(parameter) for parameter in call.parameters])
    return overloads(name, [*stub_of_numbers(names, f', *, {NAMED}', call),
                            (scalars, scalar_result(call))])


def stub_of_pairs(name: str, call: Call) -> str:
    """A call of congruences or schedules, whose numbers may be columns."""
    taken = [*zip(parameter_names(call), by_names(call).parameters)]
    numbers, alone = [given for given, parameter in taken if not parameter.pair], names_of_one(call)
    pair = next(given for given, parameter in taken if parameter.pair)
    left_out = ''.join(f', {number}: None = ...' for number in alone)
    star = ', *' * bool(alone)

    def of_pairs(kinds: list[str], each: str) -> str:
        rest = iter(kinds)
        return ', '.join(f'{given}: ' + (f'{parameter.pair}[{each}]' if parameter.pair
                                         else next(rest)) for given, parameter in taken)

    def of_alone(given: str) -> str:
        return given.replace(f'{alone[0]}: ', f'{pair}: None = ..., *, {alone[0]}: ', 1)
    scalars = [NUMBER] * len(numbers)
    found = [(of_pairs(scalars, NUMBER) + star + left_out, scalar_result(call))]
    end = f'{star or ", *"}{left_out}, {NAMED}'
    for k in range(len(numbers)):
        rest = [EITHER] * (len(numbers) - k - 1)
        found.append((of_pairs([EITHER] * k + [KEPT] + rest, 'Any') + end, 'Any'))
        found.append(of_arrays([(of_pairs([NUMBER] * k + [COLUMN] + rest, NUMBER) + end,
                                 made(call))])[0])
    found.append((of_pairs([EITHER] * len(numbers), 'Any') + end, 'Any'))
    if alone:
        names = number_names(call)
        given = typed(names, [NUMBER] * len(names))
        found += [(of_alone(given), scalar_result(call)),
                  *((of_alone(given), result)
                    for given, result in stub_of_numbers(names, f', {NAMED}', call))]
    return overloads(name, found)


def classes_of_arrays() -> str:
    """The classes of results of arrays of numpy. Their fields are those of the results in C."""
    fields = {name: [path.removeprefix('.') for path, _ in results(forms[0])]
              for end, (_, name) in CLASSES.items() for _, forms in public_calls()
              if end in forms[0].result}
    return '\n'.join(f'class _{name}Arrays(NamedTuple):  # `{name}` of arrays of numpy\n'
                     + ''.join(f'    {field}: {MADE}\n' for field in names)
                     for name, names in fields.items())


def stubs() -> str:
    """The types of the calls for Python."""
    named = public_calls()
    public = sorted([name for name, _ in named] + list(ALIASES))
    text = (''.join(stub(name, forms) for name, forms in named)
            + ''.join(f'{alias} = {name}\n' for alias, name in ALIASES.items()))
    return filled('_calls.pyi', calls=text, classes=classes_of_arrays(),
                  names='\n'.join(f'    {line}'
                                  for line in textwrap.wrap(', '.join(map(repr, public)) + ',',
                                                            110)))
