"""What JavaScript knows of the exports: their table, the functions of the module, and their
types."""
import json
import re
import textwrap
from collections.abc import Iterable

from tools.bindings.c import comment, in_order_of_need
from tools.bindings.examples import DOCS
from tools.bindings.exports import (EXPORTS, VERSION, Call, Field, by_names, filled, pairs,
                                    reworded, without_returns)

WIDTH = 141
FIELDS = {'day_of_month': 'day'}
OF_WEEK = {'week': 'weekOfYear', 'year': 'yearOfWeek'}  # the names of Temporal
CLASSES = {'Fraction': 'Fraction', 'FractionAnswer': 'Fraction', 'Date': 'PlainDate',
           'DateAnswer': 'PlainDate', 'DecimalAnswer': 'Decimal'}
ARRAYS = {'i64': 'BigInt64Array', 'u64': 'BigUint64Array', 'n53': 'Float64Array',
          'i32': 'Int32Array', 'u32': 'Uint32Array', 'u16': 'Uint16Array', 'u8': 'Uint8Array',
          'bool': 'Uint8Array'}
COUNT = 'count'  # the parameter in place of an array that is written
# The numbers of a result that are below 2^53 though the export has 64 bits for them: the types that
# hold them, of which n53 is a safe integer.
SMALL = {'sqrt': ['u32'], 'cbrt': ['i32'], 'sqrt_rem': ['u32', 'n53'], 'ilog': ['u8'],
         'weekday_of_date': ['u8'], 'days_in_month': ['u8'], 'day_of_year': ['u16']}
# The calls that take a list or any count of numbers, with those of the lists.
MANY = {'gcd': 'gcd_of', 'lcm': 'lcm_of', 'gcd_of': 'gcd_of', 'lcm_of': 'lcm_of',
        'sum_of': 'sum_of'}


def camel(name: str) -> str:
    first, *others = name.split('_')
    return first + ''.join(word.capitalize() for word in others)


def of_try(name: str) -> str:
    """The name of the form without exceptions."""
    return camel(f'try_{name}')


def compact(value: object) -> str:
    return json.dumps(value, separators=(', ', ': ')).replace('"', "'")


def field(struct: str, name: str) -> str:
    return OF_WEEK.get(name, name) if struct == 'IsoWeekAnswer' else camel(FIELDS.get(name, name))


def row(form: Call) -> list[str]:
    """What the table has of a form: the symbol, the parameters, the result, and the types of
    numbers that are small."""
    parameters = ' '.join(f'{camel(parameter.name)}:{parameter.kind}'
                          for parameter in by_names(form).parameters)
    small = [' '.join(SMALL[form.name])] if form.name in SMALL else []
    return [form.symbol.removeprefix('cellarcove_'), parameters, form.result, *small]


def row_text(forms: list[Call]) -> str:
    """The row of a call. That of two forms is made of the signed one when the module is loaded."""
    signed, *others = map(row, forms)
    assert others in ([],
                      [[word.replace('i64', 'u64').replace('I64', 'U64')
                        for word in signed]]), forms
    return f'/*#__PURE__*/ both({compact(signed)[1:-1]})' if others else compact([signed])


def listed_names(names: list[str]) -> str:
    """Names with commas between them, in lines."""
    return '\n'.join(textwrap.wrap(', '.join(names) + ',', width=WIDTH, initial_indent='  ',
                                   subsequent_indent='  '))


def table() -> str:
    """The table that the module reads."""
    found = EXPORTS()
    statuses = ''.join(f'  [{compact(status.name)}, {json.dumps(status.reason)}],\n'
                       for status in found.statuses)
    fields = ((struct.name, [[field(struct.name, part.name), part.kind] for part in struct.fields])
              for struct in in_order_of_need(found.structs | pairs()))
    structs = ''.join(f'  {name}: {compact(kinds)},\n' for name, kinds in fields)
    names = [camel(name) for name in found.forms()]
    calls = ''.join(f'export const {camel(name)} = {row_text(forms)};\n'
                    for name, forms in found.forms().items())
    return filled('table.js', version=VERSION, statuses=statuses, structs=structs, calls=calls,
                  names=listed_names(names))


def comment_of(call: Call) -> str:
    said = without_returns(DOCS.get(call.name, call.doc)).replace('as a tuple', 'as an array')
    return comment(re.sub('`[a-z_]+`', lambda name: camel(name[0]),
                          reworded(call, ' '.join([said, *call.statuses]))), width=WIDTH)


def members(kinds: Iterable[tuple[str, str]]) -> str:
    return f'{{{"; ".join(f"{name}: {kind}" for name, kind in kinds)}}}'


def leaf(kind: str) -> str:
    return {'i64': 'bigint', 'u64': 'bigint', 'bool': 'boolean'}.get(kind, 'number')


def results(call: Call) -> list[tuple[str, str]]:
    """The names and types of the numbers of a result."""
    found = [(field(call.result, path.rpartition('.')[2]), kind)
             for path, kind in EXPORTS().leaves(call.result)]
    return [(name, kind)
            for (name, _), kind in zip(found, SMALL[call.name])] if call.name in SMALL else found


def result(call: Call) -> str:
    if call.writes:
        return 'bigint[]'
    found = results(call)
    is_frozen = 'Solutions' in call.result
    return (CLASSES.get(call.result)
            or (leaf(found[0][1]) if len(found) == 1
                else members((f'{"readonly " * is_frozen}{name}', leaf(kind))
                             for name, kind in found)))


def columns(call: Call, wide: str) -> str:
    """The arrays of a result, of which those of the form have the type `wide`."""
    arrays = [(name, wide if kind == call.form else ARRAYS[kind]) for name, kind in results(call)]
    has_status = EXPORTS().has_status(call)
    if len(arrays) == 1:
        arrays = [('value', arrays[0][1])]
    return (arrays[0][1] if len(arrays) == 1 and not has_status
            else members(arrays + [('status', 'Uint8Array')] * has_status))


def taken(parameter: Field) -> str:
    """The type of a parameter that has no array."""
    if parameter.item == 'u8':
        return 'string'
    if parameter.item:
        return 'Iterable<Integer>' if parameter.item in ARRAYS else 'Iterable<Congruence>'
    return parameter.pair or {'Fraction': 'Fractional', 'Date': 'Dated'}.get(parameter.kind,
                                                                             'Integer')


def with_arrays(call: Call, parameter: Field, wide: str) -> str:
    """The type of a parameter that may have arrays, of which those of the form have the type
    `wide`."""
    if parameter.pair:
        return f'{parameter.pair}Columns<{wide}>'
    if parameter.kind in CLASSES:
        return f'{taken(parameter)} | {CLASSES[parameter.kind]}Columns'
    return f'Integer | {wide if parameter.kind == call.form else ARRAYS[parameter.kind]}'


def declaration(name: str, forms: list[Call]) -> str:
    call = by_names(forms[0])
    shown = [(COUNT if parameter.is_written else camel(parameter.name), parameter)
             for parameter in call.taken]
    plain = ', '.join(f'{word}: {"Integer" if parameter.is_written else taken(parameter)}'
                      for word, parameter in shown)
    text = f'{comment_of(call)}export function {camel(name)}({plain}): {result(call)};\n'
    if name in MANY:
        text += f'export function {camel(name)}(...numbers: Integer[]): {result(call)};\n'
        text += f'export function {camel(name)}(numbers: Iterable<Integer>): {result(call)};\n' * (
            not call.has_slice)
    if not call.has_slice:
        wide = 'T' if len(forms) == 2 else ARRAYS.get(call.form, '')
        arrays = ', '.join(f'{word}: {with_arrays(call, parameter, wide)}'
                           for word, parameter in shown)
        text += ('export function '
                 f'{camel(name)}{"<T extends Integers>" * (len(forms) == 2)}({arrays}): '
                 f'{columns(call, wide)};\n')
    text += f'export function {of_try(name)}({plain}): Attempt<{result(call)}>;\n'
    if name in MANY:
        text += f'export function {of_try(name)}(...numbers: Integer[]): Attempt<{result(call)}>;\n'
        text += (f'export function {of_try(name)}(numbers: Iterable<Integer>): '
                 f'Attempt<{result(call)}>;\n' * (not call.has_slice))
    return text


def types() -> str:
    """The types of the module."""
    found = EXPORTS()
    statuses = ''.join(f'  /** {status.doc} */\n  readonly {status.name}: {status.number};\n'
                       for status in found.statuses)
    return filled('cellarcove.d.ts', statuses=statuses,
                  numbers=' | '.join(str(status.number) for status in found.statuses[1:]),
                  calls='\n'.join(declaration(name, forms)
                                  for name, forms in found.forms().items()))


def functions(name: str) -> str:
    """The line of a call in the module. Its functions have names that a reader and a bundler see,
    and a bundler drops those that nobody calls."""
    given = f'{camel(name)!r}, rows.{camel(name)}' + (f', rows.{camel(MANY[name])}' if name in MANY
                                                      else '')
    return (f'export const {camel(name)} = /*#__PURE__*/ call({given}), {of_try(name)} = '
            f'/*#__PURE__*/ attempt({of_try(name)!r}, {given.split(", ", 1)[1]});\n')


def module(loader: str) -> str:
    """The module over the WebAssembly that a loader takes."""
    return filled('cellarcove.js', loader=loader, calls=''.join(map(functions, EXPORTS().forms())))


def made() -> dict[str, str]:
    modules = ({f'bindings/js/{name}.js': module(loader)
                for name, loader in (('cellarcove', 'file'), ('inline', 'bytes'),
                                     ('proved', 'proved-file'))})
    return {'bindings/js/table.js': table(), 'bindings/js/cellarcove.d.ts': types()} | modules
