"""The examples in the comments of the exports, which the headers and the types of JavaScript have
too.

A sentence of examples is one or more of `That of ARGUMENTS is RESULT`, `Those of .. are ..`,
`For .. it is ..` and `For .. they are ..`. Each call has one. `check` compares them with what
Python's own numbers give (by_python.py). `make` prints a program in C that calls the exports so:
its status is 0 if each returns what the comment says."""
import itertools
import math
import re
from collections.abc import Iterator
from typing import Any, NamedTuple

from tools import counted
from tools.bindings.by_python import I64, PROPERTIES, RESULTS, U64
from tools.bindings.exports import EXPORTS, Call, Field, c_type, filled, listed

TOKEN = r'`[^`]+`|-?\d+\^\d+(?: [-+] \d+)?|-?\d+(?:-\d\d-\d\d|/\d+|\.\d+)?'
JOINED = r'(?:,? and(?: those in steps of)?|,| of)'
RESULT = rf'(?:week )?(?:{TOKEN})(?:{JOINED} (?:{TOKEN}))*'
OPENING = r'(?:[Tt]h(?:at|ose) of|\b[Ff]or)'
CLAUSE = re.compile(rf'{OPENING} ((?:`[^`]*`|[^.;`])*?) (?:(?:it )?is|(?:they )?are) ({RESULT})')
SENTENCE = re.compile(r'(?:Th(?:at|ose) of|For) .*(?:\d|`).*')
ENDS = re.compile('(?<=[.]) ')
# The words between the arguments, and what is left of a sentence without its examples.
BETWEEN = re.compile(r'(?:\s|,|and|by|of|degree|the|weights|numbers|no|counts|modulo|below)*')
LEFT = re.compile(r'(?:\s|,|and|from it)*(?:, so [^\d]*)?\.')
NONE = 'no '                    # before the name of what a list has none of
BOOLS = {'`false`': 0, '`true`': 1}
# What a call does that returns in Python and JavaScript what C writes: its name in C, and what
# they say of it.
DOCS = listed('python.txt', ': ')


class Example(NamedTuple):
    """A call, its arguments as by_python.py takes them, and the numbers of the struct that it
    returns, in their order."""
    call: Call
    arguments: list[Any]
    result: list[int]


class Unclear(Exception):
    """A sentence that has no form of an example."""


def without_examples(doc: str) -> str:
    """The comment of a call without its sentences of examples."""
    return ' '.join(part for part in ENDS.split(doc) if not SENTENCE.fullmatch(part))


def number(token: str) -> int:
    """An integer, or a power with what is added."""
    base, _, rest = token.partition('^')
    exponent, sign, more = (rest.split(' ') + ['+', '0'])[:3] if rest else ('1', '+', '0')
    power = math.prod([abs(int(base))] * int(exponent)) * (-1 if base.startswith('-') else 1)
    return power + int(more) * (1 if sign == '+' else -1)


def numbers(token: str, kind: str) -> list[int]:
    """The numbers that a token writes of a struct, or the number."""
    if kind in ('Date', 'DateAnswer'):
        return [int(part) for part in re.findall(r'^(-?\d+)-(\d\d)-(\d\d)$', token)[0]]
    if kind in ('Fraction', 'FractionAnswer'):
        return [int(part) for part in (token + '/1').split('/')[:2]]
    if kind == 'DecimalAnswer':
        return [int(token.startswith('-')), *map(int, token.lstrip('-').split('.'))]
    return [BOOLS[token] if token in BOOLS else number(token)]


def argument(parameter: Field, tokens: list[str]) -> Any:
    """The argument that tokens write: a number, a tuple, a list or a text."""
    if parameter.item == 'u8':
        return tokens[0].strip('`')
    if not parameter.item or parameter.is_written:
        found = numbers(tokens[0], parameter.kind)
        return tuple(found) if parameter.kind in EXPORTS().structs else found[0]
    items = [number(token) for token in tokens]
    return list(zip(items[::2], items[1::2])) if parameter.item in EXPORTS().structs else items


def arguments(call: Call, tokens: list[str]) -> list[Any]:
    """The arguments: lists have the same length, and take the tokens that the other parameters
    leave."""
    is_list = [bool(parameter.item and not parameter.is_written) for parameter in call.taken]
    rest, found = iter(tokens), list[Any]()
    for parameter, many in zip(call.taken, is_list):
        count = (len(tokens) - is_list.count(False)) // is_list.count(True) if many else 1
        found.append(argument(parameter, [next(rest) for _ in range(count)]))
    if [*rest]:
        raise Unclear
    return found


def example(call: Call, given: str, said: str) -> Example:
    """The example of a clause."""
    tokens = re.findall(TOKEN, given)
    if not BETWEEN.fullmatch(re.sub(TOKEN, '', given)):
        raise Unclear
    if not tokens and not given.startswith(NONE):
        raise Unclear
    result = [part for token in re.findall(TOKEN, said) for part in numbers(token, call.result)]
    found = Example(call, arguments(call, tokens), result)
    if not call.writes and len(result) != len(EXPORTS().leaves(call.result)):
        raise Unclear
    if call.result == 'DecimalAnswer' and len(said.partition('.')[2]) != found.arguments[-1]:
        raise Unclear       # 0.5 is not 0.05
    return found


def of_sentence(call: Call, sentence: str) -> list[Example]:
    """The examples of a sentence, which has nothing else."""
    try:
        found = [example(call, given, said) for given, said in CLAUSE.findall(sentence)]
    except (IndexError, StopIteration, Unclear, ValueError):
        found = []
    if not found or not LEFT.fullmatch(CLAUSE.sub('', sentence)):
        raise Unclear(f'{call.symbol}: {sentence}')
    return found


def of_call(call: Call) -> list[Example]:
    """The examples of a call in its comment, and in what other languages say instead."""
    docs = ENDS.split(call.doc), ENDS.split(DOCS.get(call.name, ''))
    found, others = ([of_sentence(call, part) for part in doc if SENTENCE.fullmatch(part)]
                     for doc in docs)
    if not found:
        raise Unclear(f'{call.symbol}: no example')
    return [*itertools.chain(*found, *others)]


def holds(shown: Example) -> bool:
    """Whether Python's own numbers give the result."""
    call, bounds = shown.call, U64 if shown.call.form == 'u64' else I64
    if call.name in PROPERTIES:
        return PROPERTIES[call.name](bounds, *shown.arguments, 0, shown.result)
    found = RESULTS[call.name](bounds, *shown.arguments)
    is_week = call.result == 'IsoWeekAnswer'        # there Python has the year first
    return not isinstance(found, int) and [*found][::-1 if is_week else 1] == shown.result


def literal(value: int) -> str:
    """An integer in C."""
    return f'(-INT64_C({-value - 1}) - 1)' if value < 0 else f'UINT64_C({value})'


def list_in_c(parameter: Field, name: str, value: Any) -> list[str]:
    """The line of a list, or of the room for the numbers that a call writes."""
    kind = c_type(parameter.item)
    if parameter.is_written:
        return [f'{kind} {name}[{value}] = {{0}};']
    if isinstance(value, str):
        return [f'const char {name}[] = "{value}";']
    items = ', '.join(f'{{{", ".join(map(literal, item))}}}' if isinstance(item, tuple)
                      else literal(item) for item in value)
    return [f'const {kind} {name}[] = {{{items}}};'] if items else []


def given_in_c(shown: Example) -> tuple[list[str], list[str]]:
    """The lines of the arguments, and the arguments."""
    lines, given = list[str](), list[str]()
    values = dict(zip(shown.call.taken, shown.arguments))
    for place, parameter in enumerate(shown.call.parameters):
        name, kind = f'x{place}', c_type(parameter.kind) if not parameter.item else ''
        value = values.get(parameter, len(shown.result))
        if parameter.item:
            found = list_in_c(parameter, name, value)
            lines += found
            length = value if isinstance(value, int) else len(value)
            given += [name if found else 'NULL', str(length)]
        elif isinstance(value, tuple):
            leaves = EXPORTS().leaves(parameter.kind)
            parts = (f'({c_type(leaf)}){literal(part)}' for (_, leaf), part in zip(leaves, value))
            given.append(f'({kind}){{{", ".join(parts)}}}')
        else:
            given.append(f'({kind}){literal(value)}')
    return lines, given


def in_c(shown: Example, place: int) -> str:
    """The function that calls an export as an example says."""
    call, (lines, given) = shown.call, given_in_c(shown)
    paths = [f'result{path}' for path, _ in EXPORTS().leaves(call.result)]
    if call.writes:
        paths = [f'{given[-2]}[{k}]' for k in range(len(shown.result))]
    status = 'result' if call.writes else 'result.status'
    tests = [f'{status} == 0'] * EXPORTS().has_status(call)
    tests += [f'(uint64_t){path} == (uint64_t){literal(value)}'
              for path, value in zip(paths, shown.result)]
    lines += [f'{c_type(call.result)} result = {call.symbol}({", ".join(given)});',
              f'return {" && ".join(tests)};']
    body = ''.join(f'    {line}\n' for line in lines)
    return f'static int example_{place}(void) {{\n{body}}}\n\n'


def check(_: list[str]) -> bool:
    def judged() -> Iterator[tuple[str, bool]]:
        for call in EXPORTS().calls:
            try:
                for shown in of_call(call):
                    yield f'{call.symbol}: {shown.arguments} is not {shown.result}', holds(shown)
            except Unclear as sentence:
                yield f'{sentence}: no form of an example', False
    return counted(judged())


def make(_: list[str]) -> bool:
    found = [*itertools.chain.from_iterable(map(of_call, EXPORTS().calls))]
    runs = ''.join(f'    see("{shown.call.symbol}", example_{place}());\n'
                   for place, shown in enumerate(found))
    print(filled('examples.c', examples=''.join(map(in_c, found, itertools.count())), runs=runs),
          end='')
    return True
