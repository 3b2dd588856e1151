"""Prints calls with random arguments, with corners, and those of the literal lines of rows.txt,
and what each returns by the integers, the fractions and the dates of Python (by_python.py), for
the tests of JavaScript.

A line is an array of JSON: the name of the call in C; its form, if it is one of arrays, or an
empty text; the arguments; the status; and the numbers of the result. An argument is a number, as a
text; or an array of the parts of a struct, or of the items of a list. A row of arrays has an array
of arguments for each item, and so of statuses and of results. Each call has COUNT rows of numbers,
and a row for the arrays of each form. With SECONDS it goes on so long."""
import itertools
import json
import random
import re
import time
from collections.abc import Iterator, Sequence
from typing import Any

from tools import ROOT
from tools.bindings.by_python import I64, NOT_FITTING, RESULTS
from tools.bindings.exports import EXPORTS, Call, in_pairs
from tools.bindings.fuzz import RANGES, chosen, columns, flat, with_lists
from tools.bindings.python import RENAMED, cells, grouped, parameter_names

ROWS = ROOT / 'bindings/python/tests/rows.txt'
LITERAL = re.compile(r'(\w+)(\(.*\))  # (?:raises \w+: ([A-Z_]+)|(.*))')
# What rows.txt calls pairs.
NAMES = {'Congruence': lambda residue, modulus: (residue, modulus),
         'Schedule': lambda first, period: (first, period),
         'Solutions': lambda first, step: (first, step)}
CORNERS = 36  # rows of a call whose numbers are at an end of their types, or beside 0
STATUSES = {status.name: status.number for status in EXPORTS().statuses}


def returned(call: Call | None, arguments: Sequence[Any]) -> tuple[int, list[int]]:
    """The status, and the numbers of a result. Of `extended_gcd` it is the first number, which
    says what the others can be."""
    found = (RESULTS[call.name.removeprefix('extended_')](RANGES.get(call.form, I64), *arguments)
             if call else NOT_FITTING)
    return (found, []) if isinstance(found, int) else (0, list(found))


def corners(call: Call) -> list[list[Any]]:
    """Arguments at the ends of their types, and beside 0."""
    ends = [[low, low + 1, high - 1, high, 0, 1, 2, 4, *([-1] if low else [])]
            for low, high in (RANGES[kind] for kind in cells(call))]
    found = list(itertools.islice(itertools.product(*ends), 10_000))
    return [grouped(call, numbers) for numbers in random.sample(found, min(CORNERS, len(found)))]


def rows(forms: list[Call], count: int) -> Iterator[list[Any]]:
    """Rows of a call, of which the last are those of the arrays of each form."""
    tried = [call for call in forms for _ in range(count)]
    given = [with_lists(call) for call in tried] if forms[0].has_slice else []
    for call in forms * (not given):
        found = [grouped(call, numbers) for numbers in zip(*columns(call))]
        given += found[:count] + corners(call)
        wanted = map(list, zip(*(returned(call, arguments) for arguments in found)))
        yield [call.name, call.form or 'i64', [in_pairs(call, arguments) for arguments in found],
               *wanted]
    yield from ([forms[0].name, '', in_pairs(forms[0], arguments),
                 *returned(chosen(forms, arguments), arguments)] for arguments in given)


def literal() -> Iterator[list[Any]]:
    """The lines of rows.txt that are one call of numbers, tuples and lists."""
    names = {RENAMED.get(name, name): name for name in EXPORTS().forms()}
    for name, given, status, value in LITERAL.findall(ROWS.read_text()):
        try:
            arguments, result = (eval(given[:-1] + ',)', dict(NAMES)),
                                 eval(value or '0', dict(NAMES)))
        except (AttributeError, NameError, SyntaxError, TypeError):
            continue
        forms = EXPORTS().forms().get(names.get(name, ''))
        if not forms or not all(isinstance(x, int) for x in flat(arguments)):
            continue
        if len(arguments) == len(forms[0].parameters):
            arguments = in_pairs(forms[0], arguments)
        if len(arguments) != len(parameter_names(forms[0])):
            continue
        if status in {'', *STATUSES}:
            yield [names[name], '', arguments, STATUSES.get(status, 0),
                   [] if status else list(result) if isinstance(result, tuple) else [result]]


def as_text(value: Any) -> Any:
    return ([as_text(item) for item in value] if isinstance(value, (list, tuple)) else value
            if isinstance(value, str) else str(int(value)))


def make(words: list[str]) -> bool:
    seed, count, *seconds = map(int, words)
    random.seed(seed)
    end = time.monotonic() + sum(seconds)
    turns = itertools.takewhile(lambda turn: turn == 0 or time.monotonic() < end, itertools.count())
    for row in itertools.chain(literal(),
                               (row for _ in turns for forms in EXPORTS().forms().values()
                                for row in rows(forms, count))):
        print(json.dumps([*row[:2], as_text(row[2]), row[3], as_text(row[4])],
                         separators=(',', ':')))
    return True
