"""The nearest wrong neighbours of the arguments of a guard, as texts of Rust.

Of a comparison: that of a bound which is one less or more. Of `&&` and `||`: each side alone. Of a
name of a parameter: another of the same type. Of a slice: without its first or last element."""
import re
from collections.abc import Iterable, Iterator, Mapping

CALLS = 'crate::integer_core::operators::'
OPERAND = r'\*?[A-Za-z_][\w:.]*(?:\[\d+\])?(?:\(\))?|\d+'
COMPARISON = re.compile(rf'(?<![\w.*])({OPERAND}) (<=|>=|<|>) ({OPERAND})(?![\w.])')
VALUE = r'((?:[^(),]|\(\))*)'                   # an argument without calls of its own
IS_BELOW = re.compile(rf'is_below\({VALUE}, {VALUE}\)')
NOT_NEGATIVE = re.compile(rf'!is_negative\({VALUE}\)')
DIFFERENT = re.compile(r'(?<=!= )(\d+)')
EACH = re.compile(r'(?<=\.)all(?=\()')
NONE = re.compile(r'(?<=map_or\()true')


def compared(a: str, sign: str, b: str) -> tuple[str, str]:
    """A comparison with a bound that is one less or more."""
    is_zero = b.endswith('zero()')
    if sign == '<':
        return f'{a} <= {b}', f'{a} + 1 < {b}'
    if sign == '>':
        return f'{a} >= {b}', f'{a} > {CALLS}one()' if is_zero else f'{a} > {b} + 1'
    if sign == '<=':
        return f'{a} < {b}', f'({a} <= {b} || {a} == {b} + 1)'
    less = f'{a} == crate::taken_out::minus_one()' if is_zero else f'{a} + 1 == {b}'
    return f'{a} > {b}', f'({a} >= {b} || {less})'


def changed(match: re.Match[str]) -> Iterator[str]:
    """The neighbours of what one of the patterns has found."""
    if match.re is COMPARISON:
        yield from compared(*match.groups())
    elif match.re is IS_BELOW:
        yield f'!is_below({match[2]}, {match[1]})'
        yield f'({match[0]} && is_below({CALLS}successor({match[1]}), {match[2]}))'
    elif match.re is NOT_NEGATIVE:
        yield f'{CALLS}is_below({CALLS}zero(), {match[1]})'
        yield f'({match[0]} || {CALLS}is_minus_one({match[1]}))'
    elif match.re is DIFFERENT:
        yield str(int(match[1]) + 1)
    else:
        yield {'all': 'any', 'true': 'false'}[match[0]]


def sides(condition: str) -> Iterator[str]:
    """The sides of `&&` and `||`, each alone."""
    found = re.split(r' (?:&&|\|\|) ', condition)
    if len(found) > 1:
        yield from found


def renamed(argument: str, types: Mapping[str, str]) -> Iterator[str]:
    """An argument with another parameter of the same type in the place of one."""
    for name, of in types.items():
        for other in (word for word in types if types[word] == of and word != name):
            found = re.sub(rf'(?<![\w.]){name}\b', other, argument)
            if found != argument:
                yield found


def of_condition(condition: str) -> Iterator[str]:
    for pattern in (COMPARISON, IS_BELOW, NOT_NEGATIVE, DIFFERENT, EACH, NONE):
        for match in pattern.finditer(condition):
            yield from (condition[:match.start()] + new + condition[match.end():]
                        for new in changed(match))
    yield from sides(condition)


def of_list(argument: str) -> Iterator[str]:
    yield f'&{argument}[{argument}.len().min(1)..]'
    yield f'&{argument}[..{argument}.len().saturating_sub(1)]'


def of_number(argument: str) -> Iterator[str]:
    yield f'{argument}.wrapping_add(1)'
    yield f'{argument}.wrapping_sub(1)'


# What is tried of each argument of a guard but its reason, beside other parameters.
KINDS = {'check': (of_condition,), 'check_none_negative': (of_list,),
         'check_moduli': (of_list,), 'check_choice': (of_list, of_number),
         'check_rank': (of_number, of_number, of_number), 'check_pair': (), 'check_lcm': ()}


def neighbours(guard: str, arguments: Iterable[str], types: Mapping[str, str]
               ) -> Iterator[tuple[int, str]]:
    """The neighbours of the arguments of a guard: of each the place of the argument that differs,
    and its text. One that returns a value has none: the value is what it tests."""
    kinds = KINDS.get(guard, ())
    for place, argument in enumerate(arguments if guard in KINDS else ()):
        texts = [text for kind in kinds[place:place + 1] for text in kind(argument)]
        texts += renamed(argument, types)
        yield from ((place, text) for text in dict.fromkeys(texts) if text != argument)
