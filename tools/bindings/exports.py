"""The exports of crates/cellarcove_c: statuses, structs and calls, with their comments."""
import functools
import itertools
import re
from collections.abc import Iterator, Sequence
from pathlib import Path
from typing import Any, NamedTuple

import tools
from tools import ROOT
from tools.erase.source import Item, Source

SOURCES = ROOT / 'crates/cellarcove_c/src'
VERSION = re.findall(r'^version = "(.*)"$', (ROOT / 'rust/Cargo.toml').read_text(), re.M)[0]
NUMBERS = {f'{sign}{bits}': f'{"u" if sign == "u" else ""}int{bits}_t' for sign in 'iu'
           for bits in (8, 16, 32, 64)}
NUMBERS |= {'usize': 'size_t', 'bool': 'bool'}
# The order of the modules in the header. One that is not here comes last.
ORDER = ('operators', 'array_sums', 'division', 'invariant_divisors', 'divisors', 'coprime',
         'lists', 'roots', 'powers', 'coefficients', 'counting', 'ranking', 'shares', 'paging',
         'layout', 'modulo', 'congruences', 'several_congruences', 'schedules', 'fractions',
         'rounding', 'decimals', 'dates', 'weekdays', 'years', 'texts', 'date_texts')


# The pairs of numbers in a row whose positions are easily swapped, by the module of a call: their
# struct and their names. Python and JavaScript take them by these names.
PAIRS = {'congruences': ('Congruence', ('residue', 'modulus')),
         'schedules': ('Schedule', ('first', 'period'))}
IN_A_ROW = (('a', 'm'), ('b', 'n'), ('residue', 'modulus'), ('a', 'p'), ('b', 'q'),
            ('first', 'period'))
# what a comment calls the parameters that these languages lack
OF_PAIRS = {'`m` or `n`': 'a modulus', '`p` or `q`': 'a period'}
EACH = '_each'  # after the name of the call that is made of each number of a list


class Field(NamedTuple):
    """A field of a struct, or a parameter: its name, and its type in Rust without spaces."""
    name: str
    kind: str

    @property
    def item(self) -> str:
        """The type of the items of a slice, or an empty text."""
        return self.kind.removeprefix('&').removeprefix('mut')[1:-1] if self.kind.endswith(
            ']') else ''

    @property
    def is_written(self) -> bool:
        return self.kind.startswith('&mut')

    @property
    def pair(self) -> str:
        """The name of the pair that it is, or an empty text."""
        return self.kind[3:] if self.kind in pairs() else ''


class Status(NamedTuple):
    name: str
    number: int
    doc: str

    @property
    def reason(self) -> str:
        """Its comment within a sentence."""
        return self.doc[0].lower() + self.doc[1:].rstrip('.')


class Struct(NamedTuple):
    name: str
    fields: list[Field]
    doc: str


class Call(NamedTuple):
    """An export. Its name is that of the symbol without `cellarcove_` and without the ending
    `_i64` or `_u64`."""
    name: str
    form: str
    parameters: list[Field]
    result: str
    doc: str
    statuses: list[str]  # sentences, the first of which begins with the status
    module: str

    @property
    def symbol(self) -> str:
        return f'cellarcove_{self.name}' + (f'_{self.form}' if self.form else '')

    @property
    def has_slice(self) -> bool:
        return any(parameter.item for parameter in self.parameters)

    @property
    def writes(self) -> bool:
        """Whether the call writes its result through a pointer, and returns the status alone."""
        return any(parameter.is_written for parameter in self.parameters)

    @property
    def is_each(self) -> bool:
        """Whether the call is another one of each number of a list, for languages that have no
        columns."""
        return self.name.endswith(EACH)

    @property
    def taken(self) -> list[Field]:
        """The parameters without a list that is written and as long as one that is read."""
        has_read = any(parameter.item and not parameter.is_written for parameter in self.parameters)
        return [parameter for parameter in self.parameters
                if not (parameter.is_written and has_read)]


@functools.lru_cache(maxsize=1)
def pairs() -> dict[str, Struct]:
    """The structs of pairs, which an export takes as two numbers."""
    return {f'{form.upper()}{name}': Struct(f'{form.upper()}{name}',
                                            [Field(part, form) for part in parts], '')
            for name, parts in PAIRS.values() for form in ('i64', 'u64')}


def by_names(call: Call) -> Call:
    """The call as Python and JavaScript take it: a parameter for each pair."""
    name, _ = PAIRS.get(call.module, ('', ()))
    in_a_row = itertools.pairwise(parameter.name for parameter in call.parameters)
    places = [place for place, names in enumerate(in_a_row) if name and names in IN_A_ROW]
    words = ['one', 'other'] if len(places) == 2 else [name.lower()]
    found = {place: Field(word, call.form.upper() + name) for place, word in zip(places, words)}
    return call._replace(parameters=[found.get(place, field)
                                     for place, field in enumerate(call.parameters)
                                     if place - 1 not in found])


def in_pairs(call: Call, given: Sequence[Any]) -> list[Any]:
    """What is given for the parameters of an export, with a tuple for each pair."""
    rest = iter(given)
    return [(next(rest), next(rest)) if parameter.pair else next(rest)
            for parameter in by_names(call).taken]


class Exports(NamedTuple):
    statuses: list[Status]
    structs: dict[str, Struct]
    calls: list[Call]
    headings: dict[str, str]  # of modules

    def has_status(self, call: Call) -> bool:
        return call.writes or (call.result in self.structs
                               and self.structs[call.result].fields[0].name == 'status')

    def leaves(self, kind: str) -> list[tuple[str, str]]:
        """The numbers of a value of a type, as pairs of a path and a type, without its status."""
        struct = self.structs.get(kind) or pairs().get(kind)
        if struct is None:
            return [('', kind)]
        return [(f'.{field.name}{path}', leaf) for field in struct.fields if field.name != 'status'
                for path, leaf in self.leaves(field.kind)]

    def forms(self) -> dict[str, list[Call]]:
        """The calls by name, each with one form or two, in the order of the header, but for those
        of each number of a list."""
        return {name: forms for name, forms in self.all_forms().items() if not forms[0].is_each}

    def all_forms(self) -> dict[str, list[Call]]:
        """The calls by name, each with one form or two, in the order of the header."""
        names: dict[str, list[Call]] = {}
        for call in self.calls:
            names.setdefault(call.name, []).append(call)
        return names


def c_type(kind: str) -> str:
    """The name of a type in C: that of `IsoWeekAnswer` is `cellarcove_iso_week_answer`."""
    return NUMBERS.get(kind) or 'cellarcove_' + re.sub(r'(?<=[a-z0-9])(?=[A-Z])', '_', kind).lower()


TEXT = 'u8'  # the items of a text


def c_parameters(call: Call) -> Iterator[str]:
    """The parameters of a call in C. A slice is a pointer and a length."""
    for parameter in call.parameters:
        name = parameter.name
        if parameter.item:
            kind = 'char' if parameter.item == TEXT else c_type(parameter.item)
            yield (f'{kind} *CELLARCOVE_RESTRICT {name}' if parameter.is_written
                   else f'const {kind} *{name}')
            yield f'size_t {name}_len'
        else:
            yield f'{c_type(parameter.kind)} {name}'


def paragraphs(source: Source, item: Item) -> list[str]:
    """The paragraphs of the comment of an item, each on one line."""
    return [' '.join(part.split()) for part in '\n'.join(source.doc(item)).split('\n\n')
            if part.strip()]


def call_of(module: str, source: Source, item: Item) -> Call:
    name, form = item.name.removeprefix('cellarcove_'), re.search('_([iu]64)$', item.name)
    first, *others = paragraphs(source, item)
    statuses = (re.findall(r'`[A-Z_]+` if .*?\.(?= `[A-Z_]+` if |$)', others[-1]) if others
                and others[-1].startswith('`') else [])
    if statuses:
        others.pop()
    opening, closing = source.parameters(item)
    parameters = [Field(found.name, found.type) for found in source.fields(opening + 1, closing)]
    return Call(name.removesuffix(form[0]) if form else name, form[1] if form else '', parameters,
                source.returned(item), ' '.join([first, *others]), statuses, module)


def read() -> Exports:
    """The exports of the sources, in the order of the header."""
    found = Exports([], {}, [], {})
    for path in sorted(SOURCES.glob('*.rt'),
                       key=lambda path: (ORDER.index(path.stem) if path.stem in ORDER
                                         else len(ORDER), path.stem)):
        source = Source(path.relative_to(SOURCES.parent), path.read_text())
        found.headings[path.stem] = ' '.join(source.head())
        for item in source.items():
            words = {source.at(k) for first, last in item.attributes for k in range(first, last)}
            if item.kind == 'const' and item.public and source.at(item.word + 3) == 'u32':
                found.statuses.append(Status(item.name, int(source.at(item.word + 5)),
                                             ' '.join(paragraphs(source, item))))
            elif item.kind == 'struct' and 'repr' in words:
                fields = [Field(field.name, field.type) for field in item.fields]
                found.structs[item.name] = Struct(item.name, fields,
                                                  ' '.join(paragraphs(source, item)))
            elif item.kind == 'fn' and 'no_mangle' in words:
                found.calls.append(call_of(path.stem, source, item))
    return found


def reworded(call: Call, doc: str) -> str:
    """A comment in which a call of pairs has their names."""
    for old, new in OF_PAIRS.items() if call.module in PAIRS else ():
        doc = doc.replace(old, new)
    return doc


def without_returns(doc: str) -> str:
    """The comment of a call without its first word, for readers of other languages."""
    return re.sub('^Returns (.)', lambda found: found[1].upper(),
                  re.sub('^Returns `true` if', 'Whether', doc))


def listed(name: str, sign: str) -> dict[str, str]:
    """The rows of a list beside this file that have the sign: what stands before it, and what
    after it."""
    lines = (Path(__file__).parent / name).read_text().splitlines()
    return dict(line.split(sign, 1) for line in lines if sign in line and not line.startswith('#'))


def filled(template: str, **parts: str) -> str:
    return tools.filled(Path(__file__).parent / 'templates' / template, **parts)


EXPORTS = functools.lru_cache(maxsize=1)(read)


def symbols(_: list[str]) -> bool:
    print(*(call.symbol for call in EXPORTS().calls), sep='\n')
    return True
