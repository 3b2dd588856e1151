"""Makes what the page docs/try knows of each call beside the package: the task that it does, its
first arguments, its names in C++, in Python and in Rattle, and its line in Rust.

The arguments are those of the first example in the comment of the export. A line in Rust is made of
the signature in rust/api.txt, or is one of lines.txt. In it `{0}` stands for the first argument,
`{0!}` for one that has its type behind, and `{#0}` for the length of a list. If there are two lines
with `||` between them, the second one is for numbers without a sign."""
import json
import re
import textwrap
from collections.abc import Iterator
from typing import Any

from tools import ROOT
from tools.bindings import languages
from tools.bindings.examples import of_call
from tools.bindings.exports import EXPORTS, Call, listed
from tools.bindings.javascript import camel

PAGE = 'docs/try/index.html'
BLOCK = re.compile(r'(?<=\n// ---- made by tools/cellarcove\n).*?(?=// ---- by hand\n)', re.S)
SINGLE = ('I64Answer', 'U64Answer', 'bool', 'i64', 'i32', 'u64', 'u32', 'u8')
NUMBERS = ('i64', 'u64', 'u32', 'u8', 'u128')
PARTS = {'Fraction': ('{}/{}',), 'Date': ('{}-{:02}-{:02}',), 'Congruence': ('{} mod {}',)}


def text_of(kind: str, value: Any) -> str:
    """An argument as it is typed into the page."""
    if isinstance(value, list):
        return ', '.join(text_of(kind, item) for item in value)
    if isinstance(value, tuple):
        form = next(form for name, (form,) in PARTS.items() if name in kind)
        return form.format(*value)
    return str(value)


def first_texts(call: Call) -> list[str]:
    """The arguments of the first example of a call."""
    shown = of_call(call)[0]
    return [text_of(field.kind, value) for field, value in zip(call.taken, shown.arguments)]


def split(words: str) -> Iterator[str]:
    """The parts between the commas that are in no brackets."""
    depth, begun = 0, 0
    for place, letter in enumerate(words):
        depth += (letter in '([<') - (letter in ')]>')
        if letter == ',' and not depth:
            yield words[begun:place].strip()
            begun = place + 1
    yield words[begun:].strip()


def types_of(path: str, api: str) -> list[str] | None:
    """The types of the parameters of a call of plain Rust, if it is a function."""
    ends = r'(?:<[^()]*?>)?\((.*?)\)(?: ->.*| where.*)?$'
    found = re.search(rf'^(?:const )?fn {re.escape(path)}{ends}', api, re.M)
    return [part.partition(': ')[2] or part for part in split(found[1]) if part] if found else None


def argument(place: int, kind: str, wanted: str, is_first: bool) -> str:
    """An argument of a line in Rust, or nothing if it has another form than that of the export."""
    bare, mark = wanted.removeprefix('&'), '!' if is_first else ''
    refers = '&' * wanted.startswith('&')
    if kind in NUMBERS and bare == 'Weekday':
        return f'Weekday::from_iso_number({{{place}}}).unwrap()'
    if kind in NUMBERS and bare in ('T', *NUMBERS):
        return f'{refers}{{{place}{mark if bare == "T" else ""}}}'
    if kind in ('&[i64]', '&[u64]') and bare in ('[T]', '[u64]'):
        return f'&[{{{place}{mark if bare == "[T]" else ""}}}]'
    if kind in ('Date', 'Fraction') and bare in ('Date', 'Ratio', 'Self', 'self'):
        return f'{refers if bare != "self" else ""}{{{place}}}'
    return ''


def line_in_rust(path: str, call: Call, api: str) -> str:
    """The line of a call in Rust, if its parameters are those of the export."""
    wanted = types_of(path, api)
    if wanted is None or len(wanted) != len(call.parameters):
        return ''
    places = enumerate(zip(call.parameters, wanted))
    first = next((place for place, kind in enumerate(wanted) if 'T' in kind), -1)
    given = [argument(place, field.kind, kind, place == first) for place, (field, kind) in places]
    if not all(given):
        return ''
    if wanted[:1] == ['&self']:
        return f'{given[0]}.{path.split("::")[-1]}({", ".join(given[1:])})'
    return f'cellarcove::{path}({", ".join(given)})'


def facts() -> Iterator[tuple[str, list[object]]]:
    """Each call of JavaScript with what the page knows of it."""
    api, lines = (ROOT / 'rust/api.txt').read_text(), listed('lines.txt', ' = ')
    tasks = {path: task for task, path in listed('tasks.txt', ' = ').items()}
    rows = [each for each in languages.rows() if each.c]
    doing = {each.c: tasks[each.rust] for each in rows if each.rust in tasks}
    ours_last = sorted(reversed(rows), key=lambda each: not each.rust.startswith('applied::'))
    for each in {each.c: each for each in ours_last}.values():
        call = EXPORTS().forms()[each.c][0]
        checked = f'checked::{each.rust.split("::")[-1]}'
        path = checked if types_of(checked, api) else each.rust
        line = lines.get(each.c) or line_in_rust(path, call, api)
        named = map(languages.in_rattle, re.findall(r'cellarcove::([\w:]+)\(', line))
        cpp, python = each.cpp.split(', ')[-1], each.python.split(', ')[-1]
        yield camel(each.c), [doing.get(each.c, ''), first_texts(call), cpp, python, line,
                              ' || '.join(named)]


def in_order() -> list[str]:
    """The calls of the tasks, in the order of tasks.txt."""
    exports = {each.rust: each.c for each in languages.rows() if each.c}
    paths = listed('tasks.txt', ' = ').values()
    return [camel(exports[path]) for path in paths if path in exports]


def made() -> dict[str, str]:
    lines = ''.join(f'  {name}: {json.dumps(words, ensure_ascii=False)},\n'
                    for name, words in sorted(facts()))
    order = textwrap.fill(', '.join(f"'{name}'" for name in in_order()), 140)
    block = ('// Of each call its task, its first arguments, its names in C++ and Python, its line '
             f'in Rust, and its path in Rattle.\nconst KNOWN = {{\n{lines}}};\n'
             f'// Those with a task.\nconst ORDER = [\n{textwrap.indent(order, "  ")},\n];\n')
    text, count = BLOCK.subn(lambda _: block, (ROOT / PAGE).read_text())
    assert count == 1, f'{PAGE} has {count} places for what is made'
    return {PAGE: text}


def tried(_: list[str]) -> bool:
    """Prints each call with what it returns for the first arguments, if that is one number: what
    the comment of the export says, which `tools/cellarcove check examples` compares with Python."""
    lines = list[str]()
    for name, forms in EXPORTS().forms().items():
        shown, call = of_call(forms[0])[0], forms[0]
        is_number = call.result in SINGLE and not call.writes and not name.startswith('weekday')
        value = ['false', 'true'][shown.result[0]] if call.result == 'bool' else shown.result[0]
        lines.append(f'{camel(name)}{f" {value}" if is_number else ""}')
    print(*sorted(lines), sep='\n')
    return True
