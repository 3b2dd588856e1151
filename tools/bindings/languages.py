"""Makes docs/LANGUAGES.md: for each language the call of each task, and then every call of the
libraries, with its name in each language, or why a language lacks it."""
import re
from collections.abc import Container, Iterable, Iterator
from typing import NamedTuple

from tools import ROOT
from tools.bindings.exports import EXPORTS, filled, listed
from tools.bindings.javascript import camel
from tools.bindings.python import ALIASES, RENAMED

LIST = 'tools/bindings/languages.txt'
CHECKED = re.compile(r'\bchecked::')
RATIO = 'ratio64::Ratio::'
CRATES = ('applied', 'bounded_integers', 'calendar', 'modular', 'ratio64')
TRAITS = ('Integer::', 'Average::', 'Roots::')  # whose methods are free functions too
BY_TRAIT = {'fraction_cmp': '`Ord` of `Ratio`', 'fraction_from_text': '`FromStr` of `Ratio`',
            'fraction_from_decimal': '`FromStr` of `Decimal`',
            'date_from_text': '`FromStr` of `Date`'}
NAMED = {'date_from_text': ('date_from_text', 'Date.fromisoformat, date_from_text',
                            'PlainDate.from`, `dateFromText')}  # in C++, Python, JavaScript


def paths() -> Iterator[str]:
    """The calls of plain Rust. One of a module `checked` is there if no other call has its name,
    and a method of a trait if no function has it."""
    api = (ROOT / 'rust/api.txt').read_text()
    found = sorted(re.findall(r'^(?:const )?fn ([\w:]+)', api, re.M))
    plain = [path for path in found if not CHECKED.search(path) and not path.startswith(TRAITS)]
    of_checked = {path.split('::')[-1]: path for path in found if path.startswith('checked::')}
    names = {path.split('::')[-1] for path in plain}
    yield from plain
    yield from (path for name, path in of_checked.items() if name not in names)
    names |= of_checked.keys()
    yield from (path for path in found
                if path.startswith(TRAITS) and path.split('::')[1] not in names)


def in_rattle(path: str) -> str:
    """The path of a call in Rattle."""
    first, *others = path.split('::')
    if first == 'checked':  # plain Rust has those of all modules there
        files = sorted(ROOT.glob('crates/*/src/**/*.rt'))
        file = next(file for file in files
                    if 'checked' in str(file) and f'pub fn {others[0]}<' in file.read_text())
        crate, _, *modules = file.relative_to(ROOT / 'crates').with_suffix('').parts
        return '::'.join([crate, *modules[:modules.index('checked') + 1], *others])
    return by_rule(path)


def by_rule(path: str) -> str:
    """The path in Rattle, as the page says it of most calls."""
    of_crate = path.split('::')[0] in CRATES
    return path if of_crate or ' ' in path else f'num_integer::{path}'


class Row(NamedTuple):
    """A call by its paths in Rust and in Rattle, and its names: in C without the type, with the
    types, and those that other languages have beside it. Without an export there are words."""
    rust: str
    rattle: str
    c: str = ''
    types: tuple[str, ...] = ()
    cpp: str = ''
    python: str = ''
    javascript: str = ''
    words: str = ''


def rows() -> list[Row]:
    """A row of each call. Those below a path that has one reason share a row."""
    names, forms = listed('languages.txt', ' = '), EXPORTS().forms()
    reasons = {path: words for path, words in listed('languages.txt', ': ').items()
               if not has_export(path)}
    used, made = set[str](), list[Row]()
    for whole in sorted(paths(), key=lambda path: CHECKED.sub('', path)):
        path = CHECKED.sub('', whole)
        reason = reason_of(path, reasons)
        if reason in used:
            continue
        export, *others = names.get(path, default_of(path)).split(' | ')
        assert reason or export in forms, (
            f'{path}: tools/bindings/languages.txt says neither its export nor why it has none')
        shown = reason.removesuffix('::') if reason.endswith('::') else whole
        rattle = in_rattle(whole).replace(whole, shown)
        made.append(Row(shown, rattle, words=reasons[reason]) if reason
                    else row(shown, rattle, export, *others))
        used |= {reason} if reason else {path, export}
    made += [row(where, where, export, *NAMED.get(export, ()))
             for export, where in BY_TRAIT.items()]
    unknown = (names.keys() | reasons.keys()) - used
    lost = forms.keys() - used - BY_TRAIT.keys()
    assert not unknown and not lost, (f'tools/bindings/languages.txt: no such call '
                                      f'{sorted(unknown)}, no row of {sorted(lost)}')
    return made


def has_export(path: str) -> bool:
    """Whether a call of which languages.txt says why it has no export has one now."""
    return not path.endswith('::') and default_of(path) in EXPORTS().forms()


def current() -> str:
    """languages.txt without the lines of calls that have an export now."""
    stale = {f'{path}: {words}\n' for path, words in listed('languages.txt', ': ').items()
             if has_export(path)}
    lines = (ROOT / LIST).read_text().splitlines(keepends=True)
    return ''.join(line for line in lines if line not in stale)


def reason_of(path: str, reasons: Container[str]) -> str:
    """The path, or the longest beginning of it, of which languages.txt has a reason."""
    parts = path.split('::')
    begun = ('::'.join(parts[:count]) + '::' for count in range(len(parts) - 1, 0, -1))
    return next((each for each in (path, *begun) if each in reasons), '')


def default_of(path: str) -> str:
    """The export of a call, if languages.txt doesn't say another one."""
    last = path.split('::')[-1]
    return 'fraction_' + last.removeprefix('checked_') if path.startswith(RATIO) else last


def row(rust: str, rattle: str, export: str, in_cpp: str = '', in_python: str = '',
        in_javascript: str = '', words: str = '') -> Row:
    """The row of an export. Its names in other languages are the same if no others are given."""
    types = tuple(form.form for form in EXPORTS().forms()[export] if form.form)
    aliases = [alias for alias, name in ALIASES.items() if name == export]
    python = in_python or ', '.join([RENAMED.get(export, export), *aliases])
    return Row(rust, rattle, export, types, in_cpp or export, python,
               in_javascript or camel(export), words)


def code(names: str) -> str:
    """Names with commas between them, each as code."""
    return ', '.join(f'`{name.strip("`")}`' for name in names.split(', ') if name)


def of_c(each: Row) -> str:
    """The cell of a call in C and C++, with the types in C, or what to use instead."""
    if not each.c:
        return each.words
    others = [name for name in each.cpp.split(', ') if name != each.c]
    types = f' {", ".join(each.types)}' if each.types else ''
    return f'`{each.c}`{types}' + (f'; C++ {code(", ".join(others))}' if others else '')


def of_javascript(each: Row) -> str:
    """The cell of a call in JavaScript, or what to use instead, by its names there."""
    forms = EXPORTS().forms()
    return code(each.javascript) or re.sub(
        r'`(\w+)`', lambda name: f'`{camel(name[1])}`' if name[1] in forms else name[0], each.words)


def of_three(each: Row) -> str:
    """The cell of a call in C, C++ and Python."""
    others = [name for name in each.python.split(', ') if name != each.c]
    words = f'; {each.words}' if each.c and each.words else ''
    return of_c(each) + (f'; Python {code(", ".join(others))}' if others else '') + words


def path_of(name: str) -> str:
    """A path as code, or the words on a trait."""
    return name if ' ' in name else f'`{name}`'


def table(*rows_of: Iterable[str]) -> str:
    return '\n'.join(f'| {" | ".join(cells)} |' for cells in rows_of)


def page() -> str:
    made = rows()
    of = {each.rust: each for each in made}
    tasks = [(task, of[path]) for task, path in listed('tasks.txt', ' = ').items()]
    moved = [each for each in made if each.rattle != by_rule(each.rust)]
    return filled(
        'languages.md',
        rust=table(*((task, path_of(each.rust)) for task, each in tasks)),
        c=table(*((task, of_c(each)) for task, each in tasks)),
        python=table(*((task, code(each.python) or each.words) for task, each in tasks)),
        javascript=table(*((task, of_javascript(each)) for task, each in tasks)),
        rattle=table(*((task, path_of(each.rattle)) for task, each in tasks)),
        rows=table(*((path_of(each.rust), of_three(each), code(each.javascript)) for each in made)),
        checked=table(*((path_of(each.rust), path_of(each.rattle)) for each in moved)))
