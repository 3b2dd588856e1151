"""The checker tools/checks/erased.py on small trees, and on random changes of the made crate."""
import itertools
import random
import re
from collections import Counter
from functools import cache
from pathlib import Path

import pytest

from tools import write
from tools.checks import erased
from tools.tests import samples

CHANGES = 3_000
QUIET = ('allow', 'cfg_attr', 'cold', 'deprecated', 'doc', 'inline', 'must_use', 'track_caller')
GOOD = ('same', 'by rules')
SAYS = ('Of 1 functions in Rust, 1 are their source with its contracts deleted, 0 differ only by 8 '
        'mechanical rewrites,')
CASES = samples.cases('erased')


def files_of(folder: str, suffix: str, text: str) -> dict[str, str]:
    """The files of a crate. A line `== a/b` stands above that of a module."""
    parts = re.split(r'^== (.*)\n', '== lib\n' + text.replace('\\r', '\r'), flags=re.M)
    return {f'{folder}/{name}.{suffix}': part for name, part in zip(parts[1::2], parts[2::2])}


def tree(folder: Path, pair: str) -> Path:
    """Writes a repository whose crate num_integer has this source, and whose crate of Rust this."""
    source, _, rust = pair.partition('----\n')
    crates = (*erased.LIBRARIES, 'cellarcove_c')
    write(folder, {f'crates/{crate}/src/lib.rt': '' for crate in crates} | {'rust/c/src/lib.rs': ''}
          | files_of('crates/num_integer/src', 'rt', source) | files_of('rust/src', 'rs', rust))
    return folder


@pytest.mark.parametrize('wanted, pair', CASES, ids=[str(number) for number in range(len(CASES))])
def test_grades(tmp_path: Path, wanted: str, pair: str) -> None:
    try:
        found = [row for row in erased.rows(tree(tmp_path, pair)) if row.grade != 'same']
        grades = ', '.join(sorted(' '.join((row.name, row.grade, *row.rules)) for row in found))
    except SystemExit as stop:
        grades = str(stop.code).rpartition('which it does ')[2]
    assert (grades or 'same') == wanted


def test_functions_that_macros_write(tmp_path: Path) -> None:
    rust = '''macro_rules! one { ($a:ident $b:ty) => { fn $a(x: $b) {} }; (@two $a:ident) => {
        one!($a u8); fn f() {} fn g() {} }; }
        macro_rules! each { ($($a:ty)*) => {$( impl A for $a { fn f() {} fn g() {} } )*}; }
        one!(a u8); one!(@two b); each!(u8 u16 i8);'''
    found = erased.rows(tree(tmp_path, f'----\n{rust}'))
    assert [row.functions for row in found] == [0, 0, 1, 3, 6]


def differences(folder: Path) -> list[str]:
    return list(erased.differences(folder, list(erased.rows(folder))))


def test_the_table_has_what_was_read(tmp_path: Path) -> None:
    """A function by hand whose text changes, a second one of its name, and a changed manifest."""
    rust = 'fn f() {}\nfn g() -> u8 { 1 }\n'
    tree(tmp_path, f'fn f() {{}}\n----\n{rust}')
    write(tmp_path, {'rust/Cargo.toml': '[package]\nname = "a"\nversion = "1.0.0"\n[features]\n'})
    checksums = {row.name: row.checksum for row in erased.rows(tmp_path)}
    names = '\n'.join(f'    {name} {checksums[name]}' for name in ('g', 'file rust/Cargo.toml'))
    says = SAYS.replace('Of 1', 'Of 2') + ' 0 are changed by hand, and 1 have no source.'
    write(tmp_path, {erased.TABLE: f'# a table\n\nby hand: no reason\n{names}\n'}
          | dict.fromkeys(erased.PAGES, says))
    assert not differences(tmp_path)
    root, manifest = 'rust/src/lib.rs', 'rust/Cargo.toml'
    for file, old, new in ((root, '{ 1 }', '{ 2 }'), (root, 'fn g', 'fn h'),
                           (root, '{ 1 }', '{ 1 } fn g() -> u8 { 1 }'),
                           (manifest, '[features]', '[lib]\npath = "evil.rs"\n[features]')):
        text = (tmp_path / file).read_text()
        write(tmp_path, {file: text.replace(old, new)})
        assert differences(tmp_path), new
        write(tmp_path, {file: text})
    write(tmp_path, {'rust/Cargo.toml': '[package]\nname = "a"\nversion = "1.0.1"\n[features]\n'})
    assert not differences(tmp_path)
    write(tmp_path, {erased.PAGES[0]: says.replace('Of 2', 'Of 3')})
    assert differences(tmp_path) == [f'{erased.PAGES[0]} does not say: {says}']


@cache
def crate() -> tuple[erased.Tree, erased.Tree]:
    return erased.trees(erased.REPOSITORY)


def items_of(place: erased.Place, tokens: list[str]) -> dict[str, list[erased.Item]]:
    """The items of a module of the crate of Rust that has these tokens."""
    _, rust = crate()
    other = erased.Tree({})
    other.modules = rust.modules
    other.imports.update((where, names) for where, names in rust.imports.items() if where != place)
    scope = erased.Scope({'crate': ('crate',)}, erased.RUST, place, place, {})
    other.block(erased.without_contracts(tokens, erased.RUST), scope)
    return other.items


def read(name: str, items: list[erased.Item]) -> Counter[tuple[str, str]]:
    """The grades of the items of a name, and the texts of those that stand in the table."""
    pairs = itertools.zip_longest(crate()[0].items.get(name, []), items)
    graded = ((erased.compare(*pair)[0], pair[1].text if pair[1] else '') for pair in pairs)
    return Counter(('good', '') if grade in GOOD else (grade, text) for grade, text in graded)


def is_found(module: 'Module', tokens: list[str]) -> bool:
    """Whether the checker rejects a module that has other tokens."""
    try:
        items = items_of(module.place, tokens)
    except (SystemExit, IndexError, ValueError, RecursionError):    # what is no Rust ends anyhow
        return True
    texts = {name: [item.text for item in found] for name, found in items.items()}
    return any(read(name, module.items.get(name, [])) != read(name, items.get(name, []))
               for name in module.texts | texts if module.texts.get(name) != texts.get(name))


class Module:
    """A module of the crate of Rust."""

    def __init__(self, place: erased.Place) -> None:
        file = erased.REPOSITORY / 'rust/src' / '/'.join(place[1:] or ('lib',))
        self.place, self.tokens = place, erased.tokens_of(file.with_suffix('.rs'))
        self.items = items_of(place, self.tokens)
        self.texts = {name: [item.text for item in found] for name, found in self.items.items()}


@cache
def modules() -> list[Module]:
    return [Module(place) for place in sorted(crate()[1].modules) if place[0] == 'crate']


def is_harmless(tokens: list[str], k: int) -> bool:
    """Whether a token stands where no change of it has a meaning: a comma behind the last parameter
    or in the list of a `use`, and what is in an attribute of documentation, warnings or speed."""
    start = max((i for i in range(k) if tokens[i] in (';', 'use', '}')), default=0)
    if tokens[k] == ',' and (tokens[k + 1:k + 3] == [')', '->'] or tokens[start] == 'use'):
        return True
    begin = max((i for i in range(k) if tokens[i] == '#'), default=0)
    first = begin + 1 + (tokens[begin + 1] == '!')
    return tokens[first] == '[' and k < erased.close(tokens, first) and tokens[first + 1] in QUIET


def test_each_change_of_a_token_is_found() -> None:
    """A token is deleted, doubled or replaced: in bodies, heads, `use`, `mod` and attributes."""
    chance, missed = random.Random(85), []
    others = sorted({word for module in modules() for word in module.tokens})
    for _ in range(CHANGES):
        module = chance.choice(modules())
        tokens, k = module.tokens, chance.randrange(len(module.tokens))
        new = chance.choice((list[str](), [tokens[k]] * 2, [chance.choice(others)]))
        changed = [*tokens[:k], *new, *tokens[k + 1:]]
        if changed != tokens and not is_harmless(tokens, k) and not is_found(module, changed):
            missed.append(f'{"::".join(module.place)}: {" ".join(tokens[k - 3:k + 4])}: {new}')
    assert not missed


# Attributes that change a result or a reader's file, and those that change neither.
LOUD = ('#[path = "evil.rs"]', '#[cfg(any())]', '#[cfg(diagnostic)]', '#[cfg_attr(Drop, inline)]',
        '#[cfg_attr(has_diagnostic, cfg(any()))]', '#[derive(Drop)]', '#[tactic(auto)]',
        '#[macro_use]', '#[inline::evil]', '#[rustfmt]')
NO_ITEMS = ('#[cfg(test)]', '#[cfg(doc)]')


@pytest.mark.parametrize('attribute', LOUD + NO_ITEMS)
def test_each_attribute_is_found(tmp_path: Path, attribute: str) -> None:
    """It stands before an item anywhere: a module, an import, a function, an implementation."""
    chance, missed = random.Random(86), []
    (tmp_path / 'it.rs').write_text(attribute)
    words = erased.tokens_of(tmp_path / 'it.rs')
    for module in modules():
        starts = [k for k, word in enumerate(module.tokens) if word in ('fn', 'use', 'mod', 'impl')
                  and module.tokens[k - 1] in (';', '}', ']')]
        for k in chance.sample(starts, min(len(starts), 4)):
            if not is_found(module, [*module.tokens[:k], *words, *module.tokens[k:]]):
                missed.append(f'{"::".join(module.place)}: {" ".join(module.tokens[k:k + 4])}')
    assert not missed


def test_an_attribute_of_speed_is_not() -> None:
    words = ['#', '[', 'inline', ']']
    assert not [module for module in modules() if is_found(module, words + module.tokens)]
