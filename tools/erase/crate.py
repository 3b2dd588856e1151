"""Takes the contracts out of the libraries, and makes one Cargo crate of plain Rust.

Code stays token by token, with its comments. What goes: `ghost` items, members and fields,
clauses, `final`, attributes of proofs, `#[cfg(test)]` items, labels that nothing names, and the
traits that are of contracts alone. What changes: the first words of paths, the head of `fmt`,
copies in `integer_core` (copies.py), and comments, which gain sections (documentation.py). What is
added: `#[must_use]` of public calls that only return, `#[track_caller]` on the way to a panic
(callers.py), and what is by hand (additions.py). No function of the library has a name here. A
form that is not known here is rejected by file and line, and then nothing is made. tools/tests has
examples of both."""
import shutil
import subprocess
import tempfile
from collections.abc import Iterable, Mapping
from pathlib import Path

from tools import ROOT as REPOSITORY, write
from tools.erase import copies, documentation
from tools.erase.additions import Additions
from tools.erase.callers import Callers
from tools.erase.deletion import GHOST_NAMES
from tools.erase.library import CRATES, JOINED, MOVED, PART, ROOT, SINCE, WITHIN, RustLibrary
from tools.erase.prose import within_columns
from tools.erase.source import Item, Unknown

BY_HAND = REPOSITORY / 'rust' / 'by_hand'

KEPT = {'allow', 'cfg_attr', 'cold', 'default', 'deprecated', 'derive', 'doc', 'inline', 'must_use',
        'non_exhaustive'}
MACROS = {'matches', 'unreachable', 'write'}
RATTLE = {'ghost', 'requires', 'ensures', 'final', 'prove', 'Drop'}
LOOPS = ('while', 'for', 'loop', '{')


class Eraser(documentation.Comments):
    """A file of a crate of the library."""
    root = 'crate'                              # how its code names the root of the Rust crate

    def dress(self, item: Item, owner: Item | None) -> None:
        if self.only_returns(item, owner):
            self.put_before(item.first, '#[must_use]\n')
        if item.kind == 'mod' and item.public:
            below = self.library.modules[self.crate, (*self.module.path, item.name)]
            if below.is_part or not self.library.is_open(below):
                self.write(item.word - 1, 'pub(crate)')
            if below.is_part:
                self.write(item.word + 1, PART.format(item.name))
                self.write(item.last, f';\npub use {self.root}::{item.name};')
        self.add_sections(item, owner)
        if self.crate == copies.CLONING:
            copies.write(self, item, owner)
        if item.kind == 'struct':
            self.struct(item)

    def only_returns(self, item: Item, owner: Item | None) -> bool:
        """Whether a call of the item is of no use where its result is not used: a public function
        that changes nothing. A `Result` has the attribute itself."""
        if item.kind != 'fn' or self.library.place_of(self.module, item, owner) is None:
            return False
        names = [self.at(first + 2) for first, _ in item.attributes]
        changes = 'mut' in (self.at(k) for k in range(*self.source.parameters(item)))
        returned = self.source.returned(item)
        return bool(returned) and not returned.startswith(
            'Result<') and not changes and 'must_use' not in names

    def attribute(self, first: int, last: int) -> None:
        if [self.at(k) for k in range(first + 2, last)] == ['rattlefmt', ':', ':', 'skip']:
            self.write(first + 2, 'rustfmt')
        elif self.at(first + 2) not in KEPT | self.dropped:
            self.refuse(first, f'the attribute `{self.at(first + 2)}`')
        super().attribute(first, last)

    def use(self, item: Item) -> None:
        """A use, without the ghost traits. An export of a module that is private in Rust is one
        within the crate."""
        k, last = item.word, item.last
        imports = self.source.imports(item)
        for path, _ in imports:
            if not self.library.knows(self.module, path):
                self.refuse(k, f'a path that begins with `{path[0]}`')
        names = [j for j in range(k + 1, last) if self.kind(j) == 'word']
        private = {name: path for path, name in imports if item.public and self.is_private(path)}
        gone = GHOST_NAMES | private.keys()
        if item.public:
            gone |= {name for path, name in imports if self.module.stands_at_root(path)}
        if [self.at(j) for j in names] == ['std', 'error', 'Error']:
            self.drop(k, last)
            return self.write(k, 'use crate::errors::Error;')
        at_root = {path[0] for crate, path in self.library.modules if path
                   and crate == ROOT != self.crate}
        used = {path[1] for module in self.library.modules.values()
                for path in module.imported.values() if path[0] == self.crate and path[1:]}
        exports = ''.join(f'\npub(crate) use crate::{"::".join(path)};'
                          for name, path in private.items() if name in used - at_root)
        if all(name in gone for _, name in imports):
            self.drop_item(item.first, last)
            return self.write(last, exports)
        self.write(last, f';{exports}')
        for j in names:
            if self.at(j) in gone:
                self.drop_from_list(j)
            else:
                self.path(j)
        return None

    def is_private(self, path: tuple[str, ...]) -> bool:
        """Whether a path leads to a module, or to an item of another crate, that is private in
        Rust."""
        found = self.library.find(self.module, path)
        if found is None:
            return False
        module, name = found
        if name is None:
            return not self.library.is_open(module)
        return path[0] in CRATES and not self.library.shows(module, name)

    def struct(self, item: Item) -> None:
        """A struct without bounds, which its methods have. Where a public one has an invariant, no
        other crate may change its fields."""
        k, last = item.word + 2, self.source.angle(item.word + 2) - 1
        while k < last:
            stop = self.source.next_field(k + 1, last)
            if self.kind(k + 1) == 'word' and self.at(k + 2) == ':':
                self.drop(k + 2, stop - 1)
            k = stop
        has_invariant = any(field.ghost for field in item.fields)
        for field in item.fields:
            if field.public and not field.ghost and has_invariant and self.library.place_of(
                    self.module, item) is not None:
                self.write(field.place - 1, 'pub(crate)' if self.crate == ROOT
                           else f'pub(in crate::{self.crate})')

    def word(self, k: int) -> None:
        if self.kind(k) == 'label' and self.at(k + 1) == ':' and self.at(k + 2) in LOOPS:
            body = self.source.end(k + 2, '{')
            if all(self.at(j) != self.at(k) for j in range(body, self.source.close(body))):
                self.drop(k, k + 1)     # the label of a loop that nothing in it names
        is_macro = (self.source.is_sign(k + 1, '!') and self.source.code[k + 1]
                    == self.source.code[k] + 1 and self.at(k + 2) in ('(', '[', '{'))
        if self.kind(k) == 'word' and is_macro and self.at(k) not in MACROS:
            self.refuse(k, f'the macro `{self.at(k)}!`')
        super().word(k)
        if self.kind(k) == 'word' and self.texts[self.source.code[k]] == self.at(k):
            self.path(k)

    def path(self, k: int) -> None:
        """The first word of a path."""
        if self.at(k + 1) + self.at(k + 2) != '::' or self.at(k - 1) == ':':
            return
        word = self.at(k)
        if word == 'std':
            self.write(k, 'core')
        elif word == 'crate' and self.crate in CRATES.keys() - {ROOT}:
            self.write(k, f'{self.root}::{self.crate}')
        elif word in CRATES:
            self.write(k, self.root if word == ROOT else f'{self.root}::{word}')

    def rust(self) -> str:
        """The file as Rust."""
        self.items(self.module.items)
        for k in range(len(self.source.code)):
            text = self.texts[self.source.code[k]]
            if text and (self.at(k) in RATTLE or self.kind(k) in ('sign', 'word')
                         and not self.at(k).isascii()):
                self.refuse(k, f'`{self.at(k)}`, which is left over')
        return ''.join(self.linked(token.text) if token.kind == 'line' and text == token.text
                       else text for token, text in zip(self.source.tokens, self.texts))


def made_from(source: str | Path, part: str = 'rust') -> str:
    """The first line of a file that is made."""
    return f'// @generated by `tools/cellarcove make {part}` from {source}; do not edit\n'


def head_of_root(library: RustLibrary, others: Iterable[str], rust: str) -> str:
    """The root of the Rust crate: the head by hand, the modules, and what `num_integer` exports."""
    modules = ''.join(f'{kind} {crate};\n' for crate, kind in CRATES.items() if kind)
    modules += ''.join(
        f'#[deprecated(since = "{SINCE}", note = "it is `{MOVED}::{name}`")]\npub mod {name};\n'
        for name in library.moved())
    by_hand = ''.join(f'mod {place[:-3]};\n' for place in others if '/' not in place)
    made, *lines = rust.splitlines(True)
    items = ''.join(line for line in lines if not line.startswith('//!')).lstrip()
    head = made + '// It also has what rust/by_hand/head.rs adds.\n' + (
        BY_HAND / 'head.rs').read_text()
    # Only the documentation has the module of definitions: no code can name it.
    return head + '\n#[cfg(doc)]\npub mod definitions;\n' + by_hand + modules + items


def definitions() -> str:
    """The modules that show the pages of rust/reference: the first one, and one for each library.
    The targets of links that stand before a page are in the place of those at its end."""
    shown = (f'\n/// The contracts of `{name}`, and their words.\n///\n#[doc = '
             'include_str!("../reference/links.txt")]\n#[doc = '
             f'include_str!("../reference/{name}.md")]\n' f'pub mod {name} {{}}\n'
             for name in CRATES)
    return '#![doc = include_str!("../reference/README.md")]\n' + ''.join(shown)


def texts_of(library: RustLibrary) -> dict[str, str]:
    """The texts of the files of the crate, by their place."""
    for crate, name in WITHIN:
        if (crate, (name,)) not in library.modules:
            raise Unknown(
                f'tools/erase: crates/{crate} has no module `{name}`, which a table names')
    additions, made = Additions(BY_HAND / 'src'), dict[str, str]()
    for module in (module for module in library.modules.values() if module.rust_file()):
        eraser, place = Eraser(module, library), module.rust_file()
        if place in made:
            raise Unknown(f'{module.source.path}: a second module for src/{place}')
        text, note = additions.add(place, eraser.rust())
        made[place] = made_from(module.source.path) + note + text
    for name, exported in library.moved().items():
        made[f'{name}.rs'] = (made_from(f'crates/{MOVED}/src/{name}.rt')
                              + f'//! It is [`{MOVED}::{name}`](crate::{MOVED}::{name}).\n\n'
                              f'pub use crate::{MOVED}::{name}::{{{", ".join(exported)}}};\n')
    # one import has all calls of modules of one name
    for name in JOINED:
        made[f'{name}.rs'] = made.get(f'{name}.rs', '') + ''.join(
            f'#[doc(inline)]\npub use crate::{"::".join(place[:-1])}::{PART.format(name)}::'
            f'{{{", ".join(names)}}};\n'
            for place, names in library.joined(name).items())
    others = additions.modules()
    made['lib.rs'] = head_of_root(library, others, made['lib.rs'])
    made |= {place: made_from(f'rust/by_hand/src/{place}') + text for place, text in others.items()}
    return made | {'definitions.rs': made_from('rust/reference') + definitions()}


def files(crate: str, made: Mapping[str, str]) -> dict[str, str | None]:
    """The files of a crate of the repository, of which these are made, and no text for what else
    is there."""
    there = [file.relative_to(REPOSITORY).as_posix()
             for file in (REPOSITORY / crate / 'src').rglob('*.*')]
    with tempfile.TemporaryDirectory() as name:
        out = Path(name)
        write(out / 'src', made)
        Callers(out).put()
        if not shutil.which('rustfmt'):
            raise Unknown(
                'rustfmt is missing: install Debian\'s package rustfmt, or `rustup component add '
                'rustfmt`')
        found = subprocess.run(['rustfmt', '--edition', '2021', str(out / 'src' / 'lib.rs')],
                               capture_output=True, text=True)
        if found.returncode or found.stderr:
            raise Unknown('what is left is no Rust:\n' + found.stderr.replace(f'{out}/', ''))
        texts = {place: (out / 'src' / place).read_text() for place in made}
    return dict.fromkeys(there) | {f'{crate}/src/{place}': within_columns(text)
                                   if place.endswith('.rs') else text
                                   for place, text in texts.items()}


def made() -> dict[str, str | None]:
    return files('rust', texts_of(RustLibrary(REPOSITORY / 'crates')))
