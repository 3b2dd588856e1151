"""Takes the contracts out of the exports for C, and makes a Cargo package over the crate of plain
Rust.

Code is erased as crate.py does it. What else changes: paths lead to the crate `cellarcove`; a
slice becomes a pointer and a length, of which the body makes the slice, in an unsafe block; and
functions that only state laws go. A form that is not known here is rejected by file and line, and
then nothing is made."""
from collections.abc import Iterator

from tools import ROOT, filled
from tools.erase.crate import BY_HAND, Eraser, files, made_from
from tools.erase.library import Module, RustLibrary
from tools.erase.source import Item

CRATE, SLICE = 'cellarcove_c', ROOT / 'tools/erase/templates/slice.rs'
ATTRIBUTES = (['unsafe', '(', 'no_mangle', ')'], ['repr', '(', 'C', ')'])


class Exports(Eraser):
    """A file of the exports."""
    root = 'cellarcove'

    def attribute(self, first: int, last: int) -> None:
        if [self.at(k) for k in range(first + 2, last)] not in ATTRIBUTES:
            super().attribute(first, last)

    def item(self, item: Item, owner: Item | None) -> None:
        if states_laws(item):
            return self.drop_item(item.first, item.last)
        path = self.module.path + (item.name,)
        if item.kind == 'mod' and only_laws(self.library.modules[self.crate, path]):
            return self.drop_line(item.first, item.last)
        super().item(item, owner)
        if item.kind == 'fn' and item.open is not None:
            made = [self.slice(name, first, last) for name, first, last in self.slices(item)]
            if made:
                self.write(item.open, '{' + ''.join(made))
        return None

    def slices(self, item: Item) -> Iterator[tuple[int, int, int]]:
        """The parameters of a call for C that are slices: the place of each name, and the first
        and the last place of its type."""
        opening, closing = self.source.parameters(item)
        k = opening + 1
        while k < closing and self.at(item.word - 2) == 'extern':
            stop = self.source.next_field(k, closing)
            written = self.at(k + 3) == 'mut'
            if self.at(k + 2) + self.at(k + 3 + written) == '&[':
                yield k, k + 2, stop - 1
            k = stop + 1

    def slice(self, name: int, first: int, last: int) -> str:
        """A slice arrives as a pointer and a length. The pointer of no items is not looked at. The
        statement that makes the slice."""
        written = self.at(first + 1) == 'mut'
        if last != first + 3 + written:
            self.refuse(name, 'a slice of a call for C whose items have no type of one word')
        word, kind, mut = self.at(name), self.at(last - 1), 'mut ' * written
        self.write(first, f'*{mut or "const "}{kind}, {word}_len: usize')
        self.drop(first + 1, last)
        promise = ('so many items, which nothing else reads or writes' if written
                   else 'so many items, which do not change')
        return filled(SLICE, word=word, mut=mut, promise=promise,
                      suffix='_mut' * written).rstrip('\n')


def states_laws(item: Item) -> bool:
    """Whether a function states laws: no call needs it, and its body is empty."""
    return item.kind == 'fn' and not item.public and bool(item.clauses) and item.open is not None \
        and item.last == item.open + 1


def only_laws(module: Module) -> bool:
    """Whether a file has nothing but functions that state laws."""
    return all(item.kind in ('ghost', 'attribute') or states_laws(item) for item in module.items)


def made() -> dict[str, str | None]:
    library = RustLibrary(ROOT / 'crates')
    library.read(CRATE, (), ROOT / 'crates' / CRATE / 'src' / 'lib.rt')
    texts = dict[str, str]()
    for module in [module for module in library.modules.values() if module.crate == CRATE
                   and not only_laws(module)]:
        eraser = Exports(module, library)
        rust, sources = eraser.rust(), str(module.source.path)
        if not module.path:             # the root: the head by hand, and the modules
            modules = ''.join(line for line in rust.splitlines(True)
                              if not line.startswith('//!')).lstrip()
            rust, sources = ((BY_HAND / 'exports_head.rs').read_text() + '\n' + modules,
                             f'{sources} and rust/by_hand/exports_head.rs')
        texts[f'{"/".join(module.path) or "lib"}.rs'] = made_from(sources, 'exports') + rust
    return files('rust/c', texts)
