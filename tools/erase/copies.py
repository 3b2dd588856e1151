"""Copies of numbers. In the Rust crate `Integer` is not `Copy`, so that big integers have the
trait.

In the sources `Copy` is a supertrait of it, since no method of a trait can have `where Self: Copy`
there. Code that copies asks for `Integer + Copy`, and has this bound in plain Rust. In
`integer_core` it becomes `Clone`: there code over `Integer` writes a copy as `*x`, or as `*&x` of
a value at hand, which becomes a clone. A method of the trait that copies, or calls one that does,
gets `where Self: Clone`. What a source lacks of this rustc finds."""
from collections.abc import Iterator

from tools.erase.deletion import Deletion
from tools.erase.source import Item, Source

CLONING, INTEGER = 'integer_core', 'Integer'


def bounds(source: Source, item: Item | None) -> list[int]:
    """The places of `Copy` in the head of an item, as a bound beside `Integer` or as the
    supertrait of `Integer`."""
    head = range(item.word, item.open) if item and item.open else range(0)
    return [k for k in head if source.at(k) == 'Copy' and source.at(k - 2) == INTEGER]


def copies(source: Source, item: Item) -> Iterator[tuple[int, int, int]]:
    """The copies in a function: of each the first place, that of the name, and that of the last
    field after the name."""
    for k in range(item.open or item.last, item.last):
        if source.at(k) == '*' and source.is_sign(k - 1, '(,={;'):
            name = last = k + 1 + (source.at(k + 1) == '&')
            while source.at(last + 1) == '.' and source.at(last + 3) != '(':
                last += 2
            if source.at(last + 1) != '=':
                yield k, name, last


def write(eraser: Deletion, item: Item, owner: Item | None) -> None:
    """Writes the bounds of an item of `integer_core`, and the copies of a function."""
    source = eraser.source
    for k in bounds(source, item):
        eraser.write(k, 'Sized' if source.at(k - 1) == ':' else 'Clone')
    if item.kind != 'fn' or not bounds(source, item) + bounds(source, owner):
        return
    found = list(copies(source, item))
    for first, name, last in found:
        eraser.drop(first, name - 1)
        eraser.write(last, f'{source.at(last)}.clone()')
    if owner and owner.kind == 'trait' and item.open:
        copying = {inner.name for inner in owner.items if any(copies(source, inner))}
        if found or any(source.at(k) == '.' and source.at(k + 1) in copying
                        for k in range(item.open, item.last)):
            last = (item.clauses[0].first if item.clauses else item.open) - 1
            where = next((k for k in range(item.word, last) if source.at(k) == 'where'), None)
            if where is None:
                eraser.write(last, f'{source.at(last)} where Self: Clone')
            else:               # a `where` that is there begins with `Self`
                eraser.write(where + 3, f'Clone + {source.at(where + 3)}')
