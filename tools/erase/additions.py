"""What the Rust crate has beside the proved sources: the files below rust/by_hand/src.

A file with the path of a made file adds to it. A function in it that the made file has too, of the
same type or trait, stands in the place of that one, below its comment if it has none of its own. A
trait or an implementation whose head the made file has gives it the other methods, and its
attributes, as does a struct or an enum by its name; an implementation also has the bounds by hand.
Every other item follows the items of the file. Where it has all functions of the made file it is
the whole file. A file with another path is a module of its own."""
from collections.abc import Iterable
from pathlib import Path

from tools.erase.source import Item, Source


BLOCKS = ('struct', 'enum', 'trait', 'impl')    # items of which the two files may have parts
MERGED = ('fn', *BLOCKS)


def head(source: Source, item: Item) -> str:
    """The words by which a type, a trait or an implementation is found: the name, or the head
    without what is generic."""
    if item.kind != 'impl' or item.open is None:
        return item.name
    return ' '.join(['impl', *source.text(source.angle(item.word + 1), item.open - 1).split()])


def start(source: Source, item: Item) -> int:
    """The number of the first token of the documentation of an item, or of the item."""
    return min([*source.docs(item), source.code[item.first]])


def written(source: Source, items: Iterable[Item]) -> str:
    """The text of items with the comments above them."""
    found = []
    for item in items:
        before = source.tokens[source.code[item.first - 1] + 1 if item.first
                               else 0:source.code[item.first]]
        comment = ''.join(token.text for token in before if not token.text.startswith('//!'))
        found.append(comment.lstrip() + source.text(item.first, item.last))
    return '\n\n'.join(found)


class Joined:
    """A made file with what a file by hand adds. `replaced` has the names of the functions that
    are by hand."""

    def __init__(self, made: Source, added: Source) -> None:
        self.made, self.added, self.replaced = made, added, list[str]()
        self.items, others = made.items(), added.items()
        rest = self.merge(self.items, [item for item in others if item.kind != 'use'])
        if rest:
            made.texts.append('\n\n' + written(added, rest) + '\n')
        imports = '\n'.join(added.text(item.first, item.last) for item in others
                            if item.kind == 'use')
        if imports:                     # they stand below those of the made file
            uses = [item for item in self.items if item.kind == 'use']
            at = (made.code[uses[-1].last] if uses
                  else start(made, next(item for item in self.items if item.kind != 'attribute')))
            made.texts[
                at] = f'{made.texts[at]}\n{imports}' if uses else f'{imports}\n\n{made.texts[at]}'
        # whether the functions by hand are all that the made file has
        self.is_whole = all(item.kind == 'fn' and item.name in self.replaced for item in self.items
                            if item.kind not in ('use', 'attribute'))

    def merge(self, there: list[Item], items: list[Item]) -> list[Item]:
        """Puts items in the place of those of the same name or head that are there, or into them,
        and returns the others."""
        places = {head(self.made, item): item for item in there if item.kind in MERGED}
        rest = []
        for item in sorted(items, key=lambda item: item.kind in BLOCKS):
            place = places.get(head(self.added, item)) if item.kind in MERGED else None
            if place is None:
                rest.append(item)
            elif item.kind == 'fn':
                self.replace(place, item)
            else:
                self.extend(place, item)
        return rest

    def replace(self, place: Item, item: Item) -> None:
        made, added = self.made, self.added
        first = start(made, place) if added.docs(item) else made.code[place.first]
        made.texts[first] = written(added, [item])
        made.texts[first + 1:made.code[place.last] + 1] = [''] * (made.code[place.last] - first)
        self.replaced.append(item.name)

    def extend(self, block: Item, item: Item) -> None:
        """Gives a block the head of an implementation by hand, the attributes of an item by hand,
        and what is in that."""
        made, added = self.made, self.added
        if item.kind == 'impl' and item.open and block.open:
            first, last = made.code[block.word], made.code[block.open]
            made.texts[first:last] = [added.text(item.word, item.open - 1) + ' ',
                                      *[''] * (last - first - 1)]
        lines = [added.text(*attribute) for attribute in item.attributes]
        first = made.code[block.first]
        made.texts[first] = '\n'.join([*lines, made.texts[first]])
        rest = self.merge(block.items, item.items)
        if rest:
            made.texts[made.code[block.last]] = '\n' + written(added, rest) + '\n}'


class Additions:
    """The files below a folder, by their path there."""

    def __init__(self, folder: Path) -> None:
        self.files = {file.relative_to(folder).as_posix(): file.read_text()
                      for file in sorted(folder.rglob('*.rs'))}
        self.met = set[str]()

    def add(self, place: str, text: str) -> tuple[str, str]:
        """The text of the made file at a place with the additions to it, and what the first lines
        of the file say of them."""
        if place not in self.files:
            return text, ''
        self.met.add(place)
        file = Path('rust/by_hand/src', place)
        joined = Joined(Source(Path('rust/src', place), text), Source(file, self.files[place]))
        if joined.is_whole:
            return self.files[place], f'// It is {file}, which has each function by hand.\n'
        by_hand = (f', and {", ".join(sorted(joined.replaced))} as they stand there'
                   if joined.replaced else '')
        return ''.join(joined.made.texts), f'// It also has what {file} adds{by_hand}.\n'

    def modules(self) -> dict[str, str]:
        """The files that are modules of their own, by place. Call it after all made files have
        been added to."""
        return {place: text for place, text in self.files.items() if place not in self.met}
