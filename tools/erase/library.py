"""Crates of Rattle: their modules, and where a caller finds each public item, in Rattle or in the
crate of plain Rust."""
import functools
from collections.abc import Iterable, Sequence
from dataclasses import dataclass, field
from pathlib import Path

from tools.erase.source import Item, Source, Unknown

Place = tuple[str, ...]                         # the names of public modules
Key = tuple[str, tuple[str, ...], str]          # of an item: its crate, its module and its name
Public = dict[Key, Place]

ROOT = 'num_integer'                            # its root becomes that of the Rust crate
# The crates of the Rust crate: how the root declares the module of each, or nothing for the one
# whose modules stand there.
CRATES = {'integer_core': 'mod', 'integer_roots': 'mod', 'num_integer': '', 'modular': 'pub mod',
          'ratio64': 'pub mod', 'calendar': 'pub mod', 'bounded_integers': 'pub mod',
          'applied': 'pub mod'}
# The crate whose modules stood at the root until a version, and are there too, deprecated.
MOVED, SINCE = 'applied', '0.5.0'
# The names of modules of which one at the root has all items in the Rust crate. There every public
# module of the name is that one, so that two glob imports give one module.
JOINED = ('checked', 'counted')
PART = '{}_calls'    # the private module of what another crate adds to it
# The public modules that are private in the Rust crate: others export what they have, or no caller
# there needs it.
WITHIN = {('integer_core', 'counted'), ('integer_core', 'guards'), ('integer_core', 'padded'),
          ('integer_core', 'fitting'), ('integer_roots', 'counted'),
          ('num_integer', 'sign_magnitude'), ('modular', 'guards'),
          ('modular', 'several_congruences'), ('applied', 'guards')}
# The public items that are private in the Rust crate, for the same reason.
HIDDEN = {('integer_core', 'Magnitudes')}
NOT_READ = {'tests', 'assertions'}               # modules that only tests have
OUTSIDE = {'std', 'core', 'num_traits', 'crate', 'self', 'super'}


@dataclass
class Module:
    """A file, whose path has the names of its modules below the root of its crate."""
    crate: str
    path: tuple[str, ...]
    source: Source
    items: list[Item] = field(default_factory=list)

    @functools.cached_property
    def imported(self) -> dict[str, tuple[str, ...]]:
        """The path of each name that the file imports."""
        return {name: path for item in self.items if item.kind == 'use'
                for path, name in self.source.imports(item)}

    @property
    def is_part(self) -> bool:
        """Whether the Rust crate has its items in the module of its name at the root."""
        return (self.path[-1:] != () and self.path[-1] in JOINED and self.crate != ROOT
                and (self.crate, '/'.join(self.path)) not in WITHIN)

    def stands_at_root(self, path: Place) -> bool:
        """Whether a path of an import leads to what the module at the root has itself."""
        return self.is_part and path[:2] == (ROOT, self.path[-1])

    def rust_file(self) -> str:
        """Its file below src/ of the Rust crate."""
        names = self.path if self.crate == ROOT else (self.crate,) + self.path
        if self.is_part:
            names = (*names[:-1], PART.format(names[-1]))
        return '/'.join(names) + '.rs' if names else 'lib.rs'


class Library:
    """All modules of some crates, by crate and path, in the order in which a reader meets them."""
    SUFFIX = '.rt'
    LEFT_OUT = {('cfg', 'test'), ('cfg', 'doc')}    # the attributes of modules that are not read

    def __init__(self, folder: Path, crates: Iterable[str]) -> None:
        self.folder, self.crates = folder, set(crates)
        # of the public items that are exported under another name
        self.names: dict[Key, str] = {}
        # the further places of public items, each with its name
        self.others: list[tuple[Place, Key]] = []
        self.modules: dict[tuple[str, tuple[str, ...]], Module] = {}
        for crate in crates:
            roots = [(folder / crate / 'src' / name).with_suffix(self.SUFFIX)
                     for name in ('lib', 'main')]
            self.read(crate, (), next((root for root in roots if root.is_file()), roots[0]))

    def read(self, crate: str, path: tuple[str, ...], file: Path) -> None:
        """Reads a file, and those of its modules."""
        source = Source(file.relative_to(self.folder.parent), file.read_text())
        module = self.modules[crate, path] = Module(crate, path, source, source.items())
        for item in self.below(module):
            if item.open:
                source.refuse(item.word, f'the module `{item.name}` within a file')
            below = (self.folder / crate / 'src').joinpath(*path,
                                                           item.name).with_suffix(self.SUFFIX)
            if not below.is_file():
                source.refuse(item.word, f'the module `{item.name}`, which has no file')
            self.read(crate, path + (item.name,), below)

    def below(self, module: Module) -> list[Item]:
        """The modules in a module that code can name outside tests."""
        at = module.source.at
        return [item for item in module.items if item.kind == 'mod' and item.name not in NOT_READ
                and not any((at(first + 2), at(first + 4)) in self.LEFT_OUT
                            for first, _ in item.attributes)]

    def published(self, crate: str) -> Public:
        """The place of each public item in a crate, as a caller in Rattle finds it."""
        return self.publish({}, self.modules[crate, ()], ())

    def knows(self, module: Module, path: Sequence[str]) -> bool:
        """Whether the first word of a path is known."""
        names = {item.name for item in module.items if item.kind in ('mod', 'enum', 'struct')}
        return path[0] in OUTSIDE or path[0] in self.crates or path[0] in names

    def find(self, module: Module, path: Sequence[str]) -> tuple[Module, str | None] | None:
        """The module and the name to which a path leads; the module and None where it leads to a
        module; or None."""
        crate, at, names = module.crate, module.path, list(path)
        if names[0] in self.crates:
            crate, at = names.pop(0), ()
        elif names[0] in ('crate', 'self', 'super'):
            at = {'crate': (), 'self': at, 'super': at[:-1]}[names.pop(0)]
        while names and (crate, at + (names[0],)) in self.modules:
            at += (names.pop(0),)
        here = self.modules[crate, at]
        if not names:
            return here, None
        # a module that is exported there
        if len(names) > 1 and here.imported.get(names[0], path) != path:
            return self.find(here, [*here.imported[names[0]], *names[1:]])
        return self.find_name(here, names[0]) if len(names) == 1 else None

    def find_name(self, module: Module, name: str) -> tuple[Module, str | None] | None:
        """The module that has an item that this one has or exports, and the item's name there; or
        None."""
        if module.imported.get(name, (name,)) != (name,):
            return self.find(module, module.imported[name])
        named = (item for item in module.items if item.name == name
                 and item.kind not in ('impl', 'ghost', 'use', 'attribute'))
        return (module, name) if next(named, None) else None

    def named(self, module: Module, path: Sequence[str]) -> tuple[Module, str | None] | None:
        """As `find`, for a path in the code of a module, which begins with a name that the module
        has or imports."""
        return self.find(module, [*module.imported.get(path[0], path[:1]), *path[1:]])

    def publish(self, public: Public, module: Module, place: Place) -> Public:
        """Notes the public items of a module that stands at this place: its own first, then those
        of the modules in it."""
        for item in module.items:
            exports = module.source.imports(item) if item.public and item.kind == 'use' else []
            for path, name in (pair for pair in exports
                               if pair[0][0] not in OUTSIDE - {'crate', 'self', 'super'}):
                found = self.find(module, path)
                if not found:
                    raise Unknown(f'{module.source.path}: the export of `{"::".join(path)}`')
                target, target_name = found
                if target_name is not None:
                    if self.shows(target, target_name):
                        self.note(public, (target.crate, target.path, target_name), place, name)
                elif self.is_open(target):
                    self.export(public, target, place + (name,))
            if item.public and item.kind not in ('use', 'mod'):
                public.setdefault((module.crate, module.path, item.name), place)
        for item in self.below(module):
            below = self.modules[module.crate, module.path + (item.name,)]
            if item.public and self.is_open(below):
                self.publish(public, below, place + (item.name,))
        return public

    def export(self, public: Public, module: Module, place: Place) -> None:
        """Notes the public items of a module that is exported to this place."""
        self.publish(public, module, place)

    def note(self, public: Public, key: Key, place: Place, name: str) -> None:
        """Notes an export of an item under a name."""
        if key not in public:
            public[key] = place
            if name != key[2]:
                self.names[key] = name
        elif (public[key], self.names.get(key, key[2])) != (place, name):
            self.others.append(((*place, name), key))

    def is_open(self, module: Module) -> bool:
        """Whether a module may be public."""
        return True

    def shows(self, module: Module, name: str) -> bool:
        """Whether an item of a module may be exported."""
        return True


class Made(Library):
    """The crate that is made, whose sources are below a folder, with the public place of each
    item."""
    SUFFIX = '.rs'

    def __init__(self, folder: Path) -> None:
        super().__init__(folder.parent, [folder.name])
        # the further places of modules of the root
        self.places: list[tuple[Place, Place]] = []
        self.name, root = folder.name, self.modules[folder.name, ()]
        below = [item.name for item in self.below(root) if item.public]
        self.late = {name for item in self.below(root) for first, _ in item.attributes
                     for name in [item.name] if root.source.at(first + 2) == 'deprecated'}
        self.public = self.published(self.name)
        self.late, late = set(), [name for name in below if name in self.late]
        for name in late:
            self.publish(self.public, self.modules[self.name, (name,)], (name,))
        self.types = {name for _, _, name in self.public}

    def is_open(self, module: Module) -> bool:
        return not (module.path and module.path[0] in self.late)

    def export(self, public: Public, module: Module, place: Place) -> None:
        if len(module.path) == 1:               # its items are noted at the root
            self.places.append((place, module.path))
        else:
            super().export(public, module, place)

    def note(self, public: Public, key: Key, place: Place, name: str) -> None:
        """Notes an export. The shortest place of an item counts, but for those in modules that are
        deprecated."""
        if len(place) < len(public.get(key, ())) and self.late:
            self.others.append(((*public.pop(key), self.names.pop(key, key[2])), key))
        super().note(public, key, place, name)

    def write(self) -> None:
        """Writes the sources again, with what has changed in their texts."""
        for module in self.modules.values():
            (self.folder.parent / module.source.path).write_text(''.join(module.source.texts))


class RustLibrary(Library):
    """The crates that become one crate of Rust, with the public place of each item in it."""

    def __init__(self, folder: Path) -> None:
        super().__init__(folder, CRATES)
        self.public = self.publish({}, self.modules[ROOT, ()], ())
        for crate, kind in CRATES.items():
            if crate != ROOT and kind != 'mod':
                self.publish(self.public, self.modules[crate, ()], (crate,))

    def is_open(self, module: Module) -> bool:
        return (module.crate, '/'.join(module.path)) not in WITHIN

    def shows(self, module: Module, name: str) -> bool:
        return (module.crate, name) not in HIDDEN

    def place_of(self, module: Module, item: Item, owner: Item | None = None) -> Place | None:
        """The public place of an item, of a member of the trait or the type `owner`, or None."""
        if owner is None or owner.kind == 'trait':
            top = owner or item
            return self.public.get((module.crate, module.path, top.name)) if top.public else None
        if owner.of_trait or not item.public:
            return None
        return self.place_of_type(module, owner.name)

    def moved(self) -> dict[str, list[str]]:
        """The public modules of the crate that has moved, each with the names that it gives out."""
        below = [(item.name, self.modules[MOVED, (item.name,)])
                 for item in self.below(self.modules[MOVED, ()])]
        return {name: sorted({key[2] for key, place in self.public.items()
                              if place == (MOVED, name)}
                             | {inner.name for inner in self.below(module) if inner.public})
                for name, module in below if self.is_open(module)}

    def joined(self, module: str) -> dict[Place, list[str]]:
        """The modules of this name below other modules, each with its public items."""
        found: dict[Place, list[str]] = {}
        for (_, _, name), place in sorted(self.public.items(), key=lambda row: row[1]):
            if place[1:] and place[-1] == module:
                found.setdefault(place, []).append(name)
        return found

    def place_of_type(self, module: Module, name: str) -> Place | None:
        """The public place of a type that the module's crate has."""
        return next((place for (crate, _, found), place in self.public.items()
                     if crate == module.crate and found == name), None)
