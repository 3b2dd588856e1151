"""`#[track_caller]` of the functions of the Rust crate on the way to a panic, so that it names the
place of the call from outside.

The functions by hand that panic have it, and a generic division panics too. A function that
reaches one of these by calls gets it if its comment has the section `# Panics`, and if no other
crate can call it and it stands between such a function and the panic. A function is found by its
path, through imports, and a method by its name alone."""
import collections
from dataclasses import dataclass
from pathlib import Path

from tools.erase.library import Made, Module
from tools.erase.source import Item

# the path of a function, or the name of a method alone
Name = tuple[str, ...]
ATTRIBUTE = 'track_caller'


@dataclass
class Function:
    """A function of the crate, with the trait, the type or the implementation that has it."""
    module: Module
    item: Item
    owner: Item | None

    @property
    def name(self) -> Name:
        return (self.item.name,) if self.owner else (*self.module.path, '', self.item.name)

    def has(self) -> bool:
        """Whether it has the attribute."""
        return any(self.module.source.at(first + 2) == ATTRIBUTE
                   for first, _ in self.item.attributes)

    def divides(self) -> bool:
        """Whether it divides numbers of a type that it is generic over. Division panics."""
        source, item = self.module.source, self.item
        return (item.open is not None and source.at(item.word + 2) == '<'
                and any(source.is_sign(k, '/%') and source.at(k + 1) != '='
                        for k in range(item.open, item.last)))

    def says_so(self) -> bool:
        """Whether its comment says when it panics."""
        return '# Panics' in self.module.source.doc(self.item)


class Callers(Made):
    """The made crate, with what its functions call."""

    def __init__(self, folder: Path) -> None:
        super().__init__(folder)
        owners = [(module, owner) for module in self.modules.values()
                  for owner in (None, *module.items) if owner is None
                  or owner.kind in ('trait', 'impl')]
        self.functions = [Function(module, item, owner) for module, owner in owners
                          for item in (owner or module).items if item.kind == 'fn']
        self.called = collections.defaultdict[Name, set[Name]](set)
        for function in self.functions:
            self.called[function.name] |= self.calls(function)
        self.traits = {item.name for module in self.modules.values() for item in module.items
                       if item.kind == 'trait'}

    def calls(self, function: Function) -> set[Name]:
        """The functions and methods that a function names."""
        module, item, found = function.module, function.item, set[Name]()
        source = module.source
        for k in range(item.open or item.last, item.last):
            if source.kind(k) != 'word' or source.at(k - 1) == ':' and source.at(k - 2) == ':':
                continue
            path = source.path_at(k)
            target = None if source.at(k - 1) == '.' else self.named(module, path)
            if target is not None:
                found.add((*target[0].path, '', target[1] or ''))
            elif len(path) > 1 or source.at(k - 1) == '.':
                found.add((path[-1],))
        return found

    def reaching(self) -> set[Name]:
        """The functions that reach a panic."""
        found = {function.name for function in self.functions if function.has()
                 or function.divides()}
        while more := {function.name for function in self.functions if function.name not in found
                       and self.called[function.name] & found}:
            found |= more
        return found

    def on_the_way(self) -> set[Name]:
        """The functions between the calls whose comments say that they panic and the panics."""
        reaching, closed = (self.reaching(),
                            {function.name for function in self.functions
                             if self.is_closed(function)})
        found = {function.name for function in self.functions if function.says_so()} & reaching
        while (more := {name for known in found for name in self.called[known] & reaching & closed}
               - found):
            found |= more
        return found

    def is_closed(self, function: Function) -> bool:
        """Whether no other crate can call a function."""
        module, owner, item = function.module, function.owner, function.item
        if owner is None or owner.kind == 'trait':
            return (self.name, module.path, (owner or item).name) not in self.public
        return not owner.of_trait and not (item.public and owner.name in self.types)

    def put(self) -> None:
        """Writes the attribute at each function that is to have it. An implementation has it of
        its trait, if that is of the crate."""
        names = self.on_the_way()
        for function in self.functions:
            of_own = function.owner is not None and function.owner.of_trait in self.traits
            if function.name in names and not function.has() and not of_own and (
                    self.is_closed(function) or function.says_so()):
                function.module.source.put_before(function.item.first, f'#[{ATTRIBUTE}]\n')
        self.write()
