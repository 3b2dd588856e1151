"""Deletes from a file of Rattle what its contracts are: `ghost` items, members and fields,
clauses, `final`, tests, and the traits that are of contracts alone. A form that is not known is
rejected by file and line."""
from collections.abc import Iterable

from tools.erase.source import Item, Source

# traits of contracts alone: no operation of their own
GHOST_TRAITS = {'Integral', 'FixedWidth', 'Model'}
# imports and implementations of these go; `Number` also names types
GHOST_NAMES = GHOST_TRAITS | {'Number'}


class Deletion:
    """A file whose contracts go. What else changes, a class below it says."""
    dropped = {'tactic', 'cycle'}               # attributes of proofs

    def __init__(self, source: Source) -> None:
        self.source, self.texts = source, source.texts
        self.kind, self.at, self.refuse = source.kind, source.at, source.refuse
        self.drop, self.drop_from_list, self.put_before = (source.drop, source.drop_from_list,
                                                           source.put_before)
        self.fn_clauses = set[int]()

    def write(self, k: int, text: str) -> None:
        self.texts[self.source.code[k]] = text

    def drop_item(self, first: int, last: int) -> None:
        """Drops an item, and the lines of comments right above it."""
        self.drop(first, last)
        tokens, i = self.source.tokens, self.source.code[first] - 1
        while (i > 1 and tokens[i].text.count('\n') == 1 and tokens[i - 1].kind == 'line'
               and '\n' in tokens[i - 2].text):
            self.texts[i] = self.texts[i - 1] = ''
            i -= 2

    def drop_line(self, first: int, last: int) -> None:
        """Drops what has a line of its own, with the end of the line."""
        self.drop(first, last)
        after = self.source.code[last] + 1
        self.texts[after] = self.texts[after].replace('\n', '', 1)

    def items(self, items: Iterable[Item], owner: Item | None = None) -> None:
        for item in items:
            self.item(item, owner)

    def goes(self, item: Item) -> bool:
        """Whether an item is there for contracts or tests alone."""
        is_test = any(self.at(first + 2) == 'cfg' and self.at(first + 4) == 'test'
                      for first, _ in item.attributes)
        return item.kind == 'ghost' or item.of_trait in GHOST_NAMES or is_test

    def item(self, item: Item, owner: Item | None) -> None:
        if self.goes(item):
            return self.drop_item(item.first, item.last)
        if item.kind in ('macro', 'macro_rules', 'extern'):
            self.refuse(item.word, f'an item `{item.kind}`')
        if item.kind == 'attribute':
            if item.name not in self.dropped:
                self.refuse(item.first, f'the attribute `{item.name}`')
            return self.drop_line(item.first, item.last)
        for first, last in item.attributes:
            self.attribute(first, last)
        for k in range(item.first, item.word):
            if self.at(k) == 'final':
                self.drop(k, k)
        self.dress(item, owner)
        if item.kind == 'use':
            return self.use(item)
        for field in item.fields:
            if field.ghost:
                self.drop_item(field.first, field.last + (self.at(field.last + 1) == ','))
        if item.kind == 'fn':
            self.fn_clauses |= {clause.first for clause in item.clauses}
            if owner and owner.of_trait == 'Clone':
                self.clone(item)
        if item.kind in ('trait', 'impl', 'mod') and item.open:
            self.walk(item.word, item.open)
            return self.items(item.items, item)
        return self.walk(item.word, item.last)

    def dress(self, item: Item, owner: Item | None) -> None:
        """What an item that stays gets."""

    def clone(self, item: Item) -> None:
        """Writes the method of `Clone`, which returns `Ok(*self)` in Rattle, as Rust has it."""
        result, ok = (next((k for k in range(item.word, item.last) if self.at(k) == word),
                           item.last) for word in ('Result', 'Ok'))
        if [self.at(k) for k in range(ok, item.last)] != ['Ok', '(', '*', 'self', ')']:
            self.refuse(item.word, 'a `clone` that is not `Ok(*self)`')
        self.drop(result + 1, ok - 2)
        self.write(result, 'Self')
        for k in (ok, ok + 1, ok + 4):
            self.drop(k, k)

    def attribute(self, first: int, last: int) -> None:
        """Drops an attribute of proofs, and of a list of traits the one that only Rattle
        derives."""
        derived = [k for k in range(first + 4, last) if self.at(first + 2) == 'derive'
                   and self.kind(k) == 'word']
        if self.at(first + 2) in self.dropped or [self.at(k) for k in derived] == ['Drop']:
            self.drop_line(first, last)
        for k in derived:
            if self.at(k) == 'Drop':
                self.drop_from_list(k)

    def use(self, item: Item) -> None:
        """A use."""

    def walk(self, k: int, last: int) -> None:
        while k <= last:
            k = self.step(k)

    def step(self, k: int) -> int:
        """Erases what begins at `k`, and returns the place to go on from."""
        word, source = self.at(k), self.source
        if not self.texts[source.code[k]]:
            return k + 1
        if word == '#' and self.at(k + 1) == '[':
            last = source.close(k + 1)
            self.attribute(k, last)
            return last + 1
        if word in ('requires', 'ensures') or k in self.fn_clauses:
            clause = source.clause(k)
            return self.drop(clause.first, clause.last)
        if word == 'use':
            item = source.item(k)
            self.use(item)
            return item.last + 1
        self.word(k)
        return k + 1

    def word(self, k: int) -> None:
        """A token of code: the head of `fmt`, whose writer Rust's `Formatter` does not name, or a
        trait that is of contracts alone."""
        if self.at(k - 1) == 'fn' and self.at(k + 1) == '<':
            opening = self.source.angle(k + 1)
            taken = {self.at(j) for j in range(opening, self.source.close(opening))}
            bound = ''.join(self.at(j) for j in range(k + 3, opening - 1))
            if 'Formatter' in taken and bound == ':fmt::Write':
                self.drop(k + 1, opening - 1)
        elif self.at(k) == 'Formatter' and self.at(k + 1) == '<':
            self.write(k + 2, "'_")
        elif self.at(k) in GHOST_TRAITS:
            self.drop_from_list(k)
