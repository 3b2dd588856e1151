"""Reads the sources of Rattle, `.rt`, by tokens: comments, texts, brackets, items, and the clauses
that items have.

It reads Rust too, of which Rattle is a subset with contracts. A form that it does not know it
rejects by file and line."""
import re
from collections.abc import Container, Iterator
from dataclasses import dataclass, field
from pathlib import Path
from typing import NoReturn

COMMENTS = {'space', 'line', 'block'}           # tokens that are no code
CLAUSES = ('ghost', 'requires', 'ensures')      # the words with which a clause of a function begins
MODIFIERS = ('final', 'const')                  # words before `fn`

LEXER = re.compile(r'''(?P<space>\s+) | (?P<line>//[^\n]*) | (?P<block>/\*)
    | (?P<raw>[bc]?r(?P<hashes>\#*)".*?"(?P=hashes)) | (?P<text>[bc]?"(?:[^"\\]|\\.)*")
    | (?P<char>b?'(?:[^'\\]|\\(?:x..|u\{[^}]*\}|.))') | (?P<label>'\w+)
     | (?P<word>\w+) | (?P<sign>.)''', re.X | re.S)


class Unknown(Exception):
    """A form that is not known, with its file and line."""


@dataclass
class Token:
    kind: str
    text: str
    line: int


@dataclass
class Clause:
    """A clause of a function, or a ghost member or field, which says what is proved of a type."""
    word: str
    name: str
    first: int
    last: int


@dataclass
class Field:
    """A field of a struct, or a ghost field, which is a clause too. `place` is that of its name."""
    name: str
    place: int
    first: int
    last: int
    public: bool
    ghost: bool
    type: str


@dataclass
class Item:
    """An item from its first attribute to its last place. `word` is the place of its keyword, and
    `open` that of the brace of its body, or None."""
    kind: str
    name: str
    first: int
    word: int
    last: int
    public: bool = False
    open: int | None = None
    of_trait: str = ''
    attributes: list[tuple[int, int]] = field(default_factory=list)
    clauses: list[Clause] = field(default_factory=list)
    items: list['Item'] = field(default_factory=list)
    fields: list[Field] = field(default_factory=list)

    def all(self) -> Iterator['Item']:
        """The item, and those in it."""
        yield self
        for item in self.items:
            yield from item.all()


class Source:
    """A file. A place is the number of a token that is no comment; `texts` are what a writer may
    change."""

    def __init__(self, path: str | Path, text: str) -> None:
        self.path, self.tokens = Path(path), list(self.scan(path, text))
        self.code = [i for i, token in enumerate(self.tokens) if token.kind not in COMMENTS]
        self.texts = [token.text for token in self.tokens]

    def scan(self, path: str | Path, text: str) -> Iterator[Token]:
        at, line = 0, 1
        while at < len(text):
            match = LEXER.match(text, at)
            assert match and match.lastgroup, at
            kind, end, depth = match.lastgroup, match.end(), 1
            while kind == 'block' and depth:
                mark = re.compile(r'/\*|\*/').search(text, end)
                if not mark:
                    raise Unknown(f'{path}:{line}: a comment without an end')
                depth, end = depth + (1 if mark.group() == '/*' else -1), mark.end()
            if match.group() == '"':
                raise Unknown(f'{path}:{line}: a text without an end')
            yield Token('text' if kind in ('raw', 'hashes') else kind, text[at:end], line)
            line += text.count('\n', at, end)
            at = end

    def kind(self, k: int) -> str:
        return self.tokens[self.code[k]].kind if 0 <= k < len(self.code) else ''

    def at(self, k: int) -> str:
        return self.tokens[self.code[k]].text if 0 <= k < len(self.code) else ''

    def line(self, k: int) -> int:
        return self.tokens[self.code[min(k, len(self.code) - 1)]].line if self.code else 1

    def refuse(self, k: int, met: str) -> NoReturn:
        raise Unknown(f'{self.path}:{self.line(k)}: {met}')

    def is_sign(self, k: int, signs: str) -> bool:
        return self.kind(k) == 'sign' and self.at(k) in signs

    def close(self, k: int) -> int:
        """The place of the bracket that closes the one at `k`."""
        opened, depth = k, 0
        while k < len(self.code):
            depth += self.is_sign(k, '([{') - self.is_sign(k, ')]}')
            if depth == 0:
                return k
            k += 1
        return self.refuse(opened, f'`{self.at(opened)}` without its end')

    def end(self, k: int, signs: str, words: Container[str] = ()) -> int:
        """The place of the first of these signs or words from `k` on, outside brackets; the end of
        the block at most."""
        while k < len(self.code) and not self.is_sign(k, signs) and self.at(k) not in words:
            if self.is_sign(k, ')]}'):
                return k - 1
            k = 1 + (self.close(k) if self.is_sign(k, '([{') else k)
        return (k if k < len(self.code)
                else self.refuse(len(self.code) - 1, 'the end of the file within an item'))

    def angle(self, k: int) -> int:
        """The place after the generics that begin at `k`, or `k` where there are none."""
        depth = 0
        while self.is_sign(k, '<') or depth:
            depth += self.is_sign(k, '<') - (self.is_sign(k, '>') and self.at(k - 1) != '-')
            k += 1
            if depth == 0:
                return k
        return k

    def path_at(self, k: int) -> list[str]:
        """The words of the path that begins at `k`."""
        words = [self.at(k)]
        while self.at(k + 1) + self.at(k + 2) == '::' and self.kind(k + 3) == 'word':
            k += 3
            words.append(self.at(k))
        return words

    def text(self, first: int, last: int) -> str:
        """The text from a place to another, as it stands."""
        return ''.join(token.text for token in self.tokens[self.code[first]:self.code[last] + 1])

    def drop(self, first: int, last: int) -> int:
        """Drops what stands from a place to another, and returns the place after it."""
        for i in range(self.code[first], self.code[last] + 1):
            self.texts[i] = ''
        return last + 1

    def drop_from_list(self, k: int) -> int:
        """Drops a name of a list, as of a `use` or of bounds, with a sign beside it."""
        before = self.at(k - 1) == '+' or self.at(k - 1) == ',' and self.at(k + 1) not in ('+', ',')
        return self.drop(k - before, k + (not before and self.at(k + 1) in ('+', ',')))

    def put_before(self, k: int, text: str) -> None:
        """Writes a text before what is left from the place on."""
        first = next(i for i in self.code[k:] if self.texts[i])
        self.texts[first] = text + self.texts[first]

    def docs(self, item: Item | Field) -> list[int]:
        """The numbers of the tokens of the doc comment of an item or a field."""
        start = self.code[item.first - 1] + 1 if item.first else 0
        stop = self.code[getattr(item, 'word', item.first)]
        return [i for i in range(start, stop) if self.tokens[i].kind == 'line'
                and re.match(r'///(?!/)', self.tokens[i].text)]

    def doc(self, item: Item | Field) -> list[str]:
        """The lines of the doc comment of an item or a field."""
        return [self.tokens[i].text[3:].removeprefix(' ') for i in self.docs(item)]

    def head(self) -> list[str]:
        """The lines of the comment at the head of the file."""
        return [token.text[3:].removeprefix(' ') for token in self.tokens if token.kind == 'line'
                and token.text.startswith('//!')]

    def parameters(self, item: Item) -> tuple[int, int]:
        """The places of the brackets around the parameters of a function."""
        opening = self.angle(item.word + 2)
        return opening, self.close(opening)

    def returned(self, item: Item) -> str:
        """The type that a function returns, or an empty text."""
        first = self.parameters(item)[1] + 1
        if self.at(first) + self.at(first + 1) != '->':
            return ''
        return self.text(first + 2, self.end(first + 2, ';{', CLAUSES + ('where',)) - 1).strip()

    def imports(self, item: Item) -> list[tuple[tuple[str, ...], str]]:
        """The paths that a `use` imports, each with the name that it gives."""
        text = ''.join(f' {self.at(k)} ' if self.at(k) == 'as' else self.at(k)
                       for k in range(item.word + 1, item.last))
        while '{' in text:                      # `a::{b, c}` is `a::b, a::c`
            text = re.sub('([^{},]*){([^{}]*)}',
                          lambda found: ','.join(found[1] + end for end in found[2].split(',')
                                                 if end), text)
        other = re.search(r'[^\w:, ]', text)
        if other:
            self.refuse(item.word, f'`{other[0]}` in a `use`')
        pairs = (path.partition(' as ')[::2] for path in text.split(',') if path)
        paths = [(tuple(path.removesuffix('::self').split('::')), name) for path, name in pairs]
        return [(path, name or path[-1]) for path, name in paths]

    def items(self, k: int = 0, last: int | None = None) -> list[Item]:
        """The items from `k` on, to the place `last`."""
        found, last = [], len(self.code) if last is None else last
        while k < last:
            found.append(self.item(k))
            k = found[-1].last + 1
        return found

    def before(self, k: int) -> tuple[list[tuple[int, int]], bool, int]:
        """The attributes of an item or a field, whether it is public, and the place after that."""
        attributes = list[tuple[int, int]]()
        while self.at(k) == '#':
            attributes.append((k, self.close(k + 1)))
            k = attributes[-1][1] + 1
        within = self.at(k) == 'pub' and self.at(k + 1) == '('
        public = self.at(k) == 'pub' and not within
        return attributes, public, self.close(k + 1) + 1 if within else k + public

    def item(self, k: int) -> Item:
        if self.at(k) == '#' and self.at(k + 1) == '!':
            return Item('attribute', self.at(k + 3), k, k, self.close(k + 2))
        first, (attributes, public, k) = k, self.before(k)
        while self.at(k) in MODIFIERS and (self.at(k + 1) in MODIFIERS or self.at(k + 1) == 'fn'):
            k += 1
        if self.at(k) == 'extern' and self.kind(k + 1) == 'text' and self.at(k + 2) == 'fn':
            k += 2
        item = Item(self.at(k), self.at(k + 1), first, k, k, public, attributes=attributes)
        if self.at(k + 1) == '!':
            return self.macro(item)
        reader = getattr(self, 'read_' + item.kind, None) if self.kind(k) == 'word' else None
        if not reader:
            self.refuse(k, f'an item that begins with `{item.kind}`')
        reader(item)
        return item

    def macro(self, item: Item) -> Item:
        """A call of a macro, or `macro_rules`."""
        if item.kind != 'macro_rules':
            item.kind, item.name = 'macro', item.kind
        item.last = self.close(self.end(item.word, '([{'))
        if self.at(item.last + 1) == ';':
            item.last += 1
        return item

    def read_line(self, item: Item) -> None:
        item.last = self.end(item.word, ';')

    read_use = read_type = read_const = read_static = read_extern = read_ghost = read_line

    def read_mod(self, item: Item) -> None:
        item.last = self.end(item.word, ';{')
        if self.at(item.last) == '{':
            self.read_block(item, item.last)

    read_trait = read_mod

    def read_block(self, item: Item, brace: int) -> None:
        item.open, item.last = brace, self.close(brace)
        item.items = self.items(brace + 1, item.last)
        # a ghost member is a clause without its proof
        item.clauses = [Clause('ghost', inner.name, inner.word,
                               self.close(self.end(inner.word, '{'))) for inner in item.items
                        if inner.kind == 'ghost' and inner.name != 'use']

    def read_impl(self, item: Item) -> None:
        brace = self.end(item.word, '{')
        names, k = list[str](), self.angle(item.word + 1)
        while k < brace and self.at(k) != 'where':
            names += [self.at(k)] * (self.kind(k) == 'word')
            k = max(k + 1, self.angle(k))
        if 'for' in names:
            item.of_trait, names = names[names.index('for') - 1], names[names.index('for') + 1:]
        item.name = names[-1] if names else ''
        self.read_block(item, brace)

    def read_fn(self, item: Item) -> None:
        k = self.end(item.word, ';{', CLAUSES)
        while self.at(k) in CLAUSES:
            item.clauses.append(self.clause(k))
            k = item.clauses[-1].last + 1
        if self.at(k) == '{':
            item.open, k = k, self.close(k)
        elif self.at(k) != ';':
            self.refuse(k, f'`{self.at(k)}` after the clauses of `{item.name}`')
        item.last = k

    def clause(self, k: int) -> Clause:
        """The clause of a function or a closure that begins at `k`."""
        brace = k + 1 + (self.kind(k + 1) == 'word')
        if self.at(k) == 'ghost':
            brace += self.at(brace) == ':'
        if self.at(brace) != '{':
            self.refuse(k, f'`{self.at(k)}` that is no clause')
        return Clause(self.at(k), self.at(k + 1) if brace > k + 1 else '', k, self.close(brace))

    def read_struct(self, item: Item) -> None:
        brace = self.end(item.word, ';{')
        item.last = self.close(brace) if self.at(brace) == '{' else brace
        if self.at(brace) == '{':
            item.open, item.fields = brace, self.fields(brace + 1, item.last)
            item.clauses = [Clause('ghost', field.name, field.first,
                                   self.close(self.end(field.first, '{'))) for field in item.fields
                            if field.ghost]

    def read_enum(self, item: Item) -> None:
        item.open = self.end(item.word, '{')
        item.last = self.close(item.open)

    def fields(self, k: int, last: int) -> list[Field]:
        found = []
        while k < last:
            first, (_, public, k) = k, self.before(k)
            ghost = self.at(k) == 'ghost'
            name = k + ghost
            if self.kind(name) != 'word' or self.at(name + 1) != ':':
                self.refuse(name, f'a field that begins with `{self.at(name)}`')
            stop = self.next_field(name, last)
            kind = ''.join(self.at(i) for i in range(name + 2, stop))
            found.append(Field(self.at(name), name, first, stop - 1, public, ghost, kind))
            k = stop + 1
        return found

    def next_field(self, k: int, last: int) -> int:
        """The place of the comma after a field, or `last`."""
        while k < last and not self.is_sign(k, ','):
            k = self.close(k) + 1 if self.is_sign(k, '([{') else max(k + 1, self.angle(k))
        return min(k, last)
