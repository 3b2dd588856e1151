"""The pages of the reference: that of a crate as a release has it, and as the repository does."""
import itertools
import posixpath
import re
import textwrap
from collections.abc import Mapping

from tools import ROOT
from tools.erase.documentation import ON_PAGE, clauses_of, of_rattle, says_more
from tools.erase.library import CRATES as OF_RUST, Library, Module, Place
from tools.erase.prose import Anchors, wrapped
from tools.erase.source import Item, Source
from tools.erase.words import Definition

PAGES, OF_LIBRARIES = 'docs/reference', 'rust/reference'
THEOREMS = 'theorems'
# Nobody imports these: their public items are those of their files.
BY_FILE = {'cellarcove_c', THEOREMS, 'callers', 'intcalc'}
PROGRAM = 'intcalc'                             # it has no public item, but functions with clauses
FIRST = (('headline',), ('laws',))              # the files of `theorems` with which its page begins
IN_RANGE = (
    'Each argument and each result is a number of its type. The clauses that say only that,',
    'such as `requires in_range { T.fits (T.value a) }`, are left out.')
SENTENCES = ('The main theorems are also [sentences of mathematics](mathematics.md).',)
SHOWN = ('fn', 'struct', 'enum', 'trait', 'const', 'type')

Shown = list[tuple[Module, Item]]
Key = tuple[str, str, str]                      # of a definition


class Page:
    """The page of a crate as it grows: its public items by the module from which a caller imports
    them, and more. Headings get the anchors that the browser of the repository gives them. A line
    of links to words is made when the anchors of all words are known."""
    whole = True

    def __init__(self, library: Library, name: str) -> None:
        self.name, self.library = name, library
        self.modules = [module for module in library.modules.values() if module.crate == name]
        self.public = {} if name in BY_FILE else library.published(name)
        self.lines: list[str | list[Definition]] = [f'# `{name}`', '']
        self.anchors = Anchors()

    def begin(self) -> None:
        """Adds what stands before the items."""
        self.add(*self.modules[0].source.head(), '')
        self.add(*(SENTENCES if self.name == THEOREMS else IN_RANGE), '')
        if self.name in ON_PAGE:
            upper = ON_PAGE[self.name]
            self.add(f'Its public items are those of [`{upper}`]({upper}.md). This page has its',
                     f'definitions and lemmas. A crate over `{upper}` imports the definitions from',
                     f'`Rattle.{upper}.specs`.', '')

    def place(self, module: Module, item: Item) -> Place | None:
        """The place of the public module from which a caller imports an item, or the type of an
        implementation, or None."""
        if item.kind == 'impl':
            types = ((other, of) for other in self.library.modules.values()
                     if other.crate == module.crate for of in other.items
                     if of.name == item.name and of.kind in ('struct', 'enum', 'trait'))
            return next(itertools.starmap(self.place, types), None)
        public = item.clauses if self.name == PROGRAM else item.public
        if not public or item.kind not in SHOWN:
            return None
        if self.name in BY_FILE:
            return module.path if module.crate == self.name else None
        return self.public.get((module.crate, module.path, item.name))

    def sections(self) -> list[tuple[Place, Shown]]:
        """Each place with its items, each item with its module; the root first, or the files of
        FIRST."""
        places: dict[Place, Shown] = {}
        for module in self.library.modules.values() if self.name not in ON_PAGE else ():
            for item in module.items:
                place = self.place(module, item)
                if place is not None:
                    places.setdefault(place, []).append((module, item))

        def rank(place: tuple[Place, Shown]) -> tuple[int, Place]:
            return FIRST.index(place[0]) if place[0] in FIRST else len(FIRST), place[0]
        return sorted(places.items(), key=rank)

    def head(self, place: Place, shown: Shown) -> list[str]:
        """The head of the file of a place. That of the root is the head of the page."""
        files = [module for module in self.library.modules.values() if module.path == place]
        own = [module for module in files if module.crate == self.name]
        own = own or [module for module, _ in shown if module.path == place]
        return own[0].source.head() if own and place else []

    def section(self, place: Place, shown: Shown) -> None:
        """Adds the heading of a place, the head of its file, and how to import its items."""
        if self.name in BY_FILE:
            self.heading(2, f"`{'/'.join(place)}.rt`" if place else 'The root')
        else:
            self.heading(2, f"`{'::'.join((self.name,) + place)}`")
        self.add(*without_links(self.head(place, shown)), '')
        if self.name not in BY_FILE:
            names = sorted({item.name for _, item in shown if item.kind != 'impl'})
            listed = names[0] if len(names) == 1 else f'{{{", ".join(names)}}}'
            imports = f'use {"::".join((self.name, *place))}::{listed};'
            self.block('rust', '\n'.join(wrapped(imports, 100, '    ')))

    def item(self, _: Place, module: Module, title: str, item: Item, code: str) -> str:
        """Adds an item, and returns its anchor."""
        anchor = self.heading(3, title)
        self.add(*of_rattle(without_links(module.source.doc(item))), '')
        self.block('rust', code)
        if item.kind in ('struct', 'enum'):
            path = ('Rattle', module.crate, 'specs', 'declared', *module.path, item.name)
            declared = '.'.join(path)
            variants = f", `ghost use {declared}.TheVariants.{{..}};`" * (item.kind == 'enum')
            self.add(f'In a clause: `ghost use {declared}.{{{item.name}}};`{variants}', '')
        return anchor

    def heading(self, level: int, text: str) -> str:
        self.add('#' * level + ' ' + text, '')
        return self.anchors.of(text)

    def add(self, *lines: str) -> None:
        self.lines += lines

    def block(self, kind: str, text: str) -> None:
        self.add(f'```{kind}', *text.split('\n'), '```', '')

    def word(self, level: int, name: str, comment: str, text: str) -> str:
        """Adds a definition or a lemma, and returns its anchor."""
        anchor = self.heading(level, f'`{name}`')
        if comment:
            self.add(sentence(comment), '')
        self.block('text', text)
        return anchor

    def words(self, words: list[Definition], of_item: bool) -> None:
        """Adds the line of links to the words of an item, or of a definition."""
        if words:
            self.lines += [words, '']

    def target(self, word: Definition, anchor: str) -> str:
        """The link to the definition of a word."""
        file = '' if word.crate == self.name else f'{word.crate}.md'
        return f'[`{word.name}`]({file}#{anchor})'

    def definitions(self, file: str, head: list[str]) -> None:
        """Begins the definitions of a file of `specs/`."""
        if file == 'Laws':
            self.heading(2, f'Laws: `Rattle.{self.name}.specs.Laws`')
            self.add('Each law has a proof of its name in small letters in',
                     '`proofs/Laws.antt`, which a proof may cite.', '')
        else:
            self.heading(2, f'Definitions: `Rattle.{self.name}.specs.{file}`')
        self.add(*head, '')

    def file(self) -> str:
        """Its place, seen from docs/reference."""
        return f'{self.name}.md'

    def text(self, anchors: Mapping[Key, str]) -> str:
        """The page, when the anchors of all words are known."""
        def shown(line: str | list[Definition]) -> str:
            if isinstance(line, str):
                return line
            links = ', '.join(self.target(word, anchors[word.key]) for word in line)
            return '\n'.join(wrapped(f'Words: {links}.', 110))
        return '\n'.join(map(shown, self.lines))


class Brief(Page):
    """A page of the repository: each item by its path below the crate, its head and its clauses."""
    whole = False

    def __init__(self, library: Library, name: str) -> None:
        super().__init__(library, name)
        self.folder = OF_LIBRARIES if name in OF_RUST else PAGES
        self.others = dict[str, str]()      # the targets of links from a library to another one

    def begin(self) -> None:
        head = self.modules[0].source.head()
        self.add(*itertools.takewhile(bool, head), '')
        if self.name in ON_PAGE:
            upper = ON_PAGE[self.name]
            self.add(f'Its public items are those of [`{upper}`][{upper}].', '')
            self.others[upper] = f'{upper}.md'

    def section(self, place: Place, shown: Shown) -> None:
        if self.name in BY_FILE:
            name = '/'.join(place) or self.modules[0].source.path.stem
            self.heading(2, f'`{name}.rt`')
            self.add(f'[Source](../../crates/{self.name}/src/{name}.rt)', '')

    def item(self, place: Place, module: Module, title: str, item: Item, code: str) -> str:
        path = () if self.name in BY_FILE else place
        title = re.sub('`([^`]*)`$', lambda last: f'`{"::".join((*path, last[1]))}`',
                       title.removeprefix('trait '))
        clauses = item.clauses if self.name == THEOREMS or item.kind == 'trait' else []
        texts = [squeezed(module.source.text(clause.first, clause.last)) for clause in clauses]
        lines = [signature(module.source, item), *(texts or clauses_of(module.source, item))]
        anchor = self.heading(3, title)
        self.add(*(f'- `{line}`' for line in lines))
        return anchor

    def words(self, words: list[Definition], of_item: bool) -> None:
        self.lines += [words] * bool(words and of_item) + [''] * of_item

    def target(self, word: Definition, anchor: str) -> str:
        there = OF_LIBRARIES if word.crate in OF_RUST else PAGES
        file = '' if word.crate == self.name else f'{word.crate}.md'
        if file and self.folder == OF_LIBRARIES:
            label = f'{word.crate}.{word.name}'
            self.others[label] = f'{file}#{anchor}'
            return f'[`{word.name}`][{label}]'
        return f'[`{word.name}`]({f"../../{there}/" * (there != self.folder)}{file}#{anchor})'

    def definitions(self, file: str, head: list[str]) -> None:
        self.heading(2, f'Definitions: `{self.name}/specs/{file}.antt`')

    def file(self) -> str:
        return f'../../{self.folder}/' * (self.folder != PAGES) + super().file()

    def text(self, anchors: Mapping[Key, str]) -> str:
        lines = [line if isinstance(line, str) else
                 f"- Words: {', '.join(self.target(word, anchors[word.key]) for word in line)}"
                 for line in self.lines]
        targets = (f'[{label}]: {target}' for label, target in sorted(self.others.items()))
        return '\n'.join([*lines, '', *targets])


class Callers(Brief):
    """The page of `callers` in the repository: each task, with its function and its proof."""

    def section(self, place: Place, shown: Shown) -> None:
        self.add('')
        super().section(place, shown)
        self.add('| task | function | proof file |', '|---|---|---|')

    def item(self, place: Place, module: Module, title: str, item: Item, code: str) -> str:
        folder = ROOT / 'crates/callers/proofs' / '/'.join(place) / item.name
        proofs = sorted(file.relative_to(ROOT).as_posix() for file in folder.glob('*.antt'))
        links = ', '.join(f'[{posixpath.basename(file)}](../../{file})' for file in proofs)
        said = first_sentence(of_rattle(without_links(module.source.doc(item))))
        self.add(f'| {said} | {title} | {links or "none"} |')
        return ''

    def words(self, words: list[Definition], of_item: bool) -> None:
        pass

    def definitions(self, file: str, head: list[str]) -> None:
        self.add('')
        super().definitions(file, head)


def dedented(source: Source, first: int, last: int) -> str:
    """The text of code from a place to another, without the indentation of its first line."""
    text = source.text(first, last)
    start = source.code[first] - 1
    indented = start >= 0 and source.tokens[start].kind == 'space'
    margin = source.tokens[start].text.rpartition('\n')[2] if indented else ''
    return textwrap.dedent(margin + text)


def without_ranges(source: Source, item: Item, text: str) -> str:
    """The text of an item without the clauses that only say that numbers lie in their types."""
    ranges = [source.text(clause.first, clause.last).rstrip(';') for clause in item.clauses]
    ranges = [textwrap.dedent(clause) for clause in ranges if not says_more(clause)]
    for clause in ranges:
        lines = r'\n\s*'.join(re.escape(line.strip()) for line in clause.split('\n'))
        text = re.sub(r'\n *' + lines, '', text, count=1)
    return text


def squeezed(text: str) -> str:
    """A text in a line, without a comma or a semicolon at its end."""
    return ' '.join(text.split()).rstrip(',; ')


def signature(source: Source, item: Item) -> str:
    """The head of an item in a line, without attributes and clauses. Of an enum that is all."""
    first = item.attributes[-1][1] + 1 if item.attributes else item.first
    stops = [clause.first - 1 for clause in item.clauses[:1] if item.kind == 'fn']
    stops += [item.open - 1] if item.open and item.kind != 'enum' else []
    code = re.sub(r'//.*|#\[[^\]]*\]', '', source.text(first, min(stops, default=item.last)))
    code = re.split(r'[{(]', code)[0] if item.kind == 'struct' else code
    return re.sub(r'(?<=\() |,(?= })|, ?(?=\))', '', squeezed(code))


def head_of(source: Source, item: Item, whole: bool = False) -> str:
    """The signature and the clauses of an item, without its body. All clauses stand there if it is
    to be whole."""
    first = item.attributes[-1][1] + 1 if item.attributes else item.first
    if item.kind == 'fn':
        last = item.open - 1 if item.open else item.last
        head = dedented(source, first, last).rstrip(';').rstrip()
        return head if whole else without_ranges(source, item, head)
    if item.kind in ('trait', 'impl'):
        return dedented(source, first, (item.open or item.last) - 1)
    return dedented(source, item.first, item.last)


def without_links(lines: list[str]) -> list[str]:
    """The lines of a comment. Its links are those of the documentation of the Rust crate, so here
    they are names."""
    text = re.sub(r'\[(`[^`]+`)\](?:\([^)]*\))?', r'\1', '\n'.join(lines))
    return text.replace('`crate::', '`').split('\n')


def sentence(comment: str) -> str:
    """A comment as a sentence: it begins with a capital, where that is no name, and ends with a
    full stop."""
    comment = comment if comment[-1] in '.:?!' else comment + '.'
    first = comment.split()[0].rstrip(',;')
    is_word = first.isalpha() and len(first) > 1 or first == 'a'
    return comment[0].upper() + comment[1:] if is_word else comment


def first_sentence(lines: list[str]) -> str:
    """The first sentence of the lines, or of their first paragraph."""
    paragraph = itertools.takewhile(bool, lines)
    text = ' '.join(paragraph).strip()
    return re.split(r'(?<=\.)\s', text)[0].replace('|', '\\|')
