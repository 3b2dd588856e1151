"""Makes the reference of the sources: a page for each crate, with its public items, their clauses
and the words they cite.

The repository has the head and the clauses of each item, and each definition once, a sentence and
its text: of the libraries in rust/reference, which the documentation of plain Rust shows too, and
of all else in docs/reference. The page of `callers` is a list there. A release has the whole pages,
each with the doc comments, the imports, and the lemmas of `proofs/ForCallers.antt`, in the groups
of that file.

A page has each public item that a user of the crate can import, by the path of its import. The
pages of theorems have all clauses; the others leave out those that only say that numbers lie in
their types. Then comes each definition of `specs/` that a public clause or such a definition cites.
The index has each function. A form that is not known is rejected by file and line, and so is a word
that no page defines."""
import itertools
import posixpath
import re
import textwrap
from collections.abc import Iterator
from pathlib import Path

from tools import ROOT, filled, write
from tools.erase.documentation import STATED, imports_of, of_rattle
from tools.erase.library import Library, Module, Place
from tools.erase.source import Item, Source, Unknown
from tools.erase.words import Definition, Imports, Specs
from tools.pages import mathematics
from tools.pages.crate_page import (BY_FILE, FIRST, OF_LIBRARIES, PAGES, THEOREMS, Brief, Callers,
                                    Key, Page, first_sentence, head_of, without_links)

CRATES = ROOT / 'crates'
TOOLCHAIN = ROOT / OF_LIBRARIES / 'README.md'      # by hand
NAMES = ('integer_core', 'integer_roots', 'num_integer', 'ratio64', 'intcalc_core', 'intcalc',
         'modular', 'calendar', 'applied', 'bounded_integers', 'cellarcove_c', THEOREMS, 'callers')
TEMPLATES = ROOT / 'tools/pages/templates'
# What stands below a sentence of mathematics, in the repository and in a release.
BELOW = ('is a link to the contract that says it',
         'stand the contract that says it and the definitions that it cites, each of them once')
# What the repository says in the place of the signs and words of README.md of rust/reference.
SIGNS = 'The signs are on [the first page of the libraries](../../rust/reference/README.md).'
LEMMA = re.compile(r'(?:abbrev |unfoldable )?pub (?:ruleset ([^\s:]+) =|([^\s:]+) :)')
RENAMED = re.compile(r'^pub use [\w.]+\.\{(\S+) as (\S+)\}')
EXPORT = re.compile(r'pub use Rattle\.(\w+)\.([\w.]+)\.\{([^}]*)\}')


Block = tuple[str, Item, str, list[Item]]

# Values and their parts: `T.value`, `H.write`, `RatioError.NotFitting`.
MEMBER = re.compile(r'(?<![\w.◌])([A-Z]\w*)\.([^\W\d][\w-]*)')


def names_in(text: str) -> set[str]:
    """The names in a text, each without what is before its dot."""
    return set(re.findall(r'[^\W\d][\w-]*', text))


def explained(page: str) -> set[str]:
    """The words and the signs that a page explains: those in its lists, which stand as code."""
    lines = re.findall(r'^- (`.*)$', page, re.M)
    return {part for line in lines for code in re.findall('`([^`]*)`', line)
            for part in code.split()}


class Reference:
    """All pages: the items first, which name the words that the definitions are then made of."""

    def __init__(self, whole: bool = True) -> None:
        self.specs, library = Specs(CRATES, NAMES), Library(CRATES, NAMES)
        self.whole, brief = whole, {'callers': Callers}
        self.pages = {name: (Page if whole else brief.get(name, Brief))(library, name)
                      for name in NAMES}
        self.anchors: dict[Key, str] = {}
        self.calls: list[tuple[str, str, str, str, str]] = []
        self.members = dict[str, str]()             # parts of values that a page cites
        self.shown = set[str]()                     # the names in the code of types and traits

    def links(self, page: Page, text: str, imports: Imports, of_item: bool = False) -> None:
        """Adds the line of links to the words of a text."""
        self.members |= {member: page.name for _, member in MEMBER.findall(text)}
        page.words(self.specs.cite(text, imports), of_item)

    def link(self, word: Definition) -> str:
        """A link to the definition of a word, from a page beside that of the theorems."""
        return self.pages['callers'].target(word, self.anchors[word.key])

    def items_of(self, page: Page) -> None:
        page.begin()
        for place, shown in page.sections():
            page.section(place, shown)
            for module, item in shown:
                for block in self.blocks(module.source, item, page.name == THEOREMS):
                    self.block(page, place, module, *block)
        if (CRATES / page.name / 'specs' / 'Laws.antt').is_file():
            for name in self.specs.read(page.name, 'Laws')[0]:
                self.specs.cite_word(name, page.name, 'specs.Laws')

    def blocks(self, source: Source, item: Item, whole: bool) -> Iterator[Block]:
        """What the page shows of an item: a title, what has its doc comment, its code, and the
        items whose imports count."""
        is_trait = item.kind == 'trait'
        if item.kind not in ('trait', 'impl'):
            yield f'`{item.name}`', item, head_of(source, item, whole), []
            return
        ghosts = [source.text(inner.first, inner.last) for inner in item.items
                  if inner.kind == 'ghost' and inner.name != 'use'
                  and (is_trait or inner.name in STATED)]
        # each method of a trait, each public one of a type, each with a clause of an implementation
        methods = [inner for inner in item.items if inner.kind == 'fn' and (
            is_trait or (inner.clauses if item.of_trait else inner.public))]
        if is_trait or ghosts or (item.of_trait and methods):
            body = '\n\n'.join(textwrap.indent(textwrap.dedent('    ' + ghost), '    ')
                               for ghost in ghosts)
            title = f'trait `{item.name}`' if is_trait else f'`{item.of_trait}` for `{item.name}`'
            code = head_of(source, item) + (f' {{\n{body}\n}}' if ghosts else ' { .. }')
            yield title, item, code, item.items
        for inner in methods:
            yield f'`{item.name}::{inner.name}`', inner, head_of(source, inner, whole), item.items

    def block(self, page: Page, place: Place, module: Module, title: str, item: Item, code: str,
              inner: list[Item]) -> None:
        anchor = page.item(place, module, title, item, code)
        if item.kind != 'fn':
            self.shown |= names_in(code)
        if item.kind == 'fn' and page.name not in BY_FILE:
            said = first_sentence(of_rattle(without_links(module.source.doc(item))))
            self.calls.append((item.name, title.strip('`'), '::'.join((page.name, *place)),
                               f'{page.file()}#{anchor}', said))
        imports = imports_of(module.source, module.items) | imports_of(module.source, inner)
        self.links(page, code, imports, of_item=True)

    def definitions_of(self, page: Page) -> None:
        crate = page.name
        files = {file for other, file, _ in self.specs.cited if other == crate}
        for file in sorted(files, key=lambda file: (file == 'Laws', file)):
            lines = (CRATES / crate / 'specs' / f'{file}.antt').read_text().split('\n')
            head = itertools.takewhile(lambda line: line.startswith('-- '), lines)
            page.definitions(file, [line[3:] for line in head])
            for name, word in self.specs.read(crate, file)[0].items():
                if word.key in self.specs.cited:
                    self.anchors[word.key] = page.word(3, name, word.comment, word.text)
                    self.links(page, word.text, self.specs.names(word))

    def lemmas_of(self, page: Page) -> None:
        crate, file = page.name, CRATES / page.name / 'proofs' / 'ForCallers.antt'
        if not (self.whole and file.is_file()):
            return
        page.heading(2, f'Lemmas for callers: `Rattle.{crate}.proofs.ForCallers`')
        page.add('Lemmas that the proof of a caller may cite, beside the laws.', '')
        for title, said, text in groups(file.read_text()):
            if title:
                page.heading(3, title[0].upper() + title[1:])
                page.add(*said, '')
            for other, path, names in EXPORT.findall(text):
                cited = (CRATES / other).joinpath(*path.split('.')).with_suffix('.antt')
                found = lemmas(cited.read_text())
                for name in (name.strip() for name in names.split(',')):
                    if name not in found:
                        raise Unknown(f'{file}: {path} has no `{name}` that is known')
                    page.word(4, name, *found[name])
            for name, lemma in lemmas(text).items():
                page.word(4, name, *lemma)

    def made(self) -> dict[str, str]:
        """The texts of the pages, by their places: below docs/reference, or in the repository."""
        for add in (self.items_of, self.definitions_of, self.lemmas_of):
            for page in self.pages.values():
                add(page)
        self.see_words()
        pages = {page.file(): page.text(self.anchors) for page in self.pages.values()}
        pages |= {'README.md': self.front(), 'index.md': self.index(),
                  'mathematics.md': self.sentences()}
        return {name: re.sub(r'\n{3,}', '\n\n', text).strip('\n') + '\n'
                for name, text in pages.items()}

    def see_words(self) -> None:
        """Rejects a word of a clause or of a definition that no page defines: one of the toolchain
        that README.md of rust/reference does not explain, a type that no page shows, and a part of
        a value."""
        known = explained(TOOLCHAIN.read_text())
        parts = self.shown | {part for word in known for part in names_in(word)}
        missing = {f'`{word}`' for word in self.specs.outside if word.strip('◌') not in known}
        missing |= {f'`{member}` of {page}.md' for member, page in self.members.items()
                    if member not in parts}
        missing |= {f'the type `{name}` of {crate}' for crate, name in self.specs.declared
                    if name not in self.shown}
        if missing:
            raise Unknown(f'docs/reference: no page defines {", ".join(sorted(missing))}')

    def sentences(self) -> str:
        """The page of the main theorems as sentences of mathematics."""
        headline = next(module for module in self.pages[THEOREMS].modules
                        if module.path == FIRST[0])
        text = (TEMPLATES / 'mathematics.txt').read_text()
        return filled(TEMPLATES / 'mathematics.md', below=BELOW[self.whole],
                      theorems=mathematics.page(headline, text, self, self.whole))

    def cited(self, module: Module, code: str) -> list[Definition]:
        """The words that a text of a module cites."""
        return self.specs.cite(code, imports_of(module.source, module.items))

    def within(self, word: Definition) -> list[Definition]:
        """The words that a definition cites."""
        return self.specs.cite(word.text, self.specs.names(word))

    def code(self, module: Module, name: str) -> str:
        """The signature and all clauses of a function."""
        item = next((item for item in module.items if (item.kind, item.name) == ('fn', name)), None)
        if item is None:
            raise Unknown(f'{module.source.path}: no function `{name}`')
        return head_of(module.source, item, whole=True)

    def index(self) -> str:
        rows = [f'| [`{title}`]({link}) | `{path}` | {said} |'
                for _, title, path, link, said in sorted(self.calls)]
        return filled(TEMPLATES / 'index.md', rows='\n'.join(rows))

    def front(self) -> str:
        rows = [f'| [`{name}`]({page.file()}) | {first_sentence(page.modules[0].source.head())} |'
                for name, page in self.pages.items()]
        clauses = TOOLCHAIN.read_text().strip() if self.whole else SIGNS
        return filled(TEMPLATES / 'front.md', rows='\n'.join(rows), clauses=clauses)


def groups(text: str) -> Iterator[tuple[str, list[str], str]]:
    """The groups of a file of lemmas for callers: the title of each, the lines that say more of
    it, and its exports. A line that is indented is code."""
    parts = re.split(r'^-- ---- (.*)\n((?:--.*\n)*)', text, flags=re.M)
    yield '', [], parts[0]
    for title, comment, exports in zip(parts[1::3], parts[2::3], parts[3::3]):
        said, code = [], False
        for line in (line[3:] for line in comment.splitlines()):
            if line and line.startswith('    ') != code:
                said.append('```' if code else '```text')
                code = not code
            said.append(line[4:] if code else line)
        yield title, said + ['```'] * code, exports


def lemmas(text: str) -> dict[str, tuple[str, str]]:
    """The lemmas and rulesets of a file, each with its comment and its statement. A statement
    within modules has their heads before it, which say what it takes first."""
    found: dict[str, tuple[str, str]] = {}
    comment: list[str] = []
    modules: list[tuple[int, str]] = []
    lines = text.split('\n')
    for i, line in enumerate(lines):
        bare = line.lstrip(' ')
        margin = len(line) - len(bare)
        if not bare:
            comment = []
            continue
        modules = [(depth, head) for depth, head in modules if depth < margin]
        if bare.startswith('-- '):
            comment = comment + [bare[3:]] if not bare.startswith('-- ---- ') else []
            continue
        match = LEMMA.match(bare)
        if match:
            more = itertools.takewhile(
                lambda line: len(line) - len(line.lstrip(' ')) > margin, lines[i + 1:])
            stated = [re.sub(r'\bpub ', '', bare, count=1), *(line[margin:] for line in more)]
            heads, indent = [head for _, head in modules], '    ' * bool(modules)
            statement = '\n'.join([*heads, *(indent + line for line in stated)])
            found[match[1] or match[2]] = ' '.join(comment), statement
        elif bare.startswith('module _ '):
            modules.append((margin, line.strip()))
        for name, other in RENAMED.findall(line):
            found[other] = (' '.join(comment), f'{other} = {name}')
        comment = []
    return found


def made() -> dict[str, str | None]:
    """The pages of the repository, and no text for what else is there. Another file says where the
    links from a library to another one lead in the documentation of Rust."""
    folders = [ROOT / PAGES, ROOT / OF_LIBRARIES]
    there = dict.fromkeys(page.relative_to(ROOT).as_posix() for folder in folders
                          for page in folder.glob('*.md') if page != TOOLCHAIN)
    reference = Reference(whole=False)
    pages = {posixpath.normpath(f'{PAGES}/{name}'): text
             for name, text in reference.made().items()}
    others = {label: target.replace('.md', '') for page in reference.pages.values()
              if isinstance(page, Brief) for label, target in page.others.items()}
    links = ''.join(f'[{label}]: {target}\n' for label, target in sorted(others.items()))
    return there | pages | {f'{OF_LIBRARIES}/links.txt': links}


def make_whole(words: list[str]) -> bool:
    """Writes the pages of a release into a folder."""
    return write(Path(words[0]), Reference().made())
