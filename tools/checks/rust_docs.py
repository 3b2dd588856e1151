"""Reads the made crate of plain Rust: each public function, type and trait has an example that
runs, each public function that panics with the place of its caller says below `# Panics` when,
each link to a contract leads to a heading of rust/reference, and no line is wider than 100
columns, but for the first of a file. That each item has a comment, and each `Result` its `#
Errors`, rustc and clippy see. With --links it reads the pages that rustdoc makes: each link leads
to a file, and to a title that is there."""
import pathlib
import re
import urllib.parse
from collections.abc import Iterator

from tools import ROOT, counted
from tools.checks.pages import anchors_of
from tools.erase.prose import COLUMNS
from tools.erase.source import Item, Source
from tools.pages.api import Shown, shown

# the page of a library, and a heading of it
CONTRACT = re.compile(r'crate::definitions::(\w+)#([^)]*)')
LINK = re.compile(r' href="(?![a-z]+:)([^"]+)"')        # one within the pages


def lacks(source: Source, item: Item) -> Iterator[str]:
    """What a public item lacks."""
    lines = source.doc(item)
    if '# Examples' not in lines and item.kind != 'const':
        yield 'an example'
    if any(source.at(first + 2) == 'track_caller'
           for first, _ in item.attributes) and '# Panics' not in lines:
        yield 'the section `# Panics`'


def wide_lines(folder: pathlib.Path) -> Iterator[str]:
    """The lines of the sources below a folder that are too wide."""
    for path in sorted(folder.rglob('*.rs')):
        for number, line in enumerate(path.read_text().split('\n'), 1):
            if number > 1 and len(line) > COLUMNS:
                yield f'{path.name}:{number} has {len(line)} columns'


def lost_contracts(folder: pathlib.Path) -> Iterator[str]:
    """The links of the sources below a folder that lead to no heading of rust/reference."""
    for path in sorted((folder / 'src').rglob('*.rs')):
        for page, anchor in CONTRACT.findall(path.read_text()):
            if anchor not in anchors_of(folder / 'reference' / f'{page}.md'):
                yield f'{path.name}: rust/reference/{page}.md has no `#{anchor}`'


def dead_links(folder: pathlib.Path) -> Iterator[str]:
    """The relative links of the pages below a folder that lead to no file, or to a title that a
    page there does not have."""
    texts = {path.resolve(): path.read_text() for path in folder.rglob('*.html')}
    titles = {path: set(re.findall(r' id="([^"]+)"', text)) for path, text in texts.items()}
    for path, text in sorted(texts.items()):
        for link in sorted(set(LINK.findall(text))):
            page, _, title = link.partition('#')
            name = urllib.parse.unquote(page.partition('?')[0])
            target = (path.parent / name).resolve() if name else path
            if not target.is_file() or title not in titles.get(target, {title}) | {''}:
                yield f'{path.relative_to(folder.resolve())} leads to {link}, which is not there'


def check(words: list[str]) -> bool:
    """Whether nothing lacks anything, or each link leads somewhere."""
    if words[:1] == ['--links']:
        folder = pathlib.Path(words[1])
        wrong, read = list(dead_links(folder)), len(list(folder.rglob('*.html')))
    else:
        items = [(source, item, path) for source, item, path, owner in shown(Shown())
                 if item.kind == 'fn' or not owner]
        wrong, read = [f'{path} lacks {what}' for source, item, path in items
                       for what in lacks(source, item)], len(items)
        wrong += [*wide_lines(ROOT / 'rust' / 'src'), *lost_contracts(ROOT / 'rust')]
    return counted([*((line, False) for line in wrong), *[('', True)] * read])
