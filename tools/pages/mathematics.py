"""The page of the main theorems as sentences of mathematics: each row of the table of
crates/theorems/src/headline.rt, with a sentence by hand, the contracts that say it, and the
definitions of the words that they cite, each of them once. A row without a sentence is rejected,
and so is a sentence that belongs to no row."""
import re
from typing import NamedTuple, Protocol

from tools.erase.library import Module
from tools.erase.source import Unknown
from tools.erase.words import Definition

ROW = re.compile(r'^\| (.+?) \| (.+?) \|$')
HEAD = ('theorem', '---')
PLACE = 'tools/pages/templates/mathematics.txt'


class Row(NamedTuple):
    """A theorem of the table, the functions whose contracts stand there, and the sentence."""
    theorem: str
    functions: list[str]
    sentence: str


class Words(Protocol):
    """What the page takes from the reference."""

    def code(self, module: Module, name: str) -> str:
        """The contract of a function."""

    def cited(self, module: Module, code: str) -> list[Definition]:
        """The words that a contract cites."""

    def within(self, word: Definition) -> list[Definition]:
        """The words that a definition cites."""

    def link(self, word: Definition) -> str:
        """A link to the definition of a word."""


def table(lines: list[str]) -> dict[str, list[str]]:
    """The theorems of the table in the head of a file, each with its functions."""
    rows = (match.groups() for match in map(ROW.match, lines) if match)
    return {theorem: re.findall(r'`(\w+)`', functions) for theorem, functions in rows
            if not theorem.startswith(HEAD)}


def read(text: str) -> list[Row]:
    """The rows of the file of sentences."""
    rows = []
    for paragraph in re.split(r'\n\s*\n', text.strip()):
        lines = [line for line in paragraph.split('\n') if not line.startswith('#')]
        if lines:
            rows.append(Row(lines[0], lines[1].split(', '), '\n'.join(lines[2:])))
    return rows


def compared(stated: dict[str, list[str]], rows: list[Row]) -> None:
    """Rejects sentences that are not those of the theorems, in their order, and their functions."""
    theorems = [row.theorem for row in rows]
    for theorem in stated:
        if theorem not in theorems:
            raise Unknown(f'{PLACE}: no sentence for the theorem: {theorem}')
    for row in rows:
        if row.theorem not in stated:
            raise Unknown(f'{PLACE}: no theorem of headline.rt: {row.theorem}')
        strange = sorted(set(row.functions) - set(stated[row.theorem]))
        if strange or not row.sentence:
            raise Unknown(f'{PLACE}: {row.theorem}: {", ".join(strange) or "no sentence"}')
    if theorems != list(stated):
        raise Unknown(f'{PLACE}: the sentences are not in the order of headline.rt')


def page(module: Module, text: str, words: Words, whole: bool) -> str:
    """The sections of the page, one for each theorem. Unless they are whole, links lead to the
    contracts."""
    rows, stated = read(text), table(module.source.head())
    compared(stated, rows)
    told, lines = set[tuple[str, str, str]](), list[str]()
    for row in rows:
        title = row.theorem[0].upper() + row.theorem[1:]
        lines += [f'## {title}', '', row.sentence, '']
        for name in row.functions if whole else ():
            code = words.code(module, name)
            lines += ['```rust', code, '```', '']
            lines += unfolded(words.cited(module, code), told, words)
        others = [name for name in stated[row.theorem] if name not in row.functions]
        named = (('Also', others),) if whole else (('Contract', row.functions), ('Also', others))
        for said, names in named:
            links = ', '.join(f'[`{name}`](theorems.md#{name})' for name in names)
            lines += [f'{said}: {links}.', ''] * bool(names)
    return '\n'.join(lines)


def unfolded(cited: list[Definition], told: set[tuple[str, str, str]], words: Words) -> list[str]:
    """The definitions of words that the page has not yet shown, and links to the others and to the
    words of these definitions."""
    new = [word for word in cited if word.key not in told]
    lines = [line for word in new for line in ('```text', word.text, '```', '')]
    others = [word for word in cited if word.key in told]
    inner = [each for word in new for each in words.within(word) if each not in new]
    told |= {word.key for word in new}
    links = ', '.join(dict.fromkeys(map(words.link, others + inner)))
    return lines + [f'Words: {links}.', ''] * bool(links)
