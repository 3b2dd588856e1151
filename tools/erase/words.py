"""The words of contracts: where a file imports them from, and how `specs/` define them."""
import functools
import re
from collections.abc import Container
from dataclasses import dataclass
from pathlib import Path

from tools.erase.source import Unknown

IMPORT = re.compile(r'use Rattle\.(\w+)\.([\w.]+)\.\{([^}]*)\}')
WHOLE_FILE = re.compile(r'use Rattle\.(\w+)\.([\w.]+) as (\w+)')
WORD = re.compile(r'(?<![\w.◌])[^\W\d][\w-]*')
OF_FILE = re.compile(r'(?<![\w.◌])(\w+)\.([^\W\d][\w-]*)')
DEFINED = re.compile(r'(?:abbrev |unfoldable )?pub (?:record |data )?([\w-]+)')

Imports = dict[str, tuple[str, str]]            # of words, each with its crate and its path there


@dataclass
class Definition:
    """A word, with its comment, and its text as it stands."""
    crate: str
    file: str
    name: str
    comment: str
    text: str

    @property
    def key(self) -> tuple[str, str, str]:
        return self.crate, self.file, self.name


def imported(text: str) -> Imports:
    """The words that the imports in a text name, each with its crate and its path there. `file.`
    stands for the words of a file that is imported as a whole."""
    words = {name.split(' as ')[-1].strip(): (crate, path)
             for crate, path, names in IMPORT.findall(text) for name in names.split(',')}
    return words | {f'{name}.': (crate, path) for crate, path, name in WHOLE_FILE.findall(text)}


def cited(text: str, imports: Container[str]) -> list[str]:
    """The imported words and signs that a text names, in order."""
    plain = re.sub(r'--[^\n]*', '', text)
    signs = [f'◌{sign}◌' for sign in plain.split()]
    return list(dict.fromkeys(word for word in WORD.findall(plain) + signs if word in imports))


def declared_by(path: str, name: str) -> str:
    """The item of the code that declares a word: a constant, or the type that the path names."""
    if path.endswith('.TheConstants'):
        return name
    return path.removesuffix('.TheVariants').split('.')[-1]


class Specs:
    """The files of `specs/` below a folder of crates. `cited` has the words of these crates that
    were cited, `declared` the types of their code, and `outside` the words of other crates."""

    def __init__(self, folder: Path, crates: Container[str] = ()) -> None:
        self.folder, self.crates = folder, crates
        self.cited: dict[tuple[str, str, str], Definition] = {}
        self.declared = set[tuple[str, str]]()
        self.outside = set[str]()

    @functools.cache
    def read(self, crate: str, file: str) -> tuple[dict[str, Definition], Imports]:
        """The words that a file defines, and what it imports. A crate may have the file of a lower
        one."""
        path = self.folder / crate / 'specs' / f'{file}.antt'
        if path.is_file():
            text = path.read_text()
            return self.words(crate, file, text), imported(text)
        exports = path.with_name('Lib.antt').read_text()
        lower = re.search(rf'pub use Rattle\.(\w+)\.specs\.{file}\b', exports)
        if not lower:
            raise Unknown(f'{path}: no such file')
        found: tuple[dict[str, Definition], Imports] = self.read(lower[1], file)
        return found

    def words(self, crate: str, file: str, text: str) -> dict[str, Definition]:
        found = {}
        for paragraph in re.split(r'\n\s*\n', text):
            lines = [line for line in paragraph.split('\n') if line]
            head = [line[3:].strip() for line in lines
                    if line.startswith('-- ') and not line.startswith('-- ---- ')]
            body = [line for line in lines if not line.startswith('--')]
            match = DEFINED.match(body[0]) if body else None
            if match:
                name = match.group(1)
                found[name] = Definition(crate, file, name, ' '.join(head), '\n'.join(body))
        return found

    def find(self, crate: str, path: str, name: str) -> Definition | None:
        """The definition of an imported word, or None where it is a type of the code."""
        if '.declared.' in '.' + path or not path.startswith('specs.'):
            return None
        words, _ = self.read(crate, path.removeprefix('specs.'))
        if name not in words:
            raise Unknown(f'crates/{crate}/specs: no definition of `{name}`')
        return words[name]

    def cite(self, text: str, imports: Imports) -> list[Definition]:
        """The definitions of the imported words that a text names. Notes them, and the words that
        they cite."""
        of_files = [(name, f'{file}.') for file, name in OF_FILE.findall(text)
                    if f'{file}.' in imports]
        words = [(name, name) for name in cited(text, imports)] + list(dict.fromkeys(of_files))
        found = [self.cite_word(name, *imports[place], place if place != name else '')
                 for name, place in words]
        return list(filter(None, found))

    def cite_word(self, name: str, crate: str, path: str, file: str = '') -> Definition | None:
        """The definition of a word, which is noted with those that it cites. A word may stand
        after the name of its file."""
        if crate not in self.crates:
            self.outside.add(file + name)
            return None
        word = self.find(crate, path, name)
        if not word:
            self.declared.add((crate, declared_by(path, name)))
        if word and word.key not in self.cited:
            self.cited[word.key] = word
            self.cite(word.text, self.names(word))
        return word

    def names(self, word: Definition) -> Imports:
        """What the definition of a word may cite: the other words of its file, and what that
        imports."""
        words, imports = self.read(word.crate, word.file)
        own = {name: (word.crate, f'specs.{word.file}') for name in words}
        return {name: path for name, path in (own | imports).items() if name != word.name}
