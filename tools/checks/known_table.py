"""The definitions that a public clause reaches, and what compare/coq/known.txt says of each."""
import functools
import re
from typing import NamedTuple

from tools import ROOT
from tools.checks.antt_to_coq import File, Library, Unknown
from tools.pages.reference import Reference

SOURCES = ROOT / 'compare/coq'
LIBRARIES = ('integer_core', 'integer_roots', 'num_integer', 'modular', 'ratio64', 'calendar',
             'bounded_integers', 'applied', 'intcalc_core', 'cellarcove_c')
DEFINED = re.compile(r'(?:abbrev pub|unfoldable pub|pub record|pub data) ')
THEOREM = re.compile(r'^(?:Theorem|Example|Lemma|Corollary) (\w+)', re.M)
WORD = re.compile(r'\w+(?:\.[A-Z]\w*)?')
Definition = tuple[str, str, str]               # its crate, its file and its name


class Row(NamedTuple):
    """What a definition is in Coq, and the theorems, or a reason and none."""
    what: str
    theorems: tuple[str, ...]

    def files(self) -> list[str]:
        """The files of the theorems."""
        places = {theorem.rpartition('.')[0] for theorem in self.theorems}
        return sorted(place.replace('.', '/') + '.v' for place in places)


@functools.cache
def table() -> dict[Definition, Row]:
    found = dict[Definition, Row]()
    for line in (SOURCES / 'known.txt').read_text().splitlines():
        if re.match(r'\w+\.\w+\.\w+ \| ', line):
            place, what, theorems = line.split(' | ')
            crate, where, name = place.split('.')
            names = () if theorems == '-' else tuple(theorems.split(', '))
            found[crate, where, name] = Row(what, names)
    return found


@functools.cache
def reached() -> tuple[Definition, ...]:
    """The definitions that a public clause of the libraries reaches, but for Rattle's laws."""
    reference = Reference()
    reference.made()
    return tuple(sorted(key for key, word in reference.specs.cited.items()
                        if key[0] in LIBRARIES and key[1] != 'Laws' and DEFINED.match(word.text)))


def covered() -> tuple[Definition, ...]:
    """The definitions that have a theorem."""
    return tuple(key for key in reached() if key in table() and table()[key].theorems)


def library() -> Library:
    return Library(ROOT / 'crates', SOURCES / 'Kit.v')


def translated(definitions: tuple[Definition, ...],
               changed: tuple[Definition, str] | None = None) -> dict[str, str]:
    """The files in Coq of definitions and of what they need, of which one may be changed."""
    known = library()
    if changed:
        file = known.file(*changed[0][:2])
        file.paragraphs[changed[0][2]] = file.paragraphs[changed[0][2]][0], changed[1]
    return in_coq(known, definitions)


def in_coq(known: Library, definitions: tuple[Definition, ...]) -> dict[str, str]:
    """The files in Coq of definitions and of what they need."""
    needed = dict[File, list[str]]()
    for crate, where, name in definitions:
        file = known.file(crate, where)
        if name not in file.paragraphs:
            raise Unknown(f'{file.path}: no definition of `{name}` that is known')
        add_needed(known, file, name, needed)
    return {f'Cellarcove/{file.module.replace(".", "/")}.v': known.in_coq(file, names)
            for file, names in needed.items()}


def add_needed(known: Library, file: File, name: str, needed: dict[File, list[str]]) -> None:
    """Adds a definition, after those whose names it has."""
    if name in needed.get(file, []) or name not in file.paragraphs:
        return
    order = needed.setdefault(file, [])
    order.append(name)
    for word in sorted({*WORD.findall(file.paragraphs[name][1])} - {name}):
        source, kind, _ = known.origin(file, word)
        if source is not known.kit:
            add_needed(known, source, kind, needed)
    order.remove(name)
    order.append(name)


def theorems() -> dict[str, str]:
    """The files of theorems, by their names."""
    paths = SOURCES.glob('*/*.v')
    return {f'Known/{path.relative_to(SOURCES)}': path.read_text() for path in paths}


def names_in(files: dict[str, str]) -> list[str]:
    """The theorems of some files."""
    return [f'{name[:-2].replace("/", ".")}.{theorem}' for name, text in sorted(files.items())
            if name.startswith('Known/') for theorem in THEOREM.findall(text)]


def sources() -> dict[str, str]:
    """All files for Coq, by their names."""
    kit = (SOURCES / 'Kit.v').read_text()
    return {**translated(covered()), 'Cellarcove/Kit.v': kit, **theorems()}
