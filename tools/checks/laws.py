"""Compares the laws of each `crates/*/specs/Laws.antt` with the clauses that the gate proves. Each
law of a library stands in an `ensures` of a public function of crates/theorems/src/laws.rt. Those
of cellarcove_c, on which no crate can stand, stand in its own src/laws_of_exports.rt. Both crates
are in crates.txt.

A law is a definition that is `Type N` itself. One with arguments is a word: it stands in a clause
too, or a law cites it. A name counts where the file imports it from that `Laws`, or writes it
after the word by which it imports the whole file, as `dates.FirstDay`. A form that is not known is
rejected by file and line."""
import re
from collections.abc import Iterator
from pathlib import Path

from tools.erase.words import Specs, cited, imported
from tools.erase.source import Source
from tools import ROOT, counted, dependencies

IS_LAW = re.compile(r'\S+ : Type \d+$')
WHOLE_FILE = re.compile(r'use Rattle\.(\w+)\.specs\.Laws as (\w+)')
# The file whose clauses have the laws, and that of a crate on which no other can stand.
THEOREMS = ('theorems', 'laws.rt')
OWN = {'cellarcove_c': ('cellarcove_c', 'laws_of_exports.rt')}


def named(text: str, imports: dict[str, tuple[str, str]],
          files: dict[str, str]) -> Iterator[tuple[str, str]]:
    """The definitions of a `Laws` that the text of a clause names, each as its crate and its
    name."""
    for name in cited(text, imports):
        if imports[name][1] == 'specs.Laws':
            yield imports[name][0], name
    for word, crate in files.items():
        for name in re.findall(rf'(?<![\w.]){word}\.(\w+)', re.sub(r'--[^\n]*', '', text)):
            yield crate, name


def ensured(root: Path, specs: Specs, crate: str, file: str, public: bool) -> set[tuple[str, str]]:
    """The definitions of a `Laws` that stand in an `ensures` of the file, each as a pair of its
    crate and its name."""
    path = root / 'crates' / crate / 'src' / file
    found: set[tuple[str, str]] = set()
    if crate not in dependencies(root) or not path.is_file():
        return found
    source = Source(path.relative_to(root), path.read_text())
    items = [item for top in source.items() for item in top.all()]
    ghosts = '\n'.join(source.text(item.first, item.last) for item in items if item.kind == 'ghost')
    imports, files = imported(ghosts), {word: of for of, word in WHOLE_FILE.findall(ghosts)}
    for item in items:
        for clause in item.clauses if item.kind == 'fn' and (item.public or not public) else ():
            if clause.word == 'ensures':
                for of, name in named(source.text(clause.first, clause.last), imports, files):
                    word = specs.find(of, 'specs.Laws', name)
                    found |= {(word.crate, name)} if word else set()
    return found


def judged(root: Path) -> Iterator[tuple[str, bool]]:
    """Each law, and each word that no law cites, with whether it stands in a clause."""
    specs = Specs(root / 'crates')
    stated = ensured(root, specs, *THEOREMS, True)
    for file in sorted((root / 'crates').glob('*/specs/Laws.antt')):
        crate = file.parent.parent.name
        if crate in OWN:
            stated |= {law for law in ensured(root, specs, *OWN[crate], False) if law[0] == crate}
        words = specs.read(crate, 'Laws')[0]
        heads = {name: word.text.split('\n')[0] for name, word in words.items()}
        laws = {name for name, head in heads.items() if IS_LAW.search(head)}
        used = {below for law in laws for below in cited(words[law].text, words) if below != law}
        place = '/src/'.join(OWN.get(crate, THEOREMS))
        for name in (name for name in words if name in laws or name not in used):
            yield (f'{file.relative_to(root)}: no function of {place} ensures `{name}`',
                   (crate, name) in stated)


def check(_: list[str]) -> bool:
    return counted(judged(ROOT))
