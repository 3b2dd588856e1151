"""Reads the mutants of both suites, crates/NAME/must-fail/*.edit and
crates/NAME/must-fail-release/*.edit, and proves nothing. The first line of each says what is wrong,
in one of three forms. Each file that it names is there, each old text stands in that file exactly
once where the pairs above have been applied, and its new text is another. In the crate whose
functions are theorems, a mutant changes each public function that has a body. Prints a line for
each that is not so, and a count at the end.
"""

import itertools
import re
from collections.abc import Iterator
from pathlib import Path
from typing import NamedTuple

from tools import ROOT, counted

SUITES = ('must-fail', 'must-fail-release')
PARTS = ('src/', 'specs/', 'proofs/')
# The crate whose functions are theorems. A function with an empty body states laws, and has
# nothing to change.
THEOREMS = 'theorems'
FUNCTION = re.compile(r'^pub fn (\w+).*?^(?:}|\{\})$', re.DOTALL | re.MULTILINE)
# The forms of a first line. The calls and the values are expressions of Rust: wrong_lines.py runs
# them.
CLAUSE = r'(?:its clause|the clause of `\w+`|`\w+`(?: of (?:`\w+`|its clause))?)'
FORMS = (rf'wrong: at (?P<call>.+) it returns (?P<wrong>.+), and (?P<clause>{CLAUSE}) asks '
         r'for (?P<right>.+?)\.(?: [A-Z].*\.)?',
         rf'wrong: at (?P<call>.+) it overflows, which (?P<broken>{CLAUSE}) excludes, and '
         rf'(?P<clause>{CLAUSE}) asks for (?P<right>.+)\.',
         r'wrong \(not run: (?P<reason>[^()]+)\): .+\.')
PAIR = re.compile(r'file: ?(?P<file>.+)\n|old: ?(?P<old>.+)\nnew: ?(?P<new>.*)(?:\n|\Z)')


class BadEdit(Exception):
    """What is wrong with the text of an edit."""


def replaced(crate: Path, name: str, texts: dict[str, str], old: str, new: str) -> str:
    """Returns the file, as the pairs so far have left it, with the old text, which stands in it
    once, replaced."""
    path = crate / name
    if '..' in path.parts or not name.startswith(PARTS) or not path.is_file():
        raise BadEdit(f'there is no file {name}')
    text = texts.get(name) or path.read_text(encoding='utf-8')
    found = text.count(old)
    if found != 1:
        raise BadEdit(f'{name} has an old text {found} times: {old}')
    if old == new:
        raise BadEdit(f'a new text is the old one: {old}')
    return text.replace(old, new)


def form_of(line: str) -> re.Match[str]:
    """Returns what a first line says, as a match of its form."""
    for match in filter(None, (re.fullmatch(form, line) for form in FORMS)):
        return match
    raise BadEdit(f'the first line does not say what is wrong in a known form: {line}')


def apply(crate: Path, edit: Path) -> tuple[re.Match[str], dict[str, str]]:
    """Applies the pairs of the edit, one after the other, to copies of the files. Returns what the
    first line says, and the texts of the changed files by their names."""
    first, _, pairs = edit.read_text(encoding='utf-8').partition('\n')
    said, name, at, texts = form_of(first), '', 0, dict[str, str]()
    while at < len(pairs):
        match = PAIR.match(pairs, at)
        if not match or not (name or match['file']):
            raise BadEdit(f'this line is out of place: {pairs[at:].splitlines()[0]}')
        if match['old']:
            texts[name] = replaced(crate, name, texts, match['old'], match['new'])
        name, at = match['file'] or name, match.end()
    if not texts:
        raise BadEdit('it has no pair')
    return said, texts


class Counts(NamedTuple):
    """How many mutants there are, how many are run as Rust, and how many change a proof."""
    all: int
    run: int
    of_proofs: int


def counts() -> Counts:
    texts = [edit.read_text() for suite in SUITES for edit in ROOT.glob(f'crates/*/{suite}/*.edit')]
    run = [text for text in texts if not text.startswith('wrong (not run: ')]
    of_proofs = [text for text in texts if re.search('^file: ?proofs/', text, re.M)]
    return Counts(len(texts), len(run), len(of_proofs))


def functions(text: str) -> dict[str, str]:
    """The text of each public function of a file that has a body, by its name."""
    found = {match[1]: match[0] for match in FUNCTION.finditer(text)}
    return {name: function for name, function in found.items() if not function.endswith('{}')}


def changed(crate: Path) -> Iterator[tuple[str, str]]:
    """The functions that some mutant of a crate changes, each as the name of its file and its
    own."""
    for edit in (edit for suite in SUITES for edit in sorted(crate.glob(f'{suite}/*.edit'))):
        try:
            texts = apply(crate, edit)[1]
        except BadEdit:
            continue
        for name, text in texts.items():
            mutants = functions(text)
            for function, old in functions((crate / name).read_text(encoding='utf-8')).items():
                if mutants.get(function) != old:
                    yield name, function


def theorems(root: Path) -> Iterator[tuple[str, bool]]:
    """Each theorem, with whether a mutant changes it."""
    crate = root / 'crates' / THEOREMS
    attacked = set(changed(crate))
    for file in sorted(crate.glob('src/*.rt')):
        name = f'src/{file.name}'
        for function in functions(file.read_text(encoding='utf-8')):
            passed = (name, function) in attacked
            yield f'crates/{THEOREMS}/{name}: no mutant changes `{function}`', passed


def judged() -> Iterator[tuple[str, bool]]:
    """Each file of both suites, with what is wrong with it."""
    for suite in SUITES:
        for edit in sorted(ROOT.glob(f'crates/*/{suite}/*')):
            wrong = ''
            try:
                if edit.suffix != '.edit':
                    raise BadEdit('its name does not end in .edit')
                apply(edit.parent.parent, edit)
            except BadEdit as said:
                wrong = str(said)
            yield f'{edit.relative_to(ROOT)}: {wrong}', not wrong


def check(_: list[str]) -> bool:
    return counted(itertools.chain(judged(), theorems(ROOT)))
