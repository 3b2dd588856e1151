"""The sections `# Examples` of the Rust crate: of each sentence `A` is `B` in the comment of a
public item one assertion, then the code of the section that the comment has, below the `use` lines
of their names. `cargo test` runs them."""
import collections
import functools
import re

from tools.erase.library import JOINED, Place, RustLibrary
from tools.erase.prose import WIDTH, wrapped
from tools.erase.source import Item, Source

INDENT = 4                                      # of the members of a trait or a type
SENTENCE = re.compile(r'`([^`]+)` is (?:`([^`]+)`)?')
# A sentence of examples alone.
ALONE = re.compile(
    r'(?:(?<=[.] )|^)`[^`]+` is `[^`]+`(?:(?:,|, and| and) `[^`]+` is `[^`]+`)*\.(?: |$)')
TEXT = r'"(?:[^"\\]|\\.)*"'
NATIVE = r'\b[iu](?:8|16|32|64|128|size)'
# Names that stand alone or begin a path, but no names of fields, and names of methods.
NAME = re.compile(rf'{TEXT}|(?<![\w.:])([A-Za-z_]\w*)\b(?!:(?!:))')
METHOD = re.compile(rf'{TEXT}|(?:\.|{NATIVE}::)(\w+)\(')


def sentences(source: Source, item: Item) -> list[tuple[str, str]]:
    """The pairs A, B of an item's comment. A call that is said to be what is no code is
    rejected."""
    found = SENTENCE.findall(' '.join(source.doc(item)))
    for call, answer in found:
        if not answer and '(' in call:
            source.refuse(item.word, f'`{call}` is what no code says')
    return [pair for pair in found if pair[1]]


def paragraphs(lines: list[str]) -> list[list[str]]:
    """The lines of a comment by paragraph."""
    return [part.split('\n') for part in re.split('\n\n+', '\n'.join(lines).strip('\n')) if part]


def without_examples(lines: list[str]) -> list[str]:
    """The lines of a comment without its sentences of examples alone, which the section has."""
    found: list[str] = []
    for paragraph in paragraphs(lines):
        text = ' '.join(paragraph)
        rest = (text if any(re.match(r'\||- |```', line) for line in paragraph)
                else ALONE.sub('', text).strip())
        if rest:
            found += ['', *(paragraph if rest == text else wrapped(rest))]
    return found[1:] or lines


@functools.cache
def methods(library: RustLibrary) -> dict[str, set[tuple[Place, str]]]:
    """The public traits of the library that have a method, by its name, each with its public
    place."""
    found = collections.defaultdict[str, set[tuple[Place, str]]](set)
    traits = [(library.place_of(module, item), item) for module in library.modules.values()
              for item in module.items if item.kind == 'trait']
    for place, item in traits:
        if place is not None:
            for inner in item.items:
                found[inner.name].add((place, item.name))
    return found


@functools.cache
def places(library: RustLibrary) -> dict[str, set[Place]]:
    """The public places of each name."""
    found = collections.defaultdict[str, set[Place]](set)
    for (_, _, name), place in library.public.items():
        found[name].add(place)
    return found


def imports(library: RustLibrary, code: str, place: Place) -> list[str]:
    """The lines that import the names of an example of an item at `place`, each from there, from
    the root, or from its only place; types last."""
    names: dict[Place, set[str]] = {}
    for match in NAME.finditer(code):
        found = places(library).get(match.group(1), set())
        for at in ([at for at in (place, ()) if at in found][:1]
                   or (found if len(found) == 1 else ())):
            names.setdefault(at[-1:] if at[-1:] and at[-1] in JOINED else at,
                             set()).add(match.group(1))
    for match in METHOD.finditer(code):
        for at, trait in methods(library).get(match.group(1), ()):
            names.setdefault(at, set()).add(trait)
    return [use('::'.join(('cellarcove',) + at),
                sorted(names[at], key=lambda name: (name[0].isupper(), name)))
            for at in sorted(names)]


def use(path: str, names: list[str]) -> str:
    """The line that imports these names."""
    return f'use {path}::{names[0]};' if len(names) == 1 else f'use {path}::{{{", ".join(names)}}};'


def assertion(call: str, answer: str) -> list[str]:
    """The lines that assert that a call is what its sentence says."""
    if answer in ('true', 'false') and not re.search(r' [<>=&|]', call):
        return [f'assert!({"" if answer == "true" else "!"}{call});']
    line = f'assert_eq!({call}, {answer});'
    return ([line] if len(line) <= WIDTH - INDENT
            else ['assert_eq!(', f'    {call},', f'    {answer}', ');'])


def section(source: Source, library: RustLibrary, item: Item, place: Place,
            lines: list[str]) -> list[str]:
    """The lines of the section of an item at a public place, whose own section has these lines, a
    block of code: an assertion of each sentence, and that code."""
    if lines and (lines[0] != '```' or lines.index('```', 1) != len(lines) - 1):
        source.refuse(item.word, 'a section `# Examples` that is no block of code')
    pairs, more = sentences(source, item), lines[1:-1]
    head = imports(library, '\n'.join([*(f'{call}\n{answer}' for call, answer in pairs), *more]),
                   place)
    body = [line for pair in pairs for line in assertion(*pair)] + more
    return ['# Examples', '', '```', *head, *[''] * bool(head), *body, '```'] if body else []
