"""Changes each definition in the small, and asks Coq whether a theorem still holds that should not.

compare/coq/same.txt lists the changes that mean the same. compare/coq/changes.txt keeps what has
been found for a definition with its text and its theorems: it is written as the changes are tried,
and a definition is tried again if one of them has another text."""
import collections
import concurrent.futures
import functools
import hashlib
import re
import tempfile
from collections.abc import Iterator
from pathlib import Path
from typing import NamedTuple

from tools.checks.antt_to_coq import Unknown
from tools.checks.coq_build import TOO_LONG, Build, workers
from tools.checks.known_table import SOURCES, Definition, Row, covered, library, table, translated

SECONDS = 60                                    # of a processor, for a file
SIGNS = {'<': '≤', '≤': '<', '<ℤ': '≤ℤ', '≤ℤ': '<ℤ', '+': '-', '-': '+', '+ℤ': '-ℤ', '-ℤ': '+ℤ'}
SIGN = re.compile(r'(?<= )(<ℤ|≤ℤ|\+ℤ|-ℤ|[<≤+-])(?= )')
NUMBER = re.compile(r'(?<!Type )(?<![\w."])\d+(?!\w)')
PAIR = re.compile(r'(?<=\w )([a-z]\w*) ([a-z]\w*)(?![\w.]| :| =|.*↦)')
FIELD = re.compile(r'^  pub (\w+) :.*\n(?:^    .*\n)*', re.M)
KEPT = {'then', 'else', 'in', 'let', 'if', 'pos', 'pub', 'record'}
VERDICTS = ('refused', 'same', 'no term', 'too long')
Change = tuple[str, str]                        # what changes, and the text of the definition then


def changes(text: str) -> Iterator[Change]:
    """A definition with a sign, a number or two arguments changed, or without a field."""
    counts = collections.Counter[str]()
    for change, changed in all_changes(text):
        counts[change] += 1
        place = f', place {counts[change]}' if counts[change] > 1 else ''
        yield f'{change}{place}', changed


def all_changes(text: str) -> Iterator[Change]:
    head = re.search(r'^\s*(?:abbrev|unfoldable).*$', text, re.M)
    start = head.end() if head else text.index('where') + 5

    def with_new(match: re.Match[str], new: str) -> Change:
        return f'{new} for {match[0]}', text[:match.start()] + new + text[match.end():]
    yield from (with_new(match, SIGNS[match[1]]) for match in SIGN.finditer(text, start))
    yield from (with_new(match, str(int(match[0]) + 1)) for match in NUMBER.finditer(text, start))
    yield from (with_new(match, f'{match[2]} {match[1]}') for match in PAIR.finditer(text, start)
                if match[1] != match[2] and not {match[1], match[2]} & KEPT)
    fields = [*FIELD.finditer(text)]
    for match in fields if len(fields) > 1 else ():
        yield f'without {match[1]}', text[:match.start()] + text[match.end():]


class Attempt(NamedTuple):
    change: str
    verdict: str                                # one of VERDICTS, or accepted
    where: str = ''


def attempt(base: Build, definition: Definition, change: Change, row: Row) -> Attempt:
    """Compiles what depends on a changed definition, up to its theorems."""
    said = functools.partial(Attempt, change[0])
    name = f'Cellarcove/{definition[0]}/{definition[1]}.v'
    declared = r'^(?:Definition|Record|Inductive) (\w+)'
    known = re.findall(declared, (base.folder / name).read_text(), re.M)
    try:
        wanted = tuple((*definition[:2], each) for each in known)
        text = translated(wanted, (definition, change[1]))[name]
    except (Unknown, IndexError, ValueError) as problem:        # what is left is no definition
        return said('no term', str(problem))
    with tempfile.TemporaryDirectory(dir=base.folder.parent) as folder:
        build = Build(Path(folder))
        chain = linked(base, build, f'{name}o', [f'Known/{file}o' for file in row.files()])
        (build.folder / name).write_text(text)
        for target in chain:
            status, printed = build.coqc(target, SECONDS)
            if status:
                place = re.search(r'line (\d+)', printed)
                kind = 'too long' if status == TOO_LONG else 'refused'
                return said('no term' if target.startswith('Cellarcove') else kind,
                            f'{target[:-1]}:{place[1] if place else "?"}')
    return said('accepted')


def linked(base: Build, build: Build, changed: str, targets: list[str]) -> list[str]:
    """A folder with what the targets need. Returns the files to be compiled again, in order."""
    stale = {changed: None}
    for target in base.order(targets):
        path = build.folder / target
        path.parent.mkdir(parents=True, exist_ok=True)
        if target in stale or stale.keys() & set(base.needs[target]):
            stale[target] = None
            path.with_suffix('.v').write_text((base.folder / target[:-1]).read_text())
        else:
            path.symlink_to(base.folder.resolve() / target)
    return [*stale]


def same() -> dict[tuple[str, str], str]:
    """The changes that mean the same, each with the reason."""
    lines = (SOURCES / 'same.txt').read_text().splitlines()
    return {(row[0], row[1]): row[2] for row in (line.split(' | ') for line in lines[1:])}


class Tried(NamedTuple):
    """What was found for a definition: a sum of its texts, and how many changes of each verdict."""
    sum: str
    counts: tuple[int, ...]


@functools.cache
def sum_of(definition: Definition) -> str:
    texts = [(SOURCES / file).read_text() for file in table()[definition].files()]
    listed = sorted(change for name, change in same() if name == '.'.join(definition))
    whole = '\0'.join([text_of(definition), *texts, *listed])
    return hashlib.sha256(whole.encode()).hexdigest()[:16]


def text_of(definition: Definition) -> str:
    return library().file(*definition[:2]).paragraphs[definition[2]][1]


def kept() -> dict[Definition, Tried]:
    """What changes.txt says of definitions whose text and theorems are the same."""
    names, found = {'.'.join(key): key for key in covered()}, dict[Definition, Tried]()
    for line in (SOURCES / 'changes.txt').read_text().splitlines()[1:]:
        name, text, *counts = line.split(' | ')
        if name in names and text == sum_of(names[name]):
            found[names[name]] = Tried(text, tuple(map(int, counts)))
    return found


def keep(found: dict[Definition, Tried]) -> None:
    rows = [['definition', 'sum', *VERDICTS]]
    for key, tried in sorted(found.items()):
        rows.append(['.'.join(key), tried.sum, *map(str, tried.counts)])
    (SOURCES / 'changes.txt').write_text(''.join(' | '.join(row) + '\n' for row in rows))


def totals() -> dict[str, int]:
    """How many changes there are, and how many of each verdict have been found."""
    found = kept()
    counts = {verdict: sum(tried.counts[i] for tried in found.values())
              for i, verdict in enumerate(VERDICTS)}
    every = sum(len([*changes(text_of(key))]) for key in covered())
    return {'all': every, 'tried': sum(counts.values()), 'definitions': len(found), **counts}


def judged(base: Build, definition: Definition, tasks: list[Change]) -> Iterator[Attempt]:
    """Tries changes of a definition."""
    row = table()[definition]
    with concurrent.futures.ThreadPoolExecutor(workers()) as pool:
        for each in pool.map(lambda task: attempt(base, definition, task, row), tasks):
            listed = ('.'.join(definition), each.change) in same()
            yield each._replace(verdict='same') if each.verdict == 'accepted' and listed else each


def chosen(names: list[str], every: int) -> Iterator[tuple[Definition, list[Change]]]:
    """The changes of the crates, files or definitions named, or of what is not yet tried."""
    found, count = kept(), 0
    for key in covered():
        words = {key[0], '.'.join(key[:2]), '.'.join(key), key[2]}
        if words & set(names) or not names and (every > 1 or key not in found):
            tasks = [*changes(text_of(key))]
            yield key, tasks[-count % every::every]
            count += len(tasks)


def check_changes(base: Build, names: list[str], every: int) -> Iterator[tuple[str, bool]]:
    """Tries changes, all of a definition or one of so many, and keeps what was found of all."""
    found = kept()
    for key, tasks in chosen(names, every):
        attempts = [*judged(base, key, tasks)]
        yield from (said(key, each) for each in attempts)
        counts = collections.Counter(each.verdict for each in attempts)
        if every == 1 and not counts['accepted']:
            found[key] = Tried(sum_of(key), tuple(counts[verdict] for verdict in VERDICTS))
            keep(found)
    if every == 1 and not names:
        done = {'.'.join(key): key in found for key in covered()}
        yield from ((f'{name}: not all changes are refused', done[name]) for name in done)


def said(definition: Definition, each: Attempt) -> tuple[str, bool]:
    if each.verdict == 'too long':
        print(f'{".".join(definition)}: `{each.change}` takes too long in {each.where}')
    return f'{".".join(definition)}: no theorem refuses `{each.change}`', each.verdict != 'accepted'


def summary() -> str:
    counts = totals()
    return (f'changes: {counts["tried"]} of {counts["all"]} tried, {counts["refused"]} refused by '
            f'a theorem, {counts["same"]} mean the same, {counts["no term"]} do not type-check, '
            f'{counts["too long"]} took more than {SECONDS} s')
