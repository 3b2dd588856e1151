"""Where the prover rejects each mutant of CI, crates/NAME/must-fail/*.edit.

    tools/cellarcove make refusals [NAME..]

tries those of these crates, or of all, that refusals.txt does not have, two crates side by side.
Those of a crate are tried together in a copy of it, which begins with what `rt check` has kept,
and only the functions that they change are checked: no proof rests on the code of another
function. Of the proof of each, the answer to the clause that the first line names is taken away,
so that its goal is open. So are the answers that have an error, since they no longer fit. The
goals that are then left are those open ones, and those that the search of the prover does not
prove.

A mutant is rejected at a clause if each goal that is left is a clause of the function or of a call
that it makes, and the first line of the mutant names one of them: all else is proved. A star is on
each goal whose search met a limit. refusals.txt has what was found, and a checksum of each mutant.
`tools/cellarcove check refusals` compares the table with the mutants, and docs/TESTING.md with its
counts. It needs no prover.

    tools/cellarcove check refused LOG

reads what `rt ci` printed, and compares the page with where the mutants were rejected there, with
the proofs as they are: at a clause, at a limit of the search, or in an answer. If not all were
tried in that run, nothing is compared."""
import concurrent.futures
import functools
import hashlib
import itertools
import re
import shutil
import subprocess
import tempfile
from collections import Counter
from collections.abc import Callable, Container, Iterable, Iterator
from pathlib import Path
from typing import NamedTuple

from tools import ROOT, counted, dependencies
from tools.checks import edits
from tools.erase.library import Library, Module, Place
from tools.erase.source import Item

TABLE, PAGE = ROOT / 'tools/checks/refusals.txt', ROOT / 'docs/TESTING.md'
JOBS = 2
IN_ANSWER = re.compile(r'(?:note: )?(?:\./)?(proofs/\S+/Answers\.antt):(\d+):\d+: error(.*)')
HOLE = re.compile(r'(?:\./)?(proofs/\S+\.antt):(\d+):\d+: goal \? in `([\w-]+)`')
OPEN = re.compile(r'(?:note: )?(?:\./)?(src/\S+|proofs/\S+):(\d+):\d+: it .*\(`([\w-]+)`\)(.*)')
ENTRY = re.compile(r'pub ([\w-]+) : goal\.')
STALE = re.compile(r'is not in scope|has no field|has no `')
LIMIT = 'gave up at one of its limits'
REFUSED = re.compile(r'must-fail (\w+/\w+)\.edit: refused, as it must be(?: \([^)]*\))?: (.*)')


class Tried(NamedTuple):
    """What a check said: the places of the errors in answers, each with whether its goal is no
    longer there; and each goal that is left, by the file and the line, with whether its search met
    a limit."""
    errors: list[tuple[str, int, bool]]
    goals: dict[tuple[str, int, str], bool]


def tried(said: str) -> Tried:
    """What the lines of a check say."""
    errors, goals = list[tuple[str, int, bool]](), dict[tuple[str, int, str], bool]()
    for line in said.splitlines():
        if match := IN_ANSWER.match(line):
            errors.append((match[1], int(match[2]), bool(STALE.search(match[3]))))
        elif match := HOLE.match(line):
            goals[match[1], int(match[2]), match[3]] = False
        elif match := OPEN.match(line):
            goals[match[1], int(match[2]), match[3]] = LIMIT in match[4]
    return Tried(errors, goals)


def opened(text: str, chosen: Callable[[str, range], bool], stale: Container[int] = ()) -> str:
    """A file of answers in which those are taken away that are chosen by their goal and their
    lines. A goal is then open, or nothing stands there if it is stale."""
    kept, at = [], 1
    for part in re.split(r'\n(?=pub )', text):
        lines = range(at, at + part.count('\n') + 1)
        at, entry = lines.stop, ENTRY.match(part)
        if not entry or not chosen(entry[1], lines):
            kept.append(part)
        elif not any(line in stale for line in lines):
            head, _, answer = part.partition('\n')
            kept.append(f'{head}\n{answer.partition(" =")[0]} = ?\n')
    return '\n'.join(kept)


def stands_in(places: Container[int], _: str, lines: range) -> bool:
    """Whether one of some places is in the lines of an answer."""
    return any(line in places for line in lines)


def is_clause(goal: str) -> bool:
    """Whether a goal is a clause: what a function ensures, or what a call requires."""
    return goal.startswith('return') or 'requires' in goal


def is_named(goal: str, line: str) -> bool:
    """Whether the first line of a mutant names the clause of a goal. A goal without the name of a
    clause is all that the function ensures, or all that a call of that name requires."""
    place, _, clause = goal.partition('-clause-')
    if not clause and goal.startswith('return'):
        return True
    return is_clause(goal) and f'`{clause or place.partition("-")[0]}`' in line


class Function(NamedTuple):
    """A function by its name for `rt check --only`, with the place of its proof, and of its
    text."""
    name: str
    proof: str
    file: str
    lines: range
    text: str

    def has(self, file: str, line: int) -> bool:
        return file.startswith(f'{self.proof}/') or file == self.file and line in self.lines


def functions(root: Path, crate: str) -> Iterator[Function]:
    """The functions of a crate."""
    modules = [module for module in Library(root, [crate]).modules.values()
               if module.crate == crate]
    types = {item.name: module.path for module in modules for item in module.items
             if item.kind in ('struct', 'enum')}
    for module in modules:
        file = str(module.source.path).rpartition(f'{crate}/')[2]
        whole = (root / crate / file).read_text()
        for path, text in texts_of(module, types):
            first = whole.count('\n', 0, whole.index(text)) + 1
            lines = range(first, first + text.count('\n') + 1)
            proof = '/'.join(('proofs', *path))
            yield Function('::'.join((crate, *path)), proof, file, lines, text)


def texts_of(module: Module, types: dict[str, Place]) -> Iterator[tuple[Place, str]]:
    """Each function of a module, by its path in the crate, with its text. The path of a type's own
    function is that of the type."""
    for item in module.items:
        for function in (each for each in (item, *item.items) if each.kind == 'fn'):
            owner = 'Any' if re.fullmatch('[A-Z]', item.name) else item.name
            owner = owner[:1].upper() + owner[1:] + (item.of_trait or '')
            # `TryFrom<i64>` of `Bounded` is `BoundedTryFromI64`.
            if of := re.match(rf'impl.*?\b{item.of_trait}<(\w+)> for', head(module, item)):
                owner += of[1].capitalize()
            own = item.kind == 'impl' and not item.of_trait
            place = types.get(item.name, module.path) if own else module.path
            path = (*place, *([] if function is item else [owner]), function.name)
            yield path, module.source.text(function.first, function.last)


def head(module: Module, item: Item) -> str:
    """The first line of an item."""
    return module.source.text(item.first, item.last).lstrip().partition('\n')[0]


def changed(known: list[Function], edit: Path) -> list[str]:
    """The names of the functions that a mutant changes."""
    found, file = list[str](), ''
    for match in edits.PAIR.finditer(edit.read_text().partition('\n')[2]):
        file = match['file'] or file
        old = match['old'] or ''
        line = re.compile(rf'^[ \t]*{re.escape(old.strip())}', re.MULTILINE)
        found += [each.name for each in known if old.strip() and each.file == file
                  and (old in each.text or line.search(each.text))]
    return list(dict.fromkeys(found))


class Copy:
    """A copy of a crate and of those below it, in which mutants are tried."""

    def __init__(self, folder: Path, name: str) -> None:
        self.crate, crates = folder / 'crates' / name, dependencies()
        wanted = [name]
        for each in wanted:
            wanted += [below for below in crates[each] if below not in wanted]
        for each in wanted:
            shutil.copytree(ROOT / 'crates' / each, folder / 'crates' / each,
                            ignore=shutil.ignore_patterns('out', 'must-fail*'))
        lines = (ROOT / 'crates.txt').read_text().splitlines(keepends=True)
        (folder / 'crates.txt').write_text(''.join(
            line for line in lines if re.split('[: ]', line)[0] in wanted))
        shutil.copy(ROOT / 'HANDLES', folder)

    def check(self, names: Iterable[str]) -> Tried:
        """What a check of some functions says."""
        only = [word for name in names for word in ('--only', name)]
        command = ['rt', 'check', '--jobs', '1', '--allow-holes', *only]
        ran = subprocess.run(command, cwd=self.crate, stdin=subprocess.DEVNULL,
                             capture_output=True, text=True, check=False)
        found = tried(ran.stdout + ran.stderr)
        if ran.returncode > 1 or not any(found):
            raise edits.BadEdit(f'`rt check` ended with status {ran.returncode}: '
                                f'{(ran.stdout + ran.stderr)[-300:]}')
        return found

    def open_clause(self, names: list[str], line: str) -> None:
        """Takes away the answers of functions to the clause that the first line names."""
        for name in names:
            file = self.crate.joinpath('proofs', *name.split('::')[1:], 'Answers.antt')
            if file.is_file():
                text = file.read_text()
                file.write_text(opened(text, lambda goal, _: is_named(goal, line)))

    def open_errors(self, found: Tried) -> None:
        """Takes away the answers that have errors, or the file if an error is in something else."""
        for name in sorted({name for name, *_ in found.errors}):
            file = self.crate / name
            places = {line: stale for other, line, stale in found.errors if other == name}
            text = file.read_text()
            new = opened(text, functools.partial(stands_in, list(places)),
                         [line for line, stale in places.items() if stale])
            if new != text:
                file.write_text(new)
            else:
                file.unlink()

    def judge(self, batch: list[Path]) -> list[str]:
        """Where each mutant is rejected, and the goals that are left. They change other
        functions."""
        known = list(functions(self.crate.parent, self.crate.name))
        lines, names = list[str](), list[list[str]]()
        for edit in batch:
            match, texts = edits.apply(self.crate, edit)
            for name, text in texts.items():
                (self.crate / name).write_text(text)
            lines.append(match.string)
            names.append(changed(known, edit))
            self.open_clause(names[-1], match.string)
        every = [name for own in names for name in own]
        found = self.check(every)
        for _ in range(3):
            if found.errors:
                self.open_errors(found)
                found = self.check(every)
        now = {each.name: each for each in functions(self.crate.parent, self.crate.name)}
        return [then(of([now[name] for name in own], found), line)
                for own, line in zip(names, lines)]


def of(own: list[Function], found: Tried) -> Tried:
    """What a check said of some functions."""
    errors = [error for error in found.errors if any(each.has(*error[:2]) for each in own)]
    goals = {goal: at_limit for goal, at_limit in found.goals.items()
             if any(each.has(*goal[:2]) for each in own)}
    return Tried(errors, goals)


def then(found: Tried, line: str) -> str:
    """Where a check has ended, and the goals that are left."""
    goals = {goal: f'{goal}{"*" * at_limit}' for (_, _, goal), at_limit in found.goals.items()}
    if found.errors:
        return 'answer'
    named = [goal for goal in goals if is_named(goal, line)]
    is_at_clause = named and all(map(is_clause, goals))
    return ' '.join(['clause' if is_at_clause else 'goal', *goals.values()])


def sum_of(edit: Path) -> str:
    return hashlib.sha256(edit.read_bytes()).hexdigest()[:8]


def mutants() -> dict[str, Path]:
    """The mutants of CI by their names."""
    found = sorted(ROOT.glob('crates/*/must-fail/*.edit'))
    return {f'{edit.parent.parent.name}/{edit.stem}': edit for edit in found}


class Row(NamedTuple):
    """A line of the table: a mutant, its checksum, where it is rejected, and the goals that are
    left."""
    name: str
    checksum: str
    kind: str
    goals: list[str]


def rows(text: str) -> dict[str, Row]:
    parts = (line.split() for line in text.splitlines() if line and not line.startswith('#'))
    return {part[0]: Row(part[0], part[1], part[2], part[3:]) for part in parts}


def told(table: dict[str, Row]) -> list[str]:
    """What docs/TESTING.md says of the table."""
    kinds = Counter(row.kind for row in table.values())
    count = len(table) - kinds['untried']
    at_limit = sum(row.kind == 'clause' and any(goal.endswith('*') for goal in row.goals)
                   for row in table.values())
    return [f'Of {count} mutants that were tried so, {kinds["clause"]} are rejected at a clause',
            f'at {at_limit} of them the search met a limit']


def judged(edits_now: dict[str, Path], table: dict[str, Row],
           page: str) -> Iterator[tuple[str, bool]]:
    """Each mutant and each line of the table, and what the page says of them."""
    how = 'run `tools/cellarcove make refusals`'
    for name, edit in edits_now.items():
        row = table.get(name)
        is_there = row is not None and row.checksum == sum_of(edit)
        yield f'{name}: not in {TABLE.name}: {how}', is_there
    for name in table:
        yield f'{name}: in {TABLE.name}, and no mutant: {how}', name in edits_now
    text = ' '.join(page.split())
    for said in told(table):
        yield f'{PAGE.name} does not say: {said}', said in text


def check(_: list[str]) -> bool:
    return counted(judged(mutants(), rows(TABLE.read_text()), PAGE.read_text()))


def refused(log: str) -> dict[str, str]:
    """Where a run of `rt ci` rejected each mutant that it tried. It prints the begin of a
    message."""
    found = {}
    for name, said in REFUSED.findall(log):
        at_limit = 'limit' if re.search(r'\); `(?:s|g)', said) else 'clause'
        found[name] = 'answer' if re.match(r'(?:note: )?(?:\./)?proofs/', said) else at_limit
    return found


def check_log(words: list[str]) -> bool:
    found = refused(Path(words[0]).read_text(errors='replace'))
    if set(found) != set(mutants()):
        return counted([(f'{len(found)} mutants were tried, so nothing is compared', True)])
    kinds, page = Counter(found.values()), ' '.join(PAGE.read_text().split())
    said = (f'{kinds["clause"]} at a clause, {kinds["limit"]} at a limit of the search and '
            f'{kinds["answer"]} in an answer')
    return counted([(f'{PAGE.name} does not say: {said}', said in page)])


def batches(name: str, wanted: list[str]) -> list[list[str]]:
    """Mutants of a crate, in as few lists as there are mutants of one function."""
    known, found = list(functions(ROOT / 'crates', name)), mutants()
    lists: list[tuple[set[str], list[str]]] = []
    for each in wanted:
        own = set(changed(known, found[each]))
        free = next((pair for pair in lists if not own & pair[0]), (set[str](), list[str]()))
        if not free[1]:
            lists.append(free)
        free[0].update(own)
        free[1].append(each)
    return [batch for _, batch in lists]


def try_crate(name: str, wanted: list[str]) -> list[Row]:
    """Tries mutants of a crate."""
    tried_now, found = list[Row](), mutants()
    for batch in batches(name, wanted):
        with tempfile.TemporaryDirectory(prefix='refusals-') as folder:
            said = Copy(Path(folder), name).judge([found[each] for each in batch])
        for each, (kind, *goals) in zip(batch, map(str.split, said)):
            print(each, kind, *goals, flush=True)
            tried_now.append(Row(each, sum_of(found[each]), kind, goals))
    return tried_now


def make(names: list[str]) -> bool:
    """Tries the mutants that the table does not have, and writes the table."""
    lines = TABLE.read_text().splitlines(keepends=True)
    head = ''.join(line for line in lines if line.startswith('#'))
    old, table = rows(TABLE.read_text()), dict[str, Row]()
    wanted: dict[str, list[str]] = {}
    for name, edit in mutants().items():
        row, crate = old.get(name), name.partition('/')[0]
        table[name] = Row(name, sum_of(edit), 'untried', [])
        if row and row.checksum == sum_of(edit):
            table[name] = row
        if table[name].kind == 'untried' and (not names or crate in names):
            wanted.setdefault(crate, []).append(name)
    with concurrent.futures.ThreadPoolExecutor(JOBS) as pool:
        found_of_crates = pool.map(try_crate, wanted.keys(), wanted.values())
        for found in itertools.chain([list[Row]()], found_of_crates):
            table |= {row.name: row for row in found}
            rest = (' '.join([*row[:3], *row.goals]) for _, row in sorted(table.items()))
            TABLE.write_text(head + ''.join(f'{line}\n' for line in rest))
    return True
