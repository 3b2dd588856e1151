"""Takes each guard of the crate of plain Rust out of a copy, or gives it a wrong condition, one at
a time, and sees that a test misses it.

A guard is a call of `check`, of `some`, or of another function that tools/checks/taken_out.rs has.
In the copy each calls the function of that file, with a number, which the variable GUARD takes out:
then `check` tests nothing, `some` has a value of zeros, and a sum, a number or a product wraps. Or
it chooses one of the neighbours of an argument, such as `m >= zero()` for `m > zero()`, which
tools/checks/neighbours.py lists. So the copy is built once, in release, where Rust finds no
overflow.

The tests are those of rust/tests/domains that name a call, and those of one's own types. A test
misses the guard if it fails and prints the guard's reason, or does not end."""
import functools
import json
import os
import re
import shutil
import subprocess
import tempfile
from collections.abc import Iterator
from concurrent.futures import ThreadPoolExecutor
from dataclasses import dataclass
from pathlib import Path

from tools import DEBIAN, ROOT, write
from tools.checks.neighbours import neighbours
from tools.erase.library import Made, Module
from tools.erase.source import Item, Unknown

RUST = ROOT / 'rust'
TAKEN_OUT = Path(__file__).resolve().parent / 'taken_out.rs'
TESTS = ('domains', 'guards', 'own_type')        # of rust/tests
MANY = re.compile(r'mod (?:small|slices|wide);\n')      # the parts of `domains` with many numbers
SECONDS = '20'                                  # that they may take
ENDLESS = 'a test does not end'
# The forms that mean the same, by the file of the guard and what it panics with: with the reason.
MODULUS = 'the modulus is not positive'
CONGRUENCES = 'modular/several_congruences.rs'
ONE_MODULUS = 'a modulus is not positive'
LATER = 'a later guard panics so too'
SAME = {
    ('integer_core/guards.rs', '',
     '(number >= T::zero() || number == crate::taken_out::minus_one()) '
     '&& number.magnitude() == magnitude'): 'no number of magnitude 1 is made of another magnitude',
    ('applied/rolling_hash.rs', MODULUS, ''): LATER,
    ('applied/rolling_hash.rs', MODULUS, 'modulus >= 0'): LATER,
    ('applied/rolling_hash.rs', MODULUS, 'base > 0'): LATER,
    (CONGRUENCES, ONE_MODULUS, ''): LATER,
    (CONGRUENCES, ONE_MODULUS, '&congruences[congruences.len().min(1)..]'): LATER,
    (CONGRUENCES, ONE_MODULUS, '&congruences[..congruences.len().saturating_sub(1)]'): LATER}
FEW = 8                                         # of so many guards of a kind, one is in the sample


@dataclass
class Guard:
    """A call of a guard: the places of its path, and of the bracket behind it."""
    number: int
    module: Module
    first: int
    opening: int

    @property
    def name(self) -> str:
        return self.module.source.at(self.opening - 1)

    @property
    def reason(self) -> str:
        """The reason that it panics with, or an empty text if its function has it of a caller."""
        source = self.module.source
        texts = (source.at(k) for k in range(self.opening, source.close(self.opening))
                 if source.kind(k) == 'text')
        return next(texts, '').strip('"')

    @property
    def file(self) -> str:
        return str(Path(*self.module.source.path.parts[3:]))

    def __str__(self) -> str:
        reason = f'"{self.reason}"' if self.reason else 'a reason'
        place = f'rust/src/{self.file}:{self.module.source.line(self.first)}'
        return f'{self.number}: `{self.name}` with {reason}, {place}'

    def arguments(self) -> list[tuple[int, int]]:
        """The first and the last place of each argument but the reason."""
        source, k, found = self.module.source, self.opening + 1, list[tuple[int, int]]()
        while k < source.close(self.opening):
            end = source.end(k, ',')
            found.append((k, end - (source.at(end) == ',')))
            k = found[-1][1] + 2
        return found[:-1]

    def text(self, places: tuple[int, int]) -> str:
        return ' '.join(self.module.source.text(*places).split())

    def function(self) -> Item:
        """The function in which it stands."""
        return next(item for top in self.module.items for item in top.all()
                    if item.kind == 'fn' and item.open and item.open < self.first < item.last)

    def types(self) -> dict[str, str]:
        """The parameters of that function, with their types."""
        source = self.module.source
        opening, closing = source.parameters(self.function())
        found = re.findall(r'(\w+): ((?:[^,(<]|\([^)]*\)|<[^>]*>)+)',
                           source.text(opening + 1, closing - 1) if closing > opening + 1 else '')
        return dict(found)

    @functools.cached_property
    def neighbours(self) -> list[tuple[int, str]]:
        return list(neighbours(self.name, map(self.text, self.arguments()), self.types()))

    def take(self) -> None:
        """Lets the call be that of taken_out.rs, with a choice in the place of each argument that
        has neighbours. That reads a variable, so the function is no `const fn`."""
        source, word = self.module.source, self.function().word
        if source.at(word - 1) == 'const':
            source.drop(word - 1, word - 1)
        arguments, other = self.arguments(), list(enumerate(self.neighbours, 1))
        for place, (first, last) in enumerate(arguments):
            arms = ''.join(f'{k} => {text}, ' for k, (of, text) in other if of == place)
            if arms:
                choice = f'match crate::taken_out::form({self.number}) {{ {arms}_ => '
                source.texts[source.code[first]] = choice + source.texts[source.code[first]]
                source.texts[source.code[last]] += ' }'
        source.drop(self.first, self.opening)
        source.texts[source.code[self.first]] = f'crate::taken_out::{self.name}({self.number}, '


class Crate(Made):
    """The crate of plain Rust in a folder, with its guards."""

    def __init__(self, folder: Path) -> None:
        super().__init__(folder)
        names = set(re.findall(r'pub\(crate\) fn (\w+)', TAKEN_OUT.read_text()))
        found = ((module, *places) for module in self.modules.values()
                 for places in self.calls(module, names))
        self.guards = [Guard(number, *call) for number, call in enumerate(found, 1)]

    def calls(self, module: Module, names: set[str]) -> Iterator[tuple[int, int]]:
        """The calls in a module: of each the places of its path, and of the bracket behind it."""
        at = module.source.at
        for k in range(len(module.source.code)):
            path = module.source.path_at(k)
            opening = k + 3 * len(path) - 2
            if path[-1] in names and at(opening) == '(' and at(k - 1) not in ('fn', '.', ':'):
                found = self.named(module, path)
                if found and found[0].path[-1:] == ('guards',):
                    yield k, opening

    def write(self) -> None:
        """Writes the calls of taken_out.rs, and that file."""
        for guard in self.guards:
            guard.take()
        super().write()
        root = self.folder / self.name / 'src' / 'lib.rs'
        text = root.read_text().replace('#![forbid(unsafe_code)]', '')
        root.write_text(f'{text}\nmod taken_out;\n')
        shutil.copy(TAKEN_OUT, root.parent)

    def sample(self) -> list[Guard]:
        """A few guards of each kind."""
        kinds = dict.fromkeys(guard.name for guard in self.guards)
        return [guard for kind in kinds
                for guard in [guard for guard in self.guards if guard.name == kind][::FEW]]


def copy(folder: Path) -> Crate:
    """The crate in a folder, with the guards of taken_out.rs."""
    for name in ('src', 'tests'):
        shutil.copytree(RUST / name, folder / 'rust' / name)
    for name in ('Cargo.toml', 'README.md', 'build.rs'):
        shutil.copy(RUST / name, folder / 'rust')
    main = folder / 'rust' / 'tests' / 'domains' / 'main.rs'
    main.write_text(MANY.sub('', main.read_text()))
    write(folder, {'.cargo/config.toml': DEBIAN})
    crate = Crate(folder / 'rust')
    crate.write()
    return crate


def build(folder: Path) -> dict[str, str]:
    """Builds the tests, and returns the programs by name."""
    tests = [word for name in TESTS for word in ('--test', name)]
    command = ['cargo', 'test', '--offline', '--release', '--config', 'profile.release.opt-level=1',
               *tests, '--no-run', '--message-format=json']
    made = subprocess.run(command, cwd=folder / 'rust', capture_output=True, text=True)
    if made.returncode:
        raise Unknown(f'the copy without guards is not built\n{made.stderr}')
    messages = (json.loads(line) for line in made.stdout.splitlines() if line.startswith('{'))
    return {message['target']['name']: message['executable'] for message in messages
            if message.get('executable')}


def failures(programs: dict[str, str], choice: str) -> Iterator[str]:
    """What the programs print that fail with this choice of a guard."""
    variables = os.environ | {'GUARD': choice, 'RUST_BACKTRACE': '0'}
    for name in TESTS:
        run = subprocess.run(['timeout', SECONDS, programs[name], '--quiet'], env=variables,
                             capture_output=True, text=True, check=False)
        if run.returncode:
            yield run.stdout + (ENDLESS if run.returncode == 124 else '')


def is_missed(programs: dict[str, str], guard: Guard, form: int) -> bool:
    """Whether a test fails by the reason of a guard that is taken out or has another form."""
    choice = f'{guard.number}.{form}'
    return any(guard.reason in text or ENDLESS in text for text in failures(programs, choice))


def forms(guards: list[Guard]) -> Iterator[tuple[Guard, int, str]]:
    """What is tried: each guard without its test, and each of its neighbours."""
    for guard in guards:
        yield guard, 0, ''
        yield from ((guard, number, text) for number, (_, text) in enumerate(guard.neighbours, 1))


def check(words: list[str]) -> bool:
    """Whether a test misses each guard, and no form of it that means the same."""
    with tempfile.TemporaryDirectory() as name:
        crate = copy(Path(name))
        tried = list(forms(crate.sample() if '--sample' in words else crate.guards))
        programs = build(Path(name))
        if any(failures(programs, '0')):
            raise Unknown('a test fails with every guard in its place')
        with ThreadPoolExecutor(max_workers=2) as pool:
            found = list(pool.map(lambda one: is_missed(programs, *one[:2]), tried))
    keys = [(guard.file, guard.reason, text) for guard, _, text in tried]
    same = [key in SAME for key in keys]
    wrong = [f'{"a" if missed else "no"} test misses {guard}, with `{text or "no condition"}`'
             for (guard, _, text), missed, as_before in zip(tried, found, same)
             if missed == as_before]
    if '--sample' not in words:
        wrong += [f'no guard has {row}' for row in SAME.keys() - set(keys)]
    out = sum(not text for _, _, text in keys)
    conditions = sum(bool(key[2]) for key in keys if key not in SAME)
    print(*wrong, f'{out} of {len(crate.guards)} guards are taken out, and get {conditions} wrong '
          f'conditions or arguments, one at a time: {len(wrong)} are not missed', sep='\n')
    return not wrong
