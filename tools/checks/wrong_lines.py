"""Runs the first line of each mutant, crates/NAME/must-fail/*.edit and
crates/NAME/must-fail-release/*.edit, as plain Rust: those of the crates of the names that are
given, or all.

``wrong: at is_even(3) it returns true, and its clause asks for false.`` has a call and two values,
which are expressions of Rust. On the sources the call has to return the second value, and with the
edit the first one, and a function of the call has to have the clause. If a line says that the call
overflows, it has to panic with the edit, since a number overflows. The contracts are taken out of
each crate, and nothing stands in their place, since a guard could hide a wrong value. cargo builds
with overflow checks, and with the package num-traits of Debian.

A call stands in a module of its own within the file that the edit changes. So it may name what is
private there. A text in quotes is a `String` if the call ends with `.to_string()`. prelude/ has
what else a line may name. Values are compared as `{:?}` prints them, and only the sources compute
those that a line names. Two mutants are tried side by side. edits.py has the forms of the
lines."""
import concurrent.futures
import os
import re
import subprocess
import tempfile
import tomllib
from collections.abc import Iterable, Sequence
from dataclasses import dataclass, field
from pathlib import Path

from tools.erase.deletion import GHOST_NAMES, Deletion
from tools.erase.library import Library
from tools.erase.source import Item, Source, Unknown
from tools import DEBIAN, REGISTRY, ROOT, dependencies, filled, write
from tools.checks import edits

PRELUDE = Path(__file__).parent / 'prelude'
JOBS = 2
SECONDS = '300'                                 # for a build and the calls of a program
# The clauses of its traits.
OF_TRAITS = {'add_gives', 'cmp', 'eq', 'from_gives', 'from_str_gives', 'from_str_radix_gives',
             'hash_input', 'is_default', 'mul_gives', 'neg_gives', 'output', 'partial_cmp',
             'rem_gives', 'steps', 'sub_gives', 'try_from_gives'}
TABLES = tomllib.loads((PRELUDE / 'preludes.toml').read_text())
TEMPLATES = PRELUDE.parent / 'templates'
# What the library of Rattle has otherwise than that of Rust: imports of these are dropped, and
# prelude/intcalc.rs has them.
OF_RATTLE = {'Args', 'Global'}


class Failed(Exception):
    """What cargo or a program says."""


class Plain(Deletion):
    """A file of a crate as Rust, without its contracts, its tests, the `main` of a program and its
    comments. Each type prints its values."""
    dropped = {'tactic', 'cycle', 'no_std', 'rattlefmt', 'unsafe', 'repr'}

    def __init__(self, path: Path, text: str) -> None:
        super().__init__(Source(path, text))
        for i, token in enumerate(self.source.tokens):
            if token.kind in ('line', 'block'):
                self.texts[i] = ''
        self.items(self.source.items())

    def rust(self) -> str:
        return ''.join(self.texts)

    def goes(self, item: Item) -> bool:
        return super().goes(item) or (item.kind, item.name) == ('fn', 'main')

    def dress(self, item: Item, owner: Item | None) -> None:
        derived = [self.at(k) for first, last in item.attributes for k in range(first, last)]
        if item.kind in ('struct', 'enum') and 'Debug' not in derived:
            self.put_before(item.first, '#[derive(Debug)]\n')

    def use(self, item: Item) -> None:
        """Drops the names that Rust does not have."""
        names = {name for _, name in self.source.imports(item)}
        if names & OF_RATTLE or names <= GHOST_NAMES:
            self.drop(item.first, item.last)
        for k in range(item.first, item.last):
            if self.at(k) in GHOST_NAMES:
                self.drop_from_list(k)

    def word(self, k: int) -> None:
        super().word(k)
        if self.at(k) == 'collect' and self.at(k + 1) + self.at(k + 2) == '(alloc':
            self.write(k, 'collect_with')


def erased(crate: str, name: str, text: str) -> str:
    """A file of a crate as Rust."""
    old, new = TABLES['changed'].get(f'{crate}/{name}', ('', ''))
    if old and text.count(old) != 1:
        raise Unknown(f'crates/{crate}/{name}: not one `{old.strip()}`, which '
                      'tools/checks/wrong_lines.py changes')
    text = text.replace(old, new)
    return (Plain(Path('crates', crate, name), text).rust()
            + (of_prelude(crate) if name == 'src/main.rt' else ''))


def of_prelude(name: str) -> str:
    return (PRELUDE / f'{name}.rs').read_text()


def place_of(name: str) -> str:
    """The file of Rust that a file becomes. The root of a program becomes that of a library."""
    return name.removesuffix('.rt').replace('src/main', 'src/lib') + '.rs'


@dataclass
class Mutant:
    """A mutant: its file, what its first line says, and the files that it changes, with their
    texts. `told` is what is wrong with the line."""
    number: int
    edit: Path
    said: re.Match[str]
    texts: dict[str, str]
    asked: Sequence[str] = ()
    told: str = ''
    crate: str = field(init=False)
    place: str = field(init=False)

    def __post_init__(self) -> None:
        self.texts = {name: text for name, text in self.texts.items() if name.startswith('src/')}
        self.crate, self.place = (self.edit.parent.parent.name,
                                  place_of(next(iter(self.texts), 'src/lib.rt')))

    def part(self, name: str) -> str:
        """The call, a value or a clause of the line, or an empty text."""
        return self.said.groupdict().get(name) or ''

    def test(self) -> str:
        """The code that prints the call and the values."""
        call, right = self.part('call'), self.part('right')
        values = [value + '.to_string()' if value.startswith('"') and call.endswith('.to_string()')
                  else value for value in (self.part('wrong') or right, right)]
        return filled(TEMPLATES / 'wrong_line.rs', number=str(self.number), call=call,
                      wrong=values[0], right=values[1])


def module_of(mutants: Sequence[Mutant]) -> str:
    """The module with the lines of some mutants of one file."""
    tests = ''.join(mutant.test() for mutant in mutants)
    of_crate = TABLES['preludes'].get(mutants[0].crate, {})
    preludes = ''.join(of_prelude(file) for name, files in of_crate.items() if name in tests
                       for file in files)
    return filled(TEMPLATES / 'wrong_lines.rs', preludes=preludes, tests=tests)


class Crates:
    """The sources of the crates as Rust, and the clauses of their functions."""

    def __init__(self, names: Iterable[str]) -> None:
        self.below = dependencies()
        self.texts: dict[str, dict[str, str]] = {}
        # of functions by their names, with the names of the clauses, or ''
        self.clauses: dict[str, list[tuple[str, str]]] = {}
        for name in names:
            self.add(name)

    def add(self, crate: str) -> None:
        """Reads a crate and those below it."""
        for name in self.below[crate]:
            self.add(name)
        if crate not in self.texts:
            modules = Library(ROOT / 'crates', [crate]).modules.values()
            files = [module.source.path.relative_to(f'crates/{crate}').as_posix()
                     for module in modules]
            items = (item for module in modules for top in module.items for item in top.all()
                     if item.kind == 'fn')
            self.clauses[crate] = [(item.name, clause.name) for item in items
                                   for clause in item.clauses]
            folder = ROOT / 'crates' / crate
            self.texts[crate] = {place_of(file): erased(crate, file, (folder / file).read_text())
                                 for file in files}

    def clauses_of(self, crate: str, functions: Iterable[str]) -> set[str]:
        """The names of the clauses of the functions of these names, in a crate and those below
        it."""
        found = {clause for function, clause in self.clauses[crate] if function in functions}
        return found.union(*(self.clauses_of(name, functions) for name in self.below[crate]))

    def has(self, mutant: Mutant, clause: str) -> bool:
        """Whether a function of the call has the clause. ``sum_fits` of `sum`` is a clause of
        another function, ``tie` of its clause`` a part of a clause."""
        found = self.clauses_of(mutant.crate,
                                re.findall(r'(\w+)(?:::<[^>]*>)?\(', mutant.part('call')))
        part, _, whole = clause.replace('`', '').partition(' of ')
        if 'its clause' in (part, whole):
            return '' in found
        if not whole:
            return part in found | OF_TRAITS
        return (whole in found or ('' if part == 'the clause' else part)
                in self.clauses_of(mutant.crate, [whole]))


class Workspace:
    """The crates in a folder, where cargo builds them."""

    def __init__(self, folder: Path, crates: Crates) -> None:
        self.folder, self.crates = folder, crates
        members = ', '.join(f'"{name}"' for name in crates.texts)
        write(folder, {'Cargo.toml': filled(TEMPLATES / 'mutants.toml', members=members),
                       '.cargo/config.toml': DEBIAN})
        for name, texts in crates.texts.items():
            below = ''.join(f'{other} = {{ path = "../{other}" }}\n'
                            for other in crates.below[name])
            write(folder / name,
                  {'Cargo.toml': filled(TEMPLATES / 'mutant.toml', name=name, below=below),
                   **texts})

    def values(self, crate: str, mutants: Sequence[Mutant],
               changed: dict[str, str]) -> dict[int, list[str]]:
        """Runs the lines of some mutants of a crate, of which some files are changed. Returns what
        each prints, by number."""
        texts = self.crates.texts[crate] | changed
        for place in dict.fromkeys(mutant.place for mutant in mutants):
            texts[place] += module_of([mutant for mutant in mutants if mutant.place == place])
        texts['src/lib.rs'] += of_prelude('show')
        write(self.folder / crate, texts)
        try:
            said = self.cargo('test', '-q', '-p', crate, '--lib', '--', '--nocapture',
                              '--test-threads=1')
        finally:
            write(self.folder / crate, self.crates.texts[crate])
        found = re.findall(r'^(\d+)\t(.*)\t(.*)\t(.*)$', said, re.M)
        return {int(number): values for number, *values in found}

    def cargo(self, verb: str, *words: str) -> str:
        """What cargo prints."""
        flags = {'RUSTFLAGS': '--cap-lints=allow', 'CARGO_TARGET_DIR': str(self.folder / 'target')}
        done = subprocess.run(['timeout', SECONDS, 'cargo', verb, '--offline', *words],
                              cwd=self.folder, env=os.environ | flags, capture_output=True,
                              text=True, check=False)
        if done.returncode:
            raise Failed('it does not end' if done.returncode == 124
                         else (done.stderr.strip() or done.stdout.strip())[-2000:])
        return done.stdout


def ask_sources(workspace: Workspace, mutants: Sequence[Mutant]) -> None:
    """Notes the values of the lines of a crate on the sources. If they cannot be built together,
    each is asked alone."""
    try:
        found = workspace.values(mutants[0].crate, mutants, {})
    except Failed as said:
        if len(mutants) == 1:
            mutants[0].told = f'on the sources: {said}'
        for mutant in mutants if len(mutants) > 1 else ():
            ask_sources(workspace, [mutant])
        return
    for mutant in mutants:
        call, wrong, right = mutant.asked = found.get(mutant.number, ['nothing'] * 3)
        if call != right:
            mutant.told = f'on the sources it returns {call}, and the line asks for {right}'
        elif mutant.part('wrong') and wrong == right:
            mutant.told = 'both values are the same'
        for clause in (mutant.part('clause'), mutant.part('broken')):
            if clause and not workspace.crates.has(mutant, clause):
                mutant.told = f'no function of the call has {clause}'


def try_edits(workspace: Workspace, mutants: Sequence[Mutant]) -> None:
    """Notes how the line of each mutant fails with its edit."""
    for mutant in mutants:
        try:
            changed = {place_of(name): erased(mutant.crate, name, text)
                       for name, text in mutant.texts.items()}
            found = workspace.values(mutant.crate, [mutant], changed)
            call = found.get(mutant.number, ['nothing'])[0]
        except (Failed, Unknown) as said:
            mutant.told = f'with the edit: {said}'
            continue
        if not mutant.part('wrong') and not re.match('a panic: attempt to .* with overflow', call):
            mutant.told = f'with the edit it does not overflow, it returns {call}'
        elif mutant.part('wrong') and call != mutant.asked[1]:
            mutant.told = f'with the edit it returns {call}, and the line says {mutant.asked[1]}'


def judge(mutants: Sequence[Mutant]) -> None:
    """Runs the lines of some mutants, and notes what is wrong with each."""
    if not list(REGISTRY.glob('num-traits-0.2*')):
        raise Unknown(f'{REGISTRY} has no num-traits: tools/gate/install_packages.sh installs it')
    crates = Crates(dict.fromkeys(mutant.crate for mutant in mutants))
    with tempfile.TemporaryDirectory() as folder:
        workspaces = [Workspace(Path(folder, str(number)), crates) for number in range(JOBS)]
        for crate in dict.fromkeys(mutant.crate for mutant in mutants):
            ask_sources(workspaces[0], [mutant for mutant in mutants if mutant.crate == crate])
        left = [mutant for mutant in mutants if not mutant.told]
        with concurrent.futures.ThreadPoolExecutor(JOBS) as pool:
            list(pool.map(try_edits, workspaces, (left[number::JOBS] for number in range(JOBS))))


def check(words: list[str]) -> bool:
    names = words or dependencies()
    found = sorted(edit for suite in edits.SUITES for edit in ROOT.glob(f'crates/*/{suite}/*.edit')
                   if edit.parent.parent.name in names)
    mutants = [Mutant(number, edit, *edits.apply(edit.parent.parent, edit))
               for number, edit in enumerate(found)]
    with_call = [mutant for mutant in mutants if mutant.part('call')]
    judge(with_call)
    for mutant in mutants:
        if mutant.told or mutant.part('reason'):
            print(f'{mutant.edit.relative_to(ROOT)}: '
                  f'{mutant.told or "not run: " + mutant.part("reason")}')
    false = sum(bool(mutant.told) for mutant in mutants)
    print(f'{len(with_call) - false} lines are true, {false} are false, '
          f'{len(mutants) - len(with_call)} are not run')
    return not false and bool(with_call)
