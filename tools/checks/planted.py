"""Plants small wrong bodies in a copy of the crate of plain Rust, at random, and runs the tests
of rust/tests against each.

A mutant changes one place of a function: `<=` for `<`, `-` for `+`, a number by 1, two arguments
exchanged, a condition that always or never holds, `None` for `Some(..)`, an assignment left out.
In the copy a function asks the variable PLANTED for the number of a mutant, so the tests are built
once, with overflow checks. What rustc refuses is no mutant. A test that does not end fails.
Functions that a macro writes have no mutants.

planted.txt lists those that no call tells from the sources, each with the reason below it. Their
names have the file, the function and the line that is changed, as the mutant has it."""
import json
import os
import re
import shutil
import subprocess
import tempfile
from collections.abc import Container, Iterator
from concurrent.futures import ThreadPoolExecutor
from hashlib import sha256
from pathlib import Path
from typing import Any, NamedTuple

from tools import DEBIAN, ROOT, write
from tools.erase.library import Made
from tools.erase.source import COMMENTS, Item, Source, Unknown

HERE = Path(__file__)
SPARE = 2   # so many are planted for each that is asked for, since rustc refuses some
# The seconds of a processor and the kilobytes of a test.
RUN = 'ulimit -t 60 -v 4000000; exec "$0" --quiet'
# No function of the copy is `const`, since it asks for a variable. So a test has no such constant.
CONSTANT = re.compile(
    r'^( +)(?:const|static)(?= \w+: .*\b(?:Date|IsoWeek|Ratio|Weekday|days_in_month)\b)', re.M)

SIGN = re.compile(r'(?<=\s)(?:<<|>>|&&|\|\||[-+<>=!]=|[-+*/%<>])(?=\s)|\b(?:true|false|min|max)\b')
OTHERS = {
    '<': '<=', '<=': '<', '>': '>=', '>=': '>', '==': '!=', '!=': '==', '+': '-', '-': '+',
    '*': '+', '/': '%', '%': '/', '<<': '>>', '>>': '<<', '+=': '-=', '-=': '+=', '&&': '||',
    '||': '&&', 'true': 'false', 'false': 'true', 'min': 'max', 'max': 'min'}
INTEGER = re.compile(r'(?<!\w)(?<![^.]\.)\d(?:[\d_]*\d)?(?=\W|_?[iu](?:\d|size))')
LEFT_OUT = re.compile(r'(?<=[\s(])!(?=[\w(*])|^ *[\w.\[\]]+ [-+*/%]?= [^;{}]*;', re.M)
CONDITION = re.compile(r'\b(if|while) ((?:(?!let\b)[^{}])*?) (?=\{|=>)')
CALL = re.compile(r'(?:(?<=\w)|(?<=[\s(&]))\(')
SOME = re.compile(r'(?<!let )\bSome(?=\()')


def stops(code: str, k: int) -> list[int]:
    """The places of the bracket at `k`, of the commas in it, and of the one that closes it."""
    depth, end, found = 1, k, [k]
    while depth:
        end += 1
        depth += (code[end] in '([{') - (code[end] in ')]}')
        found += [end] * (depth == 0 or depth == 1 and code[end] == ',')
    return found


def changes(body: str, code: str) -> Iterator[tuple[int, int, str]]:
    """Each place of a body, and what is to stand there. `code` has no comments and texts."""
    for found in [*SIGN.finditer(code), *LEFT_OUT.finditer(code)]:
        yield *found.span(), OTHERS.get(found[0], '')
    for found in INTEGER.finditer(code):
        value = int(found[0].replace('_', ''))
        yield from ((*found.span(), str(other)) for other in (value + 1, value - 1) if other >= 0)
    for found in CONDITION.finditer(code):
        others = ('true', 'false') if found[1] == 'if' else ('false',)
        yield from ((*found.span(2), other) for other in others)
    for found in CALL.finditer(code):
        first, comma, last = (stops(code, found.start()) + [0, 0])[:3]
        one, two = body[first + 1:comma].strip(), body[comma + 1:last].strip()
        if one and two:
            yield first + 1, last, f'{two}, {one}'
            if code[:first].endswith('is_below'):
                yield first - 8, last, f'!is_below({two}, {one}'
    for found in SOME.finditer(code):
        end = stops(code, found.end())[-1] + 1
        if not re.match(r'\s*(?:=[^=]|\|\s|if )', code[end:]):
            yield found.start(), end, 'None'


class Mutant(NamedTuple):
    """A function, its body with a place changed, and the name of the change."""
    source: Source
    function: Item
    body: str
    name: str


def mutants_of(source: Source) -> Iterator[Mutant]:
    """The mutants of the functions of a file."""
    file = Path(*source.path.parts[2:])
    items = (item for top in source.items() for item in top.all())
    for function in (item for item in items if item.kind == 'fn' and item.open):
        tokens = source.tokens[source.code[function.open or 0] + 1:source.code[function.last]]
        body = ''.join(token.text for token in tokens)
        hidden = COMMENTS - {'space'} | {'text', 'char'}
        code = ''.join(re.sub('.', ' ', token.text) if token.kind in hidden else token.text
                       for token in tokens)
        for start, end, new in changes(body, code):
            changed = body[:start] + new + body[end:]
            first, last = body.rfind('\n', 0, start) + 1, (body + '\n').index('\n', end)
            line = ' '.join((body[first:start] + new + body[end:last]).split()) or \
                f'without {body[start:end].strip()}'
            if changed != body:
                yield Mutant(source, function, changed, f'{file} {function.name}: {line}')


class Crate(Made):
    """The crate in a folder, and its mutants by number, in an order by chance that others keep."""

    def __init__(self, folder: Path, seed: int) -> None:
        super().__init__(folder)
        self.found = [mutant for (_, path), module in self.modules.items()
                      if path[:1] not in (('definitions',), ('planted',))
                      for mutant in mutants_of(module.source)]
        order = sorted(self.found, key=lambda each: sha256(f'{seed} {each.name}'.encode()).digest())
        self.chosen = dict(enumerate(order, 1))

    def plant(self, count: int, wrong: Container[int] = ()) -> None:
        """Writes the first that are not wrong, each between lines with its number and 0."""
        left = [number for number in self.chosen if number not in wrong]
        self.chosen = {number: self.chosen[number] for number in left[:count]}
        for source in (module.source for module in self.modules.values()):
            source.texts = [token.text for token in source.tokens]
        for number, (source, function, body, _) in self.chosen.items():
            first, last = source.code[function.open or 0], source.code[function.last]
            source.texts[first] += f'if crate::planted::number() == {number} {{\n' \
                f'// planted {number}\n{body}\n// planted 0\n}} else {{'
            source.texts[last] += '}'
        self.write()


def cargo(folder: Path, *words: str) -> list[dict[str, Any]]:
    """What cargo says of the copy."""
    command = ['cargo', *words, '--offline', '--all-features', '--message-format=json']
    made = subprocess.run(command, cwd=folder / 'rust', capture_output=True, text=True)
    said = [json.loads(line) for line in made.stdout.splitlines() if line.startswith('{')]
    if made.returncode and (words[0] != 'check' or not said):
        raise Unknown(f'the copy with mutants is not built\n{made.stderr}')
    return said


def refused(folder: Path) -> set[int]:
    """The numbers of the mutants in which rustc finds an error."""
    found = set[int]()
    for message in (said.get('message', {}) for said in cargo(folder, 'check', '--lib')):
        for span in message.get('spans', []) if message.get('level') == 'error' else []:
            lines = (folder / 'rust' / span['file_name']).read_text().splitlines()
            marks = re.findall(r'^// planted (\d+)$', '\n'.join(lines[:span['line_start']]), re.M)
            found.add(int(['0', *marks][-1]))
        if found == {0}:
            raise Unknown(f'an error outside the mutants\n{message["rendered"]}')
    return found - {0}


def built(folder: Path, count: int, seed: int) -> tuple[Crate, list[str]]:
    """A copy with so many mutants that rustc accepts, and the programs of its tests."""
    others = shutil.ignore_patterns('by_hand', 'benches', 'c', 'num-integer', 'target', '*.lock')
    for name in ('docs', 'rust'):
        shutil.copytree(ROOT / name, folder / name, ignore=others)
    for file in (folder / 'rust').rglob('*.rs'):
        text = re.sub(r'\bconst (?=fn\b)', '', file.read_text())
        file.write_text(CONSTANT.sub(r'\1let', text))
    root = folder / 'rust' / 'src' / 'lib.rs'
    lints = '#![allow(arithmetic_overflow, unconditional_panic)]'
    root.write_text(f'{lints}\n{root.read_text()}\nmod planted;\n')
    shutil.copy(HERE.with_suffix('.rs'), root.parent)
    write(folder, {'.cargo/config.toml': DEBIAN})
    crate = Crate(folder / 'rust', seed)
    crate.plant(SPARE * count)
    while wrong := refused(folder):
        crate.plant(SPARE * count, wrong)
    crate.plant(count)
    said = cargo(folder, 'test', '--tests', '--no-run', '--config', 'profile.dev.opt-level=1')
    programs = [message['executable'] for message in said if message.get('executable')]
    return crate, sorted(programs, key=lambda program: 'domains-' in program)     # the longest


def fails(folder: Path, programs: list[str], number: int) -> bool:
    """Whether a test fails with the mutant of this number."""
    variables = os.environ | {'PLANTED': str(number), 'RUST_BACKTRACE': '0'}
    return any(subprocess.run(['bash', '-c', RUN, program], cwd=folder / 'rust', env=variables,
                              capture_output=True).returncode for program in programs)


def check(words: list[str]) -> bool:
    """Whether a test fails with each mutant that is not equivalent."""
    asked = {'--count': '100', '--seed': '1'} | dict(zip(words[::2], words[1::2]))
    equivalent = HERE.with_suffix('.txt').read_text().splitlines()
    with tempfile.TemporaryDirectory() as name:
        crate, programs = built(Path(name), int(asked['--count']), int(asked['--seed']))
        if fails(Path(name), programs, 0):
            raise Unknown('a test fails without a mutant')
        with ThreadPoolExecutor(int(os.environ.get('RT_JOBS', 2))) as pool:
            found = list(pool.map(lambda n: fails(Path(name), programs, n), crate.chosen))
    kept = [mutant.name for mutant, caught in zip(crate.chosen.values(), found) if not caught]
    missed = [name for name in kept if name not in equivalent]
    print(*missed, f'{len(found)} of {len(crate.found)} mutants, by seed {asked["--seed"]}: '
          f'{len(found) - len(kept)} are caught, {len(kept) - len(missed)} are equivalent, '
          f'{len(missed)} are missed', sep='\n')
    return not missed
