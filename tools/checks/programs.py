"""Compares two programs `intcalc`: what each prints, and its status.

    tools/cellarcove check programs PROGRAM OTHER [COUNT]

It asks them for the worked rows and the other fixed cases of crates/tests and those of
docs/INTCALC.md, whose lines it knows, and for COUNT requests at random, a thousand if none is
given. Some outputs are a full device, closed, or a pipe that nobody reads: then it compares the
status."""
import os
import pathlib
import random
import re
import subprocess
from collections.abc import Iterator
from concurrent.futures import ThreadPoolExecutor

from tools import ROOT, counted

TESTS = ROOT / 'crates/tests/src/tests'
TYPES = {'signed': ('i8', 'i64'), 'unsigned': ('u8', 'u64'), 'native': ('i8', 'u8', 'i64', 'u64')}
KINDS = {'i8': (-2**7, 2**7 - 1), 'u8': (0, 2**8 - 1), 'i64': (-2**63, 2**63 - 1),
         'u64': (0, 2**64 - 1)}
TEXT = r'"((?:[^"\\]|\\.)*)"'
ODD = ('', '-', '+1', '007', '-0', '--1', '1 ', '1_0', '٣', '\udcff', '9' * 100, '-' + '9' * 100,
       str(2**127), str(-2**127 - 1))
OUTPUTS = ('full', 'closed', 'unread')
SEED = 20261129
Request = tuple[list[str], str | None]                  # the words, and the line if it is known


def calls() -> dict[str, int]:
    """The calls of the program, with the number of their operands."""
    text = (ROOT / 'crates/intcalc_core/src/words.rt').read_text()
    found = re.findall(r'"(\w+)" => Some\(Call::\w+\(([^)]*)\)\)', text)
    return {name: operands.count(',') + 1 for name, operands in found}


def worked_rows() -> Iterator[Request]:
    """The rows of the types and calls that the program has."""
    for row in re.findall(TEXT, (TESTS / 'worked_rows.rt').read_text()):
        asked, _, cases = row.partition(': ')
        types, _, call = asked.partition(' ')
        for kind in (kind for name in types.split('/') for kind in TYPES.get(name, (name,))
                     if kind in KINDS and call in calls()):
            for case in cases.split(', '):
                operands, _, line = case.partition(' = ')
                yield from (([kind, call, *words.split(' ')], line)
                            for words in operands.split(' or '))


def part(text: str, name: str) -> str:
    """The text of a constant."""
    return re.search(rf'\b{name}: .*?;\n', text, re.S)[0]         # type: ignore[index]


def fixed() -> Iterator[Request]:
    """The other cases: words that ask for no call, words of numbers, calls, and operands that do
    not fit."""
    for words, line in re.findall(r'^\| `(\w+ [^`]*)` \| `([^`]*)` \|',
                                  (ROOT / 'docs/INTCALC.md').read_text(), re.M):
        yield ['i64', *words.split(' ')], line
    program, outcomes = (TESTS / f'{name}.rt' for name in ('program', 'program/outcomes'))
    text = program.read_text()
    for row in re.findall(TEXT, part(text, 'USAGE')):
        yield from ((words.split(' '), 'usage') for words in row.split(', '))
    for words in re.findall(r'&\[((?:"[^"]*"(?:, )?)*)\]', part(text, 'NO_CALLS')):
        yield re.findall(TEXT, words), 'usage'
    for word in [*re.findall(rf'\({TEXT}, ', part(text, 'NUMBERS')), *ODD]:
        yield from (([kind, 'gcd', word, '0'], None) for kind in KINDS)
    for words in re.findall(TEXT, part((TESTS / 'program/requests.rt').read_text(), 'REQUESTS')):
        yield words.split(' '), None
    for kind, call, operands in re.findall(r'Kind::(\w+), Call::(\w+)\(([^)]*)\)',
                                           part(outcomes.read_text(), 'OUT_OF_TYPE')):
        name = re.sub(r'(?<!^)([A-Z])', r'_\1', call).lower()
        numbers = operands.replace('i128::MIN', str(-2**127)).replace('i128::MAX', str(2**127 - 1))
        yield [kind.lower(), name, *numbers.split(', ')], 'refused 1 OutOfType'


def number(chance: random.Random, kind: str) -> str:
    """A word, for most a number of the type."""
    low, high = KINDS[kind]
    form = chance.randrange(12)
    if form == 0:
        return chance.choice(ODD)
    if form < 4:
        return str(chance.choice((low, high, 0, low // 2, high // 2)) + chance.randint(-2, 2))
    if form < 8:
        return str(chance.randint(-20, 70) if low else chance.randint(0, 70))
    return str(chance.randint(low >> (bits := chance.randrange(1, high.bit_length())),
                              high >> bits))


def at_random(count: int) -> Iterator[Request]:
    chance, known = random.Random(SEED), calls()
    for _ in range(count):
        kind, call = chance.choice([*KINDS]), chance.choice([*known])
        size = known[call] if chance.randrange(30) else chance.randrange(6)
        words = [kind, call, *(number(chance, kind) for _ in range(size))]
        if not chance.randrange(40):
            words[chance.randrange(2)] = chance.choice(('', 'i16', 'I64', 'divides', 'gcd ',
                                                        'lcm\n'))
        yield words, None


def outcome(program: str, words: list[str], output: str) -> tuple[int, bytes]:
    """The status of a program, and what it prints."""
    command = [os.fsencode(word) for word in [program, *words]]
    if output == 'closed':
        return subprocess.run([b'sh', b'-c', b'exec "$0" "$@" >&-', *command],
                              check=False).returncode, b''
    if output == 'full':
        with open('/dev/full', 'wb') as full:
            return subprocess.run(command, stdout=full, check=False).returncode, b''
    if output == 'unread':
        unread, end = os.pipe()
        os.close(unread)
        with os.fdopen(end, 'wb') as pipe:
            return subprocess.run(command, stdout=pipe, check=False).returncode, b''
    found = subprocess.run(command, stdout=subprocess.PIPE, check=False)
    return found.returncode, found.stdout


def same(programs: list[str], request: Request, output: str) -> tuple[str, bool]:
    """What went wrong, and whether nothing did."""
    words, line = request
    found = [outcome(program, words, output) for program in programs]
    wanted = (found[0] if line is None or output
              else ({'usage': 2, 'refused': 1}.get(line.split(' ')[0], 0), f'{line}\n'.encode()))
    wanted = (4, b'') if output else wanted
    return f'{words} {output}: {found}, not {wanted}', all(each == wanted for each in found)


def check(words: list[str]) -> bool:
    programs = [str(pathlib.Path(word).resolve()) for word in words[:2]]
    requests = [*worked_rows(), *fixed()]
    asked = [*requests, *at_random(int((words + ['', '', '1000'])[2] or 1000))]
    print(f'{len(requests)} fixed cases')
    with ThreadPoolExecutor(max(2, (os.cpu_count() or 2) // 2)) as pool:
        found = [*pool.map(lambda request: same(programs, request, ''), asked)]
    # A program that another thread starts would hold the reading end of a pipe that nobody reads.
    found += [same(programs, request, output) for request in requests[::25] for output in OUTPUTS]
    return counted(found)
