"""Counts what was tried, and writes the counts into pages.

The table `Counts` of docs/TESTING.md has a row for each count, and README.md a sentence with some
of them. Two pages have the sentence of tools/checks/erased.py, and docs/TRUST.md how long that is.
Most are counted in the repository. What only a run of .ci/run can count, such as the tests of other
packages, is in counts.txt:

    tools/cellarcove make counted LOG
    tools/cellarcove check counted LOG

take it from what a run printed, which is in out/passed, or compare it. What the run has left out
stays as it is, and is not compared."""
import re
from collections.abc import Iterator
from pathlib import Path

from tools import ROOT, counted
from tools.bindings.exports import EXPORTS
from tools.checks import erased

TABLE, PAGE, FRONT = ROOT / 'tools/pages/counts.txt', 'docs/TESTING.md', 'README.md'
TRUST = 'docs/TRUST.md'
EACH = 20_000                   # random calls of each export, with one result from both builds
OTHERS = ('num-bigint', 'num-rational', 'bigdecimal', 'num', 'num-iter', 'chrono')
# What a run prints of a count. Those of several lines are added.
PRINTED = {
    'num_integer': r'^those of (?:its library|averages|roots), (\d+) tests: passed$',
    'packages': rf'^those of (?:{"|".join(OTHERS)}), (\d+) tests: passed$',
    'cpython': r"^CPython's own tests, all of Python \S+: (\d+) pass, .*: passed$",
    'crate': r'^its tests, (\d+) tests: passed$',
}
LINES = {'num_integer': 3, 'packages': len(OTHERS)}      # how many lines, if not one
SENTENCE = re.compile(r'^Beside the proofs, .*?\.\n', re.M | re.S)
HEAD = '| what | how many |\n|---|---|\n'
ROWS = re.compile(rf'^{re.escape(HEAD)}(?:\|.*\n)*', re.M)


def in_run(log: str) -> dict[str, int]:
    """The counts that a run printed."""
    found = {name: [*map(int, re.findall(words, log, re.M))] for name, words in PRINTED.items()}
    return {name: sum(numbers) for name, numbers in found.items()
            if len(numbers) == LINES.get(name, 1)}


def of_runs() -> dict[str, int]:
    """The counts of counts.txt."""
    rows = re.findall(r'^(\w+) = (\d+)$', TABLE.read_text(), re.M)
    return {name: int(number) for name, number in rows}


def texts(pattern: str) -> str:
    """The texts of the files of a pattern, one after the other."""
    return '\n'.join(file.read_text() for file in sorted(ROOT.glob(pattern)))


def in_files() -> dict[str, int]:
    """The counts of the repository."""
    tests = ROOT / 'crates/replay/src/tests'
    of_rust = re.findall(r'\b(\d+) (\d+) \d+[,;]', (tests / 'list.rt').read_text())
    # at 64 bits also of the type of the size of a pointer
    of_rust += [*of_rust[3::10], *of_rust[8::10]]
    of_python = re.findall(r'\b(\d+) \d+[,;]|Answered\((\d+),',
                           (tests / 'libraries.rt').read_text())
    coq = re.findall(r'Of (\d+) definitions .*?reaches, (\d+) have', texts('docs/COQ.md'), re.S)
    return {
        'mutants': len([*ROOT.glob('crates/*/must-fail*/*.edit')]),
        'in_ci': len([*ROOT.glob('crates/*/must-fail/*.edit')]),
        'of_rust': sum(int(number) for row in of_rust for number in row),
        'of_python': sum(int(number or 0) for row in of_python for number in row),
        'definitions': int(coq[0][0]), 'in_coq': int(coq[0][1]),
        'theorems': len(re.findall('^- `pub fn ', texts('docs/reference/theorems*.md'), re.M)),
        'callers': len(re.findall(r'^ *pub fn ', texts('crates/callers/src/**/*.rt'), re.M)),
        'exports': len(EXPORTS().calls),
    }


def rows(count: dict[str, int]) -> Iterator[tuple[str, str]]:
    """What is counted, and how many."""
    yield 'mutants, each meant to be wrong, that the prover has to reject', f'{count["mutants"]:,}'
    yield ('calls compared with `num-integer`, and with Python',
           f'{count["of_rust"]:,} and {count["of_python"]:,}')
    yield ('definitions of contracts that have a theorem in Coq',
           f'{count["in_coq"]:,} of {count["definitions"]:,}')
    yield 'theorems on what the calls return', f'{count["theorems"]:,}'
    yield 'proved functions that call the libraries', f'{count["callers"]:,}'
    yield (f'random calls of exports, {EACH:,} of each, with the same results from both builds',
           f'{count["exports"] * EACH:,}')
    yield 'tests of the crate, which run on 32 bits too', f'{count["crate"]:,}'
    yield ('tests of `num-integer`, and of six packages over it',
           f'{count["num_integer"]:,} and {count["packages"]:,}')
    yield "checks in CPython's own tests that hold", f'{count["cpython"]:,}'


def sentence(count: dict[str, int]) -> str:
    """What README.md says of the counts."""
    others = count['num_integer'] + count['packages']
    later = count['mutants'] - count['in_ci']
    return (f'Beside the proofs, CI rejects {count["in_ci"]:,} mutants and a release has to reject '
            f'{later:,} more, Coq relates {count["in_coq"]:,} of {count["definitions"]:,} '
            f'definitions to its library, and {others:,} tests of `num-integer` and its '
            f'dependents pass ([counts](docs/TESTING.md#counts)).')


def wrapped(text: str, width: int = 148) -> str:
    """A paragraph in lines of at most this width."""
    lines = ['']
    for word in text.split():
        lines[-1:] = ([f'{lines[-1]} {word}'.strip()] if len(lines[-1]) + len(word) < width
                      else [lines[-1], word])
    return '\n'.join(lines) + '\n'


def replaced(name: str, place: re.Pattern[str], words: str) -> str:
    """The page with these words in the one place of a pattern."""
    text, count = place.subn(lambda _: words, (ROOT / name).read_text())
    assert count == 1, f'{name} has {count} places for the counts'
    return text


def renumbered(text: str, words: str) -> str:
    """A page whose one sentence has the numbers of these words. Its lines stay as they are."""
    parts = re.split(r'\d[\d,]*', words)
    place = r'\d[\d,]*'.join(re.escape(part).replace(r'\ ', r'\s+') for part in parts)
    numbers = iter(re.findall(r'\d[\d,]*', words))
    found = [match[0] for match in re.finditer(place, text)]
    assert len(found) == 1, f'{len(found)} places for: {words}'
    return text.replace(found[0], re.sub(r'\d[\d,]*', lambda _: str(next(numbers)), found[0]))


def of_erased() -> dict[str, str]:
    """The pages with what tools/checks/erased.py finds, and how many lines it has."""
    words = erased.sentence([*erased.rows(ROOT)])
    pages = {name: renumbered((ROOT / name).read_text(), words) for name in erased.PAGES}
    lines = Path(erased.__file__).read_text().count('\n')
    pages[TRUST] = renumbered(pages[TRUST], f'**checked** by {lines} lines')
    return pages


def made() -> dict[str, str]:
    count = in_files() | of_runs()
    table = HEAD + ''.join(f'| {what} | {number} |\n' for what, number in rows(count))
    return {PAGE: replaced(PAGE, ROWS, table),
            FRONT: replaced(FRONT, SENTENCE, wrapped(sentence(count)))} | of_erased()


def make_counted(words: list[str]) -> bool:
    """Writes what a run counted into counts.txt."""
    counts = of_runs() | in_run(Path(words[0]).read_text(errors='replace'))
    head = [line for line in TABLE.read_text().splitlines() if line.startswith('#')]
    lines = head + [f'{name} = {counts[name]}' for name in PRINTED]
    TABLE.write_text('\n'.join(lines) + '\n')
    return True


def check_counted(words: list[str]) -> bool:
    """Compares counts.txt with what a run counted."""
    known, found = of_runs(), in_run(Path(words[0]).read_text(errors='replace'))
    judged = [(f'counts.txt says {known.get(name)} for {name}, and the run {number}',
               known.get(name) == number) for name, number in found.items()]
    return counted(judged or [('the run has counted nothing, so nothing is compared', True)])
