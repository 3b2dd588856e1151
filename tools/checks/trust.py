"""Compares what docs/TRUST.md says that the proofs rest on with a run of `rt ci`, and with the kit.

The contracts of functions in C are assumed. Of a program and of a static library the check prints
how many are declared below it, and how many it reaches. Of a crate that declares some itself, the
line of its verdict has `foreign=`. Some kits print nothing of a crate whose proof is kept from an
earlier run, so then there is nothing to compare. The page shows the verdict of a crate, whose
checksum of the logic is compared too. Its count of functions is not: kits count in several ways.

Of the kit, the checksum and the size of its logic are compared, and its name is not: kits of one
logic prove the same."""
import re
import shutil
import subprocess
from collections.abc import Iterable, Iterator
from pathlib import Path

from tools import ROOT, counted

PAGE = 'docs/TRUST.md'
LINKED = ('cellarcove_c', 'intcalc')    # the crates of which the check prints what they reach
SHOWN = 'integer_core'                  # the crate whose verdict is on the page
CRATE = re.compile(r'^== (\w+)$', re.M)
VERDICT = re.compile(r'^logic=proved (.*)$', re.M)
REPORT = re.compile(r'^axioms (\w+): .*?(?:\((\d+)|none reached) of the (\d+) declared\)?$', re.M)


def proofs(log: str) -> Iterator[tuple[str, str, list[tuple[str, str, str]]]]:
    """The crates that were proved in a run, each with the words of its verdict and the reports on
    the functions in C."""
    parts = CRATE.split(log)
    for name, text in zip(parts[1::2], parts[2::2]):
        verdict = VERDICT.search(text)
        if verdict:
            yield name, verdict.group(1), REPORT.findall(text[:verdict.start()])


def facts_of(log: str) -> Iterator[str]:
    """What a run printed of the axioms, as the page says it."""
    found = {name: (words, reports) for name, words, reports in proofs(log)}
    if found and not any('foreign=' in words for words, _ in found.values()):
        yield 'No crate adds an axiom'
    if SHOWN in found:
        yield found[SHOWN][0].split()[1]
    for name in LINKED:
        reports = found.get(name, ('', ()))[1]
        if reports:
            declared = sum(int(count) for _, _, count in reports)
            reached = sum(int(count or 0) for _, count, _ in reports)
            crates = ' and '.join(', '.join(crate for crate, _, _ in reports).rsplit(', ', 1))
            yield f'{crates} state the contracts of {declared} functions in C'
            yield f'`{name}` reaches {reached or "none"}'


def facts_of_kit(version: str, kit: Path) -> Iterator[str]:
    """What the page says of a kit, of what `rt version` prints and of the kit's folder."""
    yield f'sum={version.split(" logic ")[1].split()[0]}'
    files = (kit / 'rattle/logic').rglob('*.antt')
    yield f'{sum(file.read_bytes().count(10) for file in files):,} lines of antt'


def this_kit() -> Iterator[str]:
    """The same of the kit on this machine, if there is one."""
    if shutil.which('rt'):
        version, doc = (subprocess.run(['rt', word], capture_output=True, text=True, check=True)
                        for word in ('version', 'doc'))
        yield from facts_of_kit(version.stdout, Path(doc.stdout.strip()).parent)


def compared(page: str, facts: Iterable[str]) -> Iterator[tuple[str, bool]]:
    """Each fact, with whether the page has it."""
    text = ' '.join(page.split())
    for fact in dict.fromkeys(facts):
        yield f'{PAGE} does not say: {fact}', re.search(re.escape(fact) + r'\b', text) is not None


def check(words: list[str]) -> bool:
    log, page = Path(words[0]).read_text(errors='replace'), (ROOT / PAGE).read_text()
    foreign = [(f'{name} declares functions in C: it adds axioms', False)
               for name, words, _ in proofs(log) if 'foreign=' in words]
    facts = [*facts_of(log)]
    if not facts:
        foreign.append(('all proofs were kept, so nothing of the run is compared', True))
    return counted([*compared(page, [*facts, *this_kit()]), *foreign])
