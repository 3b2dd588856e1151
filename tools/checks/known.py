"""Proves in Coq that the definitions of specs/ are the ones that its library has.

tools/checks/antt_to_coq.py translates each definition that a public clause reaches. compare/coq has
the theorems, and compare/coq/known.txt says which are about which definition, or why there is none.
Each theorem has to be closed under the global context. `--changes` changes definitions in the
small, and a theorem has to refuse each change that compare/coq/same.txt does not list. It tries the
changes that compare/coq/changes.txt does not have, or, with `--changes NAME..`, those of crates,
files or definitions. `--sample` tries one of 20, and keeps nothing."""
import os
import re
import shutil
from collections.abc import Iterator

from tools import ROOT, counted, filled
from tools.checks.coq_build import Build, workers
from tools.checks.known_changes import check_changes, summary, totals
from tools.checks.known_table import Row, library, names_in, reached, sources, table, theorems

FOLDER = ROOT / 'out/known'
PACKAGES = 'coq libcoq-mathcomp-ssreflect libcoq-mathcomp-algebra'
FORBIDDEN = re.compile(r'\b(?:Admitted|admit|Axioms?|Parameters?|Conjecture|Hypothes[ie]s'
                       r'|Variables?|Unset Guard)\b')


def judged(files: dict[str, str], base: Build) -> Iterator[tuple[str, bool]]:
    """Every definition has a theorem or a reason, and each theorem is proved."""
    rows, names = table(), set(names_in(files))
    for key in reached():
        yield f'compare/coq/known.txt has no row for {".".join(key)}', key in rows
    for key, row in sorted(rows.items()):
        yield f'compare/coq/known.txt: no public clause reaches {".".join(key)}', key in reached()
        for theorem in row.theorems:
            there = f'Known.{theorem}' in names
            yield f'compare/coq/known.txt: {".".join(key)}: there is no theorem {theorem}', there
    for name, text in files.items():
        if name.startswith('Known/'):
            closed = not FORBIDDEN.search(text)
            yield f'compare/coq: {name}: has an axiom, or a proof that is not complete', closed
    failed = False
    for target, status, said in base.run(workers()):
        failed |= status != 0
        yield f'{target[:-1]}: {said.strip()}', status == 0
    if not failed:
        yield from assumptions(files, base)


def assumptions(files: dict[str, str], base: Build) -> Iterator[tuple[str, bool]]:
    """Asks Coq what a term with all theorems in it assumes."""
    names = names_in(files)
    modules = sorted({name.rsplit('.', 1)[0] for name in names})
    text = ''.join([*(f'Require {module}.\n' for module in modules), 'Definition every :=\n',
                    *(f'  let _ := @{name} in\n' for name in names), '  I.\n',
                    'Print Assumptions every.\n'])
    (base.folder / 'Assumptions.v').write_text(text)
    status, said = base.coqc('Assumptions.vo')
    is_closed = said.strip() == 'Closed under the global context'
    yield f'the {len(names)} theorems assume: {said[-2000:]}', status == 0 and is_closed


def linked(theorem: str) -> str:
    """A theorem with a link to its file."""
    *file, name = theorem.split('.')
    return f'[`{name}`](../compare/coq/{"/".join(file)}.v)'


def cells(name: str, row: Row) -> str:
    what = row.what.replace('|', '\\|') if row.theorems else row.what
    last = f' {", ".join(map(linked, row.theorems))} |' if row.theorems else ''
    return f'| `{name}` | {what} |{last}'


def made() -> dict[str, str]:
    """The page of the table."""
    rows = table()
    proved = [cells('.'.join(key), row) for key, row in rows.items() if row.theorems]
    left = [cells('.'.join(key), row) for key, row in rows.items() if not row.theorems]
    lines = (ROOT / 'tools/checks/antt_to_coq.py').read_text().count('\n')
    counts = {'lines': lines, 'reached': len(rows), 'proved': len(proved), 'left': len(left),
              'theorems': len(names_in(theorems())), 'kit': len(library().kit.paragraphs),
              'signs': len(library().signs),
              **{name.replace(' ', '_'): count for name, count in totals().items()}}
    late = f' With {counts["too_long"]}, Coq took too long, so they show nothing.'
    page = filled(ROOT / 'tools/checks/templates/coq.md', rows='\n'.join(proved), packages=PACKAGES,
                  reasons='\n'.join(left), late=late * bool(counts.pop('too_long')),
                  **{name: str(count) for name, count in counts.items()})
    return {'docs/COQ.md': page}


def check(words: list[str]) -> bool:
    if not shutil.which('coqc'):
        print(f'coqc is missing: tools/gate/install_packages.sh --all installs {PACKAGES}')
        return not os.environ.get('CI')
    files, base = sources(), Build(FOLDER)
    base.folder.mkdir(parents=True, exist_ok=True)
    base.write(files)
    passed = counted(judged(files, base))
    if passed and words[:1] in (['--changes'], ['--sample']):
        passed = counted(check_changes(base, words[1:], 1 if words[0] == '--changes' else 20))
    print(summary())
    with_theorem = sum(bool(row.theorems) for row in table().values())
    print(f'definitions: {len(reached())} reached, {with_theorem} with a theorem, '
          f'{len(reached()) - with_theorem} with a reason; {len(names_in(files))} theorems')
    return passed
