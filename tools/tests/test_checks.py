"""What the checks find."""
import functools
import os
import tarfile
import zipfile
from pathlib import Path

import pytest

from tools import ROOT, dependencies, write
from tools.checks import (edits, guards, javascript, laws, packed, planted, refusals, rust_docs,
                          trust, wrong_lines)
from tools.erase.source import Source
from tools.tests import samples


@pytest.mark.parametrize('wanted, text', samples.cases('rust_docs'))
def test_lacks(wanted: str, text: str) -> None:
    source = Source(Path('lib.rs'), text)
    assert ', '.join(rust_docs.lacks(source, source.items()[0])) == wanted.removeprefix('nothing')


def test_wide_lines(tmp_path: Path) -> None:
    lines = ['// ' + 'x' * 98, '/// ' + 'x' * 96, '    /// ' + 'x' * 93]
    (tmp_path / 'lib.rs').write_text('\n'.join(lines))
    assert list(rust_docs.wide_lines(tmp_path)) == ['lib.rs:3 has 101 columns']


@pytest.mark.parametrize('link, leads',
                         [('words/index.html#even', True), ('words/index.html', True),
                          ('#top', True), ('a%20b.txt', True), ('https://example.org/#half', True),
                          ('javascript:void(0)', True), ('?search=x', True),
                          ('words/index.html#odd', False), ('#odd', False),
                          ('other.html#odd', False), ('words', False),
                          ('../docs/ERRORS.md#panics-in-rust', False), ('a%20c.txt', False)])
def test_dead_links(tmp_path: Path, link: str, leads: bool) -> None:
    (tmp_path / 'words').mkdir()
    (tmp_path / 'a b.txt').touch()
    (tmp_path / 'words' / 'index.html').write_text('<h2 id="even">Even</h2> <a href="#even">')
    (tmp_path / 'index.html').write_text(f'<h2 id="top">Top</h2> <a href="{link}">')
    found = [] if leads else [f'index.html leads to {link}, which is not there']
    assert list(rust_docs.dead_links(tmp_path)) == found


@pytest.mark.parametrize('name, link, dead', [
    ('a/README.md', 'b/PAGE.md', []), ('a/README.md', 'b/PAGE.md#two-words', []),
    ('a/README.md', 'b/PAGE.md#three', ['a/README.md leads to b/PAGE.md#three']),
    ('a/README.md', '../docs/ERRORS.md', ['a/README.md leads to ../docs/ERRORS.md']),
    ('a/README.md', 'https://example.org/', []), ('a/README.md', '#first', []),
    ('a/README.md', '#second', ['a/README.md leads to #second']),
    ('a/CHANGELOG', 'docs/C.md', ['a/CHANGELOG leads to docs/C.md']),
    ('a/METADATA', 'b/PAGE.md', ['a/METADATA leads to b/PAGE.md']), ('a/main.rs', 'x.md', []),
    ('a/src/page.md', 'x.md', []), ('a/vendor/registry/num/README.md', 'x.md', [])])
@pytest.mark.parametrize('kind', ['folder', 'crate', 'whl'])
def test_packed(tmp_path: Path, kind: str, name: str, link: str, dead: list[str]) -> None:
    folder, package = tmp_path / 'files', tmp_path / f'package.{kind}'
    write(folder, {name: f'# First\n\n[it]({link}) `[code](x.md)`\n',
                   'a/b/PAGE.md': '# Page\n\n## Two words\n'})
    if kind == 'crate':
        with tarfile.open(package, 'w:gz') as archive:
            archive.add(folder / 'a', 'a')
    elif kind == 'whl':
        with zipfile.ZipFile(package, 'w') as wheel:
            for path in folder.rglob('*'):
                wheel.write(path, path.relative_to(folder))
    files = packed.files_of(folder if kind == 'folder' else package)
    assert list(packed.dead_links(files)) == dead


def test_packed_html() -> None:
    page = b'<a href="../other.md"> <a href="there.js"> <script src="not_there.js"> <a href="#x">'
    files = {'try/index.html': page, 'try/there.js': b''}
    assert list(packed.dead_links(files)) == [
        'try/index.html leads to ../other.md', 'try/index.html leads to not_there.js']


def test_calls_that_are_taken_out(tmp_path: Path) -> None:
    golden, sources = dict(samples.cases('guards')), tmp_path / 'rust' / 'src'
    write(tmp_path / 'rust', golden)
    crate = guards.Crate(tmp_path / 'rust')
    assert ([str(guard) for guard in crate.guards]
            == ['1: `check` with "the number is 0", rust/src/roots.rs:8',
                '2: `some` with "there is no root", rust/src/roots.rs:9'])
    assert crate.sample() == crate.guards
    crate.write()
    assert golden['taken out'] in (sources / 'roots.rs').read_text()
    assert (sources / 'lib.rs').read_text() == '\nmod guards;\nmod roots;\n\nmod taken_out;\n'
    assert (sources / 'guards.rs').read_text() == golden['src/guards.rs']


@pytest.mark.parametrize('body, lines', samples.cases('planted'))
def test_small_wrong_bodies(body: str, lines: str) -> None:
    source = Source(Path('own/rust/lib.rs'), f'fn f() {{ {body} }}')
    names = [mutant.name.removeprefix('lib.rs f: ') for mutant in planted.mutants_of(source)]
    assert names == lines.splitlines()


def test_bodies_that_are_planted(tmp_path: Path) -> None:
    write(tmp_path / 'rust', dict(samples.cases('guards')))
    crate = planted.Crate(tmp_path / 'rust', 1)
    crate.plant(2, {number for number, mutant in crate.chosen.items() if ': x >= 0' in mutant.name})
    text = (tmp_path / 'rust' / 'src' / 'roots.rs').read_text()
    assert len(crate.chosen) == 2 == text.count('if crate::planted::number() == ')
    for number, mutant in crate.chosen.items():
        assert f'\n// planted {number}\n{mutant.body}\n// planted 0\n}} else {{' in text


def test_equivalent_bodies() -> None:
    """Each that is listed is a mutant of the sources, and has a reason."""
    lines = [line for line in planted.HERE.with_suffix('.txt').read_text().splitlines() if line
             and line[0] != '#']
    names = {mutant.name for mutant in planted.Crate(ROOT / 'rust', 1).found}
    assert [name for name in lines[::2] if name not in names] == []
    assert all(reason.startswith('    ') for reason in lines[1::2]) and len(lines) % 2 == 0


@pytest.fixture(name='root')
def repository(tmp_path: Path) -> Path:
    """A repository in which each law stands in a clause."""
    write(tmp_path, dict(samples.cases('laws')))
    return tmp_path


def test_laws(root: Path) -> None:
    assert [passed for _, passed in laws.judged(root)] == [True] * 4


@pytest.mark.parametrize('head, slip', samples.cases('law_slips'))
def test_slips_of_laws(root: Path, head: str, slip: str) -> None:
    name, law, file, _ = head.split(', ', 3)
    samples.change(root / name, slip)
    failed = [line for line, passed in laws.judged(root) if not passed]
    assert any(line.startswith(f'{file}: ') and line.endswith(f' ensures `{law}`')
               for line in failed)


SAID, LOG = (text for _, text in samples.cases('trust'))


@pytest.mark.parametrize('old, new, has, lacks',
                         [('', '', 5, 0), ('(5 of', '(6 of', 4, 1),
                          ('reached of the 2 declared\nlogic=proved functions=3 axioms',
                           'reached of the 3 declared\nlogic=proved functions=3 axioms', 5, 1),
                          ('none reached of the 7', 'libc::a (1 of the 7', 4, 1),
                          ('reaches 5', 'reaches 55', 4, 1), ('adds an axiom', 'adds axioms', 4, 1),
                          ('functions=2 sum=1 native', 'functions=2 sum=1 foreign=low::f native', 4,
                           0), ('== intcalc', '== other', 4, 0), ('libc and std', 'libc', 4, 1),
                          ('prints `logic=proved functions=2', 'prints `logic=proved functions=1',
                           5, 0), ('sum=1 native=nat\nrt:', 'sum=2 native=nat\nrt:', 4, 1),
                          ('== integer_core', '== low', 4, 0),])
def test_slips_of_axioms(old: str, new: str, has: int, lacks: int) -> None:
    found = [passed for _, passed in trust.compared(SAID.replace(old, new),
                                                    trust.facts_of(LOG.replace(old, new)))]
    assert (found.count(True), found.count(False)) == (has, lacks)


def test_facts_of_a_kit(tmp_path: Path) -> None:
    """The name of a kit is no fact, so the page need not have it."""
    write(tmp_path, {'rattle/logic/a/b.antt': 'x\n' * 1000, 'rattle/logic/c.antt': 'y\n',
                     'rattle/logic/d.md': 'z\n', 'rattle/std/e.antt': 'z\n'})
    facts = [*trust.facts_of_kit('rattle-kit-0 logic abc1\narchive 2\n', tmp_path)]
    assert facts == ['sum=abc1', '1,001 lines of antt']
    page = '`logic=proved sum=abc1` of a logic of 1,001 lines of antt.'
    assert all(passed for _, passed in trust.compared(page, facts))
    slips = trust.compared(page.replace('1,001', '1,002'), facts)
    assert [line for line, passed in slips
            if not passed] == [f'{trust.PAGE} does not say: {facts[1]}']


MUTANT = ROOT / 'crates/integer_core/must-fail-release/all_are_even.edit'


@pytest.mark.parametrize('line',
                         ['wrong: is_even(3) is true.', 'wrong: at is_even(3) it returns true.',
                          'wrong (not run): at is_even(3).',
                          'wrong: at is_even(3) it returns true, and someone asks for false.'])
def test_forms(line: str) -> None:
    with pytest.raises(edits.BadEdit):
        edits.form_of(line)


THEOREM = """pub fn even(n: u8) -> bool
    ensures { IsTrue result ↔ IsEven n }
{
    n % 2 == 0
}
"""
MUTANTS = {
    'even': ('    n % 2 == 0', '    n % 2 == 1'),
    'half': ('    n / 2', '    n'),
}


@pytest.fixture(name='theorem')
def theorem_with_a_mutant(tmp_path: Path) -> Path:
    """A crate of theorems: a function with a mutant, and one that states laws and so has none."""
    crate = tmp_path / 'crates' / 'theorems'
    write(crate,
          {'src/lib.rt': f'{THEOREM}\npub fn laws()\n    ensures {{ DivisionExists }}\n{{}}\n'})
    plant(crate, 'even')
    return crate


def plant(crate: Path, name: str) -> None:
    """Writes a mutant."""
    old, new = MUTANTS[name]
    said = f'wrong: at {name}(2) it returns 2, and its clause asks for 1.'
    text = f'{said}\nfile: src/lib.rt\nold: {old}\nnew: {new}\n'
    write(crate, {f'must-fail-release/{name}.edit': text})


def test_theorems_with_mutants(theorem: Path) -> None:
    assert list(edits.theorems(theorem.parent.parent)) == [
        ('crates/theorems/src/lib.rt: no mutant changes `even`', True)]


def test_theorem_without_a_mutant(theorem: Path) -> None:
    file = theorem / 'src' / 'lib.rt'
    file.write_text(f'{file.read_text()}\npub fn half(n: u8) -> u8\n{{\n    n / 2\n}}\n')
    failed = [line for line, passed in edits.theorems(theorem.parent.parent) if not passed]
    assert failed == ['crates/theorems/src/lib.rt: no mutant changes `half`']
    plant(theorem, 'half')
    assert all(passed for _, passed in edits.theorems(theorem.parent.parent))


@pytest.mark.skipif(not os.environ.get('CI'), reason='it builds a crate, so only the gate runs it')
def test_lines() -> None:
    texts, lines = edits.apply(MUTANT.parent.parent, MUTANT)[1], samples.cases('first_lines')
    mutants = [wrong_lines.Mutant(number, MUTANT, edits.form_of(line.rstrip()), texts)
               for number, (_, line) in enumerate(lines)]
    wrong_lines.judge(mutants)
    for mutant, (told, line) in zip(mutants, lines):
        assert (mutant.told or 'nothing').startswith(told), f'{line}: {mutant.told}'


@pytest.mark.parametrize('head, said', samples.cases('refusals'))
def test_where_a_check_ends(head: str, said: str) -> None:
    wanted, _, line = head.partition(' | ')
    assert refusals.then(refusals.tried(said), line) == wanted


ANSWERS = """use Rattle.low.proofs.gcd.Goals as goal

pub returns-clause-greatest : goal.returns-clause-greatest
returns-clause-greatest g c =
    c.one.ensures

pub helper : {a : ℕ} → a ≡ a
helper = refl

pub returns-clause-small : goal.returns-clause-small
returns-clause-small g c = helper
"""


def test_answers_that_are_taken_away() -> None:
    named = refusals.opened(ANSWERS, lambda goal, _: goal.endswith('greatest'))
    assert named == ANSWERS.replace('=\n    c.one.ensures', '= ?')
    at_helper = functools.partial(refusals.stands_in, [8])
    assert refusals.opened(ANSWERS, at_helper) == ANSWERS
    at_small = functools.partial(refusals.stands_in, [11])
    assert refusals.opened(ANSWERS, at_small) == ANSWERS.replace('c = helper', 'c = ?')
    assert (refusals.opened(ANSWERS, at_small, [11])
            == ANSWERS[:ANSWERS.index('\npub returns-clause-small')])


def test_table_of_refusals(tmp_path: Path) -> None:
    now = {f'low/{name}': tmp_path / f'{name}.edit' for name in ('one', 'two')}
    for name, edit in now.items():
        edit.write_text(name)
    lines = [f'low/one {refusals.sum_of(now["low/one"])} clause returns*',
             f'low/two {refusals.sum_of(now["low/two"])} goal loop']
    page = ('Of 2 mutants that were tried so, 1 are rejected\nat a clause. '
            'And at 1 of them the search met a limit.')

    def failed(text: str, said: str) -> list[str]:
        found = refusals.judged(now, refusals.rows(text), said)
        return [line.partition(':')[0] for line, passed in found if not passed]
    table = '# head\n' + '\n'.join(lines)
    assert not failed(table, page)
    assert failed(table, page.replace('so, 1 are', 'so, 2 are')) == ['TESTING.md does not say']
    assert failed(table.replace('goal loop', 'clause returns'), page) == ['TESTING.md does not say']
    assert failed(table + '\nlow/three 0 answer', page)[0] == 'low/three'
    assert failed(lines[0], page)[0] == 'low/two'
    untried = table.replace('goal loop', 'untried')
    assert failed(untried, page) == ['TESTING.md does not say']
    assert not failed(untried, page.replace('Of 2', 'Of 1'))
    now['low/one'].write_text('another')
    assert failed(table, page) == ['low/one']


LOG_OF_MUTANTS = """must-fail low/one.edit: refused, as it must be: ./proofs/gcd/Answers.antt:4:31: error: `returns`
rt: must-fail low/two.edit: refused, as it must be: note: src/lib.rt:8:5: it is not proved (`returns`); `search` gave
must-fail low/three.edit: refused, as it must be: note: src/lib.rt:8:5: it is not proved (`returns-clause-greatest`)
must-fail low/four.edit: NOT REFUSED: the crate is still proved
"""


def test_refusals_of_a_run() -> None:
    assert refusals.refused(LOG_OF_MUTANTS) == {'low/one': 'answer', 'low/two': 'limit',
                                                'low/three': 'clause'}


def test_functions_of_mutants() -> None:
    known = {name: list(refusals.functions(ROOT / 'crates', name)) for name in dependencies()}
    for name, edit in refusals.mutants().items():
        assert len(refusals.changed(known[name.partition('/')[0]], edit)) == 1, name


def test_goals_of_functions() -> None:
    said = refusals.tried('note: src/lib.rt:8:5: it is not proved (`returns`)\n'
                          './proofs/gcd/Answers.antt:2:5: goal ? in `returns`\n'
                          './proofs/lcm/Answers.antt:2:5: goal ? in `returns-clause-least`\n')
    gcd, lcm = (refusals.Function(name, f'proofs/{name}', 'src/lib.rt', lines, '')
                for name, lines in (('gcd', range(7, 9)), ('lcm', range(9, 11))))
    assert len(said.goals) == 3
    assert refusals.then(refusals.of([gcd], said), 'wrong: `least`') == 'clause returns'
    assert (refusals.then(refusals.of([lcm], said), 'wrong: `least`')
            == 'clause returns-clause-least')


def test_findings_in_javascript() -> None:
    printed = ("a.js(1,2): error TS6133: 'x' is declared but its value is never read.\n"
               "a.js(1,2): error TS2304: Cannot find name 'y'.\n"
               "a.js(1,2): error TS2304: Cannot find name 'process'.\n"
               "a.js(1,2): error TS2339: Property 'z' does not exist on type 'number'.\n")
    assert [line.split("'")[1] for line in javascript.findings(printed)] == ['x', 'y']
