"""In a copy, a new call and the export of one that is there need as many files by hand as
CONTRIBUTING.md says. All else is made, and every check passes."""
import re
import shutil
import subprocess
from concurrent.futures import ThreadPoolExecutor
from pathlib import Path

import pytest

from tools import ROOT

MADE = ('rust', 'exports', 'program', 'api', 'bindings', 'reference', 'trial', 'counts')
CHECKS = ('pages', 'edits', 'examples', 'laws', 'erased', 'rust_docs', 'orders', 'api', 'counts')
SOURCE, EXPORT = 'crates/applied/src/coprime.rt', 'crates/cellarcove_c/src/coprime.rt'
PYTHON, CHANGES = 'tools/bindings/by_python.toml', 'CHANGELOG.md'
NEW_EXPORT = '''
/// Returns `true` if the number is even. For 4 it is `true`, and for 3 it is `false`.
#[unsafe(no_mangle)]
pub extern "C" fn cellarcove_is_even_i64(x: i64) -> bool {
    x.is_even()
}
'''


def copied(name: str, old: str, new: str) -> str:
    """A file in which the text from the first comment of a call to that of the next one stands
    twice, the second time with another name."""
    text = (ROOT / name).read_text()
    begin, end = text.index('/// Returns `true` if the'), text.index('/// Returns both numbers')
    return text[:end] + text[begin:end].replace(old, new) + text[end:]


def of_python(row: str) -> str:
    return (ROOT / PYTHON).read_text().replace('\nis_coprime = ', f'\n{row}\nis_coprime = ')


def new_call() -> dict[str, str]:
    """The files of a new call. Its proof and what tests it are left out."""
    old, new = 'is_coprime', 'has_no_common_factor'
    changes = (ROOT / CHANGES).read_text().replace('\n## ', f'\n- `{new}`.\n\n## ', 1)
    source = copied(SOURCE, old, new)
    return {SOURCE: new.join(source.rsplit(new, 1)).replace('(a, b))\n}\n\n/// Returns both',
                                                            '(b, a))\n}\n\n/// Returns both'),
            EXPORT: copied(EXPORT, old, new).replace('{is_coprime', f'{{{new}, is_coprime', 1),
            PYTHON: of_python(f"{new} = 'x, y: math.gcd(x, y) == 1'"), CHANGES: changes}


def new_export() -> dict[str, str]:
    """The files of an export of a call that has none."""
    return {EXPORT: (ROOT / EXPORT).read_text() + NEW_EXPORT,
            PYTHON: of_python("is_even = 'x: x % 2 == 0'")}


def run_in(folder: Path, verb: str, part: str) -> str:
    """What a part prints if it fails."""
    words = [f'{folder}/tools/cellarcove', verb, part]
    ran = subprocess.run(words, capture_output=True, text=True, check=False)
    return '' if ran.returncode == 0 else f'{verb} {part}: {ran.stdout}{ran.stderr}'


@pytest.mark.parametrize('files, name', [(new_call(), 'hasNoCommonFactor'),
                                         (new_export(), 'isEven')])
def test_files_by_hand(tmp_path: Path, files: dict[str, str], name: str) -> None:
    page = ' '.join((ROOT / 'CONTRIBUTING.md').read_text().split())
    said = re.search(r'a new call needs (\d) files by hand.* that is there needs (\d)', page)
    assert said and len(files) <= int(said[1 if CHANGES in files else 2])
    copy = tmp_path / 'copy'
    away = shutil.ignore_patterns('.git', 'out', 'target', 'dist', '__pycache__', '.pytest_cache')
    shutil.copytree(ROOT, copy, ignore=away, symlinks=True)
    for file, text in files.items():
        assert (copy / file).read_text() != text
        (copy / file).write_text(text)
    assert not ''.join(run_in(copy, 'make', part) for part in MADE)
    with ThreadPoolExecutor(2) as pool:
        assert not ''.join(pool.map(lambda part: run_in(copy, 'check', part), CHECKS))
    assert name in (copy / 'bindings/js/cellarcove.d.ts').read_text()
