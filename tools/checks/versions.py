"""Checks that all files name one version, that of rust/Cargo.toml."""
import re
import subprocess
from collections.abc import Iterator

from tools import ROOT, counted

NUMBER = r'(\d+\.\d+\.\d+)'
CARGO, LOCK = (rf'^version = "{NUMBER}"$',
               rf'^name = "(?:cellarcove|cellarcove-c|intcalc)"\nversion = "{NUMBER}"$')
# Of each file the pattern of a version; one of two numbers is that of the shared library.
PLACES = {'rust/Cargo.toml': CARGO, 'rust/c/Cargo.toml': CARGO, 'rust/intcalc/Cargo.toml': CARGO,
          'rust/num-integer/Cargo.toml': rf'^cellarcove = .*version = "{NUMBER}"',
          'rust/c/Cargo.lock': LOCK, 'rust/intcalc/Cargo.lock': LOCK,
          'rust/README.md': rf'cellarcove-{NUMBER}',
          'rust/num-integer/README.md': rf'cellarcove-{NUMBER}\.crate',
          'bindings/c/cellarcove.h': rf'^#define CELLARCOVE_VERSION "{NUMBER}"$',
          'bindings/js/package.json': rf'^  "version": "{NUMBER}",$',
          'bindings/js/table.js': rf"VERSION = '{NUMBER}'", 'CITATION.cff': rf'^version: {NUMBER}$',
          'CHANGELOG.md': rf'^## {NUMBER} \((?!unreleased)',
          'packaging/debian/control': r'libcellarcove-c(\d+\.\d+)\b',
          'packaging/debian/libcellarcove-c{}.install': ''}


def named(version: str) -> Iterator[tuple[str, bool]]:
    """Each place with whether it has the version. The newest section of the changelog is the first
    that is released."""
    minor = version.rpartition('.')[0]
    for name, pattern in PLACES.items():
        file = ROOT / name.format(minor)
        found = re.findall(pattern, file.read_text(), re.M) if file.is_file() and pattern else []
        found = found[:1] if name == 'CHANGELOG.md' else found
        passed = file.is_file() and (not pattern or {*found} in ({version}, {minor}))
        yield (f'{name.format(minor)} has {", ".join(sorted({*found})) or "no version"}, and '
               f'rust/Cargo.toml {version}', passed)


def tagged(version: str) -> tuple[str, bool]:
    """Whether the tag of the version, if there is one, is not behind: a commit after it has
    another version."""
    words = ['git', '-C', str(ROOT), 'diff', '--quiet', f'v{version}', 'HEAD', '--',
             'rust/Cargo.toml']
    found = subprocess.run(words, check=False, capture_output=True).returncode
    return f'the tag v{version} has another rust/Cargo.toml', found != 1


def dated(version: str) -> tuple[str, bool]:
    """Whether CITATION.cff has the date that CHANGELOG.md gives the version."""
    found = re.findall(rf'^## {re.escape(version)} \((.*)\)$', (ROOT / 'CHANGELOG.md').read_text(),
                       re.M)
    cited = re.findall(r'^date-released: (.*)$', (ROOT / 'CITATION.cff').read_text(), re.M)
    return f'CITATION.cff has the date {cited}, and CHANGELOG.md {found}', found == cited and len(
        found) == 1


def check(_: list[str]) -> bool:
    version = re.findall(CARGO, (ROOT / 'rust/Cargo.toml').read_text(), re.M)[0]
    return counted([*named(version), tagged(version), dated(version)])
