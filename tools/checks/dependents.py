"""Makes a workspace of packages of other authors, in which a package of ours replaces num-integer.

REGISTRY is a folder of sources, from which each package is copied. PACKAGE is the folder of the
package that replaces the one of that name, for each of them and for what they depend on. Benches,
and dev-dependencies that the registry does not have, are taken out of the manifests. A line for
each package says what."""
import re
import shutil
import tomllib
from pathlib import Path

from tools.erase.source import Unknown
from tools import filled, write

WORKSPACE = Path(__file__).parent / 'templates' / 'dependents.toml'
# A section of a manifest that may go, and what it has.
SECTION = re.compile(
    r'^\[(?:\[bench\]\]\s+name = "([^"]+)"|dev-dependencies\.([\w-]+)\]).*?(?=^\[|\Z)', re.M | re.S)


def newest(registry: Path, name: str) -> Path | None:
    """The folder of a package in the registry, or None."""
    found = sorted(folder for folder in registry.glob(f'{name}-[0-9]*')
                   if tomllib.loads((folder / 'Cargo.toml').read_text())['package']['name'] == name)
    return found[-1] if found else None


def take(registry: Path, name: str, out: Path) -> None:
    """Copies a package, and says what is left out of its manifest."""
    folder, without = newest(registry, name), list[str]()
    if folder is None:
        raise Unknown(f'no package {name} in {registry}')
    shutil.copytree(folder, out / name, ignore=shutil.ignore_patterns('benches', 'debian'))

    def rest(section: re.Match[str]) -> str:
        bench, dependency = section.groups()
        if not bench and newest(registry, dependency):
            return section[0]
        without.append(f'bench {bench}' if bench else f'dev-dependency {dependency}')
        return ''
    manifest = out / name / 'Cargo.toml'
    manifest.write_text(SECTION.sub(rest, manifest.read_text()))
    print(f'{folder.name}: taken' + (f' without {", ".join(without)}' if without else ''))


def make(words: list[str]) -> bool:
    (registry, num_integer, out), names = map(Path, words[:3]), words[3:]
    out.mkdir()
    for name in names:
        take(registry, name, out)
    members = ', '.join(f'"{name}"' for name in names)
    patches = '\n'.join(f'{name} = {{ path = "{name}" }}' for name in names)
    return write(out,
                 {'Cargo.toml': filled(WORKSPACE, members=members, num_integer=str(num_integer),
                                       patches=patches)})
