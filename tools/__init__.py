"""The tools of the repository. The command is tools/cellarcove, which says what each part does."""
import difflib
import itertools
import os
import pathlib
import re
import shutil
import subprocess
from collections.abc import Iterable, Iterator, Mapping

ROOT = pathlib.Path(__file__).resolve().parent.parent
MISSING = 3                     # the status of a part that needs a program which isn't there
# Debian's sources of packages for cargo
REGISTRY = pathlib.Path('/usr/share/cargo/registry')
DEBIAN = (ROOT / 'tools/gate/debian.toml').read_text() if REGISTRY.is_dir() else ''


def dependencies(root: pathlib.Path = ROOT) -> dict[str, list[str]]:
    """The crates that the gate proves, each with those on which it depends."""
    heads = (line.partition(':') for line in (root / 'crates.txt').read_text().splitlines()
             if re.match(r'\w.*:', line))
    return {name.split()[0]: [word for word in below.split() if (root / 'crates' / word).is_dir()]
            for name, _, below in heads}


def filled(template: pathlib.Path, **parts: str) -> str:
    """A template with its parts in the place of their names in braces."""
    text = template.read_text()
    for name, part in parts.items():
        text = text.replace(f'{{{name}}}', part.rstrip('\n'))
    return text


def counted(found: Iterable[tuple[str, bool]]) -> bool:
    """Prints what has failed, and a count. Whether something passed and nothing failed."""
    counts = [0, 0]
    for line, passed in found:
        counts[not passed] += 1
        if not passed:
            print(line)
    print(f'{counts[0]} passed, {counts[1]} failed')
    return counts[1] == 0 < counts[0]


def python_with(module: str) -> str | None:
    """The Python that has a module: the first one in the path, or the system's."""
    for python in ('python3', '/usr/bin/python3'):
        if shutil.which(python):
            words = [python, '-c', f'import {module}']
            if subprocess.run(words, capture_output=True, check=False).returncode == 0:
                return python
    return None


def run(*words: str) -> int:
    """Runs a program in the root of the repository, or a module of Python. The status is 0 if it
    succeeds, 1 if it fails, and `MISSING` if it isn't there; in the gate that's a failure too."""
    program, name = shutil.which(words[0]), words[0]
    if words[:2] == ('python3', '-m'):
        program, name = python_with(words[2]), words[2]
    if not program:
        print(f'{name} is missing: tools/gate/install_packages.sh installs it')
        return 1 if os.environ.get('CI') else MISSING
    return int(subprocess.run([program, *words[1:]], cwd=ROOT, check=False).returncode != 0)


def write(root: pathlib.Path, made: Mapping[str, str | None]) -> bool:
    """Writes the files that have another text, by their names below a folder. Where there is to be
    no text, a file goes."""
    for name, text in made.items():
        (root / name).parent.mkdir(parents=True, exist_ok=True)
        if text is None:
            (root / name).unlink()
        elif not (root / name).is_file() or (root / name).read_text() != text:
            (root / name).write_text(text)
    return True


def as_made(root: pathlib.Path, made: Mapping[str, str | None]) -> bool:
    """Whether the made files are what is made. Of each that is not, the first lines that differ
    are printed."""
    def judged() -> Iterator[tuple[str, bool]]:
        for name, text in made.items():
            there = (root / name).read_text() if (root / name).is_file() else None
            lines = difflib.unified_diff((there or '').split('\n'), (text or '').split('\n'), name,
                                         'what is made', n=0, lineterm='')
            yield '\n'.join([f'{name} differs from what is made: run tools/cellarcove make',
                             *itertools.islice(lines, 20)]), there == text
    return counted(judged())
