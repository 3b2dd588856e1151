"""What hatchling cannot know: it makes the extensions of src/calls.c and src/ufuncs.c and the
archive of the calls, and puts what they are made of into a source distribution.

In the repository it makes these two files first, for which it needs a Python from 3.11 on. The
archive is the one that `bindings/build` makes, or the one that the variable CELLARCOVE_ARCHIVE
names. A source distribution has the two files, and a copy of what else it needs in `vendor`.
"""

from __future__ import annotations

import os
import pathlib
import re
import shlex
import shutil
import subprocess
import sys
import sysconfig
import tempfile
from typing import Any

from hatchling.builders import sdist, wheel
from hatchling.builders.hooks.plugin.interface import BuildHookInterface
from hatchling.metadata import spec

HERE = pathlib.Path(__file__).resolve().parent
VENDOR = HERE / 'vendor'
ROOT = VENDOR if VENDOR.is_dir() else HERE.parents[1]
HEADER = (ROOT / 'bindings/c/cellarcove.h').read_text()
VERSION = re.findall(r'^#define CELLARCOVE_VERSION "(.*)"', HEADER, re.M)[0]
VENDORED = (
    'bindings/build', 'bindings/cargo', 'bindings/c/cellarcove.h', 'rust/Cargo.toml',
    'rust/README.md', 'rust/build.rs', 'rust/src', 'rust/c/Cargo.toml', 'rust/c/Cargo.lock',
    'rust/c/build.rs', 'rust/c/src',
)


if spec.DEFAULT_METADATA_VERSION < '2.4':
    # an old hatchling, such as Debian's, writes the fields of the licence, and not the version of
    # the metadata that has them
    made_before = spec.get_core_metadata_constructors()[spec.DEFAULT_METADATA_VERSION]

    def metadata(*args: Any, **named: Any) -> str:
        return re.sub('(?<=^Metadata-Version: ).*', '2.4', made_before(*args, **named), count=1)

    constructors = {spec.DEFAULT_METADATA_VERSION: metadata}
    for module in (sdist, wheel):
        setattr(module, 'get_core_metadata_constructors', lambda: constructors)


def make_sources() -> None:
    """Makes src/calls.c and src/ufuncs.c, where the tools are."""
    tools = ROOT / 'tools/cellarcove'
    if not tools.is_file():
        return
    names = [sys.executable, 'python3', *(f'python3.{minor}' for minor in range(11, 20))]
    for python in [found for found in map(shutil.which, names) if found]:
        if subprocess.run([python, '-c', 'import tomllib'], capture_output=True).returncode == 0:
            subprocess.run([python, tools, 'make', 'calls'], check=True)
            return
    sys.exit('cellarcove is built in its repository with Python 3.11: install it, or take '
             'the source distribution')


def archive() -> str:
    """The archive of the calls."""
    named = os.environ.get('CELLARCOVE_ARCHIVE')
    if not named:
        subprocess.run([ROOT / 'bindings/build'], check=True)
    return named or str(ROOT / 'bindings/out/libcellarcove_c.a')


def headers() -> list[str]:
    """The folders of the headers that the extensions need: those of Python, of numpy for the
    ufuncs, and of the calls."""
    python = sysconfig.get_path('include')
    try:
        import numpy  # noqa: PLC0415
    except ImportError:
        sys.exit('cellarcove is built with numpy: install numpy (python3-numpy of Debian)')
    for file, package in (
        (f'{python}/Python.h', 'python3-dev'),
        (f'{numpy.get_include()}/numpy/ufuncobject.h', 'python3-numpy-dev'),
    ):
        if not os.path.isfile(file):
            sys.exit(f'cellarcove is built with {file}: install {package} of Debian')
    return [python, numpy.get_include(), f'{ROOT}/bindings/c']


def link(source: str, to: pathlib.Path, calls: str) -> None:
    """Makes an extension. A function that the stable ABI of 3.9 has not is not declared."""
    shared = '-bundle -undefined dynamic_lookup' if sys.platform == 'darwin' else '-shared'
    alone = '-Wl,--as-needed,--exclude-libs,ALL' if sys.platform == 'linux' else ''
    command = f'{os.environ.get("CC", "cc")} {os.environ.get("CFLAGS", "-O2")} {shared}'
    subprocess.run([
        *shlex.split(command), '-std=c11', '-fPIC', '-fvisibility=hidden',
        '-Werror=implicit-function-declaration', *(f'-I{folder}' for folder in headers()),
        HERE / 'src' / source, calls, *shlex.split(f'{alone} {os.environ.get("LDFLAGS", "")}'),
        '-o', to,
    ], check=True)


def platform_of(extensions: list[pathlib.Path]) -> str:
    """The platform of the tag: by the rules of manylinux if the extensions need no more than glibc
    2.17."""
    platform = re.sub('[-.]', '_', sysconfig.get_platform())
    text = b''.join(file.read_bytes() for file in extensions)
    needed = re.findall(rb'\0GLIBC_([\d.]+)', text)
    versions = [tuple(map(int, found.split(b'.'))) for found in needed]
    libraries = set(re.findall(rb'\0(lib[\w+-]+\.so[.\d]*)', text)) - {b'libc.so.6', b'libm.so.6'}
    if not platform.startswith('linux_') or not versions or max(versions) > (2, 17) or libraries:
        return platform
    machine = platform.removeprefix('linux_')
    return f'manylinux2014_{machine}.manylinux_2_17_{machine}'


class CustomBuildHook(BuildHookInterface[Any]):
    def initialize(self, version: str, build_data: dict[str, Any]) -> None:
        self.folder = tempfile.TemporaryDirectory()
        made = pathlib.Path(self.folder.name)
        if self.target_name == 'sdist':
            make_sources()
            self.vendor(made)
            names = {str(ROOT / name): f'vendor/{name}' for name in VENDORED}
            build_data['force_include'] |= {f'{made}/registry': 'vendor/registry', **names}
            return
        headers()  # so that what is missing is said first
        make_sources()
        folder, calls = HERE / 'src/cellarcove' if version == 'editable' else made, archive()
        extensions = [folder / f'_{name}.abi3.so' for name in ('calls', 'ufuncs')]
        for file, source in zip(extensions, ('calls.c', 'ufuncs.c')):
            link(source, file, calls)
        build_data |= {'pure_python': False, 'tag': f'cp39-abi3-{platform_of(extensions)}'}
        if version != 'editable':
            names = {str(file): f'cellarcove/{file.name}' for file in extensions}
            build_data['force_include'] |= names

    def vendor(self, made: pathlib.Path) -> None:
        """The sources of the packages for cargo, in a folder of their own."""
        words = ['cargo', 'vendor', '--quiet', '--versioned-dirs', '--manifest-path']
        words += [f'{made}/rust/c/Cargo.toml']
        registry = '/usr/share/cargo/registry'
        shutil.copytree(ROOT / 'rust', made / 'rust', ignore=shutil.ignore_patterns('target'))
        if os.path.isdir(registry):  # Debian has other versions than Cargo.lock
            (made / 'rust/c/Cargo.lock').unlink()
            words += ['--offline', '--respect-source-config', '--config']
            words += ['source.crates-io.replace-with="debian"', '--config']
            words += [f'source.debian.directory="{registry}"']
        subprocess.run([*words, f'{made}/registry'], check=True, stdout=subprocess.DEVNULL)

    def finalize(self, version: str, build_data: dict[str, Any], artifact_path: str) -> None:
        self.folder.cleanup()
        if os.path.isfile(artifact_path):
            os.chmod(artifact_path, 0o644)
