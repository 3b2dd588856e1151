"""Follows the links of the pages in packages: each relative link leads to a file of the same
package, or to a heading of a page there.

A package is an archive (a `.crate`, a `.tgz`, a `.tar.gz` or a `.whl`) or a folder. Its pages are
its files of Markdown and of HTML, CHANGELOG, and METADATA or PKG-INFO, which is the page that an
index of packages shows, with nothing beside it. Not read are the pages of rustdoc, which are below
`src` and have a check of their own (rust_docs.py), and those of packages of other authors."""
import pathlib
import posixpath
import re
import tarfile
import urllib.parse
import zipfile
from collections.abc import Iterator, Mapping

from tools import counted
from tools.checks.pages import CODE, LINK, headings

SHOWN_ALONE = ('METADATA', 'PKG-INFO')      # the page of an index of packages
HREF = re.compile(r'\b(?:href|src)="([^"#?]*)')
SCHEME = re.compile(r'[a-z][a-z+.-]*:')
NOT_READ = re.compile(r'(?:.*/)?(?:src|vendor/registry)/')


def files_of(package: pathlib.Path) -> dict[str, bytes]:
    """The files of a package, by their names in it."""
    if package.is_dir():
        return {path.relative_to(package).as_posix(): path.read_bytes()
                for path in package.rglob('*') if path.is_file()}
    if package.suffix == '.whl':
        with zipfile.ZipFile(package) as wheel:
            return {name: wheel.read(name) for name in wheel.namelist() if not name.endswith('/')}
    with tarfile.open(package) as archive:
        opened = ((member.name, archive.extractfile(member)) for member in archive)
        return {name: file.read() for name, file in opened if file}


def links_of(name: str, text: str) -> Iterator[str]:
    """The links of a page."""
    if name.endswith('.html'):
        yield from filter(None, HREF.findall(text))
    elif name.endswith('.md') or posixpath.basename(name) in (*SHOWN_ALONE, 'CHANGELOG'):
        yield from LINK.findall(CODE.sub('', text))


def leads(link: str, name: str, files: Mapping[str, bytes]) -> bool:
    """Whether a link of a page leads to a file of the package, and to a heading of it."""
    path, _, title = link.partition('#')
    if path and posixpath.basename(name) in SHOWN_ALONE:
        return False
    target = posixpath.normpath(posixpath.join(posixpath.dirname(name), urllib.parse.unquote(path)))
    target = target if path else name
    return target in files and (not title or title in headings(files[target].decode()))


def dead_links(files: Mapping[str, bytes]) -> Iterator[str]:
    """The dead links of a package."""
    for name, content in sorted(files.items()):
        for link in (() if NOT_READ.match(name)
                     else links_of(name, content.decode(errors='replace'))):
            if not SCHEME.match(link) and not leads(link, name, files):
                yield f'{name} leads to {link}'


def check(words: list[str]) -> bool:
    def judged() -> Iterator[tuple[str, bool]]:
        for word in words:
            files = files_of(pathlib.Path(word))
            dead = list(dead_links(files))
            yield '\n'.join(f'{word}: {link}, which is not in it' for link in dead), not dead
            yield f'{word}: it has no file', bool(files)
    return counted(judged())
