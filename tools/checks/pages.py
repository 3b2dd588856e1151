"""Compares the code on the pages with the files that the gate compiles or runs, follows their
links, and compares docs/ERRORS.md with what the sources print.

Each block of Rust is in a `.rt` file, or an example or a test of rust/, each block of a proof in
an `.antt` file, and each line of a block of crates in crates.txt. Of a block of imports alone,
each name is imported so in a `.rt` file. Indentation does not count, and a comment `// and ..` in
a block replaces lines that the block leaves out. Blocks of any other kind are not read. The
command of README.md is the stored run. A session is a block of `console`: each command in it
prints the lines below it and nothing else. What the sources print are the messages of rust/src,
those of Rust's own operators that rust/tests/domains/forms.rs expects, whose row says so, the
statuses of the exports, and the exceptions of the package for Python. Each panic of the page is
one that a test has seen."""
import functools
import itertools
import os
import pathlib
import re
import subprocess
from collections.abc import Callable, Iterable, Iterator
from typing import NamedTuple

from tools import ROOT, counted
from tools.bindings.exports import EXPORTS
from tools.erase.prose import Anchors
from tools.erase.source import Source

Found = Iterator[tuple[str, bool]]      # places, each with whether it passed
PAGES = ('README.md', 'docs/*.md', 'crates/*/CALLING.md')
LINKED = PAGES + ('CHANGELOG.md', 'CONTRIBUTING.md', 'bindings/js/*.md', 'bindings/python/*.md',
                  'compare/*.md', 'rust/*.md', 'rust/num-integer/*.md', 'docs/reference/*.md',
                  'rust/reference/*.md')
# Pages that a package, or an index of packages, shows without the other pages.
ALONE = ('rust/README.md', 'rust/num-integer/README.md', 'bindings/js/README.md',
         'bindings/python/README.md')
SESSIONS = ('README.md', 'docs/INTCALC.md')
BLOCK = re.compile(r'^ *```(rust|antt|crates|console)\n(.*?)(?:^ *```$|\Z)', re.M | re.S)
IMPORT = re.compile(r'(?:pub )?((?:ghost )?use .*);')
CODE = re.compile(r'^ *```.*?^ *```$|`[^`\n]*`', re.M | re.S)
# in a line, or the target of links that name it
LINK = re.compile(r'(?:\]\(|^\[[^\]\n]+\]: )([^()\s]+)', re.M)
# crates that a page says to copy or to unpack
COPIED = re.compile(r'^ *(?:cp -r|tar -xf \S+) \S*crates/\{(.*)\}(?: |$)', re.M)
HEADING = re.compile(r'^#{1,6} (.*)$', re.M)
NAMED = re.compile(r'((?:`\w+`(?:,| and|, and)? )*(?:of )?)`(crates/[\w/]+\.(?:rt|antt))`')
MESSAGE = re.compile(r'[a-z`].* .*')
OF_OPERATORS = 'attempt to '            # how a message of Rust's own operators begins
OF_RUST = ' (of Rust) |'                # how its row of the table says so
PANICS = ('rust/tests/domains/forms.rs', 'rust/tests/types.rs')     # the tests that see each panic
SHOWN_STATUS = re.compile(r'^- (\d+) `CELLARCOVE_(\w+)`: ', re.M)
CLASS = re.compile(r'^class (\w+)\(((?:\w+Error|Refused)\b[\w, ]*)\):', re.M)
RAISED = re.compile(r'\b(\w+Error)\(|\bwarn\(\w+, (\w+),|\bPyExc_(\w+)'
                    r'|\b(PyErr_NoMemory|PyObject_GetAttr)\(')
RAISED_BY = {'PyErr_NoMemory': 'MemoryError', 'PyObject_GetAttr': 'AttributeError'}
# the package would lack one of its own classes, and a call raises TypeError in its place
UNSEEN = {'KeyError', 'AttributeError'}
SHOWN_EXCEPTION = re.compile(r'^- `(\w+)`(?: \(([^)]*)\))?: ', re.M)
NO_CODE = re.compile(r'^ *//.*$|#!?\[(?:[^\[\]]|\[[^\[\]]*\])*\]', re.M)
COMMAND = re.compile(r'(?:intcalc|cargo run --example \w+)(?: [^;|&]*)?|echo \$\?')


class Block(NamedTuple):
    """A block of a page, with the number of the line that begins it."""
    line: int
    kind: str
    lines: list[str]


def blocks(text: str) -> Iterator[Block]:
    """The blocks of a page of the kinds that are read."""
    for found in BLOCK.finditer(text):
        yield Block(text.count('\n', 0, found.start()) + 1, found[1],
                    unindented(found[2]).split('\n')[:-1])


def unindented(text: str) -> str:
    return '\n'.join(line.lstrip(' ') for line in text.split('\n'))


def imported_names(lines: list[str]) -> Iterator[str]:
    """Of the imports that stand on a line, each name with its path before it."""
    for line in lines:
        match = IMPORT.fullmatch(line.lstrip(' '))
        if match:
            path, _, names = match.group(1).partition('{')
            yield from (path + name.strip()
                        for name in names.rstrip('}').split(',')) if names else (path,)


class Files:
    """What the blocks quote."""

    def __init__(self, rust: list[str], proofs: list[str], crates: str) -> None:
        self.texts = {'rust': [unindented(text) for text in rust],
                      'antt': [unindented(text) for text in proofs]}
        self.imports = {name for text in self.texts['rust']
                        for name in imported_names(text.split('\n'))}
        self.crates = set(crates.split('\n'))

    def has(self, block: Block) -> bool:
        if block.kind == 'crates':
            return self.crates.issuperset(block.lines)
        if block.kind == 'rust' and all(IMPORT.fullmatch(line) or not line for line in block.lines):
            return self.imports.issuperset(imported_names(block.lines))
        pieces = re.split('^// and .*\n', '\n'.join([*block.lines, '']), flags=re.M)
        wanted = re.compile('^' + r'(?:.*\n)*?'.join(map(re.escape, pieces)), re.M)
        return any(wanted.search(text) for text in self.texts[block.kind])


def files() -> Files:
    """The files of the repository that the gate compiles."""
    def read(folders: tuple[str, ...], suffix: str) -> list[str]:
        return [file.read_text() for folder in folders
                for file in sorted(ROOT.glob(f'crates/*/{folder}/**/*{suffix}'))]
    plain = [file.read_text() for folder in ('examples', 'tests')
             for file in sorted(ROOT.glob(f'rust/{folder}/*.rs'))]
    return Files(read(('src',), '.rt') + plain, read(('src', 'specs', 'proofs'), '.antt'),
                 (ROOT / 'crates.txt').read_text())


def headings(text: str) -> set[str]:
    """The anchors of a page, as the browser of the repository makes them of its headings."""
    return set(map(Anchors().of,
                   HEADING.findall(re.sub(r'^ *```.*?^ *```$', '', text, flags=re.M | re.S))))


@functools.cache
def anchors_of(page: pathlib.Path) -> set[str]:
    return headings(page.read_text() if page.suffix == '.md' else '')


def broken_links(page: pathlib.Path) -> Iterator[str]:
    """The links of a page that lead to no file of the repository, or to no heading of a page."""
    for link in LINK.findall(CODE.sub('', page.read_text())):
        name, _, anchor = link.partition('#')
        target = (page.parent / name).resolve() if name else page.resolve()
        if '://' not in link and (not target.exists() or anchor
                                  and anchor not in anchors_of(target)):
            yield link


def links_to_others(page: pathlib.Path) -> list[str]:
    """The links of a page to other pages than itself and those of an address."""
    return [link for link in LINK.findall(CODE.sub('', page.read_text()))
            if not link.startswith('#') and '://' not in link]


def lacking_lines(text: str, crates: set[str]) -> Iterator[str]:
    """The crates that a page says to copy and of which it has no line of crates.txt, and those
    below them that it does not say to copy. `crates` has all of the repository."""
    lines = [line for block in blocks(text) if block.kind == 'crates' for line in block.lines]
    below = {name: words.split() for name, _, words in (line.partition(': ') for line in lines)}
    copied = {name for found in COPIED.findall(text) for name in found.split(',')}
    yield from (f'no line of {name}' for name in sorted(copied - below.keys()))
    needed = {word for words in below.values() for word in words if word in crates}
    yield from (f'{name} is not copied' for name in sorted(needed - copied))


def absent_names(text: str, texts: dict[str, str]) -> Iterator[str]:
    """The files that a page names and that are not there, and the names that are not in them.
    `texts` has the files."""
    for names, file in NAMED.findall(' '.join(text.split())):
        for name in ('', *re.findall(r'`(\w+)`', names)):
            if not re.search(rf'\b{name}\b', texts.get(file, '')):
                yield f'{file} {name}'.strip()


def look(patterns: tuple[str, ...], failed: str,
         wrong: Callable[[pathlib.Path], Iterable[str]]) -> Found:
    """Each page, with what is wrong on it, if anything is."""
    for page in sorted({page for pattern in patterns for page in ROOT.glob(pattern)}):
        found = list(wrong(page))
        yield f'{" ".join([page.relative_to(ROOT).as_posix(), *found])}: {failed}', not found


def messages_in(code: str) -> set[str]:
    """The messages of the panics and the errors in the text of a file of Rust, except those that
    are put together: each string of several words that begins with a small letter."""
    found = re.findall(r'"((?:[^"\\]|\\.)*)"', NO_CODE.sub('', code))
    strings = (string.replace('\\"', '"') for string in found)
    return {string for string in strings if MESSAGE.fullmatch(string)
            and not set('{\\') & set(string)}


def messages_on(page: str) -> set[str]:
    """The messages that a page shows: each in quotation marks, or, if it has some itself, as
    code."""
    found = re.findall(r'"([^"]*)"', page) + [code for code in re.findall('`([^`]*)`', page)
                                              if '"' in code]
    return {message for message in found if MESSAGE.fullmatch(message)}


def panics(page: str, ours: set[str], seen: set[str]) -> Found:
    """The panics of Rust's own operators and those that a page shows as such; and those of a page
    with those that tests have seen."""
    of_rust = ''.join(line for line in page.splitlines() if OF_RUST in line)
    yield from compared({f'{message}, of Rust' for message in seen - ours
                         if message.startswith(OF_OPERATORS)},
                        {f'{message}, of Rust' for message in messages_on(of_rust)})
    shown = messages_on(page.partition('\n## Panics')[2].partition('\n## ')[0])
    yield from compared({f'{message}, which a test has seen' for message in seen & shown},
                        {f'{message}, which a test has seen' for message in shown})


def exceptions_in(package: str, driver: str) -> set[str]:
    """The exceptions of the package for Python, each with the classes that it is one of too, and
    those of Python that it raises."""
    classes = dict(CLASS.findall(package))
    raised = {RAISED_BY.get(word, word) for words in RAISED.findall(package + driver)
              for word in words if word}
    return ({f'{name} {bases}' for name, bases in classes.items()}
            | {f'{name} ' for name in raised - UNSEEN})


def rows_on(page: str) -> set[str]:
    """The statuses that a page shows, and the exceptions, each with the classes that it is one of
    too."""
    exceptions = SHOWN_EXCEPTION.findall(page.partition('\n## Exceptions')[2])
    return ({f'{number} CELLARCOVE_{name}' for number, name in SHOWN_STATUS.findall(page)}
            | {' '.join(row).replace('`', '') for row in exceptions})


def compared(printed: set[str], shown: set[str]) -> Found:
    """What is printed and what the page of errors shows, each with whether it is both."""
    for fact in sorted(printed | shown):
        there = 'on docs/ERRORS.md' if fact in shown else 'not on docs/ERRORS.md'
        yield (f"{fact.strip()}: {there}{'' if fact in printed else ', and no source prints it'}",
               fact in printed & shown)


def errors() -> Found:
    """What docs/ERRORS.md shows, and what the sources print."""
    def read(name: str) -> str:
        return (ROOT / name).read_text()
    page, package = read('docs/ERRORS.md'), 'bindings/python/'
    ours = set().union(*(messages_in(file.read_text()) for file in ROOT.glob('rust/src/**/*.rs')))
    seen = set().union(*(messages_in(read(name)) for name in PANICS))
    yield from compared(ours | {message for message in seen if message.startswith(OF_OPERATORS)},
                        messages_on(' '.join(page.split())))
    yield from panics(page, ours, seen)
    statuses = {f'{status.number} CELLARCOVE_{status.name}' for status in EXPORTS().statuses}
    sources = read(package + 'src/driver.h') + read(package + 'src/cellarcove/_columns.py')
    yield from compared(statuses | exceptions_in(read(package + 'src/cellarcove/__init__.py'),
                                                 sources), rows_on(page))


def compare() -> Found:
    """Each block with whether a file has it."""
    there = files()
    for page in (page for pattern in PAGES for page in sorted(ROOT.glob(pattern))):
        name = page.relative_to(ROOT).as_posix()
        for block in blocks(page.read_text()):
            if block.kind != 'console':
                yield f'{name}:{block.line}: in no file', there.has(block)
    # README.md has the command of the stored run, and what it prints
    text, program = (ROOT / 'README.md').read_text(), ROOT / 'crates' / 'intcalc'
    words, printed = (program / 'args').read_text().split(), (
        program / 'stdout').read_text().rstrip('\n')
    yield ('README.md: the stored run: in no file', f"rt run -- {' '.join(words)})" in text
           and f'prints `{printed}`' in text)


def steps(block: Block) -> list[tuple[int, str, list[str]]]:
    """The commands of a session, each with the number of its line and the lines that it prints."""
    found: list[tuple[int, str, list[str]]] = []
    for number, line in enumerate(block.lines, block.line + 1):
        if line.startswith('$ '):
            found.append((number, line[2:], []))
        elif found:
            found[-1][2].append(line)
        else:
            found.append((number, '', [line]))
    return found


def run(program: pathlib.Path, command: str, status: int) -> tuple[str, int]:
    """What a command prints, and its status. A page has only calls of the program, or of the
    examples in a folder of programs, and `echo $?`."""
    if not COMMAND.fullmatch(command):
        return 'a command of another form\n', 1
    calls = ('intcalc() { "$PROGRAM" "$@"; }; cargo() { local name=$3; shift 3; '
             '[ "$1" != -- ] || shift; "$PROGRAM/$name" "$@"; }')
    shell = f'{calls}; (exit {status}); {command}'
    ended = subprocess.run(['bash', '-c', shell], env={**os.environ, 'PROGRAM': str(program)},
                           stdin=subprocess.DEVNULL, stdout=subprocess.PIPE,
                           stderr=subprocess.STDOUT, check=False)
    return ended.stdout.decode(errors='replace'), ended.returncode


def sessions(program: pathlib.Path, named: Iterable[tuple[str, str]]) -> Found:
    """Each command of the sessions of the pages, with whether it prints what the page shows."""
    for name, text in named:
        for block in blocks(text):
            status = 0
            for number, command, lines in steps(block) if block.kind == 'console' else ():
                printed, status = run(program, command, status)
                yield (f'{name}:{number}: {command}',
                       printed == ''.join(line + '\n' for line in lines))


def check(_: list[str]) -> bool:
    texts = {file.relative_to(ROOT).as_posix(): file.read_text()
             for kind in ('src/**/*.rt', 'specs/**/*.antt', 'proofs/**/*.antt')
             for file in ROOT.glob(f'crates/*/{kind}')}
    crates = {path.name for path in (ROOT / 'crates').iterdir()}
    return counted(itertools.chain(compare(), look(LINKED, 'leads nowhere', broken_links),
                                   look(ALONE, 'leads out of its package', links_to_others),
                                   look(('docs/RATTLE.md',), 'is not enough',
                                        lambda page: lacking_lines(page.read_text(), crates)),
                                   look(PAGES, 'is not there',
                                        lambda page: absent_names(page.read_text(), texts)),
                                   errors()))


def check_sessions(words: list[str]) -> bool:
    program = pathlib.Path(words[0]).resolve()
    files = (sorted((ROOT / 'rust/examples').glob('*.rs')) if program.is_dir()
             else [ROOT / name for name in SESSIONS])
    texts = ('\n'.join(Source(file, file.read_text()).head()) if program.is_dir()
             else file.read_text() for file in files)
    found = sessions(program, zip((str(file.relative_to(ROOT)) for file in files), texts))
    return counted((f'{command}: prints something else', passed) for command, passed in found)
