"""Makes the manual page of `intcalc` from docs/INTCALC.md, and what shells complete.

    tools/cellarcove make manual FOLDER

The page has the paragraphs, sessions and tables of that page, but not how to install."""
import re
from collections.abc import Iterator
from pathlib import Path

from tools import ROOT, filled

PAGE, SHELLS = ROOT / 'docs/INTCALC.md', ROOT / 'tools/pages/shells'
LEFT_OUT = 'Install'
TITLES = {'Status': 'EXIT STATUS'}
SPAN = re.compile(r'`([^`]*)`|\[([^\]]*)\]\([^)]*\)')


def version() -> str:
    """The version of the crate."""
    text = (ROOT / 'rust/Cargo.toml').read_text()
    return re.search('^version = "(.*)"$', text, re.M)[1]   # type: ignore[index]


def roff(text: str) -> str:
    """A line of text, with the spans of code in bold."""
    text = text.replace('\\', r'\e').replace('-', r'\-').replace("'", r'\(cq')
    text = SPAN.sub(lambda span: span[2] or rf'\fB{span[1]}\fR', text)
    return rf'\&{text}' if text.startswith('.') else text


def table(lines: list[str]) -> Iterator[str]:
    """The rows of a table as entries: the first cell, and below it the others, the last of them on
    a line of its own."""
    for line in lines[2:]:
        first, *others = (cell.strip() for cell in line.strip('|').split('|'))
        yield from ['.TP', roff(first if '`' in first else f'`{first}`')]
        yield from [roff(others[-1] + '.'),
                    *(line for cell in others[:-1] for line in ('.br', roff(f'Prints {cell}.')))]


def block(lines: list[str]) -> Iterator[str]:
    """A paragraph, a table or a session."""
    if lines[0].startswith('|'):
        yield from table(lines)
    elif lines[0].startswith('```'):
        yield from ['.PP', '.EX', *(roff(line) for line in lines[1:-1]), '.EE']
    else:
        yield from ['.PP', *(roff(line) for line in lines)]


def manual() -> str:
    """The manual page."""
    head, *sections = re.split('^## ', PAGE.read_text().split('\n', 1)[1], flags=re.M)
    lines = [f'.TH INTCALC 1 "" "Cellarcove {version()}"', '.SH NAME',
             r'intcalc \- exact integer arithmetic, one call at a time', '.SH SYNOPSIS',
             r'.B intcalc', r'.I type call operand \fR..', '.SH DESCRIPTION']
    for section in [head, *sections]:
        title, text = section.split('\n', 1) if section is not head else ('', section)
        if title != LEFT_OUT:
            lines += [f'.SH {TITLES.get(title, title.upper())}'] if title else []
            lines += [line for part in re.split(r'\n\n+', text.strip())
                      for line in block(part.split('\n'))]
    return '\n'.join([*lines, '.SH COPYRIGHT', roff('The Cellarcove authors. MIT or Apache-2.0.'),
                      ''])


def calls() -> dict[str, str]:
    """The calls of the table, with what each is."""
    rows = re.findall(r'^\| `(\w+) [^`]*` \| `[^`]*` \| (.*) \|$', PAGE.read_text(), re.M)
    return {name: re.sub('`|:.*', '', text) for name, text in rows}


def files() -> dict[str, str]:
    """The manual page and the completions, by name."""
    kinds = re.findall('`(i8|u8|i64|u64)`', PAGE.read_text().split('\n')[2])
    zsh = [f"        '{name}:{text}'" for name, text in calls().items()]
    fish = [f"complete -c intcalc -n $second -a {name} -d '{text}'"
            for name, text in calls().items()]
    parts = {'types': ' '.join(kinds), 'calls': ' '.join(calls()), 'zsh': '\n'.join(zsh),
             'fish': '\n'.join(fish)}
    places = {'bash': 'completions/bash/intcalc', 'zsh': 'completions/zsh/_intcalc',
              'fish': 'completions/fish/intcalc.fish'}
    return {'man/man1/intcalc.1': manual()} | {place: filled(SHELLS / f'intcalc.{shell}', **parts)
                                               for shell, place in places.items()}


def make(words: list[str]) -> bool:
    folder, = words
    for name, text in files().items():
        (Path(folder) / name).parent.mkdir(parents=True, exist_ok=True)
        (Path(folder) / name).write_text(text)
    return True
