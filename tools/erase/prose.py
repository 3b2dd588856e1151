"""Lines of prose in what the scripts make."""
import itertools
import re
import textwrap
from collections.abc import Iterator

COLUMNS = 100                                   # of a line of Rust
# of the lines of a comment in Rust, before it is indented
WIDTH = 96
WHOLE = re.compile(r'`[^`]*`|\[[^\]]*\]\(')      # a span of code, or a link up to its target
# the margin and the sign of a line of a comment, or an empty text
HEAD = re.compile(r' *(?:///|//!|//)|')
# What begins a line that is no part of a paragraph, or the first of one.
ALONE = re.compile(r'$|#|\||</?\w|```|@')
ITEM = re.compile(r'(- |\d+\. )')


def wrapped(text: str, width: int = WIDTH, indent: str = '') -> list[str]:
    """The lines of a text, broken at spaces that are neither in a span of code nor in a link.
    `indent` is that of the lines after the first."""
    text = WHOLE.sub(lambda whole: whole.group().replace(' ', '\0'), text)
    lines = textwrap.wrap(text, width, subsequent_indent=indent, break_on_hyphens=False,
                          break_long_words=False)
    return [line.replace('\0', ' ') for line in lines]


def paragraphs(lines: list[str]) -> list[tuple[bool, list[str]]]:
    """The lines of a comment in groups, each with whether it is prose: paragraphs and items of a
    list, and lines that stand alone."""
    found: list[tuple[bool, list[str]]] = []
    is_code = False
    for line in lines:
        is_code ^= line.startswith('```')
        is_prose = not is_code and not ALONE.match(line)
        if is_prose and found and found[-1][0] and not ITEM.match(line):
            found[-1][1].append(line)
        else:
            found.append((is_prose, [line]))
    return found


def within(lines: list[str], width: int) -> Iterator[str]:
    """The lines of a comment, none wider than asked where it can be broken."""
    for is_prose, group in paragraphs(lines):
        if not is_prose or all(len(line) <= width for line in group):
            yield from group
        else:
            indent = '  ' if ITEM.match(group[0]) else ''
            yield from wrapped(' '.join(line.strip() for line in group), width, indent)


def within_columns(text: str) -> str:
    """The text of a file of Rust, with its comments within the columns."""
    found: list[str] = []
    for head, lines in itertools.groupby(text.split('\n'),
                                         lambda line: next(HEAD.finditer(line)).group()):
        if head:
            block = [line.removeprefix(head).removeprefix(' ') for line in lines]
            found += [f'{head} {line}'.rstrip() for line in within(block, COLUMNS - len(head) - 1)]
        else:
            found += lines
    return '\n'.join(found)


def anchor(title: str) -> str:
    """The fragment that a title has, in the documentation of Rust and in the browser of a
    repository."""
    return re.sub(r'[^\w\- ]', '', title).replace(' ', '-').lower()


class Anchors(dict[str, int]):
    """How often the titles of a page have an anchor. In the browser of a repository each but the
    first has a number behind it."""

    def of(self, title: str) -> str:
        slug = anchor(title)
        count = self[slug] = self.get(slug, -1) + 1
        return f'{slug}-{count}' if count else slug
