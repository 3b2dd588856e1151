"""Writes what C, C++, JavaScript and Python know of the exports, from the sources of
crates/cellarcove_c, and the statuses on docs/ERRORS.md. languages.txt loses the lines of calls that
have an export now. The calls of Python in C are in no commit: bindings/python/hatch_build.py has
them made."""
import re

from tools import ROOT, write
from tools.bindings import javascript
from tools.bindings.c import header
from tools.bindings.cpp import hpp
from tools.bindings.exports import EXPORTS
from tools.bindings.languages import LIST, current, page
from tools.bindings.python import calls_c, stubs
from tools.bindings.ufuncs import table, ufuncs_c


ERRORS = 'docs/ERRORS.md'


def errors() -> str:
    """The page of errors with the statuses, as the comments of their constants have them."""
    rows = ''.join(f'- {status.number} `CELLARCOVE_{status.name}`: {status.reason}.\n'
                   for status in EXPORTS().statuses)
    text, count = re.subn(r'(?:^- \d+ `CELLARCOVE_.*\n)+', lambda _: rows,
                          (ROOT / ERRORS).read_text(), flags=re.M)
    assert count == 1, f'{ERRORS} has {count} places for the statuses'
    return text


def made() -> dict[str, str]:
    """The files, and what is to be in them."""
    package = 'bindings/python/src/cellarcove'
    return {'bindings/c/cellarcove.h': header(), 'bindings/c/cellarcove.hpp': hpp(),
            f'{package}/_table.py': table(), f'{package}/_calls.pyi': stubs(),
            'docs/LANGUAGES.md': page(), LIST: current(), ERRORS: errors()} | javascript.made()


def calls() -> dict[str, str]:
    """The files that are made when the package for Python is built."""
    return {'bindings/python/src/calls.c': calls_c(), 'bindings/python/src/ufuncs.c': ufuncs_c()}


def make_calls(_: list[str]) -> bool:
    return write(ROOT, calls())
