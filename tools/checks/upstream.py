"""Makes a package of num-integer's own tests, which runs them over the crate of plain Rust.

SOURCE is a folder of num-integer's sources, and CRATE the one of the crate. The tests of the
library are what is left of src/lib.rs without its own items. In the package the crate has the name
`num_integer`, so no test changes, with one exception: `x.is_multiple_of(&y)` of unsigned numbers,
which std has since 1.87, becomes a path. What is left out is printed, with the reason."""
import re
from pathlib import Path

from tools.erase.source import Source
from tools import filled, write

TEMPLATES = Path(__file__).parent / 'templates'
# Attributes that go: of what the compiler has, and of tests, which are all that is left of the
# library.
HAS_TYPE, IS_TEST = re.compile(r'#\[cfg\(has_i128\)\]'), re.compile(r'#\[cfg\(test\)\]')
LEFT_OUT, REASON = 'test_roots!(i128, u128);', '13 tests, since there are no roots of 128 bits'
METHOD = re.compile(r'\(([^()]*)\)\.is_multiple_of\(&')


def keep_tests(source: Source) -> None:
    """Drops all items but tests, macros and their calls, and of the macros the implementations
    that they write."""
    for item in source.items():
        words = [word for first, _ in item.attributes
                 for word in (source.at(first + 2), source.at(first + 4) * (item.kind == 'mod'))]
        if item.kind != 'macro_rules':
            if item.kind != 'macro' and 'test' not in words:
                source.drop(item.first, item.last)
            continue
        k = item.word
        while k < item.last:
            k = (source.drop(k, source.close(source.end(k, '{'))) if source.at(k) == 'impl'
                 else k + 1)
    for i, token in enumerate(source.tokens):
        if re.match(r'//[/!]', token.text):
            source.texts[i] = ''


def make(words: list[str]) -> bool:
    upstream, crate, out = map(Path, words)
    edition = re.search(r'^edition = "(\d+)"', (upstream / 'Cargo.toml').read_text(), re.M)
    library = Source(upstream / 'src/lib.rs',
                     HAS_TYPE.sub('', (upstream / 'src/lib.rs').read_text()))
    keep_tests(library)
    made = {'Cargo.toml': filled(TEMPLATES / 'upstream.toml', edition=edition[1] if edition
                                 else '2015', crate=str(crate)),
            'src/lib.rs': (TEMPLATES / 'upstream_head.rs').read_text()
            + METHOD.sub(r'::num_integer::Integer::is_multiple_of(&(\1), &',
                         IS_TEST.sub('', ''.join(library.texts)))}
    for name in ('tests/average.rs', 'tests/roots.rs'):
        made[name] = HAS_TYPE.sub('', (upstream / name).read_text())
        if LEFT_OUT in made[name]:
            made[name] = made[name].replace(LEFT_OUT, '')
            print(f'{Path(name).name}: left out: {LEFT_OUT} {REASON}')
    return write(out, made)
