#!/usr/bin/env python3
"""Compares plain Rust (rust/src, rust/c/src, rust/intcalc/src) with the proved Rattle
(crates/*/src) whose contracts are deleted.

    tools/checks/erased.py          the counts; status 1 if a table or a page says otherwise
    tools/checks/erased.py --list   also how many functions need each rule, and all that differs

It shares no code with the scripts that make the Rust, so nobody has to trust those. A `Tree` has
the items of one side: functions, types, constants, heads of traits and implementations, modules,
and each name that a `use` imports or gives out. `without_contracts` deletes from a source what only
the prover reads, and from both sides the attributes that change no result. Then two items of one
kind, module and name have to have the same tokens, and each name in them has to lead to the same
place, through all re-exports. `RULES` are the differences that are allowed. Each rewrites one side
alone, or says what it leaves out.

An item that differs otherwise is `changed`; one that Rust lacks is `absent`; one that is in Rust
alone is `by hand`, as is a file that decides what cargo compiles. A name that an older place of
a library gives out is none of these if it leads to that name in the library.
tools/checks/erased.txt names each of these with a reason and a checksum of the text that was
read for it, and no other item. So none comes, goes or changes unseen. What this script can't
read, such as a module within a file, is an error. tools/tests/test_erased.py tries it on small
trees, and on changes of the crate."""
import collections
import functools
import hashlib
import itertools
import json
import pathlib
import re
import sys
import tomllib
from collections.abc import Callable, Collection, Iterator
from typing import NamedTuple, NoReturn

REPOSITORY = pathlib.Path(__file__).resolve().parent.parent.parent
LIBRARIES = ('integer_core', 'integer_roots', 'num_integer', 'modular', 'ratio64', 'calendar',
             'bounded_integers', 'applied')
AT_ROOT = 'num_integer'             # the library whose modules stand at the root in Rust
MOVED = 'applied'                   # the library whose modules stood there, and give out its names
# The crates for C and of the program, each with the root of its source and that of Rust.
OTHERS = {'cellarcove_c': ('lib.rt', 'rust/c/src/lib.rs'),
          'intcalc_core': ('lib.rt', 'rust/intcalc/src/lib.rs'),
          'intcalc': ('main.rt', 'rust/intcalc/src/main.rs')}
TABLE, PAGES = 'tools/checks/erased.txt', ('rust/README.md', 'docs/TRUST.md')
# The files that decide what cargo compiles. Of a manifest what describes the package is left out.
CARGO = ('Cargo.toml', 'rust/Cargo.toml', 'rust/build.rs', 'rust/c/Cargo.toml', 'rust/c/build.rs',
         'rust/intcalc/Cargo.toml', 'rust/num-integer/Cargo.toml', 'rust/num-integer/src/lib.rs')
DESCRIBES = ('authors', 'categories', 'description', 'documentation', 'exclude', 'homepage',
             'keywords', 'license', 'readme', 'repository', 'version')
WITHOUT_CODE = ('Model', 'Integral', 'FixedWidth', 'Number')    # traits of Rattle with no function
# Attributes that change no result: of warnings, of speed, of documentation, of the form of the
# text, and of the place that a panic names. In a source also those of proofs.
NO_RESULT = re.compile(
    r'(?:allow|cold|deprecated|doc|inline|must_use|track_caller|rustfmt :: skip)(?: [(=].*)?'
    r'|cfg_attr \( has_do_not_recommend , diagnostic :: do_not_recommend \)'
    r'|cfg_attr \( has_diagnostic , diagnostic :: on_unimplemented '
    r'\( (?:\w+ = "\S*" (?:, )?)*\) (?:, )?\)', re.S)
OF_PROOFS = re.compile(r'tactic(?: \(.*)?|derive \( Drop \)|rattlefmt :: skip', re.S)
LEFT_OUT = ('# [ cfg ( test ) ]', '# [ cfg ( doc ) ]')      # items that no program has
KINDS = ('fn', 'struct', 'enum', 'trait', 'impl', 'type', 'const', 'static', 'crate', 'macro',
         'mod', 'use')
TOKEN = re.compile(r'''\s+ | //[^\n]* | (?P<token> /\*
    | [bc]?r(?P<marks>\#*)".*?"(?P=marks) | [bc]?"(?:[^"\\]|\\.)*"
    | b?'(?:[^'\\\n]|\\(?:x..|u\{[^}]*\}|.))' | '\w+ | \d\w*(?:\.\d\w*)? | \w+
    | :: | -> | => | == | != | <= | >= | && | \|\| | \.\.=? | [-+*/%^&|]= | .)''', re.X | re.S)
OPENING, CLOSING = ('(', '[', '{'), (')', ']', '}')
# The private modules of Rust whose items are in the module of this name at the root too.
PARTS = {'checked_calls': 'checked', 'counted_calls': 'counted'}
NAME = re.compile(r'(?<= )(?<!:: )(?<! \. )[^\W\d]\w*(?: :: \w+)*(?= )')       # or a path
GENERICS = re.compile(r'^impl (?:<(?:->|[^<>]|<(?:->|[^<>]|<[^<>]*>)*>)*> )?| where .*$')

SLICE = ('let {0} = if {0}_len == 0 {{ & {1}[ ] }} else {{ unsafe {{ core :: slice :: '
         'from_raw_parts{2} ( {0} , {0}_len ) }} }} ; ')

Place = tuple[str, ...]             # the words of an absolute path
Roots = dict[str, Place]            # where the first words of paths in a crate lead


class Item(NamedTuple):
    """An item: its kind, module, type or trait, and name; its tokens, with spaces between them; how
    many functions it is, or writes if it's a call of a macro; and where paths in it lead."""
    key: str
    text: str
    functions: int = 0
    lead: Callable[[Place], Place] = lambda words: words


def refuse(what: str) -> NoReturn:
    sys.exit(f'erased.py: {what}, which it does not read')


def tokens_of(file: pathlib.Path) -> list[str]:
    """The tokens of a file, without comments. In a text, spaces are other signs, so that a token
    has none."""
    text = file.read_bytes().decode()
    if re.search(r'[\x00-\x09\x0b-\x1f]', text):     # no line ends at a carriage return
        refuse(f'{file} has a control character')
    found = [match['token'].translate({32: 1, 10: 2}) for match in TOKEN.finditer(text)
             if match['token']]
    return found if '/*' not in found else refuse(f'{file} has a comment in /* */')


def close(t: list[str], k: int) -> int:
    """The place of the bracket that closes the one at `k`."""
    depth = 0
    for i in range(k, len(t)):
        depth += (t[i] in OPENING) - (t[i] in CLOSING)
        if depth == 0:
            return i
    return refuse(f'`{" ".join(t[k:k + 9])}` is not closed')


def after_attribute(t: list[str], k: int) -> int:
    """The place behind the attribute at `k`."""
    first = k + 1 + (t[k + 1] == '!')
    return close(t, first) + 1 if t[first] == '[' else refuse(f'`{" ".join(t[k:k + 9])}`')


def without_contracts(t: list[str], is_source: bool) -> list[str]:
    """The tokens without attributes that change no result. A source also loses `requires {..}` and
    `ensures {..}`, with a name or without; `ghost use ..;`, `ghost x: {..}`, `ghost x = {..}`,
    perhaps with `by {..}`; the word `final`; and bounds without code."""
    out, k = list[str](), 0
    while k < len(t):
        word, after = t[k], t[k + 1:k + 3]
        if word == '#' and after[0] in ('!', '['):
            end = after_attribute(t, k)
            text = ' '.join(t[k + 2 + (after[0] == '!'):end - 1])
            if not (NO_RESULT.fullmatch(text) or is_source and OF_PROOFS.fullmatch(text)):
                out += t[k:end]
            k = end
        elif is_source and word in ('requires', 'ensures'):
            k = close(t, t.index('{', k)) + 1
        elif is_source and word == 'ghost':
            k = t.index(';', k) if after[0] == 'use' else k + 2
            while t[k] in (':', '=', 'by'):
                k = close(t, k + 1) + 1
            k += t[k] in (';', ',')
            out = out[:-1] if out[-1:] == ['pub'] else out
        elif is_source and (word == 'final' or word == '+' and after[0] in WITHOUT_CODE):
            k += 1 if word == 'final' else 2
        else:
            out.append(word)
            k += 1
    return out


def imported(text: str) -> Iterator[tuple[str, str]]:
    """The names that a `use` gives, each with its path."""
    while '{' in text:                                  # `a::{b, c}` is `a::b, a::c`
        text = re.sub(r'([^{},]*){([^{}]*)}', lambda m: ','.join(
            m[1] + end for end in m[2].split(',') if end.strip()), text)
    for path in text.split(','):
        path, _, given = path.partition(' as ')
        path = re.sub(r'\s', '', path).removesuffix('::self')
        yield given.strip() or path.split('::')[-1], path


class Part(NamedTuple):
    """The tokens of an item, its attributes, and the places of its first word and of the bracket
    or the semicolon at the end of its head."""
    tokens: list[str]
    attributes: list[str]
    word: int
    stop: int

    @property
    def kind(self) -> str:
        word, after = self.tokens[self.word:self.word + 2]
        return 'macro' if after == '!' else word

    @property
    def name(self) -> str:
        """The name by which an item is found. An implementation has its head, a macro some
        words."""
        t, k = self.tokens, self.word
        if self.kind not in ('impl', 'macro'):
            return t[k + 1]
        head = ' '.join(t[k:self.stop] if self.kind == 'impl' else t[k:k + 4])
        return re.sub(r' (?=::|[<>,)!])|(?<=[<&(!]) |(?<=::) ', '', GENERICS.sub('', head))


def part_at(t: list[str], first: int) -> Part:
    """The item that begins at a place."""
    k, attributes = first, list[str]()
    while t[k] == '#':
        end = after_attribute(t, k)
        attributes.append(' '.join(t[k:end]))
        k = end
    while t[k] in ('pub', 'unsafe', 'extern') or t[k][0] in '("' or t[k:k + 2] == ['const', 'fn']:
        k = close(t, k) + 1 if t[k] == '(' else k + 1
    stop = k
    while t[stop] != ';' and (t[stop] != '{' or t[k] in ('use', 'const', 'static', 'type')):
        stop = close(t, stop) + 1 if t[stop] in OPENING else stop + 1
    last = close(t, stop) if t[stop] == '{' else stop
    part = Part(t[first:last + 1], attributes, k - first, stop - first)
    return part if part.kind in KINDS else refuse(f'`{" ".join(part.tokens[:12])}`')


def forms(rules: list[str]) -> Iterator[tuple[list[str], list[str]]]:
    """The forms of a macro: of each what stands in a call, and what it writes."""
    k = 0
    while k < len(rules):
        end = close(rules, k)
        last = close(rules, end + 2)
        yield rules[k + 1:end], rules[end + 3:last]
        k = last + 1 + (rules[last + 1:last + 2] == [';'])


def written(macros: dict[str, list[str]], name: str, words: list[str]) -> int:
    """How many functions a call of a macro with these words writes."""
    def in_common(form: tuple[list[str], list[str]]) -> int:
        begin = list(itertools.takewhile(lambda word: word != '$', form[0]))
        return len(begin) if words[:len(begin)] == begin else -1

    if name not in macros:
        refuse(f'a call of `{name}!`, which no file above it has')
    head, body = max(forms(macros[name]), key=in_common)
    repeats = [part[:2] == ['$', '('] for part in (head, body)]
    if repeats in ([True, False], [False, True]) or '$ (' in ' '.join(head[1:] + body[1:]):
        refuse(f'`{name}!`, which repeats a part')
    if repeats[0] and ':' not in head:
        refuse(f'`{name}!`, which repeats no variable')
    times = len(words) // head.count(':') if repeats[0] else 1
    within = (written(macros, body[k], body[k + 3:close(body, k + 2)])
              for k in range(len(body) - 2) if body[k] in macros and body[k + 1] == '!')
    return times * (body.count('fn') + sum(within))


class Scope(NamedTuple):
    """What holds where an item stands: where the first words of the paths of its crate lead,
    whether that is Rattle, its module, its module with its type or trait, and the macros there."""
    roots: Roots
    is_source: bool
    module: Place
    place: Place
    macros: dict[str, list[str]]


class Tree:
    """The items of one side by name, and where its imported names lead. `moved` has the places of
    the crates of the other side whose modules are in one crate."""

    def __init__(self, moved: Roots) -> None:
        self.moved = moved
        self.items = collections.defaultdict[str, list[Item]](list)
        self.modules = set[Place]()
        self.imports = collections.defaultdict[Place, dict[str, tuple[Place, Roots]]](dict)

    def read(self, file: pathlib.Path, scope: Scope) -> None:
        """Reads the file of a module, and those of the modules in it."""
        self.modules.add(scope.module)
        folder = file.parent if len(scope.module) == 1 else file.with_suffix('')
        for name in self.block(without_contracts(tokens_of(file), scope.is_source), scope):
            place = (*scope.module, name)
            self.read(folder / f'{name}{file.suffix}',
                      scope._replace(module=place, place=place, macros={}))

    def block(self, t: list[str], scope: Scope) -> list[str]:
        """Notes the items of a file, a trait or an implementation. Returns the modules in it."""
        k, below = 0, list[str]()
        while k < len(t):
            if t[k:k + 2] == ['#', '!']:            # an attribute of the whole block
                end = after_attribute(t, k)
                self.note(scope, 'attribute', t[k + 3], t[k:end])
                k = end
                continue
            part = part_at(t, k)
            k += len(part.tokens)
            if {*part.attributes}.isdisjoint(LEFT_OUT):
                self.note_part(part, scope)
                below += [part.name] if part.kind == 'mod' else []
        return below

    def note(self, scope: Scope, kind: str, name: str, tokens: list[str], count: int = 0) -> None:
        """Notes an item by its kind, its place and its name."""
        place = self.at((*scope.place, name))
        path = '::'.join(place[place[0] == 'crate':])
        key = path if kind == 'fn' else f'{kind} {path}'
        lead = functools.partial(self.lead, scope.module, scope.roots)
        self.items[key].append(Item(key, ' '.join(['', *tokens, '']), count, lead))

    def note_part(self, part: Part, scope: Scope) -> None:
        """Notes an item, or what a `use` imports, and what is in a trait or an implementation."""
        t, kind, name = part.tokens, part.kind, part.name
        if kind == 'use':
            self.note_imports(part, scope)
        elif kind == 'macro':
            self.note_macro(part, scope)
        elif kind == 'mod' and (part.attributes or t[-1] != ';'):
            refuse(f'`{" ".join(t[:12])}`')
        elif not (scope.is_source and name.split()[0] in WITHOUT_CODE and t[-2:] == ['{', '}']):
            is_block = kind in ('impl', 'trait')
            is_function = kind == 'fn' and t[part.stop] == '{'
            self.note(scope, kind, name, t[:part.stop] if is_block else t, int(is_function))
            if is_block:
                inside = scope._replace(place=(*scope.place, f'<{name}>'))
                self.block(t[part.stop + 1:-1], inside)

    def note_imports(self, part: Part, scope: Scope) -> None:
        """Notes each name that a `use` imports. No path leads through one with an attribute."""
        before, path_and_end = part.tokens[:part.word + 1], part.tokens[part.word + 1:]
        for name, path in imported(' '.join(path_and_end[:-1])):
            words = tuple(path.split('::'))
            self.note(scope, 'use', name, [*before, ' :: '.join(words)])
            if name == '*' or self.imports[scope.module].get(name, (words,))[0] != words:
                refuse(f'`use` of `{path}`, or of another path as `{name}`')
            if not part.attributes and name != '_':
                self.imports[scope.module][name] = words, scope.roots

    def note_macro(self, part: Part, scope: Scope) -> None:
        t, k = part.tokens, part.word
        count = 0
        if t[k] == 'macro_rules':
            scope.macros[t[k + 2]] = t[k + 4:-1]
        else:
            count = written(scope.macros, t[k], t[k + 3:close(t, k + 2)])
        self.note(scope, 'macro', part.name, t, count)

    def lead(self, module: Place, roots: Roots, words: Place) -> Place:
        """Where a path in a module leads on the other side; the path, if the module does not know
        its first word."""
        place = self.start(module, roots, words)
        return self.at(place) if place else words

    def at(self, place: Place) -> Place:
        return (*self.moved.get(place[0], place[:1]),
                *(PARTS.get(word, word) for word in place[1:]))

    def start(self, module: Place, roots: Roots, words: Place) -> Place | None:
        """Where a path leads on its own side."""
        first, is_path = words[0], len(words) > 1
        if is_path and first in roots:
            return self.walk(roots[first], words[1:])
        is_here = first in ('self', 'super') or (*module, first) in self.modules
        if first in self.imports[module] or is_path and is_here:
            return self.walk(module, words)
        return None

    def walk(self, place: Place, words: Place) -> Place:
        """Where the words lead from a place, through the imports of the modules on the way."""
        for k, word in enumerate(words):
            path, roots = self.imports.get(place, {}).get(word, ((), {}))
            is_below = (*place, word) in self.modules and k + 1 < len(words)
            if path and not is_below:
                is_crate = path == (word,)      # `use num_traits;`
                start = path if is_crate else self.start(place, roots, path) or path
                return self.walk(start, words[k + 1:])
            if word == 'super':
                place = place[:-1]
            elif word != 'self':
                place = (*place, word)
        return place


def with_slices(match: re.Match[str]) -> str:
    """The function of Rust with the slices of its source. It has a pointer and a length of each,
    and its body begins with the slices that it makes of them."""
    pointer = re.compile(r'(\w+) : \* (const|mut) (\w+) , \1_len : usize ')
    made = ''.join(SLICE.format(name, *(('mut ', '_mut') if kind == 'mut' else ('', '')))
                   for name, kind, _ in pointer.findall(match[0]))
    head, body, rest = match[0].partition('{ ' + made)
    if not made or not body:
        return match[0]
    return pointer.sub(lambda m: f'{m[1]} : & {"mut " * (m[2] == "mut")}[ {m[3]} ] ',
                       head) + '{ ' + rest


SOURCE, RUST = True, False
BOTH = (SOURCE, RUST)
# The differences that are allowed, apart from `path`: a path counts by the place to which it
# leads. Each rewrites the tokens of one side, and deletes none of Rust that does something.
REWRITES: tuple[tuple[str, tuple[bool, ...], str, str | Callable[[re.Match[str]], str]], ...] = (
    # A comma at the end of parameters, and of an array.
    ('comma', BOTH, r', (?=\) -> )', ''),
    ('comma', (SOURCE,), r', (?=\] ; )', ''),
    # The braces around the one expression of an arm, where a longer path makes its line too wide.
    ('arm', (RUST,), r'(?<= => ){ ([^{};]*)} (?=[\w&(]+ [^{};]*=> )', r'\1, '),
    # The label of a loop that nothing names.
    ('label', (SOURCE,), r"('\w+) : (?=(?:loop|while|for) )(?!.* \1 )", ''),
    # Bounds say at which types an item is there, and not what it returns. What asks for `Copy` asks
    # for less in Rust, and where it clones, for `Clone`.
    ('bound', (RUST,), r'(?<= : )Sized (?=\+ )|(?<= \+ )Clone (?=> )', 'Copy '),
    ('bound', (RUST,), r'where Self : Clone , (?={ )|(?<= where Self : )Clone \+ ', ''),
    # `Formatter<W>` of Rattle, for a writer `W`, is `Formatter<'_>` of Rust.
    ('Formatter', (SOURCE,), r'(?<= fn )(\w+) < W : fmt :: Write > ', r'\1 '),
    ('Formatter', (SOURCE,), r'(?<= Formatter )< W > ', "< '_ > "),
    # The copy of a value that need not be `Copy` in Rust is its clone.
    ('clone', (SOURCE,), r'(?<= [(,{] )\* (?:& )?([a-z]\w*(?: \. \w+)*)(?= [,)}] )',
     r'\1 . clone ( )'),
    # A slice arrives from C as a pointer and a length, of which the body makes the slice.
    ('slice', (RUST,), '.+', with_slices),
)
RULES = {'path', *(rule for rule, *_ in REWRITES)}


def form(item: Item, is_source: bool, rules: Collection[str]) -> str:
    """The tokens of an item by some of the rules, with the places to which its names lead."""
    def led(match: re.Match[str]) -> str:
        words = tuple(match[0].split(' :: '))
        place = item.lead(words)
        if 'path' in rules and len(words) > 1:
            return '::'.join(place)
        return match[0] if place == words else f'{match[0]}={"::".join(place)}'

    text = item.text
    for rule, sides, pattern, new in REWRITES:
        if rule in rules and is_source in sides:
            text = re.sub(pattern, new, text, flags=re.S)
    return NAME.sub(led, text)


def spaced(path: str) -> str:
    return path.replace('::', ' :: ')


def compare(source: Item | None, rust: Item | None) -> tuple[str, list[str]]:
    """The grade of an item, and the rules without which it would be changed."""
    if not source or not rust:
        is_moved = rust and rust.text == f' pub use crate :: {MOVED} :: {spaced(rust.key[4:])} '
        return ('same' if is_moved else 'absent' if source else 'by hand'), []
    if form(source, SOURCE, ()) == form(rust, RUST, ()):
        return 'same', []
    if form(source, SOURCE, RULES) != form(rust, RUST, RULES):
        return 'changed', []
    fewer = ((rule, RULES - {rule}) for rule in sorted(RULES))
    return 'by rules', [rule for rule, rules in fewer
                        if form(source, SOURCE, rules) != form(rust, RUST, rules)]


def trees(root: pathlib.Path) -> tuple[Tree, Tree]:
    """The items of the sources, and those of Rust, with the files that cargo reads."""
    within: Roots = {name: () if name == AT_ROOT else (name,) for name in LIBRARIES}
    source = Tree({name: ('crate', *place) for name, place in within.items()})
    rust = Tree({})
    others = {name: files for name, files in OTHERS.items() if (root / files[1]).is_file()}
    ours: Roots = {word: (word,) for word in (*LIBRARIES, 'intcalc_core')} | {'std': ('core',)}
    for name in (*LIBRARIES, *others):
        above = root / f'crates/{name}/src' / others.get(name, ('lib.rt',))[0]
        source.read(above, Scope(ours | {'crate': (name,)}, SOURCE, (name,), (name,), {}))
    # `std` gives out all of `core`
    theirs: Roots = {'cellarcove': ('crate',), 'std': ('core',), 'intcalc_core': ('intcalc_core',)}
    for name, file in {'crate': 'rust/src/lib.rs', **{k: v[1] for k, v in others.items()}}.items():
        rust.read(root / file, Scope(theirs | {'crate': (name,)}, RUST, (name,), (name,), {}))
    for name in filter(lambda name: (root / name).is_file(), CARGO):
        rust.items[f'file {name}'] = [Item(f'file {name}', read_by_cargo(root / name))]
    return source, rust


def read_by_cargo(file: pathlib.Path) -> str:
    """A file of cargo, without what describes the package."""
    if file.suffix == '.rs':
        return ' '.join(tokens_of(file))
    manifest = tomllib.loads(file.read_text())
    package = {key: value for key, value in manifest.get('package', {}).items()
               if key not in DESCRIBES}
    for below in manifest.get('dependencies', {}).values():
        if 'path' in below:
            below.pop('version', None)
    return json.dumps(manifest | {'package': package}, sort_keys=True)


def pairs(root: pathlib.Path) -> Iterator[tuple[str, Item | None, Item | None]]:
    """The name of each item, with that of the sources and that of Rust, or None in the place of
    one. Of several with one name the first of the sources stands beside the first of Rust."""
    source, rust = trees(root)
    for name in source.items | rust.items:
        for one, other in itertools.zip_longest(source.items[name], rust.items[name]):
            yield name, one, other


class Row(NamedTuple):
    """The name of an item, and what the comparison says of it."""
    name: str
    functions: int
    grade: str
    rules: list[str]
    checksum: str


def rows(root: pathlib.Path) -> Iterator[Row]:
    for name, *pair in pairs(root):
        texts = '\n'.join(item.text if item else '' for item in pair)
        checksum = hashlib.sha256(texts.encode()).hexdigest()[:16]
        yield Row(name, max(item.functions for item in pair if item), *compare(*pair), checksum)


def table(root: pathlib.Path) -> Iterator[tuple[str, str, str]]:
    """The items that tools/checks/erased.txt names: the grade, the name and the checksum."""
    grade = ''
    for line in (root / TABLE).read_text().splitlines():
        if line.startswith(' '):
            name, _, checksum = line.strip().rpartition(' ')
            yield grade, name, checksum
        elif line and not line.startswith('#'):
            grade = line.partition(':')[0]


def differences(root: pathlib.Path, found: list[Row]) -> Iterator[str]:
    """What the table and the pages don't say."""
    known = collections.Counter(table(root))
    there = collections.Counter((row.grade, row.name, row.checksum) for row in found
                                if row.grade not in ('same', 'by rules'))
    for grade, name, checksum in sorted(there - known):
        yield f'{TABLE} has no row `{name} {checksum}` of what is {grade}'
    for grade, name, checksum in sorted(known - there):
        yield f'{TABLE} has the row `{name} {checksum}`, and no such text is {grade}'
    for page in PAGES:
        if sentence(found) not in ' '.join((root / page).read_text().split()):
            yield f'{page} does not say: {sentence(found)}'


def sentence(found: list[Row]) -> str:
    """What the pages say of the functions."""
    grades = collections.Counter[str]()
    for row in found:
        grades[row.grade] += row.functions
    return (f'Of {grades.total() - grades["absent"]} functions in Rust, {grades["same"]} are their '
            f'source with its contracts deleted, {grades["by rules"]} differ only by {len(RULES)} '
            f'mechanical rewrites, {grades["changed"]} are changed by hand, and '
            f'{grades["by hand"]} have no source.')


def listed(found: list[Row]) -> Iterator[str]:
    """How many functions need each rule, and the items that are not the same."""
    counts = collections.Counter[str]()
    for row in found:
        counts.update({rule: row.functions for rule in row.rules})
    yield from (f'by the rule {rule}: {count}' for rule, count in counts.most_common())
    yield from (f'{row.grade}: {row.name} {" ".join(row.rules) or row.checksum}' for row in found
                if row.grade != 'same')


def main(root: pathlib.Path, words: list[str]) -> int:
    found = list(rows(root))
    wrong = list(differences(root, found))
    print(*(listed(found) if words == ['--list'] else ()), *wrong, sentence(found), sep='\n')
    return 1 if wrong else 0


if __name__ == '__main__':
    sys.exit(main(REPOSITORY, sys.argv[1:]))
