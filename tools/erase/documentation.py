"""The doc comments of the Rust crate. A comment of the sources is true in both languages, and the
Rust crate has it with these changes: the words `In plain Rust, ` are left out, and so is a
paragraph that begins with `In Rattle, `; the sentences of examples become the section `# Examples`
(examples.py); and a line links to what is proved of the item. The sections `# Panics` and `#
Errors` are those of the comment. The modules of `definitions` show the pages of rust/reference,
which tools/pages/reference.py makes."""
import re
from collections.abc import Iterable

from tools.erase import examples
from tools.erase.deletion import Deletion
from tools.erase.library import ROOT, Module, Place, RustLibrary
from tools.erase.prose import anchor, wrapped
from tools.erase.source import Item, Source
from tools.erase.words import imported

# What a clause says that says only that values lie in their type.
FITS = r'[A-Z]\w*\.fits \([A-Z]\w*\.value [\w.]+\)'
LIES = rf'(?:{FITS}|All \(λ x\. {FITS}\) [\w.]+|All \w+\.fits result)'
ONLY_LIES = re.compile(rf'\w+ (?:\w+ )?\{{ {LIES}(?: × {LIES})* \}}')
# The ghost members of an implementation that say what its calls return. The others are proofs.
STATED = {'output', 'from_str_gives', 'from_gives', 'is_default', 'try_from_gives', 'cmp',
          'partial_cmp', 'next_gives'}

# The page of the reference that has the public items of a crate, where that is the page of another
# one.
ON_PAGE = {'integer_core': 'num_integer', 'integer_roots': 'num_integer'}

# The sections of a comment, in the order in which the Rust crate has them.
SECTIONS = ('Examples', 'Panics', 'Errors')
IN_PLAIN_RUST, IN_RATTLE = 'In plain Rust, ', 'In Rattle, '


def sections_of(lines: list[str]) -> dict[str, list[str]]:
    """The lines of a comment by the heads of its sections, without blank lines at their ends.
    Those before the first stand below ''."""
    found: dict[str, list[str]] = {'': []}
    name, is_code = '', False
    for line in lines:
        is_code ^= line.startswith('```')
        if line.startswith('# ') and not is_code:
            name = line[2:]
            found[name] = []
        else:
            found[name].append(line)
    return {name: '\n'.join(part).strip('\n').split('\n') if any(part) else []
            for name, part in found.items()}


def of_rattle(lines: list[str]) -> list[str]:
    """The lines of a comment as the reference of Rattle has them. No call panics there, so a panic
    is said to be one of plain Rust."""
    found: list[str] = []
    for name, part in sections_of(lines).items():
        if name == 'Panics':
            part = wrapped(' '.join(part).replace(f'{IN_PLAIN_RUST}if', 'Plain Rust panics if', 1),
                           110)
        found += ['', *['Errors:', ''] * (name == 'Errors'), *part]
    return found[1:]


def says_more(text: str) -> bool:
    """Whether a clause says more than that a value lies in its type."""
    return not ONLY_LIES.fullmatch(re.sub(r'\s+', ' ', text))


def imports_of(source: Source, items: Iterable[Item]) -> dict[str, tuple[str, str]]:
    """The words that items import, each with its crate and its path there."""
    return imported('\n'.join(source.text(item.first, item.last) for item in items
                              if item.kind == 'ghost'))


def title_of(place: Place, item: Item, owner: Item | None) -> str:
    """The title of an item on a page of the reference: its path below its crate, or the trait and
    the type of an implementation."""
    path = '::'.join((*place, *([owner.name] if owner else []), item.name))
    return f'`{item.of_trait}` for `{path}`' if item.kind == 'impl' else f'`{path}`'


def clauses_of(source: Source, item: Item) -> list[str]:
    """The clauses of an item that say something."""
    clauses = item.clauses
    if item.kind == 'impl':
        clauses = [clause for clause in clauses if clause.name in STATED]
    if item.kind == 'trait':
        clauses = [clause for clause in clauses if clause.name.endswith('_law')]
    texts = (' '.join(source.text(clause.first, clause.last).rstrip(';').split())
             for clause in clauses)
    return [text for text in texts if says_more(text)]


class Comments(Deletion):
    """A file of a crate of the library, whose comments become those of the Rust crate."""

    def __init__(self, module: Module, library: RustLibrary) -> None:
        super().__init__(module.source)
        self.module, self.library, self.crate = module, library, module.crate
        self.words = {module.source.at(k) for k in range(len(module.source.code))}

    def of_rust(self, lines: list[str]) -> list[str]:
        """The lines of a comment without what is true in Rattle alone, with links that lead
        somewhere in the Rust crate."""
        found: list[str] = []
        for paragraph in examples.paragraphs(lines):
            text = ' '.join(paragraph)
            if text.startswith(IN_RATTLE):
                continue
            plain = re.sub(rf'{IN_PLAIN_RUST}(\w)', lambda first: first.group(1).upper(), text)
            found += ['', *(paragraph if plain == text else wrapped(plain))]
        return [self.linked(line) for line in found[1:]]

    def see_sections(self, item: Item, sections: dict[str, list[str]]) -> None:
        """Rejects sections that are not known, a call that returns a `Result` and does not say
        when which error, an error of which a clause says that it never comes, and a panic that is
        not said to be one of plain Rust."""
        source = self.source
        for name in sections:
            if name not in ('', *SECTIONS):
                source.refuse(item.word, f'a section `# {name}`')
        if 'Panics' in sections and not ' '.join(sections['Panics']).startswith(
                f'{IN_PLAIN_RUST}if '):
            source.refuse(item.word,
                          f'a section `# Panics` that does not begin with `{IN_PLAIN_RUST}if `')
        function = next((inner
                         for inner in (item, *(item.items if item.of_trait == 'FromStr' else ()))
                         if inner.kind == 'fn'), None)
        if function is None or not source.returned(function).startswith('Result<'):
            return
        if 'Errors' not in sections:
            source.refuse(item.word,
                          f'`{function.name}` returns a `Result`, and its comment has no '
                          'section `# Errors`')
        clauses = ' '.join(source.text(clause.first, clause.last) for clause in item.clauses)
        for kind, name in re.findall(r'`(\w+)::(\w+)`', ' '.join(sections['Errors'])):
            if f'result ≢ Err {kind}.{name}' in clauses:
                source.refuse(item.word,
                              f'`# Errors` says when `{function.name}` returns `{name}`, and a '
                              'clause that it never does')

    def add_sections(self, item: Item, owner: Item | None) -> None:
        """Writes the comment of an item as the Rust crate has it. That of a public item gets its
        sections and its link."""
        source, docs, prose = self.source, self.source.docs(item), self.source.doc(item)
        place = self.library.place_of(self.module, item, owner) if item.kind != 'impl' else \
            self.library.place_of_type(self.module, item.name) if item.of_trait else None
        lines = (self.comment(item, owner, place, prose) if place is not None
                 else self.of_rust(prose))
        if lines == prose:
            return
        lines = [f'/// {line}'.rstrip() for line in lines]
        for i in docs[1:]:
            self.texts[i] = ''
            if source.tokens[i - 1].kind == 'space':
                self.texts[i - 1] = ''
        if docs:
            self.texts[docs[0]] = '\n'.join(lines)
        else:
            self.put_before(item.first, '\n'.join(lines) + '\n')

    def comment(self, item: Item, owner: Item | None, place: Place, prose: list[str]) -> list[str]:
        """The lines of the comment of a public item."""
        sections = sections_of(prose)
        self.see_sections(item, sections)
        head = self.of_rust(examples.without_examples(sections['']))
        parts = [head,
                 examples.section(self.source, self.library, item, place,
                                  sections.pop('Examples', []))]
        parts += [[f'# {name}', '', *self.of_rust(sections[name])] for name in SECTIONS
                  if name in sections]
        parts.append(self.link_to_contract(item, owner, place))
        return [line for part in parts if part for line in ('', *part)][1:]

    def linked(self, comment: str) -> str:
        """A comment whose links to names of the root lead there where the file does not import
        them."""
        own = () if self.crate == ROOT else (self.crate,)
        comment = re.sub(r'(\[`|\]\()crate::', rf'\1{"::".join(("crate", *own, ""))}', comment)
        comment = re.sub(rf'\]\({ROOT}::', '](crate::', comment)
        # rustdoc rejects a target to which the label leads by itself
        comment = re.sub(
            rf'(\[`(\w+(?:::\w+)+)`\])\({"::".join(("crate", *own, *self.module.path))}::\2\)',
            r'\1', comment)
        found = {(*place, name) for (_, _, name), place in self.library.public.items()}

        def link(match: re.Match[str]) -> str:
            words = tuple(match[1].split('::'))
            paths = [(*base, *words) for base in ((own, ()) if len(words) > 1 else ())
                     if (*base, *words) in found]
            if words[0][0].isupper() and words[:1] in found and words[0] not in self.words:
                paths.append(words)
            if self.module.stands_at_root(self.module.imported.get(words[0], ())):
                paths.append((self.module.path[-1], *words))
            return f'[`{match[1]}`]({"::".join(("crate", *paths[0]))})' if paths else match[0]

        return re.sub(r'\[`(\w+(?:::\w+)*)`\](?!\()', link, comment)

    def link_to_contract(self, item: Item, owner: Item | None, place: Place) -> list[str]:
        """The line that links to the contract of an item, on a page of rust/reference."""
        if item.kind not in ('fn', 'struct', 'trait', 'impl') or not clauses_of(self.source, item):
            return []
        page = ON_PAGE.get(self.crate, self.crate)
        title = title_of(place[1:] if place[:1] == (page,) else place, item, owner)
        label = 'Laws' if item.kind == 'trait' else 'Contract'
        return [f'[{label}](crate::definitions::{page}#{anchor(title)})']
