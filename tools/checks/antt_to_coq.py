"""Translates definitions of specs/*.antt into Coq, token by token, by what stands there.

Coq reads the terms: compare/coq/Kit.v has the signs of Rattle, as tight as they bind there, and the
words of its toolchain. Coq also finds what a word means, as each file begins with what it imports.
A form, a token or a word that is not known is rejected by file and line."""
import re
from pathlib import Path

COMMENT = re.compile(r'--.*|//.*|^ *#\[.*', re.M)
HEAD = re.compile(r'(?:(?:abbrev|unfoldable) pub|pub (?:record|data|struct|enum)) (\w+)')
IMPORT = re.compile(r'^ *(?:ghost )?use Rattle\.(\w+)\.([\w.]+)(?:\.\{([^}]*)\}| as (\w+))', re.M)
CODE = [(re.compile(form, re.M), meaning) for form, meaning in (    # a struct is read as a record
    (r'^pub struct', 'pub record'), (r'^pub enum', 'pub data'), (r'\bi(?:\d+|size)\b', 'ℤ'),
    (r'\bu(?:\d+|size)\b', 'ℕ'), (r'\bbool\b', 'Bool'), (r'<(\w+)> \{$', r' {\1 : Type 0} {'),
    (r'^(pub .*) \{$', r'\1 : Type 0 where'), (r'^\}$', ''), (r'^    ', '  '),
    (r'^  (?:pub )?(\w+): (\w+),$', r'  pub \1 : \2'), (r'^  (\w+)(?: = \d+)?,$', r'  \1 : Self'),
    (r'^  (?:pub )?ghost (\w+): \{ ([^{}]*) \}(?: by \{[^{}]*\})?,$', r'  pub \1 : \2'),
    (r'^  (\w+)\(([\w, ]+)\),$', r'  \1 : \2 → Self'), (r', (?=.* → Self$)', ' → '))]
TOKEN = re.compile(r'''
    (?P<integer> pos\ \d+\b)
  | (?P<argument> \{ [^{}:=]* \})                           # an implicit one, which Coq finds
  | (?P<all_or_some> (?<![)}]\ ) (?<!λ\ ) \( (?= (?:\w+\ )+ :\ ))
  | (?P<pair> λ\ \( (?= [\w ,]+ \)))
  | (?P<field> (?<= [\w)]) \.[^\W\d]\w* | (?<! let\ ) \b\w+ (?= \ =\ ))
  | (?P<plain> "[^"\\]*" | :\ Type\ 0\} | Type\ 0\b | \[\ ?\] | record\ \{ | \.[01]\b
      | (?:if|then|else|let|in|\d+)\b | [λ.:;,()_∥{}]₁? | =(?!=))
  | (?P<word> [^\W\d] (?:\w|-\w)* (?:\.[A-Z]\w*)?)
  | (?P<negation_of_many> ¬\ (?:[\w.]+|\([^()]*\))\ [\w(])
  | (?P<sign> [⊥⊤¬] | [^\w\s"(){}\[\],.;:¬∥⊥⊤]+ℤ? | \S)''', re.X)
MEANING = {'argument': '', 'all_or_some': 'Π (', 'pair': "fun '(", 'Type 0': 'Prop',
           ': Type 0}': ': Type}', '[]': 'nil', '[ ]': 'nil', 'λ': 'fun', '.': ' =>', '=': ':=',
           '.0': ' .0', '.1': ' .1', 'if': 'If', 'record {': '{|', '}': '|}'}
NAME = re.compile(r'[^\W\d_]\w*')
BOUND = re.compile(r'[({]((?:\w+ )+):|λ \(?([\w, ]+)\)?\.|\blet (\w+) =')
PAIRED = re.compile(r'\((?:\w+ )+: [^()]*\)(?= [(→×_]|\.)|\([^():]*\)')
OUTSIDE = ('std', 'core', 'num_traits')
RESERVED = {'end', 'at', 'as', 'S', 'O', 'by', 'fix', 'mod', 'using', 'class', 'exists'}
HEADER = ('(* Made of {}. *)\nFrom Coq Require Import ZArith List String.\n'
          'From Cellarcove Require Kit.\nImport Kit.Signs.\n')


class Unknown(Exception):
    """A form that is not known."""


class File:
    """A file of definitions: its paragraphs and imports, and what has been found of its words."""

    def __init__(self, path: Path, module: str) -> None:
        self.path, self.module, is_code, text = path, module, path.suffix == '.rt', path.read_text()
        self.paragraphs, self.types = dict[str, tuple[int, str]](), dict[str, list[str]]()
        self.cases, self.words, self.fields = dict[str, str](), dict[str, str](), dict[str, str]()
        self.imports = {word: ('std', '', word) for word in ('ℤ', 'ℕ', 'Bool') if is_code}
        for crate, where, names, alias in IMPORT.findall(text):
            used = [f'{each} as {alias}.{each}' for each in re.findall(rf'\b{alias}\.(\w+)', text)]
            for name in re.findall(r'[^\s,][^,\n]*', names) or used:
                original, _, local = name.partition(' as ')
                self.imports[local or original] = crate, where, original
        for found in re.finditer(r'(?:^.+\n)+', text + '\n', re.M):
            lines = COMMENT.sub('', found[0])
            if head := HEAD.match(lines.lstrip('\n')):
                for form, meaning in CODE if is_code else ():
                    lines = form.sub(meaning, lines)
                self.paragraphs[head[1]] = text.count('\n', 0, found.start()) + 1, lines
                if re.search(r'^pub record \w+(?: \{.*\})? :', lines, re.M):
                    self.types[head[1]] = re.findall(r'^  pub (\w+) :', lines, re.M)
                self.cases |= dict.fromkeys(re.findall(r'^  (\w+) :', lines, re.M), head[1])


class Library:
    """The files of all crates, and the words and signs of the toolchain."""

    def __init__(self, crates: Path, kit: Path) -> None:
        self.crates, self.files, text = crates, dict[str, File](), kit.read_text()
        self.kit, words = File(kit, 'Kit'), r'(?:^(?:Definition|Fixpoint|Inductive|Notation)|\|) '
        found = re.findall(rf'{words}([^\W\d]\w*)', text, re.M)
        self.kit.paragraphs = dict.fromkeys(found, (0, ''))
        self.signs = set(re.findall(r'^Notation "(?:\w )?(\S+)(?: \w)?"', text, re.M))

    def file(self, crate: str, where: str) -> File:
        """A file of specs/ of a crate, or of a lower one that it passes on, or of its code."""
        specs, module = self.crates / crate / 'specs', f'{crate}.{where}'
        path, passed_on = specs / f'{where}.antt', rf'use Rattle\.(\w+)\.specs\.{where}\b'
        if where.startswith('declared.'):
            *folders, name = where.split('.')[1:]
            path = self.crates.joinpath(crate, 'src', *folders).with_suffix('.rt')
            module = f'{crate}.declared_{name}'
        elif not path.is_file():
            for lower in re.findall(passed_on, (specs / 'Lib.antt').read_text()):
                return self.file(lower, where)
        if module not in self.files:
            self.files[module] = File(path, module)
        return self.files[module]

    def origin(self, file: File, word: str) -> tuple[File, str, str]:
        """The file of a word of a file, the definition there, and the name of the word in Coq."""
        if word not in file.imports:
            kind = file.cases.get(word, word)
            return file, kind, word if kind == word else f'{kind}_{word}'
        crate, where, name = file.imports[word]
        if crate in OUTSIDE:
            return self.kit, name, name
        place, cases, _ = where.removeprefix('specs.').partition('.TheVariants')
        kind = place.rpartition('.')[2] if cases else name
        return self.file(crate, place), kind, f'{kind}_{name}' if cases else name

    def in_coq(self, file: File, names: list[str]) -> str:
        """Definitions of a file in Coq, after the words that they import."""
        made = [f'\n{Definition(self, file, name).in_coq()}\n' for name in names]
        modules = sorted({name.rpartition('.')[0] for name in file.words.values()} - {'Kit'})
        needs = [f'From Cellarcove Require {module}.\n' for module in modules]
        words = [f'#[local] Notation {word.replace(".", "_")} := {name} (only parsing).\n'
                 for word, name in sorted(file.words.items())]
        return ''.join([HEADER.format(file.path.relative_to(self.crates)), *needs, *words, *made])


class Definition:
    """A definition of a file, which is written in Coq row by row."""

    def __init__(self, library: Library, file: File, name: str) -> None:
        self.library, self.file, self.name = library, file, name
        self.line, self.text = file.paragraphs[name]
        self.bound, self.viewed, self.row = dict[str, str](), set[str](), ''

    def fails(self, token: str, why: str = 'is not known here') -> Unknown:
        line = self.line + self.text[:self.text.index(self.row)].count('\n')
        return Unknown(f'{self.file.path}:{line}: `{token}` {why}')

    def split(self, form: str, row: str) -> tuple[str, ...]:
        """The parts of a row, which has a form."""
        self.row = row
        if not (found := re.fullmatch(form, row, re.S)):
            raise self.fails(row.strip())
        return found.groups()

    def term(self, text: str, *variables: str) -> str:
        """A term in Coq, token by token."""
        text = re.sub(r'\s*\n\s*', ' ', text)
        left, pairs = re.sub('"[^"]*"', '_', text), 1
        for name in (*variables, *NAME.findall(str(BOUND.findall(left)))):
            if name in self.file.imports or name in self.file.paragraphs:
                raise self.fails(name, 'is a variable and a definition')
            self.bound[name] = name + '_' * (name in RESERVED)
        while pairs:
            left, pairs = PAIRED.subn('_', left)
        if bracket := re.search('[()]', left):
            raise self.fails(bracket[0])
        return TOKEN.sub(self.token, text)

    def token(self, found: re.Match[str]) -> str:
        """A token in Coq."""
        kind, text = str(found.lastgroup), found[0]
        origin, sign = self.file.imports.get(f'◌{text}◌', OUTSIDE)[0], text + 'ℕ' * text.isascii()
        match kind:
            case 'integer':
                return f'{text[4:]}%Z'
            case 'field' if (name := text.removeprefix('.')) in self.file.fields:
                return f' .({self.file.fields[name]})' if text[0] == '.' else self.file.fields[name]
            case 'word':
                return self.word(text)
            case 'sign' if origin in OUTSIDE and sign in self.library.signs:
                return sign
            case 'plain' | 'argument' | 'all_or_some' | 'pair':
                return MEANING.get(kind, MEANING.get(text, text))
        raise self.fails(text)

    def word(self, word: str) -> str:
        """A word, which Coq finds among the imports or in what stands before."""
        if word in self.bound:
            return self.bound[word]
        file, kind, name = self.library.origin(self.file, word)
        if kind not in file.paragraphs:
            raise self.fails(word)
        fields = file.types.get(kind, ())
        self.file.fields |= {field: f'{file.module}.{kind}_{field}' for field in fields}
        if file is self.file:                           # what is not above is not found by Coq
            return name if kind == self.name else f'{file.module}.{name}'
        self.file.words[word] = f'{file.module}.{name}'
        return word.replace('.', '_')

    def in_coq(self) -> str:
        """The definition, by its form."""
        rows = re.split(r'\n(?= {0,2}\S)', self.text)
        self.row, *rows = [row.rstrip() for row in rows if row.strip()]
        if found := re.fullmatch(r'pub record \w+(.*) : Type 0 where', self.row, re.S):
            return self.record(self.parameters(found[1]), rows)
        if found := re.fullmatch(r'pub data \w+((?: \{.*\})?) : Type 0 where', self.row):
            return self.data(self.parameters(found[1]), rows)
        kind = self.split(r'(?:abbrev|unfoldable) pub \w+ :(\s.*)', self.row)[0]
        types = self.parameters(''.join(re.findall(r' \{[\w ]+ : Type 0\}', kind)))
        kind = self.term(re.sub(r' \{[\w ]+ : Type 0\}(?: →)?', '', kind))
        return f'Definition {self.name}{types} :{kind} :=\n  {self.function(rows)}.'

    def parameters(self, text: str) -> str:
        return self.term(f'λ{text}.')[len('fun'):-len(' =>')]      # read as those of a λ

    def record(self, parameters: str, rows: list[str]) -> str:
        """A proposition, which is the product of the fields; a type if it is about nothing."""
        is_type, fields, name = '(' not in parameters, list[str](), self.name
        for row in rows:
            field, kind = self.split(r'  pub (\w+) : (.*)', row)
            is_cited = re.search(rf'(?<![\w.]){field}(?![\w-])', self.text.partition(row)[2])
            text = self.term(kind, *[field] if is_cited and not is_type else [])
            if is_type:
                self.bound[field] = f'{name}_{field}'
                fields.append(f'\n  {name}_{field} : {text}')
            else:
                fields.append(f'Π ({self.bound[field]} : {text})' if is_cited else f'({text})')
        if is_type:
            return self.as_type('Record', parameters, f' Make_{name} {{' + ';'.join(fields) + '\n}')
        return f'Definition {name}{parameters} : Prop :=\n  ' + ' ×\n  '.join(fields) + '.'

    def data(self, parameters: str, rows: list[str]) -> str:
        """An inductive type, whose cases have its name before theirs."""
        self.bound['Self'] = ' '.join([self.name, *self.bound.values()])
        cases = (self.split(r'  (\w+) : (.*)', row) for row in rows)
        shown = [f'\n| {self.name}_{case} : {self.term(kind)}' for case, kind in cases]
        return self.as_type('Inductive', parameters, ''.join(shown))

    def as_type(self, form: str, parameters: str, body: str) -> str:
        types = parameters.replace('{', '(').replace('}', ')')      # the values do not name them
        options = 'Set Implicit Arguments.\nSet Contextual Implicit.\n' * bool(types)
        return f'{options}{form} {self.name}{types} : Type :={body}.'

    def function(self, rows: list[str]) -> str:
        """A function by its equations, which are the cases of a match."""
        equations = [self.equation(row) for row in rows]
        inputs, text = equations[0]
        if len(equations) > 1:
            inputs = [f"a'{i}" for i in range(len(inputs))]      # no word of Rattle has a '
            tested = ', '.join(f'Kit.view {a}' if a in self.viewed else a for a in inputs)
            cases = [f'\n  | {", ".join(patterns)} => {body}' for patterns, body in equations]
            text = f'match {tested} with{"".join(cases)}\n  end'
        shown = ' '.join(each if each[0] != '(' else f"'{each}" for each in inputs)
        if self.name in NAME.findall(text):
            return f'fix {self.name} {shown} := {text}'
        return f'fun {shown} => {text}' if shown else text

    def equation(self, row: str) -> tuple[list[str], str]:
        """The patterns and the body of an equation. A part that stands in both has a name."""
        left, right = self.split(rf'{self.name}\b(.*?)\s=\s+(.*)', row)
        variables = {*NAME.findall(left)} - {*self.file.imports, *self.file.cases}
        left, body = self.term(left, *variables), self.term(right)
        left = left.replace('(pos ', '(inl ').replace('(negsuc ', '(inr ')
        patterns = re.findall(r'\((?:[^()]|\([^()]*\))*\)|\S+', left)
        self.viewed |= {f"a'{i}" for i, each in enumerate(patterns) if each[:4] in ('(inl', '(inr')}
        for i, part in enumerate(re.findall(r'(?<=.)\([^()]*\)(?=[^()]*\))', left)):
            patterns = [each.replace(part, f"({part} as part'{i})") for each in patterns]
            body = body.replace(part, f"part'{i}")              # for the recursion
        return patterns, body
