"""What is translated into Coq, what is rejected, and which changes a definition is given."""
import shutil
from pathlib import Path

import pytest

from tools import ROOT, write
from tools.checks import known, known_changes, known_table
from tools.checks.antt_to_coq import Library, Unknown
from tools.checks.coq_build import Build

KIT = ROOT / 'compare/coq/Kit.v'
HEAD = ('use Rattle.std.specs.Prelude.{◌≡◌, ◌≤ℤ◌, ◌*ℤ◌, ℤ, ℕ, zero, suc, pos, negsuc, List}\n'
        'use Rattle.one.specs.Other.{◌≤◌}\n\n')


def translated(root: Path, text: str, name: str = 'Is') -> str:
    """The definition of a name in Coq, of a file with this text."""
    write(root, {'one/specs/Words.antt': HEAD + text})
    files = known_table.in_coq(Library(root, KIT), (('one', 'Words', name),))
    return files['Cellarcove/one/Words.v'].split('\n\n', 1)[1]


@pytest.mark.parametrize('text, coq', [
    ("""pub record Is (a b : ℤ) : Type 0 where
  pub low : a ≤ℤ b
  pub quotient : ℤ
  pub product : a ≡ quotient *ℤ b""", """Definition Is (a b : ℤ) : Prop :=
  (a ≤ℤ b) ×
  Π (quotient : ℤ) ×
  (a ≡ quotient *ℤ b).
"""),
    ('pub record Is : Type 0 where\n  pub left : ℤ\n  pub right : List (ℕ × ℕ)',
     """Record Is : Type := Make_Is {
  Is_left : ℤ;
  Is_right : List (ℕ × ℕ)
}.
"""),
    ("""abbrev pub Is : ℤ → Type 0
Is (pos n) = (k : ℕ) → (z : ℕ) × n ≡ k × ¬ (k ≡ z)
Is (negsuc n) = ⊥""", """Definition Is : ℤ → Prop :=
  fun a'0 => match Kit.view a'0 with
  | (inl n) => Π (k : ℕ) → Π (z : ℕ) × n ≡ k × ¬ (k ≡ z)
  | (inr n) => ⊥
  end.
"""),
    ("""unfoldable pub Is : {X : Type 0} → List X → ℕ → ℕ
Is xs zero = 0
Is xs (suc zero) = 1
Is xs (suc (suc n)) = Is xs (suc n)""", """Definition Is {X : Type} : List X → ℕ → ℕ :=
  fix Is a'0 a'1 := match a'0, a'1 with
  | xs, zero => 0
  | xs, (suc zero) => 1
  | xs, (suc ((suc n) as part'0)) => Is xs part'0
  end.
"""),
    ('pub data Is : Type 0 where\n  Up : ℕ → Is\n  Down : ℕ → Is',
     'Inductive Is : Type :=\n| Is_Up : ℕ → Is\n| Is_Down : ℕ → Is.\n'),
    ("""abbrev pub Is : (ℤ × ℤ → ℤ) → ℤ
Is end =
    let size = pos 2 in
    end (size, (λ (a, b). a) (size, size.0))""", """Definition Is : (ℤ × ℤ → ℤ) → ℤ :=
  fun end_ => let size := 2%Z in end_ (size, (fun '(a, b) => a) (size, size .0)).
"""),
])
def test_forms(tmp_path: Path, text: str, coq: str) -> None:
    assert translated(tmp_path, text) == coq


@pytest.mark.parametrize('text, line', [
    ('abbrev pub Is : ℤ → Type 0\nIs x = y', 5),
    ('abbrev pub Is : ℤ → Type 0\nIs x = x ⊗ x', 5),
    ('abbrev pub Is : ℤ → Type 0\nIs x = x ≤ x', 5),
    ('abbrev pub Is : ℤ → Type 0\nIs x = x ≡ where', 5),
    ('abbrev pub Is : ℤ → ℤ\nIs x = x.half', 5),
    ('abbrev pub Is : ℤ → ℤ\nIs x = (x', 5),
    ('abbrev pub Is : ℤ → ℤ\nIs x = x)', 5),
    ('abbrev pub Is : ℤ → Type 0\nIs x = ¬ x x', 5),
    ('abbrev pub Is : ℤ → Type 0\nIs x = (y : ℤ) ≡ x', 5),
    ('abbrev pub Is : ℤ → Type 0\nIs x = (suc : ℕ) → suc ≡ suc', 5),
    ('abbrev pub Is : ℤ → Type 0\nIs Is = Is ≡ Is', 5),
    ('abbrev pub Is : ℤ → Type 0\nIsnt x = x ≡ x', 5),
    ('pub record Is (a : ℤ) : Type 1 where\n  pub low : a ≡ a', 4),
    ('pub record Is (a : ℤ) : Type 0 where\n  low : a ≡ a', 5),
    ('pub data Is (a : ℤ) : Type 0 where\n  Up : Is', 4),
    ('abbrev pub Is : Type 0\nIs = record { one = pos 1 }', 5),
    ('abbrev pub Is : ℤ → Type 0\nIs x = elim x [ ]', 5),
    ('abbrev pub Is : ℤ → Type 0\nIs x = All [x]', 5),
    ('abbrev pub Is : ℤ → List ℕ\nIs x = codes "\\n"', 5),
    ('abbrev pub Is : ℤ → Type 0\nIs x = x = x', 5),
    ('abbrev pub Is : ℤ → Type 0\nIs x = x != x', 5),
    ('abbrev pub Is : ℤ → Type 0\nIs x = pos.up x', 5),
    ('abbrev pub Is : ℤ → Type 0\nIs x = x ≡ x\nwhere x', 6),
    ('abbrev pub Is : ℤ → Type 0\nIs x = x ≡ x\n  y', 6),
    ('abbrev pub Is : Type 0 → Type 0\nIs x = ∀ y. x', 5),
    ('unfoldable pub Is : ℤ → Type 1\nIs x = x ≡ x', 4),
    ('pub record Is (a : ℤ) : Type 0 where\n  pub low : a ≡ a\n  pub high : a ≤ a', 6),
    ('pub data Is : Type 0 where\n  Up : ℕ → Is\n  Down (n : ℕ) : Is', 6),
])
def test_rejected(tmp_path: Path, text: str, line: int) -> None:
    with pytest.raises(Unknown, match=rf'Words\.antt:{line}: '):
        translated(tmp_path, text)


CODE = """#[derive(Clone)]
pub struct Part<T> {
    pub whole: i64,
    rest: T,
    pub ghost low: { pos 0 ≤ℤ whole } by { proof },
}

/// How it ends.
pub enum End {
    /// Well.
    Well = 1,
    Badly(u8, bool),
}

impl End {
    ghost use Rattle.std.specs.Prelude.{◌≤ℤ◌, pos};
}
"""
USES = """use Rattle.std.specs.Prelude.{true}
use Rattle.one.specs.declared.ends.Part.{Part}
use Rattle.one.specs.declared.ends.End.TheVariants.{Badly}
use Rattle.one.specs.declared.ends.End.TheVariants as ends

abbrev pub f : ℤ → ℤ
f x = x

abbrev pub Is : Part ℕ → ℤ
Is part = f (Badly 1 true) ends.Well part.whole
"""


def test_code(tmp_path: Path) -> None:
    write(tmp_path, {'one/src/ends.rt': CODE})
    made = translated(tmp_path, USES)
    assert 'Words.f (Badly 1 true) ends_Well part .(one.declared_Part.Part_whole)' in made
    files = known_table.in_coq(Library(tmp_path, KIT), (('one', 'Words', 'Is'),))
    assert files['Cellarcove/one/declared_Part.v'].split('\n\n', 1)[1] == """Set Implicit Arguments.
Set Contextual Implicit.
Record Part (T : Type) : Type := Make_Part {
  Part_whole : ℤ;
  Part_rest : T;
  Part_low : 0%Z ≤ℤ Part_whole
}.
"""
    assert files['Cellarcove/one/declared_End.v'].split('\n\n', 1)[1] == """Inductive End : Type :=
| End_Well : End
| End_Badly : ℕ → Bool → End.
"""


@pytest.mark.parametrize('before, after, place', [
    ('rest: T', 'rest: Vec<T>', 'ends.rt:4'), ('rest: T,', 'rest: Rest,', 'ends.rt:4'),
    ('Badly(u8, bool)', 'Badly { of: u8 }', 'ends.rt:12'), ('by { proof },', 'by {', 'ends.rt:5'),
    ('Part<T> {', 'Part(T);', 'Words.antt:13'), ('whole: i64', 'r#in: i64', 'Words.antt:13')])
def test_rejected_code(tmp_path: Path, before: str, after: str, place: str) -> None:
    write(tmp_path, {'one/src/ends.rt': CODE.replace(before, after)})
    with pytest.raises(Unknown, match=f'{place}: '):
        translated(tmp_path, USES)


@pytest.mark.parametrize('text',
                         ['pub Is : ℤ → Type 0\nIs x = x ≡ x',
                          'abbrev Is : ℤ → Type 0\nIs x = x ≡ x', ''])
def test_no_definition(tmp_path: Path, text: str) -> None:
    with pytest.raises(Unknown, match='no definition of `Is`'):
        translated(tmp_path, text)


def test_changes() -> None:
    text = ('pub record Is (a b : ℤ) : Type 0 where\n  pub low : pos 0 ≤ℤ a\n  pub up : '
            'Below a b -ℤ a\n')
    assert [change for change, _ in known_changes.changes(text)] == [
        '<ℤ for ≤ℤ', '+ℤ for -ℤ', '1 for 0', 'b a for a b', 'without low', 'without up']


def test_changes_have_names() -> None:
    text = 'abbrev pub Is : ℤ → ℤ → Type 0\nIs a b = (a ≤ℤ b) × (b ≤ℤ a)\n'
    assert [*known_changes.changes(text)] == [('<ℤ for ≤ℤ', text.replace('a ≤ℤ', 'a <ℤ')),
                                              ('<ℤ for ≤ℤ, place 2', text.replace('b ≤ℤ', 'b <ℤ'))]


def test_sample() -> None:
    every = sum(len(tasks) for _, tasks in known_changes.chosen([*known_table.LIBRARIES], 1))
    some = sum(len(tasks) for _, tasks in known_changes.chosen([], 20))
    assert some == (every + 19) // 20


def test_rows() -> None:
    rows = known_table.table()
    assert all(row.what and len(key) == 3 for key, row in rows.items())
    assert not [key for key in known_table.reached() if key not in rows]


@pytest.mark.skipif(not shutil.which('coqc')
                    or not (known.FOLDER / 'Known/integer_core/Division.vo').is_file(),
                    reason='it needs the theorems that `tools/cellarcove check known` has compiled')
def test_changed_definition() -> None:
    key, base = ('integer_core', 'Division', 'IsDivision'), Build(known.FOLDER)
    base.write(known_table.sources())
    changes = dict(known_changes.changes(known_changes.text_of(key)))
    change, row = ('≤ for <', changes['≤ for <']), known_table.table()[key]
    assert known_changes.attempt(base, key, change, row).verdict == 'refused'
