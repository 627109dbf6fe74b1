#!/usr/bin/env bash
# Tries run.py on a small tree in the layout that it holds to: unchanged, and each time with one thing wrong that it must name.
set -euo pipefail
here=$(cd "$(dirname "$0")" && pwd)
root=$(cd "$here/../.." && pwd)
work=$(mktemp -d)
trap 'rm -rf "$work"' EXIT

put() { # FILE: standard input becomes a file of the tree
    mkdir -p "$(dirname "$work/tree/$1")"
    cat >"$work/tree/$1"
}

# Two exported crates and one inner one. What must be believed is reached in every way that a text can name something: by an operator, a
# `do`, a constructor in a pattern, a path after a module, another name, a block with parameters, an import over several lines.
tree() {
    rm -rf "$work/tree"
    put crates.txt <<'FILE'
vrf_bitio:
vrf_store staticlib: vrf_bitio
vrf_schema: vrf_bitio vrf_store io # the checked calls
FILE
    put crates/vrf_bitio/specs/Lib.antt <<'FILE'
-- Readings.
pub mod Reading
pub mod Number
FILE
    put crates/vrf_bitio/proofs/Lib.antt <<'FILE'
pub mod Words
pub mod Laws
pub mod Examples
FILE
    # a lemma for the proofs of functions, in a form that is not read
    put crates/vrf_bitio/proofs/Words.antt <<'FILE'
open Pointed it using (point)

abbrev pub word : ℕ
word = 4
FILE
    put crates/vrf_bitio/proofs/read_two/Answers.antt <<'FILE'
use Rattle.vrf_bitio.proofs.Words
use Rattle.vrf_bitio.proofs.read_two.Goals as goal

pub returns : goal.returns
returns c = Words.point
FILE
    put crates/vrf_bitio/specs/Reading.antt <<'FILE'
-- A reading answers a value with what is left, or nothing. It
-- reads from the front.
use Rattle.std.specs.Prelude.{List, ℕ}

pub data Read (A : Type 0) : Type 0 where
  -- a value
  ok : A → List ℕ → Read A
  short : Read A

-- one reading after another
infixl 20 ◌>>=◌
unfoldable pub ◌>>=◌ : {A B : Type 0} → (List ℕ → Read A) → (A → List ℕ → Read B) → List ℕ → Read B
◌>>=◌ r f l = elim (r l) [ ok a m ↦ f a m | short ↦ short ]
FILE
    put crates/vrf_bitio/specs/Number.antt <<'FILE'
-- Numbers: bytes and pairs of them
use Rattle.std.specs.Prelude.{List, [], ◌∷◌, ℕ, ◌+◌, ◌*◌}
use Rattle.vrf_bitio.specs.Reading.{
  Read,
  ok,
  short as none_left,
  ◌>>=◌,
}

unfoldable pub byte : List ℕ → Read ℕ
byte [] = none_left
byte (b ∷ l) = ok b l

infixl 60 ◌⊕◌
unfoldable pub ◌⊕◌ : ℕ → ℕ → ℕ
low ⊕ high =
    let base = 256 in
    low + base * high

unfoldable pub two : List ℕ → Read ℕ
two = do
  low ← byte
  high ← byte
  λ rest. ok (low ⊕ high) rest
FILE
    put crates/vrf_bitio/proofs/Laws.antt <<'FILE'
pub mod NumberLaws
FILE
    put crates/vrf_bitio/proofs/Laws/NumberLaws.antt <<'FILE'
-- What is proved of numbers.
use Rattle.vrf_bitio.specs.Reading.{Read, ok}
use Rattle.vrf_bitio.specs.Number.{byte}

-- only laws use it
unfoldable pub value : Read ℕ → ℕ
value x = elim x [ ok a m ↦ a | short ↦ 0 ]

module _ (b : ℕ) (l : List ℕ) where
  pub byte-value : value (byte (b ∷ l)) ≡ b
  unfolding value byte
  byte-value = refl
FILE
    put crates/vrf_bitio/proofs/Examples.antt <<'FILE'
-- Computed.
use Rattle.vrf_bitio.specs.Number.{byte}

unfoldable pub example : List ℕ
example = 7 ∷ []

seven : byte example ≡ ok 7 []
seven = refl
FILE
    put crates/vrf_bitio/src/lib.rt <<'FILE'
// A reader.
ghost use Rattle.vrf_bitio.specs.Number.{two};

fn inner(s: &[u8]) -> u32 {
    0
}

pub fn read_two(s: &[u8], byte: u32) -> u32
    ensures { two s.now ≡ result }
{
    inner(s)
}
FILE
    put crates/vrf_store/specs/Lib.antt <<'FILE'
-- A book in memory.
pub mod Layout
pub mod Inner
FILE
    put crates/vrf_store/specs/Layout.antt <<'FILE'
-- Where the parts of a book are.
abbrev pub header : ℕ
header = 128

abbrev pub need : ℕ → ℕ
need n = header + 4 * n
FILE
    put crates/vrf_store/specs/Inner.antt <<'FILE'
pub mod Rows
FILE
    put crates/vrf_store/specs/Inner/Rows.antt <<'FILE'
-- What the inner functions promise.
use Rattle.vrf_store.specs.Layout

pub record Fits (m : List ℕ) (at : ℕ) : Type 0 where
  pub low : Layout.header ≤ at
  pub high : at ≤ Layout.need (length m)
FILE
    put crates/vrf_store/src/lib.rt <<'FILE'
ghost use Rattle.vrf_store.specs.Inner.Rows.{Fits};

pub fn row(m: &[u8], at: usize) -> u32
    requires { Fits m.now at }
{
    0
}
FILE
    put crates/vrf_schema/specs/Lib.antt <<'FILE'
-- The checked calls.
pub mod Called
pub mod Inner
FILE
    put crates/vrf_schema/proofs/Lib.antt <<'FILE'
pub mod Laws
FILE
    put crates/vrf_schema/specs/Called.antt <<'FILE'
-- What every call promises. And this is another sentence.
use Rattle.vrf_store.specs.Layout
use Rattle.vrf_bitio.specs.Reading.{Read}

module _ (m : List ℕ) where
  abbrev pub Enough : Type 0
  Enough = Layout.need 1 ≤ length m

  pub record Called (r : Read ℕ) : Type 0 where
    pub enough : Enough

-- for demand 1
abbrev pub Refused : List ℕ → Type 0
Refused m = Enough m → ⊥
FILE
    put crates/vrf_schema/specs/Inner.antt <<'FILE'
pub mod CheckedText
FILE
    put crates/vrf_schema/specs/Inner/CheckedText.antt <<'FILE'
-- What a call is checked for.
abbrev pub CheckedText : List ℕ → Type 0
CheckedText m = m ≡ []
FILE
    put crates/vrf_schema/proofs/Laws.antt <<'FILE'
pub mod Demand1
FILE
    put crates/vrf_schema/proofs/Laws/Demand1.antt <<'FILE'
-- Demand 1.
use Rattle.vrf_schema.specs.Called.{Refused}

abbrev pub Empty : List ℕ → Type 0
Empty m = m ≡ []

pub refused-when-empty : Refused []
refused-when-empty = by
  where
    by : Empty [] → Refused []
    by e = refl
FILE
    put crates/vrf_schema/src/lib.rt <<'FILE'
// The checked calls.
pub mod calls;
mod checked;
FILE
    put crates/vrf_schema/src/calls.rt <<'FILE'
ghost use Rattle.vrf_schema.specs.Called.{Called};

pub extern "C" fn call<F: FnOnce(u32) -> u32>(m: &mut [u8], step: F) -> [u8; 4]
    ensures called { Called m.new result }
    ensures long { length m.new ≡ length m.old }
{
    [0; 4]
}
FILE
    put crates/vrf_schema/src/checked.rt <<'FILE'
ghost use Rattle.vrf_schema.specs.Inner.CheckedText.{CheckedText};

// Public, but its module is not.
pub fn check_book(m: &[u8]) -> bool
    ensures { CheckedText m.now }
{
    true
}
FILE
    put tests/believed/theorems.txt <<'FILE'
# what demand 1 says
vrf_schema Laws.Demand1 refused-when-empty # an empty book is refused
FILE
    put README.md <<'FILE'
What must be believed are 30
lines in 4 files.
FILE
    put docs/READING.md <<'FILE'
# Reading
<!-- believed -->
| crate | file | lines | what it says |
|---|---|---|---|
| `vrf_schema` | `Called` | 7 | what a call promises, in our own words |
| `vrf_bitio` | `Reading` | 6 | A reading answers a value with what is left, or nothing |
| `vrf_bitio` | `Number` | 13 | Numbers: bytes and pairs of them |
| `vrf_store` | `Layout` | 4 | Where the parts of a book are |

30 lines in 4 files; for books opened here, without the memory layout (`vrf_words`, `vrf_table`, `vrf_store`), 26 lines in 3 files.
<!-- /believed -->
FILE
}

# What run.py says of the tree beyond its counts, and that it ends with STATUS.
said() { # STATUS
    local out status=0
    out=$("$here/run.py" "$work/tree" 2>&1) || status=$?
    [ "$status" = "$1" ] || echo "run.py ended with $status, not $1"
    grep -vE '^believed: [0-9,]+ lines in [0-9]+ files; ' <<<"$out" || true
}

tried=0
# Asks for the faults of the tree, which are named on standard input.
named() { # WHAT
    diff <(said 1) - || { echo "believed: run.py says something else of '$1'"; exit 1; }
    tried=$((tried + 1))
}

# Changes one file of a new tree, as a sed script says, and asks for its faults.
wrong() { # WHAT FILE SCRIPT
    local file=$work/tree/$2
    tree
    cp "$file" "$work/before"
    sed -i -E "$3" "$file"
    if cmp -s "$file" "$work/before"; then echo "believed: the edit of '$1' changes nothing"; exit 1; fi
    named "$1"
}

tree
diff <(said 0) /dev/null || { echo "believed: run.py finds faults in the tree as it should be"; exit 1; }
# The list is printed as it is there, in its order and in its words.
diff <("$here/run.py" --table "$work/tree") <(sed '1,/<!-- believed -->/d; /<!-- \/believed -->/d' "$work/tree/docs/READING.md") \
    || { echo "believed: run.py --table prints another list"; exit 1; }
# tests/exports has the same crates for exported.
diff <(sed -nE "s/^exported='(.*)'$/\1/p" "$root/tests/exports/run.sh") <(sed -nE "s/^EXPORTED = '(.*)'.split\(\)$/\1/p" "$here/tree.py") \
    || { echo "believed: tests/exports and tests/believed have other exported crates"; exit 1; }

bitio=crates/vrf_bitio schema=crates/vrf_schema store=crates/vrf_store
# An edit of code: one more import.
using() { printf '%s' "s/^ghost use .*/&\nghost use Rattle.$1;/;"; } # PATH

# ---- what must be believed is at the top, and nothing else
wrong 'a contract that names a definition of the laws' $bitio/src/lib.rt \
    "$(using 'vrf_bitio.proofs.Laws.NumberLaws.{value}') s/two s\.now/value (two s.now)/" <<'FAULTS'
believed: vrf_bitio: proofs/Laws/NumberLaws.antt: value: must be believed, and is outside specs/*.antt; read_two (vrf_bitio: src/lib.rt) names it
FAULTS
wrong 'a definition that is made of one of the laws' $schema/specs/Called.antt \
    's/^use .*Layout$/&\nuse Rattle.vrf_schema.proofs.Laws.Demand1 as Other/; s/Enough m →/Other.Empty m →/' <<'FAULTS'
believed: vrf_schema: proofs/Laws/Demand1.antt: Empty: must be believed, and is outside specs/*.antt; Refused (vrf_schema: specs/Called.antt) names it
FAULTS
wrong 'a theorem whose statement names a definition of the laws' $schema/proofs/Laws/Demand1.antt \
    's/^(pub refused-when-empty :)/\1 Empty [] →/' <<'FAULTS'
believed: vrf_schema: proofs/Laws/Demand1.antt: Empty: must be believed, and is outside specs/*.antt; refused-when-empty (vrf_schema: proofs/Laws/Demand1.antt) names it
FAULTS
wrong 'a module that is made public' $schema/src/lib.rt 's/^mod checked/pub mod checked/' <<'FAULTS'
believed: vrf_schema: specs/Inner/CheckedText.antt: CheckedText: must be believed, and is outside specs/*.antt; check_book (vrf_schema: src/checked.rt) names it
FAULTS
wrong 'a method that is public' $bitio/src/lib.rt \
    "$(using 'vrf_bitio.proofs.Examples.{example}')"' $a\impl It {\n pub fn more(self) -> u32\n ensures { example ≡ result }\n { 0 }\n}' <<'FAULTS'
believed: vrf_bitio: proofs/Examples.antt: example: must be believed, and is outside specs/*.antt; more (vrf_bitio: src/lib.rt) names it
FAULTS
wrong 'a theorem that is not on the list' tests/believed/theorems.txt '/refused-when-empty/d' <<'FAULTS'
believed: vrf_schema: specs/Called.antt: Refused: need not be believed: it belongs into specs/Inner or proofs/Laws
FAULTS
wrong 'definitions that only inner contracts name' $schema/specs/Called.antt 's/Layout\.need 1/1/' <<'FAULTS'
believed: vrf_store: specs/Layout.antt: header: need not be believed: it belongs into specs/Inner or proofs/Laws
believed: vrf_store: specs/Layout.antt: need: need not be believed: it belongs into specs/Inner or proofs/Laws
FAULTS
wrong 'a definition that nothing names' $store/specs/Layout.antt '$a\\nabbrev pub spare : ℕ\nspare = 3' <<'FAULTS'
believed: vrf_store: specs/Layout.antt: spare: need not be believed: it belongs into specs/Inner or proofs/Laws
FAULTS
for bound in low base rest; do
    wrong "a definition that is spelled like the bound name $bound" $bitio/specs/Number.antt \
        '$a\\nunfoldable pub '$bound' : ℕ\n'$bound' = 3' <<FAULTS
believed: vrf_bitio: specs/Number.antt: $bound: need not be believed: it belongs into specs/Inner or proofs/Laws
FAULTS
done
wrong 'a definition that is spelled like the parameter of a function' $bitio/src/lib.rt \
    's/\{two\}/{byte, two}/; s/byte: u32/two: u32/; s/two s\.now/byte (two s.now)/' <<'FAULTS'
believed: vrf_bitio: specs/Number.antt: ◌⊕◌: need not be believed: it belongs into specs/Inner or proofs/Laws
believed: vrf_bitio: specs/Number.antt: two: need not be believed: it belongs into specs/Inner or proofs/Laws
believed: vrf_bitio: specs/Reading.antt: ◌>>=◌: need not be believed: it belongs into specs/Inner or proofs/Laws
FAULTS
wrong 'an operator that is not used' $bitio/specs/Number.antt 's/\(low ⊕ high\)/low/' <<'FAULTS'
believed: vrf_bitio: specs/Number.antt: ◌⊕◌: need not be believed: it belongs into specs/Inner or proofs/Laws
FAULTS
wrong 'a definition without its mark' $bitio/specs/Number.antt 's/^unfoldable (pub ◌⊕◌)/\1/' <<'FAULTS'
believed: vrf_bitio: specs/Number.antt: ◌⊕◌: a law among what must be believed
believed: vrf_bitio: specs/Number.antt: two: made of ◌⊕◌, which is marked neither unfoldable nor abbrev
FAULTS

wrong 'a contract that names a definition of the lemmas' $bitio/src/lib.rt \
    "$(using 'vrf_bitio.proofs.Words.{word}') s/≡ result/≡ word/" <<'FAULTS'
believed: vrf_bitio: proofs/Words.antt: word: must be believed, and is outside specs/*.antt; read_two (vrf_bitio: src/lib.rt) names it
FAULTS
wrong 'a definition that is made of one of the lemmas' $bitio/specs/Number.antt \
    '1a\use Rattle.vrf_bitio.proofs.Words
s/= 256 in/= Words.word in/' <<'FAULTS'
believed: vrf_bitio: proofs/Words.antt: word: must be believed, and is outside specs/*.antt; ◌⊕◌ (vrf_bitio: specs/Number.antt) names it
FAULTS
wrong 'a second clause that names a definition of the laws' $schema/src/calls.rt \
    "$(using 'vrf_schema.proofs.Laws.Demand1.{Empty}') s/(ensures long \{) /\1 Empty [] → /" <<'FAULTS'
believed: vrf_schema: proofs/Laws/Demand1.antt: Empty: must be believed, and is outside specs/*.antt; call (vrf_schema: src/calls.rt) names it
FAULTS
wrong 'a clause with a star that names a definition of the laws' $schema/src/calls.rt \
    "$(using 'vrf_schema.proofs.Laws.Demand1.{Empty}') s/ensures long \{ /ensures* { ⌜ Empty [] ⌝ ∗ /" <<'FAULTS'
believed: vrf_schema: proofs/Laws/Demand1.antt: Empty: must be believed, and is outside specs/*.antt; call (vrf_schema: src/calls.rt) names it
FAULTS
wrong 'an import in a block of methods' $bitio/src/lib.rt \
    '$a\impl It {\n    ghost use Rattle.vrf_bitio.proofs.Examples.{example};\n    pub fn more(self) -> u32\n    ensures { example ≡ result }\n    { 0 }\n}' <<'FAULTS'
believed: vrf_bitio: proofs/Examples.antt: example: must be believed, and is outside specs/*.antt; more (vrf_bitio: src/lib.rt) names it
FAULTS
wrong 'a function below methods without a body' $bitio/src/lib.rt \
    "$(using 'vrf_bitio.proofs.Examples.{example}')"' $a\pub trait It {\n    fn more(self) -> [u8; 4];\n    fn one(self) -> u32\n        ensures { two [] ≡ result };\n}\n\npub fn below() -> u32\n    ensures { example ≡ result }\n{\n    0\n}' <<'FAULTS'
believed: vrf_bitio: proofs/Examples.antt: example: must be believed, and is outside specs/*.antt; below (vrf_bitio: src/lib.rt) names it
FAULTS

# ---- laws
wrong 'a law at the top' $bitio/specs/Number.antt '$a\\npub two-two : two ≡ two\ntwo-two = refl' <<'FAULTS'
believed: vrf_bitio: specs/Number.antt: two-two: a law among what must be believed
FAULTS
wrong 'a law in a block at the top' $schema/specs/Called.antt 's/^-- for demand 1/  same : Enough ≡ Enough\n  same = refl\n\n&/' <<'FAULTS'
believed: vrf_schema: specs/Called.antt: same: a law among what must be believed
FAULTS
wrong 'a law among inner contracts' $store/specs/Inner/Rows.antt '$a\\nlow : {n : ℕ} → n ≡ n\nlow = refl' <<'FAULTS'
believed: vrf_store: specs/Inner/Rows.antt: low: a law among the contracts of inner functions
FAULTS

# ---- contracts of inner functions
wrong 'an inner contract that names a definition of the laws' $schema/src/checked.rt \
    "$(using 'vrf_schema.proofs.Laws.Demand1.{Empty}') s/CheckedText m/Empty [] × CheckedText m/" <<'FAULTS'
believed: vrf_schema: proofs/Laws/Demand1.antt: Empty: belongs into specs/Inner; check_book (vrf_schema: src/checked.rt) names it
FAULTS
wrong 'an inner definition that is made of one of the laws' $schema/specs/Inner/CheckedText.antt \
    's/^abbrev/use Rattle.vrf_schema.proofs.Laws.Demand1.{Empty}\n\n&/; s/= m ≡ \[\]/= Empty m/' <<'FAULTS'
believed: vrf_schema: proofs/Laws/Demand1.antt: Empty: belongs into specs/Inner; CheckedText (vrf_schema: specs/Inner/CheckedText.antt) names it
FAULTS
wrong 'an inner definition that no contract reaches' $store/specs/Inner/Rows.antt '$a\\nabbrev pub spare : ℕ\nspare = 3' <<'FAULTS'
believed: vrf_store: specs/Inner/Rows.antt: spare: no contract reaches it: it belongs into proofs/Laws
FAULTS
wrong 'an inner contract that names an example' $store/src/lib.rt \
    "$(using 'vrf_bitio.proofs.Examples.{example}') s/m\.now/example/" <<'FAULTS'
believed: vrf_bitio: proofs/Examples.antt: example: belongs into specs/Inner; row (vrf_store: src/lib.rt) names it
FAULTS
wrong 'an inner contract that names a definition of the lemmas' $store/src/lib.rt \
    "$(using 'vrf_bitio.proofs.Words as Lemmas') s/m\.now/Lemmas.word/" <<'FAULTS'
believed: vrf_bitio: proofs/Words.antt: word: belongs into specs/Inner; row (vrf_store: src/lib.rt) names it
FAULTS
wrong 'an invariant that names a definition of the laws' $bitio/src/lib.rt \
    "$(using 'vrf_bitio.proofs.Laws.NumberLaws.{value}') s/inner\(s\)/while true invariant { value r ≡ 0 } { }/" <<'FAULTS'
believed: vrf_bitio: proofs/Laws/NumberLaws.antt: value: belongs into specs/Inner; read_two (vrf_bitio: src/lib.rt) names it
FAULTS

# ---- what cannot be read
wrong 'an import of what is not there' $schema/specs/Called.antt 's/\{Read\}/{Read, Wrote}/' <<'FAULTS'
believed: vrf_schema: specs/Called.antt: there is no Wrote in Rattle.vrf_bitio.specs.Reading
FAULTS
wrong 'an import of a crate that is not there' $schema/specs/Called.antt 's/vrf_store\.specs/vrf_stored.specs/; s/Layout.need 1/1/' <<'FAULTS'
believed: vrf_schema: specs/Called.antt: there is no Rattle.vrf_stored.specs.Layout
believed: vrf_store: specs/Layout.antt: header: need not be believed: it belongs into specs/Inner or proofs/Laws
believed: vrf_store: specs/Layout.antt: need: need not be believed: it belongs into specs/Inner or proofs/Laws
FAULTS
wrong 'a contract over what is not there' $schema/src/calls.rt 's/specs\.Called\.\{/specs.Calls.{/' <<'FAULTS'
believed: vrf_schema: src/calls.rt: there is no Called in Rattle.vrf_schema.specs.Calls
believed: vrf_schema: specs/Called.antt: Called: need not be believed: it belongs into specs/Inner or proofs/Laws
FAULTS
wrong 'a theorem that has moved' tests/believed/theorems.txt 's/Laws\.Demand1/Laws.Demand/' <<'FAULTS'
believed: tests/believed/theorems.txt:2: there is no refused-when-empty in Laws.Demand of vrf_schema; it is in Laws.Demand1
believed: vrf_schema: specs/Called.antt: Refused: need not be believed: it belongs into specs/Inner or proofs/Laws
FAULTS
wrong 'a form that is not known' $store/specs/Layout.antt '$a\\nopen Pointed it using (point)' <<'FAULTS'
believed: vrf_store: specs/Layout.antt: line 8: tests/believed does not read `open`: open Pointed it using (point)
FAULTS
wrong 'a ghost member' $store/src/lib.rt '$a\pub struct Row {\n    at: u32,\n    ghost invariant { at ≤ 4 },\n}' <<'FAULTS'
believed: vrf_store: src/lib.rt: line 10: tests/believed does not read `ghost invariant`
FAULTS
wrong 'a declaration in Lib.antt' $store/specs/Lib.antt '$a\\nabbrev pub spare : ℕ\nspare = 3' <<'FAULTS'
believed: vrf_store: specs/Lib.antt: spare: Lib.antt lists modules and declares nothing
FAULTS
tree
put $store/specs/More/Layout.antt <<'FILE'
abbrev pub spare : ℕ
spare = 3
FILE
named 'a file in a folder of its own' <<'FAULTS'
believed: vrf_store: specs/More/Layout.antt: spare: a file is in specs/, specs/Inner, proofs/Laws or proofs/Examples
FAULTS
tree
mkdir "$work/tree/$bitio/specs/Laws"
mv "$work/tree/$bitio/proofs/Laws/NumberLaws.antt" "$work/tree/$bitio/specs/Laws"
named 'laws in specs/' <<'FAULTS'
believed: vrf_bitio: specs/Laws/NumberLaws.antt: value: a file is in specs/, specs/Inner, proofs/Laws or proofs/Examples
believed: vrf_bitio: specs/Laws/NumberLaws.antt: byte-value: a file is in specs/, specs/Inner, proofs/Laws or proofs/Examples
FAULTS

# ---- the lists
wrong 'a line more' $store/specs/Layout.antt 's/^need n = /&\n    /' <<'FAULTS'
believed: docs/READING.md: vrf_store: Layout has 5 lines, not 4
believed: docs/READING.md: it does not say '31 lines in 4 files'
believed: docs/READING.md: it says '30 lines in 4 files'
believed: README.md: it does not say '31 lines in 4 files'
believed: README.md: it says '30 lines in 4 files'
FAULTS
wrong 'a row that is not there' docs/READING.md '/Layout/d' <<'FAULTS'
believed: docs/READING.md: vrf_store: Layout is not on the list
FAULTS
wrong 'a row too many' docs/READING.md 's/^(\| `vrf_store` \| )`Layout`(.*)$/&\n\1`Store`\2/' <<'FAULTS'
believed: docs/READING.md: vrf_store: Store is on the list, and has nothing that must be believed
FAULTS
wrong 'a row that is there twice' docs/READING.md 's/^.*Layout.*$/&\n&/' <<'FAULTS'
believed: docs/READING.md: vrf_store: Layout is on the list twice
FAULTS
wrong 'a wrong sum in docs/READING.md' docs/READING.md 's/26 lines/25 lines/' <<'FAULTS'
believed: docs/READING.md: it says '25 lines in 3 files'
FAULTS
wrong 'no list' docs/READING.md '/<!-- believed -->/d' <<'FAULTS'
believed: docs/READING.md: there is no list between <!-- believed --> and <!-- /believed -->
FAULTS
wrong 'no sum in README.md' README.md '1d' <<'FAULTS'
believed: README.md: it does not say '30 lines in 4 files'
FAULTS
echo "believed: run.py passes the tree as it should be and names the fault in each of $tried wrong trees"
