#!/usr/bin/env bash
# Runs held.sh on what rt ci can say of an edit, and places.py on a small tree.
set -euo pipefail
here=$(cd "$(dirname "$0")" && pwd)
scratch=$(mktemp -d)
trap 'rm -rf "$scratch"' EXIT

# ---- held.sh: each line that rt ci can say of an edit
said() { # STATUS: standard input is what rt ci prints; prints what held.sh says of its own
    local out status=0
    out=$("$here/held.sh") || status=$?
    [ "$status" = "$1" ] || echo "held.sh ended with $status, not $1"
    grep -v '^rt: ' <<<"$out"
}
held=0
holds() { # WHAT STATUS WANTED: standard input is what rt ci prints
    diff <(said "$2") <(printf '%s\n' "$3") || { echo "must-fail: held.sh says something else of '$1'"; exit 1; }
    held=$((held + 1))
}
ok='rt: ok; handles allowed: none; must-fail edits: 2 refused; every proof and must-fail edit was done in this run'
law='rt: must-fail some/laws.edit: refused, as it must be: ./proofs/Laws/Bits.antt:5:12: error: `laws`: the two types differ'
holds 'two edits that hold' 0 'held: 2 must-fail edits hold, 0 do not
5 passed, 0 failed' <<RT
rt: must-fail some/programs.edit: refused, as it must be
$law
$ok
5 passed, 0 failed
RT
holds 'a proof that does not fit' 1 'NOT HELD: some/programs.edit: only a proof file does not fit
held: 1 must-fail edits hold, 1 do not
4 passed, 1 failed' <<RT
rt: must-fail some/programs.edit: refused, as it must be (only because a proof file names what the edit took away, so this says little of the contract: change a value and keep the names): ./proofs/add/Answers.antt:7:8: error: \`returns\`: record \`Start\` has no field \`sum\`
$law
$ok
5 passed, 0 failed
RT
holds 'a proof that waits for one that does not fit' 1 'NOT HELD: some/programs.edit: only a proof file does not fit
held: 1 must-fail edits hold, 1 do not
4 passed, 1 failed' <<RT
rt: must-fail some/programs.edit: refused, as it must be: ./proofs/add/Answers.antt:9:5: error: 1 declaration that depends on \`returns\`, which was rejected, was not checked: add_spec
$law
$ok
5 passed, 0 failed
RT
holds 'a limit of the prover' 1 'NOT HELD: some/programs.edit: the prover gave no verdict
held: 1 must-fail edits hold, 1 do not
4 passed, 1 failed' <<RT
rt: must-fail some/programs.edit: refused, as it must be (only by a limit of the prover, which gave no verdict, so this says less of the contract: choose a change that it refuses sooner): ./proofs/add/Answers.antt:7:8: error: antt ran out of stack
$law
${ok/2 refused/2 refused, 1 of them only by a limit}
5 passed, 0 failed
RT
holds 'a bad edit' 1 'NOT HELD: some/programs.edit: a bad edit
held: 1 must-fail edits hold, 1 do not
4 passed, 1 failed' <<RT
rt: must-fail some/programs.edit: BAD EDIT: an 'old:' text is in src/lib.rt 0 times, and not once
$law
rt: note: bad must-fail edits, as told above: 1. They fail nothing here, and say nothing of a contract: mend or remove them
${ok/2 refused/1 refused, 1 bad}
4 passed, 0 failed
RT
holds 'an edit in a folder' 1 'NOT HELD: crates/some/must-fail/more/programs.edit: a bad edit
held: 1 must-fail edits hold, 1 do not
4 passed, 1 failed' <<RT
rt: crates/some/must-fail/more/programs.edit: BAD EDIT: an edit stands right in must-fail/, and its name is of letters, digits, _, - and . and ends in .edit (or .md, if it is only to be read)
$law
${ok/2 refused/1 refused, 1 bad}
4 passed, 0 failed
RT
holds 'bad edits that are only counted' 1 'NOT HELD: rt says 12 bad edits
held: 1 must-fail edits hold, 12 do not
4 passed, 12 failed' <<RT
$law
${ok/2 refused/1 refused, 12 bad}
4 passed, 0 failed
RT
holds 'a pass without its line' 1 "NOT HELD: rt passes, and does not say 'rt: ok'
held: 1 must-fail edits hold, 1 do not
4 passed, 1 failed" <<RT
$law
4 passed, 0 failed
RT
# What rt ci itself fails is in its last line, and in its status.
holds 'a failed run' 0 'held: 1 must-fail edits hold, 0 do not
4 passed, 2 failed' <<RT
rt: must-fail some/programs.edit: NOT REFUSED: the crate is still proved with this edit (one that means the same as before cannot be refused: remove it)
$law
rt: more NOT PROVED
rt: FAILED: some/programs.edit more
4 passed, 2 failed
RT

# ---- places.py: a crate with functions, laws and a file of laws in a folder
put() { # FILE: standard input becomes a file of the tree
    mkdir -p "$(dirname "$scratch/tree/$1")"
    cat >"$scratch/tree/$1"
}
tree() {
    rm -rf "$scratch/tree"
    put crates.txt <<<'some:'
    put crates/some/src/lib.rt <<'FILE'
pub fn by_itself(a: u8) -> u8 {
    a + 1
}

fn waits(a: u8) -> u8 {
    by_itself(a) + 2
}

impl Cursor {
    pub fn misfit(self) -> u8 {
        self.pos
    }
}

impl<'a> iter::Iterator for Cursor<'a> {
    fn next(&mut self) -> Option<u8> {
        None
    }
}
FILE
    put crates/some/src/inner.rt <<'FILE'
pub extern "C" fn by_hand(a: u8) -> u8 {
    a + 3
}

fn fine() {
}
FILE
    put crates/some/proofs/Laws.antt <<'FILE'
pub law : 1 ≡ 1
law = refl

law-2 : 1 ≡ 1
law-2 = law

pub record Laws : Type 0 where
  pub first : 1 ≡ 1
  pub second : 2 ≡ 2
  held : 3 ≡ 3

laws = record {
  first = refl;
  second = refl;
  held = refl;
}
FILE
    put crates/some/proofs/Laws/Groups/Index.antt <"$scratch/tree/crates/some/proofs/Laws.antt"
    put crates/some/proofs/Fine.antt <<'FILE'
law : 1 ≡ 1
law = refl
FILE
    put crates/some/proofs/Laws/Index.antt <<'FILE'
law : 1 ≡ 1
law = refl
FILE
    put crates/some/must-fail/good.edit <<'FILE'
# what is wrong
refuses: inner::by_hand
refuses: by_itself
refuses: CursorIterator::next
refuses: proofs/Laws.antt
refuses: proofs/Laws.antt law
refuses: proofs/Laws.antt second
refuses: proofs/Laws/Groups/Index.antt
refuses: proofs/Laws/Groups/Index.antt law
refuses: proofs/Laws/Groups/Index.antt second
file: src/lib.rt
old: a + 1
new: a + 4
FILE
}

# What places.py says of the tree, and that it ends with STATUS.
placed() { # STATUS ARGUMENTS
    local out status=0
    out=$(PATH="$scratch/bin:$PATH" TMPDIR="$scratch/made" "$here/places.py" --root "$scratch/tree" "${@:2}") || status=$?
    [ "$status" = "$1" ] || echo "places.py ended with $status, not $1"
    printf '%s\n' "$out"
}
tree
diff <(placed 0) <(echo 'places: 9 places in 1 edits: 0 faults') || { echo "must-fail: places.py finds faults in the tree as it should be"; exit 1; }

wrong=0
# Changes the edit by a sed script. places.py must name the faults that are given on standard input.
wrongs() { # WHAT SCRIPT
    tree
    sed -i -E "$2" "$scratch/tree/crates/some/must-fail/good.edit"
    diff <(placed 1 | sed '$d') - || { echo "must-fail: places.py says something else of '$1'"; exit 1; }
    wrong=$((wrong + 1))
}
wrongs 'an old text that is not there' 's/^old: .*/old: a + 5/' <<'FAULTS'
places: some/good: line 13: its old text is in src/lib.rt 0 times, not once
FAULTS
wrongs 'an old text that is there more than once' 's/^old: .*/old: a/' <<'FAULTS'
places: some/good: line 13: its old text is in src/lib.rt 8 times, not once
FAULTS
wrongs 'an edit that changes nothing' 's/^new: .*/new: a + 1/' <<'FAULTS'
places: some/good: line 13: its new text is the old one
FAULTS
wrongs 'a place for which nothing is changed' '$a\refuses: waits' <<'FAULTS'
places: some/good: it changes nothing for waits
FAULTS
wrongs 'an edit without a place' '/^refuses/d' <<'FAULTS'
places: some/good: it does not say what it refuses
FAULTS
wrongs 'a line that is not read' '1s/# //' <<'FAULTS'
places: some/good: line 1: it begins with none of '#', 'refuses: ', 'file: ', 'old: ', 'new: '
FAULTS
wrongs 'a file that is not there' 's/^file: .*/file: src\/more.rt/' <<'FAULTS'
places: some/good: line 11: there is no src/more.rt
FAULTS
wrongs 'a function that is not there' 's/^(refuses: )by_itself/\1inner::by_itself/' <<'FAULTS'
places: some/good: line 3: there is no inner::by_itself
FAULTS
wrongs 'a function without its type' 's/^(refuses: )by_itself/\1misfit/' <<'FAULTS'
places: some/good: line 3: there is no misfit
FAULTS
wrongs 'a function of a trait without the trait' 's/^(refuses: )CursorIterator/\1Cursor/' <<'FAULTS'
places: some/good: line 4: there is no Cursor::next
FAULTS
wrongs 'a file of laws that is not there' '5s/Laws/Law/' <<'FAULTS'
places: some/good: line 5: there is no proofs/Law.antt
FAULTS
wrongs 'a law that is not there' '6s/law$/lawful/' <<'FAULTS'
places: some/good: line 6: there is no proofs/Laws.antt lawful
FAULTS

# ---- places.py --check: rt is a script here, which prints a log that has every kind of refusal. Functions: three by a fact, one because it
# calls another one, one because its proof was written for another program. Laws: one law and one field of a record by a fact, one law
# because it uses another one. A file in a folder also has a law and a field that are refused by a fact.
mkdir "$scratch/bin" "$scratch/made"
cat >"$scratch/bin/rt" <<RT
#!/bin/sh
[ "\$*" = check ] || exit 2
case \$PWD in */crates/some) ;; *) exit 2 ;; esac
if cmp -s src/lib.rt '$scratch/tree/crates/some/src/lib.rt'; then echo 'logic=proved'; exit 0; fi
cat '$scratch/log'
exit 1
RT
chmod +x "$scratch/bin/rt"
cat >"$scratch/log" <<'LOG'
./proofs/inner/by_hand/Answers.antt:1:2: error: `returns`: the two types differ
./proofs/inner/by_hand/Answers.antt:3:4: error: 1 declaration that depends on `returns`, which was rejected, was not checked: by_hand_spec
./proofs/waits/Proof.antt:5:6: error: 2 declarations that depend on `close`, which was not admitted, were not checked: waits_spec, close-2
./proofs/Cursor/misfit/Answers.antt:7:8: error: `add`: record `Rattle.some.proofs.Cursor.misfit.Lts.Start` has no field `sum`
  the fields that can be named here are `before`, `args`
./proofs/Cursor/misfit/Answers.antt:9:9: error: `returns`: the two types differ
./proofs/Laws.antt:2:7: error: `law`: the two types differ
./proofs/Laws.antt:5:9: error: 1 declaration that depends on `law`, which was rejected, was not checked: law-2
./proofs/Laws.antt:14:12: error: `laws`: the two types differ
./proofs/Laws/Groups/Index.antt:2:7: error: `law`: the two types differ
./proofs/Laws/Groups/Index.antt:14:12: error: `laws`: the two types differ
fn some::by_itself: no proof: expected answers in ./proofs/by_itself/Answers.antt; `search` did not prove `returns`
fn some::CursorIterator::next: no proof: expected answers in ./proofs/CursorIterator/next/Answers.antt; `search` did not prove `returns`
fn some::waits: not proved; it calls `some::by_itself`, which is not proved
fn some::inner::by_hand: not proved
fn some::inner::fine: proved
fn some::Cursor::misfit: not proved
logic=not-proved
LOG
tree
diff <(placed 0 --check some | sed '/chose/d') - <<'WANTED' || { echo "must-fail: places.py does not find the facts that fail"; exit 1; }
places: some/good: a fact fails in 9 of 9 places
places: 9 places in 1 edits: 0 faults
WANTED
rm "$scratch/tree/crates/some/must-fail/good.edit"
put crates/some/must-fail/bad.edit <<'FILE'
refuses: by_itself
refuses: waits
refuses: Cursor::misfit
refuses: inner::fine
refuses: proofs/Fine.antt
refuses: proofs/Laws.antt held
refuses: proofs/Laws.antt law-2
refuses: proofs/Laws.antt first
refuses: proofs/Fine.antt law
refuses: proofs/Laws/Index.antt
refuses: proofs/Laws/Index.antt law
refuses: proofs/Laws/Groups/Index.antt first
file: src/lib.rt
old: a + 1
new: a + 4
FILE
diff <(placed 1 --check some/bad | sed -E 's/: [^ ]*\.log$//') - <<'WANTED' || { echo "must-fail: places.py finds facts where none fail"; exit 1; }
NOT HELD: some/bad: no fact fails in waits
NOT HELD: some/bad: no fact fails in Cursor::misfit
NOT HELD: some/bad: no fact fails in inner::fine
NOT HELD: some/bad: no fact fails in proofs/Fine.antt
NOT HELD: some/bad: no fact fails in proofs/Laws.antt held
NOT HELD: some/bad: no fact fails in proofs/Laws.antt law-2
NOT HELD: some/bad: no fact fails in proofs/Laws.antt first
NOT HELD: some/bad: no fact fails in proofs/Fine.antt law
NOT HELD: some/bad: no fact fails in proofs/Laws/Index.antt
NOT HELD: some/bad: no fact fails in proofs/Laws/Index.antt law
NOT HELD: some/bad: no fact fails in proofs/Laws/Groups/Index.antt first
places: some/bad: a fact fails in 1 of 12 places
places: 12 places in 1 edits: 11 faults
WANTED
echo "must-fail: held.sh reads $held runs rightly; places.py names the fault in $wrong wrong edits, and finds the facts that fail and nothing else"
