#!/usr/bin/env bash
# Runs run.sh on copies of the sources: on an unchanged one, and on copies with one fault each, which run.sh must name.
set -euo pipefail
here=$(cd "$(dirname "$0")" && pwd)
root=$(cd "$here/../.." && pwd)
scratch=$(mktemp -d)
trap 'rm -rf "$scratch"' EXIT

copy() {
    local crate
    rm -rf "$scratch/tree"
    mkdir -p "$scratch/tree/crates/vrf_model/specs"
    cp "$root/crates.txt" "$scratch/tree"
    cp "$root/crates/vrf_model/specs/Calls.antt" "$scratch/tree/crates/vrf_model/specs"
    for crate in "$root"/crates/*/; do
        crate=$(basename "$crate")
        mkdir -p "$scratch/tree/crates/$crate"
        cp -r "$root/crates/$crate/src" "$scratch/tree/crates/$crate"
    done
}

# Prints what run.sh prints for the copy, without its counts, and one more line if its exit status is not STATUS.
printed() { # STATUS
    local out status=0
    out=$("$here/run.sh" "$scratch/tree") || status=$?
    [ "$status" = "$1" ] || echo "run.sh ended with $status, not $1"
    grep -vE '^exports: [a-z_]+: functions: [0-9]+$|^exports: checked ' <<<"$out" || true
}

tried=0
# Changes one file of a new copy with a sed script. run.sh must print the faults that are given on standard input.
wrong() { # WHAT FILE SCRIPT
    local file=$scratch/tree/$2
    copy
    sed -i -E "$3" "$file"
    if cmp -s "$file" "$root/$2"; then echo "exports: the edit of '$1' changes nothing"; exit 1; fi
    diff <(printed 1) - || { echo "exports: run.sh prints other faults for '$1'"; exit 1; }
    tried=$((tried + 1))
}

copy
diff <(printed 0) /dev/null || { echo "exports: run.sh finds faults in the unchanged copy"; exit 1; }

lookups=crates/vrf_schema/src/lookups.rt
wrong 'a lookup with a requires' $lookups '/^pub fn get_group_by_index\(/a\    requires { 1 ≤ index }' <<'FAULTS'
exports: vrf_schema: src/lookups.rt: get_group_by_index has a requires
FAULTS
wrong 'a lookup with a requires that has a name' $lookups '/^pub fn get_group_by_index\(/a\    requires low { 1 ≤ index }' <<'FAULTS'
exports: vrf_schema: src/lookups.rt: get_group_by_index has a requires
FAULTS
wrong 'a lookup with a requires that has a star' $lookups '/^pub fn get_group_by_index\(/a\    requires* low { ⌜ 1 ≤ index ⌝ }' <<'FAULTS'
exports: vrf_schema: src/lookups.rt: get_group_by_index has a requires
FAULTS
wrong 'a lookup without ensures' $lookups '/^pub fn get_field\(/,/^\{/{/^pub fn|^\{/!d}' <<'FAULTS'
exports: vrf_schema: src/lookups.rt: get_field has no ensures
exports: vrf_schema: 0 functions have the contract of get_field
FAULTS
wrong 'a contract that is a comment' $lookups '/^pub fn get_counters\(/,/^\{/s|^( *)ensures|\1// ensures|' <<'FAULTS'
exports: vrf_schema: src/lookups.rt: get_counters has no ensures
FAULTS
wrong 'a function without a contract' crates/vrf_path/src/lib.rt '$a\pub fn more(x: u8) -> u8 {\n    x\n}' <<'FAULTS'
exports: vrf_path: src/lib.rt: more has no ensures
FAULTS
wrong 'an exported C function without a contract' crates/vrf_names/src/lib.rt '$a\pub extern "C" fn more(x: u8) -> u8 {\n    x\n}' <<'FAULTS'
exports: vrf_names: src/lib.rt: more has no ensures
FAULTS
wrong 'a method with a requires' crates/vrf_bitio/src/lib.rt '/^ +pub fn read_bit\(/a\        requires { 1 ≤ self.old.count }' <<'FAULTS'
exports: vrf_bitio: src/lib.rt: BitReader::read_bit has a requires
FAULTS
wrong 'a function below one without a body' crates/vrf_names/src/lib.rt '$a\trait It {\n    fn one(self) -> [u8; 4]\n        ensures { length result ≡ 4 };\n}\n\npub fn more(x: [u8; 4]) -> u8 {\n    x[0]\n}' <<'FAULTS'
exports: vrf_names: src/lib.rt: more has no ensures
FAULTS
wrong 'a trait, whose methods have no pub' crates/vrf_names/src/lib.rt '$a\pub trait It {\n    fn one(self) -> u8;\n}' <<'FAULTS'
exports: vrf_names: src/lib.rt: a pub trait exports functions that are not checked here
FAULTS
wrong 'an impl of a trait without a promise' crates/vrf_path/src/lib.rt '/^ +ghost (next_gives|remaining) = /d' <<'FAULTS'
exports: vrf_path: src/lib.rt: impl for Stems says nothing of the trait's functions
FAULTS
wrong 'an impl of a trait without a promise, after a struct with a fact' crates/vrf_bitio/src/lib.rt '/^ +ghost output = /d' <<'FAULTS'
exports: vrf_bitio: src/lib.rt: impl for Refusal says nothing of the trait's functions
FAULTS
wrong 'a type whose callers must prove a fact' crates/vrf_names/src/lib.rt '$a\pub struct Few {\n    pub n: u32,\n    ghost few: { n ≤ 4 },\n}\n\npub fn of_few(f: Few) -> u32\n    ensures { result ≡ f.n }\n{\n    f.n\n}' <<'FAULTS'
exports: vrf_names: src/lib.rt: struct Few has a ghost field and a public field
FAULTS
wrong 'a function that is exported again' crates/vrf_text/src/lib.rt '$a\pub use vrf_bitio::bits_at;' <<'FAULTS'
exports: vrf_text: src/lib.rt: a pub use exports functions that are not checked here
FAULTS
wrong 'a call with two functions' crates/vrf_schema/src/calls.rt '$a\pub fn clear_again(book: &mut [u8]) -> Acted\n    ensures { CallContract clear_book book.old book.new (acted_of result) }\n{\n    clear(book)\n}' <<'FAULTS'
exports: vrf_schema: 2 functions have the contract of clear_book, src/calls.rt: clear, src/calls.rt: clear_again
FAULTS
wrong 'a second clause with the contract of another call' crates/vrf_schema/src/calls.rt '/^pub fn clear\(/,/^\{/s/^    ensures (.*)$/    ensures clears \1\n    ensures reads { LookupContract (of_groups (get_field 0 0)) book.new (found_of result) }/' <<'FAULTS'
exports: vrf_schema: 2 functions have the contract of get_field, src/calls.rt: clear, src/lookups.rt: get_field
FAULTS
wrong 'a call without a function' crates/vrf_model/specs/Calls.antt '/^pub data Call /a\  get_nothing : ℕ → Call' <<'FAULTS'
exports: vrf_schema: 0 functions have the contract of get_nothing
FAULTS
wrong 'a lookup without a function' crates/vrf_model/specs/Calls.antt '/^pub data GuidLookup /a\  get_nothing : ℕ → GuidLookup' <<'FAULTS'
exports: vrf_schema: 0 functions have the contract of get_nothing
FAULTS
wrong 'a type of lookups without constructors' crates/vrf_model/specs/Calls.antt '/^pub data Lookup /a\  of_nothing : NoLookup → Lookup' <<'FAULTS'
exports: no constructor of NoLookup was found in crates/vrf_model/specs/Calls.antt
FAULTS
wrong 'a function of no call' $lookups 's/LookupContract \(of_groups \(get_field /LookupContract (of_groups (get_fields /' <<'FAULTS'
exports: vrf_schema: src/lookups.rt: get_field has the contract of 'get_fields', which is no call
exports: vrf_schema: 0 functions have the contract of get_field
FAULTS
wrong 'a crate on neither list' crates.txt '$a\vrf_more: vrf_bitio' <<'FAULTS'
exports: vrf_more: on neither list of tests/exports/run.sh
FAULTS
wrong 'a static library on neither list' crates.txt '$a\vrf_more staticlib: vrf_bitio' <<'FAULTS'
exports: vrf_more: on neither list of tests/exports/run.sh
FAULTS
echo "exports: run.sh accepts the sources and names the fault in each of $tried wrong copies"
