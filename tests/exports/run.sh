#!/usr/bin/env bash
# Checks the exported functions: each public function of an exported crate has a contract (`ensures`) and may be called on any input (no
# `requires`, and no type whose value a caller makes and must prove a fact of). Each `impl` of a trait there says what the trait's functions
# give. For each call, exactly one function of vrf_schema has its contract, as `CallContract` or
# `LookupContract`: so the lists of calls in demand 3 are complete. A call is a constructor of `Call`, or of one of the types of lookups
# that `Lookup` names. With a folder as its argument it checks that tree; `selftest.sh` uses this.
set -euo pipefail
export LC_ALL=C
shopt -s globstar nullglob
here=$(cd "$(dirname "$0")" && pwd)
cd "${1:-$here/../..}"

# Every crate of crates.txt is on one of these two lists.
exported='vrf_bitio vrf_text vrf_path vrf_names vrf_schema vrf_tally vrf_host'
inner='vrf_words vrf_model vrf_table vrf_store vrf_check vrf_cache vrf_reader vrf_writer vrf_checkpoint vrf_script vrf_script_calls vrf_replay
vrf_replay_c vrf_input replay_io replay vectors corrupt tally bench_loops'
# The crate whose functions are the calls, and the file that lists the calls.
calls_crate=vrf_schema
calls_file=crates/vrf_model/specs/Calls.antt

faults=0
fault() { echo "exports: $*"; faults=$((faults + 1)); }
among() { [[ " ${2//$'\n'/ } " == *" $1 "* ]]; } # WORD WORDS

# The constructors of a data type, each with the type of its first argument.
constructors() { # TYPE
    awk -v type="$1" '$0 ~ "^pub data " type " "{on=1;next} /^[^ ]/{on=0} on && $1!="--"{for(i=1;i<NF && $i!=":";i++) names[++n]=$i; for(j=1;j<=n;j++) print names[j], $(i+1); n=0}' "$calls_file"
}
calls= wrappers=
while read -r call first; do
    if [ "$first" != Lookup ]; then
        calls+=" $call"
    fi
done < <(constructors Call)
[ -n "$calls" ] || fault "no constructor of Call was found in $calls_file"
while read -r wrapper kind; do
    wrappers+="${wrappers:+|}$wrapper"
    lookups=$(constructors "$kind" | cut -d' ' -f1)
    [ -n "$lookups" ] || fault "no constructor of $kind was found in $calls_file"
    calls+=" $lookups"
done < <(constructors Lookup)
[ -n "$wrappers" ] || fault "no constructor of Lookup was found in $calls_file"
# For each call, the functions that have its contract, one to a line.
declare -A functions=()

# Adds a function to the calls that its `ensures` names.
add_function() { # FILE FUNCTION ENSURES
    local rest=$3 call contract="(^|[^A-Za-z0-9_-])(Call|Lookup)Contract +\\(? *(($wrappers) +\\(? *)?([^ ()]*)(.*)"
    while [[ $rest =~ $contract ]]; do
        call=${BASH_REMATCH[5]} rest=${BASH_REMATCH[6]}
        among "$call" "$calls" || fault "$calls_crate: $1: $2 has the contract of '$call', which is no call"
        functions[$call]+="$1: $2"$'\n'
    done
}

# Checks one crate, and adds its functions to the total.
total=0
check_crate() { # CRATE
    local file name requires ensures n=0
    while IFS=$'\t' read -r file name requires ensures; do
        file=${file#crates/"$1"/}
        if [[ $name = pub\ * ]]; then
            fault "$1: $file: a $name exports functions that are not checked here"
            continue
        fi
        if [[ $name = impl\ * || $name = struct\ * ]]; then
            [ "$requires" = - ] || fault "$1: $file: $name has a ghost field and a public field"
            [ "$ensures" != - ] || fault "$1: $file: $name says nothing of the trait's functions"
            continue
        fi
        n=$((n + 1))
        [ "$requires" = - ] || fault "$1: $file: $name has a requires"
        [ "$ensures" != - ] || fault "$1: $file: $name has no ensures"
        if [ "$1" = "$calls_crate" ]; then add_function "$file" "$name" "$ensures"; fi
    done < <(awk -f "$here/functions.awk" crates/"$1"/src/**/*.rt </dev/null)
    [ "$n" != 0 ] || fault "$1: no public function was found"
    echo "exports: $1: functions: $n"
    total=$((total + n))
}

crates=0
# A line is 'NAME: LIBRARY ..'; between the name and the colon there can be words, such as 'staticlib'.
for crate in $(sed -E 's/#.*//; s/:.*//; s/^([^ ]+) .*/\1/' crates.txt); do
    if among "$crate" "$exported"; then
        check_crate "$crate"
        crates=$((crates + 1))
    elif ! among "$crate" "$inner"; then
        fault "$crate: on neither list of tests/exports/run.sh"
    fi
done

for call in $calls; do
    mapfile -t found < <(printf '%s' "${functions[$call]-}" | sort -u)
    [ "${#found[@]}" = 1 ] || fault "$calls_crate: ${#found[@]} functions have the contract of $call${found[*]:+$(printf ', %s' "${found[@]}")}"
done

echo "exports: checked $total functions of $crates exported crates and $(wc -w <<<"$calls") calls: $faults faults"
[ "$faults" = 0 ]
